/* What the path check says of a path of clause numbers that another tool gives for a pair. */
#ifndef JUDGE_PATH_H
#define JUDGE_PATH_H

#include "calls.h"

/* Of an accepted formula: whether y is existential and deeper than x. */
int judge_deeper(const struct formula *f, uint32_t x, uint32_t y);

/* Of its clauses, by their numbers: one has v in either sign; one is always true; two share an existential deeper than x. */
int judge_has(const struct formula *f, uint32_t k, uint32_t v);
int judge_always_true(const struct formula *f, uint32_t k);
int judge_share(const struct formula *f, uint32_t x, uint32_t k, uint32_t l);

/* 13 and 24: what the path check says of a pair and a path. */
struct verdict judge_path(const struct formula *f, uint32_t x, uint32_t y, const uint32_t *path, size_t path_len);

#endif
