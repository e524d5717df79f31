/* What check with lists says, written from rule 8.1, rule 8.2 and rule 13.1. */
#ifndef JUDGE_LISTS_H
#define JUDGE_LISTS_H

#include "list_calls.h"

/* Entry e of a table of lists opens one: the first entry, and each after a 0. */
int judge_opens_list(const struct lists *d, size_t e);

/* Whether a block of the prefix has v. */
int judge_in_block(const struct formula *f, uint32_t v);

/* What check with lists says: what check says, then 2, 25, 26 and 11 for the lists. */
struct verdict judge_lists(const struct formula *f, const struct lists *d);

#endif
