/*
 * What the table of refusal numbers (rule 8.1) says, written from its lines one
 * by one: for each number, whether its cause holds at a place. Slow, and no
 * scan with a state, so that it does not repeat how the calls work.
 */
#ifndef JUDGE_TABLES_H
#define JUDGE_TABLES_H

#include "calls.h"

/* 23, 1, 2 and the causes in the prefix, by the rule that the calls are asked for: what a call says that takes n and a prefix. */
struct verdict judge_prefix(const struct formula *f);

/* 1, 2 and the causes in the clause table: what a call says that takes n and clauses. */
struct verdict judge_clauses(const struct formula *f);

/* Both, in their order: check. */
struct verdict judge_formula(const struct formula *f);

/* 23, 1, 2, the prefix, and the literals of a clause to be added: add. */
struct verdict judge_added(const struct formula *f, const int32_t *clause, size_t clause_len);

/* 12, for an accepted prefix; and 18, for a forest that is well formed. */
struct verdict judge_forest(const struct formula *f, const struct forest *w);
struct verdict judge_tally(const struct formula *f, const struct forest *w);

/* The first row whose class or parent is not right, in tables of n rows at least; 0 if all are. */
uint32_t judge_rows(const struct formula *f, const struct forest *w);

/* The block of a variable, and whether it is universal, for an accepted prefix. */
uint32_t judge_block(const struct formula *f, uint32_t v);
int judge_universal(const struct formula *f, uint32_t v);
int judge_existential(const struct formula *f, uint32_t v);

/* The number of clauses of an accepted table. */
uint32_t judge_clause_count(const struct formula *f);

#endif
