/* The groups of tests; each file holds one kind. */
#ifndef CONFORMANCE_H
#define CONFORMANCE_H

/* byhand/: cases written in C, with what is expected of each */
void test_formula_a(void);         /* formula_a.c: every call accepted, by the worked examples */
void test_refusals(void);          /* refusals.c: each refusal of each call */
void test_limits(void);            /* limits.c: each limit, at it and one past it */
void test_qdimacs_texts(void);     /* qdimacs_texts.c: QDIMACS lines, within and outside the rules */
void test_reading_rules(void);     /* reading_rules.c: reading rules for prefixes */

/* cases/: the cases that a text writes out, by its path */
void test_cases(const char *path); /* cases.c */

/* random/: random formulas, forests and texts, against the slow search */
void test_random_formulas(void);   /* random_formulas.c */

/* requests/: what the library does beyond sets, text and build (docs/RULES.md, sections 10 to 14), by hand and on random formulas */
void test_stored_files(void);      /* stored_files.c: files of a forest, written, read and damaged */
void test_path_check(void);        /* path_check.c: paths of another tool */
void test_expansion(void);         /* expansion.c: a universal expanded, with truth before and after */
void test_dependency_lists(void);  /* dependency_lists.c: check and sets by dependency lists */
void test_dqdimacs(void);          /* dqdimacs.c: text with dependency lists */
void test_resolution_paths(void);  /* resolution_paths.c: resolution-path sets */

#endif
