/* What a line of the written-out cases says of a call, and for each call whether it does so. */
#ifndef CASES_H
#define CASES_H

#include "expect.h"
#include "given_values.h"

/* What a call may come to. */
enum way {
    REFUSED,      /* refused NUMBER at PLACE */
    ACCEPTED,     /* accepted */
    HAS,          /* has LITERALS */
    GIVES,        /* gives COUNT */
    GIVES_AFTER,  /* gives VARIABLE after RISES */
    LISTS         /* lists NUMBERS */
};

struct claim {
    const char *call;         /* its name */
    const struct scheme *by;  /* the scheme in that; NULL if there is none */
    enum way way;
    struct verdict verdict;   /* of a refusal; else zero */
    size_t count;
    uint32_t numbers[MOST_GIVEN_ROWS];
};

/* case_questions.c: the calls that change no table but an output */
void case_check(const struct claim *c);
void case_clause(const struct claim *c);
void case_point(const struct claim *c);
void case_set(const struct claim *c);
void case_entries(const struct claim *c);
void case_size(const struct claim *c);

/* case_forests.c: the calls that change a forest, and all that take one */
void case_build(const struct claim *c);
void case_add(const struct claim *c);
void case_forest(const struct claim *c);

/* case_texts.c: the calls that take or give a text */
void case_read(const struct claim *c);
void case_write(const struct claim *c);

#endif
