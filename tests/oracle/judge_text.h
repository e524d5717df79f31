/* What rule 9.1 to rule 9.3 say of a text. */
#ifndef JUDGE_TEXT_H
#define JUDGE_TEXT_H

#include "calls.h"

/*
 * What a text says by the rules of the format: 15, 16, 17, or n and both
 * tables, with their lengths. The tables have room for 65,536 entries.
 */
struct reading {
    uint32_t n;
    uint32_t prefix[65536];
    uint32_t prefix_count;
    int32_t clauses[65536];
    uint32_t clauses_count;
};

struct verdict judge_text(const uint8_t *text, size_t length, struct reading *r);

#endif
