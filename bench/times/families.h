/* The formulas that are measured: families that double in size up to the limits. No clause has complementary literals. */
#ifndef FAMILIES_H
#define FAMILIES_H

#include "snowcoddle.h"

/* A formula in tables of its own. */
struct formula {
    uint32_t n;
    uint32_t prefix[SNOW_MOST_PREFIX];
    size_t prefix_len;
    int32_t clauses[SNOW_MOST_CLAUSES];
    size_t clauses_len;
    uint32_t block[SNOW_MOST_VARIABLES + 1];               /* of each variable */
    unsigned char universal[SNOW_MOST_VARIABLES + 1];
};

struct family {
    const char *name;
    const char *what;
    uint32_t first, last;  /* the least and the largest n; the sizes between double */
    void (*fill)(struct formula *f, uint32_t n);
};

enum { FAMILIES = 6 };
extern const struct family families[FAMILIES];

/* The same numbers in every run, from a given start. */
void draw_from(uint64_t start);
uint32_t draw(uint32_t below);

#endif
