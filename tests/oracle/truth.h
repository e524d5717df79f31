/* Whether a small formula is true, by trying its variables out. */
#ifndef TRUTH_H
#define TRUTH_H

#include <stddef.h>
#include <stdint.h>

/* Of an accepted formula of fewer than 64 variables; the time doubles with each. */
int is_true(const uint32_t *prefix, size_t prefix_len, uint32_t n, const int32_t *clauses, size_t clauses_len);

#endif
