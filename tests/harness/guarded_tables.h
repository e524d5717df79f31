/*
 * Tables as they are lent to a call. Each is a copy with guard bytes before
 * and after it, and all that is lent is remembered, so that after the call
 * one can tell every byte that changed.
 *
 * In a test: lend_begin, lend for each table and cell, lend_end, the call,
 * take for what the call may have written, and nothing_else_changed.
 */
#ifndef GUARDED_TABLES_H
#define GUARDED_TABLES_H

#include <stddef.h>
#include <stdint.h>

void lend_begin(void);

/* Lends a copy of `size` bytes. With size 0 the pointer is NULL in every other round, and one to guard bytes in the rest. */
void *lend(const void *from, size_t size);

/* Lends a cell of 32 bits, with contents that differ from round to round. */
uint32_t *lend_cell(void);

/* Lends a cell that is as wide as a length, likewise. */
size_t *lend_wide_cell(void);

void lend_end(void);

/* Copies what a call wrote out of what was lent, and puts the old bytes back. */
void take(void *into, void *lent, size_t size);

/* Whether all that was lent, but for what was taken, and all guard bytes are as they were. */
int nothing_else_changed(void);

#endif
