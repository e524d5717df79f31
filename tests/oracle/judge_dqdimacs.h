/*
 * Text with dependency lists, by rule 9.1 and rule 13.4: judged line by line,
 * and written.
 */
#ifndef JUDGE_DQDIMACS_H
#define JUDGE_DQDIMACS_H

#include "list_calls.h"
#include "text_buffer.h"

/* What reading a text says, 16 or 17, and n and the tables of one that is read. */
struct verdict judge_dqdimacs(const uint8_t *text, size_t length, struct listed_formula *h);

/* The text of n and three tables as it is to be written. */
void dqdimacs_of(const struct listed_formula *h, struct text *t);

#endif
