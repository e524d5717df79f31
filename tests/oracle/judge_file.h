/*
 * The file of a forest, by rule 10.1 to rule 10.5: written byte by byte, and
 * judged in the order of the refusals (rule 8.4), with rows and sets from the
 * slow search.
 */
#ifndef JUDGE_FILE_H
#define JUDGE_FILE_H

#include "calls.h"

enum {
    MOST_FILE = SNOW_MOST_FILE,
    FILE_NUMBERS = 131072   /* two-byte numbers that a file can hold */
};

/* What a file within the rules holds. */
struct filed {
    struct formula f;
    uint32_t prefix[FILE_NUMBERS];
    int32_t clauses[FILE_NUMBERS / 2];
    uint32_t with_sets;
};

/* 19 to 22 and the table refusals; 14 is left to the test. The formula has at most SMALL variables where it is accepted. */
struct verdict judge_file(const uint8_t *file, size_t length, struct filed *r);

/* The file of an accepted formula of at most SMALL variables, with its sets or without them; gives its length. */
size_t file_of(const struct formula *f, int with_sets, uint8_t *file);

/* Writes the closing word with which the words of the file sum to zero (rule 10.3). */
void close_sum(uint8_t *file, size_t length);

#endif
