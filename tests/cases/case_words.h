/* Words of a line of the written-out cases, and the numbers that they stand for. */
#ifndef CASE_WORDS_H
#define CASE_WORDS_H

#include <stddef.h>
#include <stdint.h>

/* A word of a line; words have spaces between them. */
struct word {
    const char *at;
    size_t length;
};

/* Takes the next word off the front of a line; 0 if none is left. */
int next_word(const char **line, struct word *word);

int word_is(struct word word, const char *text);

/* The number of 32 bits that a word stands for; 0 if it stands for none. */
int read_number(struct word word, uint32_t *number);

/*
 * Stores the numbers that the words of a line stand for, `7*3` being 7 three
 * times and `2..5` being 2 to 5, and counts them. Gives 0 if a word stands
 * for none, if a number is over 32 bits, or if there are more than `room`.
 */
int read_numbers(const char *line, uint32_t *into, size_t room, size_t *count);

/* Stores literals in the same way, which may have a sign; each as the 32 bits that it has. */
int read_literals(const char *line, uint32_t *into, size_t room, size_t *count);

#endif
