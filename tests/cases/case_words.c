/* Words of a line of the written-out cases, and the numbers that they stand for. */
#include <string.h>

#include "case_words.h"

int next_word(const char **line, struct word *word)
{
    while (**line == ' ')
        ++*line;
    word->at = *line;
    while (**line != '\0' && **line != ' ')
        ++*line;
    word->length = (size_t)(*line - word->at);
    return word->length > 0;
}

/* Takes a text off the front of a word; 0 if the word does not begin with it. */
static int skip(struct word *word, const char *text)
{
    size_t length = strlen(text);

    if (word->length < length || memcmp(word->at, text, length) != 0)
        return 0;
    word->at += length;
    word->length -= length;
    return 1;
}

int word_is(struct word word, const char *text)
{
    return skip(&word, text) && word.length == 0;
}

/* Takes the digits off the front of a word; 0 if there are none, or if they spell a number over 32 bits. */
static int read_digits(struct word *word, long long *number)
{
    size_t before = word->length;

    *number = 0;
    while (word->length > 0 && *word->at >= '0' && *word->at <= '9') {
        *number = *number * 10 + (*word->at - '0');
        if (*number > 0xFFFFFFFF)
            return 0;
        word->at++;
        word->length--;
    }
    return word->length < before;
}

int read_number(struct word word, uint32_t *number)
{
    long long value;

    if (!read_digits(&word, &value) || word.length > 0)
        return 0;
    *number = (uint32_t)value;
    return 1;
}

/* The numbers that one word stands for: so many, each of them the one before and the step. */
struct run {
    long long first, times, step;
};

static int read_run(struct word word, struct run *run)
{
    int negative = skip(&word, "-");
    long long last;

    run->times = 1;
    run->step = 0;
    if (!read_digits(&word, &run->first))
        return 0;
    if (skip(&word, "*")) {
        if (!read_digits(&word, &run->times))
            return 0;
    } else if (skip(&word, "..")) {
        if (negative || !read_digits(&word, &last))
            return 0;
        run->times = last - run->first + 1;
        run->step = 1;
    }
    if (negative)
        run->first = -run->first;
    return word.length == 0 && run->times > 0 && !(negative && run->first == 0);
}

static int read_values(const char *line, long long least, long long most, uint32_t *into, size_t room, size_t *count)
{
    struct word word;
    struct run run;

    *count = 0;
    while (next_word(&line, &word)) {
        if (!read_run(word, &run) || run.times > (long long)(room - *count))
            return 0;
        for (; run.times > 0; run.times--) {
            if (run.first < least || run.first > most)
                return 0;
            into[(*count)++] = (uint32_t)run.first;
            run.first += run.step;
        }
    }
    return 1;
}

int read_numbers(const char *line, uint32_t *into, size_t room, size_t *count)
{
    return read_values(line, 0, 0xFFFFFFFF, into, room, count);
}

int read_literals(const char *line, uint32_t *into, size_t room, size_t *count)
{
    return read_values(line, -2147483647LL - 1, 2147483647, into, room, count);
}
