/* What rule 9.1 to rule 9.3 say of a text: it is cut into lines, each line into words, and each word is taken for what it can be. */
#include <string.h>

#include "judge_text.h"

/* A part of the text. */
struct part {
    const uint8_t *at;
    size_t length;
};

/* Most words of a line: every other byte of the longest text. */
enum { MOST_WORDS = 32769 };

static struct part words[MOST_WORDS];
static size_t word_count;

/* Separates a line at its spaces. */
static void cut_words(struct part line)
{
    size_t i, start = 0;

    word_count = 0;
    for (i = 0; i <= line.length; i++) {
        if (i < line.length && line.at[i] != ' ')
            continue;
        if (i > start) {
            words[word_count].at = line.at + start;
            words[word_count++].length = i - start;
        }
        start = i + 1;
    }
}

static int is_word(struct part word, const char *text)
{
    return word.length == strlen(text) && memcmp(word.at, text, word.length) == 0;
}

/* The number that a word of one to five digits is; -1 if it is none. */
static long number(struct part word)
{
    long value = 0;
    size_t i;

    if (word.length < 1 || word.length > 5)
        return -1;
    for (i = 0; i < word.length; i++) {
        if (word.at[i] < '0' || word.at[i] > '9')
            return -1;
        value = value * 10 + (word.at[i] - '0');
    }
    return value;
}

/* Whether the words from `first` on are numbers of which the last, and no other, is 0; stores them. */
static int numbers(size_t first, int signs, int32_t *into, uint32_t *count)
{
    size_t i;

    if (first >= word_count)
        return 0;
    for (i = first; i < word_count; i++) {
        int negative = signs && words[i].length > 1 && words[i].at[0] == '-';
        struct part digits = words[i];
        long value;

        digits.at += negative;
        digits.length -= (size_t)negative;
        value = number(digits);
        if (value < 0 || (value == 0) != (i + 1 == word_count) || (value == 0 && negative))
            return 0;
        into[i - first] = (int32_t)(negative ? -value : value);
    }
    *count = (uint32_t)(word_count - first);
    return 1;
}

/* The line that starts at `at`, without its LF; one that has none reaches to the text's end. */
static struct part line_at(const uint8_t *text, size_t length, size_t at)
{
    struct part line;

    line.at = text + at;
    line.length = 0;
    while (at + line.length < length && line.at[line.length] != '\n')
        line.length++;
    return line;
}

static struct verdict fault(uint32_t which, size_t place)
{
    struct verdict v;

    v.number = which;
    v.place = (uint32_t)place;
    return v;
}

/* Where in a text the reading stands. */
struct stage {
    int problem;            /* whether the problem line has stood */
    long announced, stood;  /* clause lines */
};

/* Takes the quantifier line in `words`, if it is one. */
static int quantifier_line(struct reading *r)
{
    static int32_t variables[MOST_WORDS];
    uint32_t count, i;

    if (word_count == 0 || (!is_word(words[0], "a") && !is_word(words[0], "e")))
        return 0;
    if (!numbers(1, 0, variables, &count))
        return 0;
    r->prefix[r->prefix_count++] = is_word(words[0], "e") ? 1 : 2;
    for (i = 0; i < count; i++)
        r->prefix[r->prefix_count++] = (uint32_t)variables[i];
    return 1;
}

static int problem_line(struct reading *r, struct stage *s)
{
    if (word_count != 4 || !is_word(words[0], "p") || !is_word(words[1], "cnf"))
        return 0;
    if (number(words[2]) < 0 || number(words[3]) < 0)
        return 0;
    r->n = (uint32_t)number(words[2]);
    s->announced = number(words[3]);
    s->problem = 1;
    return 1;
}

/* What a line that ends in LF is at this stage: 0 if it may stand there, else 16 or 17. */
static uint32_t judge_line(struct part line, struct reading *r, struct stage *s)
{
    uint32_t count;

    cut_words(line);
    if (!s->problem)
        return (line.length > 0 && line.at[0] == 'c') || problem_line(r, s) ? 0 : 16;
    if (s->stood == 0 && quantifier_line(r))
        return 0;
    if (!numbers(0, 1, r->clauses + r->clauses_count, &count))
        return 16;
    if (s->stood == s->announced)
        return 17;
    r->clauses_count += count;
    s->stood++;
    return 0;
}

struct verdict judge_text(const uint8_t *text, size_t length, struct reading *r)
{
    struct stage s = { 0, 0, 0 };
    size_t at = 0;

    r->prefix_count = 0;
    r->clauses_count = 0;
    if (length > SNOW_MOST_TEXT)
        return fault(15, SNOW_MOST_TEXT);
    while (at < length) {
        struct part line = line_at(text, length, at);
        uint32_t which = at + line.length == length ? 16 : judge_line(line, r, &s);

        if (which != 0)
            return fault(which, at);
        at += line.length + 1;
    }
    if (!s.problem)
        return fault(16, length);
    return s.stood == s.announced ? fault(0, 0) : fault(17, length);
}
