/* What rule 9.1 and rule 13.4 say of a text with dependency lists. */
#include <string.h>

#include "judge_dqdimacs.h"

/* The next word from a place on, up to the end of the line; its length, 0 if there is none. */
static size_t next_word(const uint8_t *text, size_t *at, size_t end)
{
    size_t start;

    while (*at < end && text[*at] == ' ')
        (*at)++;
    start = *at;
    while (*at < end && text[*at] != ' ')
        (*at)++;
    return *at - start;
}

/* A word of one to five digits as a number, -1 if it is none. */
static long number_of(const uint8_t *word, size_t length)
{
    long value = 0;
    size_t k;

    if (length < 1 || length > 5)
        return -1;
    for (k = 0; k < length; k++) {
        if (word[k] < '0' || word[k] > '9')
            return -1;
        value = value * 10 + (word[k] - '0');
    }
    return value;
}

/* The numbers of a line from a place on, of which the last and no other is 0; how many, or 0 if the line has something else. */
static size_t row(const uint8_t *text, size_t at, size_t end, int may_carry, int32_t *entries)
{
    size_t count = 0, length;
    int closed = 0;

    while ((length = next_word(text, &at, end)) > 0) {
        const uint8_t *word = text + at - length;
        int negative = may_carry && word[0] == '-';
        long value = number_of(word + negative, length - (size_t)negative);

        if (closed || value < 0 || (negative && value == 0))
            return 0;
        closed = value == 0;
        entries[count++] = (int32_t)(negative ? -value : value);
    }
    return closed ? count : 0;
}

static int is_word(const uint8_t *text, size_t at, size_t length, const char *word)
{
    return length == strlen(word) && memcmp(text + at - length, word, length) == 0;
}

/* The problem line. */
static int problem(const uint8_t *text, size_t at, size_t end, long *n, long *m)
{
    size_t length = next_word(text, &at, end);

    if (!is_word(text, at, length, "p"))
        return 0;
    length = next_word(text, &at, end);
    if (!is_word(text, at, length, "cnf"))
        return 0;
    length = next_word(text, &at, end);
    *n = number_of(text + at - length, length);
    length = next_word(text, &at, end);
    *m = number_of(text + at - length, length);
    return *n >= 0 && *m >= 0 && next_word(text, &at, end) == 0;
}

static void append(uint32_t *table, size_t *length, const int32_t *entries, size_t count)
{
    size_t k;

    for (k = 0; k < count; k++)
        table[(*length)++] = (uint32_t)entries[k];
}

struct verdict judge_dqdimacs(const uint8_t *text, size_t length, struct listed_formula *h)
{
    static int32_t entries[TEXT_BYTES];
    struct verdict wrong = { 16, 0 }, none = { 0, 0 };
    long n = -1, announced = 0, stood = 0;
    size_t at = 0, end, inside, word, count;
    int listed = 0;

    h->prefix_len = h->clauses_len = h->lists_len = 0;
    for (; at < length; at = end + 1) {
        wrong.place = (uint32_t)at;
        for (end = at; end < length && text[end] != '\n'; end++)
            ;
        if (end == length)
            return wrong;
        if (n < 0) {
            if (text[at] != 'c' && !problem(text, at, end, &n, &announced))
                return wrong;
            continue;
        }
        inside = at;
        word = next_word(text, &inside, end);
        if (is_word(text, inside, word, "e") || is_word(text, inside, word, "a")) {
            count = row(text, inside, end, 0, entries);
            if (listed || stood > 0 || count == 0)
                return wrong;
            h->prefix[h->prefix_len++] = text[inside - 1] == 'e' ? 1 : 2;
            append(h->prefix, &h->prefix_len, entries, count);
        } else if (is_word(text, inside, word, "d")) {
            count = row(text, inside, end, 0, entries);
            if (stood > 0 || count < 2)
                return wrong;
            listed = 1;
            append(h->lists, &h->lists_len, entries, count);
        } else {
            count = row(text, at, end, 1, entries);
            if (count == 0)
                return wrong;
            if (stood == announced) {
                wrong.number = 17;
                return wrong;
            }
            stood++;
            memcpy(h->clauses + h->clauses_len, entries, count * sizeof *entries);
            h->clauses_len += count;
        }
    }
    wrong.place = (uint32_t)length;
    wrong.number = n < 0 ? 16 : 17;
    h->n = (uint32_t)n;
    return n < 0 || stood < announced ? wrong : none;
}

void dqdimacs_of(const struct listed_formula *h, struct text *t)
{
    size_t e, clauses = 0;
    int begins = 1;

    t->length = 0;
    for (e = 0; e < h->clauses_len; e++)
        clauses += h->clauses[e] == 0;
    text_put(t, "p cnf ");
    text_put_number(t, h->n);
    text_put(t, " ");
    text_put_number(t, (long)clauses);
    text_put(t, "\n");
    for (e = 0; e < h->prefix_len; e++) {
        if (begins)
            text_put(t, h->prefix[e] == 1 ? "e" : "a");
        else {
            text_put(t, " ");
            text_put_number(t, h->prefix[e]);
            text_put(t, h->prefix[e] == 0 ? "\n" : "");
        }
        begins = !begins && h->prefix[e] == 0;
    }
    for (e = 0, begins = 1; e < h->lists_len; begins = h->lists[e++] == 0) {
        text_put(t, begins ? "d " : " ");
        text_put_number(t, h->lists[e]);
        text_put(t, h->lists[e] == 0 ? "\n" : "");
    }
    for (e = 0, begins = 1; e < h->clauses_len; begins = h->clauses[e++] == 0) {
        text_put(t, begins ? "" : " ");
        text_put_number(t, h->clauses[e]);
        text_put(t, h->clauses[e] == 0 ? "\n" : "");
    }
}
