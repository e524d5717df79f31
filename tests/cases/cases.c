/*
 * The cases that cases.txt writes out, line by line. Its head says what the
 * lines mean; one that cannot be understood disagrees, and so does a text
 * that is not there or has no cases.
 */
#include <stdio.h>
#include <string.h>

#include "cases.h"
#include "comparisons.h"
#include "conformance.h"

enum {
    MOST_BYTES = 1 << 17,  /* of the text */
    MOST_CALLS = 8         /* of a line */
};

static const struct scheme standard = { SNOW_STANDARD, SNOW_STANDARD }, strict = { SNOW_STRICT, SNOW_STRICT };

/* The calls by their names in the text, and what each may come to beside a refusal. */
struct call {
    const char *name;
    const struct scheme *by;
    enum way way;
    void (*compare)(const struct claim *);
};

static const struct call calls[] = {
    { "check", NULL, ACCEPTED, case_check },
    { "clause", NULL, HAS, case_clause },
    { "read", NULL, ACCEPTED, case_read },
    { "write", NULL, ACCEPTED, case_write },
    { "point", NULL, GIVES_AFTER, case_point },
    { "build", NULL, GIVES, case_build },
    { "add", NULL, GIVES, case_add },
    { "forest", NULL, GIVES, case_forest },
    { "set", NULL, LISTS, case_set },
    { "entries", NULL, LISTS, case_entries },
    { "size", NULL, GIVES, case_size },
    { "standard-set", &standard, LISTS, case_set },
    { "standard-entries", &standard, LISTS, case_entries },
    { "standard-size", &standard, GIVES, case_size },
    { "strict-set", &strict, LISTS, case_set },
    { "strict-entries", &strict, LISTS, case_entries },
    { "strict-size", &strict, GIVES, case_size },
};

static const struct call *call_named(struct word word)
{
    size_t k;

    for (k = 0; k < LEN(calls); k++)
        if (word_is(word, calls[k].name))
            return &calls[k];
    return NULL;
}

/* One number, or two with a word between them; how many there are, 0 if it is something else. */
static size_t read_pair(const char *line, const char *between, uint32_t *pair)
{
    struct word word;

    if (!next_word(&line, &word) || !read_number(word, &pair[0]))
        return 0;
    if (!next_word(&line, &word))
        return 1;
    if (!word_is(word, between) || !next_word(&line, &word) || !read_number(word, &pair[1]) || next_word(&line, &word))
        return 0;
    return 2;
}

/* What the calls of a line come to: a word, and what stands behind it. */
static int read_claim(struct word word, const char *rest, struct claim *c)
{
    c->verdict.number = c->verdict.place = 0;
    c->count = 0;
    if (word_is(word, "accepted")) {
        c->way = ACCEPTED;
        return !next_word(&rest, &word);
    }
    if (word_is(word, "refused")) {
        c->way = REFUSED;
        c->count = read_pair(rest, "at", c->numbers);
        c->verdict.number = c->numbers[0];
        c->verdict.place = c->numbers[1];
        return c->count == 2 && c->verdict.number != 0;
    }
    if (word_is(word, "gives")) {
        c->count = read_pair(rest, "after", c->numbers);
        c->way = c->count == 2 ? GIVES_AFTER : GIVES;
        return c->count > 0;
    }
    c->way = word_is(word, "has") ? HAS : LISTS;
    if (c->way == LISTS && !word_is(word, "lists"))
        return 0;
    return (c->way == HAS ? read_literals : read_numbers)(rest, c->numbers, LEN(c->numbers), &c->count);
}

/* The family that the lines are of, its cases, and those of the whole text. */
static const char *family;
static unsigned long family_cases, all_cases;

/* A case for each call that a line names. */
static void case_line(const char *line)
{
    static struct claim c;
    const struct call *named[MOST_CALLS];
    struct word word;
    size_t count = 0, k;
    int claims;

    while (next_word(&line, &word) && count < MOST_CALLS && call_named(word) != NULL)
        named[count++] = call_named(word);
    agree(count > 0, "the line begins with a call that there is");
    claims = read_claim(word, line, &c);
    agree(claims, "what the calls come to is understood");
    agree(family != NULL, "the case is of a family");
    for (k = 0; k < count && claims && family != NULL; k++) {
        int fits = c.way == REFUSED || c.way == named[k]->way;

        c.call = named[k]->name;
        c.by = named[k]->by;
        agree(fits, "the call can come to that");
        if (fits)
            named[k]->compare(&c);
        family_cases++;
    }
}

/* Prints how many cases the family had. */
static void close_family(void)
{
    if (family == NULL)
        return;
    agree(family_cases > 0, "the family has cases");
    printf("%s: %lu cases\n", family, family_cases);
    all_cases += family_cases;
    family_cases = 0;
}

static void text_line(const char *line, unsigned number)
{
    const char *rest = line;
    struct word word;

    about("cases.txt line", number);
    if (*line == '\0' || *line == '#')
        return;
    if (!next_word(&rest, &word) || word.at[word.length - 1] != ':') {
        case_line(line);
    } else if (word_is(word, "family:")) {
        close_family();
        family = *rest == ' ' ? rest + 1 : rest;
        group(family);
    } else {
        give(word, rest);
    }
}

static char text[MOST_BYTES + 1];

/* The text, with a 0 behind it; its length, 0 if it cannot be read or does not fit. */
static size_t read_text(const char *path)
{
    FILE *file = path == NULL ? NULL : fopen(path, "rb");
    size_t length;

    if (file == NULL)
        return 0;
    length = fread(text, 1, sizeof text, file);
    fclose(file);
    if (length == sizeof text)
        length = 0;
    text[length] = '\0';
    return length;
}

void test_cases(const char *path)
{
    size_t length = read_text(path);
    unsigned number = 0;
    char *line = text, *end;

    group("the text of the cases");
    about("cases.txt line", 0);
    agree(length > 0, "there is one, and it fits");
    agree(strlen(text) == length, "it has no byte 0");
    for (; *line != '\0'; line = end) {
        for (end = line; *end != '\0' && *end != '\n'; end++)
            continue;
        if (*end == '\n')
            *end++ = '\0';
        text_line(line, ++number);
    }
    close_family();
    agree(all_cases > 0, "it has cases");
}
