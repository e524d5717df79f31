/* What holds at a line of the written-out cases. */
#include <string.h>

#include "comparisons.h"
#include "given_values.h"

/* What may stand behind a name: numbers or literals, at least and at most so many, or words. */
enum kind { NUMBERS, LITERALS, WORDS };

static const struct {
    const char *name;
    enum kind kind;
    size_t least, most;
} names[GIVEN_NAMES] = {
    [GIVEN_N] = { "n:", NUMBERS, 1, 1 },
    [GIVEN_PREFIX] = { "prefix:", NUMBERS, 0, MOST_GIVEN },
    [GIVEN_CLAUSES] = { "clauses:", LITERALS, 0, MOST_GIVEN },
    [GIVEN_CLASSES] = { "classes:", NUMBERS, 0, MOST_GIVEN_ROWS },
    [GIVEN_PARENTS] = { "parents:", NUMBERS, 0, MOST_GIVEN_ROWS },
    [GIVEN_COUNTS] = { "counts:", NUMBERS, 0, MOST_GIVEN_ROWS },
    [GIVEN_TALLY] = { "tally:", NUMBERS, 3, 3 },
    [GIVEN_CLAUSE] = { "clause:", LITERALS, 0, MOST_GIVEN },
    [GIVEN_TO_CLASSES] = { "to-classes:", NUMBERS, 0, MOST_GIVEN_ROWS },
    [GIVEN_TO_PARENTS] = { "to-parents:", NUMBERS, 0, MOST_GIVEN_ROWS },
    [GIVEN_TO_COUNTS] = { "to-counts:", NUMBERS, 0, MOST_GIVEN_ROWS },
    [GIVEN_TO_TALLY] = { "to-tally:", NUMBERS, 3, 3 },
    [GIVEN_X] = { "x:", NUMBERS, 1, 1 },
    [GIVEN_Y] = { "y:", NUMBERS, 1, 1 },
    [GIVEN_ASKED] = { "asked:", NUMBERS, 1, 1 },
    [GIVEN_ROOM] = { "room:", NUMBERS, 1, 1 },
    [GIVEN_ROOMS] = { "rooms:", NUMBERS, 2, 2 },
    [GIVEN_TEXT] = { "text:", WORDS, 0, 0 },
    [GIVEN_FILL] = { "fill:", WORDS, 0, 0 },
    [GIVEN_TAIL] = { "tail:", WORDS, 0, 0 },
};

static struct given values[GIVEN_NAMES];

/* The numbers behind a name, if they are understood, fit, and are as many as they may be. */
static int take_numbers(enum given_name name, const char *rest, struct given *t)
{
    int (*read)(const char *, uint32_t *, size_t, size_t *) = names[name].kind == LITERALS ? read_literals : read_numbers;

    return read(rest, t->numbers, names[name].most, &t->count) && t->count >= names[name].least;
}

void give(struct word name, const char *rest)
{
    enum given_name k = GIVEN_N;
    struct given *t;

    while (k < GIVEN_NAMES && !word_is(name, names[k].name))
        k++;
    agree(k < GIVEN_NAMES, "the name before the colon is one that there is");
    if (k == GIVEN_NAMES)
        return;
    t = &values[k];
    t->said = 1;
    /* a text begins one space behind the name */
    t->words = *rest == ' ' ? rest + 1 : rest;
    if (names[k].kind != WORDS)
        agree(take_numbers(k, rest, t), "the numbers behind the name are understood, fit, and are as many as it takes");
}

const struct given *given(enum given_name name)
{
    if (!values[name].said) {
        values[name].words = "";
        agree(0, "lines before have said all that the case takes");
    }
    return &values[name];
}

uint32_t given_number(enum given_name name)
{
    return given(name)->numbers[0];
}

struct formula given_formula(void)
{
    const struct given *prefix = given(GIVEN_PREFIX), *clauses = given(GIVEN_CLAUSES);
    struct formula f = { given_number(GIVEN_N), prefix->numbers, prefix->count, (const int32_t *)clauses->numbers, clauses->count };

    return f;
}

/* Copies the rows that hold for a name; gives how many there are. */
static size_t copy_rows(enum given_name name, uint32_t *rows)
{
    const struct given *t = given(name);

    memcpy(rows, t->numbers, t->count * sizeof *rows);
    return t->count;
}

struct forest given_forest(void)
{
    static uint32_t classes[MOST_GIVEN_ROWS], parents[MOST_GIVEN_ROWS], counts[MOST_GIVEN_ROWS];
    struct forest w = { classes, 0, parents, 0, counts, 0, { 0, 0, 0 } };

    w.classes_len = copy_rows(GIVEN_CLASSES, classes);
    w.parents_len = copy_rows(GIVEN_PARENTS, parents);
    w.counts_len = copy_rows(GIVEN_COUNTS, counts);
    return w;
}
