/*
 * An example of how a C program uses the library: reads a QDIMACS file,
 * builds the forest, prints its tally and the set of each universal with its
 * size, adds a clause and prints them again. The sets are the standard ones,
 * or with --strict the strict ones.
 *
 *     example [--strict] FILE [LITERAL ..]
 */
#include <stdio.h>
#include <stdlib.h>
#include <string.h>

#include "snowcoddle.h"

/* A formula and its forest, with room for the largest of each. */
struct formula {
    uint32_t n;
    uint32_t prefix[SNOW_MOST_PREFIX];
    uint32_t prefix_count;
    int32_t clauses[SNOW_MOST_CLAUSES];
    uint32_t clauses_count;
    uint32_t classes[SNOW_MOST_VARIABLES];
    uint32_t parents[SNOW_MOST_VARIABLES];
    uint32_t counts[SNOW_MOST_VARIABLES];
    struct snow_tally tally;
};

static struct formula formula;

/* The scheme that sets are asked by. */
static uint32_t scheme = SNOW_STANDARD;

/* Says which call refused, and why; 0 is no refusal. */
static int refused(const char *call, uint32_t number, uint32_t place)
{
    if (number == 0)
        return 0;
    printf("%s refused: %u at %u\n", call, (unsigned)number, (unsigned)place);
    return 1;
}

/* Reads the file into the tables of the formula; 0 if that went well. */
static int read_file(struct formula *f, const char *name)
{
    static uint8_t text[SNOW_MOST_TEXT + 1];
    FILE *file = fopen(name, "rb");
    size_t length;
    uint32_t place, number;

    if (file == NULL) {
        printf("cannot open %s\n", name);
        return 1;
    }
    /* One byte more than is allowed, so that a longer text is refused and not cut. */
    length = fread(text, 1, sizeof text, file);
    fclose(file);
    number = snow_read(text, length, &f->n, f->prefix, SNOW_MOST_PREFIX, &f->prefix_count,
                       f->clauses, SNOW_MOST_CLAUSES, &f->clauses_count, &place);
    return refused("read", number, place);
}

static int build(struct formula *f)
{
    uint32_t rows, place;
    uint32_t number = snow_build(SNOW_PLAIN, f->n, f->prefix, f->prefix_count, f->clauses, f->clauses_count,
                                 f->classes, SNOW_MOST_VARIABLES, f->parents, SNOW_MOST_VARIABLES,
                                 f->counts, SNOW_MOST_VARIABLES, &f->tally, &rows, &place);
    return refused("build", number, place);
}

/* Prints the set of x on one line, of which the size is known. */
static int print_set(const struct formula *f, uint32_t x, uint32_t size)
{
    uint32_t set[SNOW_MOST_VARIABLES];
    uint32_t count, place, i;
    uint32_t number = snow_set_by(SNOW_PLAIN, scheme, f->n, f->prefix, f->prefix_count, f->clauses, f->clauses_count,
                                  f->classes, SNOW_MOST_VARIABLES, f->parents, SNOW_MOST_VARIABLES,
                                  f->counts, SNOW_MOST_VARIABLES, x, set, size, &count, &place);
    if (refused("set", number, place))
        return 1;
    printf("%u has %u:", (unsigned)x, (unsigned)size);
    for (i = 0; i < count; i++)
        printf(" %u", (unsigned)set[i]);
    printf("\n");
    return 0;
}

/* Prints a line for x, the size found first; nothing if x is not universal, which the call refuses as 13. */
static int print_line(const struct formula *f, uint32_t x)
{
    uint32_t size, place;
    uint32_t number = snow_size_by(SNOW_PLAIN, scheme, f->n, f->prefix, f->prefix_count, f->clauses, f->clauses_count,
                                   f->classes, SNOW_MOST_VARIABLES, f->parents, SNOW_MOST_VARIABLES,
                                   f->counts, SNOW_MOST_VARIABLES, x, &size, &place);
    if (number == 13)
        return 0;
    return refused("size", number, place) || print_set(f, x, size);
}

static int print_sets(const struct formula *f)
{
    uint32_t x;

    printf("clauses %u merges %u classes %u\n", (unsigned)f->tally.clauses, (unsigned)f->tally.merges,
           (unsigned)f->tally.classes);
    for (x = 1; x <= f->n; x++)
        if (print_line(f, x))
            return 1;
    return 0;
}

/* Adds a clause to the forest, and to the clause table, which sets are asked with. */
static int add(struct formula *f, const int32_t *clause, uint32_t length)
{
    uint32_t place, number, i;

    if (SNOW_MOST_CLAUSES - f->clauses_count < length + 1) {
        printf("no room for another clause\n");
        return 1;
    }
    number = snow_add(SNOW_PLAIN, f->n, f->prefix, f->prefix_count, f->classes, SNOW_MOST_VARIABLES,
                      f->parents, SNOW_MOST_VARIABLES, f->counts, SNOW_MOST_VARIABLES, &f->tally,
                      clause, length, &place);
    if (refused("add", number, place))
        return 1;
    for (i = 0; i < length; i++)
        f->clauses[f->clauses_count++] = clause[i];
    f->clauses[f->clauses_count++] = 0;
    return 0;
}

int main(int argc, char **argv)
{
    static int32_t clause[SNOW_MOST_CLAUSES];
    uint32_t length = 0;
    int i;

    if (argc > 1 && strcmp(argv[1], "--strict") == 0) {
        scheme = SNOW_STRICT;
        argc--;
        argv++;
    }
    if (argc < 2 || argc - 2 > SNOW_MOST_CLAUSES) {
        printf("usage: example [--strict] FILE [LITERAL ..]\n");
        return 2;
    }
    for (i = 2; i < argc; i++)
        clause[length++] = (int32_t)atoi(argv[i]);
    if (read_file(&formula, argv[1]) || build(&formula) || print_sets(&formula))
        return 1;
    printf("add");
    for (i = 2; i < argc; i++)
        printf(" %s", argv[i]);
    printf("\n");
    if (add(&formula, clause, length) || print_sets(&formula))
        return 1;
    return 0;
}
