/*
 * DepQBF 5.01 beside the library.
 *
 * How it is asked: `--dep-man=qdag` is the standard dependency scheme (the
 * other choice, `simple`, is the order of the prefix). `--no-qbce-dynamic`
 * spares it work for solving that no dependency needs. qdpll_init_deps
 * computes all dependencies; qdpll_var_depends(x, y) then tells whether y
 * depends on x. The reader is no part of its library; the one here takes the
 * text byte by byte from a file, as that of its program does, but from
 * memory, so that nothing waits for a disk.
 */
#include <stdio.h>

#include "clock.h"
#include "depqbf.h"

/* Of qdpll.h, which needs headers that the kit does not have. */
typedef struct QDPLL QDPLL;

QDPLL *qdpll_create(void);
void qdpll_delete(QDPLL *solver);
char *qdpll_configure(QDPLL *solver, char *word);
unsigned qdpll_new_scope(QDPLL *solver, int kind);
void qdpll_add(QDPLL *solver, int number);
void qdpll_init_deps(QDPLL *solver);
int qdpll_is_var_declared(QDPLL *solver, unsigned v);
int qdpll_var_depends(QDPLL *solver, unsigned x, unsigned y);

enum { EXISTS = -1, FORALL = 1 };

static QDPLL *solvers[SOLVERS];

static QDPLL *renew(QDPLL *old)
{
    static char scheme[] = "--dep-man=qdag", no_solving[] = "--no-qbce-dynamic";
    QDPLL *solver = qdpll_create();

    if (old != NULL)
        qdpll_delete(old);
    qdpll_configure(solver, scheme);
    qdpll_configure(solver, no_solving);
    return solver;
}

/* The next byte that is no space, LF included. */
static int after_spaces(FILE *in, int byte)
{
    while (byte == ' ' || byte == '\n')
        byte = getc(in);
    return byte;
}

/* The number that begins with a byte; leaves the byte after it. */
static int number(FILE *in, int *byte)
{
    int value = 0, negative = *byte == '-';

    if (negative)
        *byte = getc(in);
    while (*byte >= '0' && *byte <= '9') {
        value = value * 10 + (*byte - '0');
        *byte = getc(in);
    }
    return negative ? -value : value;
}

/* The problem line, then every quantifier line and clause, number by number. */
static void add_text(QDPLL *solver, FILE *in)
{
    int byte, skip;

    for (skip = 0; skip < (int)sizeof "p cnf " - 1; skip++)
        getc(in);
    byte = getc(in);
    number(in, &byte);
    byte = after_spaces(in, byte);
    number(in, &byte);
    for (byte = after_spaces(in, byte); byte != EOF; byte = after_spaces(in, byte)) {
        if (byte == 'a' || byte == 'e') {
            qdpll_new_scope(solver, byte == 'a' ? FORALL : EXISTS);
            byte = after_spaces(in, getc(in));
        }
        qdpll_add(solver, number(in, &byte));
    }
}

double depqbf_read(unsigned solver, const uint8_t *text, size_t length)
{
    FILE *in = fmemopen((void *)text, length, "r");
    double start, took;

    solvers[solver] = renew(solvers[solver]);
    start = now();
    add_text(solvers[solver], in);
    qdpll_init_deps(solvers[solver]);
    took = now() - start;
    fclose(in);
    return took;
}

int depqbf_depends(unsigned solver, uint32_t x, uint32_t y)
{
    QDPLL *s = solvers[solver];

    /* A variable in no clause may have been dropped, and has no dependencies. */
    if (!qdpll_is_var_declared(s, x) || !qdpll_is_var_declared(s, y))
        return 0;
    return qdpll_var_depends(s, x, y);
}
