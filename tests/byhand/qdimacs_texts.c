/* QDIMACS texts, within and outside rule 9.1 to rule 9.4, with what is expected of each by hand. */
#include <string.h>

#include "comparisons.h"
#include "conformance.h"
#include "expect.h"

struct bad_text {
    uint32_t number, place;
    const char *text;
};

static const struct bad_text bad_texts[] = {
    { 16, 0, "" },
    { 16, 10, "c comment\n" },
    { 16, 0, "c comment" },
    { 16, 4, "c 1\nc 2" },
    { 16, 0, "\n" },
    { 16, 4, "c 1\n\np cnf 0 0\n" },
    { 16, 0, " c 1\np cnf 0 0\n" },
    { 16, 0, "p cnf 0 0" },
    { 16, 0, "p cnf 0 0\r\n" },
    { 16, 0, "p\tcnf 0 0\n" },
    { 16, 0, "p cnf 0\n" },
    { 16, 0, "p cnf 0 0 0\n" },
    { 16, 0, "p dnf 0 0\n" },
    { 16, 0, "pcnf 0 0\n" },
    { 16, 0, "P cnf 0 0\n" },
    { 16, 0, "p cnf -1 0\n" },
    { 16, 0, "p cnf -01 0\n" },
    { 16, 0, "p cnf 000009 5\n" },
    { 16, 0, "p cnf 9 000005\n" },
    { 16, 0, "p cnf 000000 0\n" },
    { 16, 0, "p cnf 100000 0\n" },
    { 16, 0, "p cnf 1 100000\n" },
    { 16, 0, "p cnf 1a 0\n" },
    { 16, 0, "e 1 0\np cnf 1 0\n" },
    { 16, 0, "1 0\np cnf 1 1\n" },
    { 16, 10, "p cnf 1 0\nc late\n" },
    { 16, 10, "p cnf 1 0\np cnf 1 0\n" },
    { 16, 10, "p cnf 1 0\n\n" },
    { 16, 10, "p cnf 1 0\n \n" },
    { 16, 10, "p cnf 1 0\ne 1\n" },
    { 16, 10, "p cnf 1 0\ne 1 0" },
    { 16, 10, "p cnf 1 0\ne\n" },
    { 16, 10, "p cnf 1 0\ne -1 0\n" },
    { 16, 10, "p cnf 1 0\ne 1 0 0\n" },
    { 16, 10, "p cnf 1 0\ne 0 1 0\n" },
    { 16, 10, "p cnf 1 0\ne 1 0 1\n" },
    { 16, 10, "p cnf 1 0\ne1 0\n" },
    { 16, 10, "p cnf 1 0\nx 1 0\n" },
    { 16, 10, "p cnf 1 0\ne -01 0\n" },
    { 16, 10, "p cnf 1 0\ne 00 1 0\n" },
    { 16, 10, "p cnf 1 0\ne 000001 0\n" },
    { 16, 10, "p cnf 1 0\ne 1 000000\n" },
    { 16, 10, "p cnf 1 0\ne 100000 0\n" },
    { 16, 10, "p cnf 1 1\n1\n" },
    { 16, 10, "p cnf 1 1\n1 0" },
    { 16, 10, "p cnf 1 1\n1 0 \r\n" },
    { 16, 10, "p cnf 1 1\n1\t0\n" },
    { 16, 10, "p cnf 1 1\n0 1\n" },
    { 16, 10, "p cnf 1 1\n0 0\n" },
    { 16, 10, "p cnf 1 1\n000 00\n" },
    { 16, 10, "p cnf 1 1\n000000\n" },
    { 16, 10, "p cnf 1 1\n000001 0\n" },
    { 16, 10, "p cnf 1 1\n-0\n" },
    { 16, 10, "p cnf 1 1\n-000\n" },
    { 16, 10, "p cnf 1 1\n1 -00000\n" },
    { 16, 10, "p cnf 1 1\n1 -000 0\n" },
    { 16, 10, "p cnf 1 1\n-\n" },
    { 16, 10, "p cnf 1 1\n- 1 0\n" },
    { 16, 10, "p cnf 1 1\n--1 0\n" },
    { 16, 10, "p cnf 1 1\n+1 0\n" },
    { 16, 10, "p cnf 1 1\n1- 0\n" },
    { 16, 10, "p cnf 1 1\n0-1 0\n" },
    { 16, 10, "p cnf 1 1\n-000001 0\n" },
    { 16, 10, "p cnf 1 1\n-100000 0\n" },
    { 16, 14, "p cnf 1 2\n1 0\ne 1 0\n" },
    { 16, 14, "p cnf 1 1\n1 0\n\n" },
    { 16, 14, "p cnf 1 1\n1 0\n1\n" },
    { 16, 14, "p cnf 1 1\n1 0\nc end\n" },
    { 16, 14, "p cnf 1 1\n1 0\n1 0" },
    { 17, 10, "p cnf 1 1\n" },
    { 17, 14, "p cnf 1 2\n1 0\n" },
    { 17, 10, "p cnf 1 0\n1 0\n" },
    { 17, 14, "p cnf 1 1\n1 0\n0\n" },
    { 17, 14, "p cnf 1 1\n1 0\n1 0\n1 0\n" },
    { 17, 16, "p cnf 1 0\ne 1 0\n1 0\nrubbish\n" },
    { 17, 16, "p cnf 1 9\na 1 0\n" },
};

static void refused_texts(void)
{
    uint32_t prefix[16], n, prefix_count, clauses_count;
    int32_t clauses[16];
    size_t k;

    memset(prefix, 0x5A, sizeof prefix);
    memset(clauses, 0x5A, sizeof clauses);
    for (k = 0; k < LEN(bad_texts); k++) {
        const struct bad_text *b = &bad_texts[k];
        const uint8_t *text = (const uint8_t *)b->text;

        about("bad text", (unsigned)k);
        expect_refused(call_read(text, strlen(b->text), &n, prefix, 16, &prefix_count, clauses, 16, &clauses_count),
                       b->number, b->place, "read");
        expect_refused(call_read(text, strlen(b->text), &n, NULL, 0, &prefix_count, NULL, 0, &clauses_count),
                       b->number, b->place, "read, before 14");
    }
}

/* A text within the rules, and what it reads as. Reading does not check what it fills. */
struct good_text {
    const char *text;
    uint32_t n;
    uint32_t prefix_count, prefix[10];
    uint32_t clauses_count;
    int32_t clauses[8];
};

static const struct good_text good_texts[] = {
    { "p cnf 0 0\n", 0, 0, { 0 }, 0, { 0 } },
    { "c\nccc\nc any bytes \t\r \xFF\np cnf 1 0\n", 1, 0, { 0 }, 0, { 0 } },
    { "  p  cnf   99999  1  \n  0  \n", 99999, 0, { 0 }, 1, { 0 } },
    { "p cnf 3 2\ne 1 0\na 2 0\ne 3 0\n 1 -2  0 \n-3 0\n", 3, 9, { 1, 1, 0, 2, 2, 0, 1, 3, 0 }, 5, { 1, -2, 0, -3, 0 } },
    { "p cnf 1 1\ne 0\na 0\n-99999 99999 0\n", 1, 4, { 1, 0, 2, 0 }, 3, { -99999, 99999, 0 } },
    { "p cnf 2 0\na 7 7 0\na 1 0\n", 2, 7, { 2, 7, 7, 0, 2, 1, 0 }, 0, { 0 } },
    { "p cnf 1 3\n0\n0\n0\n", 1, 0, { 0 }, 3, { 0, 0, 0 } },
    { "p cnf 5 1\ne 0004 0005 0\n-0004 00005 000\n", 5, 4, { 1, 4, 5, 0 }, 3, { -4, 5, 0 } },
    { "p cnf 0009 00005\n0\n00\n000\n0000\n00000\n", 9, 0, { 0 }, 5, { 0, 0, 0, 0, 0 } },
    { "p cnf 000 00\na 00000\n", 0, 2, { 2, 0 }, 0, { 0 } },
    { "p cnf 01 01\n-00001 00100 09090 00\n", 1, 0, { 0 }, 4, { -1, 100, 9090, 0 } },
};

static void accepted_texts(void)
{
    uint32_t prefix[10], n, prefix_count, clauses_count;
    int32_t clauses[10];
    size_t k;

    for (k = 0; k < LEN(good_texts); k++) {
        const struct good_text *g = &good_texts[k];

        about("good text", (unsigned)k);
        n = prefix_count = clauses_count = 0;
        memset(prefix, 0x5A, sizeof prefix);
        memset(clauses, 0x5A, sizeof clauses);
        expect_accepted(call_read((const uint8_t *)g->text, strlen(g->text), &n, prefix, 10, &prefix_count,
                                  clauses, 10, &clauses_count), "read");
        agree(n == g->n && prefix_count == g->prefix_count && clauses_count == g->clauses_count, "the counts");
        expect_rows(prefix, g->prefix, g->prefix_count, "the prefix");
        agree(memcmp(clauses, g->clauses, g->clauses_count * sizeof *clauses) == 0, "the clauses");
    }
}

/* Bytes that no text may hold outside a comment, the 0 byte among them. */
static void odd_bytes(void)
{
    uint8_t text[] = "p cnf 1 1\n1?0\n";
    uint32_t prefix[4], n, prefix_count, clauses_count;
    int32_t clauses[4] = { 0 };
    unsigned byte;

    memset(prefix, 0x5A, sizeof prefix);
    for (byte = 0; byte < 256; byte++) {
        struct verdict v;

        about("byte", byte);
        text[11] = (uint8_t)byte;
        v = call_read(text, sizeof text - 1, &n, prefix, 4, &prefix_count, clauses, 4, &clauses_count);
        if (byte == ' ')
            expect_accepted(v, "read");
        else
            expect_refused(v, 16, 10, "read");
    }
}

void test_qdimacs_texts(void)
{
    group("texts outside the rules");
    refused_texts();
    group("texts within the rules");
    accepted_texts();
    group("every byte between two numbers");
    odd_bytes();
}
