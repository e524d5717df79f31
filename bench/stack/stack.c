/*
 * How much of the stack each call takes, on a formula at the limits. The part of the stack under the caller's frame is filled with one byte, the
 * call is made, and the lowest byte that is another then is as deep as the call went. Prints a line for each call: its name, and bytes under
 * rule 1 and under rule 2.
 */
#include <stdio.h>
#include <stdlib.h>

#include "snowcoddle.h"

enum { PAINTED = 2 * 1024 * 1024, SKIPPED = 512, COLOUR = 0xA5, BLOCKS = 64, EXISTENTIAL = 1, UNIVERSAL = 2 };

/* The formula: 64 blocks of as many variables each, the first universal, and clauses of three literals; and what calls fill. */
static uint32_t n, prefix[SNOW_MOST_PREFIX], prefix_len, count, place, other, x;
static int32_t clauses[SNOW_MOST_CLAUSES];
static uint32_t clauses_len, classes[SNOW_MOST_VARIABLES], parents[SNOW_MOST_VARIABLES], counts[SNOW_MOST_VARIABLES];
static struct snow_tally tally;
static uint32_t out[SNOW_MOST_VARIABLES * 64], out_prefix[SNOW_MOST_PREFIX];
static int32_t out_clauses[SNOW_MOST_CLAUSES];
static uint8_t text[SNOW_MOST_TEXT], file[SNOW_MOST_FILE];
static uint32_t text_len, file_len;

static uint32_t rule, answer;

static void fill(uint32_t variables, uint32_t entries)
{
    uint32_t block, v, i;
    n = variables;
    prefix_len = clauses_len = 0;
    for (block = 0; block < BLOCKS; block++) {
        prefix[prefix_len++] = block % 2 ? EXISTENTIAL : UNIVERSAL;
        for (v = block * (n / BLOCKS) + 1; v <= (block + 1) * (n / BLOCKS); v++) prefix[prefix_len++] = v;
        prefix[prefix_len++] = 0;
    }
    for (i = 0; clauses_len + 4 <= entries; i++) {
        for (v = 0; v < 3; v++) {
            int32_t variable = (int32_t)((i * 7 + v * (n / BLOCKS) * (i / n + 1)) % n) + 1;
            clauses[clauses_len++] = (i + v) % 3 ? variable : -variable;
        }
        clauses[clauses_len++] = 0;
    }
    x = 1;
}

/*
 * For resolution paths: each variable is equal to the next, and the last leads back to the first, so that a walk passes all literals of both
 * signs, one inside the other.
 */
static void fill_chain(uint32_t variables, uint32_t entries)
{
    int32_t v;
    (void)entries;
    n = variables;
    prefix_len = clauses_len = 0;
    prefix[prefix_len++] = UNIVERSAL;
    prefix[prefix_len++] = 1;
    prefix[prefix_len++] = 0;
    prefix[prefix_len++] = EXISTENTIAL;
    for (v = 2; v <= (int32_t)n; v++) prefix[prefix_len++] = (uint32_t)v;
    prefix[prefix_len++] = 0;
    clauses[clauses_len++] = (int32_t)n;
    clauses[clauses_len++] = 2;
    clauses[clauses_len++] = 0;
    for (v = 1; v < (int32_t)n; v++) {
        const int32_t equal[] = {v, -(v + 1), 0, -v, v + 1, 0};
        uint32_t i;
        for (i = 0; i < 6; i++) clauses[clauses_len++] = equal[i];
    }
    x = 1;
}

#define FORMULA rule, n, prefix, prefix_len, clauses, clauses_len
#define FOREST classes, n, parents, n, counts, n

static uint32_t check(void) { return snow_check(FORMULA, &place); }
static uint32_t build(void) { return snow_build(FORMULA, FOREST, &tally, &count, &place); }
static uint32_t entry_points(void) { return snow_entry_points(FORMULA, FOREST, x, out, n, &count, &place); }
static uint32_t entry_points_standard(void) { return snow_entry_points_by(rule, SNOW_STANDARD, n, prefix, prefix_len, clauses, clauses_len, FOREST, x, out, n, &count, &place); }
static uint32_t entry_point(void) { return snow_entry_point(rule, n, prefix, prefix_len, FOREST, x, n / BLOCKS + 1, &count, &other, &place); }
static uint32_t set(void) { return snow_set(FORMULA, FOREST, x, out, n, &count, &place); }
static uint32_t set_standard(void) { return snow_set_by(rule, SNOW_STANDARD, n, prefix, prefix_len, clauses, clauses_len, FOREST, x, out, n, &count, &place); }
static uint32_t size(void) { return snow_size(FORMULA, FOREST, x, &count, &place); }
static uint32_t sets(void) { return snow_sets(FORMULA, FOREST, out, sizeof out / sizeof *out, &count, &place); }
static uint32_t sets_standard(void) { return snow_sets_by(rule, SNOW_STANDARD, n, prefix, prefix_len, clauses, clauses_len, FOREST, out, sizeof out / sizeof *out, &count, &place); }
static uint32_t add(void)
{
    static const int32_t clause[] = {1, 2, -3};
    return snow_add(rule, n, prefix, prefix_len, FOREST, &tally, clause, 3, &place);
}
static uint32_t clause_at(void) { return snow_clause(n, clauses, clauses_len, 1000, &count, &other, &place); }
static uint32_t write_text(void) { return snow_write(FORMULA, text, sizeof text, &text_len, &place); }
static uint32_t read_text(void)
{
    static uint32_t entries, literals;
    return snow_read(text, text_len, &other, out_prefix, SNOW_MOST_PREFIX, &entries, out_clauses, SNOW_MOST_CLAUSES, &literals, &place);
}
static uint32_t check_lists(void) { return snow_check_lists(FORMULA, NULL, 0, &place); }
static uint32_t listed_set(void) { return snow_listed_set_by(rule, SNOW_STRICT, n, prefix, prefix_len, clauses, clauses_len, NULL, 0, x, out, n, &count, &place); }
static uint32_t write_lists(void) { return snow_write_lists(FORMULA, NULL, 0, text, sizeof text, &text_len, &place); }
static uint32_t read_lists(void)
{
    static uint32_t entries, literals, listed;
    return snow_read_lists(text, text_len, &other, out_prefix, SNOW_MOST_PREFIX, &entries, out_clauses, SNOW_MOST_CLAUSES, &literals, out,
                           SNOW_MOST_LISTS, &listed, &place);
}
static uint32_t store(void) { return snow_store(FORMULA, file, sizeof file, &file_len, &place); }
static uint32_t load(void)
{
    static uint32_t entries, literals, with_sets;
    return snow_load(rule, file, file_len, &other, out_prefix, SNOW_MOST_PREFIX, &entries, out_clauses, SNOW_MOST_CLAUSES, &literals, FOREST,
                     &with_sets, &place);
}
static uint32_t path(void)
{
    static const uint32_t numbers[] = {0};
    static size_t at;
    return snow_path(FORMULA, x, n / BLOCKS + 1, numbers, 1, &at);
}
static uint32_t expand(void)
{
    static uint32_t entries, literals;
    return snow_expand(FORMULA, x, &other, out_prefix, SNOW_MOST_PREFIX, &entries, out_clauses, SNOW_MOST_CLAUSES, &literals, &place);
}
static uint32_t resolution_set(void) { return snow_resolution_set(FORMULA, x, out, n, &count, &place); }

/* The bytes that a call takes below this frame. */
static long __attribute__((noinline)) taken(uint32_t (*call)(void))
{
    volatile unsigned char *top = (volatile unsigned char *)__builtin_frame_address(0) - SKIPPED;
    volatile unsigned char *low = top - PAINTED;
    volatile unsigned char *p;
    for (p = top; p > low; ) *--p = COLOUR;
    answer = call();
    for (p = low; p < top && *p == COLOUR; ) p++;
    return top - p + SKIPPED;
}

/* With so many variables and clause entries: fewer where a text, or what expanding gives, would be over its own limit. */
static const struct measured {
    const char *name;
    uint32_t (*call)(void);
    uint32_t variables, entries;
    void (*fill)(uint32_t variables, uint32_t entries);
} calls[] = {
    {"check", check, SNOW_MOST_VARIABLES, SNOW_MOST_CLAUSES, fill},
    {"build", build, SNOW_MOST_VARIABLES, SNOW_MOST_CLAUSES, fill},
    {"clause", clause_at, SNOW_MOST_VARIABLES, SNOW_MOST_CLAUSES, fill},
    {"entry point", entry_point, SNOW_MOST_VARIABLES, SNOW_MOST_CLAUSES, fill},
    {"entry points", entry_points, SNOW_MOST_VARIABLES, SNOW_MOST_CLAUSES, fill},
    {"entry points, standard", entry_points_standard, SNOW_MOST_VARIABLES, SNOW_MOST_CLAUSES, fill},
    {"set", set, SNOW_MOST_VARIABLES, SNOW_MOST_CLAUSES, fill},
    {"set, standard", set_standard, SNOW_MOST_VARIABLES, SNOW_MOST_CLAUSES, fill},
    {"size", size, SNOW_MOST_VARIABLES, SNOW_MOST_CLAUSES, fill},
    {"all sets", sets, SNOW_MOST_VARIABLES, SNOW_MOST_CLAUSES, fill},
    {"all sets, standard", sets_standard, SNOW_MOST_VARIABLES, SNOW_MOST_CLAUSES, fill},
    {"add", add, SNOW_MOST_VARIABLES, SNOW_MOST_CLAUSES, fill},
    {"read", read_text, SNOW_MOST_VARIABLES, SNOW_MOST_CLAUSES / 4, fill},
    {"write", write_text, SNOW_MOST_VARIABLES, SNOW_MOST_CLAUSES / 4, fill},
    {"check with lists", check_lists, SNOW_MOST_VARIABLES, SNOW_MOST_CLAUSES, fill},
    {"set by lists", listed_set, SNOW_MOST_VARIABLES, SNOW_MOST_CLAUSES, fill},
    {"read with lists", read_lists, SNOW_MOST_VARIABLES, SNOW_MOST_CLAUSES / 4, fill},
    {"write with lists", write_lists, SNOW_MOST_VARIABLES, SNOW_MOST_CLAUSES / 4, fill},
    {"store", store, SNOW_MOST_VARIABLES, SNOW_MOST_CLAUSES, fill},
    {"load", load, SNOW_MOST_VARIABLES, SNOW_MOST_CLAUSES, fill},
    {"path check", path, SNOW_MOST_VARIABLES, SNOW_MOST_CLAUSES, fill},
    {"expand", expand, SNOW_MOST_VARIABLES / 2, SNOW_MOST_CLAUSES / 2, fill},
    {"resolution-path set", resolution_set, SNOW_MOST_PATH_VARIABLES, SNOW_MOST_CLAUSES, fill_chain},
};

int main(void)
{
    size_t i;
    for (i = 0; i < sizeof calls / sizeof *calls; i++) {
        const struct measured *m = &calls[i];
        long bytes[2];
        for (rule = SNOW_PLAIN; rule <= SNOW_JOINED; rule++) {
            m->fill(m->variables, m->entries);
            build();
            write_text();
            store();
            bytes[rule - 1] = taken(m->call);
            if (answer != 0) {
                printf("%s is refused as %u at %u\n", m->name, (unsigned)answer, (unsigned)place);
                return 1;
            }
        }
        printf("%-24s %8ld %8ld\n", m->name, bytes[0], bytes[1]);
    }
    return 0;
}
