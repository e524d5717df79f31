/*
 * Files of a forest: written ones against the bytes that the rules say, read
 * ones, with sets and without, against the judge, damaged in any place with
 * the sum closed again or not; every file that is accepted written again; and
 * each refusal by hand.
 */
#include <string.h>

#include "comparisons.h"
#include "conformance.h"
#include "expect.h"
#include "generator.h"
#include "judge_file.h"
#include "judge_tables.h"

enum { ROUNDS = 400, DAMAGES = 12 };

static uint8_t file[MOST_FILE + 2], made[MOST_FILE + 2], again[MOST_FILE + 2], without[MOST_FILE + 2];
static struct filed judged;

/* What reading fills: tables with some rows more than are needed. */
static uint32_t prefix[ROOM + 8], class_rows[ROOM], parent_rows[ROOM], count_rows[ROOM];
static int32_t clauses[ROOM + 8];

static struct loaded tables(void)
{
    struct loaded t = { 0, prefix, ROOM, 0, clauses, ROOM, 0, { class_rows, SMALL + 2, parent_rows, SMALL + 2, count_rows, SMALL + 2, { 0, 0, 0 } }, 9 };

    return t;
}

/* Whether the rows of a file's third record, which was judged right, are those that were read. */
static int same_rows(const uint8_t *from, uint32_t n)
{
    static uint8_t rows[12 * SMALL];
    const uint32_t *table[3];
    uint32_t t, v, k, at = 0;

    table[0] = class_rows;
    table[1] = parent_rows;
    table[2] = count_rows;
    for (t = 0; t < 3; t++)
        for (v = 0; v < n; v++)
            for (k = 0; k < 4; k++)
                rows[at++] = (uint8_t)(table[t][v] >> 8 * k);
    return memcmp(rows, from, at) == 0;
}

/* A file without its record of kind 4, if it has one, and with the sum closed again; gives its length. */
static size_t drop_sets(const uint8_t *from, size_t length, uint8_t *to)
{
    size_t at, size, kept = 0;

    for (at = 0; at < length; at += size) {
        size = 6 + (from[at] | (size_t)from[at + 1] << 8 | (size_t)from[at + 2] << 16 | (size_t)from[at + 3] << 24);
        if (from[at + 4] == 4 && from[at + 5] == 0)
            continue;
        memcpy(to + kept, from + at, size);
        kept += size;
    }
    close_sum(to, kept);
    return kept;
}

/* Writes again what was read from a file: the same bytes, but for kind 4 and the closing word that goes with it. */
static void compare_again(const uint8_t *from, size_t length, const struct loaded *t)
{
    struct formula f = { t->n, t->prefix, t->prefix_count, t->clauses, t->clauses_count };
    size_t kept = drop_sets(from, length, without);
    uint32_t count = 0;

    expect_accepted(call_store(&f, again, kept, &count), "store again");
    agree(count == kept && memcmp(again, without, kept) == 0, "the bytes of the file written again");
    agree(t->with_sets == (kept != length) && (t->with_sets || memcmp(again, from, length) == 0), "a file without sets stays as it is");
}

/* Reads a file that the judge knows, and compares all that it fills. */
static void compare_load(const uint8_t *from, size_t length)
{
    struct loaded t = tables();
    struct verdict v = judge_file(from, length, &judged);
    size_t third;

    memset(prefix, 0x5A, sizeof prefix);
    memset(clauses, 0x5A, sizeof clauses);
    expect_verdict(call_load(from, length, &t), v, "load");
    if (v.number != 0)
        return;
    agree(t.n == judged.f.n && t.prefix_count == judged.f.prefix_len && t.clauses_count == judged.f.clauses_len
          && t.with_sets == judged.with_sets, "n, the counts, and whether sets were there");
    agree(memcmp(prefix, judged.prefix, judged.f.prefix_len * sizeof *prefix) == 0
          && memcmp(clauses, judged.clauses, judged.f.clauses_len * sizeof *clauses) == 0, "the prefix and the clauses");
    third = 8 + 2 * judged.f.prefix_len + 6 + 4 * judged.f.clauses_len + 6;
    agree(same_rows(from + third, t.n), "the rows");
    compare_again(from, length, &t);
}

/* 14: each table one row too short; and where all just suffice, none is. */
static void compare_rooms(const uint8_t *from, size_t length, const struct formula *f)
{
    uint32_t k;

    for (k = 0; k <= 5; k++) {
        struct loaded t = tables();
        size_t need[5];
        int cut;

        need[0] = f->prefix_len;
        need[1] = f->clauses_len;
        need[2] = need[3] = need[4] = f->n;
        cut = k < 5 && need[k] > 0;
        if (k < 5 && !cut)
            continue;
        if (cut)
            need[k]--;
        t.prefix_len = need[0];
        t.clauses_len = need[1];
        t.rows.classes_len = need[2];
        t.rows.parents_len = need[3];
        t.rows.counts_len = need[4];
        about("table", k);
        if (cut)
            expect_refused(call_load(from, length, &t), 14, 0, "load");
        else
            expect_accepted(call_load(from, length, &t), "load");
    }
}

/* Store, against the bytes of the rules; and with a table that is one byte too short. */
static void compare_store(const struct formula *f)
{
    uint32_t count = 0;
    size_t length = file_of(f, 0, made);

    memset(file, 0x5A, length + 2);
    expect_accepted(call_store(f, file, length + draw(3), &count), "store");
    agree(count == length && memcmp(file, made, length) == 0, "the bytes of the file");
    expect_refused(call_store(f, file, length - 1, &count), 14, 0, "store");
}

/* A byte or a word changed, a tail cut off, or bytes put behind; gives the length. */
static size_t damage(uint8_t *bytes, size_t length)
{
    size_t at = draw((uint32_t)length), k;

    switch (draw(6)) {
    case 0: return at;
    case 1:
        for (k = draw(9); k > 0; k--)
            bytes[length++] = (uint8_t)draw(3);
        return length;
    case 2: bytes[at] = (uint8_t)draw(256); return length;
    case 3: bytes[at] ^= (uint8_t)(1 << draw(8)); return length;
    case 4: bytes[at] = (uint8_t)draw(4); return length;
    default:
        at -= at % 2;
        bytes[at] = (uint8_t)draw(256);
        bytes[at + 1 < length ? at + 1 : at] = (uint8_t)draw(2);
        return length;
    }
}

/* One word changed by any amount: always refused. */
static void compare_word(size_t length)
{
    size_t at = 2 * draw((uint32_t)length / 2);
    uint32_t by = 1 + draw(65535), word = made[at] + 256u * made[at + 1] + by;
    struct loaded t = tables();

    memcpy(file, made, length);
    file[at] = (uint8_t)word;
    file[at + 1] = (uint8_t)(word >> 8);
    agree(call_load(file, length, &t).number != 0, "a file with one word changed is refused");
    compare_load(file, length);
}

static void compare_file(const struct formula *f, int with_sets)
{
    size_t length, now;
    uint32_t times;

    compare_store(f);
    length = file_of(f, with_sets, made);
    compare_load(made, length);
    compare_rooms(made, length, f);
    compare_word(length);
    for (times = 0; times < DAMAGES; times++) {
        memcpy(file, made, length);
        now = damage(file, length);
        if (draw(4) != 0)
            close_sum(file, now);
        if (judge_file(file, now, &judged).number == 0 && judged.f.n > SMALL)
            continue;
        compare_load(file, now);
    }
}

/* The file of formula A, without sets: its records begin at 0, 46, 116 and 230. */
static void refused_by_hand(void)
{
    struct loaded t = tables();
    size_t length = file_of(&formula_a, 0, made), with = file_of(&formula_a, 1, file);

    agree(length == 238 && with == 260, "the lengths of the files of A");
    expect_refused(call_load(NULL, 0, &t), 20, 0, "load, empty file");
    expect_refused(call_load(made, 5, &t), 19, 0, "load, head cut");
    expect_refused(call_load(made, 237, &t), 19, 230, "load, payload cut");
    expect_refused(call_load(made, 230, &t), 20, 230, "load, kind 65,535 missing");
    memset(file, 0, sizeof file);
    expect_refused(call_load(file, MOST_FILE + 1, &t), 19, 0, "load, too long");
    expect_refused(call_load(file, MOST_FILE, &t), 19, 262140, "load, the last head cut");
    expect_refused(call_load(file, 262140, &t), 20, 0, "load, kind 0");
    memcpy(file, made, length);
    file[50] = 3;
    expect_refused(call_load(file, length, &t), 20, 46, "load, kind 3 in place of 2");
    memcpy(file, made, length);
    file[6] = 10;
    expect_refused(call_load(file, length, &t), 21, 0, "load, sum");
    close_sum(file, length);
    expect_refused(call_load(file, length, &t), 22, 116, "load, rows of another n");
    memcpy(file, made, length);
    file[122] = 2;
    close_sum(file, length);
    expect_refused(call_load(file, length, &t), 22, 116, "load, a row");
    memcpy(file, made, length);
    file[6] = 1;
    close_sum(file, length);
    expect_refused(call_load(file, length, &t), 7, 2, "load, a variable over n");
    with = file_of(&formula_a, 1, made);
    memcpy(file, made, with);
    file[238] = 5;
    close_sum(file, with);
    expect_refused(call_load(file, with, &t), 22, 230, "load, a set");
    expect_refused(call_store(&formula_a, file, 237, &t.n), 14, 0, "store");
}

/* Puts a two-byte number at a place of a file. */
static void put_two(uint8_t *at, size_t number)
{
    at[0] = (uint8_t)number;
    at[1] = (uint8_t)(number >> 8);
}

/* A file with a record of kind 4 in front of its last one: for each of so many universals the thousand existentials behind them. Gives its length. */
static size_t insert_sets(uint8_t *bytes, size_t length, uint32_t universals)
{
    size_t size = 2004 * (size_t)universals;
    uint8_t *at = bytes + length - 8;
    uint32_t x, k;

    memmove(at + 6 + size, at, 8);
    put_two(at, size);
    put_two(at + 2, size >> 16);
    put_two(at + 4, 4);
    at += 6;
    for (x = 1; x <= universals; x++) {
        put_two(at, x);
        put_two(at + 2, 1000);
        for (k = 1; k <= 1000; k++)
            put_two(at + 2 + 2 * k, universals + k);
        at += 2004;
    }
    close_sum(bytes, length + 6 + size);
    return length + 6 + size;
}

/* Universals that all share a clause with one of a thousand existentials of one class: every set has all thousand. */
static void compare_wide(uint32_t universals)
{
    static uint32_t entries[1500], rows[3][1500];
    static int32_t literals[1500];
    static uint8_t wide[2 * MOST_FILE];
    uint32_t v, n = universals + 1000, count = 0;
    struct formula f = { n, entries, 0, literals, 0 };
    struct loaded t = { 0, entries, LEN(entries), 0, literals, LEN(literals), 0, { rows[0], n, rows[1], n, rows[2], n, { 0, 0, 0 } }, 9 };
    size_t length;

    about("universals", universals);
    entries[f.prefix_len++] = 2;
    for (v = 1; v <= n; v++) {
        if (v == universals + 1) {
            entries[f.prefix_len++] = 0;
            entries[f.prefix_len++] = 1;
        }
        entries[f.prefix_len++] = v;
    }
    entries[f.prefix_len++] = 0;
    for (v = 1; v <= n; v++) {
        literals[f.clauses_len++] = (int32_t)v;
        if (v == universals + 1) {
            literals[f.clauses_len++] = 0;
            literals[f.clauses_len++] = (int32_t)v;
        }
    }
    literals[f.clauses_len++] = 0;
    expect_accepted(call_store(&f, wide, MOST_FILE, &count), "store");
    agree(count == 8 + 2 * f.prefix_len + 6 + 4 * f.clauses_len + 6 + 12 * n + 8, "the length of the file");
    length = insert_sets(wide, count, universals);
    if (length > MOST_FILE) {
        expect_refused(call_load(wide, length, &t), 19, 0, "load, with sets");
        return;
    }
    expect_accepted(call_load(wide, length, &t), "load, with sets");
    agree(t.with_sets == 1, "sets were there");
    compare_again(wide, length, &t);
    put_two(wide + length - 10, n - 1);
    close_sum(wide, length);
    expect_refused(call_load(wide, length, &t), 22, count - 8, "load, the last number of a set");
}

/* Files of random formulas by the rule that the calls are asked for, and formulas that it refuses. */
static void random_files(const char *files, const char *refused)
{
    static struct drawn d;
    uint32_t round, count;

    group(files);
    for (round = 0; round < ROUNDS; round++) {
        about("file", round);
        draw_formula(&d);
        if (reading_rule == SNOW_JOINED && round % 4 != 0)
            draw_spread(&d);
        if (judge_formula(&d.f).number == 0 && d.f.n <= SMALL)
            compare_file(&d.f, round % 3 != 0);
    }
    group(refused);
    for (round = 0; round < ROUNDS; round++) {
        about("file", round);
        draw_formula(&d);
        if (reading_rule == SNOW_JOINED)
            draw_spread(&d);
        damage_formula(&d);
        if (judge_formula(&d.f).number != 0)
            expect_verdict(call_store(&d.f, file, 4, &count), judge_formula(&d.f), "store");
    }
}

void test_stored_files(void)
{
    group("files of formula A");
    refused_by_hand();
    group("files with long sets");
    compare_wide(120);
    compare_wide(130);
    random_files("files of random formulas, and damaged", "files of formulas that are refused");
    reading_rule = SNOW_JOINED;
    random_files("files with joined prefixes, and damaged", "files of formulas with joined prefixes that are refused");
    reading_rule = SNOW_PLAIN;
}
