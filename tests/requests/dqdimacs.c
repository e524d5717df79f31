/*
 * DQDIMACS, text with dependency lists: read and write, by hand and on random
 * texts as drawn and damaged, against a judge of lines and a writer that are
 * written from rule 9.1 and rule 13.4.
 */
#include <string.h>

#include "comparisons.h"
#include "conformance.h"
#include "expect.h"
#include "generator.h"
#include "judge_dqdimacs.h"
#include "list_calls.h"
#include "text_buffer.h"

enum {
    ROUNDS = 4000,     /* random texts */
    MOST_N = 12        /* their variables */
};

/* What check with lists says, which dependency_lists.c holds against a judge. */
static struct verdict check_lists(uint32_t rule, const struct listed_formula *h)
{
    struct verdict v = { 0, 0 };
    uint32_t at = 0;

    v.number = snow_check_lists(rule, h->n, h->prefix, h->prefix_len, h->clauses, h->clauses_len, h->lists, h->lists_len, &at);
    v.place = v.number != 0 ? at : 0;
    return v;
}

static int same_tables(const struct listed_formula *a, const struct listed_formula *b)
{
    return a->n == b->n && a->prefix_len == b->prefix_len && a->clauses_len == b->clauses_len && a->lists_len == b->lists_len
        && memcmp(a->prefix, b->prefix, a->prefix_len * sizeof *a->prefix) == 0
        && memcmp(a->clauses, b->clauses, a->clauses_len * sizeof *a->clauses) == 0
        && memcmp(a->lists, b->lists, a->lists_len * sizeof *a->lists) == 0;
}

static struct listed_formula judged, got;

/* Room for what is to be read, and some more. */
static void make_room(void)
{
    memset(&got, 0x5A, sizeof got);
    got.prefix_len = judged.prefix_len + draw(3);
    got.clauses_len = judged.clauses_len + draw(3);
    got.lists_len = judged.lists_len + draw(3);
}

/* Each table an entry too short. */
static void compare_room(const struct text *t)
{
    if (judged.prefix_len > 0) {
        make_room();
        got.prefix_len = judged.prefix_len - 1;
        expect_refused(call_read_lists(t->bytes, t->length, &got), 14, 0, "read lists");
    }
    if (judged.clauses_len > 0) {
        make_room();
        got.clauses_len = judged.clauses_len - 1;
        expect_refused(call_read_lists(t->bytes, t->length, &got), 14, 0, "read lists");
    }
    if (judged.lists_len > 0) {
        make_room();
        got.lists_len = judged.lists_len - 1;
        expect_refused(call_read_lists(t->bytes, t->length, &got), 14, 0, "read lists");
    }
}

static uint32_t written_seen, refused_seen;

/* What was read, written under a rule: refused as check with lists refuses it, or the text by the rules, which reads back. */
static void compare_write(uint32_t rule)
{
    static struct text expected;
    static uint8_t out[TEXT_BYTES];
    struct verdict v = check_lists(rule, &judged);
    uint32_t count = 0;
    size_t room;

    dqdimacs_of(&judged, &expected);
    memset(out, 0x5A, sizeof out);
    room = expected.length + draw(3);
    expect_verdict(call_write_lists(rule, &judged, out, room, &count), v, "write lists");
    written_seen += v.number == 0;
    refused_seen += v.number != 0;
    if (v.number != 0)
        return;
    agree(count == expected.length && memcmp(out, expected.bytes, count) == 0, "the text is the one by the rules");
    expect_refused(call_write_lists(rule, &judged, out, expected.length - 1, &count), 14, 0, "write lists");
    make_room();
    expect_accepted(call_read_lists(expected.bytes, expected.length, &got), "read what was written");
    agree(same_tables(&got, &judged), "it reads back");
}

static void compare(const struct text *t)
{
    struct verdict v = judge_dqdimacs(t->bytes, t->length, &judged);

    make_room();
    if (v.number != 0)
        got.prefix_len = got.clauses_len = got.lists_len = draw(LISTED_ENTRIES);
    expect_verdict(call_read_lists(t->bytes, t->length, &got), v, "read lists");
    if (v.number != 0)
        return;
    agree(same_tables(&got, &judged), "n and the tables are those of the text");
    compare_room(t);
    compare_write(SNOW_PLAIN);
    compare_write(SNOW_JOINED);
    compare_write(3 + draw(5));
}

/* A space or more, and a number that may be padded. */
static void put_drawn(struct text *t, long value)
{
    text_put(t, draw(8) == 0 ? "   " : " ");
    if (value < 0) {
        text_put(t, "-");
        value = -value;
    }
    text_put(t, draw(8) == 0 ? "00" : "");
    text_put_number(t, value);
}

/* A text with blocks, lists and clauses; now and then lists of what is placed, or of no universals. */
static void draw_text(struct text *t)
{
    uint32_t n = 1 + draw(MOST_N), m = draw(6), order[MOST_N], k, at = 0, blocks = draw(4), universal = draw(2);
    uint32_t first[5] = { 0 }, kind[5];

    t->length = 0;
    for (k = 0; k < n; k++)
        order[k] = k + 1;
    for (k = n; k > 1; k--) {
        uint32_t other = draw(k), kept = order[k - 1];

        order[k - 1] = order[other];
        order[other] = kept;
    }
    for (k = draw(3); k > 0; k--)
        text_put(t, draw(2) ? "c d 1 2 0\n" : "c\n");
    text_put(t, "p cnf");
    put_drawn(t, n);
    put_drawn(t, m);
    text_put(t, "\n");
    for (k = 0; k < blocks && at < n; k++) {
        uint32_t size = 1 + draw(3);

        first[k] = at;
        kind[k] = universal;
        text_put(t, universal ? "a" : "e");
        while (size-- > 0 && at < n)
            put_drawn(t, order[at++]);
        put_drawn(t, 0);
        text_put(t, "\n");
        first[k + 1] = at;
        universal = draw(6) == 0 ? universal : 1 - universal;
    }
    blocks = k;
    for (; at < n; at++) {
        if (draw(4) == 0)
            continue;
        text_put(t, draw(8) == 0 ? "  d" : "d");
        put_drawn(t, draw(20) == 0 ? 1 + draw(n) : order[at]);
        for (k = 0; k < blocks; k++) {
            uint32_t v;

            for (v = first[k]; v < first[k + 1]; v++)
                if ((kind[k] && draw(3) != 0) || draw(40) == 0)
                    put_drawn(t, order[v]);
        }
        put_drawn(t, 0);
        text_put(t, "\n");
    }
    for (k = 0; k < m; k++) {
        uint32_t size = draw(4);

        while (size-- > 0)
            put_drawn(t, draw_literal(n));
        put_drawn(t, 0);
        text_put(t, "\n");
    }
}

/* Two lines change places. */
static void swap_lines(struct text *t)
{
    static uint8_t kept[TEXT_BYTES];
    size_t a, b, c;

    for (a = draw((uint32_t)t->length); a > 0 && t->bytes[a - 1] != '\n'; a--)
        ;
    for (b = a; b < t->length && t->bytes[b] != '\n'; b++)
        ;
    if (b + 1 >= t->length)
        return;
    for (c = b + 1; c < t->length && t->bytes[c] != '\n'; c++)
        ;
    if (c == t->length)
        return;
    memcpy(kept, t->bytes + a, b + 1 - a);
    memmove(t->bytes + a, t->bytes + b + 1, c - b);
    memcpy(t->bytes + a + (c - b), kept, b + 1 - a);
}

static void read_by_hand(const char *bytes, uint32_t number, uint32_t at)
{
    static struct text t;
    struct verdict expected = { number, at };

    t.length = 0;
    text_put(&t, bytes);
    about(bytes, number);
    make_room();
    got.prefix_len = got.clauses_len = got.lists_len = 50;
    expect_verdict(call_read_lists(t.bytes, t.length, &got), expected, "read lists");
    compare(&t);
}

static void by_hand(void)
{
    read_by_hand("p cnf 3 1\na 1 0\nd 3 1 0\n3 -1 0\n", 0, 0);
    read_by_hand("p cnf 3 1\na 1 0\nd 3 0\n3 -1 0\n", 0, 0);
    read_by_hand("p cnf 3 0\nd 3 0\n", 0, 0);
    read_by_hand("p cnf 3 0\nd 0003 001 000\n", 0, 0);
    read_by_hand("p cnf 3 0\nd 3 1 0\nd 3 1 1 0\nd 99999 0\n", 0, 0);  /* reading does not check */
    read_by_hand("p cnf 3 0\nd 0\n", 16, 10);
    read_by_hand("p cnf 3 0\nd\n", 16, 10);
    read_by_hand("p cnf 3 0\nd 3 1\n", 16, 10);
    read_by_hand("p cnf 3 0\nd 3 0 1 0\n", 16, 10);
    read_by_hand("p cnf 3 0\nd 3 -1 0\n", 16, 10);
    read_by_hand("p cnf 3 0\nd 3 100000 0\n", 16, 10);
    read_by_hand("p cnf 3 0\nd 3 0", 16, 10);
    read_by_hand("p cnf 3 0\ndd 3 0\n", 16, 10);
    read_by_hand("d 3 0\np cnf 3 0\n", 16, 0);
    read_by_hand("p cnf 3 0\nd 3 0\ne 1 0\n", 16, 16);
    read_by_hand("p cnf 3 1\n1 0\nd 3 0\n", 16, 14);
    read_by_hand("p cnf 3 1\nd 3 0\n", 17, 16);
    read_by_hand("p cnf 3 0\nd 3 0\n1 0\n", 17, 16);
}

void test_dqdimacs(void)
{
    static struct text t;
    uint32_t k;

    group("text with dependency lists by hand");
    by_hand();
    group("random texts with dependency lists");
    for (k = 0; k < ROUNDS; k++) {
        about("text", k);
        draw_text(&t);
        if (k % 4 == 1)
            t.length = damage_text(t.bytes, t.length, TEXT_BYTES);
        if (k % 4 == 2)
            swap_lines(&t);
        compare(&t);
    }
    agree(written_seen > ROUNDS / 4 && refused_seen > ROUNDS / 10, "texts of both kinds were written");
}
