/* Written-out cases of read and write. */
#include <string.h>

#include "cases.h"
#include "comparisons.h"

/* The text that holds; the longest is one byte too long for a call. */
static uint8_t text[SNOW_MOST_TEXT + 16];
static size_t text_length;

/* The byte that one of a line stands for. */
static uint8_t meant(char byte)
{
    switch (byte) {
    case '/': return '\n';
    case '^': return '\t';
    case '~': return '\r';
    case '_': return ' ';
    default: return (uint8_t)byte;
    }
}

/* A byte more; only counted where it does not fit. */
static void put(uint8_t byte)
{
    if (text_length < sizeof text)
        text[text_length] = byte;
    text_length++;
}

static void put_meant(enum given_name name)
{
    const char *words = given(name)->words;

    while (*words != '\0')
        put(meant(*words++));
}

/* A word and a space, as often as is said behind it; nothing where there is no word. */
static int put_filler(void)
{
    const char *line = given(GIVEN_FILL)->words;
    struct word filler, times, more;
    uint32_t left;
    size_t i;

    if (!next_word(&line, &filler))
        return 1;
    if (!next_word(&line, &times) || !read_number(times, &left) || next_word(&line, &more) || left > sizeof text)
        return 0;
    for (; left > 0; left--) {
        for (i = 0; i < filler.length; i++)
            put((uint8_t)filler.at[i]);
        put(' ');
    }
    return 1;
}

/* Puts the text together; 0, with a disagreement, if that cannot be done. */
static int put_text(void)
{
    int filled;

    text_length = 0;
    put_meant(GIVEN_TEXT);
    filled = put_filler();
    put_meant(GIVEN_TAIL);
    agree(filled && text_length <= sizeof text, "the text is understood and fits");
    return filled && text_length <= sizeof text;
}

/* Read, into tables of as many rows as there is room for: the formula that holds. */
void case_read(const struct claim *c)
{
    static uint32_t prefix[MOST_GIVEN];
    static int32_t clauses[MOST_GIVEN];
    struct formula f = given_formula();
    const uint32_t *rooms = given(GIVEN_ROOMS)->numbers;
    uint32_t n = 0, prefix_count = 0, clauses_count = 0;
    int fits = rooms[0] <= LEN(prefix) && rooms[1] <= LEN(clauses);

    agree(fits, "there are as many rows as the case asks for");
    if (!fits || !put_text())
        return;
    memset(prefix, 0x5A, sizeof prefix);
    memset(clauses, 0x5A, sizeof clauses);
    expect_verdict(call_read(text, text_length, &n, prefix, rooms[0], &prefix_count, clauses, rooms[1], &clauses_count), c->verdict, c->call);
    if (c->way != ACCEPTED)
        return;
    agree(n == f.n, "the n that is read");
    agree(prefix_count == f.prefix_len && memcmp(prefix, f.prefix, prefix_count * sizeof *prefix) == 0, "the prefix that is read");
    agree(clauses_count == f.clauses_len && memcmp(clauses, f.clauses, clauses_count * sizeof *clauses) == 0, "the clauses that are read");
}

/* Write, into as many bytes as there is room for: the text that holds. */
void case_write(const struct claim *c)
{
    static uint8_t out[sizeof text];
    struct formula f = given_formula();
    uint32_t count = 0, room = given_number(GIVEN_ROOM);

    agree(room <= sizeof out, "there are as many bytes as the case asks for");
    if (room > sizeof out)
        return;
    memset(out, 0x5A, sizeof out);
    expect_verdict(call_write(&f, out, room, &count), c->verdict, c->call);
    if (c->way == ACCEPTED && put_text())
        agree(count == text_length && memcmp(out, text, text_length) == 0, "the text that is written");
}
