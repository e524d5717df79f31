/* What rule 8.4 and rule 10.5 say of the file of a forest. */
#include "judge_file.h"
#include "judge_tables.h"
#include "search.h"

static struct world world;

static struct verdict refused(uint32_t number, size_t place)
{
    struct verdict v;

    v.number = number;
    v.place = (uint32_t)place;
    return v;
}

/* A number of so many bytes, little-endian. */
static uint32_t number_at(const uint8_t *file, size_t at, size_t width)
{
    uint32_t value = 0;
    size_t k;

    for (k = width; k > 0; k--)
        value = value << 8 | file[at + k - 1];
    return value;
}

static uint32_t size_at(const uint8_t *file, size_t at)
{
    return number_at(file, at, 4);
}

static uint32_t kind_at(const uint8_t *file, size_t at)
{
    return number_at(file, at + 4, 2);
}

/* The place behind the record that begins at a place. */
static size_t next_at(const uint8_t *file, size_t at)
{
    return at + 6 + size_at(file, at);
}

/* Whether the record that begins at a place has a cause of 19. */
static int bad_length(const uint8_t *file, size_t length, size_t at)
{
    uint32_t size;

    if (length - at < 6 || length - at - 6 < size_at(file, at))
        return 1;
    size = size_at(file, at);
    return size % 2 != 0 || (kind_at(file, at) == 1 && size < 2) || (kind_at(file, at) == 2 && size % 4 != 0)
        || (kind_at(file, at) == 65535 && size != 2);
}

/* The kinds in their order, with sets and without. */
static const uint32_t kinds[2][5] = { { 1, 2, 3, 65535, 0 }, { 1, 2, 3, 4, 65535 } };
static const size_t kind_count[2] = { 4, 5 };

/* Whether the first so many kinds are in their order so far. */
static int in_order(const uint32_t *found, size_t count)
{
    size_t way, k;

    for (way = 0; way < 2; way++) {
        for (k = 0; k < count && k < kind_count[way] && found[k] == kinds[way][k]; k++)
            continue;
        if (k == count)
            return 1;
    }
    return 0;
}

/* 19 and 20: the records; their places, the length of the file after the last. */
static struct verdict records(const uint8_t *file, size_t length, size_t *places, size_t *count)
{
    uint32_t found[6];
    size_t at, k = 0;

    for (at = 0; at < length; at = next_at(file, at))
        if (bad_length(file, length, at))
            return refused(19, at);
    for (at = 0; at < length; at = next_at(file, at)) {
        places[k] = at;
        found[k++] = kind_at(file, at);
        if (!in_order(found, k))
            return refused(20, at);
    }
    *count = k;
    return k == 0 || found[k - 1] != 65535 ? refused(20, length) : refused(0, 0);
}

static uint32_t word_sum(const uint8_t *file, size_t length)
{
    uint32_t sum = 0;
    size_t at;

    for (at = 0; at + 1 < length; at += 2)
        sum += number_at(file, at, 2);
    return sum % 65536;
}

/* The formula of kinds 1 and 2. */
static void take_formula(const uint8_t *file, const size_t *places, struct filed *r)
{
    size_t k;

    r->f.n = number_at(file, places[0] + 6, 2);
    r->f.prefix = r->prefix;
    r->f.prefix_len = (size_at(file, places[0]) - 2) / 2;
    for (k = 0; k < r->f.prefix_len; k++)
        r->prefix[k] = number_at(file, places[0] + 8 + 2 * k, 2);
    r->f.clauses = r->clauses;
    r->f.clauses_len = size_at(file, places[1]) / 4;
    for (k = 0; k < r->f.clauses_len; k++)
        r->clauses[k] = (int32_t)number_at(file, places[1] + 6 + 4 * k, 4);
}

static void search(const struct formula *f)
{
    search_variables(&world, f);
    search_clauses(&world, f);
    search_close(&world);
}

/* Whether a record has just the rows that were searched for. */
static int right_rows(const uint8_t *file, size_t at, uint32_t n)
{
    uint32_t v;

    if (size_at(file, at) != 12 * n)
        return 0;
    for (v = 1; v <= n; v++)
        if (number_at(file, at + 2 + 4 * v, 4) != search_class(&world, v)
            || number_at(file, at + 2 + 4 * (n + v), 4) != search_parent(&world, v)
            || number_at(file, at + 2 + 4 * (2 * n + v), 4) != search_count(&world, v))
            return 0;
    return 1;
}

/* The numbers of kind 4: for each universal its number, the count of its set, and its set. */
static uint32_t set_numbers[SMALL * (SMALL + 2)];

static size_t list_sets(const struct formula *f)
{
    uint32_t x, y;
    size_t count = 0, counted;

    for (x = 1; x <= f->n; x++) {
        if (world.existential[x])
            continue;
        set_numbers[count++] = x;
        counted = count++;
        for (y = 1; y <= f->n; y++)
            if (search_in_set(&world, SNOW_STANDARD, x, y))
                set_numbers[count++] = y;
        set_numbers[counted] = (uint32_t)(count - counted - 1);
    }
    return count;
}

static int right_sets(const uint8_t *file, size_t at, const struct formula *f)
{
    size_t count = list_sets(f), k;

    if (size_at(file, at) != 2 * count)
        return 0;
    for (k = 0; k < count; k++)
        if (number_at(file, at + 6 + 2 * k, 2) != set_numbers[k])
            return 0;
    return 1;
}

struct verdict judge_file(const uint8_t *file, size_t length, struct filed *r)
{
    size_t places[6], count = 0;
    struct verdict v;

    if (reading_rule != SNOW_PLAIN && reading_rule != SNOW_JOINED)
        return refused(23, 0);
    if (length > MOST_FILE)
        return refused(19, 0);
    v = records(file, length, places, &count);
    if (v.number != 0)
        return v;
    if (word_sum(file, length) != 0)
        return refused(21, 0);
    take_formula(file, places, r);
    r->with_sets = count == 5;
    v = judge_formula(&r->f);
    if (v.number != 0)
        return v;
    if (size_at(file, places[2]) != 12 * r->f.n)
        return refused(22, places[2]);
    search(&r->f);
    if (!right_rows(file, places[2], r->f.n))
        return refused(22, places[2]);
    if (r->with_sets && !right_sets(file, places[3], &r->f))
        return refused(22, places[3]);
    return v;
}

/* Where the next byte of a file that is written goes. */
static uint8_t *file_end;

static void put(uint32_t number, size_t width)
{
    for (; width > 0; width--) {
        *file_end++ = (uint8_t)number;
        number >>= 8;
    }
}

static void put_head(size_t size, uint32_t kind)
{
    put((uint32_t)size, 4);
    put(kind, 2);
}

static void put_formula(const struct formula *f)
{
    size_t k;

    put_head(2 + 2 * f->prefix_len, 1);
    put(f->n, 2);
    for (k = 0; k < f->prefix_len; k++)
        put(f->prefix[k], 2);
    put_head(4 * f->clauses_len, 2);
    for (k = 0; k < f->clauses_len; k++)
        put((uint32_t)f->clauses[k], 4);
}

static void put_rows(const struct formula *f)
{
    uint32_t v;

    put_head(12 * f->n, 3);
    for (v = 1; v <= f->n; v++)
        put(search_class(&world, v), 4);
    for (v = 1; v <= f->n; v++)
        put(search_parent(&world, v), 4);
    for (v = 1; v <= f->n; v++)
        put(search_count(&world, v), 4);
}

static void put_sets(const struct formula *f)
{
    size_t count = list_sets(f), k;

    put_head(2 * count, 4);
    for (k = 0; k < count; k++)
        put(set_numbers[k], 2);
}

void close_sum(uint8_t *file, size_t length)
{
    uint32_t sum;

    if (length < 2)
        return;
    file[length - 2] = file[length - 1] = 0;
    sum = 65536 - word_sum(file, length);
    file[length - 2] = (uint8_t)sum;
    file[length - 1] = (uint8_t)(sum >> 8);
}

size_t file_of(const struct formula *f, int with_sets, uint8_t *file)
{
    search(f);
    file_end = file;
    put_formula(f);
    put_rows(f);
    if (with_sets)
        put_sets(f);
    put_head(2, 65535);
    put(0, 2);
    close_sum(file, (size_t)(file_end - file));
    return (size_t)(file_end - file);
}
