/* The set of a universal by dependency lists. */
#include "judge_lists.h"
#include "judge_tables.h"
#include "search_lists.h"

/* The list of the existential y has x: that of one in a block has all universals before it, that of any other is lent or empty. */
static int list_has(const struct formula *f, const struct lists *d, uint32_t y, uint32_t x)
{
    size_t b, e;

    if (!judge_existential(f, y))
        return 0;
    if (judge_in_block(f, y))
        return judge_block(f, x) < judge_block(f, y);
    for (b = 0; b < d->length; b++)
        for (e = b + 1; judge_opens_list(d, b) && d->entries[b] == y && e < d->length && !judge_opens_list(d, e); e++)
            if (d->entries[e] == x)
                return 1;
    return 0;
}

/* All that is reached from those that are marked, through existentials whose lists have x. */
static void spread(const struct world *w, const unsigned char *may, unsigned char *reached)
{
    uint32_t v, y;
    int more = 1;

    while (more) {
        more = 0;
        for (v = 1; v <= w->n; v++)
            for (y = 1; y <= w->n; y++)
                if (reached[v] && !reached[y] && may[y] && w->together[v][y])
                    reached[y] = (unsigned char)(more = 1);
    }
}

uint32_t search_listed_set(const struct world *w, const struct formula *f, const struct lists *d, enum snow_scheme scheme, uint32_t x,
                           uint32_t *list)
{
    unsigned char may[SMALL + 1] = { 0 }, reached[2][SMALL + 1] = { { 0 } };
    uint32_t y, count = 0;
    int sign;

    for (y = 1; y <= f->n; y++)
        may[y] = (unsigned char)list_has(f, d, y, x);
    for (sign = 0; sign <= 1; sign++) {
        for (y = 1; y <= f->n; y++)
            reached[sign][y] = (unsigned char)(may[y] && w->beside[sign][x][y]);
        spread(w, may, reached[sign]);
    }
    for (y = 1; y <= f->n; y++)
        if (scheme == SNOW_STRICT ? reached[0][y] && reached[1][y] : reached[0][y] || reached[1][y])
            list[count++] = y;
    return count;
}
