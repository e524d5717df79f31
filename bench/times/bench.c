/*
 * The benchmark: times every call on families of formulas at doubling sizes,
 * and beside it DepQBF on the same texts, with the sets compared.
 *
 *     bench [LISTING ..]     the words are how the listing program is run
 */
#include <stdio.h>
#include <stdlib.h>
#include <string.h>

#include "clock.h"
#include "depqbf.h"
#include "families.h"
#include "system.h"

/* What is timed, in the order of the columns. */
enum work { CHECK, READ, BUILD, READ_BUILD, ADD, SET, SIZE, SETS, WRITE, LISTING, DEPQBF_READ, DEPQBF_SETS, WORKS };

static const char *const titles[WORKS] = {
    "check", "read", "build", "read+build", "add", "set", "size", "all sets", "write", "listing", "Dep init", "Dep sets"
};

/* What is wanted: at most these. */
static const double MOST_GROWTH = 2.3, MOST_INIT = 0.25, MOST_SETS = 0.5;

enum { MOST_SIZES = 8, TURNS = 3, ADDED = 16, ADDED_LITERALS = 3, VARIANTS = SOLVERS };

/*
 * A formula with all that the jobs need. There are several of each size, and every job goes round them: over and over on one formula, a
 * processor learns its branches by heart, which flatters small sizes.
 */
struct subject {
    struct formula f;
    uint8_t text[SNOW_MOST_TEXT];
    uint32_t text_len;
    uint32_t classes[SNOW_MOST_VARIABLES], parents[SNOW_MOST_VARIABLES], counts[SNOW_MOST_VARIABLES];
    struct snow_tally tally;
    int32_t added[ADDED][ADDED_LITERALS];
};

static struct subject subjects[VARIANTS];
static uint32_t universals;  /* of each */

/* What the calls fill. */
static uint32_t grown_classes[SNOW_MOST_VARIABLES], grown_parents[SNOW_MOST_VARIABLES], grown_counts[SNOW_MOST_VARIABLES];
static uint32_t out[SNOW_MOST_VARIABLES];
static uint32_t every[SNOW_MOST_VARIABLES * (SNOW_MOST_VARIABLES + 2)];
static uint8_t written[SNOW_MOST_TEXT];
static uint32_t read_prefix[SNOW_MOST_PREFIX], read_n, prefix_count;
static int32_t read_clauses[SNOW_MOST_CLAUSES];
static uint32_t clauses_count;

static char **listing_words;
static const char *listing_input = "bench-listing-input", *listing_output = "bench-listing-output";

/* Nothing here may be refused. */
static void must(uint32_t number, const char *call)
{
    if (number == 0)
        return;
    printf("%s refused as %u\n", call, (unsigned)number);
    exit(2);
}

static void call_check(const struct subject *s)
{
    uint32_t place;

    must(snow_check(SNOW_PLAIN, s->f.n, s->f.prefix, s->f.prefix_len, s->f.clauses, s->f.clauses_len, &place), "check");
}

static void call_read(const struct subject *s)
{
    uint32_t place;

    must(snow_read(s->text, s->text_len, &read_n, read_prefix, SNOW_MOST_PREFIX, &prefix_count,
                   read_clauses, SNOW_MOST_CLAUSES, &clauses_count, &place), "read");
}

static void call_build(struct subject *s)
{
    uint32_t count, place;

    must(snow_build(SNOW_PLAIN, s->f.n, s->f.prefix, s->f.prefix_len, s->f.clauses, s->f.clauses_len,
                    s->classes, s->f.n, s->parents, s->f.n, s->counts, s->f.n, &s->tally, &count, &place), "build");
}

/* The standard set, which DepQBF gives too, and its size. */
static uint32_t call_set(const struct subject *s, uint32_t x)
{
    uint32_t count, place;

    must(snow_set_by(SNOW_PLAIN, SNOW_STANDARD, s->f.n, s->f.prefix, s->f.prefix_len, s->f.clauses, s->f.clauses_len,
                     s->classes, s->f.n, s->parents, s->f.n, s->counts, s->f.n, x, out, SNOW_MOST_VARIABLES, &count, &place), "set");
    return count;
}

static uint32_t call_size(const struct subject *s, uint32_t x)
{
    uint32_t size, place;

    must(snow_size_by(SNOW_PLAIN, SNOW_STANDARD, s->f.n, s->f.prefix, s->f.prefix_len, s->f.clauses, s->f.clauses_len,
                      s->classes, s->f.n, s->parents, s->f.n, s->counts, s->f.n, x, &size, &place), "size");
    return size;
}

/* The standard sets of all universals in one call, into a table that always suffices. */
static uint32_t call_sets(const struct subject *s)
{
    uint32_t count, place;

    must(snow_sets_by(SNOW_PLAIN, SNOW_STANDARD, s->f.n, s->f.prefix, s->f.prefix_len, s->f.clauses, s->f.clauses_len,
                      s->classes, s->f.n, s->parents, s->f.n, s->counts, s->f.n, every, sizeof every / sizeof *every, &count, &place),
         "sets");
    return count;
}

static void call_write(const struct subject *s)
{
    uint32_t count, place;

    must(snow_write(SNOW_PLAIN, s->f.n, s->f.prefix, s->f.prefix_len, s->f.clauses, s->f.clauses_len, written, SNOW_MOST_TEXT, &count, &place), "write");
}

static double check_job(unsigned times)
{
    double start = now();

    while (times-- > 0)
        call_check(&subjects[times % VARIANTS]);
    return now() - start;
}

static double read_job(unsigned times)
{
    double start = now();

    while (times-- > 0)
        call_read(&subjects[times % VARIANTS]);
    return now() - start;
}

static double build_job(unsigned times)
{
    double start = now();

    while (times-- > 0)
        call_build(&subjects[times % VARIANTS]);
    return now() - start;
}

/* As a caller does it who has only the text: the forest of what was read. */
static double read_build_job(unsigned times)
{
    uint32_t count, place;
    double start = now();

    while (times-- > 0) {
        struct subject *s = &subjects[times % VARIANTS];

        call_read(s);
        must(snow_build(SNOW_PLAIN, read_n, read_prefix, prefix_count, read_clauses, clauses_count,
                        s->classes, read_n, s->parents, read_n, s->counts, read_n, &s->tally, &count, &place), "build");
    }
    return now() - start;
}

/* Different clauses, one on top of the other, from the formula's own forest each time; a run is one add. */
static double add_job(unsigned times)
{
    double spent = 0, start;
    unsigned k;
    uint32_t place;
    struct snow_tally tally;

    while (times > 0) {
        const struct subject *s = &subjects[times / ADDED % VARIANTS];

        memcpy(grown_classes, s->classes, sizeof s->classes);
        memcpy(grown_parents, s->parents, sizeof s->parents);
        memcpy(grown_counts, s->counts, sizeof s->counts);
        tally = s->tally;
        start = now();
        for (k = 0; k < ADDED && times > 0; k++, times--)
            must(snow_add(SNOW_PLAIN, s->f.n, s->f.prefix, s->f.prefix_len, grown_classes, s->f.n, grown_parents, s->f.n,
                          grown_counts, s->f.n, &tally, s->added[k], ADDED_LITERALS, &place), "add");
        spent += now() - start;
    }
    return spent;
}

/* The sets of all universals, one call for each, and how many entries they have. */
static uint32_t each_set(const struct subject *s)
{
    uint32_t x, entries = 0;

    for (x = 1; x <= s->f.n; x++)
        if (s->f.universal[x])
            entries += call_set(s, x);
    return entries;
}

static double set_job(unsigned times)
{
    double start = now();

    while (times-- > 0)
        each_set(&subjects[times % VARIANTS]);
    return now() - start;
}

/* The sizes of these sets, one call for each, and their sum. */
static uint32_t each_size(const struct subject *s)
{
    uint32_t x, sum = 0;

    for (x = 1; x <= s->f.n; x++)
        if (s->f.universal[x])
            sum += call_size(s, x);
    return sum;
}

static double size_job(unsigned times)
{
    double start = now();

    while (times-- > 0)
        each_size(&subjects[times % VARIANTS]);
    return now() - start;
}

static double sets_job(unsigned times)
{
    double start = now();

    while (times-- > 0)
        call_sets(&subjects[times % VARIANTS]);
    return now() - start;
}

static double write_job(unsigned times)
{
    double start = now();

    while (times-- > 0)
        call_write(&subjects[times % VARIANTS]);
    return now() - start;
}

static double depqbf_read_job(unsigned times)
{
    double spent = 0;

    while (times-- > 0) {
        const struct subject *s = &subjects[times % VARIANTS];

        spent += depqbf_read(times % VARIANTS, s->text, s->text_len);
    }
    return spent;
}

/* One question for each universal and each existential deeper than it: no other can depend on it. */
static uint32_t depqbf_all_sets(unsigned k)
{
    const struct formula *f = &subjects[k].f;
    uint32_t x, y, entries = 0;

    for (x = 1; x <= f->n; x++)
        for (y = 1; f->universal[x] && y <= f->n; y++)
            if (!f->universal[y] && f->block[y] > f->block[x])
                entries += (uint32_t)depqbf_depends(k, x, y);
    return entries;
}

static double depqbf_sets_job(unsigned times)
{
    double start = now();

    while (times-- > 0)
        depqbf_all_sets(times % VARIANTS);
    return now() - start;
}

/* Runs the listing program on the input file; its output goes to a file. */
static double listing_job(unsigned times)
{
    double start = now();
    int child, status;

    while (times-- > 0) {
        child = fork();
        if (child == 0) {
            dup2(open(listing_input, O_RDONLY), 0);
            dup2(open(listing_output, O_WRONLY | O_CREAT | O_TRUNC, 0600), 1);
            execv(listing_words[0], listing_words);
            _exit(127);
        }
        if (child < 0 || waitpid(child, &status, 0) != child || status != 0) {
            printf("the listing program does not run\n");
            exit(2);
        }
    }
    return now() - start;
}

static void save(const uint8_t *bytes, uint32_t length)
{
    int file = open(listing_input, O_WRONLY | O_CREAT | O_TRUNC, 0600);

    if (file < 0 || write(file, bytes, length) != (long)length) {
        printf("cannot write %s\n", listing_input);
        exit(2);
    }
    close(file);
}

/* Seconds that the listing program takes beyond its start, which a formula of nothing shows; 0 where there is no program. */
static double listing_seconds(void)
{
    static double start;

    if (listing_words == NULL)
        return 0;
    if (start == 0) {
        save((const uint8_t *)"p cnf 0 0\n", 10);
        start = seconds(listing_job, 1);
    }
    save(subjects[0].text, subjects[0].text_len);
    return seconds(listing_job, 1) - start;
}

/* Whether both give the same set of every universal, by itself and among all. */
static int sets_equal(unsigned k)
{
    const struct subject *s = &subjects[k];
    uint32_t x, y, at, count, record = 0, all = call_sets(s);

    for (x = 1; x <= s->f.n; x++) {
        if (!s->f.universal[x])
            continue;
        count = call_set(s, x);
        if (every[record] != x || every[record + 1] != count || memcmp(every + record + 2, out, count * sizeof *out) != 0)
            return 0;
        record += 2 + count;
        for (y = 1, at = 0; y <= s->f.n; y++) {
            int ours = at < count && out[at] == y;

            at += (uint32_t)ours;
            if (!s->f.universal[y] && ours != (depqbf_depends(k, x, y) != 0))
                return 0;
        }
    }
    return record == all && each_set(s) == depqbf_all_sets(k) && each_size(s) == each_set(s);
}

/* Makes the formulas of a family at a size, with their texts and the clauses that are to be added. */
static void prepare(const struct family *family, uint32_t n)
{
    uint32_t v, place, k, j;

    for (k = 0; k < VARIANTS; k++) {
        struct subject *s = &subjects[k];

        draw_from(n * VARIANTS + k);
        family->fill(&s->f, n);
        must(snow_write(SNOW_PLAIN, s->f.n, s->f.prefix, s->f.prefix_len, s->f.clauses, s->f.clauses_len, s->text, SNOW_MOST_TEXT, &s->text_len, &place),
             "write");
        for (j = 0; j < ADDED * ADDED_LITERALS; j++)
            s->added[j / ADDED_LITERALS][j % ADDED_LITERALS] = (int32_t)(1 + draw(s->f.n));
    }
    universals = 0;
    for (v = 1; v <= subjects[0].f.n; v++)
        universals += subjects[0].f.universal[v];
}

/* What was measured at one size. */
struct row {
    double took[WORKS];
    uint32_t entries;  /* of all sets of a formula together */
    uint32_t bytes;    /* of its text */
    int equal;
};

/* Keeps the least of what was measured so far. */
static void keep(struct row *r, enum work w, double took)
{
    if (r->took[w] == 0 || took < r->took[w])
        r->took[w] = took;
}

/* Every job in turn, and all again: what disturbs the machine for a while then spoils no figure. */
static void measure(struct row *r)
{
    unsigned turn, k;

    memset(r, 0, sizeof *r);
    for (turn = 0; turn < TURNS; turn++) {
        keep(r, CHECK, seconds(check_job, VARIANTS));
        keep(r, READ, seconds(read_job, VARIANTS));
        keep(r, BUILD, seconds(build_job, VARIANTS));
        keep(r, READ_BUILD, seconds(read_build_job, VARIANTS));
        keep(r, ADD, seconds(add_job, ADDED * VARIANTS));
        keep(r, SET, seconds(set_job, VARIANTS) / universals);
        keep(r, SIZE, seconds(size_job, VARIANTS) / universals);
        keep(r, SETS, seconds(sets_job, VARIANTS));
        keep(r, WRITE, seconds(write_job, VARIANTS));
        keep(r, LISTING, listing_seconds());
        keep(r, DEPQBF_READ, seconds(depqbf_read_job, VARIANTS));
        keep(r, DEPQBF_SETS, seconds(depqbf_sets_job, VARIANTS));
    }
    r->equal = 1;
    for (k = 0; k < VARIANTS; k++) {
        r->bytes += subjects[k].text_len;
        r->entries += each_set(&subjects[k]);
        r->equal &= sets_equal(k);
    }
    r->bytes /= VARIANTS;
    r->entries /= VARIANTS;
}

/* The largest figure of a kind, and where it was. */
struct figure {
    double most;
    char at[64];
};

/* At every family's largest size, and at any size. */
struct worst {
    struct figure init[2], sets[2], growth[2];
    int unequal;
};

enum { LARGEST, ANY };

static void note(struct figure *figures, double value, int largest, const char *family, const char *what, uint32_t n)
{
    unsigned k;

    for (k = largest ? LARGEST : ANY; k <= ANY; k++) {
        if (value <= figures[k].most)
            continue;
        figures[k].most = value;
        snprintf(figures[k].at, sizeof figures[k].at, "%s%s%s, n %u", family, *what ? " " : "", what, (unsigned)n);
    }
}

static void print_times(const struct row *r)
{
    unsigned w;

    for (w = 0; w < WORKS; w++) {
        if (w == LISTING && listing_words == NULL)
            printf("%11s", "-");
        else
            printf("%11.1f", r->took[w] * 1e6);
    }
}

/* How much what a call writes grew: rows, entries or bytes. All sets and the listing write the entries of all sets. */
static double output_growth(unsigned w, const struct row *before, const struct row *after)
{
    if (w == SETS || w == LISTING || w == DEPQBF_SETS)
        return before->entries == 0 ? 0 : (double)after->entries / before->entries;
    if (w == READ || w == WRITE)
        return (double)after->bytes / before->bytes;
    return 2;
}

static void print_growth(const struct row *before, const struct row *after, const struct family *family, uint32_t n, struct worst *worst)
{
    unsigned w;

    printf("%6s%6s%9s%8s%8s", "", "", "", "", "growth");
    for (w = 0; w < WORKS; w++) {
        double growth = after->took[w] / before->took[w];

        if (w == LISTING && listing_words == NULL) {
            printf("%11s", "-");
            continue;
        }
        printf("%11.2f", growth);
        if (w < DEPQBF_READ && output_growth(w, before, after) <= MOST_GROWTH)
            note(worst->growth, growth, n == family->last, family->name, titles[w], n);
    }
    printf("\n");
}

static void print_head(const struct family *family)
{
    unsigned w;

    printf("\n%s: %s\nmicroseconds\n%6s%6s%9s%8s%8s", family->name, family->what, "n", "univ", "clauses", "bytes", "in sets");
    for (w = 0; w < WORKS; w++)
        printf("%11s", titles[w]);
    printf("%11s%11s  %s\n", "init ratio", "sets ratio", "sets");
}

static void run_family(const struct family *family, struct worst *worst)
{
    struct row rows[MOST_SIZES];
    unsigned k = 0;
    uint32_t n;

    print_head(family);
    for (n = family->first; n <= family->last; n *= 2, k++) {
        struct row *r = &rows[k];
        double init, sets;

        prepare(family, n);
        measure(r);
        init = r->took[READ_BUILD] / r->took[DEPQBF_READ];
        sets = r->took[SETS] / r->took[DEPQBF_SETS];
        printf("%6u%6u%9lu%8u%8u", (unsigned)n, (unsigned)universals, (unsigned long)subjects[0].f.clauses_len, (unsigned)r->bytes, (unsigned)r->entries);
        print_times(r);
        printf("%11.3f%11.3f  %s\n", init, sets, r->equal ? "equal" : "DIFFER");
        worst->unequal |= !r->equal;
        note(worst->init, init, n == family->last, family->name, "", n);
        note(worst->sets, sets, n == family->last, family->name, "", n);
        if (k > 0)
            print_growth(&rows[k - 1], r, family, n, worst);
    }
}

static const char *met(int ok)
{
    return ok ? "met" : "MISSED";
}

static void print_figure(const char *what, const struct figure *figures, double wanted)
{
    printf("%s, at most %.2f wanted:\n", what, wanted);
    printf("    at the largest sizes  %7.3f (%s): %s\n", figures[LARGEST].most, figures[LARGEST].at, met(figures[LARGEST].most <= wanted));
    printf("    at any size           %7.3f (%s): %s\n", figures[ANY].most, figures[ANY].at, met(figures[ANY].most <= wanted));
}

int main(int argc, char **argv)
{
    static struct worst worst;
    unsigned k;

    listing_words = argc > 1 ? argv + 1 : NULL;
    for (k = 0; k < FAMILIES; k++)
        run_family(&families[k], &worst);
    printf("\nsets equal to DepQBF's on every formula: %s\n", met(!worst.unequal));
    print_figure("read and build, over DepQBF's reading and initialising", worst.init, MOST_INIT);
    print_figure("all sets, over DepQBF's questions", worst.sets, MOST_SETS);
    print_figure("growth per doubling, where the output does not grow faster", worst.growth, MOST_GROWTH);
    return worst.unequal;
}
