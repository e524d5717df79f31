/* Random formulas, forests and texts: drawn within the rules, and damaged. The same ones in every run. */
#ifndef GENERATOR_H
#define GENERATOR_H

#include "calls.h"
#include "search.h"

enum { ROOM = 1024 };  /* entries of a drawn table */

/* A number below the one given. */
uint32_t draw(uint32_t below);

/* A formula with tables of its own. */
struct drawn {
    struct formula f;
    uint32_t prefix[ROOM];
    int32_t clauses[ROOM];
};

/* `blocks` blocks, none empty; the variables that are left are free. Needs n of at least `blocks`. */
void draw_prefix(struct drawn *d, uint32_t n, uint32_t blocks);

/* Spreads the blocks of a drawn prefix over several with one mark, and puts empty ones between: joined it is what it was. */
void draw_spread(struct drawn *d);

/* Clauses of up to `longest` literals; some empty, some with a literal twice or in both signs. */
void draw_clauses(struct drawn *d, uint32_t n, uint32_t count, uint32_t longest);

int32_t draw_literal(uint32_t n);
void draw_formula(struct drawn *d);

/* Up to five short clauses more for each universal of a drawn formula, in drawn signs, so that strict sets have members. */
void draw_signs(struct drawn *d);

/* Damages a formula in one place, or n. */
void damage_formula(struct drawn *d);

/* Rows of forest tables. */
struct tables {
    uint32_t classes[SMALL + 4], parents[SMALL + 4], counts[SMALL + 4];
};

/* Tables with rows enough for n, or some more: what is past n is not to be touched. */
struct forest rows_for(uint32_t n, struct tables *t);

/* A random well-formed forest, not of any clauses in particular, with a tally that fits it. */
struct forest draw_forest(const struct formula *f, struct tables *t);

/* A copy of a forest's first n rows and of its tally, in other tables. */
struct forest copy_forest(const struct formula *f, const struct forest *from, struct tables *t);

/* A tally that fits well-formed tables, of some number of clauses. */
void draw_tally(const struct formula *f, struct forest *rows);

/* Changes a row of one table, or makes one too short; where a class or a parent was changed, the counts may follow. */
void damage_forest(const struct formula *f, struct forest *rows);

/* Changes one number of a tally, or moves some from its merges to its classes, so that their sum stays in 32 bits. */
void damage_tally(const struct formula *f, struct snow_tally *tally);

/* Damages a text: a byte changed, removed or put in, a number padded, or a tail cut off; gives the length. */
size_t damage_text(uint8_t *text, size_t length, size_t room);

#endif
