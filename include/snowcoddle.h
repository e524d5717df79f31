/*
 * snowcoddle.h: dependency sets of quantified Boolean formulas, for C and C++.
 *
 * The library takes a formula in prenex conjunctive form, builds its
 * connection forest, answers which existentials depend on a universal and how
 * many they are, takes further clauses, reads and writes QDIMACS and DQDIMACS
 * text, stores formula and forest in a file for another site, checks
 * dependencies that another tool gives, and expands a universal. It also
 * answers by dependency lists and by resolution paths.
 * Every call is proved against its contract. There is no state between calls
 * and no allocation: all tables are the caller's, lent for the time of the
 * call. docs/RULES.md has the rules, each with where it is kept.
 *
 * Link the archive that tests/run proves, and names in its last line. It is
 * for x86-64 Linux, and calls nothing but memset and memcpy. A call keeps its
 * own tables on the stack, some 263 KiB at most (snow_sets), but
 * snow_resolution_set some 350 KiB, and snow_load under 1 MiB.
 *
 *
 * THE FORMULA
 *
 * n         The variable count, 0 to 4,096. Variables are 1 to n.
 *
 * prefix    The blocks, outermost first. A block is a mark (1 existential,
 *           2 universal), its variables, then 0. Marks alternate, and no
 *           block is empty, unless the rule below says otherwise. Blocks are
 *           numbered from 1; at most 64 of them, at most 8,192 entries.
 *           A variable in no block is free: it is existential, and belongs to
 *           block 1 if that is existential, else to block 0.
 *           "Deeper" means a greater block number.
 *
 * clauses   Literals, v or -v, each clause closed by 0; at most 16,384
 *           entries with the zeros. Clauses are numbered from 0. A clause may
 *           be empty and may repeat a literal. A clause with both signs of
 *           one variable is always true: it connects nothing, but keeps its
 *           number.
 *
 * rule      How a prefix is read, for every call that takes one, and for
 *           snow_load, which reads that of the file. SNOW_PLAIN: as it
 *           stands. SNOW_JOINED: a block with 0 directly after its mark
 *           is dropped, and then neighbours with one mark are one block, so
 *           that blocks are counted and numbered after that; 5 and 9 are not
 *           given. Places are entries of the prefix as lent, and snow_write,
 *           snow_write_lists and snow_store write it as lent. Where
 *           SNOW_PLAIN accepts a prefix, both rules give the same. Any other
 *           number is refused as 23.
 *
 * Formula A, for the examples below: n is 9,
 *           prefix   1 1 2 0  2 3 0  1 4 5 0  2 6 0  1 7 8 9 0
 *           clauses  3 4 7 0  -4 8 0  6 9 0  5 9 0  1 5 0
 *
 *
 * THE FOREST
 *
 * classes   Row v-1 is the class of variable v, by the name of its lowest
 *           member; 0 for a universal.
 * parents   Row v-1 is the parent of the class that v names: the deepest
 *           class above it, or 0. 0 too where v names no class.
 * counts    Row v-1 is the number of variables in the class that v names and
 *           in all classes below it; 0 where v names no class.
 *
 * Of A: classes 1 2 0 4 5 0 7 8 9, parents 0 0 0 0 1 0 4 4 5, counts
 * 3 1 0 3 2 0 1 1 1.
 *
 * Each table may be longer than n; rows past n are neither read nor written.
 * Tables that are lent as input must be well formed, else the call is refused
 * as 12: a universal's rows are 0; an existential's class name is at most its
 * own number, is existential, of the same block, and names itself; a parent
 * is 0 or a class name of a lesser block, and only a class name has one; and
 * once all that holds, every count is the right one for these classes and
 * parents. They need not come from the clauses lent beside them; then entry
 * points, sets and sizes are those of the tables as lent.
 *
 * tally     Stands beside the forest: how many clauses were taken, how many
 *           classes disappeared in merges since there was no clause, and how
 *           many classes are left. Merges and classes always sum to the
 *           number of existentials. snow_build gives the tally of its
 *           clauses, snow_add updates it, and no other call takes it.
 *
 * Of A: 5 clauses, 0 merges, 7 classes.
 *
 *
 * THE SCHEMES
 *
 * Two answers to what depends on a universal x. By the standard scheme it is
 * what is reached from the clauses that have x, in either sign. By the strict
 * scheme it is what is reached both from a clause with x and from a clause
 * with its negation: the strict set lies within the standard one, and is
 * empty where x has one sign only.
 *
 * scheme    SNOW_STANDARD or SNOW_STRICT, for the calls that end in _by. No
 *           number is refused: every one but SNOW_STRICT means the standard
 *           scheme, so that a wrong number never loses a dependency.
 *
 * The calls that take no scheme mean the strict one.
 *
 *
 * DEPENDENCY LISTS
 *
 * lists     For snow_check_lists, snow_listed_set_by and snow_write_lists;
 *           snow_read_lists fills them. An existential in no block may have
 *           a list of the universals that it may depend on: in the table
 *           its number, those universals, then 0, one list after the
 *           other; at most 16,384 entries. An existential in a block has all
 *           universals of the blocks before it, and one with neither has
 *           none. No forest is needed: y depends on x if y's list has x, and
 *           y is reached from x, by steps from variable to variable in one
 *           clause, through existentials whose lists have x. Where no list
 *           is lent that is what the forest of the formula says.
 *
 *
 * WHAT A CALL GIVES
 *
 * Each call returns 0 if it accepts, else the number of the refusal. On a
 * refusal it writes *place and nothing else. On acceptance it leaves *place
 * as it was and writes every other cell and table that it fills; rows or
 * bytes past those written stay as they were.
 *
 *  no.  given exactly when                              *place
 *   1   n is over 4,096                                 0
 *   2   prefix over 8,192 entries; clause table,
 *       added clause or table of lists over 16,384      0
 *   3   prefix ends inside a block                      its length
 *   4   a mark is neither 1 nor 2                       the entry
 *   5   a mark equals that of the block before          the entry
 *   6   mark of a 65th block                            the entry
 *   7   a prefix variable is outside 1 to n             the entry
 *   8   a variable was named before                     the entry
 *   9   0 stands directly after a mark                  the entry
 *  10   a literal's variable is outside 1 to n;
 *       0 in an added clause                            the entry
 *  11   clause table ends inside a clause; table of
 *       lists ends inside a list                        its length
 *  12   forest tables lent as input are not well        the variable of the
 *       formed, or shorter than n                       first bad row; 0 if
 *                                                       shorter. A bad count
 *                                                       only where all other
 *                                                       rows are right
 *  13   clause number not below the count; x not
 *       universal; y not existential and deeper than x  0
 *  14   an output table is shorter than needed          0
 *  15   text over 65,536 bytes, read or to be written   65,536
 *  16   a line is outside the rules of the format       its first byte
 *  17   clause lines are not as many as announced       first line too many,
 *                                                       or the text's length
 *  18   the tally has 65,535 clauses or more; or its
 *       classes are not as many as the tables have; or
 *       its merges and classes do not sum to the
 *       existentials                                    0
 *  19   of a file: the length of a record cut or odd,   where the record
 *       kind 1 under two bytes, kind 2 not whole        begins; 0 for a file
 *       literals, kind 65,535 not two bytes; or over    too long
 *       262,144 bytes
 *  20   of a file: an unknown kind, a wrong order or    where the record
 *       a kind missing                                  begins, or would
 *  21   a file's words do not sum to zero               0
 *  22   a file's rows or sets are not its formula's,    where the record
 *       in number or value                              begins
 *  23   rule is neither SNOW_PLAIN nor SNOW_JOINED      0
 *  24   a path is empty, or fails                       the first entry that
 *                                                       fails; 0 if empty
 *  25   y of a list is outside 1 to n or already
 *       placed, in a block or with a list before        the entry
 *  26   an x of a list is no universal, or comes twice
 *       in its list                                     the entry
 *  27   n is over 512, for snow_resolution_set          0
 *
 * Entries and bytes are counted from 0. Where several refusals apply, the
 * first in this order is given: 23, 1, 2, the prefix from the left, the clause
 * literals from the left, the lists from the left (25, 26, 11), 12, 18, 13, 24,
 * 27, 15 (writing), 14; at one entry the lower number. snow_read and
 * snow_read_lists give 15, then 16 and 17 by the earliest line, then 14.
 * snow_load gives 23, 19, 20, 21, then 1 to 11 for the formula in the file,
 * then 22, then 14; snow_store 23, 1 to 11, then 14: its file is never too long.
 * snow_expand gives 23, 1 to 11, 13, then 1 and 2 where the formula that it
 * would give has over 4,096 variables or a table that is too long, then 14.
 * A call skips what it does not take; the list above each prototype says
 * which refusals it can give.
 *
 *
 * WHAT THE CALLER OWES
 *
 * - A pointer to each cell (place, count, n, entry, ..) and to a tally is a
 *   valid one, also where the call turns out not to write through it.
 * - A table is a pointer and a length in entries (bytes for a text). With
 *   length 0 any pointer will do, NULL too: nothing is read or written
 *   through it.
 * - Undefined: a length that lies, that is, more entries than there are; a
 *   table that is not aligned for its type; a table or a cell that is
 *   written and overlaps any other table or cell of the same call (tables
 *   that are only read may overlap); another thread that writes to what is
 *   lent, or reads what is written, while the call runs.
 *
 * Nothing else is undefined: any contents of any table are answered or
 * refused.
 */
#ifndef SNOWCODDLE_H
#define SNOWCODDLE_H

#include <stddef.h>
#include <stdint.h>

#ifdef __cplusplus
extern "C" {
#endif

/*
 * The limits. Tables that long hold every formula with lists, text and file
 * that the calls accept. snow_read and snow_read_lists do not check what they
 * read: to them tables of SNOW_MOST_TEXT entries are never too short, and
 * shorter ones may be refused as 14.
 */
#define SNOW_MOST_VARIABLES 4096
#define SNOW_MOST_BLOCKS 64
#define SNOW_MOST_PREFIX 8192
#define SNOW_MOST_CLAUSES 16384
#define SNOW_MOST_LISTS 16384
#define SNOW_MOST_TEXT 65536
#define SNOW_MOST_FILE 262144

/*
 * The most variables of a formula that snow_resolution_set takes: one more is
 * refused as 27.
 */
#define SNOW_MOST_PATH_VARIABLES 512

/*
 * The most clauses that a tally takes: at so many, snow_add refuses it as 18.
 */
#define SNOW_MOST_TAKEN 65535

/*
 * The rules that a prefix may be read by.
 */
enum snow_rule {
    SNOW_PLAIN = 1,
    SNOW_JOINED = 2
};

/*
 * The schemes that a call ending in _by may be asked for.
 */
enum snow_scheme {
    SNOW_STANDARD = 1,
    SNOW_STRICT = 2
};

/*
 * The tally beside a forest.
 */
struct snow_tally {
    uint32_t clauses;  /* taken; always-true and empty ones count too */
    uint32_t merges;   /* made: the classes that disappeared */
    uint32_t classes;  /* left */
};

/*
 * Check: whether a formula keeps every rule. All other calls check what they
 * take by themselves; none needs this one first.
 *
 * Refuses 23, 1 to 11.
 */
uint32_t snow_check(uint32_t rule, uint32_t n,
                    const uint32_t *prefix, size_t prefix_len,
                    const int32_t *clauses, size_t clauses_len,
                    uint32_t *place);

/*
 * Build: the forest of a formula. Fills n rows of classes, of parents and of
 * counts, gives the tally of the clauses, as if each had been added from none,
 * and *count = n. What the rows and the tally held before does not matter.
 *
 * Refuses 23, 1 to 11, and 14 where a table has fewer than n rows.
 */
uint32_t snow_build(uint32_t rule, uint32_t n,
                    const uint32_t *prefix, size_t prefix_len,
                    const int32_t *clauses, size_t clauses_len,
                    uint32_t *classes, size_t classes_len,
                    uint32_t *parents, size_t parents_len,
                    uint32_t *counts, size_t counts_len,
                    struct snow_tally *tally,
                    uint32_t *count, uint32_t *place);

/*
 * Clause: where the clause with a given number stands in the lent table. Its
 * literals are clauses[*start] to clauses[*start + *len - 1]; the closing 0,
 * which *len does not count, comes after them.
 *
 * Of A: clause 1 has *start = 4, *len = 2.
 *
 * Refuses 1, 2, 10, 11, and 13 where there are not so many clauses.
 */
uint32_t snow_clause(uint32_t n, const int32_t *clauses, size_t clauses_len,
                     uint32_t number,
                     uint32_t *start, uint32_t *len, uint32_t *place);

/*
 * Entry point of x for y, where x is universal and y is existential and
 * deeper than x: of the class of y and the classes above it, the least deep
 * that is still deeper than x. *entry is its name, *rises the number of
 * classes passed from the class of y up to it, the first not counted.
 *
 * Of A: for x = 3, y = 8 it is 4, with one rise.
 *
 * Refuses 23, 1 to 9, 12, 13.
 */
uint32_t snow_entry_point(uint32_t rule, uint32_t n,
                          const uint32_t *prefix, size_t prefix_len,
                          const uint32_t *classes, size_t classes_len,
                          const uint32_t *parents, size_t parents_len,
                          const uint32_t *counts, size_t counts_len,
                          uint32_t x, uint32_t y,
                          uint32_t *entry, uint32_t *rises, uint32_t *place);

/*
 * Entry points of the universal x by the strict scheme: those that are entry
 * points both for an existential deeper than x in a clause with x and for one
 * in a clause with its negation. Written ascending into out; *count says how
 * many.
 *
 * Of A: none for x = 3, since no clause has -3. With the clauses 3 5 and -3 8
 * behind those of A, which leave its forest as it is: 4 for x = 3.
 *
 * Refuses 23, 1 to 13, and 14 where out has fewer than *count entries; n of
 * them always suffice.
 */
uint32_t snow_entry_points(uint32_t rule, uint32_t n,
                           const uint32_t *prefix, size_t prefix_len,
                           const int32_t *clauses, size_t clauses_len,
                           const uint32_t *classes, size_t classes_len,
                           const uint32_t *parents, size_t parents_len,
                           const uint32_t *counts, size_t counts_len,
                           uint32_t x, uint32_t *out, size_t out_len,
                           uint32_t *count, uint32_t *place);

/*
 * Set of the universal x by the strict scheme: the members of every class at
 * or below its entry points. With the forest of the formula these are the
 * existentials reached from x by a first step in a clause with x and also by a
 * first step in a clause with its negation: by any number of steps from
 * variable to variable in one clause, each to an existential of x's block or
 * deeper. Written ascending into out; *count says how many.
 *
 * Of A: none for x = 3; with those two clauses 4 7 8.
 *
 * Refuses 23, 1 to 13, and 14 where out has fewer than *count entries; n of
 * them always suffice.
 */
uint32_t snow_set(uint32_t rule, uint32_t n,
                  const uint32_t *prefix, size_t prefix_len,
                  const int32_t *clauses, size_t clauses_len,
                  const uint32_t *classes, size_t classes_len,
                  const uint32_t *parents, size_t parents_len,
                  const uint32_t *counts, size_t counts_len,
                  uint32_t x, uint32_t *out, size_t out_len,
                  uint32_t *count, uint32_t *place);

/*
 * Size of that set, by the counts of its entry points: what snow_set gives as
 * *count, without the list.
 *
 * Of A: 0 for x = 3; with those two clauses 3.
 *
 * Refuses 23, 1 to 13.
 */
uint32_t snow_size(uint32_t rule, uint32_t n,
                   const uint32_t *prefix, size_t prefix_len,
                   const int32_t *clauses, size_t clauses_len,
                   const uint32_t *classes, size_t classes_len,
                   const uint32_t *parents, size_t parents_len,
                   const uint32_t *counts, size_t counts_len,
                   uint32_t x, uint32_t *size, uint32_t *place);

/*
 * Entry points of the universal x by a scheme. By the standard one: those for
 * every existential deeper than x that shares a clause with x. By the strict
 * one: what snow_entry_points gives. Written ascending into out; *count says
 * how many.
 *
 * Of A, standard: 4 for x = 3; with those two clauses 4 5.
 *
 * Refuses 23, 1 to 13, and 14 where out has fewer than *count entries; n of
 * them always suffice.
 */
uint32_t snow_entry_points_by(uint32_t rule, uint32_t scheme, uint32_t n,
                              const uint32_t *prefix, size_t prefix_len,
                              const int32_t *clauses, size_t clauses_len,
                              const uint32_t *classes, size_t classes_len,
                              const uint32_t *parents, size_t parents_len,
                              const uint32_t *counts, size_t counts_len,
                              uint32_t x, uint32_t *out, size_t out_len,
                              uint32_t *count, uint32_t *place);

/*
 * Set of the universal x by a scheme: the members of every class at or below
 * its entry points by that scheme. With the forest of the formula the standard
 * set has the existentials reached from x by such steps from a clause that has
 * x in either sign. By the strict scheme: what snow_set gives. Written
 * ascending into out; *count says how many.
 *
 * Of A, standard: 4 7 8 for x = 3; with those two clauses 4 5 7 8 9.
 *
 * Refuses 23, 1 to 13, and 14 where out has fewer than *count entries; n of
 * them always suffice.
 */
uint32_t snow_set_by(uint32_t rule, uint32_t scheme, uint32_t n,
                     const uint32_t *prefix, size_t prefix_len,
                     const int32_t *clauses, size_t clauses_len,
                     const uint32_t *classes, size_t classes_len,
                     const uint32_t *parents, size_t parents_len,
                     const uint32_t *counts, size_t counts_len,
                     uint32_t x, uint32_t *out, size_t out_len,
                     uint32_t *count, uint32_t *place);

/*
 * Size of the set of the universal x by a scheme: what snow_set_by gives as
 * *count, without the list.
 *
 * Of A, standard: 3 for x = 3; with those two clauses 5.
 *
 * Refuses 23, 1 to 13.
 */
uint32_t snow_size_by(uint32_t rule, uint32_t scheme, uint32_t n,
                      const uint32_t *prefix, size_t prefix_len,
                      const int32_t *clauses, size_t clauses_len,
                      const uint32_t *classes, size_t classes_len,
                      const uint32_t *parents, size_t parents_len,
                      const uint32_t *counts, size_t counts_len,
                      uint32_t x, uint32_t *size, uint32_t *place);

/*
 * Strict sets of all universals: for each universal, ascending, its number, the
 * count of its set, and its set ascending, one after the other. *count says how
 * many entries all that is. What was lent is looked through once, so that this
 * is much faster than a set call for one universal after the other.
 *
 * Of A: 3 0 6 0. With the clauses 3 5 and -3 8 behind those of A: 3 3 4 7 8 6 0.
 *
 * Refuses 23, 1 to 12, and 14 where out has fewer than *count entries;
 * n * (n + 2) of them always suffice, and with as many the sets are not counted
 * before they are written, which saves about half of the time.
 */
uint32_t snow_sets(uint32_t rule, uint32_t n,
                   const uint32_t *prefix, size_t prefix_len,
                   const int32_t *clauses, size_t clauses_len,
                   const uint32_t *classes, size_t classes_len,
                   const uint32_t *parents, size_t parents_len,
                   const uint32_t *counts, size_t counts_len,
                   uint32_t *out, size_t out_len,
                   uint32_t *count, uint32_t *place);

/*
 * Sets of all universals by a scheme, in the same form.
 *
 * Of A, standard: 3 3 4 7 8 6 1 9.
 *
 * Refuses what snow_sets refuses.
 */
uint32_t snow_sets_by(uint32_t rule, uint32_t scheme, uint32_t n,
                      const uint32_t *prefix, size_t prefix_len,
                      const int32_t *clauses, size_t clauses_len,
                      const uint32_t *classes, size_t classes_len,
                      const uint32_t *parents, size_t parents_len,
                      const uint32_t *counts, size_t counts_len,
                      uint32_t *out, size_t out_len,
                      uint32_t *count, uint32_t *place);

/*
 * Check with dependency lists: whether a formula and its lists keep every
 * rule.
 *
 * Refuses 23, 1 to 11, 25 and 26.
 */
uint32_t snow_check_lists(uint32_t rule, uint32_t n,
                          const uint32_t *prefix, size_t prefix_len,
                          const int32_t *clauses, size_t clauses_len,
                          const uint32_t *lists, size_t lists_len,
                          uint32_t *place);

/*
 * Set of the universal x by dependency lists and by a scheme: the existentials
 * that depend on x by their lists, as said above. By the strict scheme they
 * are reached by a first step in a clause with x, and also by a first step in
 * a clause with its negation. Written ascending into out; *count says how
 * many.
 *
 * With the prefix 2 1 2 0, the clauses 1 3 0 3 4 0 and the lists 3 1 0 4 2 0:
 * 3 for x = 1, since the list of 4 lacks 1.
 *
 * Refuses 23, 1 to 11, 25, 26, 13, and 14 where out has fewer than *count
 * entries; n of them always suffice.
 */
uint32_t snow_listed_set_by(uint32_t rule, uint32_t scheme, uint32_t n,
                            const uint32_t *prefix, size_t prefix_len,
                            const int32_t *clauses, size_t clauses_len,
                            const uint32_t *lists, size_t lists_len,
                            uint32_t x, uint32_t *out, size_t out_len,
                            uint32_t *count, uint32_t *place);

/*
 * Resolution-path set of the universal x: the existentials deeper than x to
 * which paths run from x and from its negation, to opposite literals of one.
 * A path from a literal first enters a clause by that literal. It leaves a
 * clause by a literal of another variable, goes on to the complement of that
 * literal and by it into a clause, and ends at the literal by which it leaves
 * its last clause. Only existentials deeper than x are passed; clauses that
 * are always true take no part. The set lies within the strict one. It takes
 * no forest. Written ascending into out; *count says how many.
 *
 * With n 4, prefix 2 1 0  1 2 3 4 0, clauses 1 2 0  -2 3 0  -1 -3 0  -1 4 0
 * 1 4 0: 2 3 for x = 1, where the strict set is 2 3 4.
 *
 * Refuses 23, 1 to 11, 13, 27, and 14 where out has fewer than *count entries;
 * n of them always suffice.
 */
uint32_t snow_resolution_set(uint32_t rule, uint32_t n,
                             const uint32_t *prefix, size_t prefix_len,
                             const int32_t *clauses, size_t clauses_len,
                             uint32_t x, uint32_t *out, size_t out_len,
                             uint32_t *count, uint32_t *place);

/*
 * Add a clause: rewrites the n rows of the lent forest to those of the
 * forest with the clause, and updates the tally: one clause more is taken,
 * the classes that disappeared are added to its merges, and its classes are
 * those left. The clause is given by its literals, with no closing 0. With
 * the forest and the tally of a formula this gives what snow_build gives of
 * the formula with the clause behind its last one. An always-true clause
 * changes nothing but the number of clauses taken.
 *
 * snow_entry_points, snow_set, snow_size, snow_sets and the same by a scheme
 * take the clause table too: append the clause there as well, with its 0.
 *
 * Of A: adding 7 -9 gives classes 1 2 0 4 4 0 7 8 7, parents
 * 0 0 0 1 0 0 4 4 0, counts 6 1 0 5 0 0 2 1 0, and a tally of 6 clauses,
 * 2 merges and 5 classes.
 *
 * Refuses 23, 1 to 9, 10 for a bad literal of the clause or a 0 in it, 12, and
 * 18 for the tally. The tally of a formula within the limits is never refused.
 */
uint32_t snow_add(uint32_t rule, uint32_t n,
                  const uint32_t *prefix, size_t prefix_len,
                  uint32_t *classes, size_t classes_len,
                  uint32_t *parents, size_t parents_len,
                  uint32_t *counts, size_t counts_len,
                  struct snow_tally *tally,
                  const int32_t *clause, size_t clause_len,
                  uint32_t *place);

/*
 * Read QDIMACS text. Gives *n, the variable count of the problem line, and
 * fills prefix and clauses; *prefix_count and *clauses_count say how many
 * entries each took. It does not check the tables that it fills: snow_check
 * does, and every other call.
 *
 * Every line ends in LF. Lines that begin with c stand only before the
 * problem line `p cnf n m`. Then come quantifier lines (a or e, variables or
 * none, 0), then m clause lines. Words are separated by one or more spaces;
 * spaces may lead or trail. A number has one to five digits, leading zeros
 * among them: 0004 is 4, and 000 is 0. Only a nonzero literal may carry `-`.
 * In quantifier and clause lines the last number, and no other, is 0. Outside
 * comments, blank lines, tabs and CR are refused.
 *
 * Refuses 15, 16 (at the text's length where there is no problem line), 17,
 * and 14 where a table is too short; 8,192 and 16,384 entries take all that
 * snow_check can accept, 65,536 of each whatever can be read.
 */
uint32_t snow_read(const uint8_t *text, size_t text_len, uint32_t *n,
                   uint32_t *prefix, size_t prefix_len, uint32_t *prefix_count,
                   int32_t *clauses, size_t clauses_len, uint32_t *clauses_count,
                   uint32_t *place);

/*
 * Write QDIMACS text: no comments, single spaces and no stray ones, no leading
 * zeros. *count says how many bytes; there is no terminating 0 byte. snow_read
 * gives the same n, prefix and clauses back.
 *
 * Refuses 23, 1 to 11, 15 where the text would be longer than 65,536 bytes, and
 * 14 where text has fewer than *count; 65,536 bytes always suffice.
 */
uint32_t snow_write(uint32_t rule, uint32_t n,
                    const uint32_t *prefix, size_t prefix_len,
                    const int32_t *clauses, size_t clauses_len,
                    uint8_t *text, size_t text_len,
                    uint32_t *count, uint32_t *place);

/*
 * Read DQDIMACS text: QDIMACS with lines `d y x1 .. 0` after the quantifier
 * lines and before the clause lines, each with the universals on which y may
 * depend, or none. Fills lists too, with y, its universals and 0 for each such
 * line; *lists_count says how many entries it took. It does not check the
 * tables that it fills: snow_check_lists does.
 *
 * In a list line the last number, and no other, is 0, and y stands before it:
 * `d 0` is refused. So is a quantifier line after a list line.
 *
 * Refuses as snow_read does, 14 for any of the three tables; 16,384 entries of
 * lists take all that snow_check_lists can accept, 65,536 whatever can be read.
 */
uint32_t snow_read_lists(const uint8_t *text, size_t text_len, uint32_t *n,
                         uint32_t *prefix, size_t prefix_len, uint32_t *prefix_count,
                         int32_t *clauses, size_t clauses_len, uint32_t *clauses_count,
                         uint32_t *lists, size_t lists_len, uint32_t *lists_count,
                         uint32_t *place);

/*
 * Write DQDIMACS text: as snow_write does, with a line `d y x1 .. 0` for each
 * list between the quantifier lines and the clause lines. snow_read_lists gives
 * the same n, prefix, clauses and lists back.
 *
 * Refuses 23, 1 to 11, 25, 26, and 15 and 14 as snow_write does.
 */
uint32_t snow_write_lists(uint32_t rule, uint32_t n,
                          const uint32_t *prefix, size_t prefix_len,
                          const int32_t *clauses, size_t clauses_len,
                          const uint32_t *lists, size_t lists_len,
                          uint8_t *text, size_t text_len,
                          uint32_t *count, uint32_t *place);

/*
 * Store: the file of a formula and its forest, for another site to load. The
 * forest is built here. *count says how many bytes.
 *
 * A file is records, one after the other: the length of the payload in four
 * bytes, the kind in two, and the payload, all little-endian. Kind 1: n, then
 * the prefix, two bytes a number. Kind 2: the clauses, four bytes a literal.
 * Kind 3: n class names, n parents and n counts, four bytes a number. Kind
 * 65,535: a two-byte word, with which the 16-bit words of the whole file sum
 * to zero when the sum is let wrap. Kind 4, which is no longer written and may
 * stand in front of the last one in files that are loaded: for each universal
 * ascending its number, the count of its standard set and the set, two bytes
 * each.
 *
 * Of A: 238 bytes.
 *
 * Refuses 23, 1 to 11, and 14 where file has fewer than *count bytes; 131,100
 * always suffice.
 */
uint32_t snow_store(uint32_t rule, uint32_t n,
                    const uint32_t *prefix, size_t prefix_len,
                    const int32_t *clauses, size_t clauses_len,
                    uint8_t *file, size_t file_len,
                    uint32_t *count, uint32_t *place);

/*
 * Load: a formula and its forest out of a file. The formula is checked and its
 * forest built anew, and the file is accepted only if its rows, and its sets
 * where it has them, are the same. Gives *n, fills prefix and clauses, with
 * their counts, and n rows of classes, of parents and of counts; *with_sets is
 * 1 if the file has sets (kind 4), else 0. What snow_store wrote is loaded back
 * the same by the same rule, and a file with one 16-bit word changed is refused.
 * Storing what was loaded gives the file again: without its kind 4, if it had
 * one, with the closing word refitted, and with nothing else changed.
 *
 * Refuses 23, 19, 20, 21, 1 to 11 for the formula in the file, with places in
 * its tables, 22, and 14 where a table is too short.
 */
uint32_t snow_load(uint32_t rule, const uint8_t *file, size_t file_len,
                   uint32_t *n,
                   uint32_t *prefix, size_t prefix_len, uint32_t *prefix_count,
                   int32_t *clauses, size_t clauses_len, uint32_t *clauses_count,
                   uint32_t *classes, size_t classes_len,
                   uint32_t *parents, size_t parents_len,
                   uint32_t *counts, size_t counts_len,
                   uint32_t *with_sets, uint32_t *place);

/*
 * Path check: whether a path of clause numbers shows that y depends on x, by
 * the standard scheme. x is universal, and y is existential and deeper than x.
 * The path is accepted exactly if its first clause has x and its last has y,
 * in either sign, neighbours share an existential deeper than x, and none of
 * its clauses is always true. It may have any length, and a clause may come
 * more than once. A pair that is accepted is in the standard set of x, and
 * every pair of a standard set has a path that is accepted and no longer than
 * the number of existentials.
 *
 * An entry fails if its clause is always true; the first if its clause lacks
 * x; any other if its clause shares no existential deeper than x with the one
 * before; the last if its clause lacks y. Since a path may be longer than
 * 32 bits can count, *place is of the type of a length here.
 *
 * Of A: for x = 3, y = 8 the path 0 1 is accepted, since 3 4 7 and -4 8 share
 * 4; 0 3 1 is refused as 24 at entry 1, since 3 4 7 and 5 9 share nothing.
 *
 * Refuses 23, 1 to 11, 13 (for x, y and every number of the path), and 24.
 */
uint32_t snow_path(uint32_t rule, uint32_t n,
                   const uint32_t *prefix, size_t prefix_len,
                   const int32_t *clauses, size_t clauses_len,
                   uint32_t x, uint32_t y,
                   const uint32_t *path, size_t path_len,
                   size_t *place);

/*
 * Expand the universal x: the formula with x removed. Both are true or both
 * are false, which is proved.
 * The standard set of x is found from the clauses, and each member gets a copy,
 * numbered from n + 1 in ascending order. Gives the new variable count *out_n,
 * fills both tables, and gives the counts of their entries.
 *
 * Prefix: each copy is placed after its original in its block, x leaves its
 * block, empty blocks go, and equal neighbours join, so that both rules accept
 * it. The number x stays free and unused.
 * Clauses, in clause order: first copies with x false; then, for clauses with
 * x or a member, second copies with x true and members renamed. A satisfied
 * copy is left out, and an always-true clause gives none.
 *
 * Of A and x = 3: *out_n = 12,
 *           prefix   1 1 2 4 10 5 0  2 6 0  1 7 11 8 12 9 0
 *           clauses  4 7 0  -4 8 0  6 9 0  5 9 0  1 5 0  -10 12 0
 *
 * Refuses 23, 1 to 11, 13, 1 and 2 for the result, and 14 where a table is
 * shorter than needed; SNOW_MOST_PREFIX and SNOW_MOST_CLAUSES entries always
 * suffice.
 */
uint32_t snow_expand(uint32_t rule, uint32_t n,
                     const uint32_t *prefix, size_t prefix_len,
                     const int32_t *clauses, size_t clauses_len,
                     uint32_t x, uint32_t *out_n,
                     uint32_t *out_prefix, size_t out_prefix_len, uint32_t *prefix_count,
                     int32_t *out_clauses, size_t out_clauses_len, uint32_t *clauses_count,
                     uint32_t *place);

#ifdef __cplusplus
}
#endif

#endif
