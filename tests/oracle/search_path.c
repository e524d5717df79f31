/* A shortest path of clauses for a pair, searched for clause by clause in widening rounds. */
#include "judge_path.h"
#include "judge_tables.h"
#include "search_path.h"

uint32_t search_path(const struct formula *f, uint32_t x, uint32_t y, uint32_t *path)
{
    uint32_t from[SEARCHED_CLAUSES], length[SEARCHED_CLAUSES], count = judge_clause_count(f), round, k, l;

    for (k = 0; k < count; k++)
        length[k] = judge_has(f, k, x) && !judge_always_true(f, k);
    for (round = 1; round <= count; round++) {
        for (k = 0; k < count; k++) {
            if (length[k] != round)
                continue;
            if (judge_has(f, k, y)) {
                for (l = round; l > 0; l--, k = from[k])
                    path[l - 1] = k;
                return round;
            }
            for (l = 0; l < count; l++) {
                if (length[l] != 0 || judge_always_true(f, l) || !judge_share(f, x, k, l))
                    continue;
                length[l] = round + 1;
                from[l] = k;
            }
        }
    }
    return 0;
}
