/*
 * The conformance test of the library as C callers see it: every call,
 * accepted and refused, with every byte compared that was lent to it. Prints
 * what was compared; ends with 1 if anything disagreed.
 *
 *     conformance CASES
 *
 * CASES is the path of the written-out cases, tests/cases/cases.txt.
 */
#include <stddef.h>

#include "comparisons.h"
#include "conformance.h"

int main(int argc, char **argv)
{
    test_formula_a();
    test_cases(argc == 2 ? argv[1] : NULL);
    test_refusals();
    test_qdimacs_texts();
    test_stored_files();
    test_limits();
    test_reading_rules();
    test_path_check();
    test_random_formulas();
    test_expansion();
    test_dependency_lists();
    test_dqdimacs();
    test_resolution_paths();
    return agreed_all();
}
