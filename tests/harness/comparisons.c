/* Counts comparisons, and says which did not agree. */
#include <stdio.h>

#include "comparisons.h"

/* After so many lines on disagreements the rest is only counted. */
enum { MOST_LINES = 40 };

static unsigned long ran, failed, ran_before, failed_before;
static const char *group_name;
static const char *subject = "";
static unsigned subject_number;

static void close_group(void)
{
    if (group_name == NULL)
        return;
    printf("%-44s %7lu compared, %lu disagreed\n", group_name, ran - ran_before, failed - failed_before);
    ran_before = ran;
    failed_before = failed;
}

void group(const char *name)
{
    close_group();
    group_name = name;
    about("", 0);
}

void about(const char *what, unsigned number)
{
    subject = what;
    subject_number = number;
}

void agree(int ok, const char *what)
{
    ran++;
    if (ok)
        return;
    failed++;
    if (failed <= MOST_LINES)
        printf("DISAGREES: %s: %s (%s %u)\n", group_name, what, subject, subject_number);
}

int agreed_all(void)
{
    close_group();
    group_name = NULL;
    printf("conformance: %lu comparisons, %lu agreed, %lu disagreed\n", ran, ran - failed, failed);
    return failed != 0 || ran == 0;
}
