/* Counts comparisons, and says which did not agree. */
#ifndef COMPARISONS_H
#define COMPARISONS_H

/* Opens a group of comparisons: prints how the one before went. */
void group(const char *name);

/* What the next comparisons are about, for the line that a disagreement prints. */
void about(const char *what, unsigned number);

/* One comparison. */
void agree(int ok, const char *what);

/* Closes the last group and prints the sum; 0 if all agreed. */
int agreed_all(void);

#endif
