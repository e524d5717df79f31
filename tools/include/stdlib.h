/* The functions of the C library that the programs here call, for the kit's clang, which comes with no headers. */
#ifndef KIT_STDLIB_H
#define KIT_STDLIB_H

int atoi(const char *text);
void exit(int status);

#endif
