/* What the benchmark calls of the C library beyond tools/include, for the kit's clang, which comes with no headers. x86-64 Linux. */
#ifndef SYSTEM_H
#define SYSTEM_H

struct timespec {
    long tv_sec;
    long tv_nsec;
};

enum { CLOCK_MONOTONIC = 1, O_RDONLY = 0, O_WRONLY = 1, O_CREAT = 0100, O_TRUNC = 01000 };

int clock_gettime(int clock, struct timespec *now);
int open(const char *name, int flags, ...);
long write(int file, const void *from, unsigned long size);
int close(int file);
int dup2(int from, int to);
int fork(void);
int execv(const char *name, char *const *words);
int waitpid(int child, int *status, int options);
void _exit(int status);

#endif
