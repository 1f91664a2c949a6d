/* See stddef.h. */
#ifndef STDLIB_H
#define STDLIB_H
#include <stddef.h>
void *realloc(void *, size_t);
void free(void *);
float strtof(const char *, char **);
_Noreturn void exit(int);
#endif
