/* For the kit's clang, which has no headers: what include/drasumira.h and the C programs here need of C's, and nothing else. On 64-bit Linux with glibc. */
#ifndef STDDEF_H
#define STDDEF_H
typedef __SIZE_TYPE__ size_t;
#define NULL ((void *)0)
#define offsetof(type, member) __builtin_offsetof(type, member)
#endif
