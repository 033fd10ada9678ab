/* Just what ladletwig.h and lookup.c need, for a clang without headers of its own. */
#ifndef LADLETWIG_STDDEF_H
#define LADLETWIG_STDDEF_H
typedef __SIZE_TYPE__ size_t;
#define NULL ((void *)0)
#define offsetof(type, member) __builtin_offsetof(type, member)
#endif
