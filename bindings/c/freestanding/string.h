/* Just what lookup.c needs, for a clang without headers of its own. */
#ifndef LADLETWIG_STRING_H
#define LADLETWIG_STRING_H
#include <stddef.h>
int memcmp(const void *left, const void *right, size_t count);
void *memset(void *bytes, int value, size_t count);
#endif
