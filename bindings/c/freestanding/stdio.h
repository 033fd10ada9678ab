/* Just what lookup.c needs, for a clang without headers of its own. */
#ifndef LADLETWIG_STDIO_H
#define LADLETWIG_STDIO_H
int printf(const char *restrict format, ...);
#endif
