/* Just what ladletwig.h and lookup.c need, for a clang without headers of its own. */
#ifndef LADLETWIG_STDBOOL_H
#define LADLETWIG_STDBOOL_H
#define bool _Bool
#define true 1
#define false 0
#endif
