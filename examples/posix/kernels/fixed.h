/* Numbers in fixed point: the machine has no floating point, and made of integers it takes some 100 instructions. */

#ifndef FIXED_H
#define FIXED_H

typedef long fixed;

#define PLACES 24 /* binary places */
#define ONE (1L << PLACES)

static inline fixed times(fixed a, fixed b) { return (a * b) >> PLACES; }
static inline fixed over(fixed a, fixed b) { return a * ONE / b; }

#endif
