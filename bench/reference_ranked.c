/* The reference by a table of ranks: the same code, compiled again. */
#define RANKED
#include "reference.c"
#include "reference_factors.c"
