/* The reference with the letters counted that the runs compare: the same code, compiled again. */
#define COUNTED
#include "reference.c"
struct reference_compared reference_compared;
