/* The Lyndon array from a suffix array of libdivsufsort and next smaller values, where that library is installed. */
#include "suffix_array.h"

#ifdef HAVE_DIVSUFSORT
#include <divsufsort.h>

#define LARGEST 1048576
static uint8_t turned[LARGEST];
static int32_t suffixes[LARGEST], rank[LARGEST];

int suffix_array_installed(void) { return 1; }

void suffix_array_lyndon(const uint8_t *x, size_t n, uint32_t order, uint32_t *L) {
    if (order != 0) {
        for (size_t i = 0; i < n; i++) turned[i] = (uint8_t)(255 - x[i]);
        x = turned;
    }
    divsufsort(x, suffixes, (int32_t)n);
    for (size_t r = 0; r < n; r++) rank[suffixes[r]] = (int32_t)r;
    for (size_t i = n; i-- > 0;) {
        size_t j = i + 1;
        while (j < n && rank[i] < rank[j]) j += L[j];
        L[i] = (uint32_t)(j - i);
    }
}
#else
int suffix_array_installed(void) { return 0; }
void suffix_array_lyndon(const uint8_t *x, size_t n, uint32_t order, uint32_t *L) { (void)x, (void)n, (void)order, (void)L; }
#endif
