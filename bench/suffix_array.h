/* The Lyndon array from a suffix array of libdivsufsort, where that is installed. */
#ifndef SUFFIX_ARRAY_H
#define SUFFIX_ARRAY_H
#include <stddef.h>
#include <stdint.h>
int suffix_array_installed(void);
void suffix_array_lyndon(const uint8_t *x, size_t n, uint32_t order, uint32_t *L);
#endif
