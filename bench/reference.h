/* The same algorithms in C, to compare speed with. */
#ifndef REFERENCE_H
#define REFERENCE_H
#include <stddef.h>
#include <stdint.h>
/* The most letters and bytes of a FASTA input. */
enum { READER_LETTERS = 4096, READER_BYTES = 16384 };
void reference_array_u8(const uint8_t *x, size_t n, uint32_t order, uint32_t *L);
void reference_array_u32(const uint32_t *x, size_t n, uint32_t order, uint32_t *L);
/* The number of runs, below n; list holds three numbers for each. */
size_t reference_runs(const uint8_t *x, size_t n, uint32_t *work, uint32_t *list);
/* The same, with the letters counted that were compared: when factors are joined, in the measure of how far two suffixes agree, and to the left. */
extern struct reference_compared { uint64_t joins, agreement, left; } reference_compared;
size_t reference_runs_counted(const uint8_t *x, size_t n, uint32_t *work, uint32_t *list);
/* The number of factors, and of letter comparisons: a question for less, equal or greater counts once. */
size_t reference_factorization(const uint8_t *x, size_t n, uint32_t *out, uint32_t *comparisons);
void reference_suffix_table(const uint8_t *x, size_t n, uint32_t *out);
void reference_left_forest(const uint8_t *x, size_t n, uint32_t *first, uint32_t *past);
/* The same by a table of 256 ranks. */
void reference_array_u8_ranked(const uint8_t *ranks, const uint8_t *x, size_t n, uint32_t order, uint32_t *L);
size_t reference_runs_ranked(const uint8_t *ranks, const uint8_t *x, size_t n, uint32_t *work, uint32_t *list);
size_t reference_factorization_ranked(const uint8_t *ranks, const uint8_t *x, size_t n, uint32_t *out, uint32_t *comparisons);
void reference_suffix_table_ranked(const uint8_t *ranks, const uint8_t *x, size_t n, uint32_t *out);
void reference_left_forest_ranked(const uint8_t *ranks, const uint8_t *x, size_t n, uint32_t *first, uint32_t *past);
/* 0 where u is below v in infinite order, 1 where they are the same, 2 where it is above. */
size_t reference_compare_infinite(const uint8_t *u, size_t m, const uint8_t *v, size_t n);
/* 0, or the number of the refusal; table has n places, for the suffix table. */
uint32_t reference_prefix_permutation(const uint8_t *x, size_t n, uint32_t *table, uint32_t *out);
/* 0, or the number of the refusal and its position. */
uint32_t reference_right_forest(const uint32_t *array, size_t n, uint32_t *first, uint32_t *past, size_t *at);
uint32_t reference_reconstruct(const uint32_t *array, size_t n, uint32_t *text, size_t *at);
/* The number of letters. */
size_t reference_read_fasta(const uint8_t *input, size_t n, uint8_t *letters);
#endif
