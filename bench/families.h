/* Texts, Lyndon words, pairs of texts and FASTA records that the benchmarks run on. */
#ifndef FAMILIES_H
#define FAMILIES_H
#include <stddef.h>
#include <stdint.h>

/* Fills text with n letters of family f; the same letters every time. */
void family_fill(int f, uint8_t *text, size_t n);
const char *family_name(int f);
int family_count(void);
/* 1 for families as they occur in nature, 0 for hard ones made by hand. */
int family_natural(int f);

/* Fills text with n letters, the least rotation of family f: a Lyndon word where it is no power of a shorter word. */
void rotation_fill(int f, uint8_t *text, size_t n);

/* Fills text with n letters, a Lyndon word where n is even and at least 4: the least rotations of the families that are no powers then, and
 * words made by hand. */
void word_fill(int w, uint8_t *text, size_t n);
const char *word_name(int w);
int word_count(void);

/* Fills u with n letters, at least 4, and v with as many as it returns: two texts to compare. */
size_t pair_fill(int p, uint8_t *u, uint8_t *v, size_t n);
const char *pair_name(int p);
int pair_count(void);

/* Fills input with n bytes, a FASTA record of kind r. */
void record_fill(int r, uint8_t *input, size_t n);
const char *record_name(int r);
int record_count(void);
#endif
