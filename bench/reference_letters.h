/* How the reference reads letters: as they are, or, where reference_ranked.c compiles the same code again, through a table of 256 ranks. Where
 * reference_counted.c does, the letters that the runs compare are counted. */
#ifndef REFERENCE_LETTERS_H
#define REFERENCE_LETTERS_H
#ifdef RANKED
#define CALL(name) reference_##name##_ranked
#define TABLE const uint8_t *ranks, /* a parameter */
#define RANKS ranks,                /* the argument for it */
#define LETTER(x, i) ranks[(x)[i]]
#else
#ifdef COUNTED
#define CALL(name) reference_##name##_counted
#else
#define CALL(name) reference_##name
#endif
#define TABLE
#define RANKS
#define LETTER(x, i) (x)[i]
#endif
#ifdef COUNTED
#define COMPARED(where, letters) (reference_compared.where += (letters))
#else
#define COMPARED(where, letters) ((void)0)
#endif
#endif
