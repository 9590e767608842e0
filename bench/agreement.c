/* The measure of how far two words agree, by itself. Prints a line for each number of letters on which two words agree: that number, and
 * nanoseconds a call, eight equal bytes at a time and one letter after another; scripts/agreement makes a table of these. PAD bytes stand
 * before the functions, so that they can be laid out in several ways.
 * Where the words agree on all their letters, and end in a tail of seven, "all" stands behind the number.
 * With an argument, the letters that the runs of each family compare, counted in the reference: when factors are joined, in this measure, and
 * to the left. */
#include "families.h"
#include "reference.h"
#include "timing.h"
#include <stdio.h>
#include <stdlib.h>
#include <string.h>

PADDING(PAD);

#define LARGEST 1048576
#define ROUNDS 15

/* Of the crate agreement_c. */
size_t agreement_common_prefix(const uint8_t *keys, const uint8_t *u, size_t u_len, const uint8_t *v, size_t v_len);
size_t agreement_common_prefix_singly(const uint8_t *keys, const uint8_t *u, size_t u_len, const uint8_t *v, size_t v_len);

static uint8_t keys[256], first[LARGEST + 64], second[LARGEST + 64];
static uint32_t work[2 * LARGEST], list[3 * LARGEST];

/* Nanoseconds a call on words that agree on the given number of letters, as is checked, and have some more or none. They start at all offsets
 * from a multiple of eight in turn. */
static double timed(size_t (*measure)(const uint8_t *, const uint8_t *, size_t, const uint8_t *, size_t), size_t letters, size_t more) {
    size_t times = 262144 / (letters + 8) + 4;
    double took = 0;
    for (size_t offset = 0; offset < 8; offset++) {
        const uint8_t *u = first + offset, *v = second + 3 * offset % 8;
        first[offset + letters] = 'C';
        double start = clock_now();
        for (size_t t = 0; t < times; t++)
            if (measure(keys, u, letters + more, v, letters + more) != letters) {
                fprintf(stderr, "words that agree on %zu letters: another number is told\n", letters);
                exit(1);
            }
        took += clock_now() - start;
        first[offset + letters] = 'A';
    }
    return took / 8 / (double)times;
}

static void times(void) {
    /* The letters on which two words agree, and those behind: 16, or none, so that seven are left for the tail. */
    static const struct { size_t letters, more; } words[] = {
        {0, 16}, {1, 16}, {2, 16}, {4, 16}, {7, 16}, {8, 16}, {16, 16}, {32, 16}, {64, 16}, {128, 16}, {256, 16}, {1024, 16}, {4096, 16},
        {65536, 16}, {1048560, 16}, {7, 0}, {15, 0}, {31, 0}, {71, 0}, {135, 0}, {1031, 0}, {65543, 0},
    };
    for (int a = 0; a < 256; a++) keys[a] = (uint8_t)a;
    memset(first, 'A', sizeof first);
    memset(second, 'A', sizeof second);
    for (size_t w = 0; w < sizeof words / sizeof words[0]; w++) {
        double eights = 1e30, singly = 1e30;
        for (int round = 0; round < ROUNDS; round++) {
            double took = timed(agreement_common_prefix, words[w].letters, words[w].more);
            if (took < eights) eights = took;
            took = timed(agreement_common_prefix_singly, words[w].letters, words[w].more);
            if (took < singly) singly = took;
        }
        printf("%zu%s\t%.3f\t%.3f\n", words[w].letters, words[w].more ? "" : ", all", eights, singly);
    }
}

static void counts(void) {
    printf("letters compared by the runs, a letter of the text, at %d letters: joins, agreement, left; agreement of all\n", LARGEST);
    for (int f = 0; f < family_count(); f++) {
        family_fill(f, first, LARGEST);
        reference_compared = (struct reference_compared){0, 0, 0};
        reference_runs_counted(first, LARGEST, work, list);
        double joins = (double)reference_compared.joins, agreement = (double)reference_compared.agreement, left = (double)reference_compared.left;
        printf("  %-28s %6.2f %6.2f %6.2f %5.1f %%\n", family_name(f), joins / LARGEST, agreement / LARGEST, left / LARGEST,
            100 * agreement / (joins + agreement + left));
    }
}

int main(int count, char **words) {
    (void)words;
    if (count > 1) counts();
    else times();
    return 0;
}
