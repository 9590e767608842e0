/* Cuts a text into its Lyndon factors, in the default order and in rising order, and by the Lyndon array of each: a list of factors and an
 * array go together where both are in one order.
 *
 *     make lib
 *     cc -Iinclude -o default_order examples/default_order.c target/lib/liblyndon.a
 *     ./default_order GATTaca
 */
#include "lyndon.h"
#include <stdio.h>
#include <stdlib.h>
#include <string.h>

/* The text with a bar before each factor, and one behind the last. */
static void print_factors(const char *what, const char *text, const uint32_t *starts, uint32_t count) {
    printf("%-27s ", what);
    for (uint32_t i = 0, f = 0; text[i]; i++) {
        if (f < count && starts[f] == i) printf("|"), f++;
        printf("%c", text[i]);
    }
    printf("|\n");
}

/* The factors by an array: the first entry is the length of the first factor, the entry behind it that of the next, and so on. */
static void print_array(const char *what, const char *text, const uint32_t *array, uint32_t *starts) {
    uint32_t n = (uint32_t)strlen(text), count = 0;
    for (uint32_t start = 0; start < n; start += array[start]) starts[count++] = start;
    print_factors(what, text, starts, count);
}

int main(int argc, char **argv) {
    if (argc != 2) {
        fprintf(stderr, "usage: default_order TEXT\n");
        return 2;
    }
    const uint8_t *text = (const uint8_t *)argv[1];
    size_t n = strlen(argv[1]);
    uint32_t *starts = malloc((n + 1) * sizeof *starts), *array = malloc((n + 1) * sizeof *array);
    if (!starts || !array) {
        fprintf(stderr, "default_order: out of memory\n");
        return 2;
    }

    /* Without an order letters are compared by rank: a to z as A to Z, every other byte by its number. */
    lyndon_answer answer = lyndon_factorization(text, n, starts, n);
    if (answer.number != 0) {
        printf("refused %u\n", answer.number);
        return 1;
    }
    print_factors("factors, default order", argv[1], starts, answer.value);

    /* The array always takes an order. The default one is by built-in table 1, which every store has, a new one too. No call refuses what
     * the first has accepted. */
    lyndon_store_array(lyndon_store_new(), 1, 1, 1, text, n, array, n);
    print_array("by the array, default order", argv[1], array, starts);

    /* Letters by number, order 0, where it is asked for; no table is looked at. This array does not go with the factors above. */
    lyndon_array_u8(text, n, LYNDON_RISING, array, n);
    print_array("by the array, rising order", argv[1], array, starts);
    answer = lyndon_factorization_ranked(text, n, LYNDON_RISING, NULL, 0, starts, n);
    print_factors("factors, rising order", argv[1], starts, answer.value);

    free(starts);
    free(array);
    return 0;
}
