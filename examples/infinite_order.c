/* Compares two markers in infinite order, endless copies of one with endless copies of the other, and lists the proper prefixes of the first in
 * that order where it is a Lyndon word. Letters are compared by number.
 *
 *     make lib
 *     cc -Iinclude -o infinite_order examples/infinite_order.c target/lib/liblyndon.a
 *     ./infinite_order abacabade abac
 */
#include "lyndon.h"
#include <stdio.h>
#include <stdlib.h>
#include <string.h>

int main(int argc, char **argv) {
    if (argc != 3) {
        fprintf(stderr, "usage: infinite_order TEXT TEXT\n");
        return 2;
    }
    const uint8_t *u = (const uint8_t *)argv[1], *v = (const uint8_t *)argv[2];
    size_t n = strlen(argv[1]);

    /* The count says where the first stands: 0 below, 1 the same, 2 above. */
    static const char *const places[] = {"below", "the same as", "above"};
    lyndon_answer answer = lyndon_compare_infinite(u, n, v, strlen(argv[2]));
    if (answer.number != 0) {
        printf("refused %u\n", answer.number);
        return 1;
    }
    printf("%s is %s %s\n", argv[1], places[answer.value], argv[2]);

    /* One place for each proper non-empty prefix: n - 1, since the first call has refused an empty text. Here there is one more. */
    uint32_t *last = malloc(n * sizeof *last);
    if (!last) {
        fprintf(stderr, "infinite_order: out of memory\n");
        return 2;
    }
    answer = lyndon_prefix_permutation(u, n, last, n - 1);
    if (answer.number == 17) printf("%s is not a Lyndon word\n", argv[1]);
    else printf("%u prefixes, by their last positions\n", answer.value);
    for (uint32_t i = 0; answer.number == 0 && i < answer.value; i++) printf("%u\t%.*s\n", last[i], (int)last[i] + 1, argv[1]);
    free(last);
    return 0;
}
