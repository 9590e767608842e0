/* Lists the runs (maximal repetitions) of a text: first and last position, period, and the letters.
 *
 *     make lib
 *     cc -Iinclude -o runs examples/runs.c target/lib/liblyndon.a
 *     ./runs mississippi
 */
#include "lyndon.h"
#include <stdio.h>
#include <stdlib.h>
#include <string.h>

int main(int argc, char **argv) {
    if (argc != 2) {
        fprintf(stderr, "usage: runs TEXT\n");
        return 2;
    }
    const uint8_t *text = (const uint8_t *)argv[1];
    size_t n = strlen(argv[1]);

    /* Lengths count numbers, not bytes: 2 n for the work buffer, three for each of at most n - 1 runs for the list. Where there is no
     * letter, n - 1 would wrap. malloc has a place more, since of nothing it may give null. */
    size_t places = n == 0 ? 0 : 3 * (n - 1);
    uint32_t *work = malloc((2 * n + 1) * sizeof *work);
    uint32_t *list = malloc((places + 1) * sizeof *list);
    if (!work || !list) {
        fprintf(stderr, "runs: out of memory\n");
        return 2;
    }

    lyndon_answer answer = lyndon_runs(text, n, work, 2 * n, list, places);
    if (answer.number != 0) {
        /* A refusal has changed no buffer; value is the position it names. */
        printf("refused %u at %u\n", answer.number, answer.value);
        return 1;
    }

    printf("%u runs\n", answer.value);
    for (uint32_t r = 0; r < answer.value; r++) {
        uint32_t start = list[3 * r], last = list[3 * r + 1], period = list[3 * r + 2];
        printf("%u to %u, period %u: %.*s\n", start, last, period, (int)(last - start + 1), argv[1] + start);
    }

    /* The work buffer now holds the Lyndon array in rising order, then in falling order. */
    printf("rising Lyndon array:");
    for (size_t i = 0; i < n; i++) printf(" %u", work[i]);
    printf("\nfalling Lyndon array:");
    for (size_t i = 0; i < n; i++) printf(" %u", work[n + i]);
    printf("\n");

    free(work);
    free(list);
    return 0;
}
