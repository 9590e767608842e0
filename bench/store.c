/* Prints, for each call by a table of a store, nanoseconds a call beside the ranked call in order 2 by the same table, and of reading and
 * writing a table; then each call without an order beside order 0 of its ranked form. What the two write is compared in full: the text has no
 * lower-case letters, on which the default order would differ from order 0. */
#include "families.h"
#include "lyndon.h"
#include "timing.h"
#include <stdio.h>
#include <stdlib.h>
#include <string.h>

#define LARGEST 1048576
#define RUNS 15

static uint8_t text[LARGEST], table[256];
static lyndon_store store;

static struct written {
    lyndon_answer answer;
    uint32_t first[2 * LARGEST], second[3 * LARGEST];
} stored, ranked;

static void stored_array(size_t n) { stored.answer = lyndon_store_array(store, 1, 0, 0, text, n, stored.first, n); }
static void ranked_array(size_t n) { ranked.answer = lyndon_array_ranked(text, n, LYNDON_RANKED, table, 256, ranked.first, n); }
static void stored_factorization(size_t n) { stored.answer = lyndon_store_factorization(store, 1, 0, 0, text, n, stored.first, n); }
static void ranked_factorization(size_t n) { ranked.answer = lyndon_factorization_ranked(text, n, LYNDON_RANKED, table, 256, ranked.first, n); }
static void stored_suffix_table(size_t n) { stored.answer = lyndon_store_suffix_table(store, 1, 0, 0, text, n, stored.first, n); }
static void ranked_suffix_table(size_t n) { ranked.answer = lyndon_suffix_table_ranked(text, n, LYNDON_RANKED, table, 256, ranked.first, n); }
static void stored_left_forest(size_t n) { stored.answer = lyndon_store_left_forest(store, 1, 0, 0, text, n, stored.first, n, stored.second, n); }
static void ranked_left_forest(size_t n) {
    ranked.answer = lyndon_left_forest_ranked(text, n, LYNDON_RANKED, table, 256, ranked.first, n, ranked.second, n);
}
static void stored_runs(size_t n) {
    stored.answer = lyndon_store_runs(store, 1, 0, 0, text, n, stored.first, 2 * n, stored.second, 3 * (n - 1));
}
static void ranked_runs(size_t n) { ranked.answer = lyndon_runs_ranked(text, n, table, 256, ranked.first, 2 * n, ranked.second, 3 * (n - 1)); }

/* The default order and rising order, into the same two. */
static void default_factorization(size_t n) { stored.answer = lyndon_factorization(text, n, stored.first, n); }
static void rising_factorization(size_t n) { ranked.answer = lyndon_factorization_ranked(text, n, LYNDON_RISING, table, 256, ranked.first, n); }
static void default_suffix_table(size_t n) { stored.answer = lyndon_suffix_table(text, n, stored.first, n); }
static void rising_suffix_table(size_t n) { ranked.answer = lyndon_suffix_table_ranked(text, n, LYNDON_RISING, table, 256, ranked.first, n); }
static void default_left_forest(size_t n) { stored.answer = lyndon_left_forest(text, n, stored.first, n, stored.second, n); }
static void rising_left_forest(size_t n) {
    ranked.answer = lyndon_left_forest_ranked(text, n, LYNDON_RISING, table, 256, ranked.first, n, ranked.second, n);
}

static void read_back(size_t n) { (void)n, stored.answer = lyndon_store_read(store, 1, 0, 0, (uint8_t *)stored.first, 256); }
static void write_again(size_t n) { (void)n, store = lyndon_store_write(store, 1, 0, table, 256).store; }

/* The best time of a call, in nanoseconds; the two take turns. */
static void best(void (*const calls[2])(size_t), size_t n, double least[2]) {
    size_t times = n < 10000 ? 2000 : 1;
    least[0] = least[1] = 1e30;
    for (int run = 0; run < RUNS; run++)
        for (int c = 0; c < 2; c++) {
            double start = clock_now();
            for (size_t t = 0; t < times; t++) calls[c](n);
            double took = (clock_now() - start) / (double)times;
            if (took < least[c]) least[c] = took;
        }
}

static const size_t sizes[] = {1, 16, 32, 256, LARGEST};

static void heading(const char *what) {
    printf("ns a call %s; at %d letters the ratio, on %s\n", what, LARGEST, family_name(0));
    printf("| Call | 1 letter | 16 | 32 | 256 | %d |\n|---|---|---|---|---|---|\n", LARGEST);
}

static void beside(const char *name, void (*one)(size_t), void (*other)(size_t)) {
    printf("| %s |", name);
    for (int s = 0; s < 5; s++) {
        double least[2];
        best((void (*const[2])(size_t)){one, other}, sizes[s], least);
        if (memcmp(&stored, &ranked, sizeof stored) != 0) {
            fprintf(stderr, "%s at %zu letters: the two differ\n", name, sizes[s]);
            exit(1);
        }
        if (s < 4) printf(" %.0f / %.0f |", least[0], least[1]);
        else printf(" %.3f |\n", least[0] / least[1]);
    }
}

int main(void) {
    for (int a = 0; a < 256; a++) table[a] = (uint8_t)(a * 7 + 3);
    family_fill(0, text, LARGEST);
    store = lyndon_store_write(lyndon_store_new(), 1, 0, table, 256).store;
    heading("by a table of a store / ranked by that table");
    beside("array", stored_array, ranked_array);
    beside("factorization", stored_factorization, ranked_factorization);
    beside("suffix table", stored_suffix_table, ranked_suffix_table);
    beside("left forest", stored_left_forest, ranked_left_forest);
    beside("runs", stored_runs, ranked_runs);
    double least[2];
    best((void (*const[2])(size_t)){read_back, write_again}, 1, least);
    printf("a table read back %.0f ns, written %.0f ns\n\n", least[0], least[1]);

    memset(&stored, 0, sizeof stored);
    memset(&ranked, 0, sizeof ranked);
    heading("in the default order / in order 0 of the ranked form");
    beside("factorization", default_factorization, rising_factorization);
    beside("suffix table", default_suffix_table, rising_suffix_table);
    beside("left forest", default_left_forest, rising_left_forest);
    return 0;
}
