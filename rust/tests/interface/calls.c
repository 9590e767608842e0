/* Calls every function of include/lyndon.h, as C and as C++: accepted, refused, and with null pointers of length 0. After each call the
 * inputs are compared with what they were, and all of the buffers with what they should be. Prints how many calls were made. */
#include "lyndon.h"
#include <stdio.h>
#include <stdlib.h>
#include <string.h>

/* What no call leaves by chance. */
#define MARK 0xa5a5a5a5u
#define PLACES 64
/* The places that the reader asks for. */
#define LETTERS 4096

static uint8_t text[PLACES], text_before[PLACES], letters[LETTERS + 4], ranks[256], ranks_before[256];
static uint32_t numbers[PLACES], numbers_before[PLACES], first[PLACES], second[PLACES];
static lyndon_store store, store_before;
static unsigned calls;

static void fail(const char *what) {
    fprintf(stderr, "call %u: %s\n", calls, what);
    exit(1);
}

/* The text or array of the next call, and buffers that hold marks. */
static void start(const uint32_t *content, size_t n) {
    for (size_t i = 0; i < PLACES; i++) {
        numbers[i] = i < n ? content[i] : MARK;
        text[i] = i < n ? (uint8_t)content[i] : 0xa5;
        first[i] = second[i] = MARK;
    }
    memset(letters, 0xa5, sizeof letters);
    /* By rank the two cases are one letter, and b comes before a. */
    memset(ranks, 2, sizeof ranks);
    ranks['b'] = ranks['B'] = 0, ranks['a'] = ranks['A'] = 1;
    memcpy(ranks_before, ranks, sizeof ranks);
    store_before = store;
    memcpy(text_before, text, sizeof text);
    memcpy(numbers_before, numbers, sizeof numbers);
}

static void start_text(const char *content) {
    uint32_t codes[PLACES];
    size_t n = strlen(content);
    for (size_t i = 0; i < n; i++) codes[i] = (uint8_t)content[i];
    start(codes, n);
}

static void start_sample(void) { start_text("aabaab"); }

static void answered_all(lyndon_answer answer, uint32_t number, uint32_t value, uint32_t comparisons) {
    calls++;
    if (answer.number != number || answer.value != value || answer.comparisons != comparisons) {
        fprintf(stderr, "call %u: answer %u, %u, %u; expected %u, %u, %u\n", calls, answer.number, answer.value, answer.comparisons, number,
            value, comparisons);
        exit(1);
    }
    if (memcmp(text, text_before, sizeof text) != 0 || memcmp(numbers, numbers_before, sizeof numbers) != 0 ||
        memcmp(ranks, ranks_before, sizeof ranks) != 0 || memcmp(&store, &store_before, sizeof store) != 0)
        fail("an input has changed");
}

/* The answer of an accepted factor list tells comparisons, any other answer none. */
static void answered(lyndon_answer answer, uint32_t number, uint32_t value) { answered_all(answer, number, value, 0); }
static void listed(lyndon_answer answer, uint32_t count, uint32_t comparisons) { answered_all(answer, 0, count, comparisons); }

/* A buffer begins with these numbers, and has its marks behind them. */
static void holds(const uint32_t *buffer, const uint32_t *content, size_t n) {
    for (size_t i = 0; i < PLACES; i++)
        if (buffer[i] != (i < n ? content[i] : MARK)) fail("a buffer is not what it should be");
}

/* The ranked calls that take an order, all refused with one number. */
static void refused_ranked(const uint8_t *x, size_t n, uint32_t order, const uint8_t *table, size_t table_len, uint32_t *out, size_t out_len,
    uint32_t number) {
    answered(lyndon_array_ranked(x, n, order, table, table_len, out, out_len), number, 0);
    answered(lyndon_factorization_ranked(x, n, order, table, table_len, out, out_len), number, 0);
    answered(lyndon_suffix_table_ranked(x, n, order, table, table_len, out, out_len), number, 0);
    answered(lyndon_left_forest_ranked(x, n, order, table, table_len, out, out_len, second, PLACES), number, 0);
    answered(lyndon_left_forest_ranked(x, n, order, table, table_len, second, PLACES, out, out_len), number, 0);
}

/* The uses of a table of the store, all refused with one number. */
static void refused_uses(uint32_t group, uint32_t built_in, uint32_t table, const uint8_t *x, size_t n, uint32_t *out, size_t out_len,
    uint32_t number) {
    answered(lyndon_store_array(store, group, built_in, table, x, n, out, out_len), number, 0);
    answered(lyndon_store_factorization(store, group, built_in, table, x, n, out, out_len), number, 0);
    answered(lyndon_store_suffix_table(store, group, built_in, table, x, n, out, out_len), number, 0);
    answered(lyndon_store_left_forest(store, group, built_in, table, x, n, out, out_len, second, PLACES), number, 0);
    answered(lyndon_store_left_forest(store, group, built_in, table, x, n, second, PLACES, out, out_len), number, 0);
    answered(lyndon_store_runs(store, group, built_in, table, x, n, first, PLACES, out, out_len), number, 0);
}

/* A write: the answer, and the store that it returns. */
static void written(lyndon_store_written write, uint32_t number, uint32_t value, const lyndon_store *wanted) {
    answered(write.answer, number, value);
    if (memcmp(&write.store, wanted, sizeof write.store) != 0) fail("the store is not what it should be");
}

/* Every call on a text or an array of no elements, all pointers null. */
static void of_nothing(void) {
    start(NULL, 0);
    for (uint32_t order = 0; order < 3; order++) {
        answered(lyndon_array_u8(NULL, 0, order, NULL, 0), 1, 0);
        answered(lyndon_array_u32(NULL, 0, order, NULL, 0), 1, 0);
    }
    answered(lyndon_factorization(NULL, 0, NULL, 0), 1, 0);
    answered(lyndon_suffix_table(NULL, 0, NULL, 0), 1, 0);
    answered(lyndon_left_forest(NULL, 0, NULL, 0, NULL, 0), 1, 0);
    answered(lyndon_right_forest(NULL, 0, NULL, 0, NULL, 0), 1, 0);
    answered(lyndon_reconstruct(NULL, 0, NULL, 0), 1, 0);
    answered(lyndon_runs(NULL, 0, NULL, 0, NULL, 0), 1, 0);
    for (uint32_t order = 0; order < 4; order++) refused_ranked(NULL, 0, order, NULL, 0, NULL, 0, 1);
    answered(lyndon_runs_ranked(NULL, 0, NULL, 0, NULL, 0, NULL, 0), 1, 0);
    answered(lyndon_compare_infinite(NULL, 0, NULL, 0), 1, 0);
    answered(lyndon_prefix_permutation(NULL, 0, NULL, 0), 1, 0);
    answered(lyndon_read_fasta(NULL, 0, NULL, 0), 4, 0);
    answered(lyndon_read_fasta(NULL, 0, letters, sizeof letters), 9, 0);
    written(lyndon_store_write(store, 1, 0, NULL, 0), 16, 0, &store);
    answered(lyndon_store_read(store, 1, 1, 0, NULL, 0), 4, 0);
    refused_uses(1, 1, 0, NULL, 0, NULL, 0, 1);
    holds(first, NULL, 0);
    holds(second, NULL, 0);
}

/* Every call on a text of six letters, buffers null. */
static void into_nothing(void) {
    start_sample();
    answered(lyndon_array_u8(text, 6, LYNDON_RISING, NULL, 0), 4, 0);
    answered(lyndon_array_u8(text, 6, 2, NULL, 0), 3, 0);
    answered(lyndon_array_u32(numbers, 6, LYNDON_FALLING, NULL, 0), 4, 0);
    answered(lyndon_array_u32(numbers, 6, 4294967295u, NULL, 0), 3, 0);
    answered(lyndon_factorization(text, 6, NULL, 0), 4, 0);
    answered(lyndon_suffix_table(text, 6, NULL, 0), 4, 0);
    answered(lyndon_left_forest(text, 6, NULL, 0, second, PLACES), 4, 0);
    answered(lyndon_left_forest(text, 6, first, PLACES, NULL, 0), 4, 0);
    answered(lyndon_right_forest(numbers, 6, NULL, 0, second, PLACES), 4, 0);
    answered(lyndon_right_forest(numbers, 6, first, PLACES, NULL, 0), 4, 0);
    answered(lyndon_reconstruct(numbers, 6, NULL, 0), 4, 0);
    answered(lyndon_runs(text, 6, first, PLACES, NULL, 0), 4, 0);
    answered(lyndon_runs(text, 6, NULL, 0, second, PLACES), 5, 0);
    answered(lyndon_prefix_permutation(text, 6, NULL, 0), 4, 0);
    answered(lyndon_read_fasta(text, 6, NULL, 0), 4, 0);
    for (uint32_t order = 0; order < 3; order++) refused_ranked(text, 6, order, ranks, 256, NULL, 0, 4);
    refused_ranked(text, 6, LYNDON_RANKED, NULL, 0, NULL, 0, 16);
    refused_ranked(text, 6, 3, NULL, 0, NULL, 0, 3);
    answered(lyndon_runs_ranked(text, 6, NULL, 0, NULL, 0, NULL, 0), 16, 0);
    answered(lyndon_runs_ranked(text, 6, ranks, 256, first, PLACES, NULL, 0), 4, 0);
    answered(lyndon_runs_ranked(text, 6, ranks, 256, NULL, 0, second, PLACES), 5, 0);
    refused_uses(2, 1, 1, text, 6, NULL, 0, 4);
    answered(lyndon_store_runs(store, 2, 1, 1, text, 6, NULL, 0, second, PLACES), 5, 0);
    holds(first, NULL, 0);
    holds(second, NULL, 0);
}

static void of_a_text(void) {
    static const uint32_t rising[] = {3, 2, 1, 3, 2, 1}, falling[] = {1, 1, 3, 1, 1, 1}, starts[] = {0, 3}, table[] = {1, 1, 3, 1, 1, 3};
    static const uint32_t runs[] = {0, 1, 1, 0, 5, 3, 3, 4, 1};
    uint32_t both[12];
    memcpy(both, rising, sizeof rising);
    memcpy(both + 6, falling, sizeof falling);

    start_sample();
    answered(lyndon_array_u8(text, 6, LYNDON_RISING, first, PLACES), 0, 6);
    holds(first, rising, 6);
    start_sample();
    answered(lyndon_array_u8(text, 6, LYNDON_FALLING, first, PLACES), 0, 6);
    holds(first, falling, 6);
    start_sample();
    answered(lyndon_array_u32(numbers, 6, LYNDON_RISING, first, PLACES), 0, 6);
    holds(first, rising, 6);
    start_sample();
    answered(lyndon_array_u32(numbers, 6, LYNDON_FALLING, first, PLACES), 0, 6);
    holds(first, falling, 6);
    start_sample();
    listed(lyndon_factorization(text, 6, first, PLACES), 2, 5);
    holds(first, starts, 2);
    start_sample();
    answered(lyndon_suffix_table(text, 6, first, PLACES), 0, 6);
    holds(first, table, 6);
    start_sample();
    answered(lyndon_runs(text, 6, first, PLACES, second, PLACES), 0, 3);
    holds(first, both, 12);
    holds(second, runs, 9);
}

/* A list of exactly the places needed, and one less; for one letter none, and no pointer. */
static void run_lists(void) {
    static const uint32_t ones[] = {1, 1}, runs[] = {0, 1, 1, 0, 5, 3, 3, 4, 1};
    start_sample();
    answered(lyndon_runs(text, 6, first, PLACES, second, 14), 4, 0);
    answered(lyndon_runs_ranked(text, 6, ranks, 256, first, PLACES, second, 14), 4, 0);
    holds(first, NULL, 0);
    holds(second, NULL, 0);
    answered(lyndon_runs(text, 6, first, PLACES, second, 15), 0, 3);
    holds(second, runs, 9);
    start_sample();
    answered(lyndon_runs_ranked(text, 6, ranks, 256, first, PLACES, second, 15), 0, 3);
    holds(second, runs, 9);
    start_sample();
    answered(lyndon_runs(text, 1, first, PLACES, NULL, 0), 0, 0);
    holds(first, ones, 2);
    start_sample();
    answered(lyndon_runs_ranked(text, 1, ranks, 256, first, PLACES, NULL, 0), 0, 0);
    holds(first, ones, 2);
}

/* What the calls by rank write for aAbaAB: array, factors, suffix table, left forest; the two arrays in work, and the runs. */
static const uint32_t ranked_array[] = {1, 1, 3, 1, 1, 1}, ranked_starts[] = {0, 1, 2, 5}, ranked_table[] = {1, 1, 1, 2, 3, 1};
static const uint32_t ranked_first[] = {0, 1, 2, 2, 2, 5}, ranked_past[] = {0, 1, 2, 4, 5, 5};
static const uint32_t ranked_work[] = {1, 1, 3, 1, 1, 1, 3, 2, 1, 3, 2, 1}, ranked_runs[] = {0, 1, 1, 0, 5, 3, 3, 4, 1};

/* The ranked calls on two texts that have one answer: by rank the first is a text of two letters, b before a, as the second is in falling
 * order, with no table. */
static void of_ranked_texts(void) {
    static const struct { const char *content; uint32_t order; const uint8_t *table; size_t table_len; } ways[] = {
        {"aAbaAB", LYNDON_RANKED, ranks, 256}, {"aabaab", LYNDON_FALLING, NULL, 0}};
    for (size_t w = 0; w < sizeof ways / sizeof ways[0]; w++) {
        start_text(ways[w].content);
        answered(lyndon_array_ranked(text, 6, ways[w].order, ways[w].table, ways[w].table_len, first, PLACES), 0, 6);
        holds(first, ranked_array, 6);
        start_text(ways[w].content);
        listed(lyndon_factorization_ranked(text, 6, ways[w].order, ways[w].table, ways[w].table_len, first, PLACES), 4, 5);
        holds(first, ranked_starts, 4);
        start_text(ways[w].content);
        answered(lyndon_suffix_table_ranked(text, 6, ways[w].order, ways[w].table, ways[w].table_len, first, PLACES), 0, 6);
        holds(first, ranked_table, 6);
        start_text(ways[w].content);
        answered(lyndon_left_forest_ranked(text, 6, ways[w].order, ways[w].table, ways[w].table_len, first, PLACES, second, PLACES), 0, 6);
        holds(first, ranked_first, 6);
        holds(second, ranked_past, 6);
    }
    start_text(ways[0].content);
    answered(lyndon_runs_ranked(text, 6, ranks, 256, first, PLACES, second, PLACES), 0, 3);
    holds(first, ranked_work, 12);
    holds(second, ranked_runs, 9);
}

/* A new store has no byte but 0. A table of a group is refused until it is written; then it stands in its place, and nowhere else. */
static void of_a_store(void) {
    /* Own table 1 of group 2 is the fifth of six. */
    static const size_t place = 4;
    static const uint32_t unknown[][3] = {
        {0, 0, 0}, {3, 0, 0}, {4294967295u, 0, 0}, {1, 0, 3}, {2, 0, 4294967295u}, {1, 1, 2}, {2, 7, 2}, {0, 1, 0}, {3, 1, 1}};
    lyndon_store expected;
    memset(&expected, 0, sizeof expected);
    memset(&store, 0xa5, sizeof store);
    store = lyndon_store_new();
    calls++;
    if (sizeof store != 1542 || memcmp(&store, &expected, sizeof store) != 0) fail("a new store is not all zeros");

    start_sample();
    for (size_t u = 0; u < sizeof unknown / sizeof unknown[0]; u++) {
        refused_uses(unknown[u][0], unknown[u][1], unknown[u][2], NULL, 0, NULL, 0, 21);
        answered(lyndon_store_read(store, unknown[u][0], unknown[u][1], unknown[u][2], NULL, 0), 21, 0);
        if (unknown[u][1] == 0) written(lyndon_store_write(store, unknown[u][0], unknown[u][2], NULL, 0), 21, 0, &store);
    }
    for (uint32_t t = 0; t < 6; t++) {
        refused_uses(1 + t / 3, 0, t % 3, NULL, 0, NULL, 0, 22);
        answered(lyndon_store_read(store, 1 + t / 3, 0, t % 3, NULL, 0), 22, 0);
        written(lyndon_store_write(store, 1 + t / 3, t % 3, ranks, 255), 16, 0, &store);
    }
    holds(first, NULL, 0);
    holds(second, NULL, 0);

    memcpy(expected.tables + 256 * place, ranks, 256);
    expected.written[place] = 1;
    written(lyndon_store_write(store, 2, 1, ranks, 256), 0, 256, &expected);
    store = expected;
    start_sample();
    written(lyndon_store_write(store, 2, 1, ranks, 257), 16, 0, &expected);
    refused_uses(1, 0, 1, text, 6, first, PLACES, 22);
    /* Any flag but 0 is for a table that is written. */
    for (unsigned flag = 1; flag < 256; flag += 127) {
        store.written[place] = (uint8_t)flag;
        start_text("aAbaAB");
        answered(lyndon_store_array(store, 2, 0, 1, text, 6, first, PLACES), 0, 6);
        holds(first, ranked_array, 6);
    }
    start_text("aAbaAB");
    listed(lyndon_store_factorization(store, 2, 0, 1, text, 6, first, PLACES), 4, 5);
    holds(first, ranked_starts, 4);
    start_text("aAbaAB");
    answered(lyndon_store_suffix_table(store, 2, 0, 1, text, 6, first, PLACES), 0, 6);
    holds(first, ranked_table, 6);
    start_text("aAbaAB");
    answered(lyndon_store_left_forest(store, 2, 0, 1, text, 6, first, PLACES, second, PLACES), 0, 6);
    holds(first, ranked_first, 6);
    holds(second, ranked_past, 6);
    start_text("aAbaAB");
    answered(lyndon_store_runs(store, 2, 0, 1, text, 6, first, PLACES, second, PLACES), 0, 3);
    holds(first, ranked_work, 12);
    holds(second, ranked_runs, 9);
    /* By the built-in table that makes the two cases one, a comes before b. */
    start_text("aAbaAB");
    answered(lyndon_store_array(store, 1, 4294967295u, 1, text, 6, first, PLACES), 0, 6);
    holds(first, ranked_work + 6, 6);

    start_sample();
    answered(lyndon_store_read(store, 2, 0, 1, letters, 255), 4, 0);
    if (letters[0] != 0xa5) fail("a refusal has written a table");
    answered(lyndon_store_read(store, 2, 0, 1, letters, sizeof letters), 0, 256);
    if (memcmp(letters, ranks, 256) != 0 || letters[256] != 0xa5) fail("the table is not the one written");
    for (uint32_t number = 0; number < 2; number++) {
        answered(lyndon_store_read(store, 1, 1, number, letters, 256), 0, 256);
        for (unsigned a = 0; a < 256; a++)
            if (letters[a] != (number == 1 && a >= 'a' && a <= 'z' ? a - 'a' + 'A' : a)) fail("a built-in table is not by its rule");
    }
}

/* A table and an out inside the store variable that the call is given: the call has a copy. */
static void inside_a_store(void) {
    lyndon_store_written own;
    lyndon_store expected;
    start_sample();
    for (size_t i = 0; i < sizeof own.store.tables; i++) own.store.tables[i] = (uint8_t)(i % 251);
    memset(own.store.written, 1, sizeof own.store.written);

    /* Bytes 100 to 355 for the first table, and the store returned into the same variable. */
    expected = own.store;
    memcpy(expected.tables, own.store.tables + 100, 256);
    own = lyndon_store_write(own.store, 1, 0, own.store.tables + 100, 256);
    written(own, 0, 256, &expected);

    /* The first table over bytes 100 to 355, then over the last 256, the flags among them. */
    memcpy(expected.tables + 100, own.store.tables, 256);
    answered(lyndon_store_read(own.store, 1, 0, 0, own.store.tables + 100, 256), 0, 256);
    if (memcmp(&own.store, &expected, sizeof expected) != 0) fail("the table read is not in its place");
    memcpy((uint8_t *)&expected + sizeof expected - 256, own.store.tables, 256);
    answered(lyndon_store_read(own.store, 1, 0, 0, (uint8_t *)&own.store + sizeof own.store - 256, 256), 0, 256);
    if (memcmp(&own.store, &expected, sizeof expected) != 0) fail("the table read is not in its place");
}

/* The factors of K6 of the specification, found with 18 comparisons: without ranks, and in each order. By rank, as in falling order, b
 * comes before a. */
static void factors_and_comparisons(void) {
    static const char content[] = "abbababaababbaba", exchanged[] = "baabababbabaabab";
    static const uint32_t starts[] = {0, 3, 5, 7, 15};
    start_text(content);
    listed(lyndon_factorization(text, 16, first, PLACES), 5, 18);
    holds(first, starts, 5);
    for (uint32_t order = 0; order < 3; order++) {
        start_text(order == LYNDON_RISING ? content : exchanged);
        listed(lyndon_factorization_ranked(text, 16, order, ranks, 256, first, PLACES), 5, 18);
        holds(first, starts, 5);
    }
}

/* The calls without an order, in which a to z rank as A to Z, and order 0 of the ranked form, by hand. aB is AB, one factor; by number B comes
 * before a. abAa is ABAA: its first scan stops at the last letter, after 3 comparisons, and the second makes one more; by number the first
 * stops at the A, after 2. The array goes with the factors. */
static void in_default_order(void) {
    static const struct example {
        const char *content;
        int rising;
        uint32_t n, factors, comparisons, starts[4], table[4], left_first[4], left_past[4], array[4];
    } examples[] = {
        {"aB", 0, 2, 1, 1, {0}, {1, 2}, {0, 0}, {0, 2}, {2, 1}},
        {"aB", 1, 2, 2, 1, {0, 1}, {1, 1}, {0, 1}, {0, 1}, {1, 1}},
        {"abAa", 0, 4, 3, 4, {0, 2, 3}, {1, 2, 1, 1}, {0, 0, 2, 3}, {0, 2, 2, 3}, {2, 1, 1, 1}},
        {"abAa", 1, 4, 2, 3, {0, 2}, {1, 2, 1, 2}, {0, 0, 2, 2}, {0, 2, 2, 4}, {2, 1, 2, 1}}};
    for (size_t e = 0; e < sizeof examples / sizeof examples[0]; e++) {
        const struct example *x = &examples[e];
        size_t n = x->n;
        start_text(x->content);
        listed(x->rising ? lyndon_factorization_ranked(text, n, LYNDON_RISING, NULL, 0, first, PLACES)
                         : lyndon_factorization(text, n, first, PLACES), x->factors, x->comparisons);
        holds(first, x->starts, x->factors);
        start_text(x->content);
        answered(x->rising ? lyndon_suffix_table_ranked(text, n, LYNDON_RISING, NULL, 0, first, PLACES)
                           : lyndon_suffix_table(text, n, first, PLACES), 0, x->n);
        holds(first, x->table, n);
        start_text(x->content);
        answered(x->rising ? lyndon_left_forest_ranked(text, n, LYNDON_RISING, NULL, 0, first, PLACES, second, PLACES)
                           : lyndon_left_forest(text, n, first, PLACES, second, PLACES), 0, x->n);
        holds(first, x->left_first, n);
        holds(second, x->left_past, n);
        start_text(x->content);
        answered(x->rising ? lyndon_array_u8(text, n, LYNDON_RISING, first, PLACES)
                           : lyndon_store_array(lyndon_store_new(), 1, 1, 1, text, n, first, PLACES), 0, x->n);
        holds(first, x->array, n);
    }
}

/* Parts of one text, which may overlap or be the same; no buffer is written. */
static void texts_in_infinite_order(void) {
    start_text("abaababB");
    answered(lyndon_compare_infinite(text, 3, text, 2), 0, 0);
    answered(lyndon_compare_infinite(text, 2, text, 3), 0, 2);
    answered(lyndon_compare_infinite(text, 3, text, 5), 0, 0);
    answered(lyndon_compare_infinite(text, 5, text, 3), 0, 2);
    answered(lyndon_compare_infinite(text + 3, 4, text, 2), 0, 0);
    answered(lyndon_compare_infinite(text + 5, 2, text, 2), 0, 1);
    answered(lyndon_compare_infinite(text + 2, 2, text, 1), 0, 0);
    answered(lyndon_compare_infinite(text, 8, text, 8), 0, 1);
    answered(lyndon_compare_infinite(text + 7, 1, text, 1), 0, 0);
    answered(lyndon_compare_infinite(text, 8, NULL, 0), 1, 0);
    answered(lyndon_compare_infinite(NULL, 0, text, 8), 1, 0);
    holds(first, NULL, 0);
}

/* The prefixes of Lyndon words in rising order, in exactly the places needed, and in one less; for one letter none, and no pointer. */
static void prefixes_in_infinite_order(void) {
    static const uint32_t prefixes[] = {0, 2, 1, 4, 6, 5, 3, 7};
    start_text("abacabade");
    answered(lyndon_prefix_permutation(text, 9, first, 7), 4, 0);
    holds(first, NULL, 0);
    answered(lyndon_prefix_permutation(text, 9, first, 8), 0, 8);
    holds(first, prefixes, 8);
    start_text("abacabade");
    answered(lyndon_prefix_permutation(text, 9, first, PLACES), 0, 8);
    holds(first, prefixes, 8);
    start_text("Ba");
    answered(lyndon_prefix_permutation(text, 2, first, PLACES), 0, 1);
    holds(first, prefixes, 1);
    answered(lyndon_prefix_permutation(text, 1, NULL, 0), 0, 0);
    start_text("aB");
    answered(lyndon_prefix_permutation(text, 1, first, PLACES), 0, 0);
    answered(lyndon_prefix_permutation(text, 2, first, PLACES), 17, 0);
    answered(lyndon_prefix_permutation(text, 2, NULL, 0), 4, 0);
    holds(first, NULL, 0);
}

/* K8, K9, K10 and K11 of the specification. */
static void forests_and_texts(void) {
    static const uint32_t aabb[] = {'a', 'a', 'b', 'b'}, left_first[] = {0, 0, 1, 0}, left_past[] = {0, 3, 3, 4};
    static const uint32_t array[] = {4, 3, 1, 1}, right_first[] = {0, 0, 1, 1}, right_past[] = {0, 4, 3, 4};
    static const uint32_t valid[] = {2, 1, 5, 2, 1, 2, 1, 3, 2, 1}, written[] = {8, 9, 3, 6, 7, 4, 5, 0, 1, 2}, crossing[] = {2, 2, 1};
    start(aabb, 4);
    answered(lyndon_left_forest(text, 4, first, PLACES, second, PLACES), 0, 4);
    holds(first, left_first, 4);
    holds(second, left_past, 4);
    start(array, 4);
    answered(lyndon_right_forest(numbers, 4, first, PLACES, second, PLACES), 0, 4);
    holds(first, right_first, 4);
    holds(second, right_past, 4);
    start(valid, 10);
    answered(lyndon_reconstruct(numbers, 10, first, PLACES), 0, 10);
    holds(first, written, 10);
    start(crossing, 3);
    answered(lyndon_reconstruct(numbers, 3, first, PLACES), 8, 1);
    answered(lyndon_right_forest(numbers, 3, first, PLACES, second, PLACES), 8, 1);
    holds(first, NULL, 0);
    holds(second, NULL, 0);
}

static void of_a_record(void) {
    static const char record[] = ">m1 a name\nAC\r\ngt\n", unfit[] = ">m1\nAC-GT\n";
    start_text(record);
    answered(lyndon_read_fasta(text, sizeof record - 1, letters, LETTERS), 0, 4);
    if (memcmp(letters, "ACGT", 4) != 0 || letters[4] != 0xa5) fail("the letters are not those of the record");
    start_text(record);
    answered(lyndon_read_fasta(text, sizeof record - 1, letters, LETTERS - 1), 4, 0);
    start_text(unfit);
    answered(lyndon_read_fasta(text, sizeof unfit - 1, letters, LETTERS), 11, 6);
    if (letters[0] != 0xa5) fail("a refusal has written letters");
}

int main(void) {
    of_nothing();
    into_nothing();
    of_a_text();
    run_lists();
    of_ranked_texts();
    of_a_store();
    inside_a_store();
    factors_and_comparisons();
    in_default_order();
    texts_in_infinite_order();
    prefixes_in_infinite_order();
    forests_and_texts();
    of_a_record();
    printf("%u calls\n", calls);
    return 0;
}
