/* Times this library beside an older one whose names have `old_` before them (scripts/beside makes that one). Both are in one program and
 * take turns. Prints a line for each call, size and family: nanoseconds a letter now and before, and below 10,000 letters nanoseconds a call.
 * What the two write is compared in full, but for calls whose default order has changed, on texts that may show it. Given arguments, only
 * calls whose names begin with one of them are timed. PAD bytes stand before the functions, so that they can be laid out in several ways. */
#include "families.h"
#include "lyndon.h"
#include "reference.h"
#include "timing.h"
#include <stdio.h>
#include <stdlib.h>
#include <string.h>

PADDING(PAD);

#define LARGEST 1048576
#define TURNS 11

/* The older library has the calls of this one, but perhaps not those with ranks or on the infinite order. Its answers may lack the
 * comparisons; they are declared as this library's all the same, which does no harm where both come back in registers, and nothing looks at
 * them. */
#define OLD(name) extern __typeof__(lyndon_##name) old_lyndon_##name __attribute__((weak))
OLD(array_u8);
OLD(array_u32);
OLD(runs);
OLD(factorization);
OLD(suffix_table);
OLD(left_forest);
OLD(right_forest);
OLD(reconstruct);
OLD(read_fasta);
OLD(array_ranked);
OLD(runs_ranked);
OLD(factorization_ranked);
OLD(suffix_table_ranked);
OLD(left_forest_ranked);
OLD(compare_infinite);
OLD(prefix_permutation);

static uint8_t text[LARGEST], ranks[256];
static uint32_t numbers[LARGEST];

struct written {
    uint32_t first[2 * LARGEST], second[6 * LARGEST];
};
static struct written buffers, kept;
static struct written *const b = &buffers;

/* A call of each library, on text and n. Both write into the same buffers: where those lie in memory counts too. An older library may ask
 * for a longer run list than this one, and for fewer letters of the reader; both are given what suffices for either. */
#define CALLS(id, now_call, before_call) \
    static void now_##id(size_t n) { now_call; } \
    static void before_##id(size_t n) { before_call; }
#define SAME(id, name, ...) CALLS(id, lyndon_##name(__VA_ARGS__), old_lyndon_##name(__VA_ARGS__))

SAME(array_rising, array_u8, text, n, LYNDON_RISING, b->first, n)
SAME(array_falling, array_u8, text, n, LYNDON_FALLING, b->first, n)
SAME(numbers, array_u32, numbers, n, LYNDON_RISING, b->first, n)
SAME(runs, runs, text, n, b->first, 2 * n, b->second, 6 * n)
SAME(factorization, factorization, text, n, b->first, n)
SAME(suffix_table, suffix_table, text, n, b->first, n)
SAME(left_forest, left_forest, text, n, b->first, n, b->second, n)
SAME(right_forest, right_forest, numbers, n, b->first, n, b->second, n)
SAME(reconstruct, reconstruct, numbers, n, b->first, n)
SAME(reader, read_fasta, text, n, (uint8_t *)b->first, READER_LETTERS)
SAME(array_ranked, array_ranked, text, n, LYNDON_RANKED, ranks, 256, b->first, n)
SAME(runs_ranked, runs_ranked, text, n, ranks, 256, b->first, 2 * n, b->second, 6 * n)
SAME(factorization_ranked, factorization_ranked, text, n, LYNDON_RANKED, ranks, 256, b->first, n)
SAME(suffix_table_ranked, suffix_table_ranked, text, n, LYNDON_RANKED, ranks, 256, b->first, n)
SAME(left_forest_ranked, left_forest_ranked, text, n, LYNDON_RANKED, ranks, 256, b->first, n, b->second, n)
SAME(prefix_permutation, prefix_permutation, text, n, b->first, n - 1)
CALLS(compare_infinite, b->first[0] = lyndon_compare_infinite(text, n, text, n).value,
    b->first[0] = old_lyndon_compare_infinite(text, n, text, n).value)

/* The ranked forms in orders 0 and 1, beside the older ones where there are such, else beside the older calls without a table. */
#define IN_ORDER(id, name, order, plain, ...) \
    CALLS(id, lyndon_##name(text, n, order, ranks, 256, __VA_ARGS__), \
        if (old_lyndon_##name) old_lyndon_##name(text, n, order, ranks, 256, __VA_ARGS__); else plain)
IN_ORDER(array_0, array_ranked, 0, old_lyndon_array_u8(text, n, 0, b->first, n), b->first, n)
IN_ORDER(array_1, array_ranked, 1, old_lyndon_array_u8(text, n, 1, b->first, n), b->first, n)
IN_ORDER(factorization_0, factorization_ranked, 0, old_lyndon_factorization(text, n, b->first, n), b->first, n)
IN_ORDER(suffix_table_0, suffix_table_ranked, 0, old_lyndon_suffix_table(text, n, b->first, n), b->first, n)
IN_ORDER(left_forest_0, left_forest_ranked, 0, old_lyndon_left_forest(text, n, b->first, n, b->second, n), b->first, n, b->second, n)

/* Order 0 beside the older calls without an order, where these were in rising order. */
CALLS(factorization_rising, lyndon_factorization_ranked(text, n, LYNDON_RISING, ranks, 256, b->first, n),
    old_lyndon_factorization(text, n, b->first, n))
CALLS(suffix_table_rising, lyndon_suffix_table_ranked(text, n, LYNDON_RISING, ranks, 256, b->first, n),
    old_lyndon_suffix_table(text, n, b->first, n))
CALLS(left_forest_rising, lyndon_left_forest_ranked(text, n, LYNDON_RISING, ranks, 256, b->first, n, b->second, n),
    old_lyndon_left_forest(text, n, b->first, n, b->second, n))

/* Whether the older calls without an order are in rising order: there aB has two factors, in the default order one. */
static int old_rising(void) { return old_lyndon_factorization((const uint8_t *)"aB", 2, b->first, 2).value == 2; }

/* Whether the default order and rising order can differ on the text: there is a lower-case letter, and a byte from A to the one before a. */
static int orders_differ(size_t n) {
    int lower = 0, other = 0;
    for (size_t i = 0; i < n; i++) lower |= text[i] >= 'a' && text[i] <= 'z', other |= text[i] >= 'A' && text[i] < 'a';
    return lower && other;
}

/* The inputs: texts of the families, as letters and as numbers; their Lyndon arrays; their least rotations; FASTA records. */
static void texts(int f, size_t n) {
    family_fill(f, text, n);
    for (size_t i = 0; i < n; i++) numbers[i] = text[i];
}
static void arrays(int f, size_t n) {
    family_fill(f, text, n);
    lyndon_array_u8(text, n, LYNDON_RISING, numbers, n);
}
static void words(int f, size_t n) { rotation_fill(f, text, n); }
static void records(int r, size_t n) { record_fill(r, text, n); }

struct call {
    const char *name;
    void (*now)(size_t), (*before)(size_t);
    int in_both;
    void (*fill)(int, size_t);
    int order_changed; /* now the default order, before rising order */
};

static double timed(void (*call)(size_t), size_t n) {
    size_t times = n < 1000 ? 20000 : n < 10000 ? 4000 : n < 100000 ? 4 : 1;
    double start = clock_now();
    for (size_t t = 0; t < times; t++) call(n);
    return (clock_now() - start) / (double)times / (n < 10000 ? 1 : (double)n);
}

static void beside(const struct call *call, int input, const char *name, size_t n) {
    double least[2] = {1e30, 1e30};
    call->fill(input, n);
    for (int turn = 0; turn < TURNS; turn++)
        for (int c = 0; c < 2; c++) {
            double took = timed(c == 0 ? call->now : call->before, n);
            if (took < least[c]) least[c] = took;
        }
    memset(&buffers, 0, sizeof buffers), call->now(n), kept = buffers;
    memset(&buffers, 0, sizeof buffers), call->before(n);
    if (memcmp(&kept, &buffers, sizeof kept) != 0 && !(call->order_changed && orders_differ(n))) {
        fprintf(stderr, "%s on %s at %zu letters: the two differ\n", call->name, name, n);
        exit(1);
    }
    printf("%s\t%zu\t%s\t%.4f\t%.4f\n", call->name, n, name, least[0], least[1]);
    fflush(stdout);
}

/* Whether a call is to be timed. */
static int asked_for(const struct call *call, int argc, char **argv) {
    for (int a = 1; a < argc; a++)
        if (strncmp(call->name, argv[a], strlen(argv[a])) == 0) return call->in_both;
    return argc == 1 && call->in_both;
}

int main(int argc, char **argv) {
    const int changed = old_rising();
    const struct call calls[] = {
        {"array rising", now_array_rising, before_array_rising, 1, texts, 0},
        {"array falling", now_array_falling, before_array_falling, 1, texts, 0},
        {"array of numbers", now_numbers, before_numbers, 1, texts, 0},
        {"runs", now_runs, before_runs, 1, texts, 0},
        {"factorization", now_factorization, before_factorization, 1, texts, changed},
        {"suffix table", now_suffix_table, before_suffix_table, 1, texts, changed},
        {"left forest", now_left_forest, before_left_forest, 1, texts, changed},
        {"right forest", now_right_forest, before_right_forest, 1, arrays, 0},
        {"reconstruct", now_reconstruct, before_reconstruct, 1, arrays, 0},
        {"array, order 0 of the ranked form", now_array_0, before_array_0, 1, texts, 0},
        {"array, order 1 of the ranked form", now_array_1, before_array_1, 1, texts, 0},
        {"factorization, order 0 of the ranked form", now_factorization_0, before_factorization_0, 1, texts, 0},
        {"suffix table, order 0 of the ranked form", now_suffix_table_0, before_suffix_table_0, 1, texts, 0},
        {"left forest, order 0 of the ranked form", now_left_forest_0, before_left_forest_0, 1, texts, 0},
        {"factorization, order 0 for no order", now_factorization_rising, before_factorization_rising, changed, texts, 0},
        {"suffix table, order 0 for no order", now_suffix_table_rising, before_suffix_table_rising, changed, texts, 0},
        {"left forest, order 0 for no order", now_left_forest_rising, before_left_forest_rising, changed, texts, 0},
        {"array by rank", now_array_ranked, before_array_ranked, old_lyndon_array_ranked != 0, texts, 0},
        {"runs by rank", now_runs_ranked, before_runs_ranked, old_lyndon_runs_ranked != 0, texts, 0},
        {"factorization by rank", now_factorization_ranked, before_factorization_ranked, old_lyndon_factorization_ranked != 0, texts, 0},
        {"suffix table by rank", now_suffix_table_ranked, before_suffix_table_ranked, old_lyndon_suffix_table_ranked != 0, texts, 0},
        {"left forest by rank", now_left_forest_ranked, before_left_forest_ranked, old_lyndon_left_forest_ranked != 0, texts, 0},
        {"compare infinite, a text with itself", now_compare_infinite, before_compare_infinite, old_lyndon_compare_infinite != 0, texts, 0},
        {"prefix permutation", now_prefix_permutation, before_prefix_permutation, old_lyndon_prefix_permutation != 0, words, 0},
    };
    const size_t sizes[] = {65536, 262144, 1048576}, short_sizes[] = {1, 16, 32, 256}, record_sizes[] = {256, 2048};
    for (int a = 0; a < 256; a++) ranks[a] = (uint8_t)(a ^ 3);
    int some = 0;
    for (size_t c = 0; c < sizeof calls / sizeof *calls; c++) {
        if (!asked_for(&calls[c], argc, argv)) continue;
        some = 1;
        for (int s = 0; s < 4; s++) beside(&calls[c], 0, family_name(0), short_sizes[s]);
        for (int s = 0; s < 3; s++)
            for (int f = 0; f < family_count(); f++) beside(&calls[c], f, family_name(f), sizes[s]);
    }
    const struct call reader = {"reader", now_reader, before_reader, 1, records, 0};
    for (int s = 0; s < 2 && asked_for(&reader, argc, argv); s++)
        for (int r = 0; r < record_count(); r++) some = 1, beside(&reader, r, record_name(r), record_sizes[s]);
    if (!some) fprintf(stderr, "beside: no call has such a name\n");
    return some ? 0 : 2;
}
