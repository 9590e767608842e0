/* Prints tables: nanoseconds a letter for each call and family at three sizes, this library beside the same algorithm in C, and at the
 * end the growth and the ratio of each call, and the ratio of each ranked call to rising order without ranks. What the two write is compared in
 * full. */
#include "families.h"
#include "lyndon.h"
#include "reference.h"
#include "suffix_array.h"
#include "timing.h"
#include <stdio.h>
#include <stdlib.h>
#include <string.h>

#define LARGEST 1048576
#define RUNS 15

static uint8_t text[LARGEST], other_text[LARGEST];
static size_t other_length;
static uint32_t numbers[LARGEST]; /* a text of 32-bit letters, or an array */
static uint32_t order;
static uint8_t ranks[256], folded[256];

/* What a call writes: two buffers, and its answer. */
struct written {
    lyndon_answer answer;
    uint32_t first[2 * LARGEST];
    uint32_t second[3 * LARGEST];
};
static struct written ours, theirs, by_suffixes;

/* One run, in nanoseconds a letter. Short inputs are run many times at a look. */
static double timed(void (*call)(size_t), size_t n) {
    size_t times = n < 10000 ? 2000 : 1;
    double start = clock_now();
    for (size_t t = 0; t < times; t++) call(n);
    return (clock_now() - start) / (double)n / (double)times;
}

/* The best of some runs of each call. The calls take turns, so that what else the machine does falls on all of them. */
static void best(int count, void (*const calls[])(size_t), size_t n, double *least) {
    for (int c = 0; c < count; c++) least[c] = 1e30;
    for (int run = 0; run < RUNS; run++)
        for (int c = 0; c < count; c++) {
            double took = timed(calls[c], n);
            if (took < least[c]) least[c] = took;
        }
}

/* The calls */

static lyndon_answer accepted(size_t count) { return (lyndon_answer){0, (uint32_t)count, 0}; }
static lyndon_answer refused(uint32_t number, size_t n, size_t at) { return (lyndon_answer){number, (uint32_t)(number == 0 ? n : at), 0}; }

static void our_array(size_t n) { ours.answer = lyndon_array_u8(text, n, order, ours.first, n); }
static void their_array(size_t n) { reference_array_u8(text, n, order, theirs.first), theirs.answer = accepted(n); }
static void suffix_array(size_t n) { suffix_array_lyndon(text, n, order, by_suffixes.first), by_suffixes.answer = accepted(n); }

static void our_array_u32(size_t n) { ours.answer = lyndon_array_u32(numbers, n, order, ours.first, n); }
static void their_array_u32(size_t n) { reference_array_u32(numbers, n, order, theirs.first), theirs.answer = accepted(n); }

static void our_runs(size_t n) { ours.answer = lyndon_runs(text, n, ours.first, 2 * n, ours.second, 3 * (n - 1)); }
static void their_runs(size_t n) { theirs.answer = accepted(reference_runs(text, n, theirs.first, theirs.second)); }

/* The default order, in the reference by the ranks of it. */
static void our_factorization(size_t n) { ours.answer = lyndon_factorization(text, n, ours.first, n); }
static void their_factorization(size_t n) {
    uint32_t comparisons;
    theirs.answer = accepted(reference_factorization_ranked(folded, text, n, theirs.first, &comparisons));
    theirs.answer.comparisons = comparisons;
}

static void our_suffix_table(size_t n) { ours.answer = lyndon_suffix_table(text, n, ours.first, n); }
static void their_suffix_table(size_t n) { reference_suffix_table_ranked(folded, text, n, theirs.first), theirs.answer = accepted(n); }

static void our_left_forest(size_t n) { ours.answer = lyndon_left_forest(text, n, ours.first, n, ours.second, n); }
static void their_left_forest(size_t n) {
    reference_left_forest_ranked(folded, text, n, theirs.first, theirs.second), theirs.answer = accepted(n);
}

static void our_right_forest(size_t n) { ours.answer = lyndon_right_forest(numbers, n, ours.first, n, ours.second, n); }
static void their_right_forest(size_t n) {
    size_t at = 0;
    uint32_t number = reference_right_forest(numbers, n, theirs.first, theirs.second, &at);
    theirs.answer = refused(number, n, at);
}

static void our_reconstruct(size_t n) { ours.answer = lyndon_reconstruct(numbers, n, ours.first, n); }
static void their_reconstruct(size_t n) {
    size_t at = 0;
    uint32_t number = reference_reconstruct(numbers, n, theirs.first, &at);
    theirs.answer = refused(number, n, at);
}

/* The ranked calls, in the order asked for; the reference has rising order by rank. */
static void our_array_ranked(size_t n) { ours.answer = lyndon_array_ranked(text, n, order, ranks, 256, ours.first, n); }
static void their_array_ranked(size_t n) { reference_array_u8_ranked(ranks, text, n, 0, theirs.first), theirs.answer = accepted(n); }

static void our_runs_ranked(size_t n) { ours.answer = lyndon_runs_ranked(text, n, ranks, 256, ours.first, 2 * n, ours.second, 3 * (n - 1)); }
static void their_runs_ranked(size_t n) { theirs.answer = accepted(reference_runs_ranked(ranks, text, n, theirs.first, theirs.second)); }

static void our_factorization_ranked(size_t n) { ours.answer = lyndon_factorization_ranked(text, n, order, ranks, 256, ours.first, n); }
static void their_factorization_ranked(size_t n) {
    uint32_t comparisons;
    theirs.answer = accepted(reference_factorization_ranked(ranks, text, n, theirs.first, &comparisons));
    theirs.answer.comparisons = comparisons;
}

static void our_suffix_table_ranked(size_t n) { ours.answer = lyndon_suffix_table_ranked(text, n, order, ranks, 256, ours.first, n); }
static void their_suffix_table_ranked(size_t n) { reference_suffix_table_ranked(ranks, text, n, theirs.first), theirs.answer = accepted(n); }

static void our_left_forest_ranked(size_t n) {
    ours.answer = lyndon_left_forest_ranked(text, n, order, ranks, 256, ours.first, n, ours.second, n);
}
static void their_left_forest_ranked(size_t n) {
    reference_left_forest_ranked(ranks, text, n, theirs.first, theirs.second), theirs.answer = accepted(n);
}

/* Rising order, in the library by order 0 of the ranked forms. */
static void their_factorization_rising(size_t n) {
    uint32_t comparisons;
    theirs.answer = accepted(reference_factorization(text, n, theirs.first, &comparisons));
    theirs.answer.comparisons = comparisons;
}
static void their_suffix_table_rising(size_t n) { reference_suffix_table(text, n, theirs.first), theirs.answer = accepted(n); }
static void their_left_forest_rising(size_t n) { reference_left_forest(text, n, theirs.first, theirs.second), theirs.answer = accepted(n); }

/* A comparison's n is the length of its first text. */
static void our_comparison(size_t n) { ours.answer = lyndon_compare_infinite(text, n, other_text, other_length); }
static void their_comparison(size_t n) { theirs.answer = accepted(reference_compare_infinite(text, n, other_text, other_length)); }

/* The reference has room for the suffix table. */
static void our_prefixes(size_t n) { ours.answer = lyndon_prefix_permutation(text, n, ours.first, n - 1); }
static void their_prefixes(size_t n) { theirs.answer = refused(reference_prefix_permutation(text, n, numbers, theirs.first), n - 1, 0); }

/* The reader's n is its input's length. */
static void our_reader(size_t n) { ours.answer = lyndon_read_fasta(text, n, (uint8_t *)ours.first, READER_LETTERS); }
static void their_reader(size_t n) { theirs.answer = accepted(reference_read_fasta(text, n, (uint8_t *)theirs.first)); }

/* The inputs */

static uint32_t random_number(void) {
    static uint64_t state = 88172645463325252ull;
    state ^= state << 13, state ^= state >> 7, state ^= state << 17;
    return (uint32_t)(state >> 32);
}

static void texts(int f, size_t n) { family_fill(f, text, n); }

/* Letters c and c + 128 have one rank, and T < G < C < A. In the default order a to z rank as A to Z. */
static void fill_ranks(void) {
    static const uint8_t bases[] = "ACGT", complements[] = "TGCA";
    for (int c = 0; c < 128; c++) ranks[c] = ranks[c + 128] = (uint8_t)c;
    for (int i = 0; i < 4; i++) ranks[bases[i]] = ranks[bases[i] + 128] = complements[i];
    for (int c = 0; c < 256; c++) folded[c] = (uint8_t)(c >= 'a' && c <= 'z' ? c - 'a' + 'A' : c);
}

static const char *number_names[] = {"random letters", "rising letters", "falling letters"};
static const char *number_name(int f) { return number_names[f]; }
static void texts_of_numbers(int f, size_t n) {
    for (size_t i = 0; i < n; i++) numbers[i] = f == 0 ? random_number() : f == 1 ? (uint32_t)i : (uint32_t)(n - i);
}

/* Arrays of the families, then arrays that no text has. */
static const char *invalid_names[] = {"3, n - i, 1 repeated", "2 repeated", "1 repeated, crossing at end", "1 repeated, long at end"};
static const char *array_name(int f) { return f < family_count() ? family_name(f) : invalid_names[f - family_count()]; }
static void arrays(int f, size_t n) {
    if (f < family_count()) {
        family_fill(f, text, n);
        reference_array_u8(text, n, 0, numbers);
        return;
    }
    f -= family_count();
    for (size_t i = 0; i < n; i++) {
        size_t entry = f == 0 ? (i % 3 == 0 ? 3 : i % 3 == 1 ? n - i : 1) : f == 1 ? 2 : 1;
        numbers[i] = (uint32_t)(entry > n - i ? n - i : entry);
    }
    if (f == 2) numbers[n - 3] = numbers[n - 2] = 2;
    if (f == 3) numbers[n - 1] = 2;
}

/* Lyndon words, of families their least rotations. */
static void words(int w, size_t n) { word_fill(w, text, n); }
static void pairs(int p, size_t n) { other_length = pair_fill(p, text, other_text, n); }
static void records(int r, size_t n) { record_fill(r, text, n); }

/* The tables */

struct call {
    const char *name;
    uint32_t order;
    void (*ours)(size_t), (*theirs)(size_t), (*suffixes)(size_t);
    void (*fill)(int, size_t);
    int inputs;
    const char *(*input)(int);
    size_t sizes[3];
    double limit; /* the ratio asked for, or 0 */
};

struct result {
    double growth, ratio, first_ratio, natural_ratio, slowest;
    const char *growth_input, *ratio_input, *slowest_input;
};

static void compare(const struct call *call, int f, size_t n, const struct written *other) {
    if (memcmp(&ours, other, sizeof ours) != 0) {
        fprintf(stderr, "%s on %s at %zu letters: the two differ\n", call->name, call->input(f), n);
        exit(1);
    }
}

static struct result table(const struct call *call) {
    struct result result = {0};
    double first_input = 0;
    int suffixes = call->suffixes && suffix_array_installed();
    printf("\n%s: ns a letter at %zu, %zu, %zu letters, this library / C -O3%s\n", call->name, call->sizes[0], call->sizes[1],
        call->sizes[2], suffixes ? " / suffix array" : "");
    order = call->order;
    for (int f = 0; f < call->inputs; f++) {
        double mine[3], other[3];
        printf("  %-28s", call->input(f));
        for (int s = 0; s < 3; s++) {
            size_t n = call->sizes[s];
            call->fill(f, n);
            memset(&ours, 0, sizeof ours);
            memset(&theirs, 0, sizeof theirs);
            memset(&by_suffixes, 0, sizeof by_suffixes);
            double least[3];
            best(suffixes ? 3 : 2, (void (*const[])(size_t)){call->ours, call->theirs, call->suffixes}, n, least);
            mine[s] = least[0], other[s] = least[1];
            compare(call, f, n, &theirs);
            printf("  %7.2f /%7.2f", mine[s], other[s]);
            if (suffixes) {
                printf(" /%7.2f", least[2]);
                compare(call, f, n, &by_suffixes);
            }
        }
        printf("\n");
        fflush(stdout);
        double growth = mine[2] / mine[0], ratio = mine[2] / other[2];
        if (f == 0) first_input = mine[2], result.first_ratio = ratio;
        if (growth > result.growth) result.growth = growth, result.growth_input = call->input(f);
        /* Times under a microsecond are too short for the clock. */
        if (ratio > result.ratio && mine[2] * (double)call->sizes[2] > 1000) result.ratio = ratio, result.ratio_input = call->input(f);
        if (call->fill == texts && family_natural(f) && ratio > result.natural_ratio) result.natural_ratio = ratio;
        if (mine[2] / first_input > result.slowest) result.slowest = mine[2] / first_input, result.slowest_input = call->input(f);
    }
    return result;
}

/* By rank, and by a further form where there is one, over rising order without ranks, on the first family. */
static void (*ranked_form)(size_t), (*rising_form)(size_t), (*further_form)(size_t);
static void without_ranks(size_t n) { order = LYNDON_RISING, rising_form(n); }
static void by_rank(size_t n) { order = LYNDON_RANKED, ranked_form(n); }
static void further(size_t n) { order = LYNDON_RISING, further_form(n); }

static void ranked_over_rising(const char *name, void (*ranked)(size_t), void (*rising)(size_t), void (*form)(size_t), const char *form_name) {
    double least[3];
    ranked_form = ranked, rising_form = rising, further_form = form;
    family_fill(0, text, LARGEST);
    best(form ? 3 : 2, (void (*const[])(size_t)){without_ranks, by_rank, further}, LARGEST, least);
    printf("  %-28s %6.2f by rank", name, least[1] / least[0]);
    if (form) printf(", %.2f %s", least[2] / least[0], form_name);
    printf("; 1.6 asked for by rank: %s\n", least[1] / least[0] <= 1.6 ? "met" : "not met");
}

#define TEXT_SIZES {65536, 262144, 1048576}

int main(void) {
    struct call calls[] = {
        {"array of bytes, rising", 0, our_array, their_array, suffix_array, texts, family_count(), family_name, TEXT_SIZES, 0},
        {"array of bytes, falling", 1, our_array, their_array, suffix_array, texts, family_count(), family_name, TEXT_SIZES, 0},
        {"array of numbers, rising", 0, our_array_u32, their_array_u32, 0, texts_of_numbers, 3, number_name, TEXT_SIZES, 0},
        {"array of numbers, falling", 1, our_array_u32, their_array_u32, 0, texts_of_numbers, 3, number_name, TEXT_SIZES, 0},
        {"runs", 0, our_runs, their_runs, 0, texts, family_count(), family_name, TEXT_SIZES, 0},
        {"factorization", 0, our_factorization, their_factorization, 0, texts, family_count(), family_name, TEXT_SIZES, 2.5},
        {"suffix table", 0, our_suffix_table, their_suffix_table, 0, texts, family_count(), family_name, TEXT_SIZES, 2.5},
        {"left forest", 0, our_left_forest, their_left_forest, 0, texts, family_count(), family_name, TEXT_SIZES, 2.5},
        {"factorization, rising", 0, our_factorization_ranked, their_factorization_rising, 0, texts, family_count(), family_name, TEXT_SIZES, 2.5},
        {"suffix table, rising", 0, our_suffix_table_ranked, their_suffix_table_rising, 0, texts, family_count(), family_name, TEXT_SIZES, 2.5},
        {"left forest, rising", 0, our_left_forest_ranked, their_left_forest_rising, 0, texts, family_count(), family_name, TEXT_SIZES, 2.5},
        {"array of bytes, ranked", 2, our_array_ranked, their_array_ranked, 0, texts, family_count(), family_name, TEXT_SIZES, 0},
        {"runs, ranked", 2, our_runs_ranked, their_runs_ranked, 0, texts, family_count(), family_name, TEXT_SIZES, 0},
        {"factorization, ranked", 2, our_factorization_ranked, their_factorization_ranked, 0, texts, family_count(), family_name, TEXT_SIZES, 0},
        {"suffix table, ranked", 2, our_suffix_table_ranked, their_suffix_table_ranked, 0, texts, family_count(), family_name, TEXT_SIZES, 0},
        {"left forest, ranked", 2, our_left_forest_ranked, their_left_forest_ranked, 0, texts, family_count(), family_name, TEXT_SIZES, 0},
        {"right forest", 0, our_right_forest, their_right_forest, 0, arrays, family_count() + 4, array_name, TEXT_SIZES, 2.5},
        {"reconstruct", 0, our_reconstruct, their_reconstruct, 0, arrays, family_count() + 4, array_name, TEXT_SIZES, 2.5},
        {"compare infinite", 0, our_comparison, their_comparison, 0, pairs, pair_count(), pair_name, TEXT_SIZES, 0},
        {"prefix permutation", 0, our_prefixes, their_prefixes, 0, words, word_count(), word_name, TEXT_SIZES, 0},
        {"FASTA reader", 0, our_reader, their_reader, 0, records, record_count(), record_name, {1024, 2048, 4096}, 0},
    };
    int count = (int)(sizeof calls / sizeof calls[0]);
    static struct result results[32];
    fill_ranks();
    printf("best of %d runs, taken in turns%s\n", RUNS, suffix_array_installed() ? "" : "; libdivsufsort is not installed");
    for (int c = 0; c < count; c++) results[c] = table(&calls[c]);
    printf("\ngrowth: the largest of ns a letter at the largest size over that at the smallest\n");
    for (int c = 0; c < count; c++)
        printf("  %-28s %6.2f (%s); slowest input %.2f times the first (%s)\n", calls[c].name, results[c].growth, results[c].growth_input,
            results[c].slowest, results[c].slowest_input);
    printf("\nratio: this library over C -O3 at the largest size\n");
    for (int c = 0; c < count; c++) {
        printf("  %-28s %6.2f on the first input, at most %.2f (%s)", calls[c].name, results[c].first_ratio, results[c].ratio, results[c].ratio_input);
        if (calls[c].fill == texts) printf(", %.2f on natural families", results[c].natural_ratio);
        if (calls[c].limit > 0) printf("; %.1f asked for: %s", calls[c].limit, results[c].ratio <= calls[c].limit ? "met" : "not met");
        printf("\n");
    }
    printf("\nranked: over rising order without ranks, for the last three order 0 of the same form; on %s at the largest size\n", family_name(0));
    ranked_over_rising("array of bytes", our_array_ranked, our_array, our_array_ranked, "in order 0");
    ranked_over_rising("runs", our_runs_ranked, our_runs, 0, 0);
    ranked_over_rising("factorization", our_factorization_ranked, our_factorization_ranked, our_factorization, "in the default order");
    ranked_over_rising("suffix table", our_suffix_table_ranked, our_suffix_table_ranked, our_suffix_table, "in the default order");
    ranked_over_rising("left forest", our_left_forest_ranked, our_left_forest_ranked, our_left_forest, "in the default order");
    return 0;
}
