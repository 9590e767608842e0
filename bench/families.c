/* Texts, Lyndon words, pairs of texts and FASTA records that the benchmarks run on. */
#include "families.h"
#include <string.h>

static uint64_t state;
static uint32_t rnd(void) {
    state ^= state << 13;
    state ^= state >> 7;
    state ^= state << 17;
    return (uint32_t)(state >> 32);
}

static void random_dna(uint8_t *t, size_t n) { for (size_t i = 0; i < n; i++) t[i] = "ACGT"[rnd() & 3]; }
static void random_bytes(uint8_t *t, size_t n) { for (size_t i = 0; i < n; i++) t[i] = (uint8_t)rnd(); }
static void equal_letters(uint8_t *t, size_t n) { memset(t, 'a', n); }
static void an_b(uint8_t *t, size_t n) { memset(t, 'a', n); t[n - 1] = 'b'; }
static void ab_k(uint8_t *t, size_t n) { for (size_t i = 0; i < n; i++) t[i] = "ab"[i & 1]; }

static void fibonacci(uint8_t *t, size_t n) {
    /* b -> a, a -> ab */
    size_t l = 1;
    t[0] = 'a';
    if (n > 1) t[1] = 'b', l = 2;
    size_t p = 1;
    while (l < n) {
        size_t c = p;
        for (size_t i = 0; i < c && l < n; i++) t[l++] = t[i];
        p = l - c;
    }
}

static void thue_morse(uint8_t *t, size_t n) { for (size_t i = 0; i < n; i++) t[i] = (uint8_t)('a' + (__builtin_popcountll(i) & 1)); }
static void zimin(uint8_t *t, size_t n) { for (size_t i = 0; i < n; i++) t[i] = (uint8_t)('a' + __builtin_ctzll(i + 1)); }

static void gaps_and_repeats(uint8_t *t, size_t n) {
    size_t i = 0;
    while (i < n) {
        size_t k = 200 + rnd() % 3000;
        switch (rnd() % 3) {
        case 0:
            while (k-- && i < n) t[i++] = "ACGT"[rnd() & 3];
            break;
        case 1:
            while (k-- && i < n) t[i++] = 'N';
            break;
        default: {
            uint8_t unit[40];
            size_t p = 1 + rnd() % 40;
            random_dna(unit, p);
            for (size_t j = 0; j < k && i < n; j++) t[i++] = unit[j % p];
        }
        }
    }
}

static void two_powers(uint8_t *t, size_t n) {
    /* w^k c w^m d for short random w */
    uint8_t w[8];
    size_t p = 3 + rnd() % 5;
    for (size_t i = 0; i < p; i++) w[i] = (uint8_t)('a' + rnd() % 2);
    size_t half = n / 2;
    for (size_t i = 0; i < n; i++) t[i] = w[(i < half ? i : i - half) % p];
    t[half - 1] = 'c';
    t[n - 1] = 'd';
}

static void agreeing(uint8_t *t, size_t n) {
    /* b^m d b^m a b c: a large part of the letters that its runs compare are compared in the measure of agreement */
    memset(t, 'b', n);
    t[(n - 3) / 2] = 'd';
    t[n - 3] = 'a';
    t[n - 1] = 'c';
}

static void hard_a(uint8_t *t, size_t n) {
    /* a^(m-1) b a^m b */
    size_t m = n / 2;
    memset(t, 'a', n);
    t[m - 1] = 'b';
    t[n - 1] = 'b';
}

static void hard_ab(uint8_t *t, size_t n) {
    /* (ab)^k cb (ab)^k c */
    size_t m = n / 2;
    for (size_t i = 0; i < n; i++) t[i] = "ab"[(i < m ? i : i - m) & 1];
    t[m - 2] = 'c';
    t[m - 1] = 'b';
    t[n - 1] = 'c';
}

static void long_agreement(uint8_t *t, size_t n) {
    /* ((ab^63)^8 z (ab^63)^8 A)^k: parts that agree on many letters, again and again */
    for (size_t i = 0; i < n; i++) t[i] = i % 513 % 64 == 0 ? 'a' : 'b';
    for (size_t i = 512; i < n; i += 513) t[i] = i / 513 % 2 == 0 ? 'z' : 'A';
}

static void turned(uint8_t *t, size_t n, uint8_t sum) { for (size_t i = 0; i < n; i++) t[i] = (uint8_t)(sum - t[i]); }
static void hard_a_turned(uint8_t *t, size_t n) { hard_a(t, n); turned(t, n, 'a' + 'b'); }
static void hard_ab_turned(uint8_t *t, size_t n) { hard_ab(t, n); turned(t, n, 'a' + 'c'); }

/* power: at an even length it is a power of a shorter word, and so is each rotation */
static const struct { const char *name; void (*fill)(uint8_t *, size_t); int natural, power; } families[] = {
    {"random DNA", random_dna, 1, 0},
    {"random bytes", random_bytes, 1, 0},
    {"DNA, gaps, tandem repeats", gaps_and_repeats, 1, 0},
    {"equal letters", equal_letters, 0, 1},
    {"a^n b", an_b, 0, 0},
    {"(ab)^k", ab_k, 0, 1},
    {"Fibonacci", fibonacci, 0, 0},
    {"Thue-Morse", thue_morse, 0, 0},
    {"Zimin", zimin, 0, 0},
    {"w^k c w^m d", two_powers, 0, 0},
    {"a^(m-1) b a^m b", hard_a, 0, 1},
    {"b^(m-1) a b^m a", hard_a_turned, 0, 1},
    {"(ab)^k cb (ab)^k c", hard_ab, 0, 0},
    {"(cb)^k ab (cb)^k a", hard_ab_turned, 0, 0},
    {"b^m d b^m a b c", agreeing, 0, 0},
    {"((ab^63)^8 z (ab^63)^8 A)^k", long_agreement, 0, 0},
};

int family_count(void) { return (int)(sizeof families / sizeof families[0]); }
const char *family_name(int f) { return families[f].name; }
int family_natural(int f) { return families[f].natural; }
void family_fill(int f, uint8_t *text, size_t n) {
    state = 0x9e3779b97f4a7c15ull;
    families[f].fill(text, n);
}

static void turn_round(uint8_t *t, size_t n) {
    for (size_t i = 0; i < n / 2; i++) {
        uint8_t a = t[i];
        t[i] = t[n - 1 - i];
        t[n - 1 - i] = a;
    }
}

/* The first k letters of the rotations from i and from j agree; the next one tells which of the two is not the least. */
static void rotate_least(uint8_t *t, size_t n) {
    size_t i = 0, j = 1, k = 0;
    while (i < n && j < n && k < n) {
        uint8_t a = t[(i + k) % n], b = t[(j + k) % n];
        if (a == b) {
            k++;
            continue;
        }
        if (b < a) i += k + 1;
        else j += k + 1;
        if (i == j) j++;
        k = 0;
    }
    size_t start = i < j ? i : j;
    turn_round(t, start);
    turn_round(t + start, n - start);
    turn_round(t, n);
}

static void a_bn(uint8_t *t, size_t n) { memset(t, 'b', n); t[0] = 'a'; }
static void ab_k_c(uint8_t *t, size_t n) { ab_k(t, n); t[n - 1] = 'c'; }
static void am_ab_k(uint8_t *t, size_t n) { memset(t, 'a', n / 2); ab_k(t + n / 2, n - n / 2); t[n - 1] = 'c'; }
static void a_fibonacci_c(uint8_t *t, size_t n) { t[0] = 'a'; fibonacci(t + 1, n - 1); t[n - 1] = 'c'; }
static void am_b_blocks(uint8_t *t, size_t n) {
    /* a^m b (a^(m-1) b)^k c, m m at most n */
    size_t m = 1;
    while ((m + 1) * (m + 1) <= n) m++;
    memset(t, 'a', n);
    for (size_t i = m; i < n; i += m) t[i] = 'b';
    t[n - 1] = 'c';
}

static const struct { const char *name; void (*fill)(uint8_t *, size_t); } words[] = {
    {"a b^(n-1)", a_bn},
    {"(ab)^k c", ab_k_c},
    {"a^m (ab)^k c", am_ab_k},
    {"a^m b (a^(m-1) b)^k c", am_b_blocks},
    {"a, Fibonacci, c", a_fibonacci_c},
};

/* The family whose least rotation is word w, or -1 for one made by hand. */
static int rotated(int w) {
    for (int f = 0; f < family_count(); f++)
        if (!families[f].power && w-- == 0) return f;
    return -1;
}
static int rotations(void) {
    int count = 0;
    while (rotated(count) >= 0) count++;
    return count;
}

void rotation_fill(int f, uint8_t *text, size_t n) {
    family_fill(f, text, n);
    rotate_least(text, n);
}

int word_count(void) { return rotations() + (int)(sizeof words / sizeof words[0]); }
const char *word_name(int w) { return rotated(w) < 0 ? words[w - rotations()].name : family_name(rotated(w)); }
void word_fill(int w, uint8_t *text, size_t n) {
    if (rotated(w) < 0) words[w - rotations()].fill(text, n);
    else rotation_fill(rotated(w), text, n);
}

static size_t equal_texts(uint8_t *u, uint8_t *v, size_t n) { random_dna(u, n); memcpy(v, u, n); return n; }
static size_t equal_letters_less(uint8_t *u, uint8_t *v, size_t n) { equal_letters(u, n); equal_letters(v, n - 1); return n - 1; }
static size_t equal_letters_one(uint8_t *u, uint8_t *v, size_t n) { equal_letters(u, n); v[0] = u[0]; return 1; }
static size_t ab_less(uint8_t *u, uint8_t *v, size_t n) { ab_k(u, n); ab_k(v, n - 2); return n - 2; }
static size_t powers_of_one(uint8_t *u, uint8_t *v, size_t n) {
    size_t p = n / 4;
    random_dna(u, p);
    for (size_t i = p; i < n; i++) u[i] = u[i - p];
    memcpy(v, u, 3 * p);
    return 3 * p;
}
static size_t latest_difference(uint8_t *u, uint8_t *v, size_t n) {
    /* endless copies of texts of n and n - 1 letters that differ agree on 2n - 3 letters at most, and these do */
    an_b(u, n - 1);
    u[n - 1] = 'a';
    memcpy(v, u, n - 1);
    return n - 1;
}
static size_t last_letter(uint8_t *u, uint8_t *v, size_t n) { equal_texts(u, v, n); v[n - 1] ^= 1; return n; }
static size_t first_letter(uint8_t *u, uint8_t *v, size_t n) { equal_texts(u, v, n); v[0] ^= 1; return n; }

static const struct { const char *name; size_t (*fill)(uint8_t *, uint8_t *, size_t); } pairs[] = {
    {"random DNA, equal texts", equal_texts},
    {"a^n and a^(n-1)", equal_letters_less},
    {"a^n and a", equal_letters_one},
    {"(ab)^k and (ab)^(k-1)", ab_less},
    {"w^4 and w^3", powers_of_one},
    {"a^(n-2) b a and a^(n-2) b", latest_difference},
    {"random DNA, last letter", last_letter},
    {"random DNA, first letter", first_letter},
};

int pair_count(void) { return (int)(sizeof pairs / sizeof pairs[0]); }
const char *pair_name(int p) { return pairs[p].name; }
size_t pair_fill(int p, uint8_t *u, uint8_t *v, size_t n) {
    state = 0x9e3779b97f4a7c15ull;
    return pairs[p].fill(u, v, n);
}

static const struct { const char *name, *letters; size_t width; } records[] = {
    {"one line", "ACGT", SIZE_MAX},
    {"lines of 60 letters", "ACGT", 60},
    {"a letter a line, CR LF", "ACGT", 1},
    {"lines of 60, cases mixed", "ACGTacgt", 60},
};

int record_count(void) { return (int)(sizeof records / sizeof records[0]); }
const char *record_name(int r) { return records[r].name; }
void record_fill(int r, uint8_t *input, size_t n) {
    size_t kinds = strlen(records[r].letters), in_line = 0;
    state = 0x9e3779b97f4a7c15ull;
    memcpy(input, ">m1\n", 4);
    for (size_t i = 4; i < n; i++) {
        if (in_line == records[r].width && i + 1 < n) {
            if (records[r].width == 1) input[i++] = '\r';
            input[i] = '\n', in_line = 0;
        } else
            input[i] = (uint8_t)records[r].letters[rnd() % kinds], in_line++;
    }
}
