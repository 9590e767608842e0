/* The algorithms of the factor list, the suffix table and the left forest in C, to compare speed with. */
#include "reference.h"
#include "reference_letters.h"

size_t CALL(factorization)(TABLE const uint8_t *x, size_t n, uint32_t *out, uint32_t *comparisons) {
    size_t count = 0, start = 0, asked = 0;
    while (start < n) {
        size_t p = 1, e = start + 1;
        while (e < n && LETTER(x, e) >= LETTER(x, e - p)) {
            if (LETTER(x, e) > LETTER(x, e - p)) p = e + 1 - start;
            e++;
        }
        asked += (e < n ? e : n - 1) - start;
        for (; start + p <= e; start += p) out[count++] = (uint32_t)start;
    }
    *comparisons = (uint32_t)asked;
    return count;
}

void CALL(suffix_table)(TABLE const uint8_t *x, size_t n, uint32_t *out) {
    size_t start = 0;
    while (start < n) {
        size_t p = 1, e = start + 1;
        out[start] = 1;
        while (e < n && LETTER(x, e) >= LETTER(x, e - p)) {
            if (LETTER(x, e) > LETTER(x, e - p)) {
                p = e + 1 - start;
                out[e] = (uint32_t)p;
            } else
                out[e] = out[e - p];
            e++;
        }
        while (start + p <= e) start += p;
    }
}

void CALL(left_forest)(TABLE const uint8_t *x, size_t n, uint32_t *first, uint32_t *past) {
    CALL(suffix_table)(RANKS x, n, past);
    size_t last = 0;
    for (size_t e = 0; e < n; e++) {
        first[e] = (uint32_t)last;
        last = e + 1 - past[e];
        for (size_t t = e; last < t; t = first[t]) past[t] = (uint32_t)(e + 1);
    }
    for (size_t t = last; t > 0;) {
        size_t next = first[t];
        first[t] = past[t] = (uint32_t)t;
        t = next;
    }
    first[0] = past[0] = 0;
}
