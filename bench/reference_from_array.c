/* The algorithms of the right forest and of the text for an array in C, to compare speed with. */
#include "reference.h"

/* The first fault of an array: its number, or 0, and its position. */
static uint32_t fault(const uint32_t *a, size_t n, size_t *at) {
    for (size_t i = 0; i < n; i++)
        if (a[i] == 0 || a[i] > n - i) {
            *at = i;
            return a[i] == 0 ? 6 : 7;
        }
    size_t least = n;
    for (size_t i = 0; i < least; i++) {
        size_t end = i + a[i];
        for (size_t k = i + 1; k < end; k += a[k])
            if (k + a[k] > end) {
                if (k < least) least = k;
                break;
            }
    }
    *at = least;
    return least < n ? 8 : 0;
}

uint32_t reference_right_forest(const uint32_t *a, size_t n, uint32_t *first, uint32_t *past, size_t *at) {
    uint32_t number = fault(a, n, at);
    if (number != 0) return number;
    for (size_t i = 0; i < n; i++) first[i] = (uint32_t)i;
    for (size_t i = 0; i < n; i++)
        for (size_t k = i + 1, end = i + a[i]; k < end; k += a[k]) first[k] = (uint32_t)i;
    for (size_t i = 0; i < n; i++) past[i] = first[i] == i ? (uint32_t)i : (uint32_t)(i + a[i]);
    return 0;
}

uint32_t reference_reconstruct(const uint32_t *a, size_t n, uint32_t *text, size_t *at) {
    uint32_t number = fault(a, n, at);
    if (number != 0) return number;
    for (size_t i = 0; i < n; i++) text[i] = 0;
    for (size_t i = 0; i < n; i++) {
        uint32_t depth = text[i];
        for (size_t k = i + 1, end = i + a[i]; k < end; k += a[k]) text[k] = depth + 1;
        text[i] = depth + (uint32_t)(n - i - a[i]);
    }
    return 0;
}
