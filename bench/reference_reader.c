/* The FASTA reader in C, for inputs that are accepted, to compare speed with: one pass that checks, one that writes. */
#include "reference.h"

static int small(uint8_t c) { return c >= 'a' && c <= 'z'; }

static int letter(uint8_t c) { return (c >= 'A' && c <= 'Z') || small(c); }

size_t reference_read_fasta(const uint8_t *x, size_t n, uint8_t *letters) {
    size_t i = 1, count = 0;
    if (n > READER_BYTES || n == 0 || x[0] != '>') return 0;
    while (i < n && x[i] >= 33 && x[i] <= 126 && i <= 60) i++;
    while (i < n && x[i] != '\n') i++;
    size_t body = i;
    for (; i < n; i++) {
        if (letter(x[i])) {
            if (count++ == READER_LETTERS) return 0;
        } else if (x[i] == '\r' ? i + 1 == n || x[i + 1] != '\n' : x[i] != '\n')
            return 0;
    }
    count = 0;
    for (i = body; i < n; i++)
        if (letter(x[i])) letters[count++] = small(x[i]) ? x[i] - 32 : x[i];
    return count;
}
