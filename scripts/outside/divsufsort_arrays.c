/* Reads lines of a name, a tab and a text; prints the Lyndon arrays of each text under both orders, from a suffix array of
 * libdivsufsort: an entry is the distance to the next smaller suffix. Each output line: name, tab, array and order, tab, entries. */
#include <divsufsort.h>
#include <stdio.h>
#include <stdlib.h>
#include <string.h>

static void print_array(const char *name, const unsigned char *text, int n, int order) {
    unsigned char *letters = malloc((size_t)n);
    int *suffixes = malloc(sizeof(int) * (size_t)n), *rank = malloc(sizeof(int) * (size_t)n);
    int *next = malloc(sizeof(int) * (size_t)n), *open = malloc(sizeof(int) * (size_t)n), depth = 0;
    /* The falling order is the rising one of the letters turned round; a proper prefix is smaller in both. */
    for (int i = 0; i < n; i++) letters[i] = order == 0 ? text[i] : (unsigned char)(255 - text[i]);
    if (divsufsort(letters, suffixes, n) != 0) exit(1);
    for (int r = 0; r < n; r++) rank[suffixes[r]] = r;
    for (int i = 0; i < n; i++) {
        while (depth > 0 && rank[i] < rank[open[depth - 1]]) next[open[--depth]] = i;
        open[depth++] = i;
    }
    while (depth > 0) next[open[--depth]] = n;
    printf("%s\tarray-%s\t", name, order == 0 ? "rising" : "falling");
    for (int i = 0; i < n; i++) printf(i == 0 ? "%d" : " %d", next[i] - i);
    printf("\n");
    free(letters), free(suffixes), free(rank), free(next), free(open);
}

int main(void) {
    static char line[1 << 20];
    while (fgets(line, sizeof line, stdin)) {
        line[strcspn(line, "\n")] = 0;
        char *text = strchr(line, '\t');
        if (!text) return 1;
        *text++ = 0;
        for (int order = 0; order < 2; order++) print_array(line, (unsigned char *)text, (int)strlen(text), order);
    }
    return 0;
}
