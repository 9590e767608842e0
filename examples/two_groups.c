/* Two groups of users keep rank tables in one store, and get the Lyndon array of one text, each by its own table.
 *
 *     make lib
 *     cc -Iinclude -o two_groups examples/two_groups.c target/lib/liblyndon.a
 *     ./two_groups GATTaca
 */
#include "lyndon.h"
#include <stdio.h>
#include <stdlib.h>
#include <string.h>

/* The store is handed on by value: a write returns the store to go on with. */
static lyndon_store write_table(lyndon_store store, uint32_t group, uint32_t number, const char *letters) {
    /* Two letters to a rank: "TtGgCcAa" puts T first, in either case, then G, C and A. All other letters come last, as one. */
    uint8_t table[256];
    memset(table, 4, sizeof table);
    for (int i = 0; i < 8; i++) table[(uint8_t)letters[i]] = (uint8_t)(i / 2);

    lyndon_store_written written = lyndon_store_write(store, group, number, table, sizeof table);
    printf("group %u writes table %u, %s:", group, number, letters);
    /* A refused write returns the store as it was. */
    if (written.answer.number != 0) printf(" refused %u\n", written.answer.number);
    else printf(" %u entries\n", written.answer.value);
    return written.store;
}

static void array(lyndon_store store, uint32_t group, uint32_t built_in, uint32_t number, const char *text) {
    size_t n = strlen(text);
    uint32_t *out = malloc((n + 1) * sizeof *out);
    if (!out) {
        fprintf(stderr, "two_groups: out of memory\n");
        exit(2);
    }
    lyndon_answer answer = lyndon_store_array(store, group, built_in, number, (const uint8_t *)text, n, out, n);
    printf("group %u by %s %u:", group, built_in ? "built-in table" : "table", number);
    if (answer.number != 0) printf(" refused %u", answer.number);
    for (uint32_t i = 0; answer.number == 0 && i < answer.value; i++) printf(" %u", out[i]);
    printf("\n");
    free(out);
}

int main(int argc, char **argv) {
    if (argc != 2) {
        fprintf(stderr, "usage: two_groups TEXT\n");
        return 2;
    }
    lyndon_store store = lyndon_store_new();

    /* No table of a group's own is written yet; the built-in ones can be used at once. Table 1 of these makes the two cases one. */
    array(store, 1, 0, 0, argv[1]);
    array(store, 1, 1, 1, argv[1]);

    store = write_table(store, 1, 0, "TtGgCcAa");
    array(store, 1, 0, 0, argv[1]);
    /* Each group has a table 0 of its own. */
    array(store, 2, 0, 0, argv[1]);
    store = write_table(store, 2, 0, "AaCcGgTt");
    array(store, 2, 0, 0, argv[1]);

    /* What group 2 writes later changes nothing for group 1. */
    store = write_table(store, 2, 0, "CcTtAaGg");
    array(store, 1, 0, 0, argv[1]);
    array(store, 2, 0, 0, argv[1]);
    return 0;
}
