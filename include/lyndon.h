/* Fegborija: the Lyndon array of a text and what stands on it.
 *
 * Link with the static library that `make lib` writes (target/lib/liblyndon.a). Every function is proved to do what is said here for every
 * input; what the proof cannot see is the C side: every pointer must be valid for the number of elements given with it (a pointer with
 * length 0 may be null), and a buffer that is written must not overlap any other buffer of the call.
 *
 * Lengths count elements, not bytes. A text, or an array, has 1 to 1,048,576 letters, or entries. Positions count from 0.
 * A call that refuses changes no buffer; places past those written keep their content.
 */
#ifndef LYNDON_H
#define LYNDON_H

#include <stddef.h>
#include <stdint.h>

#ifdef __cplusplus
extern "C" {
#endif

/* number 0: accepted, value is the count; comparisons is 0 but for lyndon_factorization, its ranked form and lyndon_store_factorization.
 * Else the refusal's number, value is the position (0 where none is named), and comparisons is 0:
 *   1  the text or array is empty; of two texts, either one
 *   2  it is longer than 1,048,576; of two texts, either one
 *   3  the order number is not one that the call takes: 0 and 1, in the ranked calls 0 to 2
 *   4  an output buffer is shorter than needed
 *   5  the work buffer is shorter than 2 n
 *   6  an array's entry is 0; the position is the first entry that is bad by 6 or 7
 *   7  an array's entry i is greater than n - i; the position likewise
 *   8  the span of entry j, positions j to j + array[j] - 1, crosses the end of an earlier entry's span; the position is the first such j
 *   9  a FASTA input does not begin with '>'; the position is 0
 *  10  its name is empty, has a 61st byte, or a byte outside 33 to 126 that does not end it; the position is that byte's, or 1
 *  11  a sequence line has a byte that is neither a letter nor its end (LF, or CR directly before LF), or '>' inside it; the position
 *      is that byte's
 *  12  a second record begins; the position is that of its '>'
 *  13  there is no letter; the position is the input's length
 *  14  there is a 4,097th letter; the position is that letter's in the input
 *  15  the input is longer than 16,384 bytes; the position is 16384
 *  16  a rank table that is to be used, or written into a store, does not have 256 entries
 *  17  the text is not a Lyndon word in rising order
 *  21  there is no such group, or it has no table of that number
 *  22  a group's own table is used, or read, before it was written
 * Checks are made in the order 21, 22, 1, 2, 3, 16, 4, then 17, or 5, or 6 and 7 in one pass and after them 8; for FASTA 4, 15, 9, 10, then
 * 11, 12 and 14 in one pass, 13.
 */
typedef struct {
    uint32_t number;
    uint32_t value;
    uint32_t comparisons;
} lyndon_answer;

/* Order 0, rising: letters are compared by number. Order 1, falling: the comparison of letters is turned round. Order 2, which the
 * ranked calls alone take: letters are compared by rank, rising. In all, a proper prefix is smaller than the longer word.
 *
 * lyndon_factorization, lyndon_suffix_table and lyndon_left_forest take no order and use the default one: a to z rank as A to Z, so that 'a'
 * and 'A' are one letter, and every other byte by its number. It is what the ranked calls do in order 2 with built-in table 1 of a store
 * (below). On a text without a to z, or without the bytes 65 to 96, it gives what order 0 gives. For order 0, call the ranked form:
 * lyndon_factorization_ranked(text, n, LYNDON_RISING, NULL, 0, out, out_len), for example. lyndon_compare_infinite and
 * lyndon_prefix_permutation take no order either: they compare letters by number, and words in infinite order (below).
 *
 * A factorization and an array go together only where both were made in one order. The array in the default order is
 * lyndon_store_array(lyndon_store_new(), 1, 1, 1, text, n, out, out_len). Of "aB" it is 2 1, and in the default order "aB" is one factor; its
 * rising array is 1 1, and in order 0 it has two factors. */
#define LYNDON_RISING 0u
#define LYNDON_FALLING 1u
#define LYNDON_RANKED 2u

/* The Lyndon array: out[i] is the length of the longest Lyndon word that starts at i. Needs n places; the count is n.
 * Refusals 1, 2, 3, 4. */
lyndon_answer lyndon_array_u8(const uint8_t *text, size_t n, uint32_t order, uint32_t *out, size_t out_len);
lyndon_answer lyndon_array_u32(const uint32_t *text, size_t n, uint32_t order, uint32_t *out, size_t out_len);

/* All runs (maximal periodicities) of a text: list holds start, last position and period for each run, by start and then by last
 * position; the count is the number of runs, at most n - 1. The list needs 3 (n - 1) places, whatever the text; for one letter it may be
 * empty, and the pointer null. For n = 0, which is refused with 1, n - 1 would wrap: give the length that the buffer has. The work buffer
 * needs 2 n places; afterwards it holds the rising Lyndon array and then the falling one. Bytes are compared as they are: 'a' and 'A' are
 * two letters. Refusals 1, 2, 4 (list), 5. */
lyndon_answer lyndon_runs(const uint8_t *text, size_t n, uint32_t *work, size_t work_len, uint32_t *list, size_t list_len);

/* The Lyndon factorization, in the default order (a to z rank as A to Z, every other byte by its number): out holds the starts of the
 * factors, the unique Lyndon words u0 >= u1 >= .. whose row is the text. Needs n places; the count is the number of factors, and only so many
 * places are written. The answer's comparisons is how many times Duval's scan compares two letters of this text in that order; a question
 * for less, equal or greater counts once. A scan stops at a smaller letter or at the end, where nothing is asked; the next begins at the
 * first letter in no factor. In all at most 2 n - 2. Refusals 1, 2, 4. */
lyndon_answer lyndon_factorization(const uint8_t *text, size_t n, uint32_t *out, size_t out_len);

/* The Lyndon suffix table, in the default order (a to z rank as A to Z, every other byte by its number): out[j] is the length of the longest
 * Lyndon word that ends at j. Needs n places; the count is n. Refusals 1, 2, 4. */
lyndon_answer lyndon_suffix_table(const uint8_t *text, size_t n, uint32_t *out, size_t out_len);

/* A Lyndon forest cuts every factor of two letters or more as u v, and u and v likewise. For a position j that starts a factor both
 * buffers hold j. Before any other j falls exactly one cut: first[j] is the start of u, past[j] one past the last position of v.
 * Each buffer needs n places; the count is n. Refusals 1, 2, 4 (either buffer), and of the right forest 6, 7, 8. */

/* The left forest, in the default order (a to z rank as A to Z, every other byte by its number): u is the longest proper Lyndon prefix. */
lyndon_answer lyndon_left_forest(const uint8_t *text, size_t n, uint32_t *first, size_t first_len, uint32_t *past, size_t past_len);

/* The right forest, of an array alone: v is the longest proper Lyndon suffix. It is the forest of every text that has this Lyndon array, in
 * the order of that array. */
lyndon_answer lyndon_right_forest(const uint32_t *array, size_t n, uint32_t *first, size_t first_len, uint32_t *past, size_t past_len);

/* A text of 32-bit letters, each of 0 to n - 1 once, whose rising Lyndon array is the given one: text[i] is the number of earlier entries
 * whose span holds i, plus n - i - array[i]. Refusals 6, 7 and 8 are given exactly where no text has the array. Needs n places; the
 * count is n. Refusals 1, 2, 4, 6, 7, 8. */
lyndon_answer lyndon_reconstruct(const uint32_t *array, size_t n, uint32_t *text, size_t text_len);

/* The ranked calls: those above that read a text of bytes, with a rank table of 256 bytes. Letter a has rank table[a], and letters of one
 * rank count as the same letter. In order 2, answer and content are those of order 0 for the row of ranks, table[text[0]], table[text[1]]
 * and so on. Orders 0 and 1 do not look at the table, whatever its length: letters rise, or fall, by number. Places and counts are those
 * of the calls without a table. Refusals 1, 2, 3, 16 (order 2 where table_len is not 256), 4. */
lyndon_answer lyndon_array_ranked(const uint8_t *text, size_t n, uint32_t order, const uint8_t *table, size_t table_len,
    uint32_t *out, size_t out_len);
lyndon_answer lyndon_factorization_ranked(const uint8_t *text, size_t n, uint32_t order, const uint8_t *table, size_t table_len,
    uint32_t *out, size_t out_len);
lyndon_answer lyndon_suffix_table_ranked(const uint8_t *text, size_t n, uint32_t order, const uint8_t *table, size_t table_len,
    uint32_t *out, size_t out_len);
lyndon_answer lyndon_left_forest_ranked(const uint8_t *text, size_t n, uint32_t order, const uint8_t *table, size_t table_len,
    uint32_t *first, size_t first_len, uint32_t *past, size_t past_len);

/* All runs where letters of one rank are equal. Takes the table alone, and buffers as lyndon_runs does; afterwards work holds the Lyndon
 * array rising by rank and then the one falling by rank. Refusals 1, 2, 16, 4 (list), 5. */
lyndon_answer lyndon_runs_ranked(const uint8_t *text, size_t n, const uint8_t *table, size_t table_len, uint32_t *work, size_t work_len,
    uint32_t *list, size_t list_len);

/* Infinite order: u is below v where endless copies of u, u u u .., are smaller than endless copies of v by the first letter that differs;
 * where these never differ, the longer text is below. Letters are compared by number, not in the default order: 'B' is below 'a'. A text and
 * a longer one that begins with it may stand in either order: of "ab", "aba", "abac", "abab", in infinite order "aba" comes first, since
 * abaaba.. differs from abab.. at the fourth letter, then "abab", since it is longer than "ab", then "ab", then "abac". */

/* Compares two texts of bytes in infinite order. The count says where u stands: 0 below v, 1 the same, which is so exactly where the two
 * texts are equal, 2 above v. No buffer is needed. The texts may overlap, or be one.
 * Refusals 1 (either text), then 2 (either text): an empty one beside one that is too long is refused with 1. */
lyndon_answer lyndon_compare_infinite(const uint8_t *u, size_t u_len, const uint8_t *v, size_t v_len);

/* The prefix standard permutation of a Lyndon word of bytes: out holds the last positions of its proper non-empty prefixes, 0 to n - 2, in
 * infinite order, the lowest prefix first. The word is a Lyndon word in rising order, by number, not in the default order: "Ba" is one, "aB"
 * is not. Of "aab" the prefix aa is below a, which is shorter, and out holds 1 0; of "abac" a is below aba, that is below ab, and out holds
 * 0 2 1. Needs n - 1 places; the count is n - 1. For one letter out may be empty, and the pointer null. For n = 0, which is refused with 1,
 * n - 1 would wrap: give the length that the buffer has. Refusals 1, 2, 4, 17. */
lyndon_answer lyndon_prefix_permutation(const uint8_t *word, size_t n, uint32_t *out, size_t out_len);

/* A store of rank tables for two groups of users, 1 and 2. A group has three tables of its own, 0 to 2, which its calls alone replace; in a
 * new store none is written. Two built-in tables are for both groups, and nobody changes them: 0 ranks each byte by its number; 1 ranks
 * a to z as A to Z, and every other byte by its number: that of the default order.
 *
 * A store is plain data, handed on by value from call to call. Own table k of group g is the 256 bytes from tables[((g - 1) * 3 + k) * 256]
 * on, and is written where written[(g - 1) * 3 + k] is not 0. Any bytes are a store; all bytes 0 are a new one. Where a new store is handed
 * on, what a group's calls answer and write, and its tables, do not depend on which calls the other group makes between them.
 *
 * Since a store goes by value, the table of a write and the out of a read may lie inside a store variable of the caller's, even the one
 * that the call is given. */
typedef struct {
    uint8_t tables[1536];
    uint8_t written[6];
} lyndon_store;

/* What a write returns: the store to hand on, and the answer. */
typedef struct {
    lyndon_store store;
    lyndon_answer answer;
} lyndon_store_written;

/* A new store. */
lyndon_store lyndon_store_new(void);

/* Writes the group's own table of that number, 0 to 2, anew where it is written already: the store returned has the 256 bytes in its place
 * and 1 for its flag, and all else as it was. The count is 256. A refused write returns the store as it was. Refusals 21, 16. */
lyndon_store_written lyndon_store_write(lyndon_store store, uint32_t group, uint32_t number, const uint8_t *table, size_t table_len);

/* The calls below name a table by group, built_in and number: where built_in is 0 the group's own, 0 to 2, else a built-in one, 0 or 1. A
 * group that does not exist is refused with 21 there too. They change no store. */

/* Reads a table. Needs 256 places; the count is 256. Refusals 21, 22, 4. */
lyndon_answer lyndon_store_read(lyndon_store store, uint32_t group, uint32_t built_in, uint32_t number, uint8_t *out, size_t out_len);

/* The ranked calls in order 2 by a table of the store: places, counts, contents and comparisons are theirs. Refusals 21, 22, 1, 2, 4, and
 * of the runs 5. */
lyndon_answer lyndon_store_array(lyndon_store store, uint32_t group, uint32_t built_in, uint32_t number, const uint8_t *text, size_t n,
    uint32_t *out, size_t out_len);
lyndon_answer lyndon_store_factorization(lyndon_store store, uint32_t group, uint32_t built_in, uint32_t number, const uint8_t *text,
    size_t n, uint32_t *out, size_t out_len);
lyndon_answer lyndon_store_suffix_table(lyndon_store store, uint32_t group, uint32_t built_in, uint32_t number, const uint8_t *text,
    size_t n, uint32_t *out, size_t out_len);
lyndon_answer lyndon_store_left_forest(lyndon_store store, uint32_t group, uint32_t built_in, uint32_t number, const uint8_t *text,
    size_t n, uint32_t *first, size_t first_len, uint32_t *past, size_t past_len);
lyndon_answer lyndon_store_runs(lyndon_store store, uint32_t group, uint32_t built_in, uint32_t number, const uint8_t *text, size_t n,
    uint32_t *work, size_t work_len, uint32_t *list, size_t list_len);

/* The letters of a FASTA input of one record, as capitals: a lower-case letter is the same base, masked, and a to z are written as A to Z.
 * A record is '>', a name of 1 to 60 bytes from 33 to 126 ended by space, tab, CR, LF or the end, the rest of that line, then sequence lines
 * of letters, A to Z and a to z. LF, or CR and LF, ends a line; blank lines are skipped.
 * An input has at most 16,384 bytes, and may be empty (refusal 9). The letters buffer needs 4,096 places, whatever the input; the count
 * is the number of letters. Refusals 4, 15, 9, 10, 11, 12, 14, 13. */
lyndon_answer lyndon_read_fasta(const uint8_t *input, size_t len, uint8_t *letters, size_t letters_len);

#ifdef __cplusplus
}
#endif

#endif
