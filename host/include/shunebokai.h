/* The calls of the verified train index, for C and C++ on x86-64 Linux, processors from x86-64-v2 on.
 *
 *     (cd crates/shunebokai && rt lib)   proves the library and writes crates/shunebokai/out/libshunebokai.a
 *     gcc -Ihost/include yours.c crates/shunebokai/out/libshunebokai.a
 *
 * The index lives in one array of 32-bit words that the caller lends for each call; the library keeps nothing between
 * calls and allocates nothing, so different stores may be used by different threads. An array is passed as its first
 * word's address and its number of words. Each call tests the words that it is lent and answers by the table below;
 * what it can't test is left to the caller:
 *   - an address is never NULL, also where the length is 0, and that many words stand there;
 *   - arrays of one call don't overlap.
 *
 * Numbers. Where several apply, the lowest is given.
 *
 *    0  done
 *    1  P, K or B out of range
 *    2  store under 16 words, wrong length, or wrong word 0, 4, 6, 8 or 10 to 15
 *    3  store not sound
 *    4  steps not a whole number of six words
 *    5  answers not two words a step
 *    6  unknown kind, or an unnamed word not 0
 *    7  train 0
 *    8  box or window not proper
 *    9  board number B or more
 *   10  opening an open board, closing or reading a closed one
 *   11  next stamp is 4,294,967,295 (report, withdraw)
 *   12  3P entries held already (report): clean
 *   13  no slot for the train and all K used (report, withdraw): clean, then inspect
 *   14  a board would need a 17th row (report, open)
 *   15  more rows than the row array holds
 *
 * A call refused with 1 to 5, and a refused query, leaves every array untouched (but a query's count, which is 0).
 *
 * The store, SHUNEBOKAI_WORDS(P, K, B) words: P pages (1 to 192), K memo slots (1 to 1,024), B boards (0 to 32).
 *
 *   words 0 to 15   form (1), next stamp, root page, levels, start of pages (16), P, start of memo, K, start of
 *                   boards, B, zeros
 *   a page, 52      kind (0 free, 1 leaf, 2 inner), count, mark, 0, then eight places of six words:
 *                   box, train, stamp in a leaf; box, child page, 0 in an inner page
 *   a slot, 3       train, latest stamp, number of old entries
 *   a board, 86     window, 1 if open, row count, then 16 rows of five words: train, box
 *
 * A box or window is x0, y0, x1, y1 with x0 <= x1 and y0 <= y1, in whole metres from 0 to 1,048,575. A store may be
 * kept and lent again: every call but start judges the words before it does anything.
 */
#ifndef SHUNEBOKAI_H
#define SHUNEBOKAI_H

#include <stddef.h>
#include <stdint.h>

#define SHUNEBOKAI_WORDS(p, k, b) (16 + 52 * (size_t)(p) + 3 * (size_t)(k) + 86 * (size_t)(b))
#define SHUNEBOKAI_MOST_ROWS 576 /* that a query can give */

enum shunebokai_kind {
    /* six words: kind, a, then four more; those not named are 0         counts */
    SHUNEBOKAI_REPORT = 1,   /* a = train, box       open boards listing the train before or after */
    SHUNEBOKAI_WITHDRAW = 2, /* a = train            the same */
    SHUNEBOKAI_CLEAN = 3,    /*                      entries removed */
    SHUNEBOKAI_INSPECT = 4,  /*                      memo slots freed */
    SHUNEBOKAI_OPEN = 5,     /* a = board, window    rows */
    SHUNEBOKAI_CLOSE = 6     /* a = board            0 */
};

#ifdef __cplusplus
extern "C" {
#endif

/* Writes the fresh store of p pages, k slots and b boards, whatever the words held. Gives 0, 1 or 2. */
uint32_t shunebokai_start(uint32_t p, uint32_t k, uint32_t b, uint32_t *store, size_t store_len);

/* Runs the steps in turn; writes two words for each, its number and its count. A refused step is passed over, with
 * count 0, and the next one runs. The store is judged once, before the first step. Gives 0 to 5. */
uint32_t shunebokai_run(uint32_t *store, size_t store_len, const uint32_t *steps, size_t steps_len, uint32_t *answers,
                        size_t answers_len);

/* Writes the rows (train, box; five words) that meet the window, ascending train, and how many to count. Words after the last row
 * stay. Gives 0 to 3, 8 or 15. */
uint32_t shunebokai_query(const uint32_t *store, size_t store_len, uint32_t x0, uint32_t y0, uint32_t x1, uint32_t y1,
                          uint32_t *rows, size_t rows_len, size_t *count);

/* Gives 0 if the board's rows can be read, otherwise 1 to 3, 9 or 10. */
uint32_t shunebokai_board_test(const uint32_t *store, size_t store_len, uint32_t board);

/* Gives the number of the board's test. The rows stand in the store's words from `from` to before `to`; where the test
 * refuses, both are 0. */
uint32_t shunebokai_board_rows(const uint32_t *store, size_t store_len, uint32_t board, size_t *from, size_t *to);

#ifdef __cplusplus
}
#endif

#endif
