/* The index from C: a terminal's fence, three reports, and who is inside. `gcc -Ihost/include host/example.c
 * crates/shunebokai/out/libshunebokai.a && ./a.out` at the repository's root. */
#include "shunebokai.h"

#include <stdio.h>

enum { P = 4, K = 8, B = 1, STEPS = 7 };

static uint32_t store[SHUNEBOKAI_WORDS(P, K, B)];
static const size_t length = sizeof store / sizeof *store;

static const uint32_t steps[STEPS][6] = {
    {SHUNEBOKAI_OPEN, 0, 100, 100, 200, 200},    {SHUNEBOKAI_REPORT, 7, 150, 150, 160, 150},
    {SHUNEBOKAI_REPORT, 9, 300, 300, 300, 300},  {SHUNEBOKAI_REPORT, 7, 210, 150, 220, 150},
    {SHUNEBOKAI_CLEAN, 0, 0, 0, 0, 0},           {SHUNEBOKAI_INSPECT, 0, 0, 0, 0, 0},
    {SHUNEBOKAI_REPORT, 9, 200, 200, 200, 200},
};

static void print_rows(const uint32_t *row, size_t count) {
    for (; count > 0; count--, row += 5)
        printf("%u %u %u %u %u\n", row[0], row[1], row[2], row[3], row[4]);
}

int main(void) {
    uint32_t answers[STEPS][2], rows[5 * SHUNEBOKAI_MOST_ROWS];
    size_t from, to, count;
    uint32_t number = shunebokai_start(P, K, B, store, length);

    printf("start %u\n", number);
    if (number == 0)
        number = shunebokai_run(store, length, steps[0], 6 * STEPS, answers[0], 2 * STEPS);
    for (size_t i = 0; number == 0 && i < STEPS; i++)
        printf("%u %u %u\n", steps[i][0], answers[i][0], answers[i][1]);

    if (number == 0)
        number = shunebokai_board_rows(store, length, 0, &from, &to);
    if (number == 0) {
        printf("board 0 rows %zu\n", (to - from) / 5);
        print_rows(store + from, (to - from) / 5);
        number = shunebokai_query(store, length, 0, 0, 1048575, 1048575, rows, sizeof rows / sizeof *rows, &count);
    }
    if (number == 0) {
        printf("all %zu\n", count);
        print_rows(rows, count);
    }
    if (number != 0)
        printf("refused with %u\n", number);
    return number != 0;
}
