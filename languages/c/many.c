/* A survey's windows in one call: the numbers of all of them are lent back one after another, with a count for each window. The first call lends too few
   number cells and is told how many are due. Then a window whose edges stand in reverse, and which one it is.
   gcc many.c $(pkg-config --cflags --libs kalinosz) */
#include <inttypes.h>
#include <kalinosz.h>
#include <stdio.h>
#include <stdlib.h>

int main(void) {
    const int32_t plate[] = {0, 2, 6, 2, 4, 0, 4, 5, 9, 9, 9, 9};
    enum { CELLS = sizeof plate / sizeof *plate, MARKS = 3, WORDS = 58, WINDOWS = 3, FEW = 2 };
    int32_t index[WORDS];
    kalinosz_build(plate, CELLS, 1, 0, 1, MARKS, 4, 1, index, WORDS);

    int64_t windows[WINDOWS][4] = {{3, 5, 1, 3}, {7, 8, 0, 9}, {4, 9, 4, 9}}; /* a b c d of each */
    enum { EDGES = sizeof windows / sizeof **windows };
    int32_t counts[WINDOWS], few[FEW], *numbers = few;
    kalinosz_reply asked = kalinosz_query_many(index, WORDS, *windows, EDGES, counts, WINDOWS, numbers, FEW);
    printf("%d number cells: answer %" PRId64 ", %" PRId64 " numbers due\n", FEW, asked.number, asked.count);
    if (asked.number == KALINOSZ_SHORT) {
        size_t due = (size_t)asked.count;
        numbers = malloc(due * sizeof *numbers);
        if (numbers == NULL) return EXIT_FAILURE;
        asked = kalinosz_query_many(index, WORDS, *windows, EDGES, counts, WINDOWS, numbers, due);
        printf("%zu number cells: answer %" PRId64 ", %" PRId64 " numbers, %" PRId64 " visits\n", due, asked.number, asked.count, asked.visits);
    }
    const int32_t *next = numbers;
    for (int i = 0; i < WINDOWS; i++) {
        printf("window %d: %" PRId32 " met, numbers", i, counts[i]);
        for (int32_t k = 0; k < counts[i]; k++) printf(" %" PRId32, *next++);
        printf("\n");
    }
    if (numbers != few) free(numbers);

    windows[1][0] = 9; /* above its other edge, 8 */
    asked = kalinosz_query_many(index, WORDS, *windows, EDGES, counts, WINDOWS, few, FEW);
    printf("edges in reverse: answer %" PRId64 ", window %" PRId64 "\n", asked.number, asked.position);
    return EXIT_SUCCESS;
}
