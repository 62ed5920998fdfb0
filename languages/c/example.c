/* Kalinosz from C: builds the index of three marks and asks which of them meet a window.
   gcc example.c $(pkg-config --cflags --libs kalinosz) */
#include <inttypes.h>
#include <kalinosz.h>
#include <stdio.h>
#include <stdlib.h>

int main(void) {
    /* The plate was read from its far end: mark 1 stands in cells 8 to 11, mark 2 four cells below it, mark 3 first.
       So mark 1 is the base, and the step from mark to mark is -4. */
    const int32_t plate[] = {9, 9, 9, 9, 4, 0, 4, 5, 0, 2, 6, 2};
    enum { CELLS = sizeof plate / sizeof *plate, KIND = 1, BASE = 8, LOWER = 1, MARKS = 3, SEGMENT_STRIDE = -4, COORDINATE_STRIDE = 1 };

    size_t words = (size_t)kalinosz_words(MARKS);
    int32_t *index = malloc(words * sizeof *index);
    if (index == NULL) return EXIT_FAILURE;
    kalinosz_reply built = kalinosz_build(plate, CELLS, KIND, BASE, LOWER, MARKS, SEGMENT_STRIDE, COORDINATE_STRIDE, index, words);
    printf("build: answer %" PRId64 ", %" PRId64 " words\n", built.number, built.count);

    /* Mark 1, (0,2)-(6,2), crosses this window from side to side: neither of its ends lies inside. Mark 2 crosses it upwards. */
    int32_t numbers[MARKS];
    kalinosz_reply asked = kalinosz_query(index, words, 3, 5, 1, 3, numbers, MARKS);
    printf("query: answer %" PRId64 ", %" PRId64 " met, %" PRId64 " visits, numbers", asked.number, asked.count, asked.visits);
    for (int64_t i = 0; i < asked.count; i++) printf(" %" PRId32, numbers[i]);
    printf("\n");
    free(index);
    return EXIT_SUCCESS;
}
