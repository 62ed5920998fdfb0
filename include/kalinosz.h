/* Kalinosz for C and C++: which marks on a plate meet a window.
   Link with -lkalinosz. A first program stands in languages/c; docs/CALLING.md has one for each language.

   A TABLE is a lent array of int32_t cells. Its descriptor says where the n segments stand in it:
     coordinate j (0 to 3, for x1 y1 x2 y2) of position i (0 to n-1) is
     table[base + i * segment_stride + j * coordinate_stride],
   all in cells. A stride may be negative or zero; base is the cell of position 0, wherever it lies. The number of position i is lower + i.
     kind                1 pointer, 2 allocatable, 3 other (as in a Fortran descriptor); kind 3 carries lower bound 0 and numbers from 1
     lower               -1000000 to 1000000
     n                   0 to 4096
     strides             -1048576 to 1048576
     coordinates, edges  -536870912 to 536870912
     windows of a call   0 to 64 (kalinosz_query_many)

   A WINDOW is a <= b in x and c <= d in y; all four edges belong to it. A segment meets it if they share a point, whole or fractional.

   BUFFERS. Each array is followed by its length in elements, not bytes. The caller owns every array before, during and after a call; the library keeps
   no pointer, allocates nothing, holds no state and may be called from several threads at once, as long as none writes what another uses. An array
   that is written must not overlap another of the same call. An array of length 0 may be NULL. Lengths must be true: nothing can check them from inside.

   ANSWERS. Each call answers by number (below). A refusal returns count, visits and position 0 except where it says otherwise, and changes no buffer. */
#ifndef KALINOSZ_H
#define KALINOSZ_H

#include <stddef.h>
#include <stdint.h>

#ifdef __cplusplus
extern "C" {
#endif

enum kalinosz_answer {
    KALINOSZ_DONE = 0,       /* done */
    KALINOSZ_KIND = 1,       /* kind is not 1 to 3 */
    KALINOSZ_LOWER = 2,      /* lower bound beyond its limits, or kind 3 and not 0 */
    KALINOSZ_EXTENT = 3,     /* n beyond its limits */
    KALINOSZ_STRIDES = 4,    /* a stride beyond its limits */
    KALINOSZ_COORDINATE = 5, /* a coordinate beyond its limits; reply.position is the first such position */
    KALINOSZ_SLANTED = 6,    /* build only: a segment neither horizontal nor vertical; reply.position is the first such position */
    KALINOSZ_SHORT = 7,      /* build: index below kalinosz_words(n) words; scan, query: numbers below the numbers due, to all of many windows together, and
                                reply.count is how many those are; read: fewer than 4 cells a line; write: text too short */
    KALINOSZ_WINDOW = 8,     /* a > b, c > d, or an edge beyond its limits; of many windows reply.position is the first such window, from 0 */
    KALINOSZ_INDEX = 9,      /* these words are no index: fewer than 4, bad n, lower bound or counts, or fewer than kalinosz_words(n) */
    KALINOSZ_SPOILED = 10,   /* the query read a spoiled word; of many windows reply.position is the first window, from 0, whose walk did */
    KALINOSZ_PLACE = 11,     /* kalinosz_cell only: no such position or coordinate */
    KALINOSZ_OUTSIDE = 12,   /* an addressed cell outside the table; reply.position is the first such position, reply.count its first such coordinate */
    KALINOSZ_TEXT = 13,      /* a text of another form; reply.position is the first byte after which no accepted text can follow, or the text's length */
    KALINOSZ_SLICE = 14      /* many windows only: edges that are no whole number of windows, over 64 windows, or fewer count cells than windows */
};

typedef struct kalinosz_reply {
    int64_t number;   /* the answer, one of the above */
    int64_t count;    /* scan, query: how many numbers were written; build: how many words; read: how many lines; write: how many bytes;
                         answer 7 of scan, query: how many numbers are due; answer 12: the coordinate, 0 to 3; otherwise 0 */
    int64_t visits;   /* query: the steps of the walk, at most 4L^2 + 15L + 2 + 2 count on built words (L: binary digits of n); of many windows the sum of theirs;
                         otherwise 0 */
    int64_t position; /* the first position at fault (5, 6, 12), the byte of a text (13), or the first of many windows at fault (8, 10); otherwise 0.
                         All of them count from 0, whatever the lower bound */
} kalinosz_reply;

/* Lists the numbers of all segments, slanted ones too, that meet the window, ascending, in numbers[0 .. count-1]; later cells keep their values.
   n cells always hold them; with fewer look at count, which a 7 returns too, and lend again. Answers, the first that applies: 1, 2, 3, 4, 12, 8, 5, 7. */
kalinosz_reply kalinosz_scan(
    const int32_t *table, size_t length,
    int64_t kind, int64_t base, int64_t lower, int64_t n, int64_t segment_stride, int64_t coordinate_stride,
    int64_t a, int64_t b, int64_t c, int64_t d,
    int32_t *numbers, size_t cells);

/* Writes the index of a table of horizontal and vertical segments: kalinosz_words(n) words, returned as count; later words keep their values.
   The index holds copies of all it needs: the table may change or go afterwards. It is plain words: copy it, store it, send it (in one byte order).
   Answers, the first that applies: 1, 2, 3, 4, 12, 7, 5, 6. */
kalinosz_reply kalinosz_build(
    const int32_t *table, size_t length,
    int64_t kind, int64_t base, int64_t lower, int64_t n, int64_t segment_stride, int64_t coordinate_stride,
    int32_t *index, size_t words);

/* Lists the numbers of the segments that meet the window, each once, in the order of the walk, in numbers[0 .. count-1]; later cells keep their values.
   index is only read. n cells always hold them; with fewer look at count, which a 7 returns too, and lend again. Answers, the first that applies: 9, 8, 10, 7. */
kalinosz_reply kalinosz_query(
    const int32_t *index, size_t words,
    int64_t a, int64_t b, int64_t c, int64_t d,
    int32_t *numbers, size_t cells);

/* Asks many windows in one call, as kalinosz_query would one after another. windows[4 i .. 4 i + 3] are a b c d of window i, and edges is how many numbers those are:
   4 for each window. counts[i] becomes how many numbers window i has; in numbers those of window 0 come first, then those of window 1, and so on. count is how many
   they are in all. Later cells of both arrays keep their values. With no windows the call is done, with count 0.
   Lend one count cell for each window. n number cells for each always hold the numbers; with fewer look at count, which a 7 returns for all windows together, and
   lend again. Answers, the first that applies: 9, 14, 8, 10, 7. All windows are judged for 8 before one is walked. */
kalinosz_reply kalinosz_query_many(
    const int32_t *index, size_t words,
    const int64_t *windows, size_t edges,
    int32_t *counts, size_t count_cells,
    int32_t *numbers, size_t cells);

/* Reads a table from well-known text (OGC 06-103r4): MULTILINESTRING where every line has exactly two points with whole coordinates, no Z or M. EMPTY is a
   table of none. Letters in either case; spaces (byte 32) may stand around any token and must part two words or numbers; a coordinate is digits with an
   optional sign, and a point, an exponent or an EMPTY line among others is refused. A line feed is no space: leave it out of `bytes`.
   cells[0 .. 4 count-1] become x1 y1 x2 y2 of each line; later cells keep their values. Answers, the first that applies: 13, 3, 5, 7. */
kalinosz_reply kalinosz_read_wkt(
    const uint8_t *text, size_t bytes,
    int32_t *cells, size_t length);

/* Writes the table as MULTILINESTRING ((0 2, 6 2), (4 0, 4 5)) or MULTILINESTRING EMPTY, with nothing after it, into text[0 .. count-1]; later bytes keep their
   values. Reading that gives the same coordinates. 48 n + 21 bytes are always enough. Answers, the first that applies: 1, 2, 3, 4, 12, 5, 7. */
kalinosz_reply kalinosz_write_wkt(
    const int32_t *table, size_t length,
    int64_t kind, int64_t base, int64_t lower, int64_t n, int64_t segment_stride, int64_t coordinate_stride,
    uint8_t *text, size_t bytes);

/* The next three return a plain number, or a refusal as its negative. */

/* The cell of a coordinate, if a table of this length holds every cell of its n positions. -3, -4, -12, -11. */
int64_t kalinosz_cell(
    int64_t length, int64_t base, int64_t n, int64_t segment_stride, int64_t coordinate_stride, int64_t position, int64_t coordinate);

/* How many words the index of n segments takes. -3. */
int64_t kalinosz_words(int64_t n);

/* Whether the segment from (x1, y1) to (x2, y2), slanted or not, meets the window: 1 or 0. -8, -5. */
int64_t kalinosz_meets(int64_t x1, int64_t y1, int64_t x2, int64_t y2, int64_t a, int64_t b, int64_t c, int64_t d);

#ifdef __cplusplus
}
#endif

#endif
