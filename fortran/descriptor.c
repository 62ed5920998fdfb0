/* Fortran arrays for Kalinosz: reads the descriptor that a Fortran compiler passes (ISO/IEC 1539-1:2018, clause 18) and lends the array as it lies, never copied.
   Fortran calls these through the interfaces of kalinosz.f90. Nothing here answers by itself: what cannot be told in a descriptor of cells is told as one
   that the library refuses, so that the order of refusals is the library's. */
#include <ISO_Fortran_binding.h>

#include "kalinosz.h"

/* A table as the library takes it; the same fields in the same order as kalinosz_table of kalinosz.f90. */
typedef struct kalinosz_table {
    const int32_t *cells;
    size_t length;
    int64_t kind, base, lower, n, segment_stride, coordinate_stride;
} kalinosz_table;

enum { CELL = sizeof(int32_t), COORDINATES = 4 };
enum { EDGE = sizeof(int64_t), EDGES = 4 };
enum { NO_KIND = 0 };                     /* refused with 1 */
static const int64_t NO_STRIDE = INT64_MAX; /* refused with 4 */

static int64_t kind_of(const CFI_cdesc_t *array) {
    if (array->base_addr == NULL || array->rank != 2 || array->type != CFI_type_int32_t) return NO_KIND; /* not allocated, not associated, or no table */
    switch (array->attribute) {
        case CFI_attribute_pointer: return 1;
        case CFI_attribute_allocatable: return 2;
        default: return 3;
    }
}

/* The bytes from one element to the next along a dimension, in cells. */
static int64_t stride_of(const CFI_dim_t *dimension) {
    return dimension->sm % CELL == 0 ? dimension->sm / CELL : NO_STRIDE;
}

/* What the array says of itself: dimension 1 is the coordinate, dimension 2 the segment. */
kalinosz_table kalinosz_describe_array(const CFI_cdesc_t *array) {
    kalinosz_table table = {NULL, 0, kind_of(array), 0, 0, 0, 0, 0};
    if (table.kind == NO_KIND) return table;
    const CFI_dim_t *coordinate = &array->dim[0], *segment = &array->dim[1];
    table.lower = segment->lower_bound;
    table.n = segment->extent;
    table.segment_stride = stride_of(segment);
    /* A table of another shape, as one that is turned on its side, has no step to a coordinate. */
    table.coordinate_stride = coordinate->extent == COORDINATES ? stride_of(coordinate) : NO_STRIDE;
    if (table.n < 1 || table.segment_stride == NO_STRIDE || table.coordinate_stride == NO_STRIDE) return table;
    /* base_addr is the first element even where a stride is negative: the slice begins at the lowest cell and base is how far the first lies above it. */
    int64_t segments = (table.n - 1) * table.segment_stride, coordinates = (COORDINATES - 1) * table.coordinate_stride;
    int64_t below = (segments < 0 ? segments : 0) + (coordinates < 0 ? coordinates : 0);
    int64_t above = (segments > 0 ? segments : 0) + (coordinates > 0 ? coordinates : 0);
    table.cells = (const int32_t *)array->base_addr + below;
    table.length = (size_t)(above - below + 1);
    table.base = -below;
    return table;
}

/* How many cells an array of rank 1 lends: all if they lie one after another, as the interface asks for, and otherwise none, which is refused with 7, 9 or 14. */
static size_t lent(const CFI_cdesc_t *array) {
    int whole = array->base_addr != NULL && (array->dim[0].sm == CELL || array->dim[0].extent == 1);
    return whole && array->dim[0].extent > 0 ? (size_t)array->dim[0].extent : 0;
}

kalinosz_reply kalinosz_scan_array(const CFI_cdesc_t *array, int64_t a, int64_t b, int64_t c, int64_t d, const CFI_cdesc_t *numbers) {
    kalinosz_table t = kalinosz_describe_array(array);
    return kalinosz_scan(
        t.cells, t.length, t.kind, t.base, t.lower, t.n, t.segment_stride, t.coordinate_stride, a, b, c, d, numbers->base_addr, lent(numbers));
}

kalinosz_reply kalinosz_build_array(const CFI_cdesc_t *array, const CFI_cdesc_t *index) {
    kalinosz_table t = kalinosz_describe_array(array);
    return kalinosz_build(
        t.cells, t.length, t.kind, t.base, t.lower, t.n, t.segment_stride, t.coordinate_stride, index->base_addr, lent(index));
}

kalinosz_reply kalinosz_query_array(const CFI_cdesc_t *index, int64_t a, int64_t b, int64_t c, int64_t d, const CFI_cdesc_t *numbers) {
    return kalinosz_query(index->base_addr, lent(index), a, b, c, d, numbers->base_addr, lent(numbers));
}

/* The edges of an array of windows, dimension 1 being the four of a window: all if they lie one after another, as the interface asks for, and otherwise
   a single number. That is no window and refused with 14, where no number at all would be no windows and done. */
typedef struct slice {
    const int64_t *edges;
    size_t length;
} slice;

static slice slice_of(const CFI_cdesc_t *windows) {
    static const int64_t no_window = 0;
    const CFI_dim_t *edge = &windows->dim[0], *window = &windows->dim[1];
    int whole = edge->extent == EDGES && edge->sm == EDGE && (window->extent < 2 || window->sm == EDGES * EDGE);
    slice all = {windows->base_addr, EDGES * (size_t)window->extent}, refused = {&no_window, 1};
    return whole ? all : refused;
}

kalinosz_reply kalinosz_query_many_array(const CFI_cdesc_t *index, const CFI_cdesc_t *windows, const CFI_cdesc_t *counts, const CFI_cdesc_t *numbers) {
    slice s = slice_of(windows);
    return kalinosz_query_many(
        index->base_addr, lent(index), s.edges, s.length, counts->base_addr, lent(counts), numbers->base_addr, lent(numbers));
}

kalinosz_reply kalinosz_write_wkt_array(const CFI_cdesc_t *array, uint8_t *text, size_t bytes) {
    kalinosz_table t = kalinosz_describe_array(array);
    return kalinosz_write_wkt(t.cells, t.length, t.kind, t.base, t.lower, t.n, t.segment_stride, t.coordinate_stride, text, bytes);
}
