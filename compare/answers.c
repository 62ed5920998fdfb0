// The three answers for C hosts against an independent reading of document 01: exact fractions for meeting, every cell one by one for the descriptor,
// powers of two for W(n). Random numbers from a seed, the ends of 64 bits and the limits among them. It checks itself: the last line is 'N passed, M failed'.
//     make && gcc -O2 -o target/answers compare/answers.c target/staticlib/libhosts.a && target/answers [cases [seed]]
#include <inttypes.h>
#include <stdint.h>
#include <stdio.h>
#include <stdlib.h>

typedef __int128 wide;

int64_t kalinosz_cell(int64_t length, int64_t base, int64_t n, int64_t segment_stride, int64_t coordinate_stride, int64_t position, int64_t coordinate);
int64_t kalinosz_words(int64_t n);
int64_t kalinosz_meets(int64_t x1, int64_t y1, int64_t x2, int64_t y2, int64_t a, int64_t b, int64_t c, int64_t d);

// ---- random numbers

static uint64_t state;

static uint64_t next(void)
{
    state ^= state << 13;
    state ^= state >> 7;
    state ^= state << 17;
    return state * 0x2545F4914F6CDD1Dull;
}

static int64_t between(int64_t lo, int64_t hi)
{
    return (int64_t)((uint64_t)lo + next() % ((uint64_t)hi - (uint64_t)lo + 1));
}

// a number at the end of 64 bits or beside one
static int64_t extreme(void)
{
    int64_t off = between(0, 5);
    switch (next() % 4) {
    case 0: return INT64_MIN + off;
    case 1: return INT64_MAX - off;
    case 2: return (int64_t)next();
    default: return between(-3, 3);
    }
}

// a number within a limit, at it, just past it, or anywhere
static int64_t about(int64_t limit)
{
    switch (next() % 16) {
    case 0: return extreme();
    case 1: return limit + between(-1, 1);
    case 2: return -limit + between(-1, 1);
    default: return between(-limit, limit);
    }
}

// ---- document 01, another way

enum { most = 4096 };
static const int64_t coordinate_limit = 536870912, stride_limit = 1048576;

static int within(int64_t lo, int64_t hi, int64_t z) { return lo <= z && z <= hi; }

static int64_t expected_words(int64_t n)
{
    if (n < 0 || n > most) return -3;
    if (n == 0) return 4;
    int64_t digits = 0;
    for (int64_t power = 1; power <= n - 1; power *= 2) digits++;
    return 4 + 12 * n + 2 * n * (digits + 1);
}

static int64_t expected_cell(int64_t length, int64_t base, int64_t n, int64_t segment, int64_t coordinate, int64_t i, int64_t j)
{
    if (n < 0 || n > most) return -3;
    if (!within(-stride_limit, stride_limit, segment) || !within(-stride_limit, stride_limit, coordinate)) return -4;
    for (int64_t p = 0; p < n; p++)
        for (int64_t k = 0; k < 4; k++) {
            wide cell = (wide)base + (wide)p * segment + (wide)k * coordinate;
            if (cell < 0 || cell >= length) return -12;
        }
    if (i < 0 || i >= n || j < 0 || j > 3) return -11;
    return (int64_t)((wide)base + (wide)i * segment + (wide)j * coordinate);
}

// the part of the way 0..1 that is still inside, from lo/lod to hi/hid
struct way { wide lo, lod, hi, hid; };

// keeps what is at or after (low) or at or before (high) the part num/den of the way, den > 0
static void cut(struct way *w, int low, wide num, wide den)
{
    if (low) {
        if (num * w->lod > w->lo * den) { w->lo = num; w->lod = den; }
    } else {
        if (num * w->hid < w->hi * den) { w->hi = num; w->hid = den; }
    }
}

// lo ≤ u1 + t·(u2 − u1) ≤ hi; 0 where no t does
static int clip(struct way *w, wide lo, wide hi, wide u1, wide u2)
{
    wide rise = u2 - u1;
    if (rise == 0) return lo <= u1 && u1 <= hi;
    if (rise > 0) { cut(w, 1, lo - u1, rise); cut(w, 0, hi - u1, rise); }
    else { cut(w, 1, u1 - hi, -rise); cut(w, 0, u1 - lo, -rise); }
    return 1;
}

static int64_t expected_meets(int64_t x1, int64_t y1, int64_t x2, int64_t y2, int64_t a, int64_t b, int64_t c, int64_t d)
{
    int64_t edges[4] = {a, b, c, d}, ends[4] = {x1, y1, x2, y2};
    if (a > b || c > d) return -8;
    for (int k = 0; k < 4; k++) if (!within(-coordinate_limit, coordinate_limit, edges[k])) return -8;
    for (int k = 0; k < 4; k++) if (!within(-coordinate_limit, coordinate_limit, ends[k])) return -5;
    struct way w = {0, 1, 1, 1};
    return clip(&w, a, b, x1, x2) && clip(&w, c, d, y1, y2) && w.lo * w.hid <= w.hi * w.lod;
}

// ---- the comparison

static long passed, failed;

static void judge(const char *what, int64_t expected, int64_t got, const int64_t *input, int inputs)
{
    if (expected == got) { passed++; return; }
    if (failed++ >= 10) return;
    printf("%s(", what);
    for (int k = 0; k < inputs; k++) printf("%s%" PRId64, k ? ", " : "", input[k]);
    printf("): expected %" PRId64 ", got %" PRId64 "\n", expected, got);
}

static void one_words(int64_t n)
{
    judge("kalinosz_words", expected_words(n), kalinosz_words(n), &n, 1);
}

static void one_cell(void)
{
    int64_t v[7];
    int64_t n = v[2] = next() % 8 == 0 ? about(most) : between(0, 40);
    v[3] = next() % 4 == 0 ? about(stride_limit) : between(-9, 9);
    v[4] = next() % 4 == 0 ? about(stride_limit) : between(-9, 9);
    v[5] = next() % 8 == 0 ? extreme() : between(-1, n < 0 || n > most ? 1 : n);
    v[6] = next() % 8 == 0 ? extreme() : between(-1, 4);
    if (next() % 4 == 0) {
        v[0] = extreme();
        v[1] = extreme();
    } else {
        // a table that ends where the cells do, give or take one
        wide low = 0, high = 0, steps = n > 0 ? n - 1 : 0;
        wide row = steps * v[3], column = (wide)3 * v[4];
        if (row < 0) low += row; else high += row;
        if (column < 0) low += column; else high += column;
        wide base = -low + between(-1, 2), length = base + high + 1 + between(-1, 2);
        // the same at the top of 64 bits
        if (next() % 4 == 0) { base += INT64_MAX - length; length = INT64_MAX; }
        v[0] = (int64_t)length;
        v[1] = (int64_t)base;
    }
    judge("kalinosz_cell", expected_cell(v[0], v[1], v[2], v[3], v[4], v[5], v[6]), kalinosz_cell(v[0], v[1], v[2], v[3], v[4], v[5], v[6]), v, 7);
}

static void one_meets(void)
{
    static const int64_t spans[] = {4, 12, 1000, 536870912};
    int64_t v[8], span = spans[next() % 4];
    int wild = next() % 16 == 0;
    for (int k = 0; k < 8; k++) v[k] = wild ? about(coordinate_limit) : between(-span, span);
    for (int k = 4; k < 8; k += 2)
        if (v[k] > v[k + 1] && next() % 8) { int64_t t = v[k]; v[k] = v[k + 1]; v[k + 1] = t; }
    // windows of one column or one row
    if (next() % 8 == 0) v[5] = v[4];
    if (next() % 8 == 0) v[7] = v[6];
    judge("kalinosz_meets", expected_meets(v[0], v[1], v[2], v[3], v[4], v[5], v[6], v[7]), kalinosz_meets(v[0], v[1], v[2], v[3], v[4], v[5], v[6], v[7]), v, 8);
}

int main(int arguments, char **argument)
{
    long cases = arguments > 1 ? atol(argument[1]) : 1000000;
    state = arguments > 2 ? strtoull(argument[2], 0, 10) : 1;
    if (state == 0) state = 1;
    printf("seed %" PRIu64 ", %ld cases\n", state, cases);
    for (int64_t n = -3; n <= most + 3; n++) one_words(n);
    for (long k = 0; k < 1000; k++) one_words(extreme());
    for (long k = 0; k < cases; k++) one_meets();
    for (long k = 0; k < cases / 4; k++) one_cell();
    printf("%ld passed, %ld failed\n", passed, failed);
    return passed == 0 || failed != 0;
}
