// The proved reader and writer of WKT against the same design in C, both in one run: two passes, an automaton of a byte a turn, no allocation.
//     make && gcc -O3 -o target/wkt bench/wkt.c target/staticlib/libhosts.a && target/wkt
// It prints nanoseconds of processor time a byte, the least of many rounds taken by turns, and the ratio; every reply and every cell is compared first.
#include <stdint.h>
#include <stdio.h>
#include <stdlib.h>
#include <string.h>
#include <time.h>

typedef struct {
    int64_t number, count, visits, position;
} reply;

reply kalinosz_read_wkt(const uint8_t *text, size_t bytes, int32_t *cells, size_t length);
reply kalinosz_write_wkt(const int32_t *table, size_t length, int64_t kind, int64_t base, int64_t lower, int64_t n, int64_t segment_stride, int64_t coordinate_stride,
                         uint8_t *text, size_t bytes);

// ---------------------------------------------------------------- the same in C

enum { START, NAME, NAMED, BODY, EMPTY, LINE, DUE, SIGNED, NUMBER, AFTER, MORE, END, FAILED };

typedef struct {
    uint32_t tag;
    uint32_t k;
} state;

static const char *const name = "MULTILINESTRING", *const empty = "EMPTY";

static inline uint8_t capital(uint8_t b) { return b >= 97 && b <= 122 ? b - 32 : b; }
static inline state at(uint32_t tag, uint32_t k) { return (state){tag, k}; }
static inline state onward(uint8_t b, uint8_t mark, state past, state stay) { return b == mark ? past : b == 32 ? stay : at(FAILED, 0); }
static inline uint8_t mark_after(uint32_t c) { return c == 1 ? 44 : c == 3 ? 41 : 32; }
static inline state past_mark(uint32_t c) { return c == 3 ? at(MORE, 0) : at(DUE, c + 1); }

static inline state step(state s, uint8_t b)
{
    int digit = b >= 48 && b <= 57;
    switch (s.tag) {
    case START: return capital(b) == name[0] ? at(NAME, 1) : b == 32 ? s : at(FAILED, 0);
    case NAME: return capital(b) != name[s.k] ? at(FAILED, 0) : s.k == 14 ? at(NAMED, 0) : at(NAME, s.k + 1);
    case NAMED: return onward(b, 40, at(LINE, 0), at(BODY, 0));
    case BODY: return capital(b) == empty[0] ? at(EMPTY, 1) : onward(b, 40, at(LINE, 0), s);
    case EMPTY: return capital(b) != empty[s.k] ? at(FAILED, 0) : s.k == 4 ? at(END, 0) : at(EMPTY, s.k + 1);
    case LINE: return onward(b, 40, at(DUE, 0), s);
    case DUE: return digit ? at(NUMBER, s.k) : b == 43 || b == 45 ? at(SIGNED, s.k) : b == 32 ? s : at(FAILED, 0);
    case SIGNED: return digit ? at(NUMBER, s.k) : at(FAILED, 0);
    case NUMBER: return digit ? s : onward(b, mark_after(s.k), past_mark(s.k), at(AFTER, s.k));
    case AFTER: return onward(b, mark_after(s.k), past_mark(s.k), s);
    case MORE: return b == 44 ? at(LINE, 0) : onward(b, 41, at(END, 0), s);
    case END: return b == 32 ? s : at(FAILED, 0);
    default: return at(FAILED, 0);
    }
}

static inline uint64_t grown(uint64_t value, uint8_t b)
{
    uint64_t sum = 10 * value + (b - 48);
    return sum < 536870913 ? sum : 536870913;
}

__attribute__((noinline)) static reply c_read(const uint8_t *text, size_t bytes, int32_t *cells, size_t length)
{
    state s = at(START, 0);
    uint64_t value = 0, numbers = 0, fitting = 0;
    for (size_t i = 0; i < bytes; i++) {
        state next = step(s, text[i]);
        if (next.tag == FAILED) return (reply){13, 0, 0, (int64_t)i};
        if (next.tag == NUMBER) value = grown(value, text[i]);
        else {
            if (s.tag == NUMBER) {
                if (fitting == numbers && value <= 536870912) fitting++;
                numbers++;
            }
            value = 0;
        }
        s = next;
    }
    if (s.tag != END) return (reply){13, 0, 0, (int64_t)bytes};
    if (numbers / 4 > 4096) return (reply){3, 0, 0, 0};
    if (fitting < numbers) return (reply){5, 0, 0, (int64_t)(fitting / 4)};
    if (length < numbers) return (reply){7, 0, 0, 0};
    s = at(START, 0);
    int negative = 0;
    size_t k = 0;
    value = 0;
    for (size_t i = 0; i < bytes; i++) {
        state next = step(s, text[i]);
        if (next.tag == NUMBER) value = grown(value, text[i]);
        else {
            if (s.tag == NUMBER) cells[k++] = negative ? -(int32_t)value : (int32_t)value;
            value = 0;
            negative = next.tag == SIGNED && text[i] == 45;
        }
        s = next;
    }
    return (reply){0, (int64_t)(numbers / 4), 0, 0};
}

static size_t width(uint64_t n)
{
    size_t k = 1;
    while (n >= 10) n /= 10, k++;
    return k;
}

static uint8_t *number(uint8_t *out, int64_t z)
{
    uint64_t n = z < 0 ? (uint64_t)-z : (uint64_t)z;
    if (z < 0) *out++ = '-';
    uint8_t *end = out + width(n), *p = end;
    do *--p = 48 + n % 10;
    while (n /= 10);
    return end;
}

__attribute__((noinline)) static reply c_write(const int32_t *table, size_t n, uint8_t *text, size_t bytes)
{
    for (size_t i = 0; i < 4 * n; i++)
        if (table[i] < -536870912 || table[i] > 536870912) return (reply){5, 0, 0, (int64_t)(i / 4)};
    size_t need = n ? 16 : 21;
    for (size_t i = 0; i < 4 * n; i++) need += 2 + (table[i] < 0) + width(table[i] < 0 ? -(int64_t)table[i] : table[i]);
    if (bytes < need) return (reply){7, 0, 0, 0};
    uint8_t *out = text;
    memcpy(out, "MULTILINESTRING ", 16), out += 16;
    if (!n) {
        memcpy(out, "EMPTY", 5);
        return (reply){0, 21, 0, 0};
    }
    for (size_t i = 0; i < n; i++) {
        if (i) *out++ = ',', *out++ = ' ';
        else *out++ = '(';
        *out++ = '(';
        out = number(out, table[4 * i]), *out++ = ' ';
        out = number(out, table[4 * i + 1]), *out++ = ',', *out++ = ' ';
        out = number(out, table[4 * i + 2]), *out++ = ' ';
        out = number(out, table[4 * i + 3]), *out++ = ')';
    }
    *out++ = ')';
    return (reply){0, out - text, 0, 0};
}

// ---------------------------------------------------------------- the run

enum { size = 4096, rounds = 400 };
static int32_t table[4 * size], cells[4 * size], c_cells[4 * size];
static uint8_t text[64 * size + 64], c_text[64 * size + 64];

static double now(void)
{
    struct timespec t;
    clock_gettime(CLOCK_PROCESS_CPUTIME_ID, &t);
    return t.tv_sec + 1e-9 * t.tv_nsec;
}

static void same(int is, const char *what)
{
    if (!is) {
        printf("DIFFERENCE: %s\n", what);
        exit(1);
    }
}

int main(void)
{
    srand(1);
    for (size_t i = 0; i < 4 * size; i++) table[i] = (int32_t)((((int64_t)rand() << 8) ^ rand()) % (i % 3 ? 1048576 : 536870912)) * (rand() % 2 ? 1 : -1);
    reply w = kalinosz_write_wkt(table, 4 * size, 1, 0, 0, size, 4, 1, text, sizeof text), v = c_write(table, size, c_text, sizeof c_text);
    same(!memcmp(&w, &v, sizeof w) && !memcmp(text, c_text, w.count), "the texts");
    reply r = kalinosz_read_wkt(text, w.count, cells, 4 * size), q = c_read(text, w.count, c_cells, 4 * size);
    same(!memcmp(&r, &q, sizeof r) && !memcmp(cells, table, sizeof cells) && !memcmp(c_cells, table, sizeof cells), "the cells");
    double best[4] = {1e9, 1e9, 1e9, 1e9};
    for (int k = 0; k < rounds; k++) {
        double t0 = now();
        kalinosz_read_wkt(text, w.count, cells, 4 * size);
        double t1 = now();
        c_read(text, w.count, c_cells, 4 * size);
        double t2 = now();
        kalinosz_write_wkt(table, 4 * size, 1, 0, 0, size, 4, 1, text, sizeof text);
        double t3 = now();
        c_write(table, size, c_text, sizeof c_text);
        double t4 = now(), took[4] = {t1 - t0, t2 - t1, t3 - t2, t4 - t3};
        for (int j = 0; j < 4; j++)
            if (took[j] < best[j]) best[j] = took[j];
    }
    printf("read\t%.2f ns a byte\tC %.2f\tratio %.2f\n", 1e9 * best[0] / w.count, 1e9 * best[1] / w.count, best[0] / best[1]);
    printf("write\t%.2f ns a byte\tC %.2f\tratio %.2f\n", 1e9 * best[2] / w.count, 1e9 * best[3] / w.count, best[2] / best[3]);
    return 0;
}
