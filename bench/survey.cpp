// The program of document 01 in plain C++, of the same design as the proved one: input in chunks of 64 KiB, lines judged where they stand, what is printed written
// before the next read. Index and walk are bench/doc01.hpp. It is what `survey` is measured against, on 256 segments and 100,000 windows:
//     g++ -O3 -o target/survey_peer bench/survey.cpp && target/survey_peer --input > target/windows.in
//     for p in bin/survey survey_peer; do target/$p < target/windows.in > target/$p.out; done; cmp target/bin/survey.out target/survey_peer.out
//     for i in 1 2 3 4 5; do for p in bin/survey survey_peer; do bash -c "time target/$p < target/windows.in > /dev/null"; done; done
#include "doc01.hpp"
#include <cstdio>
#include <cstring>
#include <random>
#include <unistd.h>

static int32_t table[1024], words[7684], numbers[256];
static char out[65536];
static size_t waiting;
static int phase, kind, lower;
static int64_t count, line = 1;

static void flush() {
    for (size_t done = 0; done < waiting;) {
        ssize_t n = write(1, out + done, waiting - done);
        if (n <= 0) _exit(0);
        done += n;
    }
    waiting = 0;
}
static void put(int64_t z) {
    char digits[20];
    int n = 0;
    out[waiting++] = '\t';
    uint64_t v = z < 0 ? -(uint64_t)z : z;
    if (z < 0) out[waiting++] = '-';
    do digits[n++] = '0' + v % 10; while (v /= 10);
    while (n > 0) out[waiting++] = digits[--n];
}
static bool fault(int number) {
    out[waiting++] = 'R';
    put(number);
    put(line);
    out[waiting++] = '\n';
    return false;
}
static bool number_in(const char *p, const char *end, int64_t &z) {
    bool minus = p < end && *p == '-';
    p += minus;
    if (p == end || end - p > 10 || (*p == '0' && end - p > 1)) return false;
    for (z = 0; p < end; p++) {
        if (*p < '0' || *p > '9') return false;
        z = 10 * z + (*p - '0');
    }
    if (minus && z == 0) return false;
    if (minus) z = -z;
    return true;
}
static bool near(int64_t z) { return -doc01::most_coordinate <= z && z <= doc01::most_coordinate; }

// A line; whether to go on.
static bool judge(const char *p, const char *end) {
    if (end - p > 80 || end - p < 2 || p[1] != '\t') return fault(0);
    char letter = *p;
    int wanted = letter == 'T' ? 2 : letter == 'S' || letter == 'W' ? 4 : 0, n = 0;
    int64_t z[4];
    for (p += 2; wanted; n++) {
        const char *e = (const char *)memchr(p, '\t', end - p);
        if (!e) e = end;
        if (n == wanted || !number_in(p, e, z[n])) return fault(0);
        if (e == end) { n++; break; }
        p = e + 1;
    }
    if (!wanted || n != wanted) return fault(0);
    if (letter == 'T') {
        if (phase != 0) return fault(0);
        if (z[0] < 1 || z[0] > 3) return fault(1);
        if (z[1] < -1000000 || z[1] > 1000000 || (z[0] == 3 && z[1] != 0)) return fault(2);
        phase = 1, kind = z[0], lower = z[1];
        return true;
    }
    if (letter == 'S') {
        if (phase != 1) return fault(0);
        if (count == 256) return fault(3);
        if (!near(z[0]) || !near(z[1]) || !near(z[2]) || !near(z[3])) return fault(5);
        if (z[0] != z[2] && z[1] != z[3]) return fault(6);
        for (int j = 0; j < 4; j++) table[4 * count + j] = z[j];
        count++;
        return true;
    }
    if (phase == 0) return fault(0);
    if (z[0] > z[1] || z[2] > z[3] || !near(z[0]) || !near(z[1]) || !near(z[2]) || !near(z[3])) return fault(8);
    if (phase == 1) doc01::build(table, count, lower, words);
    phase = 2;
    doc01::Reply r = doc01::query(words, doc01::words(count), z[0], z[1], z[2], z[3], numbers, count);
    out[waiting++] = 'A';
    put(r.count);
    put(r.visits);
    for (int64_t i = 0; i < r.count; i++) put(numbers[i]);
    out[waiting++] = '\n';
    return true;
}
static int input() {
    std::mt19937 random(7);
    auto below = [&](int n) { return (int)(random() % n); };
    printf("T\t2\t1\n");
    for (int i = 0; i < 256; i++) {
        int x = below(1000000), y = below(1000000), length = below(100000);
        if (i % 2) printf("S\t%d\t%d\t%d\t%d\n", x, y, x + length, y);
        else printf("S\t%d\t%d\t%d\t%d\n", x, y, x, y + length);
    }
    for (int i = 0; i < 100000; i++) {
        int a = below(1000000), c = below(1000000), side = below(200000);
        printf("W\t%d\t%d\t%d\t%d\n", a, a + side, c, c + side);
    }
    return 0;
}
int main(int argc, char **argv) {
    if (argc > 1 && !strcmp(argv[1], "--input")) return input();
    static char chunk[65536], carry[80];
    size_t carried = 0;
    bool on = true;
    while (on) {
        ssize_t got = read(0, chunk, sizeof chunk);
        if (got < 0) return 0;
        if (got == 0) {
            if (carried) judge(carry, carry + carried);
            break;
        }
        for (char *p = chunk, *end = chunk + got; on && p < end;) {
            if (sizeof out - waiting < 5420) flush();
            char *e = (char *)memchr(p, '\n', end - p);
            if (e && !carried) {
                on = judge(p, e), p = e + 1, line++;
                continue;
            }
            size_t n = (e ? e : end) - p;
            if (carried + n > 80) {
                on = fault(0);
                break;
            }
            memcpy(carry + carried, p, n), carried += n, p += n;
            if (e) on = judge(carry, carry + carried), carried = 0, p++, line++;
        }
        flush();
    }
    flush();
}
