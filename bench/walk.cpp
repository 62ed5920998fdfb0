// The proved query against the same query in plain C++ (bench/doc01.hpp), on one index: n = 4,096, short and long segments, windows of about 0, 10, 100 and 1,000 hits.
// Before it is timed, every window's reply and every number cell is compared, and so is the outcome on words that were damaged. Times are this thread's, the least of
// some interleaved rounds, so that a ratio holds on a busy machine; a last line 'N passed, M failed' counts the comparisons.
//     make && g++ -O3 -o target/walk bench/walk.cpp target/staticlib/libhosts.a && target/walk
#include "doc01.hpp"
#include <algorithm>
#include <cmath>
#include <cstdint>
#include <cstdio>
#include <cstdlib>
#include <ctime>
#include <random>
#include <vector>

struct Reply {
    int64_t number, count, visits, position;
};

extern "C" Reply kalinosz_query(const int32_t *index, size_t words, int64_t a, int64_t b, int64_t c, int64_t d, int32_t *numbers, size_t cells);

static const int size = 4096, plate = 1 << 20, lower = 7, windows = 1000;

struct Window {
    int32_t a, b, c, d;
};

struct Rows {
    std::vector<int32_t> cells;

    Rows(int longest) : cells(4 * size) {
        std::mt19937 random(12345 + longest);
        auto below = [&](int m) { return (int)(((uint64_t)random() * m) >> 32); };
        for (int i = 0; i < size; i++) {
            int x = below(plate), y = below(plate), reach = below(longest), u = x, v = y;
            if (random() & 1) u = std::min(plate, x + reach);
            else v = std::min(plate, y + reach);
            int32_t *row = &cells[4 * i];
            row[0] = x, row[1] = y, row[2] = u, row[3] = v;
        }
    }

    int hits(const Window &w) const {
        int count = 0;
        for (int i = 0; i < size; i++) {
            const int32_t *row = &cells[4 * i];
            count += (row[0] <= w.b) & (row[2] >= w.a) & (row[1] <= w.d) & (row[3] >= w.c);
        }
        return count;
    }
};

static Window square(std::mt19937 &random, int side) {
    int x = (int)(((uint64_t)random() * (plate - side)) >> 32), y = (int)(((uint64_t)random() * (plate - side)) >> 32);
    return {x, x + side, y, y + side};
}

// the least side whose windows have so many hits
static int side_for(const Rows &rows, int target) {
    int low = 0, high = target == 0 ? 0 : plate - 1;
    while (low < high) {
        int mid = (low + high) / 2;
        std::mt19937 random(99);
        double sum = 0;
        for (int i = 0; i < 100; i++) sum += rows.hits(square(random, mid));
        if (sum / 100 >= target) high = mid;
        else low = mid + 1;
    }
    return low;
}

static std::vector<int32_t> cells(size + 16), others(size + 16);
static int64_t passed = 0, failed = 0;

static int64_t proved(const std::vector<int32_t> &words, const Window &w) {
    return kalinosz_query(words.data(), words.size(), w.a, w.b, w.c, w.d, others.data(), size).count;
}

static int64_t plain(const std::vector<int32_t> &words, const Window &w) {
    return doc01::query(words.data(), words.size(), w.a, w.b, w.c, w.d, cells.data(), size).count;
}

static void compare(const std::vector<int32_t> &words, const Window &w) {
    std::fill(cells.begin(), cells.end(), -5);
    std::fill(others.begin(), others.end(), -5);
    auto x = doc01::query(words.data(), words.size(), w.a, w.b, w.c, w.d, cells.data(), size);
    Reply y = kalinosz_query(words.data(), words.size(), w.a, w.b, w.c, w.d, others.data(), size);
    bool same = x.number == y.number && x.count == y.count && x.visits == y.visits && x.position == y.position && cells == others;
    (same ? passed : failed)++;
}

// one word in every few windows is flipped, exchanged with another or moved by one
static void damage(std::vector<int32_t> words, const std::vector<Window> &asked) {
    std::mt19937 random(7);
    auto kept = words;
    for (const Window &w : asked) {
        for (int k = 0; k < 20; k++) {
            size_t i = 4 + random() % (words.size() - 4), j = 4 + random() % (words.size() - 4);
            switch (random() % 3) {
            case 0: words[i] ^= 1 << (random() % 31); break;
            case 1: std::swap(words[i], words[j]); break;
            default: words[i] += random() % 2 ? 1 : -1;
            }
        }
        compare(words, w);
        if (random() % 8 == 0) words = kept;
    }
}

static double now() {
    timespec t;
    clock_gettime(CLOCK_THREAD_CPUTIME_ID, &t);
    return t.tv_sec + t.tv_nsec * 1e-9;
}

template <class Query> static double round(Query query, const std::vector<int32_t> &words, const std::vector<Window> &asked) {
    volatile int64_t sum = 0;
    double start = now();
    for (const Window &w : asked) sum = sum + query(words, w);
    return (now() - start) / asked.size() * 1e9;
}

int main(int count, char **arguments) {
    int rounds = count > 1 ? atoi(arguments[1]) : 31;
    double logs = 0;
    int rows_shown = 0;
    printf("segments  hits   C++ ns  proved ns  ratio\n");
    for (int longest : {plate / 64, plate}) {
        Rows rows(longest);
        std::vector<int32_t> words(doc01::words(size));
        doc01::build(rows.cells.data(), size, lower, words.data());
        for (int target : {0, 10, 100, 1000}) {
            int side = side_for(rows, target);
            std::mt19937 random(4242);
            std::vector<Window> asked;
            double hits = 0;
            for (int i = 0; i < windows; i++) {
                asked.push_back(square(random, side));
                hits += rows.hits(asked.back());
            }
            for (const Window &w : asked) compare(words, w);
            damage(words, asked);
            double x = 1e18, y = 1e18;
            for (int r = 0; r < rounds; r++) {
                x = std::min(x, round(plain, words, asked));
                y = std::min(y, round(proved, words, asked));
            }
            printf("%-8s %5.0f %8.0f %10.0f %6.2f\n", longest == plate ? "long" : "short", hits / windows, x, y, y / x);
            logs += std::log(y / x), rows_shown++;
        }
    }
    printf("geometric mean %.2f\n", std::exp(logs / rows_shown));
    printf("%lld passed, %lld failed\n", (long long)passed, (long long)failed);
    return failed != 0;
}
