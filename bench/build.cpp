// The proved builder against the builder in plain C++ (bench/doc01.hpp), n = 4,096, on several kinds of table: random, all on one row, all crossing, all points, sorted, reversed.
// First every word is compared on thousands of small tables, with the words after the index and the table itself; then on the large ones. Times are this thread's, the least of
// some interleaved rounds, so that a ratio holds on a busy machine; a last line 'N passed, M failed' counts the comparisons.
//     make && g++ -O3 -o target/build bench/build.cpp target/staticlib/libhosts.a && target/build
#include "doc01.hpp"
#include <algorithm>
#include <cmath>
#include <cstdint>
#include <cstdio>
#include <ctime>
#include <random>
#include <vector>

struct Reply {
    int64_t number, count, visits, position;
};

extern "C" Reply kalinosz_build(const int32_t *table, size_t length, int64_t kind, int64_t base, int64_t lower, int64_t n, int64_t segment_stride, int64_t coordinate_stride, int32_t *index, size_t words);

using Table = std::vector<int32_t>;
static std::mt19937 engine(2026);
static int64_t passed = 0, failed = 0;

static int32_t below(int64_t m) { return (int32_t)(((uint64_t)engine() * (uint64_t)m) >> 32); }

static void add(Table &table, int32_t x1, int32_t y1, int32_t x2, int32_t y2) {
    if (engine() & 1) std::swap(x1, x2), std::swap(y1, y2);
    for (int32_t cell : {x1, y1, x2, y2}) table.push_back(cell);
}

// n segments within a square of a side, each at most `longest` long; origin moves the square
static Table scattered(int n, int32_t side, int32_t longest, int32_t origin) {
    Table table;
    for (int i = 0; i < n; i++) {
        int32_t x = origin + below(side), y = origin + below(side), reach = below(longest);
        if (engine() & 1) add(table, x, y, std::min(origin + side, x + reach), y);
        else add(table, x, y, x, std::min(origin + side, y + reach));
    }
    return table;
}

// ---- the kinds of table
static const int32_t plate = 1 << 20;

static Table one_row(int n) {
    Table table;
    for (int i = 0; i < n; i++) { int32_t x = below(plate); add(table, x, 77, x + below(plate / 64), 77); }
    return table;
}

static Table crossing(int n) {
    Table table;
    for (int i = 0; i < n; i++) {
        int32_t level = below(plate);
        if (engine() & 1) add(table, -1 - below(plate), level, 1 + below(plate), level);
        else add(table, level, -1 - below(plate), level, 1 + below(plate));
    }
    return table;
}

static Table points(int n) {
    Table table;
    for (int i = 0; i < n; i++) { int32_t x = below(plate), y = below(plate); add(table, x, y, x, y); }
    return table;
}

static Table in_order(Table table, bool reversed) {
    int n = table.size() / 4;
    std::vector<std::vector<int32_t>> rows;
    for (int i = 0; i < n; i++) {
        std::vector<int32_t> row(table.begin() + 4 * i, table.begin() + 4 * i + 4);
        if (row[2] < row[0] || (row[2] == row[0] && row[3] < row[1])) row = {row[2], row[3], row[0], row[1]};
        rows.push_back(row);
    }
    std::sort(rows.begin(), rows.end());
    if (reversed) std::reverse(rows.begin(), rows.end());
    Table sorted;
    for (auto &row : rows) sorted.insert(sorted.end(), row.begin(), row.end());
    return sorted;
}

// ---- every word

static Reply proved(const Table &table, int64_t lower, Table &index) {
    return kalinosz_build(table.data(), table.size(), 1, 0, lower, table.size() / 4, 4, 1, index.data(), index.size());
}

static void compare(const Table &table, int64_t lower) {
    int64_t n = table.size() / 4, words = doc01::words(n);
    Table given = table, index(words + 7, -123456789), expected = index;
    Reply reply = proved(table, lower, index);
    doc01::build(table.data(), n, (int32_t)lower, expected.data());
    bool same = index == expected && given == table && reply.number == 0 && reply.count == words && reply.visits == 0 && reply.position == 0;
    (same ? passed : failed)++;
}

static void compare_all() {
    const int64_t limit = 536870912;
    for (int64_t lower : {-1000000, -1, 0, 1, 1000000}) compare({}, lower);
    for (int round = 0; round < 4000; round++) {
        int n = round < 2600 ? round % 131 : below(260);
        int32_t side = 1 + below(round % 3 == 0 ? 4 : round % 3 == 1 ? 40 : 100000);
        int32_t origin = round % 5 == 0 ? -(int32_t)limit : round % 5 == 1 ? (int32_t)limit - side : -side / 2;
        compare(scattered(n, side, 1 + below(side), origin), below(2000001) - 1000000);
    }
}

// ---- time

static double seconds() {
    timespec t;
    clock_gettime(CLOCK_THREAD_CPUTIME_ID, &t);
    return t.tv_sec + t.tv_nsec * 1e-9;
}

static void measure(const char *kind, const Table &table) {
    compare(table, 1);
    int64_t n = table.size() / 4;
    Table index(doc01::words(n)), other(index);
    double best = 1e9, plain = 1e9;
    for (int round = 0; round < 60; round++) {
        double t0 = seconds();
        proved(table, 1, index);
        double t1 = seconds();
        doc01::build(table.data(), n, 1, other.data());
        double t2 = seconds();
        best = std::min(best, t1 - t0);
        plain = std::min(plain, t2 - t1);
    }
    printf("%-12s C++ %8.0f us   proved %8.0f us   ratio %.2f\n", kind, plain * 1e6, best * 1e6, best / plain);
}

int main() {
    compare_all();
    const int n = 4096;
    measure("short", scattered(n, plate, plate / 256, 0));
    measure("long", scattered(n, plate, plate, 0));
    measure("one row", one_row(n));
    measure("crossing", crossing(n));
    measure("points", points(n));
    measure("sorted", in_order(scattered(n, plate, plate / 16, 0), false));
    measure("reversed", in_order(scattered(n, plate, plate / 16, 0), true));
    printf("%lld passed, %lld failed\n", (long long)passed, (long long)failed);
    return failed != 0;
}
