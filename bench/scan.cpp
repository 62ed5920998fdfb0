// The whole scan, refusals included, against a branch-free C++ loop that only tests boxes and always stores: a floor, and no answer for slanted segments.
// 16 tables of 4,096 segments, so that no branch predictor learns a table; contiguous and with a negative stride; every listing is checked.
//     make && g++ -O3 -o target/scan bench/scan.cpp target/staticlib/libhosts.a && target/scan
#include <algorithm>
#include <cstdint>
#include <cstdio>
#include <cstring>
#include <ctime>
#include <random>
#include <vector>

struct Reply {
    int64_t number, count, visits, position;
};

extern "C" Reply kalinosz_scan(const int32_t *table, size_t length, int64_t kind, int64_t base, int64_t lower, int64_t n, int64_t segment_stride,
                               int64_t coordinate_stride, int64_t a, int64_t b, int64_t c, int64_t d, int32_t *numbers, size_t cells);

static const int size = 4096, tables = 16, plate = 1 << 20, lower = 7;

struct Window {
    int32_t a, b, c, d;
};

struct Table {
    std::vector<int32_t> cells;
    int64_t base, stride;
};

// the floor: no test of anything but the boxes, a store for each segment
__attribute__((noinline)) static size_t boxes(const Table &t, const Window &w, int32_t *numbers)
{
    const int32_t *s = t.cells.data() + t.base;
    size_t k = 0;
    for (int i = 0; i < size; i++, s += t.stride) {
        numbers[k] = lower + i;
        k += ((w.a <= s[0]) | (w.a <= s[2])) & ((s[0] <= w.b) | (s[2] <= w.b)) & ((w.c <= s[1]) | (w.c <= s[3])) & ((s[1] <= w.d) | (s[3] <= w.d));
    }
    return k;
}

// the answer by another way, for the check: boxes, then the corners
static bool meets(const int32_t *s, const Window &w)
{
    if (std::max(s[0], s[2]) < w.a || std::min(s[0], s[2]) > w.b || std::max(s[1], s[3]) < w.c || std::min(s[1], s[3]) > w.d) return false;
    int64_t dx = s[2] - s[0], dy = s[3] - s[1], least = INT64_MAX, most = INT64_MIN;
    for (int64_t x : {w.a, w.b})
        for (int64_t y : {w.c, w.d}) {
            int64_t side = dx * (y - s[1]) - dy * (x - s[0]);
            least = std::min(least, side), most = std::max(most, side);
        }
    return least <= 0 && 0 <= most;
}

static double now()
{
    timespec t;
    clock_gettime(CLOCK_THREAD_CPUTIME_ID, &t);
    return t.tv_sec + t.tv_nsec * 1e-9;
}

static Reply scan(const Table &t, const Window &w, int32_t *numbers)
{
    return kalinosz_scan(t.cells.data(), t.cells.size(), 1, t.base, lower, size, t.stride, 1, w.a, w.b, w.c, w.d, numbers, size);
}

static std::vector<Table> make(int longest, bool slanted, int64_t stride)
{
    std::mt19937 random(longest + slanted);
    auto upto = [&](int m) { return (int)(((uint64_t)random() * m) >> 32); };
    std::vector<Table> result;
    for (int k = 0; k < tables; k++) {
        Table t{std::vector<int32_t>(4 * size), stride < 0 ? 4 * (size - 1) : 0, stride};
        for (int i = 0; i < size; i++) {
            int32_t *s = &t.cells[4 * i];
            int away = upto(longest), rise = slanted ? upto(2 * longest) - longest : 0;
            s[0] = s[2] = upto(plate), s[1] = s[3] = upto(plate);
            if (slanted) s[2] = std::min(plate, s[0] + away), s[3] = std::max(0, std::min(plate, s[1] + rise));
            else s[2 + (random() & 1)] += away;
            if (random() & 1) std::swap(s[0], s[2]), std::swap(s[1], s[3]);
        }
        result.push_back(t);
    }
    return result;
}

int main()
{
    struct { const char *name; int longest; bool slanted; } sets[] = {{"short", plate / 64, false}, {"long", plate, false}, {"slanted", plate / 8, true}};
    std::vector<int32_t> numbers(size), floor_numbers(size + 1);
    long wrong = 0;
    double worst = 0;
    printf("%-8s %7s %9s %10s %10s %6s\n", "set", "stride", "hits", "floor us", "scan us", "ratio");
    for (auto &set : sets)
        for (int64_t stride : {4, -4}) {
            auto all = make(set.longest, set.slanted, stride);
            for (int side : {1, plate / 64, plate / 16, plate / 8}) {
                std::mt19937 random(side);
                std::vector<Window> windows;
                for (int k = 0; k < 40; k++) {
                    int x = random() % (plate - side), y = random() % (plate - side);
                    windows.push_back({x, x + side, y, y + side});
                }
                double hits = 0;
                for (auto &w : windows)
                    for (auto &t : all) {
                        std::fill(numbers.begin(), numbers.end(), -1);
                        Reply r = scan(t, w, numbers.data());
                        size_t k = 0;
                        bool right = r.number == 0 && r.visits == 0 && r.position == 0;
                        for (int i = 0; i < size; i++)
                            if (meets(&t.cells[t.base + i * t.stride], w)) right = right && numbers[k] == lower + i, k++;
                        right = right && r.count == (int64_t)k && (k == size || numbers[k] == -1);
                        wrong += !right;
                        hits += r.count;
                    }
                double best[2] = {1e9, 1e9};
                volatile size_t sink = 0;
                for (int round = 0; round < 11; round++)
                    for (int which = 0; which < 2; which++) {
                        size_t total = 0;
                        double start = now();
                        for (auto &w : windows)
                            for (auto &t : all) total += which ? scan(t, w, numbers.data()).count : boxes(t, w, floor_numbers.data());
                        best[which] = std::min(best[which], (now() - start) * 1e6 / windows.size());
                        sink = sink + total;
                    }
                double ratio = best[1] / best[0];
                worst = std::max(worst, ratio);
                printf("%-8s %7d %9.0f %10.1f %10.1f %6.2f\n", set.name, (int)stride, hits / windows.size(), best[0], best[1], ratio);
            }
        }
    printf("worst ratio %.2f, %ld wrong listings\n", worst, wrong);
    return wrong != 0;
}
