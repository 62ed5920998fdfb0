// The plates and the windows of the comparison, each from a fixed seed: the same in every run and on every machine.
#pragma once
#include <algorithm>
#include <cstdint>
#include <functional>
#include <random>
#include <string>
#include <vector>

constexpr int32_t side = 1 << 20; // of a plate: coordinates are 0 to side

struct Window {
    int32_t a, b, c, d;
};

// A plate's segments as a table of x1 y1 x2 y2, and as boxes in four columns, for the methods that want boxes.
struct Plate {
    int32_t n = 0;
    std::vector<int32_t> table, low_x, high_x, low_y, high_y;
    void add(int32_t x1, int32_t y1, int32_t x2, int32_t y2) {
        n++;
        for (int32_t cell : {x1, y1, x2, y2}) table.push_back(cell);
        low_x.push_back(std::min(x1, x2)), high_x.push_back(std::max(x1, x2));
        low_y.push_back(std::min(y1, y2)), high_y.push_back(std::max(y1, y2));
    }
    // Brute force without a branch: the positions whose box meets the window, which for segments along x or y is meeting. `out` has n + 1 cells.
    int64_t brute(const Window &w, int32_t *out) const {
        const int32_t *lx = low_x.data(), *hx = high_x.data(), *ly = low_y.data(), *hy = high_y.data();
        int64_t k = 0;
        for (int32_t i = 0; i < n; i++) {
            out[k] = i;
            k += (lx[i] <= w.b) & (hx[i] >= w.a) & (ly[i] <= w.d) & (hy[i] >= w.c);
        }
        return k;
    }
};

struct Random {
    std::mt19937 engine;
    explicit Random(uint32_t seed) : engine(seed) {}
    int32_t below(int64_t m) { return (int32_t)(((uint64_t)engine() * (uint64_t)m) >> 32); } // 0 to m-1
    int32_t between(int32_t lo, int32_t hi) { return lo + below((int64_t)hi - lo + 1); }
    bool coin() { return engine() & 1; }
};

inline int32_t onto_plate(int64_t v) { return (int32_t)std::clamp<int64_t>(v, 0, side); }

// ---- the data sets: how a plate is made, and where its windows have their centres

struct Point {
    int32_t x, y;
};

struct Set {
    std::string name, says;
    std::function<void(Plate &, Random &, int32_t n)> make;
    std::function<Point(Random &, int32_t n)> centre;
};

inline Point anywhere(Random &r, int32_t) { return {r.below(side), r.below(side)}; }

// a segment from (x, y) up to `longest` long, along x or along y, written from either end
inline void add_any(Plate &plate, Random &r, int32_t x, int32_t y, int32_t longest) {
    int32_t length = r.below(longest), x2 = x, y2 = y;
    if (r.coin()) x2 = onto_plate((int64_t)x + length);
    else y2 = onto_plate((int64_t)y + length);
    if (r.coin()) plate.add(x, y, x2, y2);
    else plate.add(x2, y2, x, y);
}

inline void scatter(Plate &plate, Random &r, int32_t n, int32_t longest) {
    for (int32_t i = 0; i < n; i++) {
        Point p = anywhere(r, n);
        add_any(plate, r, p.x, p.y, longest);
    }
}

// a point near one of 16 fixed places, more often close to it
inline Point in_a_cluster(Random &r, int32_t) {
    constexpr int32_t reach = side / 32;
    int32_t cluster = r.below(16);
    Random place(1000 + cluster);
    Point middle = anywhere(place, 0);
    return {onto_plate((int64_t)middle.x + r.below(reach) - r.below(reach)), onto_plate((int64_t)middle.y + r.below(reach) - r.below(reach))};
}

inline std::vector<Set> sets() {
    return {
        {"short", "anywhere, up to 1/64 of the plate long, half along x",
         [](Plate &p, Random &r, int32_t n) { scatter(p, r, n, side / 64); }, anywhere},
        {"long", "anywhere, up to the whole plate long, half along x",
         [](Plate &p, Random &r, int32_t n) { scatter(p, r, n, side); }, anywhere},
        {"clustered", "in 16 clusters, up to 1/128 of the plate long, half along x; windows in the clusters",
         [](Plate &p, Random &r, int32_t n) {
             for (int32_t i = 0; i < n; i++) {
                 Point at = in_a_cluster(r, n);
                 add_any(p, r, at.x, at.y, side / 128);
             }
         },
         in_a_cluster},
        {"crossing", "all along x and across the plate's middle line; windows beside the line",
         [](Plate &p, Random &r, int32_t n) {
             for (int32_t i = 0; i < n; i++) {
                 int32_t y = r.below(side);
                 p.add(r.between(0, side / 2), y, r.between(side / 2, side), y);
             }
         },
         [](Random &r, int32_t) { return Point{r.between(side / 2 + 1, side), r.below(side)}; }},
        {"combs", "two combs of equal teeth, one up from below, one in from the right, laid over each other",
         [](Plate &p, Random &, int32_t n) {
             int32_t teeth = n / 2, step = side / teeth;
             for (int32_t i = 0; i < teeth; i++) p.add(i * step, 0, i * step, side / 4 * 3);
             for (int32_t i = 0; i < n - teeth; i++) p.add(side / 4, i * step + step / 2, side, i * step + step / 2);
         },
         anywhere},
        {"row", "all along x on one row, overlapping by two on average; windows on the row",
         [](Plate &p, Random &r, int32_t n) {
             for (int32_t i = 0; i < n; i++) {
                 int32_t x = r.below(side);
                 p.add(x, side / 2, onto_plate((int64_t)x + r.below(4 * (int64_t)side / n)), side / 2);
             }
         },
         [](Random &r, int32_t) { return Point{r.below(side), side / 2}; }},
    };
}

inline Plate make_plate(const Set &set, int32_t n) {
    Plate plate;
    Random r(12345 + n);
    set.make(plate, r, n);
    return plate;
}

// ---- the windows

struct Windows {
    std::string name; // the hits aimed at, or "sliver"
    double mean_hits;
    std::vector<Window> all;
};

inline Window around(Point p, int32_t wide, int32_t high) {
    return {onto_plate((int64_t)p.x - wide / 2), onto_plate((int64_t)p.x + wide - wide / 2), onto_plate((int64_t)p.y - high / 2),
            onto_plate((int64_t)p.y + high - high / 2)};
}

inline std::vector<Window> squares(const Set &set, const Plate &plate, int32_t wide, int count) {
    Random r(4242);
    std::vector<Window> all;
    for (int i = 0; i < count; i++) all.push_back(around(set.centre(r, plate.n), wide, wide));
    return all;
}

inline double mean_hits(const Plate &plate, const std::vector<Window> &windows) {
    std::vector<int32_t> out(plate.n + 1);
    int64_t hits = 0;
    for (const Window &w : windows) hits += plate.brute(w, out.data());
    return (double)hits / windows.size();
}

// Squares that meet about `target` segments on average, their width found by halving; single spots for 0.
inline Windows aimed(const Set &set, const Plate &plate, int32_t target, int count) {
    int32_t lo = 0, hi = target == 0 ? 0 : side;
    while (lo < hi) {
        int32_t mid = lo + (hi - lo) / 2;
        if (mean_hits(plate, squares(set, plate, mid, 200)) >= target) hi = mid;
        else lo = mid + 1;
    }
    std::vector<Window> all = squares(set, plate, lo, count);
    return {std::to_string(target), mean_hits(plate, all), all};
}

// One column or one row of the plate, half a plate long, in turn.
inline Windows slivers(const Set &set, const Plate &plate, int count) {
    Random r(777);
    std::vector<Window> all;
    for (int i = 0; i < count; i++) all.push_back(i % 2 ? around(set.centre(r, plate.n), side / 2, 0) : around(set.centre(r, plate.n), 0, side / 2));
    return {"sliver", mean_hits(plate, all), all};
}
