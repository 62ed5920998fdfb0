// Document 01 in plain C++: the words of the index, its builder and the walk, with every test for a spoiled word.
// Written from the document, apart from the proved crates; it is what their speed is measured against.
#pragma once
#include <algorithm>
#include <cstdint>
#include <numeric>
#include <utility>
#include <vector>

namespace doc01 {

constexpr int64_t most_segments = 4096, most_lower = 1000000, most_coordinate = 536870912;

inline int64_t digits(int64_t n) {
    int64_t count = 0;
    for (; n > 0; n >>= 1) count++;
    return count;
}
inline int64_t depth(int64_t n) { return n >= 1 ? digits(n - 1) + 1 : 0; }
inline int64_t words(int64_t n) { return n >= 1 ? 4 + 12 * n + 2 * n * depth(n) : 4; }

// ---- the builder; axis 0 is for horizontals, 1 for verticals

struct Builder {
    int32_t *w;
    const int32_t *record(int32_t p) const { return w + 4 + 4 * (int64_t)p; }
    int32_t near_of(int axis, int32_t p) const { return record(p)[axis]; }
    int32_t far_of(int axis, int32_t p) const { return record(p)[2 + axis]; }
    int32_t level_of(int axis, int32_t p) const { return record(p)[1 - axis]; }

    // run: s positions by (level, position); it is used up
    void queue(int axis, bool high, int32_t *q, int32_t *run, int64_t s) {
        while (s > 0) {
            int64_t best = 0;
            for (int64_t i = 1; i < s; i++) { // of equals the first, which is the first by (level, position)
                bool better = high ? far_of(axis, run[i]) > far_of(axis, run[best]) : near_of(axis, run[i]) < near_of(axis, run[best]);
                if (better) best = i;
            }
            int32_t taken = run[best];
            for (int64_t i = best; i + 1 < s; i++) run[i] = run[i + 1];
            int64_t left = s / 2, right = s - 1 - left; // the half of s - 1, rounded up, is s / 2
            q[0] = taken;
            q[1] = s == 1 ? 0 : level_of(axis, run[left - 1]);
            queue(axis, high, q + 2, run, left);
            q += 2 + 2 * left, run += left, s = right;
        }
    }

    // run: positions rise
    void block(int axis, int32_t *b, std::vector<int32_t> run) {
        int64_t m = run.size();
        if (m == 0) return;
        std::vector<int32_t> nears(m);
        for (int64_t i = 0; i < m; i++) nears[i] = near_of(axis, run[i]);
        std::nth_element(nears.begin(), nears.begin() + m / 2, nears.end());
        int32_t centre = nears[m / 2];
        std::vector<int32_t> stay, left, right;
        for (int32_t p : run) {
            if (far_of(axis, p) < centre) left.push_back(p);
            else if (near_of(axis, p) > centre) right.push_back(p);
            else stay.push_back(p);
        }
        int64_t s = stay.size(), ml = left.size();
        b[0] = centre, b[1] = s, b[2] = ml, b[3] = right.size();
        std::stable_sort(stay.begin(), stay.end(), [&](int32_t p, int32_t q) { return level_of(axis, p) < level_of(axis, q); });
        std::vector<int32_t> copy = stay;
        queue(axis, false, b + 4, copy.data(), s);
        queue(axis, true, b + 4 + 2 * s, stay.data(), s);
        std::fill(b + 4 + 4 * s, b + 8 * s, 0);
        run.clear(), run.shrink_to_fit();
        block(axis, b + 8 * s, std::move(left));
        block(axis, b + 8 * s + 8 * ml, std::move(right));
    }
};

// segments: n times x1 y1 x2 y2, each horizontal or vertical; w has words(n) words
inline void build(const int32_t *segments, int64_t n, int32_t lower, int32_t *w) {
    Builder builder{w};
    std::vector<int32_t> horizontals, verticals;
    for (int64_t i = 0; i < n; i++) {
        const int32_t *s = segments + 4 * i;
        bool swap = s[2] < s[0] || (s[2] == s[0] && s[3] < s[1]);
        int32_t *r = w + 4 + 4 * i;
        r[0] = s[swap ? 2 : 0], r[1] = s[swap ? 3 : 1], r[2] = s[swap ? 0 : 2], r[3] = s[swap ? 1 : 3];
        (r[1] == r[3] ? horizontals : verticals).push_back(i);
    }
    w[0] = n, w[1] = lower, w[2] = horizontals.size(), w[3] = verticals.size();
    if (n == 0) return;

    std::vector<int32_t> by_x(n), place(n);
    std::iota(by_x.begin(), by_x.end(), 0);
    std::sort(by_x.begin(), by_x.end(), [&](int32_t p, int32_t q) {
        const int32_t *r = builder.record(p), *s = builder.record(q);
        return r[0] != s[0] ? r[0] < s[0] : r[1] != s[1] ? r[1] < s[1] : p < q;
    });
    for (int64_t i = 0; i < n; i++) place[by_x[i]] = i;

    int32_t *levels = w + 4 + 4 * n;
    std::iota(levels, levels + n, 0);
    std::stable_sort(levels, levels + n, [&](int32_t p, int32_t q) { return builder.record(p)[1] < builder.record(q)[1]; });
    int64_t D = depth(n);
    std::vector<int64_t> starts{0, n}, next;
    for (int64_t level = 0; level < D; level++) {
        int32_t *positions = levels + level * 2 * n, *counts = positions + n, *below = positions + 2 * n;
        next.clear();
        for (size_t k = 0; k + 1 < starts.size(); k++) {
            int64_t start = starts[k], end = starts[k + 1], size = end - start;
            next.push_back(start);
            if (size == 1) {
                counts[start] = 0;
                if (level + 1 < D) below[start] = positions[start];
                continue;
            }
            int64_t middle = start + (size + 1) / 2, left = start, right = middle;
            for (int64_t i = start; i < end; i++) {
                counts[i] = left - start;
                if (place[positions[i]] < middle) below[left++] = positions[i];
                else below[right++] = positions[i];
            }
            next.push_back(middle);
        }
        next.push_back(n);
        starts.swap(next);
    }

    int32_t *blocks = levels + D * 2 * n;
    int64_t across = horizontals.size();
    builder.block(0, blocks, std::move(horizontals));
    builder.block(1, blocks + 8 * across, std::move(verticals));
}

// ---- the walk

struct Reply {
    int64_t number, count, visits, position;
};

// Each step answers whether the walk goes on: false after a spoiled word.
struct Walk {
    const int32_t *w;
    int64_t n, lower, D, a, b, c, d;
    // where numbers are listed, and for how many there is room; the walk counts on past it
    int32_t *numbers;
    int64_t room;
    const int32_t *levels, *last;
    int64_t count = 0, visits = 0;

    const int32_t *record(int32_t p) const { return w + 4 + 4 * (int64_t)p; }
    bool good(int32_t p) const { return (uint32_t)p < (uint64_t)n; }
    bool list(int32_t p) {
        if (count >= n) return false;
        if (count < room) numbers[count] = (int32_t)(lower + p);
        count++;
        return true;
    }

    // the first slot of level 0 with y >= c
    bool search(int64_t &slot) {
        int64_t lo = 0, hi = n;
        while (lo < hi) {
            int64_t mid = (lo + hi) / 2;
            visits++;
            int32_t p = levels[mid];
            if (!good(p)) return false;
            if (record(p)[1] >= c) hi = mid;
            else lo = mid + 1;
        }
        slot = lo;
        return true;
    }

    bool node(int64_t level, int64_t at, int64_t size, int64_t p) {
        visits++;
        int32_t first = last[at], final = last[at + size - 1];
        if (!good(first) || !good(final)) return false;
        int64_t low = record(first)[0], high = record(final)[0];
        if (high < a || low > b) return true;
        const int32_t *positions = levels + level * 2 * n + at;
        if (low >= a && high <= b) {
            for (; p < size; p++) {
                visits++;
                int32_t q = positions[p];
                if (!good(q)) return false;
                if (record(q)[1] > d) return true;
                if (!list(q)) return false;
            }
            return true;
        }
        int64_t left = (size + 1) / 2, right = size - left, to_left = left;
        if (p < size) {
            to_left = positions[n + p];
            if (to_left < 0 || to_left > p || to_left > left || p - to_left > right) return false;
        }
        return node(level + 1, at, left, to_left) && node(level + 1, at + left, right, p - to_left);
    }

    template <int axis, bool high> bool queue(const int32_t *q, int64_t s, int64_t edge, int64_t band_low, int64_t band_high) {
        for (;;) {
            visits++;
            int32_t p = q[0];
            int64_t split = q[1];
            if (!good(p)) return false;
            const int32_t *r = record(p);
            if (high ? !(r[2 + axis] >= edge) : !(r[axis] < edge)) return true;
            int64_t level = r[1 - axis];
            if (band_low <= level && level <= band_high && !list(p)) return false;
            int64_t left = s / 2, right = s - 1 - left;
            bool to_left = left > 0 && band_low <= split, to_right = right > 0 && band_high >= split;
            if (to_left && to_right && !queue<axis, high>(q + 2, left, edge, band_low, band_high)) return false;
            if (to_right) q += 2 + 2 * left, s = right;
            else if (to_left) q += 2, s = left;
            else return true;
        }
    }

    template <int axis> bool block(const int32_t *b, int64_t m, int64_t edge, int64_t band_low, int64_t band_high) {
        while (m > 0) {
            visits++;
            int64_t centre = b[0], s = b[1], ml = b[2], mr = b[3];
            if (s < 1 || ml < 0 || mr < 0 || s + ml + mr != m) return false;
            if (edge <= centre) {
                if (!queue<axis, false>(b + 4, s, edge, band_low, band_high)) return false;
                b += 8 * s, m = ml;
            } else {
                if (!queue<axis, true>(b + 4 + 2 * s, s, edge, band_low, band_high)) return false;
                b += 8 * s + 8 * ml, m = mr;
            }
        }
        return true;
    }
};

inline Reply query(
    const int32_t *w, int64_t length, int64_t a, int64_t b, int64_t c, int64_t d, int32_t *numbers, int64_t cells) {
    if (length < 4) return {9, 0, 0, 0};
    int64_t n = w[0], lower = w[1], across = w[2], along = w[3];
    if (n < 0 || n > most_segments || lower < -most_lower || lower > most_lower) return {9, 0, 0, 0};
    if (across < 0 || along < 0 || across + along != n || length < words(n)) return {9, 0, 0, 0};
    if (a > b || c > d || a < -most_coordinate || b > most_coordinate || c < -most_coordinate || d > most_coordinate) return {8, 0, 0, 0};
    if (n == 0) return {0, 0, 0, 0};
    int64_t D = depth(n);
    const int32_t *levels = w + 4 + 4 * n, *blocks = levels + D * 2 * n;
    auto walk_into = [&](int32_t *room, int64_t length) { return Walk{w, n, lower, D, a, b, c, d, room, length, levels, levels + (D - 1) * 2 * n}; };
    auto all = [&](Walk &walk) {
        int64_t slot = 0;
        return walk.search(slot) && walk.node(0, 0, n, slot) && walk.block<0>(blocks, across, a, c, d) && walk.block<1>(blocks + 8 * across, along, c, a, b);
    };
    // no refusal changes a cell (request E2): the numbers are listed apart first, and where that has no room for all, a second time
    int32_t own[2048];
    Walk walk = walk_into(own, 2048);
    if (!all(walk)) return {10, 0, 0, 0};
    if (cells < walk.count) return {7, walk.count, 0, 0};
    if (walk.count <= 2048) {
        std::copy(own, own + walk.count, numbers);
    } else {
        Walk again = walk_into(numbers, cells);
        all(again);
    }
    return {0, walk.count, walk.visits, 0};
}

} // namespace doc01
