// Compares the methods: every answer on every window is held to brute force first, then all are timed in turn in one run.
// bench/run builds and runs it; it prints tab-parted rows, of which the first field says what they are:
//   build    set n method microseconds bytes-a-segment
//   query    set n method windows mean-hits nanoseconds ratio-to-brute-force median-to-least
//   visits   set n greatest-visits bound-there greatest-visits-to-bound
//   checked  set n windows answers
// Times are CPU time of this thread, the least over the rounds. It ends with status 1 where an answer differs.
#include "methods.hpp"
#include <cstdio>
#include <cstdlib>
#include <cstring>
#include <ctime>

static const int window_count = 400, rounds = 15, slow_every = 3;
static const int32_t sizes[] = {256, 1024, 4096}, targets[] = {0, 10, 100, 1000};

static double cpu_seconds() {
    timespec t;
    clock_gettime(CLOCK_THREAD_CPUTIME_ID, &t);
    return t.tv_sec + t.tv_nsec * 1e-9;
}

static size_t heap() {
    auto m = mallinfo2();
    return m.uordblks + m.hblkhd;
}

// demand 3
static int64_t most_visits(int64_t n, int64_t k) {
    int64_t L = doc01::digits(n);
    return 4 * L * L + 15 * L + 2 + 2 * k;
}

struct Comparison {
    const Set &set;
    int32_t n;
    Plate plate;
    std::vector<std::unique_ptr<Method>> all = methods();
    std::vector<Windows> windows;
    std::vector<int32_t> expected, got;
    int64_t wrong = 0;

    Comparison(const Set &set, int32_t n) : set(set), n(n), plate(make_plate(set, n)), expected(n + 16), got(n + 16) {
        for (int32_t target : targets) {
            Windows aim = aimed(set, plate, target, window_count);
            if (target == 0 || aim.mean_hits > target / 2.0) windows.push_back(std::move(aim)); // not where a plate has too few
        }
        windows.push_back(slivers(set, plate, window_count));
    }

    // The best of some builds; the last one stays, so that all indexes are there at once.
    void build() {
        for (auto &method : all) {
            double best = 1e9, begun = cpu_seconds();
            for (int builds = 1;; builds++) {
                size_t before = heap();
                double start = cpu_seconds();
                method->build(plate);
                best = std::min(best, cpu_seconds() - start);
                if (builds < 25 && cpu_seconds() - begun < 0.3) {
                    method->drop();
                    continue;
                }
                size_t bytes = method->bytes() ? method->bytes() : heap() - before;
                printf("build\t%s\t%d\t%s\t%.1f\t%.1f\n", set.name.c_str(), n, method->name.c_str(), best * 1e6, (double)bytes / n);
                break;
            }
        }
    }

    void differs(const Method &method, const Window &w, const char *what) {
        wrong++;
        fprintf(stderr, "%s n=%d %s: %s on window %d %d %d %d\n", set.name.c_str(), n, method.name.c_str(), what, w.a, w.b, w.c, w.d);
    }

    // Every method lists what brute force lists; Kalinosz also in the order, with the visits and from the words of document 01 in C++.
    void check() {
        auto *ours = find<Kalinosz>();
        auto *document = find<Document01>();
        if (ours->words != document->words) wrong++, fprintf(stderr, "%s n=%d: other words\n", set.name.c_str(), n);
        int64_t asked = 0, answers = 0, greatest = 0, bound_there = 0;
        double fullest = 0;
        for (auto &kind : windows)
            for (auto &w : kind.all) {
                asked++;
                int64_t hits = plate.brute(w, expected.data());
                for (auto &method : all) {
                    answers++;
                    int64_t k = method->ask(w, got.data());
                    std::sort(got.begin(), got.begin() + k);
                    if (k != hits || !std::equal(got.begin(), got.begin() + k, expected.begin())) differs(*method, w, "other numbers");
                }
                int64_t k = ours->ask(w, got.data());
                if (document->ask(w, expected.data()) != k || !std::equal(got.begin(), got.begin() + k, expected.begin())) differs(*ours, w, "other order");
                if (ours->visits != document->visits) differs(*ours, w, "other visits");
                int64_t bound = most_visits(n, k);
                if (ours->visits > bound) differs(*ours, w, "more visits than the bound");
                if (ours->visits > greatest) greatest = ours->visits, bound_there = bound;
                fullest = std::max(fullest, (double)ours->visits / bound);
            }
        printf("visits\t%s\t%d\t%ld\t%ld\t%.3f\n", set.name.c_str(), n, (long)greatest, (long)bound_there, fullest);
        printf("checked\t%s\t%d\t%ld\t%ld\n", set.name.c_str(), n, (long)asked, (long)answers);
    }

    // Rounds in which every method passes over the windows in turn, so that a busy moment of the machine falls on all.
    void time() {
        std::vector<std::vector<std::vector<double>>> taken(windows.size(), std::vector<std::vector<double>>(all.size()));
        volatile int64_t sink = 0;
        for (int round = 0; round < rounds; round++)
            for (size_t kind = 0; kind < windows.size(); kind++)
                for (size_t m = 0; m < all.size(); m++) {
                    if (all[m]->slow() && round % slow_every) continue;
                    int64_t sum = 0;
                    double start = cpu_seconds();
                    for (auto &w : windows[kind].all) sum += all[m]->ask(w, got.data());
                    taken[kind][m].push_back((cpu_seconds() - start) / windows[kind].all.size() * 1e9);
                    sink = sink + sum;
                }
        for (size_t kind = 0; kind < windows.size(); kind++) {
            double brute = 0;
            for (size_t m = 0; m < all.size(); m++) {
                auto &times = taken[kind][m];
                std::sort(times.begin(), times.end());
                if (m == 0) brute = times[0];
                printf("query\t%s\t%d\t%s\t%s\t%.1f\t%.1f\t%.4f\t%.2f\n", set.name.c_str(), n, all[m]->name.c_str(), windows[kind].name.c_str(),
                       windows[kind].mean_hits, times[0], times[0] / brute, times[times.size() / 2] / times[0]);
            }
        }
    }

    void drop() {
        for (auto &method : all) method->drop();
    }

    template <class M> M *find() {
        for (auto &method : all)
            if (auto *found = dynamic_cast<M *>(method.get())) return found;
        abort();
    }
};

int main() {
    const auto every = sets();
    int64_t wrong = 0;
    for (const Set &set : every) {
        printf("set\t%s\t%s\n", set.name.c_str(), set.says.c_str());
        for (int32_t n : sizes) {
            Comparison comparison(set, n);
            comparison.build();
            comparison.check();
            comparison.time();
            comparison.drop();
            wrong += comparison.wrong;
            fflush(stdout);
        }
    }
    fprintf(stderr, "%ld answers differ\n", (long)wrong);
    return wrong != 0;
}
