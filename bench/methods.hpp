// The methods that are compared. Each makes its index of a plate, lists the positions that meet a window in any order, and gives the index up again.
#pragma once
#define USE_UNSTABLE_GEOS_CPP_API // its C interface takes a geometry for each segment and window, which costs it twice the time
#include "data.hpp"
#include "doc01.hpp"
#include <kalinosz.h>

#include <boost/geometry.hpp>
#include <boost/geometry/index/rtree.hpp>
#include <boost/iterator/function_output_iterator.hpp>
#include <geos/geom/Envelope.h>
#include <geos/index/strtree/TemplateSTRtree.h>
#include <malloc.h>
#include <memory>
#include <spatialindex/SpatialIndex.h>
#include <sqlite3.h>
#include <stdexcept>

struct Method {
    std::string name;
    virtual ~Method() = default;
    virtual void build(const Plate &plate) = 0;
    virtual int64_t ask(const Window &w, int32_t *out) = 0;
    virtual void drop() = 0;
    virtual size_t bytes() const { return 0; } // of the index; 0: what the heap grew by
    virtual bool slow() const { return false; } // timed in fewer rounds
    explicit Method(std::string name) : name(std::move(name)) {}
};

// ---- no index

struct Brute : Method {
    const Plate *plate = nullptr;
    Brute() : Method("brute force") {}
    void build(const Plate &p) override { plate = &p; }
    int64_t ask(const Window &w, int32_t *out) override { return plate->brute(w, out); }
    void drop() override {}
    size_t bytes() const override { return plate->n * 16; }
};

// Sixteen at a time, which the compiler turns into vector instructions; only a group with a hit is looked at one by one.
struct BruteGroups : Method {
    const Plate *plate = nullptr;
    BruteGroups() : Method("brute force by 16") {}
    void build(const Plate &p) override { plate = &p; }
    int64_t ask(const Window &w, int32_t *out) override {
        const int32_t *lx = plate->low_x.data(), *hx = plate->high_x.data(), *ly = plate->low_y.data(), *hy = plate->high_y.data();
        auto meets = [&](int32_t i) { return (lx[i] <= w.b) & (hx[i] >= w.a) & (ly[i] <= w.d) & (hy[i] >= w.c); };
        int64_t k = 0;
        int32_t n = plate->n, i = 0;
        for (; i + 16 <= n; i += 16) {
            int32_t any = 0;
            for (int32_t j = i; j < i + 16; j++) any |= meets(j);
            if (any)
                for (int32_t j = i; j < i + 16; j++) out[k] = j, k += meets(j);
        }
        for (; i < n; i++) out[k] = i, k += meets(i);
        return k;
    }
    void drop() override {}
    size_t bytes() const override { return plate->n * 16; }
};

// The plain scan: judges every cell of the table at each call, takes slanted segments too, needs no index.
struct KalinoszScan : Method {
    const Plate *plate = nullptr;
    KalinoszScan() : Method("Kalinosz scan") {}
    void build(const Plate &p) override { plate = &p; }
    int64_t ask(const Window &w, int32_t *out) override {
        return kalinosz_scan(plate->table.data(), plate->table.size(), 1, 0, 0, plate->n, 4, 1, w.a, w.b, w.c, w.d, out, plate->n).count;
    }
    void drop() override {}
    size_t bytes() const override { return plate->n * 16; }
};

// ---- document 01's index

struct Words : Method {
    std::vector<int32_t> words;
    int64_t visits = 0; // of the last window
    using Method::Method;
    void drop() override { std::vector<int32_t>().swap(words); }
    size_t bytes() const override { return words.size() * 4; }
};

struct Kalinosz : Words {
    Kalinosz() : Words("Kalinosz") {}
    void build(const Plate &p) override {
        words.resize(kalinosz_words(p.n));
        if (kalinosz_build(p.table.data(), p.table.size(), 1, 0, 0, p.n, 4, 1, words.data(), words.size()).number != 0)
            throw std::runtime_error("Kalinosz refuses the plate");
    }
    int64_t ask(const Window &w, int32_t *out) override {
        kalinosz_reply r = kalinosz_query(words.data(), words.size(), w.a, w.b, w.c, w.d, out, words[0]);
        visits = r.visits;
        return r.count;
    }
};

struct Document01 : Words {
    Document01() : Words("document 01 in C++") {}
    void build(const Plate &p) override {
        words.resize(doc01::words(p.n));
        doc01::build(p.table.data(), p.n, 0, words.data());
    }
    int64_t ask(const Window &w, int32_t *out) override {
        doc01::Reply r = doc01::query(words.data(), words.size(), w.a, w.b, w.c, w.d, out, words[0]);
        visits = r.visits;
        return r.count;
    }
};

// ---- Boost.Geometry: an R-tree packed from all values at once

namespace bg = boost::geometry;
namespace bgi = boost::geometry::index;
typedef bg::model::point<int32_t, 2, bg::cs::cartesian> BoostPoint;
typedef bg::model::box<BoostPoint> BoostBox;
typedef std::pair<BoostBox, int32_t> BoostValue;
typedef bgi::rtree<BoostValue, bgi::rstar<16>> BoostTree;

// One tree, or one for segments along x and one for the others: long thin boxes of both kinds in one packed tree overlap.
struct Boost : Method {
    std::vector<std::unique_ptr<BoostTree>> trees;
    explicit Boost(int count) : Method(count == 1 ? "Boost packed" : "Boost packed, apart"), trees(count) {}
    void build(const Plate &p) override {
        std::vector<std::vector<BoostValue>> values(trees.size());
        for (int32_t i = 0; i < p.n; i++) {
            BoostBox box(BoostPoint(p.low_x[i], p.low_y[i]), BoostPoint(p.high_x[i], p.high_y[i]));
            values[p.low_y[i] == p.high_y[i] ? 0 : values.size() - 1].emplace_back(box, i);
        }
        for (size_t t = 0; t < trees.size(); t++) trees[t] = std::make_unique<BoostTree>(values[t]);
    }
    int64_t ask(const Window &w, int32_t *out) override {
        int64_t k = 0;
        auto put = boost::make_function_output_iterator([&](const BoostValue &v) { out[k++] = v.second; });
        BoostBox box(BoostPoint(w.a, w.c), BoostPoint(w.b, w.d));
        for (auto &tree : trees) tree->query(bgi::intersects(box), put);
        return k;
    }
    void drop() override {
        for (auto &tree : trees) tree.reset();
    }
};

// ---- GEOS: a sort-tile-recursive tree

struct Geos : Method {
    typedef geos::index::strtree::TemplateSTRtree<int32_t> Tree;
    std::unique_ptr<Tree> tree;
    Geos() : Method("GEOS STRtree") {}
    void build(const Plate &p) override {
        tree = std::make_unique<Tree>(10, p.n);
        for (int32_t i = 0; i < p.n; i++) tree->insert(geos::geom::Envelope(p.low_x[i], p.high_x[i], p.low_y[i], p.high_y[i]), i);
        tree->build();
    }
    int64_t ask(const Window &w, int32_t *out) override {
        int64_t k = 0;
        tree->query(geos::geom::Envelope(w.a, w.b, w.c, w.d), [&](int32_t i) { out[k++] = i; });
        return k;
    }
    void drop() override { tree.reset(); }
};

// ---- libspatialindex: an R-tree in memory, loaded sort-tile-recursive

struct SpatialStream : SpatialIndex::IDataStream {
    const Plate &plate;
    int32_t i = 0;
    explicit SpatialStream(const Plate &p) : plate(p) {}
    SpatialIndex::IData *getNext() override {
        if (!hasNext()) return nullptr;
        double low[2] = {(double)plate.low_x[i], (double)plate.low_y[i]}, high[2] = {(double)plate.high_x[i], (double)plate.high_y[i]};
        SpatialIndex::Region box(low, high, 2);
        return new SpatialIndex::RTree::Data(0, nullptr, box, i++);
    }
    bool hasNext() override { return i < plate.n; }
    uint32_t size() override { return plate.n; }
    void rewind() override { i = 0; }
};

struct SpatialPut : SpatialIndex::IVisitor {
    int32_t *out;
    int64_t k = 0;
    explicit SpatialPut(int32_t *out) : out(out) {}
    void visitNode(const SpatialIndex::INode &) override {}
    void visitData(const SpatialIndex::IData &d) override { out[k++] = (int32_t)d.getIdentifier(); }
    void visitData(std::vector<const SpatialIndex::IData *> &) override {}
};

struct Spatial : Method {
    std::unique_ptr<SpatialIndex::IStorageManager> memory;
    std::unique_ptr<SpatialIndex::ISpatialIndex> tree;
    Spatial() : Method("libspatialindex") {}
    void build(const Plate &p) override {
        memory.reset(SpatialIndex::StorageManager::createNewMemoryStorageManager());
        SpatialStream stream(p);
        SpatialIndex::id_type id;
        tree.reset(SpatialIndex::RTree::createAndBulkLoadNewRTree(
            SpatialIndex::RTree::BLM_STR, stream, *memory, 0.7, 100, 100, 2, SpatialIndex::RTree::RV_RSTAR, id));
    }
    int64_t ask(const Window &w, int32_t *out) override {
        double low[2] = {(double)w.a, (double)w.c}, high[2] = {(double)w.b, (double)w.d};
        SpatialPut put(out);
        tree->intersectsWithQuery(SpatialIndex::Region(low, high, 2), put);
        return put.k;
    }
    void drop() override { tree.reset(), memory.reset(); }
    bool slow() const override { return true; }
};

// ---- SQLite: its rtree module, in memory, one prepared statement

struct Sqlite : Method {
    sqlite3 *db = nullptr;
    sqlite3_stmt *statement = nullptr;
    Sqlite() : Method("SQLite rtree") {}
    void must(int status) {
        if (status != SQLITE_OK) throw std::runtime_error(sqlite3_errmsg(db));
    }
    void build(const Plate &p) override {
        must(sqlite3_open(":memory:", &db));
        must(sqlite3_exec(db, "CREATE VIRTUAL TABLE marks USING rtree_i32(id, x1, x2, y1, y2); BEGIN", nullptr, nullptr, nullptr));
        sqlite3_stmt *insert = nullptr;
        must(sqlite3_prepare_v2(db, "INSERT INTO marks VALUES (?, ?, ?, ?, ?)", -1, &insert, nullptr));
        for (int32_t i = 0; i < p.n; i++) {
            bind(insert, {i, p.low_x[i], p.high_x[i], p.low_y[i], p.high_y[i]});
            sqlite3_step(insert);
            must(sqlite3_reset(insert));
        }
        must(sqlite3_finalize(insert));
        must(sqlite3_exec(db, "COMMIT", nullptr, nullptr, nullptr));
        must(sqlite3_prepare_v2(db, "SELECT id FROM marks WHERE x1 <= ? AND x2 >= ? AND y1 <= ? AND y2 >= ?", -1, &statement, nullptr));
    }
    void bind(sqlite3_stmt *into, std::initializer_list<int32_t> values) {
        int at = 1;
        for (int32_t value : values) must(sqlite3_bind_int(into, at++, value));
    }
    int64_t ask(const Window &w, int32_t *out) override {
        int64_t k = 0;
        bind(statement, {w.b, w.a, w.d, w.c});
        while (sqlite3_step(statement) == SQLITE_ROW) out[k++] = sqlite3_column_int(statement, 0);
        must(sqlite3_reset(statement));
        return k;
    }
    void drop() override {
        sqlite3_finalize(statement);
        sqlite3_close(db);
    }
    bool slow() const override { return true; }
};

// Brute force is the first: the others are held to it.
inline std::vector<std::unique_ptr<Method>> methods() {
    std::vector<std::unique_ptr<Method>> all;
    all.push_back(std::make_unique<Brute>());
    all.push_back(std::make_unique<BruteGroups>());
    all.push_back(std::make_unique<KalinoszScan>());
    all.push_back(std::make_unique<Document01>());
    all.push_back(std::make_unique<Kalinosz>());
    all.push_back(std::make_unique<Boost>(1));
    all.push_back(std::make_unique<Boost>(2));
    all.push_back(std::make_unique<Geos>());
    all.push_back(std::make_unique<Spatial>());
    all.push_back(std::make_unique<Sqlite>());
    return all;
}
