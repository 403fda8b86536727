// Three indexes of the same contents to compare with: each has put (a train's first or next report) and query (rows by train).
#pragma once
#include "workload.hpp"
#include <boost/geometry.hpp>
#include <boost/geometry/index/rtree.hpp>
#include <boost/iterator/function_output_iterator.hpp>
#include <cstdio>
#include <cstdlib>
#include <cstring>
#include <memory>
#include <sqlite3.h>

[[noreturn]] inline void fail(const char *what) {
    std::fprintf(stderr, "bench: %s\n", what);
    std::exit(1);
}

inline void by_train(Row *from, Row *to) {
    std::sort(from, to, [](const Row &a, const Row &b) { return a.train < b.train; });
}

// What is known of each train: a hash table with room for every number, since there are fewer trains than places.
template <class V> class Known {
public:
    V &of(uint32_t train) {
        uint32_t i = (train * 0xC2B2AE35u) >> 22;
        while (trains_[i] != train && trains_[i] != 0)
            i = (i + 1) % kPlaces;
        trains_[i] = train;
        return values_[i];
    }

private:
    static constexpr uint32_t kPlaces = 1024;
    uint32_t trains_[kPlaces] = {};
    V values_[kPlaces] = {};
};

// A flat array, a column for each side, in the order of trains: a report finds its place by halving, a query looks at every box.
class Flat {
public:
    static constexpr const char *kName = "flat array";

    Flat() { std::fill(x0_, x0_ + kMost, INT32_MAX); }

    void put(const Row &r) {
        size_t at = std::lower_bound(trains_, trains_ + count_, r.train) - trains_;
        if (at == count_ || trains_[at] != r.train) {
            open(trains_, at), open(x0_, at), open(y0_, at), open(x1_, at), open(y1_, at);
            count_++;
        }
        trains_[at] = r.train;
        x0_[at] = r.box.x0, y0_[at] = r.box.y0, x1_[at] = r.box.x1, y1_[at] = r.box.y1;
    }

    size_t query(const Box &w, Row *out) const {
        bool hit[kMost];
        const int32_t x0 = w.x0, y0 = w.y0, x1 = w.x1, y1 = w.y1;
        for (size_t i = 0; i < kMost; i++)
            hit[i] = (x0_[i] <= x1) & (x0 <= x1_[i]) & (y0_[i] <= y1) & (y0 <= y1_[i]);
        size_t n = 0;
        for (size_t from = 0; from < count_; from += 8) {
            uint64_t eight;
            std::memcpy(&eight, hit + from, 8);
            for (; eight != 0; eight &= eight - 1) {
                size_t i = from + __builtin_ctzll(eight) / 8;
                out[n++] = {trains_[i], {word(x0_[i]), word(y0_[i]), word(x1_[i]), word(y1_[i])}};
            }
        }
        return n;
    }

private:
    static constexpr size_t kMost = 160;
    static_assert(kTrains < kMost && kMost % 8 == 0);

    static uint32_t word(int32_t x) { return static_cast<uint32_t>(x); }

    template <class V> void open(V *column, size_t at) { std::memmove(column + at + 1, column + at, (count_ - at) * sizeof(V)); }

    size_t count_ = 0;
    uint32_t trains_[kMost] = {};
    // signed, since those compare in fewer instructions; an unused place is past every window
    int32_t x0_[kMost], y0_[kMost] = {}, x1_[kMost] = {}, y1_[kMost] = {};
};

// Boost's rtree with pages of at most eight, split by the quadratic rule. A report removes the old box, then puts the new one.
class BoostTree {
public:
    static constexpr const char *kName = "Boost rtree";

    void put(const Row &r) {
        Last &last = last_.of(r.train);
        if (last.there && tree_.remove({geometry(last.box), r.train}) != 1)
            fail("Boost does not find a train's old box");
        tree_.insert({geometry(r.box), r.train});
        last = {true, r.box};
    }

    size_t query(const Box &w, Row *out) const {
        Row *to = out;
        auto add = [&to](const Value &v) {
            const Point &low = v.first.min_corner(), &high = v.first.max_corner();
            *to++ = {v.second, {low.get<0>(), low.get<1>(), high.get<0>(), high.get<1>()}};
        };
        tree_.query(boost::geometry::index::intersects(geometry(w)), boost::make_function_output_iterator(add));
        by_train(out, to);
        return to - out;
    }

private:
    using Point = boost::geometry::model::point<uint32_t, 2, boost::geometry::cs::cartesian>;
    using Bounds = boost::geometry::model::box<Point>;
    using Value = std::pair<Bounds, uint32_t>;
    struct Last {
        bool there;
        Box box;
    };

    static Bounds geometry(const Box &b) { return {Point(b.x0, b.y0), Point(b.x1, b.y1)}; }

    boost::geometry::index::rtree<Value, boost::geometry::index::quadratic<8>> tree_;
    Known<Last> last_;
};

// SQLite's R*Tree module in memory, in one open transaction with prepared statements.
class SqliteTree {
public:
    static constexpr const char *kName = "SQLite R*Tree";

    SqliteTree() {
        sqlite3 *db = nullptr;
        if (sqlite3_open_v2(":memory:", &db, SQLITE_OPEN_READWRITE | SQLITE_OPEN_CREATE | SQLITE_OPEN_NOMUTEX, nullptr) != SQLITE_OK)
            fail("SQLite does not open");
        db_.reset(db);
        if (sqlite3_exec(db, "pragma page_size = 512; pragma journal_mode = off; pragma synchronous = off;"
                             "create virtual table at using rtree_i32(train, x0, x1, y0, y1); begin",
                         nullptr, nullptr, nullptr) != SQLITE_OK)
            fail(sqlite3_errmsg(db));
        put_ = prepare("insert or replace into at values (?, ?, ?, ?, ?)");
        ask_ = prepare("select train, x0, y0, x1, y1 from at where x0 <= ? and x1 >= ? and y0 <= ? and y1 >= ?");
    }

    void put(const Row &r) {
        bind(put_, {r.train, r.box.x0, r.box.x1, r.box.y0, r.box.y1});
        if (sqlite3_step(put_.get()) != SQLITE_DONE)
            fail(sqlite3_errmsg(db_.get()));
        sqlite3_reset(put_.get());
    }

    size_t query(const Box &w, Row *out) const {
        bind(ask_, {w.x1, w.x0, w.y1, w.y0});
        Row *to = out;
        int said;
        while ((said = sqlite3_step(ask_.get())) == SQLITE_ROW)
            *to++ = {word(0), {word(1), word(2), word(3), word(4)}};
        if (said != SQLITE_DONE)
            fail(sqlite3_errmsg(db_.get()));
        sqlite3_reset(ask_.get());
        by_train(out, to);
        return to - out;
    }

private:
    struct Close {
        void operator()(sqlite3 *db) const { sqlite3_close_v2(db); }
        void operator()(sqlite3_stmt *statement) const { sqlite3_finalize(statement); }
    };
    using Statement = std::unique_ptr<sqlite3_stmt, Close>;

    Statement prepare(const char *text) {
        sqlite3_stmt *statement = nullptr;
        if (sqlite3_prepare_v3(db_.get(), text, -1, SQLITE_PREPARE_PERSISTENT, &statement, nullptr) != SQLITE_OK)
            fail(sqlite3_errmsg(db_.get()));
        return Statement(statement);
    }

    static void bind(const Statement &statement, std::initializer_list<uint32_t> values) {
        int i = 0;
        for (uint32_t value : values)
            sqlite3_bind_int64(statement.get(), ++i, value);
    }

    uint32_t word(int column) const { return static_cast<uint32_t>(sqlite3_column_int64(ask_.get(), column)); }

    std::unique_ptr<sqlite3, Close> db_;
    Statement put_, ask_;
};

// The boards of a peer, kept up to date by its reports: each terminal's rows by train.
class Boards {
public:
    explicit Boards(const std::vector<Box> &windows) {
        for (int j = 0; j < kBoards; j++)
            x0_[j] = windows[j].x0, y0_[j] = windows[j].y0, x1_[j] = windows[j].x1, y1_[j] = windows[j].y1, bit_[j] = 1u << j;
    }

    // How many boards list the train before or after.
    uint32_t report(const Row &r) {
        uint32_t &listed = listed_.of(r.train), before = listed, after = 0;
        const int32_t x0 = r.box.x0, y0 = r.box.y0, x1 = r.box.x1, y1 = r.box.y1;
        for (int j = 0; j < kBoards; j++)
            after |= bit_[j] & -static_cast<uint32_t>((x0_[j] <= x1) & (x0 <= x1_[j]) & (y0_[j] <= y1) & (y0 <= y1_[j]));
        listed = after;
        for (uint32_t left = before | after; left != 0; left &= left - 1)
            update(__builtin_ctz(left), r, before, after);
        return static_cast<uint32_t>(__builtin_popcount(before | after));
    }

    size_t count(int board) const { return lists_[board].count; }
    const Row *rows(int board) const { return lists_[board].rows; }

private:
    static constexpr size_t kMost = 16;
    struct List {
        size_t count = 0;
        Row rows[kMost + 1];
    };

    void update(int board, const Row &r, uint32_t before, uint32_t after) {
        List &list = lists_[board];
        size_t i = 0;
        while (i < list.count && list.rows[i].train < r.train)
            i++;
        Row *at = list.rows + i, *end = list.rows + list.count;
        bool was = before >> board & 1, is = after >> board & 1;
        if (!was) {
            std::memmove(at + 1, at, (end - at) * sizeof(Row));
            if (++list.count > kMost)
                fail("a board has more than sixteen rows");
        } else if (!is) {
            std::memmove(at, at + 1, (end - at - 1) * sizeof(Row));
            list.count--;
        }
        if (is)
            *at = r;
    }

    int32_t x0_[kBoards], y0_[kBoards], x1_[kBoards], y1_[kBoards];
    uint32_t bit_[kBoards];
    Known<uint32_t> listed_;
    List lists_[kBoards];
};
