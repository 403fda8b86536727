// The workload: terminals, trains that report, and windows that are asked about. docs/PERFORMANCE.md defines it in words.
#pragma once
#include <algorithm>
#include <cstdint>
#include <vector>

constexpr uint32_t kSide = 1048576;
constexpr int kBoards = 32, kTrains = 150, kReports = 200000, kQueries = 50000;

struct Box {
    uint32_t x0, y0, x1, y1;
};

struct Row {
    uint32_t train;
    Box box;
};

// Pseudo-random numbers, the same everywhere.
class Draw {
public:
    explicit Draw(uint64_t seed) : state_(seed) {}

    uint32_t below(uint32_t n) {
        state_ ^= state_ << 13;
        state_ ^= state_ >> 7;
        state_ ^= state_ << 17;
        return static_cast<uint32_t>(((state_ >> 32) * n) >> 32);
    }

    Box square(uint32_t side) {
        uint32_t x = below(kSide - side), y = below(kSide - side);
        return {x, y, x + side, y + side};
    }

private:
    uint64_t state_;
};

// A checksum over words.
class Fold {
public:
    void word(uint32_t w) { sum_ = (sum_ ^ w) * 0x100000001b3ull; }

    void row(const Row &r) {
        for (uint32_t w : {r.train, r.box.x0, r.box.y0, r.box.x1, r.box.y1})
            word(w);
    }

    void rows(const Row *r, size_t n) {
        word(static_cast<uint32_t>(n));
        for (size_t i = 0; i < n; i++)
            row(r[i]);
    }

    uint64_t sum() const { return sum_; }

private:
    uint64_t sum_ = 0xcbf29ce484222325ull;
};

// A set of inputs with the checksums that every index must reach: of the input, the final state, the two kinds of query, and
// the boards after every report.
struct Set {
    const char *name;
    bool yard;
    uint64_t input, state, near, wide, boards;
};

constexpr Set kSets[] = {
    {"grid", false, 0x03b88890b8616919, 0xbbda86bbb46a375a, 0x677a11da48ef737f, 0x2ba5d282683a58d3, 0xdc724d2a78480a74},
    {"yard", true, 0x8a8ce4251869f52b, 0x93b237d9b82d2efa, 0x653eda64f09ab609, 0x5c0533650b9926c9, 0xdd15cdabd6a233ef},
};

struct Workload {
    std::vector<Box> boards, near, wide;
    std::vector<Row> first, reports;

    explicit Workload(bool yard) {
        Draw terminals(0x9E3779B97F4A7C15), trains(0xD1B54A32D192ED03), asked(0x8CB92BA72F3D8DD7);
        for (int i = 0; i < kBoards; i++)
            boards.push_back(terminals.square(20000));
        std::vector<Box> limits(kTrains);
        for (int i = 0; i < kTrains; i++)
            first.push_back(start(i, yard, trains, limits[i]));
        std::vector<Row> now = first;
        for (int k = 0; k < kReports; k++) {
            int i = k % kTrains;
            move(now[i].box, limits[i], trains);
            reports.push_back(now[i]);
        }
        for (int k = 0; k < kQueries; k++) {
            near.push_back(asked.square(65535));
            wide.push_back(asked.square(262143));
        }
    }

    uint64_t sum() const {
        Fold fold;
        for (const Row &r : first)
            fold.row(r);
        for (const Row &r : reports)
            fold.row(r);
        return fold.sum();
    }

private:
    // Train i where it starts; its lower corner stays within the limits.
    Row start(int i, bool yard, Draw &draw, Box &limits) const {
        uint32_t w = draw.below(401), h = draw.below(401), last = kSide - 1;
        limits = {0, 0, last, last};
        if (yard) {
            const Box &b = boards[i % kBoards];
            limits = {b.x0 - std::min(b.x0, 20000u), b.y0 - std::min(b.y0, 20000u), std::min(b.x1 + 20000, last),
                      std::min(b.y1 + 20000, last)};
        }
        limits.x1 -= w;
        limits.y1 -= h;
        uint32_t x = limits.x0 + draw.below(limits.x1 - limits.x0 + 1);
        uint32_t y = limits.y0 + draw.below(limits.y1 - limits.y0 + 1);
        return {static_cast<uint32_t>(i + 1) * 2654435761u, {x, y, x + w, y + h}};
    }

    // By up to 2 km along one axis.
    static void move(Box &b, const Box &limits, Draw &draw) {
        bool along_y = draw.below(2) != 0;
        int32_t by = static_cast<int32_t>(draw.below(4001)) - 2000;
        uint32_t &lower = along_y ? b.y0 : b.x0, &upper = along_y ? b.y1 : b.x1;
        int32_t least = along_y ? limits.y0 : limits.x0, most = along_y ? limits.y1 : limits.x1;
        uint32_t size = upper - lower;
        lower = std::clamp(static_cast<int32_t>(lower) + by, least, most);
        upper = lower + size;
    }
};
