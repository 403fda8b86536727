// The verified index through its exported calls.
#pragma once
#include "peers.hpp"
#include "shunebokai.h"
#include <array>

constexpr uint32_t kPages = 192, kSlots = 1024;

// One clean after so many reports and one inspect after so many cleans: see docs/PERFORMANCE.md for how they were chosen.
constexpr int kReportsForClean = 3, kCleansForInspect = 64;

using Step = std::array<uint32_t, 6>;

inline Step report_step(const Row &r) {
    return {SHUNEBOKAI_REPORT, r.train, r.box.x0, r.box.y0, r.box.x1, r.box.y1};
}

// All reports as steps, with the cleans and inspects between them.
inline std::vector<Step> steps_of(const std::vector<Row> &reports) {
    std::vector<Step> steps;
    for (size_t k = 0; k < reports.size(); k++) {
        steps.push_back(report_step(reports[k]));
        if (k % kReportsForClean == kReportsForClean - 1)
            steps.push_back({SHUNEBOKAI_CLEAN});
        if (k % (kReportsForClean * kCleansForInspect) == kReportsForClean * kCleansForInspect - 1)
            steps.push_back({SHUNEBOKAI_INSPECT});
    }
    return steps;
}

class Store {
public:
    Store() : words_(SHUNEBOKAI_WORDS(kPages, kSlots, kBoards)) {
        if (shunebokai_start(kPages, kSlots, kBoards, words_.data(), words_.size()) != 0)
            fail("start is refused");
    }

    // Runs n steps; a refused one is a fault of the benchmark.
    void run(const Step *steps, size_t n, uint32_t *answers) {
        uint32_t number = shunebokai_run(words_.data(), words_.size(), steps->data(), 6 * n, answers, 2 * n);
        for (size_t i = 0; i < n && number == 0; i++)
            number = answers[2 * i];
        if (number != 0) {
            std::fprintf(stderr, "bench: refused with %u\n", number);
            std::exit(1);
        }
    }

    void run(const std::vector<Step> &steps) {
        std::vector<uint32_t> answers(2 * steps.size());
        run(steps.data(), steps.size(), answers.data());
    }

    // Everything up to the first timed report.
    void begin(const Workload &load, bool boards) {
        std::vector<Step> steps;
        for (uint32_t j = 0; boards && j < kBoards; j++) {
            const Box &b = load.boards[j];
            steps.push_back({SHUNEBOKAI_OPEN, j, b.x0, b.y0, b.x1, b.y1});
        }
        for (const Row &r : load.first)
            steps.push_back(report_step(r));
        run(steps);
    }

    size_t query(const Box &w, Row *out) const {
        size_t count;
        uint32_t *rows = reinterpret_cast<uint32_t *>(out);
        if (shunebokai_query(words_.data(), words_.size(), w.x0, w.y0, w.x1, w.y1, rows, 5 * kTrains, &count) != 0)
            fail("a query is refused");
        return count;
    }

    // Judges the store and no more: there is no such board.
    void judge() const {
        if (shunebokai_board_test(words_.data(), words_.size(), kBoards) != 9)
            fail("the store is not sound");
    }

    // A board's rows by the call, which judges.
    std::pair<const Row *, size_t> board(uint32_t j) const {
        size_t from, to;
        if (shunebokai_board_rows(words_.data(), words_.size(), j, &from, &to) != 0)
            fail("a board can't be read");
        return {reinterpret_cast<const Row *>(&words_[from]), (to - from) / 5};
    }

    // The same by the layout, which does not.
    std::pair<const Row *, size_t> peek(uint32_t j) const {
        const uint32_t *board = &words_[words_[8] + 86 * j];
        return {reinterpret_cast<const Row *>(board + 6), board[5]};
    }

    const std::vector<uint32_t> &words() const { return words_; }

private:
    std::vector<uint32_t> words_;
};
