// Replays the workload through the verified index and through its peers, compares every checksum, then times them in turn.
//
//     bench/run [REPEATS]     default 5; 0 only compares
#include "store.hpp"
#include <chrono>
#include <fstream>
#include <map>
#include <string>

namespace {

constexpr size_t kBatches[] = {1, 16, 256, 4096};
// A run of one step is timed over the first reports only: each is judged.
constexpr int kSingles = 20000;

// ---- checksums

void expect(uint64_t sum, uint64_t expected, const std::string &what) {
    if (sum == expected)
        return;
    std::fprintf(stderr, "bench: checksum %016llx in place of %016llx: %s\n", static_cast<unsigned long long>(sum),
                 static_cast<unsigned long long>(expected), what.c_str());
    std::exit(1);
}

template <class Index> void check_queries(const Index &index, const Workload &load, const Set &set, const std::string &name) {
    std::vector<Row> rows(kTrains);
    Fold state, near, wide;
    size_t n = index.query({0, 0, kSide - 1, kSide - 1}, rows.data());
    for (size_t i = 0; i < n; i++)
        state.row(rows[i]);
    for (const Box &w : load.near)
        near.rows(rows.data(), index.query(w, rows.data()));
    for (const Box &w : load.wide)
        wide.rows(rows.data(), index.query(w, rows.data()));
    expect(state.sum(), set.state, name + ", state");
    expect(near.sum(), set.near, name + ", near queries");
    expect(wide.sum(), set.wide, name + ", wide queries");
}

template <class Peer> void check_peer(const Workload &load, const Set &set) {
    auto peer = std::make_unique<Peer>();
    for (const Row &r : load.first)
        peer->put(r);
    for (const Row &r : load.reports)
        peer->put(r);
    check_queries(*peer, load, set, std::string(set.name) + ", " + Peer::kName);
}

// Each report's count, and after each run that holds a report all boards with their rows: for runs of one step this is the set's checksum.
template <class Count, class Read> uint64_t sum_of_runs(const std::vector<Step> &steps, size_t batch, Count count, Read read) {
    Fold fold;
    for (size_t from = 0; from < steps.size(); from += batch) {
        size_t n = std::min(batch, steps.size() - from);
        bool reported = false;
        count(from, n, [&](uint32_t c) { fold.word(c), reported = true; });
        for (uint32_t j = 0; reported && j < kBoards; j++) {
            auto [rows, many] = read(j);
            fold.rows(rows, many);
        }
    }
    return fold.sum();
}

uint64_t sum_of_peer_boards(const Workload &load, const std::vector<Step> &steps, size_t batch) {
    Boards boards(load.boards);
    for (const Row &r : load.first)
        boards.report(r);
    size_t k = 0;
    auto count = [&](size_t from, size_t n, auto note) {
        for (size_t i = from; i < from + n; i++)
            if (steps[i][0] == SHUNEBOKAI_REPORT)
                note(boards.report(load.reports[k++]));
    };
    return sum_of_runs(steps, batch, count, [&](uint32_t j) { return std::pair(boards.rows(j), boards.count(j)); });
}

void check_store(const Workload &load, const Set &set, const std::vector<Step> &steps, size_t batch) {
    Store store;
    store.begin(load, true);
    std::vector<uint32_t> answers(2 * batch);
    auto count = [&](size_t from, size_t n, auto note) {
        store.run(&steps[from], n, answers.data());
        for (size_t i = 0; i < n; i++)
            if (steps[from + i][0] == SHUNEBOKAI_REPORT)
                note(answers[2 * i + 1]);
    };
    std::string name = std::string(set.name) + ", store in batches of " + std::to_string(batch);
    uint64_t sum = sum_of_runs(steps, batch, count, [&](uint32_t j) { return store.peek(j); });
    expect(sum, sum_of_peer_boards(load, steps, batch), name + ", boards");
    for (uint32_t j = 0; j < kBoards; j++)
        if (store.board(j) != store.peek(j))
            fail("a board that is read is not where the layout has it");
    check_queries(store, load, set, name);
}

void check(const Workload &load, const Set &set, const std::vector<Step> &steps) {
    expect(load.sum(), set.input, "input");
    expect(sum_of_peer_boards(load, steps, 1), set.boards, "boards of the peers");
    check_peer<Flat>(load, set);
    check_peer<BoostTree>(load, set);
    check_peer<SqliteTree>(load, set);
    for (size_t batch : kBatches)
        check_store(load, set, steps, batch);
    std::printf("set %s: checksums of state, queries and boards reached by all\n", set.name);
}

// ---- times

// By what is timed and by whom, the nanoseconds for one of it in each repeat.
using Times = std::map<std::string, std::vector<double>>;

template <class F> double nanoseconds(F f) {
    auto from = std::chrono::steady_clock::now();
    f();
    return std::chrono::duration<double, std::nano>(std::chrono::steady_clock::now() - from).count();
}

volatile uint64_t sink;

double judge_of(const Store &store) {
    constexpr int kTimes = 500;
    return nanoseconds([&] {
               for (int i = 0; i < kTimes; i++)
                   store.judge();
           }) /
           kTimes;
}

template <class Index> void time_queries(const Index &index, const Workload &load, const std::string &name, Times &times) {
    std::vector<Row> rows(kTrains);
    size_t n = 0;
    auto ask = [&](const std::vector<Box> &windows) {
        return nanoseconds([&] {
                   for (const Box &w : windows)
                       n += index.query(w, rows.data());
               }) /
               windows.size();
    };
    times["near " + name].push_back(ask(load.near));
    times["wide " + name].push_back(ask(load.wide));
    sink = n;
}

template <class Peer> void time_peer(const Workload &load, Times &times) {
    auto peer = std::make_unique<Peer>(), watched = std::make_unique<Peer>();
    Boards boards(load.boards);
    for (const Row &r : load.first) {
        peer->put(r);
        watched->put(r);
        boards.report(r);
    }
    uint64_t n = 0;
    double plain = nanoseconds([&] {
        for (const Row &r : load.reports)
            peer->put(r);
    });
    double kept = nanoseconds([&] {
        for (const Row &r : load.reports) {
            watched->put(r);
            n += boards.report(r);
        }
    });
    sink = n;
    times[std::string("plain ") + Peer::kName].push_back(plain / kReports);
    times[std::string("kept ") + Peer::kName].push_back(kept / kReports);
    time_queries(*peer, load, Peer::kName, times);
}

void run_all(Store &store, const std::vector<Step> &steps, size_t batch) {
    std::vector<uint32_t> answers(2 * batch);
    for (size_t from = 0; from < steps.size(); from += batch)
        store.run(&steps[from], std::min(batch, steps.size() - from), answers.data());
}

std::string batches_of(size_t batch) { return "store, batches of " + std::to_string(batch); }

void time_runs(const Workload &load, size_t batch, Times &times) {
    size_t reports = batch == 1 ? kSingles : kReports;
    std::vector<Step> steps = steps_of({load.reports.begin(), load.reports.begin() + reports});
    for (bool boards : {false, true}) {
        Store store;
        store.begin(load, boards);
        double ns = nanoseconds([&] { run_all(store, steps, batch); }) / reports;
        times[(boards ? "kept " : "plain ") + batches_of(batch)].push_back(ns);
    }
}

void time_store(const Workload &load, Times &times) {
    for (size_t batch : kBatches)
        time_runs(load, batch, times);
    Store store;
    store.begin(load, true);
    run_all(store, steps_of(load.reports), kBatches[3]);
    time_queries(store, load, "store", times);
    times["judge"].push_back(judge_of(store));
}

double best(const std::vector<double> &times) { return *std::min_element(times.begin(), times.end()); }

double median(std::vector<double> times) {
    std::sort(times.begin(), times.end());
    return times[times.size() / 2];
}

void print_rows(const char *title, const std::string &what, const std::vector<std::string> &names, Times &times) {
    std::printf("\n%-34s %10s %10s %9s %9s %9s\n", title, "best ns", "median ns", "/ flat", "/ Boost", "/ SQLite");
    for (const std::string &name : names) {
        double ns = best(times[what + name]);
        std::printf("  %-32s %10.1f %10.1f", name.c_str(), ns, median(times[what + name]));
        for (const char *peer : {Flat::kName, BoostTree::kName, SqliteTree::kName})
            std::printf(" %9.2f", ns / best(times[what + peer]));
        std::printf("\n");
    }
}

void time_set(const Workload &load, const Set &set, int repeats) {
    Times times;
    for (int r = 0; r < repeats; r++) {
        time_peer<Flat>(load, times);
        time_peer<BoostTree>(load, times);
        time_peer<SqliteTree>(load, times);
        time_store(load, times);
    }
    std::vector<std::string> peers = {Flat::kName, BoostTree::kName, SqliteTree::kName}, all = peers, asked = peers;
    for (size_t batch : kBatches)
        all.push_back(batches_of(batch));
    asked.push_back("store");
    std::printf("\n==== set %s, %d trains", set.name, kTrains);
    print_rows("a report, 32 boards kept", "kept ", all, times);
    print_rows("a report, no board open", "plain ", all, times);
    print_rows("a query, side 65,535", "near ", asked, times);
    print_rows("a query, side 262,143", "wide ", asked, times);
    double judge = best(times["judge"]);
    std::printf("\nthe judge of this store: %.0f ns, %.0f %% of a near query and %.0f %% of a wide one\n", judge,
                100 * judge / best(times["near store"]), 100 * judge / best(times["wide store"]));
}

// ---- full stores

// Boards, entries and slots all used: 32 fences with 16 trains each, 64 trains elsewhere, and 448 that were withdrawn.
std::vector<Step> full_of_trains() {
    std::vector<Step> steps;
    auto corner = [](uint32_t j) { return std::pair(1000 + 120000 * (j % 8), 1000 + 240000 * (j / 8)); };
    for (uint32_t j = 0; j < kBoards; j++) {
        auto [x, y] = corner(j);
        steps.push_back({SHUNEBOKAI_OPEN, j, x, y, x + 20000, y + 20000});
    }
    for (uint32_t i = 0; i < 3 * kPages; i++) {
        auto [x, y] = corner(i % kBoards);
        x += 1200 * (i / kBoards), y += i < 16 * kBoards ? 700 * (i % 23) : 60000 + 700 * (i % 23);
        steps.push_back({SHUNEBOKAI_REPORT, (i + 1) * 2654435761u, x, y, x + 400, y + 400});
    }
    for (uint32_t i = 3 * kPages; i < kSlots; i++)
        steps.push_back({SHUNEBOKAI_WITHDRAW, (i + 1) * 2654435761u});
    return steps;
}

// Every board on the whole map: 16 trains with 36 entries each, all but one of them old, and 1,008 that were withdrawn.
std::vector<Step> full_of_old_entries() {
    std::vector<Step> steps;
    Draw draw(0x9E3779B97F4A7C15);
    for (uint32_t j = 0; j < kBoards; j++)
        steps.push_back({SHUNEBOKAI_OPEN, j, 0, 0, kSide - 1, kSide - 1});
    for (uint32_t i = 0; i < 3 * kPages; i++)
        steps.push_back(report_step({(i % 16 + 1) * 2654435761u, draw.square(400)}));
    for (uint32_t i = 16; i < kSlots; i++)
        steps.push_back({SHUNEBOKAI_WITHDRAW, (i + 1) * 2654435761u});
    return steps;
}

// One test a word.
__attribute__((noinline)) size_t first_above(const uint32_t *words, size_t n, uint32_t most) {
    for (size_t i = 0; i < n; i++)
        if (words[i] > most)
            return i;
    return n;
}

void time_full(const char *name, const std::vector<Step> &steps, int repeats) {
    Store store;
    store.run(steps);
    std::vector<double> judge, scalar;
    const std::vector<uint32_t> &words = store.words();
    size_t n = 0;
    for (int r = 0; r < repeats; r++) {
        judge.push_back(judge_of(store));
        scalar.push_back(nanoseconds([&] {
                             for (int i = 0; i < 500; i++)
                                 n += first_above(words.data(), words.size(), UINT32_MAX - (i & 1));
                         }) /
                         500);
    }
    sink = n;
    std::printf("%-24s %9.1f us (median %.1f) = %.1f x one scalar test of each of the %zu words, %.1f us\n", name, best(judge) / 1000,
                median(judge) / 1000, best(judge) / best(scalar), words.size(), best(scalar) / 1000);
}

void print_machine() {
    std::ifstream info("/proc/cpuinfo");
    for (std::string line; std::getline(info, line);)
        if (line.rfind("model name", 0) == 0) {
            std::printf("%s; compiled by g++ %s\n", line.c_str() + line.find(':') + 2, __VERSION__);
            break;
        }
}

} // namespace

int main(int argc, char **argv) {
    int repeats = argc > 1 ? std::atoi(argv[1]) : 5;
    print_machine();
    std::printf("store: P = %u, K = %u, B = %d; a clean after every %d reports, an inspect after every %d cleans\n", kPages, kSlots, kBoards,
                kReportsForClean, kCleansForInspect);
    for (const Set &set : kSets) {
        Workload load(set.yard);
        check(load, set, steps_of(load.reports));
        if (repeats > 0)
            time_set(load, set, repeats);
        std::fflush(stdout);
    }
    if (repeats > 0) {
        std::printf("\n==== the judge of a full store\n");
        time_full("full of trains", full_of_trains(), repeats);
        time_full("full of old entries", full_of_old_entries(), repeats);
    }
}
