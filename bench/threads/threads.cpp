// Encodes, decodes, sums and filters a column on several threads, each of which works windows of its own. Prints for
// each operation and number of threads the least time of some turns; the status is 1 where an answer differs from that
// of a loop over the rows.
//
//     threads ROWS TURNS THREADS..
#include "hivevigil.hpp"
#include <chrono>
#include <cstdlib>
#include <functional>
#include <iostream>
#include <thread>

using hv::Column;
using hv::SplitBy;

static constexpr int64_t threshold = 40;

static int64_t row_of(size_t row) { return static_cast<int64_t>(row / 29 * 37 % 101); }

// What a loop over the rows says: the sum, and the sum and number of the rows from the threshold on.
struct Due {
    int64_t sum = 0, kept = 0, count = 0;
};

static Due due_of(const std::vector<int64_t> &rows) {
    Due due;
    for (const int64_t row : rows) {
        due.sum += row;
        if (row >= threshold) due.kept += row, due.count++;
    }
    return due;
}

static int64_t sum_of(const Column &column) { return std::get<int64_t>(column.sum().total); }

// What a call makes of each part, each part on a thread of its own; and how long that takes, in seconds.
static double worked(const std::vector<Column> &parts, std::vector<Column> &made,
                     const std::function<Column(const Column &)> &call) {
    made.clear();
    made.resize(parts.size());
    std::vector<std::thread> threads;
    const auto begin = std::chrono::steady_clock::now();
    for (size_t part = 0; part < parts.size(); part++)
        threads.emplace_back([&, part] { made[part] = call(parts[part]); });
    for (std::thread &thread : threads) thread.join();
    return std::chrono::duration<double>(std::chrono::steady_clock::now() - begin).count();
}

static bool same = true;

static void report(const char *name, size_t threads, double seconds, bool holds) {
    same = same && holds;
    std::cout << "C++," << name << "," << threads << "," << static_cast<long>(seconds * 1e6) << "\n";
    if (!holds) std::cerr << name << " on " << threads << " threads: another answer than that of a loop\n";
}

struct Operation {
    const char *name;
    const Column *column;
    SplitBy by;
    std::function<Column(const Column &)> call;
    std::function<bool(const std::vector<Column> &)> holds;
};

static void time_of(const Operation &operation, size_t threads, size_t turns) {
    const std::vector<Column> parts = operation.column->split(threads, operation.by);
    std::vector<Column> made;
    double least = worked(parts, made, operation.call);
    for (size_t turn = 1; turn < turns; turn++) least = std::min(least, worked(parts, made, operation.call));
    report(operation.name, threads, least, operation.holds(made));
}

static int64_t total(const std::vector<Column> &parts) {
    int64_t sum = 0;
    for (const Column &part : parts) sum += sum_of(part);
    return sum;
}

static size_t rows_of(const std::vector<Column> &parts) {
    size_t rows = 0;
    for (const Column &part : parts) rows += part.size();
    return rows;
}

static std::vector<Operation> operations(const Column &flat, const Column &runs, const Due &due) {
    const auto all = [due, rows = flat.size()](const std::vector<Column> &made) {
        return total(made) == due.sum && rows_of(made) == rows;
    };
    const auto kept = [due](const std::vector<Column> &made) {
        return total(made) == due.kept && rows_of(made) == static_cast<size_t>(due.count);
    };
    const auto filter = [](const Column &part) {
        return part.filter(part.compare(hv::Operator::greater_or_equal, threshold));
    };
    const auto sum = [](const Column &part) { return Column::constant(hv::kinds::i64, sum_of(part), 1); };
    const auto sums = [due](const std::vector<Column> &made) { return total(made) == due.sum; };
    return {{"encode", &flat, SplitBy::rows, [](const Column &part) { return part.encode(); }, all},
            {"decode", &runs, SplitBy::runs, [](const Column &part) { return part.decode(); }, all},
            {"sum", &runs, SplitBy::runs, sum, sums},
            {"sum flat", &flat, SplitBy::rows, sum, sums},
            {"filter", &runs, SplitBy::runs, filter, kept},
            {"filter flat", &flat, SplitBy::rows, filter, kept}};
}

int main(int count, char **words) {
    if (count < 4) return std::cerr << "threads ROWS TURNS THREADS..\n", 2;
    std::vector<int64_t> rows(std::strtoull(words[1], nullptr, 10));
    for (size_t row = 0; row < rows.size(); row++) rows[row] = row_of(row);
    const Due due = due_of(rows);
    const Column flat = Column::of(rows), runs = flat.encode();
    std::vector<int64_t>().swap(rows);
    for (const Operation &operation : operations(flat, runs, due))
        for (int word = 3; word < count; word++)
            time_of(operation, std::strtoull(words[word], nullptr, 10), std::strtoull(words[2], nullptr, 10));
    return same ? 0 : 1;
}
