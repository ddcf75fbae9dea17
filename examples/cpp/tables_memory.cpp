// Each request for memory of the library refused in turn, in every call of tables: HV_OUT_OF_MEMORY, or the answer where
// the call went on without; tables and columns are as they were, and no block is lost. The linker hands our malloc,
// calloc, realloc and free to the library: c++ .. -Wl,--wrap=malloc,--wrap=calloc,--wrap=realloc,--wrap=free
#include "hivevigil_table.hpp"
#include <cstdlib>
#include <functional>
#include <iostream>
extern "C" {
#include "../c/refusing_malloc.h"
}

using hv::Column;
using hv::Fold;
using hv::Table;

static void check(bool holds, const char *what, int line) {
    if (holds) return;
    std::cerr << "line " << line << " does not hold: " << what << "\n";
    std::exit(1);
}
#define CHECK(what) check((what), #what, __LINE__)

// A hundred rows, more than are copied where they could be shared.
static Table readings() {
    std::vector<std::optional<int64_t>> levels;
    std::vector<std::string> stations;
    std::vector<double> shares;
    for (int row = 0; row < 100; row++) {
        levels.push_back(row % 7 ? std::optional<int64_t>((row * 37) % 50) : std::nullopt);
        stations.push_back(row < 60 ? "north" : "south"), shares.push_back(row / 4.0);
    }
    const Column days = Column::of(std::vector<int32_t>(100, 19783)).encode_rows();
    return Table{{"station", stations}, {"level", levels}, {"day", days, "tdD"}, {"share", shares}};
}

struct Call {
    const char *name;
    std::function<Table(const Table &)> make;
};

static std::vector<Call> calls() {
    const auto named = [](const Table &table) { return Table{{"level", table["level"]}, {"share", table["share"]}}; };
    return {
        {"columns", named},
        {"clone", [](const Table &table) { return table.clone(); }},
        {"select", [](const Table &table) { return table.select({"share", "station"}); }},
        {"drop", [](const Table &table) { return table.drop({"share", "station"}); }},
        {"with_column", [](const Table &table) { return table.with_column({"again", table["level"]}); }},
        {"rename", [](const Table &table) { return table.rename("level", "height"); }},
        {"slice", [](const Table &table) { return table.slice(3, 90); }},
        {"take", [](const Table &table) { return table.take(std::vector<int>{5, 70, 5}); }},
        {"filter", [](const Table &table) { return table.filter(table["level"].is_valid()); }},
        {"filter_by", [](const Table &table) { return table.filter_by("share", ">=", 3.25); }},
        {"drop_null", [](const Table &table) { return table.drop_null({"level", "day"}); }},
        {"sort", [](const Table &table) { return table.sort({{"station", hv::Order::descending}, "level"}); }},
        {"append", [](const Table &table) { return table.append(table); }},
        {"append one by one",
         [](const Table &table) { return table.append(table.with_column({"level", table["level"].fill(0)})); }},
        {"group_by",
         [](const Table &table) {
             const hv::TableGroups groups = table.group_by({"station"});
             return groups.agg({{"most", Fold::greatest, "level"}, {"shares", Fold::sum, "share"}})
                 .with_column(groups.fold({"rows", Fold::rows}));
         }},
        {"bytes", [](const Table &table) { return Table::from_bytes(table.to_bytes(true)); }},
    };
}

// The call with the request of this number refused, or it and all after it.
static void refuse(const Call &call, const Table &due, long number, bool rest) {
    const Table table = readings(); // whose columns are not copied yet
    requests = refused = 0, refuse_at = number, refuse_rest = rest;
    try {
        const Table found = call.make(table);
        refuse_at = -1;
        CHECK(found == due);
    } catch (const hv::Error &error) {
        refuse_at = -1;
        CHECK(refused && error.number == HV_OUT_OF_MEMORY);
    }
    CHECK(table == readings());
}

// Refuses each request of a call, and says how many there are.
static size_t refuse_each(const Call &call) {
    const Table due = call.make(readings());
    CHECK(due == due); // its columns are copied
    const long held = blocks;
    size_t count = 0;
    for (long number = 0; number == 0 || refused; number++)
        for (bool rest : {true, false}) {
            refuse(call, due, number, rest);
            CHECK(blocks == held);
            count += refused && rest;
        }
    CHECK(count > 0);
    return count;
}

int main() {
    const long held = blocks;
    size_t count = 0;
    for (const Call &call : calls()) count += refuse_each(call);
    CHECK(blocks == held);
    std::cout << count << " requests refused\n";
}
