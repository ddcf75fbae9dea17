// Columns in parts, columns made of ranges of every sort, and, where C++20 is, columns as ranges, made of spans and read
// into spans. Rows are compared with those that the columns were made of, and parts with a loop.
#include "hivevigil.hpp"
#include <array>
#include <cstdlib>
#include <deque>
#include <iostream>
#include <list>
#include <random>
#include <set>
#include <thread>
#if __cplusplus >= 202002L && !(defined(__clang__) && __clang_major__ < 16) // whose views libstdc++ does not serve
#include <ranges>
#define WITH_VIEWS
#endif

using hv::Column;
using hv::SplitBy;

static void check(bool holds, const char *what) {
    if (holds) return;
    std::cerr << "does not hold: " << what << "\n";
    std::exit(1);
}
#define CHECK(what) check((what), #what)

template <class Call> static int32_t number_of(Call call) {
    try {
        call();
    } catch (const hv::Error &error) {
        return error.number;
    }
    return 0;
}

using Row = std::optional<int64_t>;

// Rows that often repeat the one before.
static std::vector<Row> random_rows(std::mt19937 &random, size_t count) {
    std::vector<Row> rows;
    Row row = 0;
    for (size_t at = 0; at < count; at++) {
        if (random() % 4 == 0) row = random() % 5 ? Row(static_cast<int64_t>(random() % 9) - 4) : std::nullopt;
        rows.push_back(row);
    }
    return rows;
}

static size_t runs_of(const std::vector<Row> &rows) {
    size_t count = 0;
    for (size_t row = 0; row < rows.size(); row++) count += row == 0 || rows[row] != rows[row - 1];
    return count;
}

// The rows of the parts one after the other are those of the column, and each part has its share.
static void check_parts(const std::vector<Row> &rows, const Column &column, size_t parts, SplitBy by) {
    const size_t runs = runs_of(rows);
    std::vector<Row> joined;
    size_t seen = 0;
    for (const Column &part : column.split(parts, by)) {
        const std::vector<Row> own = part.optionals<int64_t>();
        const size_t share = by == SplitBy::rows ? rows.size() : runs;
        const size_t has = by == SplitBy::rows ? own.size() : runs_of(own);
        CHECK(share / parts <= has && has <= share / parts + 1);
        joined.insert(joined.end(), own.begin(), own.end());
        seen++;
    }
    CHECK(seen == parts && joined == rows);
}

static void check_split() {
    std::mt19937 random(7);
    for (size_t round = 0; round < 300; round++) {
        const std::vector<Row> rows = random_rows(random, random() % 60);
        const Column flat = Column::of(rows), runs = flat.encode();
        const size_t parts = 1 + random() % 9;
        for (const SplitBy by : {SplitBy::rows, SplitBy::runs})
            for (const Column *column : {&flat, &runs}) check_parts(rows, *column, parts, by);
        const size_t start = rows.size() / 3, stop = rows.size() - start / 2;
        check_parts({rows.begin() + static_cast<long>(start), rows.begin() + static_cast<long>(stop)},
                    runs.slice(start, stop), parts, SplitBy::runs);
    }
    const Column constant = Column::constant(hv::kinds::u8, 7, size_t(1) << 60);
    const std::vector<Column> halves = constant.split(2, SplitBy::runs);
    CHECK(halves[0].size() == size_t(1) << 59 && halves[1].size() == halves[0].size());
    CHECK(number_of([&] { constant.split(0); }) == HV_BAD_NUMBER);
    const Column lists = Column::lists(Column::of({1, 2}), {0, 1}, {1, 1});
    CHECK(lists.split(2).size() == 2 && number_of([&] { lists.split(2, SplitBy::runs); }) == HV_UNSUPPORTED);
}

static void check_threads() {
    std::mt19937 random(11);
    const std::vector<Row> rows = random_rows(random, 20000);
    int64_t due = 0;
    for (const Row &row : rows) due += row.value_or(0);
    const std::vector<Column> parts = Column::of(rows).encode().split(4, SplitBy::runs);
    std::array<int64_t, 4> sums{};
    std::vector<std::thread> threads;
    for (size_t part = 0; part < parts.size(); part++)
        threads.emplace_back([&, part] { sums[part] = std::get<int64_t>(parts[part].sum().total); });
    for (std::thread &thread : threads) thread.join();
    CHECK(sums[0] + sums[1] + sums[2] + sums[3] == due);
}

// Rows that do not lie one after the other.
static void check_other_ranges() {
    const std::deque<int64_t> numbers = {4, 4, -7};
    const std::list<uint8_t> small = {9, 255};
    CHECK(Column::of(numbers).numbers<int64_t>() == std::vector<int64_t>({4, 4, -7}));
    CHECK(Column::of(numbers).kind().nullable == 0);
    CHECK(Column::of(small).numbers<uint8_t>() == std::vector<uint8_t>({9, 255}));
    CHECK(Column::of(std::set<int>{3, 1, 2}).numbers<int>() == std::vector<int>({1, 2, 3}));
    CHECK(Column::of(std::deque<int>()).empty());
    CHECK(Column::of(std::deque<bool>{true, false}).truths() == std::vector<bool>({true, false}));
    CHECK(Column::of(std::list<std::string>{"Oslo", ""}).get<std::string>(0) == "Oslo");
    CHECK(Column::of(std::deque<Row>{4, std::nullopt}).optionals<int64_t>() == std::vector<Row>({4, std::nullopt}));
}

#ifdef WITH_VIEWS
// Columns and their runs, by the algorithms and the views of C++20.
static void check_ranges() {
    static_assert(std::ranges::input_range<const Column> && std::ranges::input_range<const hv::Runs>);
    const std::vector<int64_t> rows = {4, 4, 4, 7, 7, 9};
    const Column column = Column::of(rows), runs = column.encode();
    const auto number = [](const hv::Value &value) { return std::get<int64_t>(value); };
    for (const Column *each : {&column, &runs}) {
        CHECK(std::ranges::equal(*each | std::views::transform(number), rows));
        CHECK(std::ranges::count(*each, hv::Value(int64_t{7})) == 2);
        CHECK(std::ranges::distance(*each | std::views::take_while([&](auto row) { return number(row) < 9; })) == 5);
    }
    std::vector<size_t> stops;
    for (const hv::Run &run : runs.runs() | std::views::drop(1)) stops.push_back(run.stop);
    CHECK(stops == std::vector<size_t>({5, 6}));
    const auto doubled = std::views::transform(rows, [](int64_t row) { return 2 * row; });
    CHECK(Column::of(doubled).numbers<int64_t>() == std::vector<int64_t>({8, 8, 8, 14, 14, 18}));
}
#endif

#ifdef __cpp_lib_span
static void check_making() {
    const std::array<int16_t, 4> numbers = {4, 4, 7, 9};
    const std::span<const int16_t> all(numbers);
    const std::span<const int16_t, 2> some(numbers.data() + 1, 2);
    CHECK(Column::of(all).numbers<int16_t>() == std::vector<int16_t>({4, 4, 7, 9}));
    CHECK(Column::of(some).numbers<int16_t>() == std::vector<int16_t>({4, 7}));
    CHECK(Column::of(std::span<const int16_t>()).empty());
    const std::array<bool, 2> valid = {true, false};
    const Column masked = Column::of(some, std::span(valid));
    CHECK(masked.optionals<int16_t>() == std::vector<std::optional<int16_t>>({4, std::nullopt}));
    CHECK(number_of([&] { Column::of(all, std::span(valid)); }) == HV_COLUMN_LENGTH);
    const std::vector<Row> rows = {4, std::nullopt};
    CHECK(Column::of(std::span(rows)).optionals<int64_t>() == rows);
    const std::array<std::string_view, 2> names = {"Oslo", "Bergen"};
    CHECK(Column::of(std::span(names)).get<std::string>(1) == "Bergen");
}

static void check_reading() {
    std::vector<uint8_t> room(5, 99);
    const Column column = Column::of({uint8_t{1}, uint8_t{1}, uint8_t{2}, uint8_t{3}}).encode();
    column.read(1, std::span(room).subspan(1, 3));
    CHECK(room == std::vector<uint8_t>({99, 1, 2, 3, 99}));
    CHECK(number_of([&] { column.read(2, std::span(room)); }) == HV_BAD_RANGE);
    std::array<int32_t, 1> wide{};
    CHECK(number_of([&] { column.read(0, std::span(wide)); }) == HV_TYPE_MISMATCH);
}

static void check_messages() {
    const Column column = Column::of({7, 7, 8}).encode();
    const hv::Bytes message = column.to_bytes();
    std::vector<std::byte> room(message.size() + 3);
    CHECK(column.to_bytes(std::span(room)) == message.size());
    const std::span<const std::byte> written = std::span(room).first(message.size());
    CHECK(std::equal(message.begin(), message.end(), written.begin(),
                     [](uint8_t left, std::byte right) { return std::byte(left) == right; }));
    CHECK(Column::is_message(written) && Column::from_bytes(written) == column);
    const std::span<char> as_text(reinterpret_cast<char *>(room.data()), room.size());
    CHECK(!Column::is_message(as_text) && Column::from_bytes(as_text.first(message.size())) == column);
    CHECK(number_of([&] { Column::from_bytes(std::span<const uint8_t>()); }) == HV_BAD_METADATA);
    CHECK(number_of([&] { column.to_bytes(as_text.first(2)); }) == HV_COLUMN_LENGTH);
    const hv::Bytes record = column.serialize();
    const std::span<const uint8_t> bytes(record);
    CHECK(Column::deserialize(column.kind(), 3, bytes, column.ends(), column.values()) == column);
}

static void check_typed_messages() {
    // version 2, the name "tdD", and the message of two days, 19783 and 19784
    hv::Bytes due{0x08, 0x02, 0xb2, 0x01, 3, 't', 'd', 'D', 0xba, 0x01, 20};
    due.insert(due.end(), {0x08, 1, 0x10, 7, 0x18, 1, 0x20, 2, 0x28, 1, 0x3a, 8, 0x47, 0x4d, 0, 0, 0x48, 0x4d, 0, 0});
    const Column column = Column::of<int32_t>({19783, 19784}), days = column.with_logical_type("tdD");
    std::vector<uint8_t> room(due.size() + 3, 99);
    CHECK(days.to_bytes(std::span(room)) == due.size());
    CHECK(std::equal(due.begin(), due.end(), room.begin()) && room[due.size()] == 99);
    CHECK(!Column::is_message(std::span(room)));
    const std::span<const std::byte> message = std::as_bytes(std::span(room)).first(due.size());
    CHECK(Column::is_message(message));
    const Column read = Column::from_bytes(message);
    std::fill(room.begin(), room.end(), 99); // the name that was read is its own
    CHECK(read == column && read.logical_type() == "tdD");
    for (size_t size = 0; size < due.size(); size++) {
        CHECK(number_of([&] { days.to_bytes(std::span(room).first(size)); }) == HV_COLUMN_LENGTH);
        CHECK(number_of([&] { Column::from_bytes(std::span(due).first(size)); }) == HV_BAD_METADATA);
    }
    CHECK(room == std::vector<uint8_t>(room.size(), 99));
    CHECK(column.to_bytes(std::span(room)) == 20 && room[0] == 8 && room[1] == 1 && room[20] == 99);
    CHECK(Column::from_bytes(std::span(room).first(20)).logical_type().empty());
}
#endif

int main() {
    check_split();
    check_threads();
    check_other_ranges();
#ifdef WITH_VIEWS
    check_ranges();
#endif
#ifdef __cpp_lib_span
    check_making();
    check_reading();
    check_messages();
    check_typed_messages();
    std::cout << "parts, ranges and spans hold\n";
#else
    std::cout << "parts hold; this is a language without spans\n";
#endif
}
