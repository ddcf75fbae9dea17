// Columns and tables of 2^40 rows in a few runs, held against their stretches of equal rows: no row is written or read.
//
//     long_rows [TURNS] [SEED]
#include "hivevigil_table.hpp"
#include <algorithm>
#include <cstdlib>
#include <iostream>
#include <random>

using hv::Column;
using hv::Decimal;
using hv::Null;
using hv::Operator;
using hv::Table;
using hv::Value;

static void check(bool holds, const char *what, int line) {
    if (holds) return;
    std::cerr << "line " << line << " does not hold: " << what << "\n";
    std::exit(1);
}
#define CHECK(what) check((what), #what, __LINE__)

static std::mt19937_64 chance;
static size_t below(size_t count) { return chance() % count; }
constexpr size_t rows = (size_t{1} << 40) + 70;

// How many rows, and their value; a column as its stretches.
using Part = std::pair<size_t, Value>;
using Parts = std::vector<Part>;

static bool is_null(const Value &value) { return std::holds_alternative<Null>(value); }
static bool is_true(const Value &value) { return value == Value{true}; }

static void append(Parts &parts, size_t count, const Value &value) {
    if (!parts.empty() && parts.back().second == value) parts.back().first += count;
    else if (count) parts.emplace_back(count, value);
}

static Parts parts_of(const Column &column) {
    Parts found;
    for (const hv::Run &run : column.runs()) append(found, run.stop - run.start, run.value);
    return found;
}

// What is made of the stretches in which two columns stay the same.
template <class Work> static Parts worked(const Parts &left, const Parts &right, Work work) {
    Parts found;
    size_t one = 0, other = 0, left_used = 0, right_used = 0;
    while (one < left.size() && other < right.size()) {
        const size_t count = std::min(left[one].first - left_used, right[other].first - right_used);
        work(found, count, left[one].second, right[other].second);
        if ((left_used += count) == left[one].first) one++, left_used = 0;
        if ((right_used += count) == right[other].first) other++, right_used = 0;
    }
    return found;
}

static Parts kept(const Parts &parts, const Parts &mask) {
    return worked(parts, mask, [](Parts &found, size_t count, const Value &value, const Value &flag) {
        if (is_true(flag)) append(found, count, value);
    });
}

// ---- Random columns ----

static const hv_kind kinds[] = {hv::kinds::i64,     hv::kinds::u16,           hv::kinds::utf8,
                                hv::kinds::boolean, hv::kinds::decimal(9, 2), hv::kinds::binary};

static hv_kind random_kind() {
    const hv_kind kind = kinds[below(std::size(kinds))];
    return below(2) ? hv::nullable(kind) : kind;
}

static Value random_value(hv_kind kind) {
    const int64_t number = static_cast<int64_t>(below(5)) - 2;
    if (kind.nullable && below(4) == 0) return Null{};
    switch (kind.number) {
    case HV_BOOL: return below(2) == 1;
    case HV_UTF8: return std::string(below(3), static_cast<char>('a' + below(2)));
    case HV_BINARY: return hv::Bytes(below(3), static_cast<uint8_t>(below(2)));
    case HV_DECIMAL: return Decimal::of(number * 25, 2);
    case HV_U16: return static_cast<uint64_t>(below(4) * 13000);
    default: return number;
    }
}

// Runs that end at places by chance, near both ends and one another, in a window of longer runs or not.
static Column random_column(hv_kind kind, Parts &parts) {
    std::vector<uint64_t> stops{rows};
    for (size_t count = below(6); count > 0; count--) {
        const size_t near = 1 + below(130);
        stops.push_back(below(3) ? below(2) ? near : rows - near : (1 + below(1 << 20)) << 20);
    }
    std::sort(stops.begin(), stops.end());
    stops.erase(std::unique(stops.begin(), stops.end()), stops.end());
    const size_t before = below(2) ? 0 : below(2) ? 3 : size_t{1} << 40, after = below(2) * 5;
    hv::Builder builder(kind);
    size_t start = 0;
    parts.clear();
    if (before) builder.append(random_value(kind), before);
    for (const uint64_t stop : stops) {
        const Value value = random_value(kind);
        builder.append(value, stop - start);
        append(parts, stop - start, value);
        start = stop;
    }
    if (after) builder.append(random_value(kind), after);
    const Column column = builder.finish().slice(before, before + rows);
    if (parts.size() == 1 && below(2)) return Column::constant(kind, parts[0].second, rows);
    return column.clone();
}

// ---- Against stretches ----

static const Operator operators[] = {Operator::equal, Operator::not_equal,     Operator::greater,
                                     Operator::less,  Operator::less_or_equal, Operator::greater_or_equal};

static int compared(const Value &left, const Value &right) { // neither is null
    if (auto *decimal = std::get_if<Decimal>(&left)) {
        const Decimal other = std::get<Decimal>(right);
        return (decimal->digits() > other.digits()) - (decimal->digits() < other.digits());
    }
    if (auto *text = std::get_if<std::string>(&left)) return text->compare(std::get<std::string>(right));
    return (right < left) - (left < right);
}

static Value held(Operator by, const Value &left, const Value &right) {
    if (is_null(left) || is_null(right)) return Null{};
    const int order = compared(left, right);
    switch (by) {
    case Operator::equal: return order == 0;
    case Operator::not_equal: return order != 0;
    case Operator::greater: return order > 0;
    case Operator::less: return order < 0;
    case Operator::less_or_equal: return order <= 0;
    default: return order >= 0;
    }
}

static Parts held_parts(Operator by, const Parts &left, const Parts &right) {
    return worked(left, right, [by](Parts &found, size_t count, const Value &one, const Value &other) {
        append(found, count, held(by, one, other));
    });
}

static void check_comparisons() {
    Parts lefts, rights, others;
    const hv_kind kind = random_kind();
    const Column left = random_column(kind, lefts), right = random_column(kind, rights);
    const Operator by = operators[below(std::size(operators))];
    const Value value = random_value(kind);
    const Column mask = left.compare(by, value), both = left.compare(by, right);
    const Parts due = held_parts(by, lefts, {{rows, value}});
    CHECK(mask.form() != hv::Form::flat && parts_of(mask) == due);
    CHECK(both.form() != hv::Form::flat && parts_of(both) == held_parts(by, lefts, rights));
    CHECK(parts_of(left.filter(mask)) == kept(lefts, due));
    std::vector<hv::NamedColumn> columns;
    columns.emplace_back("asked", left.clone(), "");
    columns.emplace_back("other", random_column(random_kind(), others), "");
    const Table table(std::move(columns), rows);
    const Table chosen = is_null(value) ? table.filter(mask) : std::visit(
        [&](const auto &given) { return table.filter_by("asked", by, given); }, value);
    CHECK(parts_of(chosen["asked"]) == kept(lefts, due) && parts_of(chosen["other"]) == kept(others, due));
}

static void check_masks() {
    Parts flags, parts, others;
    const Column mask = random_column(hv::nullable(hv::kinds::boolean), flags);
    std::vector<hv::NamedColumn> columns;
    columns.emplace_back("a", random_column(random_kind(), parts), "");
    columns.emplace_back("b", random_column(random_kind(), others), "");
    const Table table(std::move(columns), rows), chosen = table.filter(mask);
    CHECK(parts_of(chosen["a"]) == kept(parts, flags) && parts_of(chosen["b"]) == kept(others, flags));
    Parts valid;
    for (const Part &part : parts) append(valid, part.first, !is_null(part.second));
    CHECK(parts_of(table["a"].is_valid()) == valid);
    const Table there = table.filter(table["a"].is_valid() & table["b"].is_valid());
    Parts both = worked(parts, others, [](Parts &found, size_t count, const Value &one, const Value &other) {
        append(found, count, !is_null(one) && !is_null(other));
    });
    CHECK(parts_of(there["a"]) == kept(parts, both) && parts_of(there["b"]) == kept(others, both));
    const Table longer = table.append(table.slice(0, 9).append(chosen).slice(0, 5)); // a few rows, flat or not
    for (const Part &part : parts_of(table["a"].slice(0, 5))) append(parts, part.first, part.second);
    CHECK(parts_of(longer["a"]) == parts && longer.rows() == rows + 5);
}

static void check_order() {
    Parts parts;
    const Column column = random_column(random_kind(), parts);
    Parts due = parts, joined;
    std::stable_sort(due.begin(), due.end(), [](const Part &one, const Part &other) {
        if (is_null(one.second) || is_null(other.second)) return is_null(one.second) && !is_null(other.second);
        return compared(one.second, other.second) < 0;
    });
    for (const Part &part : due) append(joined, part.first, part.second);
    CHECK(parts_of(column.sorted()) == joined);
    std::reverse(parts.begin(), parts.end());
    CHECK(parts_of(column.reversed()) == parts);
}

int main(int count, char **given) {
    const size_t turns = count > 1 ? std::strtoul(given[1], nullptr, 10) : 300;
    chance.seed(count > 2 ? std::strtoul(given[2], nullptr, 10) : 1);
    for (size_t turn = 0; turn < turns; turn++) {
        check_comparisons();
        check_masks();
        check_order();
    }
    std::cout << turns << " times columns of 2^40 rows as their stretches have them\n";
}
