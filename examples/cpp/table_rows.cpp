// Random tables of C++ held against plain rows, which are chosen, sorted, grouped and joined by loops over rows; and
// each answer again after it was bytes, and an Arrow stream.
//
//     table_rows [TABLES] [SEED]
#include "hivevigil_table.hpp"
#include <algorithm>
#include <cstdlib>
#include <cstring>
#include <iostream>
#include <random>
#include <unistd.h>

using hv::Column;
using hv::Decimal;
using hv::Fold;
using hv::Null;
using hv::Operator;
using hv::Order;
using hv::Table;
using hv::Value;

static void check(bool holds, const char *what, int line) {
    if (holds) return;
    std::cerr << "line " << line << " does not hold: " << what << "\n";
    std::exit(1);
}
#define CHECK(what) check((what), #what, __LINE__)

static std::mt19937_64 chance;
static size_t below(size_t count) { return chance() % count; }

using Row = std::vector<Value>;

// A table as rows: a Value for each column.
struct Rows {
    std::vector<std::string> names, formats;
    std::vector<hv_kind> kinds;
    std::vector<Row> rows;
};

// ---- Random rows ----

static bool is_null(const Value &value) { return std::holds_alternative<Null>(value); }

// The value as it is stored: a float, which is not NaN, by its key in an i64, by the bits of IEEE 754.
static Value stored(const Value &value) {
    const auto *number = std::get_if<double>(&value);
    uint64_t bits;
    if (!number) return value;
    std::memcpy(&bits, number, sizeof bits);
    return *number < 0 ? -1 - static_cast<int64_t>(bits << 1 >> 1) : static_cast<int64_t>(bits);
}

static Value random_value(hv_kind kind, const std::string &format) {
    const int64_t number = static_cast<int64_t>(below(7)) - 3;
    if (kind.nullable && below(5) == 0) return Null{};
    if (format == "g") return static_cast<double>(number) + 0.25;
    switch (kind.number) {
    case HV_BOOL: return below(2) == 1;
    case HV_UTF8: return std::string(below(3), static_cast<char>('a' + below(3)));
    case HV_BINARY: return hv::Bytes(below(3), static_cast<uint8_t>(below(256)));
    case HV_DECIMAL: return Decimal::of(number * 25, 2);
    case HV_U16: return static_cast<uint64_t>(below(6) * 13000);
    default: return number;
    }
}

static Rows random_rows(size_t count) {
    static const std::pair<hv_kind, const char *> types[] = {
        {hv::kinds::i64, ""},    {hv::kinds::i32, "tdD"},       {hv::kinds::u16, ""},   {hv::kinds::utf8, ""},
        {hv::kinds::boolean, ""}, {hv::kinds::decimal(9, 2), ""}, {hv::kinds::i64, "g"}, {hv::kinds::binary, ""},
        {hv::kinds::i64, "tDs"}};
    Rows made;
    for (size_t column = 0, columns = 1 + below(5); column < columns; column++) {
        const auto &[kind, format] = types[column == 0 ? 0 : below(std::size(types))];
        made.names.push_back(std::string(1, static_cast<char>('a' + column)) + (below(2) ? "é" : ""));
        made.kinds.push_back(below(2) ? hv::nullable(kind) : kind), made.formats.push_back(format);
    }
    const size_t stays = 1 + below(below(3) ? 6 : 80); // about as many rows in a run
    for (size_t row = 0; row < count; row++) {
        made.rows.push_back(row ? made.rows.back() : Row(made.kinds.size()));
        for (size_t column = 0; column < made.kinds.size(); column++)
            if (row == 0 || below(stays) == 0)
                made.rows[row][column] = random_value(made.kinds[column], made.formats[column]);
    }
    return made;
}

// One of these columns in a random form: a constant where it can be, flat, runs, or a window of longer runs.
static Column column_of(const Rows &model, size_t column) {
    const hv_kind kind = model.kinds[column];
    const size_t before = below(4), after = below(4);
    hv::Builder builder(kind);
    if (before) builder.append(stored(random_value(kind, model.formats[column])), before);
    for (const Row &row : model.rows) builder.append(stored(row[column]));
    if (after) builder.append(stored(random_value(kind, model.formats[column])), after);
    const Column runs = builder.finish().slice(before, before + model.rows.size());
    const bool is_one = runs.size() > 0 && runs.is_constant();
    if (is_one && below(2)) return Column::constant(kind, runs.at(0), runs.size());
    return below(3) ? runs.clone() : runs.decode();
}

static Table table_of(const Rows &model) {
    std::vector<hv::NamedColumn> columns;
    for (size_t column = 0; column < model.kinds.size(); column++)
        columns.emplace_back(model.names[column], column_of(model, column), model.formats[column]);
    return Table(std::move(columns), model.rows.size());
}

// ---- A table is what its rows are ----

// Values and not types: where no row is null, an answer may have a type that has null or not.
static void check_rows(const Table &table, const Rows &model) {
    CHECK(table.names() == model.names && table.rows() == model.rows.size());
    for (size_t column = 0; column < model.names.size(); column++) {
        const hv::NamedColumn &named = table.at(model.names[column]);
        CHECK(named.logical_type() == model.formats[column] && named.column.kind().number == model.kinds[column].number);
        CHECK(named.column.size() == model.rows.size());
        for (size_t row = 0; row < model.rows.size(); row++) CHECK(named.column.at(row) == model.rows[row][column]);
    }
}

static void check_table(const Table &table, const Rows &model) {
    check_rows(table, model);
    const hv::Bytes bytes = table.to_bytes(), differences = table.to_bytes(true);
    const Table read = Table::from_bytes(bytes), second = Table::from_bytes(differences);
    CHECK(read == table && read.to_bytes() == bytes);
    CHECK(second == table && second.to_bytes(true) == differences);
    CHECK(differences.size() <= bytes.size() + 2 * table.size());
    if (below(4) || table.empty()) return;
    ArrowArrayStream stream;
    table.to_arrow(&stream, below(3) * 3);
    check_rows(Table::from_arrow(&stream), model);
}

// ---- Rows chosen ----

static Rows with_rows(const Rows &model, std::vector<Row> rows) {
    return {model.names, model.formats, model.kinds, std::move(rows)};
}

static void check_chosen(const Table &table, const Rows &model) {
    const size_t rows = model.rows.size(), start = below(rows + 1), stop = start + below(rows - start + 1);
    const auto at = [&](size_t row) { return model.rows.begin() + static_cast<std::ptrdiff_t>(row); };
    check_table(table.slice(start, stop), with_rows(model, {at(start), at(stop)}));
    std::vector<bool> mask;
    std::vector<Row> kept, taken;
    for (size_t row = 0, flag = 0; row < rows; row++) {
        flag = below(3) ? flag : below(2);
        mask.push_back(flag != 0);
        if (flag) kept.push_back(model.rows[row]);
    }
    const Column column = Column::truths(mask);
    check_table(below(2) ? table.filter(mask) : table.filter(below(2) ? column.encode_rows() : column.clone()),
                with_rows(model, kept));
    std::vector<std::optional<uint32_t>> indices;
    for (size_t count = rows ? below(12) : 0; count > 0; count--) {
        const bool is_none = below(6) == 0;
        indices.push_back(is_none ? std::nullopt : std::optional<uint32_t>(below(rows)));
        taken.push_back(is_none ? Row(model.kinds.size()) : model.rows[*indices.back()]);
    }
    check_table(table.take(Column::of(indices)), with_rows(model, taken));
}

static bool meets(int64_t left, Operator by, int64_t right) {
    switch (by) {
    case Operator::equal: return left == right;
    case Operator::not_equal: return left != right;
    case Operator::less: return left < right;
    case Operator::less_or_equal: return left <= right;
    case Operator::greater: return left > right;
    default: return left >= right;
    }
}

// By the first column, of i64.
static void check_condition(const Table &table, const Rows &model) {
    static const std::pair<const char *, Operator> signs[] = {
        {"==", Operator::equal}, {"!=", Operator::not_equal},      {"<", Operator::less},
        {">", Operator::greater}, {"<=", Operator::less_or_equal}, {">=", Operator::greater_or_equal}};
    const auto &[sign, by] = signs[below(std::size(signs))];
    const int64_t value = static_cast<int64_t>(below(9)) - 4;
    std::vector<Row> kept;
    bool is_any = false;
    for (const Row &row : model.rows)
        if (!is_null(row[0]) && meets(std::get<int64_t>(row[0]), by, value)) kept.push_back(row), is_any = true;
    check_table(table.filter_by(model.names[0], sign, value), with_rows(model, kept));
    const std::string path = "/tmp/hivevigil-table-rows." + std::to_string(getpid());
    table.save(path);
    const hv::TableFooter footer = Table::footer(path);
    CHECK(footer.rows == table.rows() && footer.columns.size() == table.size());
    CHECK(!is_any || footer.may_have(model.names[0], by, value));
    CHECK(Table::load(path, {model.names.back()}) == table.select({model.names.back()}) && !std::remove(path.c_str()));
}

// ---- Rows in order ----

static int compared(const Value &left, const Value &right) { // neither is null
    if (auto *decimal = std::get_if<Decimal>(&left)) {
        const Decimal other = std::get<Decimal>(right);
        return (decimal->digits() > other.digits()) - (decimal->digits() < other.digits());
    }
    if (auto *number = std::get_if<int64_t>(&left))
        return (*number > std::get<int64_t>(right)) - (*number < std::get<int64_t>(right));
    if (auto *number = std::get_if<uint64_t>(&left))
        return (*number > std::get<uint64_t>(right)) - (*number < std::get<uint64_t>(right));
    if (auto *number = std::get_if<double>(&left))
        return (*number > std::get<double>(right)) - (*number < std::get<double>(right));
    if (auto *flag = std::get_if<bool>(&left)) return int{*flag} - int{std::get<bool>(right)};
    if (auto *text = std::get_if<std::string>(&left)) return text->compare(std::get<std::string>(right));
    const hv::Bytes &one = std::get<hv::Bytes>(left), &other = std::get<hv::Bytes>(right);
    return (other < one) - (one < other);
}

static void check_order(const Table &table, const Rows &model) {
    std::vector<hv::SortKey> keys;
    std::vector<size_t> places;
    for (size_t column = 0; column < model.names.size(); column++)
        if (column == 0 || below(2)) places.push_back(column);
    std::shuffle(places.begin(), places.end(), chance);
    for (size_t place : places) keys.push_back({model.names[place], below(2) ? Order::ascending : Order::descending});
    const hv::Nulls nulls = below(2) ? hv::Nulls::first : hv::Nulls::last;
    const auto is_before = [&](const Row &left, const Row &right) {
        for (size_t key = 0; key < keys.size(); key++) {
            const Value &one = left[places[key]], &other = right[places[key]];
            if (is_null(one) != is_null(other)) return is_null(nulls == hv::Nulls::first ? one : other);
            const int order = is_null(one) ? 0 : compared(one, other);
            if (order) return keys[key].order == Order::ascending ? order < 0 : order > 0;
        }
        return false;
    };
    Rows sorted = model;
    std::stable_sort(sorted.rows.begin(), sorted.rows.end(), is_before);
    check_table(table.sort(keys, nulls), sorted);
}

// ---- Groups ----

// What is answered of the values of a group, which are rows of one column.
static Value answer_of(Fold fold, const Row &values) {
    Row valid;
    for (const Value &value : values)
        if (!is_null(value)) valid.push_back(value);
    if (fold == Fold::rows) return uint64_t{values.size()};
    if (fold == Fold::count) return uint64_t{valid.size()};
    if (valid.empty()) return Null{};
    const auto is_less = [](const Value &left, const Value &right) { return compared(left, right) < 0; };
    if (fold == Fold::least) return *std::min_element(valid.begin(), valid.end(), is_less);
    if (fold == Fold::greatest) return *std::max_element(valid.begin(), valid.end(), is_less);
    if (fold == Fold::first) return valid.front();
    if (fold == Fold::last) return valid.back();
    if (std::holds_alternative<Decimal>(valid[0])) {
        hv::detail::Wide total = 0;
        for (const Value &value : valid) total += std::get<Decimal>(value).digits();
        return Decimal::of(static_cast<int64_t>(total), 2);
    }
    int64_t total = 0;
    uint64_t natural = 0;
    double real = 0; // of quarters, which add up exactly
    for (const Value &value : valid) {
        if (auto *number = std::get_if<uint64_t>(&value)) natural += *number;
        else if (auto *part = std::get_if<double>(&value)) real += *part;
        else total += std::get<int64_t>(value);
    }
    if (std::holds_alternative<uint64_t>(valid[0])) return natural;
    return std::holds_alternative<double>(valid[0]) ? Value(real) : Value(total);
}

static void check_groups(const Table &table, const Rows &model) {
    static const Fold folds[] = {Fold::rows,  Fold::count, Fold::least, Fold::greatest,
                                 Fold::first, Fold::last,  Fold::sum};
    const size_t asked = below(model.names.size());
    const hv_kind kind = model.kinds[asked];
    const bool is_decimal = kind.number == HV_DECIMAL, is_date = model.formats[asked] == "tdD";
    const Fold fold = folds[below(std::size(folds))];
    if (fold == Fold::sum && (is_date || !(kind.number <= HV_I64 || is_decimal))) return;
    std::vector<size_t> keys{0};
    if (model.names.size() > 1 && below(2)) keys.push_back(1 + below(model.names.size() - 1));
    Rows due;
    std::vector<std::string> names;
    for (size_t key : keys) {
        names.push_back(model.names[key]), due.formats.push_back(model.formats[key]);
        due.kinds.push_back(model.kinds[key]);
    }
    const auto key_of_row = [&](const Row &row) {
        Row key;
        for (size_t place : keys) key.push_back(row[place]);
        return key;
    };
    for (size_t row = 0, stop = 0; row < model.rows.size(); row = stop) {
        Row group = key_of_row(model.rows[row]), values;
        for (stop = row; stop < model.rows.size() && key_of_row(model.rows[stop]) == group; stop++)
            values.push_back(model.rows[stop][asked]);
        group.push_back(answer_of(fold, values));
        due.rows.push_back(group);
    }
    due.names = names, due.names.push_back("answer");
    const bool is_count = fold == Fold::rows || fold == Fold::count;
    const bool is_sum = fold == Fold::sum && !is_decimal;
    hv_kind answers = is_count ? hv::kinds::u64 : is_sum && kind.number < HV_I8 ? hv::kinds::u64 : kind;
    if (is_sum && kind.number >= HV_I8) answers = hv::kinds::i64;
    due.kinds.push_back(answers), due.formats.push_back(is_count ? "" : model.formats[asked]);
    check_table(table.group_by(names).agg({{"answer", fold, model.names[asked]}}), due);
}

// ---- Two tables ----

static void check_joined(const Table &table, const Rows &model) {
    Rows other = with_rows(model, {}), both = model;
    for (size_t count = below(9); count > 0; count--) {
        Row row;
        for (size_t column = 0; column < model.kinds.size(); column++)
            row.push_back(random_value(model.kinds[column], model.formats[column]));
        other.rows.push_back(row), both.rows.push_back(row);
    }
    check_table(table.append(table_of(other)), both);
}

int main(int count, char **given) {
    const size_t tables = count > 1 ? std::strtoul(given[1], nullptr, 10) : 300;
    chance.seed(count > 2 ? std::strtoul(given[2], nullptr, 10) : 1);
    for (size_t turn = 0; turn < tables; turn++) {
        const Rows model = random_rows(below(4) ? below(12) : below(200));
        const Table table = table_of(model);
        check_table(table, model);
        check_chosen(table, model);
        check_condition(table, model);
        check_order(table, model);
        check_groups(table, model);
        check_joined(table, model);
    }
    std::cout << tables << " random tables as plain rows have them\n";
}
