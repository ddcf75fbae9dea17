// Tables: several named columns of one number of rows, which the library holds, over hivevigil_tables.h. Headers only,
// C++17. The calls of the library are proved, and nothing here is.
//
//     hv::Table table{{"station", stations}, {"level", levels}}; // columns, or what Column::of takes, or floats
//     hv::Table high = table.filter_by("level", ">=", 902).select({"station", "level"});
//     hv::Table sorted = table.sort({"station", {"level", hv::Order::descending}}, hv::Nulls::last);
//     hv::Table most = sorted.group_by({"station"}).agg({{"most", hv::Fold::greatest, "level"}});
//     most.save("most.hv");
//     for (const hv::NamedColumn &named : hv::Table::load("most.hv")) use(named.name, named.column);
//
// Each call makes another table, whose columns share buffers with those of this one, and leaves this one as it was,
// also where it is refused: by an hv::TableError, or by the hv::Error of a call of a column, in whose sentence the
// column is named. Any thread may use a table, one thread at a time. References to its columns, which are copied out of
// the library when the first of them is asked for, are valid as long as the table is neither assigned to nor moved.
#ifndef HIVEVIGIL_TABLE_HPP
#define HIVEVIGIL_TABLE_HPP
#if __cplusplus < 201703L
#error "hivevigil_table.hpp is for C++17 and later: -std=c++17"
#else
#include "hivevigil_stored_file.hpp"
#include "hivevigil_arrow_errors.h"
#include "hivevigil_table_file.h"
#include "hivevigil_tables.h"
#include <map>

namespace hv {

class TableGroups;
struct TableFooter;

// How many bytes the columns of a file that are kept as differences may take in memory, all together; HV_TABLE_LIMIT
// where no limit is given: hv::Table::load("ticks.hv", hv::Limit(1 << 20)).
struct Limit {
    uint64_t bytes;
    explicit Limit(uint64_t most) : bytes(most) {}
};

enum class Order { ascending, descending };
// Where null comes in sorted rows, in either order.
enum class Nulls { first, last };

// A column by whose rows a table is sorted: "level", {"level", hv::Order::descending}, or, where its nulls come
// elsewhere than the call says of all columns, {"level", hv::Order::descending, hv::Nulls::last}.
struct SortKey {
    std::string name;
    Order order = Order::ascending;
    std::optional<Nulls> nulls = {};
    SortKey(const char *of) : name(of) {}
    SortKey(std::string of, Order by = Order::ascending, std::optional<Nulls> where = {})
        : name(std::move(of)), order(by), nulls(where) {}
};

// A column of a table, with the logical type that it has.
struct NamedColumn {
    std::string name;
    Column column;

    NamedColumn(std::string of, Column &&rows) : name(std::move(of)), column(std::move(rows)) {}
    NamedColumn(std::string of, const Column &rows) : NamedColumn(std::move(of), rows.clone()) {}
    // Under a format of Arrow, as Column::with_logical_type.
    NamedColumn(std::string of, const Column &rows, std::string_view format);
    // Floats.
    template <class T>
    NamedColumn(std::string of, const Floats<T> &rows)
        : NamedColumn(std::move(of), rows.keys()) {}
    // What Column::of takes, and float, double or std::optional of these.
    template <class Items, class T = detail::InnerOf<detail::Row<Items>>>
    NamedColumn(std::string of, const Items &rows, std::string_view format = "") : name(std::move(of)) {
        if constexpr (std::is_floating_point_v<T>) *this = NamedColumn(name, Floats<T>::of(rows));
        else *this = NamedColumn(name, Column::of(rows), format);
    }
    template <class T>
    NamedColumn(std::string of, std::initializer_list<T> rows, std::string_view format = "")
        : NamedColumn(std::move(of), std::vector<T>(rows), format) {}

    NamedColumn clone() const { return {name, column}; }
    std::string logical_type() const { return column.logical_type(); }
};

class Table {
public:
    // No columns and no rows.
    Table() = default;
    // The columns, copied, each of as many rows as the first. Refused for the first column whose name is not UTF-8, as
    // HV_TYPE_MISMATCH, or that has another number of rows, as HV_COLUMN_LENGTH; then as HV_TABLE_NAME_TWICE.
    Table(std::initializer_list<NamedColumn> columns);
    explicit Table(std::vector<NamedColumn> columns);
    // The same, of this number of rows: also without columns.
    Table(std::vector<NamedColumn> columns, size_t rows);
    // A table that was moved away has no columns and no rows.
    Table(Table &&other) noexcept { *this = std::move(other); }
    Table &operator=(Table &&other) noexcept {
        hv_table taken = std::exchange(other.handle, hv_table HV_EMPTY);
        hv_table_free(&handle);
        handle = taken, copies = std::exchange(other.copies, {});
        return *this;
    }
    ~Table() { hv_table_free(&handle); }
    Table clone() const { return made({}, {}, hv_call_table_clone); }

    // ---- Names and columns ----

    size_t rows() const { return hv_table_len(&handle); }
    // How many columns there are.
    size_t size() const { return hv_table_width(&handle); }
    bool empty() const { return size() == 0; }
    std::vector<std::string> names() const;
    bool contains(const std::string &name) const;
    // The column of a name, refused as HV_TABLE_UNKNOWN_NAME; so is [].
    const NamedColumn &at(const std::string &name) const { return columns()[place_of(name)]; }
    const Column &operator[](const std::string &name) const { return at(name).column; }
    // The columns in their order.
    std::vector<NamedColumn>::const_iterator begin() const { return columns().begin(); }
    std::vector<NamedColumn>::const_iterator end() const { return columns().end(); }
    // Whether names and their order, types, logical types and rows are the same, in whatever forms. So do == and !=.
    bool equals(const Table &other) const;
    friend bool operator==(const Table &left, const Table &right) { return left.equals(right); }
    friend bool operator!=(const Table &left, const Table &right) { return !left.equals(right); }

    // The columns of these names, in this order; refused as HV_TABLE_UNKNOWN_NAME and HV_TABLE_NAME_TWICE.
    Table select(const std::vector<std::string> &names) const;
    // All others.
    Table drop(const std::vector<std::string> &names) const;
    // One more column, or another in place of that of its name, of as many rows.
    Table with_column(const NamedColumn &named) const;
    // The same columns, one of which has another name.
    Table rename(const std::string &from, const std::string &to) const;

    // ---- Rows: a mask or indices are read once for all columns ----

    // Rows `start` to `stop` - 1; refused as HV_BAD_RANGE.
    Table slice(size_t start, size_t stop) const;
    // The rows at the indices, a column of integers in any form or a vector of them, null at a null index; refused as
    // HV_OUT_OF_BOUNDS and HV_TYPE_MISMATCH.
    Table take(const Column &indices) const;
    template <class T, class = std::enable_if_t<detail::is_number<T>>> Table take(const std::vector<T> &indices) const {
        return take(Column::of(indices));
    }
    // The rows at which the mask is true; null selects nothing. Refused as HV_TYPE_MISMATCH and HV_MASK_LENGTH.
    Table filter(const Column &mask) const;
    Table filter(const std::vector<bool> &mask) const { return filter(Column::truths(mask)); }
    // The rows at which `row by value` is true of the column of a name, as Column::compare has it: any number next to
    // integers, decimals and floats, a text, a bool, a Value. The sign is one of == = != < <= > >=.
    template <class T> Table filter_by(const std::string &name, Operator by, const T &value) const;
    template <class T> Table filter_by(const std::string &name, const std::string &sign, const T &value) const;
    // The rows that are null in none of the columns of these names, or of all columns for no name; refused as select.
    Table drop_null(const std::vector<std::string> &names = {}) const;
    // The rows in order by these columns, of which the first counts most; rows that are equal in all of them stay in
    // their order. Texts are ordered by their bytes, floats by their total order. What is sorted are runs over which
    // none of these columns changes. Refused as HV_UNSUPPORTED for no key, as HV_TABLE_NAME_TWICE, as
    // HV_TABLE_UNKNOWN_NAME, and as HV_UNSUPPORTED for lists.
    Table sort(const std::vector<SortKey> &keys, Nulls nulls = Nulls::first) const;
    // The rows of this table, then those of another, which has columns of the same names and types, in runs, as few as
    // possible. Where a type has null in one of them only, or decimals are of two types, columns are joined as batches
    // of Arrow are: a type has null where it has in one of them, and decimals become those of hv_decimal_common_kind.
    // So are the columns of tables that have lists. Refused as HV_TABLE_UNKNOWN_NAME, then as HV_TYPE_MISMATCH, as
    // HV_CAST_OUT_OF_RANGE for a row that has more digits there, and as HV_WINDOW_OVERFLOW for 2^64 rows or more.
    Table append(const Table &other) const;
    // The rows by runs of neighbours that are equal in these columns (hivevigil_table_groups.hpp).
    TableGroups group_by(const std::vector<std::string> &names) const;

    // ---- Files (hivevigil_table_file.hpp) ----

    // The table as bytes, as docs/BYTES.md has them; with `differences` each column of integers as those of its rows
    // where that is shorter, which readers of version 1 refuse.
    Bytes to_bytes(bool differences = false) const;
    // The table that to_bytes wrote, each column in its form; refused as HV_BAD_METADATA for other bytes, and, before a
    // column is read, as HV_TABLE_OVER_LIMIT.
    static Table from_bytes(Bytes bytes);
    static Table from_bytes(Bytes bytes, Limit limit);
    // Writes the bytes to a file, which is replaced whole or not at all. Refused as HV_TABLE_FILE_REFUSED.
    void save(const std::string &path, bool differences = false) const;
    // The table of a file, or its columns of these names in this order, which are read without the others.
    static Table load(const std::string &path);
    static Table load(const std::string &path, Limit limit);
    static Table load(const std::string &path, const std::vector<std::string> &names);
    static Table load(const std::string &path, const std::vector<std::string> &names, Limit limit);
    // What the end of a file says, where no column is read.
    static TableFooter footer(const std::string &path);

    // ---- Arrow (hivevigil_table_arrow.hpp) ----

    // A stream of batches of this number of rows, of one batch where it is 0, and a struct array of all rows; all is
    // copied, and the caller's to release. Columns in runs go out as run ends, with their logical types.
    void to_arrow(ArrowArrayStream *stream, size_t chunk_rows = 0) const;
    void to_arrow(ArrowSchema *schema, ArrowArray *array) const;
    // A copy of all batches of a stream, which is released; and of a struct array, which stays its producer's.
    static Table from_arrow(ArrowArrayStream *stream);
    static Table from_arrow(const ArrowSchema *schema, const ArrowArray *array);

    // The handle, to lend to calls of hivevigil_tables.h; it stays this table's, into which nothing is put.
    hv_table *raw() const;

private:
    friend class TableGroups;
    mutable hv_table handle = HV_EMPTY;      // none where there are neither columns nor rows, until a call needs one
    mutable std::vector<NamedColumn> copies; // of all columns, or none yet

    // The columns, copied once.
    const std::vector<NamedColumn> &columns() const;
    // Puts columns into this table, which has none yet.
    template <class Columns> void put_all(const Columns &given, size_t rows);
    void put(const NamedColumn &named);
    std::string name_at(size_t place) const;
    Column column_at(size_t place) const;
    std::optional<size_t> find(const std::string &name) const;
    size_t place_of(const std::string &name) const;
    // Names as a column; one that is not UTF-8 is that of no column.
    Column texts_of(const std::vector<std::string> &given) const;
    // What a call makes of this table and of what else is lent; refused in words about these names, or of a type.
    template <class Call, class... Lent>
    Table made(const std::vector<std::string> &given, const std::string &of_type, Call call, Lent... lent) const;
    Table joined(const Table &other) const;
};

namespace detail {

inline hv_table_span span_of(const std::string &text) {
    return {reinterpret_cast<const uint8_t *>(text.data()), text.size()};
}

// ---- Refusals ----

// What is said where no column has a name: the first of the names that there are.
inline std::string no_column_words(const std::string &name, const std::vector<std::string> &names) {
    constexpr size_t shown = 4;
    std::string said = "no column has the name '" + name + "': ";
    if (names.empty()) return said + "the table has none";
    for (size_t at = 0; at < std::min(names.size(), shown); at++)
        said += (at ? ", '" : "the names are '") + names[at] + "'";
    return said + (names.size() > shown ? ", ..." : "");
}

inline TableError no_column(const std::string &name, const std::vector<std::string> &names) {
    return {HV_TABLE_UNKNOWN_NAME, {}, no_column_words(name, names)};
}

inline TableError name_twice(const std::string &name, size_t earlier, size_t place) {
    return {HV_TABLE_NAME_TWICE, {earlier, place, 0}, "two columns have the name '" + name + "'"};
}

inline TableError other_rows(const std::string &name, size_t rows, size_t wanted) {
    return {HV_COLUMN_LENGTH, {wanted, rows, 0},
            "column '" + name + "' has " + std::to_string(rows) + " rows, and the table " + std::to_string(wanted)};
}

// What a call of the library refused of a table and names.
inline TableError refusal(int32_t answer, hv_error fields, const Table &table, const std::vector<std::string> &given) {
    switch (answer) {
    case HV_TABLE_UNKNOWN_NAME: return no_column(given[fields.first], table.names());
    case HV_TABLE_NAME_TWICE: return name_twice(given[fields.second], fields.first, fields.second);
    case HV_TABLE_NEW_NAME_TWICE: return name_twice(given.back(), fields.first, fields.second);
    case HV_TABLE_NO_KEYS: return {HV_UNSUPPORTED, {}, "at least one column says the order"};
    case HV_TABLE_KEY_OF_LISTS:
        return {HV_UNSUPPORTED, {}, "column '" + given[fields.first] + "': lists have no order"};
    default: return {answer, fields};
    }
}

// A refusal that says of which column it is; so does one within.
inline TableError about(const std::string &name, const Error &error) {
    return {error.number, error.fields, "column '" + name + "': " + error.what()};
}
template <class Work> auto about_column(const std::string &name, Work work) {
    try {
        return work();
    } catch (const Error &error) {
        throw about(name, error);
    }
}

inline void refuse_twice(const std::vector<std::string> &names) {
    std::map<std::string, size_t> places;
    for (size_t at = 0; at < names.size(); at++) {
        const auto [found, is_new] = places.emplace(names[at], at);
        if (!is_new) throw name_twice(names[at], found->second, at);
    }
}

// The place of a name among columns.
template <class Columns> size_t place_of(const Columns &columns, const std::string &name) {
    for (size_t place = 0; place < columns.size(); place++)
        if (columns[place].name == name) return place;
    std::vector<std::string> names;
    for (const auto &column : columns) names.push_back(column.name);
    throw no_column(name, names);
}

inline Operator operator_of(const std::string &sign) {
    static const std::pair<const char *, Operator> signs[] = {
        {"==", Operator::equal},         {"=", Operator::equal},  {"!=", Operator::not_equal},
        {"<=", Operator::less_or_equal}, {"<", Operator::less},   {">=", Operator::greater_or_equal},
        {">", Operator::greater}};
    for (const auto &[known, by] : signs)
        if (sign == known) return by;
    throw TableError(HV_BAD_NUMBER, {}, "'" + sign + "' is not an operator: == != < <= > >=");
}

} // namespace detail

// ---- Made ----

inline NamedColumn::NamedColumn(std::string of, const Column &rows, std::string_view format)
    : name(std::move(of)), column(detail::about_column(name, [&] { return rows.with_logical_type(format); })) {}

inline hv_table *Table::raw() const {
    if (!handle.at) detail::ask([&](auto *error) { return hv_table_new(0, &handle, error); });
    return &handle;
}

inline void Table::put(const NamedColumn &named) {
    const hv_table_span name = detail::span_of(named.name);
    hv_error fields{};
    switch (const int32_t answer = hv_table_put(raw(), name.at, name.size, named.column.raw(), &fields)) {
    case HV_OK: return;
    case HV_NO_COLUMN: throw TableError(answer, fields, "column '" + named.name + "' was moved away");
    case HV_TYPE_MISMATCH: throw TableError(answer, fields, "the name of a column is not UTF-8");
    case HV_TABLE_ROW_COUNT: throw detail::other_rows(named.name, fields.second, fields.third);
    default: throw TableError(answer, fields);
    }
}

template <class Columns> void Table::put_all(const Columns &given, size_t rows) {
    std::optional<TableError> twice;
    size_t place = 0;
    detail::ask([&](auto *error) { return hv_table_new(rows, &handle, error); });
    for (const NamedColumn &named : given) {
        const size_t before = size();
        put(named);
        if (this->rows() != rows) throw detail::other_rows(named.name, this->rows(), rows); // one without rows took it
        if (size() == before && !twice) twice.emplace(detail::name_twice(named.name, place_of(named.name), place));
        place++;
    }
    if (twice) throw *twice;
}

inline Table::Table(std::vector<NamedColumn> columns, size_t rows) : Table() { put_all(columns, rows); }
inline Table::Table(std::vector<NamedColumn> columns) : Table() {
    put_all(columns, columns.empty() ? 0 : columns.front().column.size());
}
inline Table::Table(std::initializer_list<NamedColumn> columns) : Table() {
    put_all(columns, columns.size() ? columns.begin()->column.size() : 0);
}

template <class Call, class... Lent>
Table Table::made(const std::vector<std::string> &given, const std::string &of_type, Call call, Lent... lent) const {
    Table out;
    hv_error fields{};
    const int32_t answer = call(raw(), lent..., &out.handle, &fields);
    if (answer == HV_TYPE_MISMATCH && !of_type.empty()) throw TableError(answer, fields, of_type);
    if (answer) throw detail::refusal(answer, fields, *this, given);
    return out;
}

// ---- Names and columns ----

inline std::string Table::name_at(size_t place) const {
    Bytes bytes(64);
    size_t used = 0;
    hv_error fields{};
    const auto read = [&] { return hv_table_name(raw(), place, bytes.data(), bytes.size(), &used, &fields); };
    int32_t answer = read();
    if (answer == HV_COLUMN_LENGTH) bytes.resize(fields.first), answer = read();
    if (answer) throw TableError(answer, fields);
    return {bytes.begin(), bytes.begin() + static_cast<std::ptrdiff_t>(used)};
}
inline std::vector<std::string> Table::names() const {
    std::vector<std::string> found;
    for (size_t place = 0; place < size(); place++) found.push_back(name_at(place));
    return found;
}
inline std::optional<size_t> Table::find(const std::string &name) const {
    const hv_table_span text = detail::span_of(name);
    size_t place = 0;
    hv_error fields{};
    const int32_t answer = hv_table_place(raw(), text.at, text.size, &place, &fields);
    if (answer && answer != HV_TABLE_UNKNOWN_NAME) throw TableError(answer, fields);
    return answer ? std::nullopt : std::optional(place);
}
inline bool Table::contains(const std::string &name) const { return find(name).has_value(); }
inline size_t Table::place_of(const std::string &name) const {
    if (const auto place = find(name)) return *place;
    throw detail::no_column(name, names());
}
inline Column Table::column_at(size_t place) const {
    Column column;
    detail::ask([&](auto *error) { return hv_table_column(raw(), place, column.raw(), error); });
    return column;
}
inline const std::vector<NamedColumn> &Table::columns() const {
    if (copies.size() == size()) return copies;
    std::vector<NamedColumn> found;
    for (size_t place = 0; place < size(); place++) found.emplace_back(name_at(place), column_at(place));
    return copies = std::move(found);
}

inline bool Table::equals(const Table &other) const {
    const auto are_equal = [](const NamedColumn &left, const NamedColumn &right) {
        return left.name == right.name && left.logical_type() == right.logical_type() && left.column == right.column;
    };
    return rows() == other.rows() && std::equal(begin(), end(), other.begin(), other.end(), are_equal);
}

namespace detail {

// Texts as a column; where one is not UTF-8, what `refuse` throws.
template <class Refuse> Column texts_or(const std::vector<std::string> &texts, Refuse refuse) {
    try {
        return Column::texts(std::vector<std::string_view>(texts.begin(), texts.end()));
    } catch (const Error &error) {
        if (error.number == HV_TYPE_MISMATCH) refuse();
        throw;
    }
}

} // namespace detail

inline Column Table::texts_of(const std::vector<std::string> &given) const {
    return detail::texts_or(given, [&] {
        for (const std::string &name : given) place_of(name);
    });
}
inline Table Table::select(const std::vector<std::string> &names) const {
    return made(names, {}, hv_call_table_select, texts_of(names).raw());
}
inline Table Table::drop(const std::vector<std::string> &names) const {
    for (const std::string &name : names) place_of(name);
    std::vector<std::string> kept;
    for (const std::string &name : this->names())
        if (std::find(names.begin(), names.end(), name) == names.end()) kept.push_back(name);
    return select(kept);
}
inline Table Table::with_column(const NamedColumn &named) const {
    Table made = clone();
    made.put(named);
    return made;
}
inline Table Table::rename(const std::string &from, const std::string &to) const {
    place_of(from);
    const Column new_names = detail::texts_or(
        {to}, [] { throw TableError(HV_TYPE_MISMATCH, {}, "the name of a column is not UTF-8"); });
    return made({from, to}, {}, hv_call_table_rename, texts_of({from}).raw(), new_names.raw());
}

} // namespace hv
#include "hivevigil_table_rows.hpp"
#include "hivevigil_table_groups.hpp"
#include "hivevigil_table_file.hpp"
#include "hivevigil_table_arrow.hpp"
#endif
#endif
