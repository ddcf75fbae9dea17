// Tables in files, over hivevigil_table_file.h: the messages of their columns and a footer, as docs/table.proto and
// docs/BYTES.md say it. A part of hivevigil_table.hpp, which includes it.
//
//     table.save("readings.hv");
//     hv::Table part = hv::Table::load("readings.hv", {"station", "level"});
//     if (hv::Table::footer("readings.hv").may_have("level", hv::Operator::greater, 903)) use(part);
#ifndef HIVEVIGIL_TABLE_FILE_HPP
#define HIVEVIGIL_TABLE_FILE_HPP
#include "hivevigil_table.hpp"

namespace hv {

// What the footer of a file says of a column.
struct ColumnFooter {
    std::string name, logical_type;
    size_t size = 0;                        // of its message in bytes
    std::optional<uint64_t> nulls, runs;    // not of lists
    std::optional<Form> form_as_differences; // flat or runs, of a column that is kept as differences
    Column bounds; // the least and the greatest row that are not null, no row where all are; no column of lists

    // The least row that is not null; Null where there is none.
    Value least() const { return bounds.empty() ? Value() : bounds.at(0); }
    Value greatest() const { return bounds.empty() ? Value() : bounds.at(1); }
    // Whether `row by value` may be true of a row, as Table::filter_by has it: where not, the column need not be read.
    template <class T> bool may_have(Operator by, const T &value) const {
        if (!bounds) return true;
        const Value right = detail::written(value, bounds.kind());
        const detail::Passed passed = detail::compared_with(right);
        const hv_table_condition asked{"", static_cast<uint8_t>(by), &passed.value, passed.text, passed.size};
        uint8_t truth = 0;
        detail::ask([&](auto *error) { return hv_table_may_hold(bounds.raw(), &asked, &truth, error); },
                    detail::words_of_compared(right, bounds));
        return truth != 0;
    }
};

// What the footer of a file says: how many rows the table has, and of each column where its rows are within.
struct TableFooter {
    size_t rows = 0;
    std::vector<ColumnFooter> columns;

    // The column of a name, refused as HV_TABLE_UNKNOWN_NAME.
    const ColumnFooter &operator[](const std::string &name) const { return columns[detail::place_of(columns, name)]; }
    template <class T> bool may_have(const std::string &name, Operator by, const T &value) const {
        const ColumnFooter &column = (*this)[name];
        return detail::about_column(name, [&] { return column.may_have(by, value); });
    }
};

namespace detail {

// Does the file begin as that of a table? That of a column begins otherwise.
inline bool begins_as_table(const StoredFile &file) { return file.read(0, 1) == Bytes{1 * 8 + HV_TABLE_SIZED}; }

inline std::string with_commas(size_t number) {
    std::string digits = std::to_string(number);
    for (size_t end = digits.size(); end > 3;) digits.insert(end -= 3, ",");
    return digits;
}

// What is asked of a file of a table; one that is damaged, or over its limit, is refused by its name.
template <class Call> void ask_table(const StoredFile &file, Call call) {
    ask_file(file.path(), [&](auto *error) {
        char text[HV_ERROR_TEXT];
        const int32_t answer = call(error);
        if (answer == HV_TABLE_OVER_LIMIT)
            throw TableError(answer, *error, file.path() + ": " + hv_table_error_text(answer, error, text));
        if (answer != HV_BAD_METADATA) return answer;
        throw TableError(answer, {}, file.path() + ", of " + with_commas(file.size()) +
                                         " bytes, is not the file of a table");
    });
}

// The footer of a file, from which the columns are read.
class StoredFooter {
public:
    explicit StoredFooter(const StoredFile &of) : file(of) {
        ask_table(file, [&](auto *error) { return hv_table_footer_of(file.raw(), &all, error); });
    }
    ~StoredFooter() { hv_table_footer_free(&all); }
    StoredFooter(const StoredFooter &) = delete;
    StoredFooter &operator=(const StoredFooter &) = delete;
    size_t rows() const { return all.rows; }
    size_t size() const { return all.count; }
    std::string name(size_t place) const { return {all.columns[place].name, all.columns[place].name_size}; }
    std::vector<std::string> names() const {
        std::vector<std::string> found;
        for (size_t place = 0; place < size(); place++) found.push_back(name(place));
        return found;
    }
    std::string logical_type(size_t place) const {
        return {all.columns[place].logical_type, all.columns[place].logical_type_size};
    }
    ColumnFooter column_footer(size_t place) const {
        const hv_column_footer &known = all.columns[place];
        ColumnFooter footer{name(place), logical_type(place), known.size, {}, {}, {}, {}};
        if (hv_is_empty(&known.bounds)) return footer;
        footer.nulls = known.nulls, footer.runs = known.runs;
        const hv_table_span format = span_of(footer.logical_type);
        ask([&](auto *error) {
            return hv_with_type(&known.bounds, format.at, format.size, footer.bounds.raw(), error);
        });
        if (known.kept) footer.form_as_differences = known.kept == HV_TABLE_KEPT_FLAT ? Form::flat : Form::runs;
        return footer;
    }
    // Tests that the columns at these places are within a limit.
    void check_limit(const std::vector<size_t> &places, Limit limit) const {
        ask_table(file, [&](auto *error) {
            return hv_table_check_limit(&all, places.data(), places.size(), limit.bytes, error);
        });
    }
    // The column, which is held against what the footer says of it.
    NamedColumn column(size_t place) const {
        Column found;
        ask_table(file,
                  [&](auto *error) { return hv_table_column_at(file.raw(), &all, place, found.raw(), error); });
        return {name(place), std::move(found), logical_type(place)};
    }

private:
    const StoredFile &file;
    hv_table_footer all = HV_TABLE_FOOTER_EMPTY;
};

inline TableFooter read_footer(const StoredFile &file) {
    const StoredFooter found(file);
    TableFooter footer;
    footer.rows = found.rows();
    for (size_t place = 0; place < found.size(); place++) footer.columns.push_back(found.column_footer(place));
    return footer;
}

// The columns of these names, each once, in this order, or all, within a limit.
inline Table read_table(const StoredFile &file, const std::vector<std::string> *names,
                        Limit limit = Limit(HV_TABLE_LIMIT)) {
    const StoredFooter footer(file);
    std::map<std::string, size_t> known;
    std::vector<size_t> places;
    for (size_t place = 0; place < footer.size(); place++) known.emplace(footer.name(place), place);
    if (names) refuse_twice(*names);
    for (const std::string &name : names ? *names : std::vector<std::string>()) {
        const auto found = known.find(name);
        if (found == known.end()) throw no_column(name, footer.names());
        places.push_back(found->second);
    }
    for (size_t place = 0; !names && place < footer.size(); place++) places.push_back(place);
    footer.check_limit(places, limit);
    std::vector<NamedColumn> columns;
    for (size_t place : places) columns.push_back(footer.column(place));
    return Table(std::move(columns), footer.rows());
}

} // namespace detail

inline Bytes Table::to_bytes(bool differences) const {
    detail::Buffer bytes;
    detail::ask([&](auto *error) { return hv_table_to_bytes(raw(), differences, bytes.raw(), error); });
    return bytes.bytes();
}
inline void Table::save(const std::string &path, bool differences) const {
    detail::ask_file(path, [&](auto *error) { return hv_table_save(raw(), path.c_str(), differences, error); });
}
inline Table Table::from_bytes(Bytes bytes) { return from_bytes(std::move(bytes), Limit(HV_TABLE_LIMIT)); }
inline Table Table::from_bytes(Bytes bytes, Limit limit) {
    return detail::read_table(StoredFile(std::move(bytes), "Table::from_bytes"), nullptr, limit);
}
inline Table Table::load(const std::string &path) { return load(path, Limit(HV_TABLE_LIMIT)); }
inline Table Table::load(const std::string &path, Limit limit) {
    return detail::read_table(StoredFile(path), nullptr, limit);
}
inline Table Table::load(const std::string &path, const std::vector<std::string> &names) {
    return load(path, names, Limit(HV_TABLE_LIMIT));
}
inline Table Table::load(const std::string &path, const std::vector<std::string> &names, Limit limit) {
    return detail::read_table(StoredFile(path), &names, limit);
}
inline TableFooter Table::footer(const std::string &path) { return detail::read_footer(StoredFile(path)); }

} // namespace hv
#endif
