// Logical types: what the integers of a column mean (docs/TYPES.md). Rows are read and written by them, and compared.
#ifndef HIVEVIGIL_PROGRAM_LOGICAL_HPP
#define HIVEVIGIL_PROGRAM_LOGICAL_HPP
#include <hivevigil.hpp>
#include <string>

enum class Sort { date, time, timestamp, duration, floating };

// What integers mean.
struct LogicalType {
    Sort sort;
    std::string unit; // "D", "s", "ms", "us", "ns"; of floats their bits: "16", "32", "64"
    std::string zone; // of timestamps, empty where there is none

    // The type that a format of Arrow's C data interface names, as "tsu:UTC"; none where it names no such type.
    static std::optional<LogicalType> of_format(const std::string &format);
    // The type of a name: "date", "date[ms]", "time[us]", "timestamp[us, UTC]", "duration[ms]", "float64".
    static std::optional<LogicalType> of_name(const std::string &name);
    std::string format() const;
    std::string name() const;
    // The type of the integers, without null.
    hv_kind storage() const;
    // The bits of floats.
    int width() const { return std::stoi(unit); }
};

// The type of rows: that of what is stored, and what it means where it means something else.
struct RowType {
    hv_kind kind;
    std::optional<LogicalType> logical;
    bool is_float() const { return logical && logical->sort == Sort::floating; }
    // The format of Arrow that names what it means, or nothing.
    std::string format() const { return logical ? logical->format() : ""; }
};

// The type of the rows of a column, which has no format of Arrow, or one that may be that of other integers.
RowType type_of(const hv::Column &column);
// The type of these words: those of kind_of_text, or the name of a logical type, with a ? after it where rows may be
// null. Throws a Failure.
RowType type_of_text(const std::string &text);
// "i64?", "timestamp[us, UTC]?"
std::string to_string(const RowType &type);

// The value of a field for rows of a type, as it is stored. Throws a Failure that says what the text is not.
hv::Value value_of_text(const std::string &text, const RowType &type);
// The value as a field of a CSV file. Throws a Failure for a date that has no four digits for its year, and for a time
// that is not within a day.
std::string csv_field(const hv::Value &value, const RowType &type);

// Row by row whether it compares so with the value of a text, null where the row is: exactly, also with one that the
// type does not have. Throws a Failure that says what the text is not.
hv::Column compare_with_text(const hv::Column &column, const RowType &type, hv::Operator by, const std::string &text);
// The sum of the rows that are not null, as a field. Throws a Failure where such rows have no sum.
std::string sum_of(const hv::Column &column, const RowType &type);

// Has a column of this type a mean: integers, decimals and floats?
bool has_mean(const RowType &type);
// A sum of rows that have a mean by how many they are: of integers and decimals the exact quotient, and of floats the
// rounded sum, rounded once. None of no rows.
std::optional<double> mean_of_sum(const hv::Value &sum, size_t count);
// The mean of the rows that are not null, of which there are `count`, as a field; nothing where there is none. Throws a
// Failure where such rows have none.
std::string mean_of(const hv::Column &column, const RowType &type, size_t count);

#endif
