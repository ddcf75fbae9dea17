// Types, values and rows, as words write them.
#ifndef VECTORS_TYPES_HPP
#define VECTORS_TYPES_HPP
#include "hivevigil.h"
#include "words.hpp"

namespace vectors {

inline constexpr std::array<const char *, 12> type_names{"u8",  "u16", "u32",  "u64",     "i8",   "i16",
                                                         "i32", "i64", "bool", "decimal", "utf8", "binary"};

inline bool is_integer(const hv_kind &kind) { return kind.number < HV_BOOL; }
inline bool is_signed(const hv_kind &kind) { return kind.number >= HV_I8 && kind.number <= HV_I64; }
inline bool is_text(const hv_kind &kind) { return kind.number == HV_UTF8 || kind.number == HV_BINARY; }
// The bytes of an integer of a type, or of a decimal.
inline size_t width_of(const hv_kind &kind) {
    return kind.number == HV_DECIMAL ? 16 : static_cast<size_t>(1) << kind.number % 4;
}
inline hv_kind kind_of_number(int number, bool is_nullable = false) {
    return {static_cast<uint8_t>(number), is_nullable, 0, 0};
}

// Are they the same, except for null?
inline bool same_but_null(const hv_kind &left, const hv_kind &right) {
    return left.number == right.number && left.precision == right.precision && left.scale == right.scale;
}

// The type of the rows of a column; of lists `kind` is the type of their elements.
struct Type {
    hv_kind kind{};
    bool is_list = false, has_null_lists = false;
};

inline std::string word_of(const hv_kind &kind) {
    std::string word = type_names.at(kind.number);
    if (kind.number == HV_DECIMAL)
        word += "(" + std::to_string(kind.precision) + "," + std::to_string(kind.scale) + ")";
    return kind.nullable ? word + "?" : word;
}

inline std::string list_word(const hv_kind &elements, bool has_null_lists) {
    return "list(" + word_of(elements) + (has_null_lists ? ")?" : ")");
}

// Takes a question mark from the end of the word, if it has one there.
inline bool take_mark(std::string &word) {
    const bool is_marked = !word.empty() && word.back() == '?';
    if (is_marked) word.pop_back();
    return is_marked;
}

inline hv_kind read_decimal(const std::string &word) {
    const std::optional<std::string> digits = between(word, "decimal(", ')');
    require(digits.has_value());
    const Words both = split(*digits, ',');
    require(both.size() == 2);
    const uint64_t precision = read_count(both[0]);
    const Wide scale = read_integer(both[1]);
    require(precision <= UINT8_MAX && scale >= INT8_MIN && scale <= INT8_MAX);
    return {HV_DECIMAL, 0, static_cast<uint8_t>(precision), static_cast<int8_t>(scale)};
}

// The type of rows that are not lists.
inline hv_kind read_kind(std::string word) {
    const bool is_nullable = take_mark(word);
    const auto found = std::find(type_names.begin(), type_names.end(), word);
    const bool is_plain = found != type_names.end() && word != "decimal";
    hv_kind kind = is_plain ? kind_of_number(static_cast<int>(found - type_names.begin())) : read_decimal(word);
    kind.nullable = is_nullable;
    return kind;
}

inline Type read_type(const std::string &word) {
    std::string name = word;
    const bool is_nullable = take_mark(name);
    if (const auto inner = between(name, "list(", ')')) return {read_kind(*inner), true, is_nullable};
    return {read_kind(word), false, false};
}

// The number of a type of integers, without a question mark.
inline uint8_t read_integer_type(const std::string &word) {
    const hv_kind kind = read_kind(word);
    require(is_integer(kind) && !kind.nullable);
    return kind.number;
}

// ---- Values and rows ----

struct Value {
    enum Sort { null, truth, integer, text, bytes, list };
    Sort sort;
    Wide number;      // of a boolean 0 or 1
    std::string word; // between the quotes or brackets, or after the x
};

// What is stored, and whether it is null.
struct Row {
    bool is_valid;
    Value value;
};
using Rows = std::vector<Row>;

inline Value read_value(const std::string &word) {
    if (word == "null") return {Value::null, 0, ""};
    if (word == "true" || word == "false") return {Value::truth, word == "true", ""};
    if (starts_with(word, "x")) return {Value::bytes, 0, word.substr(1)};
    if (const auto quoted = between(word, "\"", '"')) return {Value::text, 0, *quoted};
    if (const auto items = between(word, "[", ']')) return {Value::list, 0, *items};
    return {Value::integer, read_integer(word), ""};
}

inline Row read_row(const std::string &word) {
    if (!starts_with(word, "null:")) {
        const Value value = read_value(word);
        return {value.sort != Value::null, value};
    }
    const Value under = read_value(word.substr(5));
    require(under.sort == Value::truth || under.sort == Value::integer);
    return {false, under};
}

inline Rows read_rows(const Words &words) {
    Rows rows;
    for (const std::string &word : words) rows.push_back(read_row(word));
    return rows;
}

inline Row row_of(Wide number) { return {true, {Value::integer, number, ""}}; }
inline Row null_row() { return {false, {Value::null, 0, ""}}; }

// The words of the elements of a list, with commas between them, except within quotes.
inline Words elements_of(const std::string &listed) {
    Words elements(listed.empty() ? 0 : 1);
    bool is_quoted = false, is_escaped = false;
    for (const char letter : listed) {
        if (letter == ',' && !is_quoted) {
            elements.emplace_back();
            continue;
        }
        if (letter == '"' && !is_escaped) is_quoted = !is_quoted;
        is_escaped = letter == '\\' && is_quoted && !is_escaped;
        elements.back() += letter;
    }
    return elements;
}

// The integer or boolean that a row of this type stores.
inline Wide stored_number(const Row &row, const hv_kind &kind) {
    if (!row.is_valid && row.value.sort == Value::null) return 0;
    require(row.value.sort == (kind.number == HV_BOOL ? Value::truth : Value::integer));
    if (!is_integer(kind)) return row.value.number;
    const Wide values = static_cast<Wide>(1) << width_of(kind) * 8, least = is_signed(kind) ? -values / 2 : 0;
    require(row.value.number >= least && row.value.number < least + values);
    return row.value.number;
}

// The text, or the bytes, that a row of this type stores.
inline std::string stored_text(const Row &row, const hv_kind &kind) {
    if (!row.is_valid && row.value.sort == Value::null) return "";
    require(row.value.sort == (kind.number == HV_UTF8 ? Value::text : Value::bytes));
    return kind.number == HV_UTF8 ? text_of_quoted(row.value.word) : bytes_of_digits(row.value.word);
}

} // namespace vectors
#endif
