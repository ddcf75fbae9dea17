// Which values fit a type, and what a call refused in words. Part of hivevigil.hpp, which includes it.
#ifndef HIVEVIGIL_FITS_HPP
#define HIVEVIGIL_FITS_HPP
#include "hivevigil_values.hpp"

namespace hv {

namespace detail {

// ---- Types ----

constexpr hv_kind not_nullable(hv_kind kind) { return {kind.number, 0, kind.precision, kind.scale}; }
inline bool is_signed(hv_kind kind) { return HV_I8 <= kind.number && kind.number <= HV_I64; }
inline bool is_integer(hv_kind kind) { return kind.number <= HV_I64; }
inline int scale_of(hv_kind kind) { return kind.number == HV_DECIMAL ? kind.scale : 0; }

struct Range {
    Wide least, greatest;
    bool has(Wide number) const { return least <= number && number <= greatest; }
};

// The numbers that a column of a numeric type may hold, without their scale. C does not test the precision.
inline Range range_of(hv_kind kind) {
    if (kind.number == HV_DECIMAL) return {wide_least, wide_greatest};
    const int bits = 8 << kind.number % 4;
    if (!is_signed(kind)) return {0, (Wide(1) << bits) - 1};
    return {-(Wide(1) << (bits - 1)), (Wide(1) << (bits - 1)) - 1};
}

// Those of at most `precision` digits; 128 bits have at most 39.
inline Range range_of_values(hv_kind kind) {
    if (kind.number != HV_DECIMAL || kind.precision > 38) return range_of(kind);
    Wide past = 1;
    for (int digit = 0; digit < kind.precision; digit++) past *= 10;
    return {1 - past, past - 1};
}

// ---- Values ----

inline const char *sort_of(const Value &value) {
    static constexpr const char *sorts[] = {"null",      "an integer", "an integer", "a boolean",
                                            "a decimal", "a text",     "bytes",      "a float"};
    return sorts[value.index()];
}

// A number without its scale, and its scale.
struct Number {
    Wide digits;
    int scale;
};

inline std::optional<Number> number_of(const Value &value) {
    if (auto *item = std::get_if<uint64_t>(&value)) return Number{*item, 0};
    if (auto *item = std::get_if<int64_t>(&value)) return Number{*item, 0};
    if (auto *item = std::get_if<Decimal>(&value)) return Number{item->digits(), item->scale};
    return std::nullopt;
}

// A number that a type has, as a value of the type.
inline Value value_of(Wide digits, hv_kind kind) {
    if (kind.number == HV_DECIMAL)
        return Decimal(static_cast<uint64_t>(digits), static_cast<int64_t>(digits >> 64), kind.scale);
    if (is_signed(kind)) return static_cast<int64_t>(digits);
    return static_cast<uint64_t>(digits);
}

// Whether a value may be of a type, by its sort. Lists, and numbers that name no type, are left to the call to refuse.
inline bool may_be(const Value &value, hv_kind kind) {
    switch (kind.number) {
    case HV_BOOL: return std::holds_alternative<bool>(value);
    case HV_UTF8: return std::holds_alternative<std::string>(value);
    case HV_BINARY: return std::holds_alternative<Bytes>(value);
    default: return kind.number >= HV_LIST || number_of(value).has_value();
    }
}

// The value as a row of the type: 7 is 7.00 in decimals of scale 2. Refused as 12 where it is of another sort, and as
// 14 where it is a number that the type does not have: decimals have at most `precision` digits. Null is left to the
// call.
inline Value fitted(const Value &value, hv_kind kind) {
    if (std::holds_alternative<Null>(value) || kind.number >= HV_LIST) return value;
    const auto refuse = [kind](int32_t number, const std::string &what) {
        throw Error(number, {}, what + " does not fit " + to_string(not_nullable(kind)));
    };
    if (!may_be(value, kind)) refuse(HV_TYPE_MISMATCH, sort_of(value));
    const std::optional<Number> number = number_of(value);
    if (!number) return value;
    const AtScale at = at_scale(number->digits, number->scale, scale_of(kind));
    if (at.past || at.rest || !range_of_values(kind).has(at.floor)) refuse(HV_CAST_OUT_OF_RANGE, to_string(value));
    return value_of(at.floor, kind);
}

// A decimal as C has it in a column of this type; refused as 14 where the type does not have it.
inline hv_pair pair_at(Decimal number, hv_kind kind, size_t row) {
    const AtScale at = at_scale(number.digits(), number.scale, kind.scale);
    if (at.past || at.rest || !range_of_values(kind).has(at.floor))
        throw Error(HV_CAST_OUT_OF_RANGE, {},
                    "row " + std::to_string(row) + " is " + to_string(number) + ", which does not fit " +
                        to_string(kind));
    const Decimal same = std::get<Decimal>(value_of(at.floor, kind));
    return {same.low, same.high};
}

// A row as T, null as none. Refused as 12 where it is of another sort, and as 14 where T does not have the number.
template <class T> std::optional<T> optional_of(const Value &value, size_t row) {
    if (std::holds_alternative<Null>(value)) return std::nullopt;
    const std::string before = "row " + std::to_string(row) + " is ";
    if constexpr (is_number<T>) {
        const std::optional<Number> number = number_of(value);
        if (!number || std::holds_alternative<Decimal>(value))
            throw Error(HV_TYPE_MISMATCH, {}, before + sort_of(value) + ", not an integer");
        if (range_of(Native<T>::kind).has(number->digits)) return static_cast<T>(number->digits);
        throw Error(HV_CAST_OUT_OF_RANGE, {},
                    before + to_string(value) + ", which does not fit " + to_string(Native<T>::kind));
    } else {
        if (auto *item = std::get_if<T>(&value)) return *item;
        throw Error(HV_TYPE_MISMATCH, {}, before + sort_of(value) + ", not " + sort_of(Value(T{})));
    }
}

// ---- What a call refused, in words ----

// A value of the column's sort.
inline auto words_of_value(const Value &value, hv_kind kind) {
    return [&value, kind](int32_t answer) -> std::string {
        if (answer == HV_TYPE_MISMATCH && std::holds_alternative<std::string>(value)) return "the text is not UTF-8";
        if (answer == HV_NULL_NOT_ALLOWED) return "null does not fit " + to_string(kind);
        return "";
    };
}

// A column, with its type and its logical type, and a value with which its rows are not compared.
template <class Rows> auto words_of_compared(const Value &value, const Rows &column) {
    return [&](int32_t answer) -> std::string {
        if (answer != HV_TYPE_MISMATCH) return "";
        const hv_kind kind = column.kind();
        const std::string format = column.logical_type(), rows = format.empty() ? "" : " of the logical type " + format;
        if (kind.number == HV_UTF8 && std::holds_alternative<std::string>(value)) return "the text is not UTF-8";
        return to_string(kind) + rows + " is not compared with " + sort_of(value);
    };
}

// A column of another type than the call takes.
inline auto words_of_other(const char *before, hv_kind kind) {
    return [=](int32_t answer) { return answer == HV_TYPE_MISMATCH ? before + to_string(kind) : std::string(); };
}

// Two types that differ.
inline auto words_of_two(hv_kind left, const char *between, hv_kind right) {
    return [=](int32_t answer) {
        return answer == HV_TYPE_MISMATCH ? to_string(left) + between + to_string(right) : std::string();
    };
}

// A type that the call does not serve.
inline auto words_of_type(hv_kind kind, const char *after) {
    return [=](int32_t answer) { return answer == HV_UNSUPPORTED ? to_string(kind) + after : std::string(); };
}

// A group whose sum does not fit the type of sums of these values.
inline std::string words_of_group(hv_kind values, const hv_error &fields) {
    const char *const type = values.number < HV_I8 ? "u64" : "i64";
    return "integer overflow: the sum of group " + std::to_string(fields.first) + " does not fit " + type;
}

// A run at whose end the total does not fit the type of sums of these values.
inline std::string words_of_total(hv_kind values, const hv_error &fields) {
    const char *const type = values.number < HV_I8 ? "u64" : "i64";
    return "integer overflow: the total at the end of run " + std::to_string(fields.first) + " does not fit " + type;
}

// A sum that rows of a type under a format do not have, or that leaves 38 digits.
inline std::string words_of_sum(hv_kind kind, const std::string &format, int32_t answer, const hv_error &fields) {
    if (answer == HV_UNSUPPORTED && is_integer(kind)) return "rows of the logical type " + format + " have no sum";
    if (answer == HV_UNSUPPORTED) return to_string(kind) + " has no sum";
    if (answer != HV_CAST_OUT_OF_RANGE) return "";
    return "decimal overflow: with row " + std::to_string(fields.first) + " the sum leaves 38 digits";
}

inline auto words_of_read(hv_kind kind, hv_kind asked) {
    return [=](int32_t answer) -> std::string {
        if (answer != HV_TYPE_MISMATCH && answer != HV_UNSUPPORTED) return "";
        return to_string(not_nullable(kind)) + " rows are not read as " + to_string(asked);
    };
}

// Texts: the first row that is not null and not UTF-8 is found by asking for each by itself.
inline auto words_of_texts(const std::vector<std::string_view> &rows, const std::vector<bool> *valid) {
    return [&rows, valid](int32_t answer) -> std::string {
        for (size_t row = 0; answer == HV_TYPE_MISMATCH && row < rows.size(); row++) {
            hv_column column = HV_EMPTY;
            if (valid && !(*valid)[row]) continue;
            const int64_t offsets[] = {0, static_cast<int64_t>(rows[row].size())};
            const int32_t by_itself = hv_large_texts(0, offsets, 2, reinterpret_cast<const uint8_t *>(rows[row].data()),
                                                 rows[row].size(), hv_not_nullable(), &column, nullptr);
            hv_free(&column);
            if (by_itself == HV_TYPE_MISMATCH) return "row " + std::to_string(row) + " is not UTF-8";
        }
        return "";
    };
}

} // namespace detail

} // namespace hv
#endif
