// The rows of two columns worked place by place: a part of hivevigil.hpp, which includes it. Null where either row is
// null, but `false & null` is false and `true | null` is true. The answers are in runs, as few as possible, or in a
// constant where both columns are constants; time goes by the runs of both.
//
//     hv::Column total = price * amount + fee;
//     hv::Column due = paid.less_than(total) & ~closed;
//
// Integers are of one type, in which the answer is too. Decimals give decimals, exactly: sums at the greater scale of
// both, in a digit more than either side has there, and products at the sum of the scales, in all digits of both and
// one more, of 38 at most. Decimals of two types are compared, added, subtracted and picked from as decimals of
// hv_decimal_common_kind. Refused as HV_UNSUPPORTED for columns that an operator does not serve, as HV_TYPE_MISMATCH
// for two types, as HV_COLUMN_LENGTH, and as HV_CAST_OUT_OF_RANGE where the type does not have a row, or the answer of
// one, which is the first field; comparisons are not refused so.
#ifndef HIVEVIGIL_PAIRS_HPP
#define HIVEVIGIL_PAIRS_HPP
#include "hivevigil.hpp"
#include "hivevigil_decimals.h"

namespace hv {

namespace detail {

// What is done, as a sentence has it: "u8 and i8 are not added".
inline const char *done_by(Pairing by) {
    switch (by) {
    case Pairing::add: return "added";
    case Pairing::subtract: return "subtracted";
    case Pairing::multiply: return "multiplied";
    case Pairing::both:
    case Pairing::either: return "connected";
    default: return "picked from";
    }
}

// Whether an operator is asked of two columns of decimals that it adds, subtracts or multiplies.
inline bool are_decimals(const Column &left, Pairing by, const Column &right) {
    return by <= Pairing::multiply && left.kind().number == HV_DECIMAL && right.kind().number == HV_DECIMAL;
}

// ---- Decimals of two types ----

inline bool are_of_two_scales(const Column &left, const Column &right) {
    const hv_kind one = left.kind(), other = right.kind();
    return one.number == HV_DECIMAL && other.number == HV_DECIMAL &&
           (one.precision != other.precision || one.scale != other.scale);
}

// The same decimals in another precision and scale and in the form of the column; the row that does not fit is refused
// in words.
inline Column cast_in_form(const Column &column, hv_kind kind) {
    Column made;
    hv_error fields{};
    const int32_t answer = hv_decimal_cast_in_form(column.raw(), kind.precision, kind.scale, made.raw(), &fields);
    ask([&](auto *error) { return *error = fields, answer; },
        [&](int32_t number) { return words_of_scaled(column, kind, number, static_cast<size_t>(fields.first)); });
    return made;
}

// Both columns of decimals as decimals of one type.
inline std::pair<Column, Column> aligned(const Column &left, const Column &right) {
    const hv_kind kind = hv_decimal_common_kind(left.kind(), right.kind());
    Column first = cast_in_form(left, kind);
    return {std::move(first), cast_in_form(right, kind)};
}

inline void check_sizes(const Column &left, const Column &right) {
    if (left.size() != right.size()) throw Error(HV_COLUMN_LENGTH, {left.size(), right.size(), 0});
}

// Whether an operator takes two columns of decimals only at one scale, and these are not: sums and picks.
inline bool are_to_align(const Column &left, Pairing by, const Column &right) {
    if (by == Pairing::add || by == Pairing::subtract)
        return are_of_two_scales(left, right) && left.kind().scale != right.kind().scale;
    return by >= Pairing::coalesce && are_of_two_scales(left, right);
}

// The type of the answers, without null.
inline hv_kind kind_of_answers(const Column &left, Pairing by, const Column &right) {
    const hv_kind one = not_nullable(left.kind()), other = right.kind();
    if (one.number != HV_DECIMAL) return one;
    const bool product = by == Pairing::multiply;
    const int digits = product ? one.precision + other.precision : std::max(one.precision, other.precision);
    const int scale = product ? one.scale + other.scale : one.scale;
    return kinds::decimal(static_cast<uint8_t>(std::min(digits + 1, 38)), static_cast<int8_t>(scale));
}

// "integer overflow: row 3 is 200 + 100, which does not fit u8"
inline std::string words_of_overflow(const Column &left, Pairing by, const Column &right, const hv_error &fields) {
    const char *const sign = by == Pairing::add ? " + " : by == Pairing::subtract ? " - " : " * ";
    const size_t row = static_cast<size_t>(fields.first);
    return (are_decimals(left, by, right) ? "decimal" : "integer") + (" overflow: row " + std::to_string(row)) + " is " +
           to_string(left.at(row)) + sign + to_string(right.at(row)) + ", which does not fit " +
           to_string(kind_of_answers(left, by, right));
}

inline std::string words_of_types(const Column &left, const Column &right) {
    return to_string(not_nullable(left.kind())) + " and " + to_string(not_nullable(right.kind()));
}

inline std::string words_of_pairing(const Column &left, Pairing by, const Column &right, int32_t answer,
                                    const hv_error &fields) {
    if (answer == HV_CAST_OUT_OF_RANGE) return words_of_overflow(left, by, right, fields);
    if (answer != HV_UNSUPPORTED && answer != HV_TYPE_MISMATCH) return "";
    return words_of_types(left, right) + " are not " + done_by(by);
}

// How many digits a number has, 1 at least.
constexpr uint8_t count_digits(Wide number) {
    uint8_t digits = 1;
    for (number /= 10; number != 0; number /= 10) digits++;
    return digits;
}

// The least scale from `least` on at which a number has a place: zeros at its end need none.
constexpr int8_t scale_from(int8_t least, Decimal number) {
    Wide digits = number.digits();
    int8_t scale = number.scale;
    for (; scale > least && digits % 10 == 0; scale--) digits /= 10;
    return std::max(least, scale);
}

// A decimal in each row of a column next to one of decimals: of a product at its own scale, else at that of the column,
// or where it has no place there at the least one where it has. In as few digits as it has.
inline Column decimals_beside(const Column &column, Pairing by, Decimal number) {
    const int8_t scale = by == Pairing::multiply ? number.scale : scale_from(column.kind().scale, number);
    const AtScale there = at_scale(number.digits(), number.scale, scale);
    const uint8_t digits = there.past ? uint8_t{38} : std::min(count_digits(there.floor), uint8_t{38});
    return Column::constant(kinds::decimal(digits, scale), Value(number), column.size());
}

// The number in each row of a column next to this one, of its type; a decimal or an integer next to decimals, as above.
template <class T> Column beside(const Column &column, Pairing by, const T &number) {
    if constexpr (std::is_same_v<T, Decimal>) {
        if (column.kind().number == HV_DECIMAL) return decimals_beside(column, by, number);
    } else if constexpr (std::is_integral_v<T>) {
        const Wide digits = number;
        const Decimal whole(static_cast<uint64_t>(digits), static_cast<int64_t>(digits >> 64), 0);
        if (column.kind().number == HV_DECIMAL) return decimals_beside(column, by, whole);
    }
    return Column::constant(not_nullable(column.kind()), number, column.size());
}

template <class T> using IfNumber = std::enable_if_t<is_number<T> || std::is_same_v<T, Decimal>>;

} // namespace detail

inline Column Column::combine(Pairing by, const Column &right) const {
    if (&right == this) return clone().combine(by, right);
    if (detail::are_to_align(*this, by, right)) {
        detail::check_sizes(*this, right);
        const auto both = detail::aligned(*this, right);
        return both.first.combine(by, both.second);
    }
    Column out;
    hv_error fields{};
    const int32_t answer = hv_combine(&handle, static_cast<uint8_t>(by), &right.handle, &out.handle, &fields);
    if (!answer) return out;
    const std::string words = detail::words_of_pairing(*this, by, right, answer, fields);
    throw words.empty() ? Error(answer, fields) : Error(answer, fields, words);
}

inline Column Column::opposite() const {
    return made([&](auto *out, auto *error) { return hv_not(&handle, out, error); },
                detail::words_of_type(kind(), " has no opposites"));
}
inline Column Column::is_null() const { return part(hv_call_is_null); }
inline Column Column::is_valid() const { return part(hv_call_is_valid); }
inline Column Column::choose(const Column &left, const Column &right) const {
    if (&left == this || &left == &right) return choose(left.clone(), right);
    if (&right == this) return choose(left, right.clone());
    if (kind().number == HV_BOOL && detail::are_of_two_scales(left, right)) {
        detail::check_sizes(left, right);
        detail::check_sizes(*this, left);
        const auto both = detail::aligned(left, right);
        return choose(both.first, both.second);
    }
    const std::string types = detail::words_of_types(left, right);
    return made([&](auto *out, auto *error) { return hv_if_else(&handle, &left.handle, &right.handle, out, error); },
                [&](int32_t answer) { return answer == HV_TYPE_MISMATCH ? types + " are not chosen from" : ""; });
}

inline Column Column::compare(Operator by, const Column &right, const hv_session &session) const {
    if (detail::are_of_two_scales(*this, right)) {
        Column first, second;
        hv_error fields{};
        const int32_t answer = hv_decimal_aligned(&handle, &right.handle, &first.handle, &second.handle, &fields);
        if (!answer) return first.compare(by, second, session);
        if (answer != HV_CAST_OUT_OF_RANGE) throw Error(answer, fields);
        return compared(by, right); // 38 digits do not hold both at one scale
    }
    if (form() != Form::flat || right.form() != Form::flat) return compared(by, right);
    return beside(
        right,
        [&](auto *other, auto *out, auto *error) {
            return hv_compare(&session, &handle, static_cast<uint8_t>(by), other, out, error);
        },
        detail::words_of_two(kind(), " is not compared with ", right.kind()));
}
inline Column Column::compared(Operator by, const Column &right) const {
    if (detail::are_of_two_scales(*this, right))
        return beside(right, [&](auto *other, auto *out, auto *error) {
            return hv_decimal_compare(&handle, static_cast<uint8_t>(by), other, out, error);
        });
    return beside(
        right,
        [&](auto *other, auto *out, auto *error) {
            return hv_combine(&handle, static_cast<uint8_t>(by), other, out, error);
        },
        detail::words_of_two(kind(), " is not compared with ", right.kind()));
}

inline Column operator+(const Column &left, const Column &right) { return left.combine(Pairing::add, right); }
inline Column operator-(const Column &left, const Column &right) { return left.combine(Pairing::subtract, right); }
inline Column operator*(const Column &left, const Column &right) { return left.combine(Pairing::multiply, right); }
inline Column operator&(const Column &left, const Column &right) { return left.combine(Pairing::both, right); }
inline Column operator|(const Column &left, const Column &right) { return left.combine(Pairing::either, right); }
// The other boolean of each, null for null.
inline Column operator~(const Column &column) { return column.opposite(); }

// The same with a number, which the column's type has; next to decimals with a decimal or an integer.
template <class T, class = detail::IfNumber<T>> Column operator+(const Column &left, const T &right) {
    return left + detail::beside(left, Pairing::add, right);
}
template <class T, class = detail::IfNumber<T>> Column operator-(const Column &left, const T &right) {
    return left - detail::beside(left, Pairing::subtract, right);
}
template <class T, class = detail::IfNumber<T>> Column operator*(const Column &left, const T &right) {
    return left * detail::beside(left, Pairing::multiply, right);
}
template <class T, class = detail::IfNumber<T>> Column operator+(const T &left, const Column &right) {
    return detail::beside(right, Pairing::add, left) + right;
}
template <class T, class = detail::IfNumber<T>> Column operator-(const T &left, const Column &right) {
    return detail::beside(right, Pairing::subtract, left) - right;
}
template <class T, class = detail::IfNumber<T>> Column operator*(const T &left, const Column &right) {
    return detail::beside(right, Pairing::multiply, left) * right;
}

} // namespace hv
#endif
