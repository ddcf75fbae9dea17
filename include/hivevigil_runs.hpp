// The runs of a column, and what is looked for in them where a call was refused: a part of hivevigil.hpp, which
// includes it.
#ifndef HIVEVIGIL_RUNS_HPP
#define HIVEVIGIL_RUNS_HPP
#include "hivevigil.hpp"
#include <algorithm>

namespace hv {

// The runs of a column, each cut to the window, and looked up where they are.
class Runs {
public:
    explicit Runs(const Column &column) : borrowed(&column) { count_runs(); }
    explicit Runs(Column &&column) : owned(std::move(column)) { count_runs(); }
    size_t size() const { return count; }
    bool empty() const { return count == 0; }
    detail::Walk<Runs> begin() const { return {this, 0}; }
    detail::Walk<Runs> end() const { return {this, count}; }
    // Run `index` of those that the window shows; refused as HV_OUT_OF_BOUNDS past the last.
    Run at(size_t index) const {
        if (index >= count) throw Error(HV_OUT_OF_BOUNDS, {index, count, 0});
        return item(index);
    }
    Run operator[](size_t index) const { return at(index); }
    Run item(size_t index) const {
        if (form == Form::runs) return column().run(first + index);
        if (form == Form::constant) return {0, column().size(), column().at(0)};
        return {index, index + 1, column().at(index)};
    }

private:
    Column owned;
    const Column *borrowed = nullptr;
    size_t first = 0, count = 0;
    Form form = Form::none;

    const Column &column() const { return borrowed ? *borrowed : owned; }
    void count_runs() {
        const size_t rows = column().size();
        form = column().form();
        count = form == Form::constant && rows ? 1 : rows;
        if (form != Form::runs || !rows) return;
        first = column().run_of(0);
        count = column().run_of(rows - 1) + 1 - first;
    }
};

inline Runs Column::runs() const & { return Runs(*this); }
inline Runs Column::runs() && { return Runs(std::move(*this)); }

namespace detail {

// The row with which the sum of the rows before it and of it leaves the range of 64 bits; the number of rows where none
// does.
inline size_t overflowing_row(const Column &column) {
    const Range range = range_of(is_signed(column.kind()) ? kinds::i64 : kinds::u64);
    Wide sum = 0;
    for (const Run &run : column.runs()) {
        const std::optional<Number> number = number_of(run.value);
        if (!number || number->digits == 0) continue;
        const Wide step = number->digits, room = step > 0 ? range.greatest - sum : sum - range.least;
        const Wide rows_that_fit = room / (step > 0 ? step : -step);
        if (rows_that_fit < Wide(run.size())) return run.start + static_cast<size_t>(rows_that_fit);
        sum += step * Wide(run.size());
    }
    return column.size();
}

inline Error overflow(const Column &column) {
    const size_t row = overflowing_row(column);
    const char *const type = is_signed(column.kind()) ? "i64" : "u64";
    return {HV_CAST_OUT_OF_RANGE,
            {row, 0, 0},
            "integer overflow: with row " + std::to_string(row) + " the sum leaves the range of " + type};
}

// The first row that a cast does not serve, as it is stored, in words; empty where there is none.
inline std::string words_of_misfit(const Column &column, hv_kind kind) {
    for (const Run &run : column.with_logical_type("").runs()) {
        const std::string row = "row " + std::to_string(run.start) + " is ";
        if (std::holds_alternative<Null>(run.value)) {
            if (!kind.nullable) return row + "null, which does not fit " + to_string(kind);
        } else if (is_integer(kind) && !range_of(kind).has(number_of(run.value)->digits)) {
            return row + to_string(run.value) + ", which does not fit " + to_string(not_nullable(kind));
        }
    }
    return "";
}

inline std::string words_of_cast(const Column &column, hv_kind kind, int32_t answer) {
    if (answer == HV_UNSUPPORTED) return to_string(column.kind()) + " is not cast to " + to_string(kind);
    const bool is_row = answer == HV_CAST_OUT_OF_RANGE || answer == HV_NULL_NOT_ALLOWED;
    return is_row ? words_of_misfit(column, kind) : "";
}

// Are rows of one type cast to the other as numbers at two scales? Integers have no digits after the point.
inline bool is_scaled(hv_kind from, hv_kind to) {
    if (to.number != HV_DECIMAL) return from.number == HV_DECIMAL && is_integer(to);
    if (from.number != HV_DECIMAL) return is_integer(from);
    return from.precision != to.precision || from.scale != to.scale;
}

inline std::string words_of_scaled(const Column &column, hv_kind kind, int32_t answer, size_t row) {
    if (answer != HV_CAST_OUT_OF_RANGE) return "";
    const std::string value = to_string(column.at(row));
    return "row " + std::to_string(row) + " is " + value + ", which does not fit " + to_string(not_nullable(kind));
}

inline bool same_kind(hv_kind left, hv_kind right) {
    return left.number == right.number && left.nullable == right.nullable && left.precision == right.precision &&
           left.scale == right.scale;
}

// The parts of lists, decoded.
struct Lists {
    Column elements;
    std::vector<uint64_t> offsets, sizes;
    std::vector<bool> valid;

    explicit Lists(const Column &column) : Lists(column.decode(), 0) {}
    Column list(size_t row) const {
        const size_t start = static_cast<size_t>(offsets[row]);
        return elements.slice(start, start + static_cast<size_t>(sizes[row]));
    }

private:
    Lists(const Column &flat, int)
        : elements(flat.list_elements()), offsets(flat.list_offsets().numbers<uint64_t>()),
          sizes(flat.list_sizes().numbers<uint64_t>()), valid(flat.list_validity().truths()) {}
};

inline bool same_lists(const Column &left, const Column &right) {
    const Lists lefts(left), rights(right);
    if (!same_kind(lefts.elements.kind(), rights.elements.kind()) || lefts.valid != rights.valid) return false;
    for (size_t row = 0; row < lefts.valid.size(); row++) {
        if (!lefts.valid[row]) continue;
        if (lefts.sizes[row] != rights.sizes[row] || lefts.list(row) != rights.list(row)) return false;
    }
    return true;
}

} // namespace detail

inline bool Column::same_rows(const Column &other) const {
    if (&other == this) return true;
    if (size() != other.size() || !detail::same_kind(kind(), other.kind())) return false;
    if (kind().number == HV_LIST) return detail::same_lists(*this, other);
    uint8_t truth = !*this; // also of two columns that were moved away
    if (*this) detail::ask([&](auto *error) { return hv_equals(&handle, &other.handle, &truth, error); });
    return truth != 0;
}
inline Column Column::cast(hv_kind kind, const hv_session &session) const {
    if (!detail::is_scaled(this->kind(), kind))
        return made([&](auto *out, auto *error) { return hv_cast(&session, &handle, &kind, out, error); },
                    [&](int32_t answer) { return detail::words_of_cast(*this, kind, answer); });
    hv_error fields{};
    const Column scaled = made(
        [&](auto *out, auto *error) {
            const int32_t answer = kind.number == HV_DECIMAL
                                       ? hv_decimal_cast(&handle, kind.precision, kind.scale, out, &fields)
                                       : hv_decimal_to_integers(&handle, kind.number, out, &fields);
            return *error = fields, answer;
        },
        [&](int32_t answer) { return detail::words_of_scaled(*this, kind, answer, fields.first); });
    return scaled.cast(kind, session);
}
inline Sum Column::sum(const hv_session &session) const {
    hv_total total{};
    hv_error fields{};
    const int32_t answer = hv_sum(&session, &handle, &total, &fields);
    detail::ask([&](auto *error) { return *error = fields, answer; },
                [&](int32_t number) { return detail::words_of_sum(kind(), logical_type(), number, fields); });
    const bool empty = total.empty != 0;
    switch (total.kind) {
    case HV_UNSIGNED: return {total.as_unsigned, empty};
    case HV_SIGNED: return {total.as_signed, empty};
    case HV_SCALED: return {Decimal(total.as_unsigned, total.as_signed, total.scale), empty};
    case HV_DOUBLE: return {detail::double_of(total.as_unsigned), empty};
    default: throw detail::overflow(*this);
    }
}

} // namespace hv
#endif
