// Casts to decimals and from decimals in C++, against integers of 128 bits that are cast row by row.
#include "hivevigil.hpp"
#include <cstdlib>
#include <iostream>

using hv::Column;
using hv::Decimal;
using hv::Value;
using Wide = hv::detail::Wide;
using Rows = std::vector<std::optional<int64_t>>;

static void check(bool holds, const char *what) {
    if (holds) return;
    std::cerr << "does not hold: " << what << "\n";
    std::exit(1);
}
#define CHECK(what) check((what), #what)

// The call is refused by this number, in this sentence.
template <class Call> static void check_refused(int32_t number, const std::string &sentence, Call call) {
    try {
        call();
    } catch (const hv::Error &error) {
        if (error.number == number && sentence == error.what()) return;
        std::cerr << error.number << ": " << error.what() << "\nand not\n" << number << ": " << sentence << "\n";
        std::exit(1);
    }
    std::cerr << "not refused: " << sentence << "\n";
    std::exit(1);
}

// A number of one scale at another, or none.
static std::optional<Wide> at_scale(Wide number, int from, int to) {
    for (; from < to; from++) number *= 10;
    for (; from > to; from--, number /= 10)
        if (number % 10 != 0) return std::nullopt;
    return number;
}

// A cast of these numbers at a scale to a type of digits at `to` that lie between two bounds.
static void check_cast(const Column &column, const Rows &rows, int scale, hv_kind kind, Wide least, Wide greatest) {
    std::vector<std::optional<Wide>> due;
    for (size_t row = 0; row < rows.size(); row++) {
        const auto number = rows[row] ? at_scale(*rows[row], scale, kind.scale) : std::nullopt;
        if (rows[row] && (!number || *number < least || *number > greatest)) {
            const std::string value = to_string(Value(Decimal::of(*rows[row], static_cast<int8_t>(scale))));
            check_refused(HV_CAST_OUT_OF_RANGE,
                          "row " + std::to_string(row) + " is " + value + ", which does not fit " + hv::to_string(kind),
                          [&] { (void)column.cast(hv::nullable(kind)); });
            return;
        }
        due.push_back(number);
    }
    const Column made = column.cast(hv::nullable(kind));
    CHECK(hv::to_string(made.kind()) == hv::to_string(hv::nullable(kind)) && made.size() == rows.size());
    for (size_t row = 0; row < rows.size(); row++) {
        const Value shown = made.at(row);
        CHECK(std::holds_alternative<hv::Null>(shown) == !due[row]);
        if (!due[row]) continue;
        const Decimal wanted = Decimal::of(static_cast<int64_t>(*due[row]), kind.scale);
        CHECK(to_string(shown) == to_string(Value(wanted)));
    }
}

// Rows flat and in runs, as decimals of two places.
static void check_decimals(const Rows &rows, hv_kind kind, Wide least, Wide greatest) {
    std::vector<Decimal> items;
    std::vector<bool> valid;
    for (const auto &row : rows) items.push_back(Decimal::of(row.value_or(0), 2)), valid.push_back(row.has_value());
    const Column flat = Column::decimals(items, 20, 2, &valid), runs = flat.encode_rows();
    check_cast(flat, rows, 2, kind, least, greatest);
    check_cast(runs, rows, 2, kind, least, greatest);
}

int main() {
    const auto none = std::nullopt;
    const Rows rows{1050, 1050, none, -3000, 0}, whole{700, 700, none, -12800, 12700};
    for (int scale = -3; scale < 6; scale++) {
        check_decimals(rows, hv::kinds::decimal(12, static_cast<int8_t>(scale)), -999999999999, 999999999999);
        check_decimals(rows, hv::kinds::decimal(4, static_cast<int8_t>(scale)), -9999, 9999);
    }
    check_decimals({}, hv::kinds::decimal(4, 1), -9999, 9999);
    check_decimals(whole, hv::kinds::i8, INT8_MIN, INT8_MAX);
    check_decimals(whole, hv::kinds::u8, 0, UINT8_MAX);
    check_decimals({100, none, 150}, hv::kinds::i64, INT64_MIN, INT64_MAX);
    const Column counts = Column::of(std::vector<int32_t>{7, 7, -3});
    check_cast(counts, {7, 7, -3}, 0, hv::kinds::decimal(10, 2), -9999999999, 9999999999);
    check_cast(counts.encode_rows(), {7, 7, -3}, 0, hv::kinds::decimal(2, 2), -99, 99);
    CHECK(counts.cast(hv::kinds::decimal(10, 2)).cast(hv::kinds::i32) == counts);
    std::cout << "integers and decimals are cast as integers of 128 bits are\n";
}
