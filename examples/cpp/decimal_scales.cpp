// Decimals of two precisions and scales in C++: compared, added, subtracted, picked and joined, in every form, and with
// single numbers. The answers due are worked with the digits of each number, written as text; then refusals.
#include "hivevigil_table.hpp"
#include <cstdlib>
#include <functional>
#include <iostream>
#include <random>

using hv::Column;
using hv::Decimal;
using hv::Form;
using hv::Operator;
using hv::Pairing;
using hv::Value;
using Wide = hv::detail::Wide;

static void check(bool holds, const char *what) {
    if (holds) return;
    std::cerr << "does not hold: " << what << "\n";
    std::exit(1);
}
#define CHECK(what) check((what), #what)

// The call is refused by this number, with this row, in this sentence.
template <class Call>
static void check_refused(int32_t number, uint64_t first, const std::string &sentence, Call call) {
    try {
        call();
    } catch (const hv::Error &error) {
        if (error.number == number && error.fields.first == first && sentence == error.what()) return;
        std::cerr << error.number << " (" << error.fields.first << "): " << error.what() << "\nand not\n"
                  << number << " (" << first << "): " << sentence << "\n";
        std::exit(1);
    }
    std::cerr << "not refused: " << sentence << "\n";
    std::exit(1);
}

static std::mt19937_64 engine(29);
static int below(int count) { return static_cast<int>(engine() % static_cast<uint64_t>(count)); }

// ---- Numbers as text ----

static constexpr int least_scale = -5, greatest_scale = 20;

// The digits of a number that is not negative, without zeros before them; of 0 none.
static std::string digits_of(Wide number) {
    std::string text;
    for (; number != 0; number /= 10) text.insert(text.begin(), static_cast<char>('0' + static_cast<int>(number % 10)));
    return text;
}

// A number: its sign, and its digits in units of the last place of `greatest_scale`.
struct Number {
    bool negative;
    std::string digits;

    Number(Wide number, int scale) : negative(number < 0), digits(digits_of(number < 0 ? -number : number)) {
        if (!digits.empty()) digits.append(static_cast<size_t>(greatest_scale - scale), '0');
    }
    // Its digits at a scale that it has.
    std::string at(int scale) const {
        return digits.empty() ? digits : digits.substr(0, digits.size() - static_cast<size_t>(greatest_scale - scale));
    }
    Wide wide_at(int scale) const {
        Wide number = 0;
        for (char digit : at(scale)) number = number * 10 + (digit - '0');
        return negative ? -number : number;
    }
};

static int order_of(const Number &left, const Number &right) {
    if (left.negative != right.negative) return left.negative ? -1 : 1;
    const size_t one = left.digits.size(), other = right.digits.size();
    const int order = one != other ? (one < other ? -1 : 1) : left.digits.compare(right.digits);
    return left.negative ? -order : order;
}

static bool holds(Operator by, int order) {
    switch (by) {
    case Operator::equal: return order == 0;
    case Operator::not_equal: return order != 0;
    case Operator::greater: return order > 0;
    case Operator::greater_or_equal: return order >= 0;
    case Operator::less: return order < 0;
    default: return order <= 0;
    }
}

// ---- Columns ----

using Cell = std::optional<Wide>;
struct Rows {
    int precision, scale;
    bool nullable;
    std::vector<Cell> cells;
    Number at(size_t row) const { return {*cells[row], scale}; }
    hv_kind kind() const { return hv::kinds::decimal(static_cast<uint8_t>(precision), static_cast<int8_t>(scale)); }
};

static Wide power_of_ten(int digits) {
    Wide power = 1;
    for (; digits > 0; digits--) power *= 10;
    return power;
}

// Of some digits, of all that the precision has, and 0; with zeros at their ends as often as not.
static Wide some_number(int precision) {
    const int digits = 1 + below(precision), zeros = below(digits + 1);
    const Wide some = (Wide(engine() >> 4) << 60 ^ Wide(engine() >> 4)) % power_of_ten(digits);
    const Wide sign = below(2) ? 1 : -1;
    switch (below(6)) {
    case 0: return sign * (power_of_ten(precision) - 1);
    case 1: return 0;
    case 2: return sign * some;
    default: return sign * (some / power_of_ten(zeros) * power_of_ten(zeros));
    }
}

// Rows that often repeat the one before, and often are those of another column where the type has them.
static Rows random_rows(size_t count, const Rows *other) {
    Rows rows{below(3) ? 1 + below(38) : 38 - below(9), least_scale + below(greatest_scale - least_scale + 1),
              below(4) > 0,
              {}};
    if (below(3) == 0) rows.precision = rows.precision / 4 + 1;
    if (other && below(3) == 0) rows.scale = other->scale;
    if (other && below(3) == 0) rows.precision = other->precision;
    for (size_t row = 0; row < count; row++) {
        Cell cell = row && below(3) ? rows.cells[row - 1] : Cell(some_number(rows.precision));
        if (rows.nullable && below(6) == 0) cell.reset();
        const bool is_near = other && other->cells[row] && other->scale <= rows.scale && below(2);
        if (is_near && other->at(row).at(rows.scale).size() <= static_cast<size_t>(rows.precision))
            cell = other->at(row).wide_at(rows.scale);
        rows.cells.push_back(cell);
    }
    return rows;
}

// Flat, in runs, in a part of runs, or a constant, whose rows are then all the same.
static Column column_in(int form, Rows &rows) {
    if (form == 3 && !rows.cells.empty()) {
        for (Cell &cell : rows.cells) cell = rows.cells[0];
        const Cell cell = rows.cells[0];
        const hv_kind kind = rows.nullable ? hv::nullable(rows.kind()) : rows.kind();
        Value value;
        if (cell) value = hv::detail::value_of(*cell, kind);
        return Column::constant(kind, value, rows.cells.size());
    }
    std::vector<hv_pair> pairs;
    std::vector<bool> valid;
    const size_t before = form == 2;
    if (before) pairs.push_back({UINT64_MAX, INT64_MAX}), valid.push_back(true);
    for (const Cell &cell : rows.cells) {
        const Wide number = cell.value_or(7);
        pairs.push_back({static_cast<uint64_t>(number), static_cast<int64_t>(number >> 64)});
        valid.push_back(cell.has_value());
    }
    const hv_kind kind = rows.kind();
    const Column flat = Column::decimals(pairs, kind.precision, kind.scale, rows.nullable ? &valid : nullptr);
    return form == 0 ? flat.clone() : flat.encode_rows().slice(before, pairs.size());
}

// ---- What is due ----

static std::string shown(const Rows &rows, size_t row) {
    return to_string(std::get<Decimal>(hv::detail::value_of(*rows.cells[row], rows.kind())));
}

// The rows of both at the greater scale, in as many digits before the point as either has, or what refuses them.
struct Aligned {
    Rows left, right;
    size_t row = 0;
    std::string refused;

    Aligned(const Rows &one, const Rows &other) : left(one), right(other) {
        const int scale = std::max(one.scale, other.scale);
        const int digits = std::max(one.precision - one.scale, other.precision - other.scale) + scale;
        bring(one, left, scale, std::min(digits, 38));
        if (refused.empty()) bring(other, right, scale, std::min(digits, 38));
    }

private:
    void bring(const Rows &rows, Rows &to, int scale, int precision) {
        to.scale = scale, to.precision = precision;
        for (size_t at = 0; at < rows.cells.size(); at++) {
            if (!rows.cells[at]) continue;
            if (rows.at(at).at(scale).size() > static_cast<size_t>(precision)) {
                row = at;
                refused = "row " + std::to_string(row) + " is " + shown(rows, row) + ", which does not fit " +
                          hv::to_string(to.kind());
                return;
            }
            to.cells[at] = rows.at(at).wide_at(scale);
        }
    }
};

static void check_column(const Column &found, const std::vector<Cell> &due, hv_kind kind, const std::string &form) {
    CHECK(found.kind().number == HV_DECIMAL && found.kind().precision == kind.precision);
    CHECK(found.kind().scale == kind.scale && found.size() == due.size());
    CHECK(form == (found.form() == Form::flat ? "flat" : found.form() == Form::runs ? "runs" : "a constant"));
    for (size_t row = 0; row < due.size(); row++) {
        const std::optional<Decimal> item = found.get<Decimal>(row);
        CHECK(item.has_value() == due[row].has_value() && (!item || item->digits() == *due[row]));
    }
}

// ---- Two columns ----

static const Operator operators[] = {Operator::equal,           Operator::not_equal, Operator::greater,
                                     Operator::greater_or_equal, Operator::less,      Operator::less_or_equal};

// In runs by name, and with the session's kernels in the forms that they have.
static void check_compared(const Column &a, const Rows &left, const Column &b, const Rows &right) {
    const Operator by = operators[below(6)];
    const Column named = by == Operator::equal              ? a.equal_to(b)
                         : by == Operator::not_equal        ? a.not_equal_to(b)
                         : by == Operator::greater          ? a.greater_than(b)
                         : by == Operator::greater_or_equal ? a.at_least(b)
                         : by == Operator::less             ? a.less_than(b)
                                                            : a.at_most(b);
    const Column mask = a.compare(by, b);
    CHECK(named.size() == left.cells.size() && mask.size() == left.cells.size());
    CHECK(named.kind().number == HV_BOOL && named.kind().nullable == (left.nullable || right.nullable));
    const bool are_constants = a.form() == Form::constant && b.form() == Form::constant;
    CHECK(named.form() == (are_constants ? Form::constant : Form::runs));
    for (size_t row = 0; row < left.cells.size(); row++) {
        std::optional<bool> due;
        if (left.cells[row] && right.cells[row]) due = holds(by, order_of(left.at(row), right.at(row)));
        CHECK(named.get<bool>(row) == due && mask.get<bool>(row) == due);
    }
}

// Sums or differences of rows at one scale, and the first row where one has more digits than the type.
struct Sums {
    hv_kind kind;
    std::vector<Cell> cells;
    std::string refused;

    Sums(const Rows &left, bool is_sum, const Rows &right) : kind(left.kind()) {
        kind.precision = static_cast<uint8_t>(std::min(std::max(left.precision, right.precision) + 1, 38));
        for (size_t row = 0; row < left.cells.size() && refused.empty(); row++) {
            Wide made = 0;
            const bool is_valid = left.cells[row] && right.cells[row];
            const Wide one = left.cells[row].value_or(0), other = right.cells[row].value_or(0);
            const bool is_wide =
                is_sum ? __builtin_add_overflow(one, other, &made) : __builtin_sub_overflow(one, other, &made);
            if (is_valid && (is_wide || digits_of(made < 0 ? -made : made).size() > kind.precision))
                refused = "decimal overflow: row " + std::to_string(row) + " is " + shown(left, row) +
                          (is_sum ? " + " : " - ") + shown(right, row) + ", which does not fit " + hv::to_string(kind);
            else cells.push_back(is_valid ? Cell(made) : Cell());
        }
    }
};

// Sums and differences: of one scale in the precisions of both, else as decimals of one type.
static void check_sums(const Column &a, const Rows &left, const Column &b, const Rows &right, const std::string &form) {
    const bool is_sum = below(2), is_one_scale = left.scale == right.scale;
    const Aligned both(left, right);
    const auto work = [&] { return is_sum ? a + b : a - b; };
    if (!is_one_scale && !both.refused.empty())
        return check_refused(HV_CAST_OUT_OF_RANGE, both.row, both.refused, [&] { (void)work(); });
    const Sums due(is_one_scale ? left : both.left, is_sum, is_one_scale ? right : both.right);
    if (due.refused.empty()) return check_column(work(), due.cells, due.kind, form);
    check_refused(HV_CAST_OUT_OF_RANGE, due.cells.size(), due.refused, [&] { (void)work(); });
}

// The first that is not null, the lesser, the greater, and what a mask chooses.
static void check_picks(const Column &a, const Rows &left, const Column &b, const Rows &right,
                        const std::string &form) {
    static const Pairing pairings[] = {Pairing::coalesce, Pairing::lesser, Pairing::greater};
    const Pairing by = pairings[below(3)];
    const Aligned both(left, right);
    std::vector<std::optional<bool>> flags;
    for (size_t row = 0; row < left.cells.size(); row++)
        flags.push_back(below(4) ? std::optional<bool>(below(2)) : std::nullopt);
    const Column mask = Column::of(flags);
    const bool is_one_type = left.scale == right.scale && left.precision == right.precision;
    if (!is_one_type && !both.refused.empty()) {
        check_refused(HV_CAST_OUT_OF_RANGE, both.row, both.refused, [&] { (void)a.combine(by, b); });
        check_refused(HV_CAST_OUT_OF_RANGE, both.row, both.refused, [&] { (void)mask.choose(a, b); });
        return;
    }
    std::vector<Cell> due, chosen;
    for (size_t row = 0; row < left.cells.size(); row++) {
        const Cell one = both.left.cells[row], other = both.right.cells[row];
        const bool is_left = one && other && order_of(left.at(row), right.at(row)) < 0;
        const Cell lesser = is_left ? one : other, greater = is_left ? other : one;
        if (by == Pairing::coalesce) due.push_back(one ? one : other);
        else due.push_back(!one || !other ? Cell() : by == Pairing::lesser ? lesser : greater);
        chosen.push_back(!flags[row] ? Cell() : *flags[row] ? one : other);
    }
    check_column(a.combine(by, b), due, both.left.kind(), form);
    check_column(mask.choose(a, b), chosen, both.left.kind(), "runs");
}

// Two tables of a column, one after the other.
static void check_appended(const Column &a, const Rows &left, const Column &b, const Rows &right) {
    const hv::Table first({{"price", a}}), second({{"price", b}});
    const Aligned both(left, right);
    const bool is_one_type = left.scale == right.scale && left.precision == right.precision;
    if (!is_one_type && !both.refused.empty()) {
        check_refused(HV_CAST_OUT_OF_RANGE, both.row, "column 'price': " + both.refused,
                      [&] { (void)first.append(second); });
        return;
    }
    const hv::Table made = first.append(second);
    std::vector<Cell> due = both.left.cells;
    due.insert(due.end(), both.right.cells.begin(), both.right.cells.end());
    const bool is_one_kind = is_one_type && a.kind().nullable == b.kind().nullable; // which the library appends
    const bool are_runs = is_one_kind || (a.form() != Form::flat && b.form() != Form::flat);
    check_column(made["price"], due, both.left.kind(), are_runs ? "runs" : "flat");
}

static void check_pair() {
    const size_t count = static_cast<size_t>(below(20));
    Rows left = random_rows(count, nullptr);
    const Column a = column_in(below(4), left);
    Rows right = random_rows(count, &left);
    const Column b = column_in(below(4), right);
    const bool are_constants = a.form() == Form::constant && b.form() == Form::constant && count;
    const std::string given = are_constants ? "a constant" : "runs";
    check_compared(a, left, b, right);
    check_sums(a, left, b, right, given);
    check_picks(a, left, b, right, given);
    check_appended(a, left, b, right);
    check_compared(a, left, a, left);
}

// ---- One number ----

// Comparisons with a decimal of any scale, and with an integer.
static void check_compared_with(const Column &column, const Rows &rows, Decimal number, const Number &one) {
    const Operator by = operators[below(6)];
    const Column mask = column.compare(by, number);
    for (size_t row = 0; row < rows.cells.size(); row++) {
        std::optional<bool> due;
        if (rows.cells[row]) due = holds(by, order_of(rows.at(row), one));
        CHECK(mask.get<bool>(row) == due);
    }
    if (number.scale != 0) return;
    const Column same = column.compare(by, static_cast<int64_t>(number.digits()));
    for (size_t row = 0; row < rows.cells.size(); row++) CHECK(same.at(row) == mask.at(row));
}

// The number in each row, at the scale of the column, or where it has no place there at the least that has one.
static Rows rows_of(Wide digits, int scale, const Rows &column) {
    for (; scale > column.scale && digits % 10 == 0; scale--) digits /= 10;
    for (; scale < column.scale; scale++) digits *= 10;
    const size_t count = digits_of(digits < 0 ? -digits : digits).size();
    return {std::max(1, static_cast<int>(count)), scale, false, std::vector<Cell>(column.cells.size(), Cell(digits))};
}

static void check_number() {
    Rows rows = random_rows(static_cast<size_t>(1 + below(9)), nullptr);
    const Column column = column_in(below(4), rows);
    const int precision = 1 + below(13), scale = least_scale + below(greatest_scale - least_scale + 1);
    const Decimal number = Decimal::of(static_cast<int64_t>(some_number(precision)), static_cast<int8_t>(scale));
    check_compared_with(column, rows, number, Number(number.digits(), scale));
    const Rows one = rows_of(number.digits(), scale, rows);
    const Aligned both(rows, one);
    const bool is_one_scale = one.scale == rows.scale;
    if (!is_one_scale && !both.refused.empty())
        return check_refused(HV_CAST_OUT_OF_RANGE, both.row, both.refused, [&] { (void)(column + number); });
    const Sums due(is_one_scale ? rows : both.left, true, is_one_scale ? one : both.right);
    const std::string form = column.form() == Form::constant ? "a constant" : "runs";
    if (!due.refused.empty())
        return check_refused(HV_CAST_OUT_OF_RANGE, due.cells.size(), due.refused, [&] { (void)(column + number); });
    check_column(column + number, due.cells, due.kind, form);
    check_column(number + column, due.cells, due.kind, form);
}

// Two numbers by themselves, near the ends of 128 bits and of scales too.
static void check_numbers() {
    const std::vector<Decimal> ascending{{0, INT64_MIN, -128},  Decimal::of(-1, -128), {0, INT64_MIN, 0},
                                         Decimal::of(-101, 2),  Decimal::of(-1005, 3), Decimal::of(-1, 127),
                                         Decimal::of(0, 5),     Decimal::of(1, 127),   Decimal::of(1005, 3),
                                         Decimal::of(101, 2),   {UINT64_MAX, INT64_MAX, 1},
                                         {UINT64_MAX, INT64_MAX, 0}, Decimal::of(1, -128)};
    for (size_t one = 0; one < ascending.size(); one++)
        for (size_t other = 0; other < ascending.size(); other++) {
            const Decimal left = ascending[one], right = ascending[other];
            CHECK((left < right) == (one < other) && (left <= right) == (one <= other));
            CHECK((left > right) == (one > other) && (left >= right) == (one >= other));
            CHECK((left == right) == (one == other));
        }
    CHECK(Decimal::of(1050, 2) <= Decimal::of(105, 1) && !(Decimal::of(1050, 2) < Decimal::of(105, 1)));
}

// ---- Refusals ----

static void check_refusals() {
    const auto one = [](int64_t number, uint8_t precision, int8_t scale) {
        return Column::decimals({Decimal::of(number, scale)}, precision, scale);
    };
    const Column cents = one(500, 4, 2), far = one(0, 4, 126), two = Column::constant(hv::kinds::decimal(6, 3), 7, 2);
    const std::string words = "row 0 is 5.00, which does not fit decimal(38, 126)";
    const Column mask = Column::of({true}), whole = Column::of({int64_t{4}});
    check_refused(HV_CAST_OUT_OF_RANGE, 0, words, [&] { (void)(cents + far); });
    check_refused(HV_CAST_OUT_OF_RANGE, 0, words, [&] { (void)(far - cents); });
    check_refused(HV_CAST_OUT_OF_RANGE, 0, words, [&] { (void)far.combine(Pairing::lesser, cents); });
    check_refused(HV_CAST_OUT_OF_RANGE, 0, words, [&] { (void)mask.choose(far, cents); });
    CHECK(cents.greater_than(far).at(0) == Value(true) && far.compare(Operator::less, cents).at(0) == Value(true));
    const std::string lengths = "a length of 1 next to one of 2";
    check_refused(HV_COLUMN_LENGTH, 1, lengths, [&] { (void)(cents + two); });
    check_refused(HV_COLUMN_LENGTH, 1, lengths, [&] { (void)cents.combine(Pairing::coalesce, two); });
    check_refused(HV_COLUMN_LENGTH, 1, lengths, [&] { (void)cents.equal_to(two); });
    check_refused(HV_COLUMN_LENGTH, 1, lengths, [&] { (void)cents.compare(Operator::less, two); });
    check_refused(HV_COLUMN_LENGTH, 1, lengths, [&] { (void)far.compare(Operator::less, two); });
    check_refused(HV_COLUMN_LENGTH, 1, lengths, [&] { (void)(far + two); });
    check_refused(HV_COLUMN_LENGTH, 1, lengths, [&] { (void)mask.choose(far, two); });
    check_refused(HV_COLUMN_LENGTH, 1, lengths, [&] { (void)mask.choose(two, two.cast(hv::kinds::decimal(9, 5))); });
    check_refused(HV_UNSUPPORTED, 0, "the call does not serve columns of this type or form",
                  [&] { (void)whole.choose(cents, far); });
    check_refused(HV_UNSUPPORTED, 0, "decimal(4, 2) and decimal(6, 3) are not connected", [&] { (void)(cents & two); });
    check_refused(HV_TYPE_MISMATCH, 0, "decimal(4, 2) is not compared with i64", [&] { (void)cents.equal_to(whole); });
    check_refused(HV_TYPE_MISMATCH, 0, "decimal(4, 2) and i64 are not picked from",
                  [&] { (void)cents.combine(Pairing::lesser, whole); });
    check_refused(HV_CAST_OUT_OF_RANGE, 0, "row 0 is 5.00, which does not fit decimal(38, 126)",
                  [&] { (void)(cents + Decimal::of(1, 126)); });
    // at one scale nothing is cast: no row is tested against its precision
    const Column past = Column::decimals(std::vector<hv_pair>{{12345, 0}}, 3, 2) + cents;
    CHECK(hv::to_string(past.at(0)) == "128.45" && hv::to_string(past.kind()) == "decimal(5, 2)");
    const hv::Column sum = cents + Decimal::of(10, 4), difference = 1 - cents;
    CHECK(hv::to_string(sum.at(0)) == "5.001" && hv::to_string(sum.kind()) == "decimal(6, 3)");
    CHECK(hv::to_string(difference.kind()) == "decimal(5, 2)" && hv::to_string(difference.at(0)) == "-4.00");
}

int main() {
    for (int i = 0; i < 6000; i++) check_pair();
    for (int i = 0; i < 6000; i++) check_number();
    check_numbers();
    check_refusals();
    std::cout << "decimals of two scales are compared, worked and joined as their digits are\n";
}
