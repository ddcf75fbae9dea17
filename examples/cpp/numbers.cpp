// Numbers of every type of C++ next to columns: what fits, what is shown, how any number is compared, and what refusals
// say. Answers were worked out by hand; those of comparisons also row by row.
#include "hivevigil.hpp"
#include <array>
#include <cmath>
#include <cstdlib>
#include <iostream>

using hv::Column;
using hv::Decimal;
using hv::Null;
using hv::Operator;
using hv::Value;

static void check(bool holds, const char *what) {
    if (holds) return;
    std::cerr << "does not hold: " << what << "\n";
    std::exit(1);
}
#define CHECK(what) check((what), #what)

// The call is refused by this number, in this sentence.
template <class Call> static void check_refused(int32_t number, const std::string &sentence, Call call) {
    try {
        call();
    } catch (const hv::Error &error) {
        if (error.number == number && sentence == error.what()) return;
        std::cerr << error.number << ": " << error.what() << "\nand not\n" << number << ": " << sentence << "\n";
        std::exit(1);
    }
    std::cerr << "not refused: " << sentence << "\n";
    std::exit(1);
}

static std::vector<Value> rows_of(const Column &column) { return {column.begin(), column.end()}; }

// ---- Types of integers ----

template <class T> static void check_type(uint8_t number) {
    const T least = std::numeric_limits<T>::min(), greatest = std::numeric_limits<T>::max();
    const Column column = Column::of(std::vector<T>{least, 7, greatest});
    CHECK(column.kind().number == number && !column.kind().nullable);
    CHECK(column.numbers<T>() == (std::vector<T>{least, 7, greatest}));
    CHECK(column.get<T>(0) == least && column.get<T>(2) == greatest);
    const std::array<T, 2> items = {7, 8};
    const std::vector<std::optional<T>> maybe = {7, std::nullopt};
    const Column two = Column::of(items), one = Column::of<T>({7}), some = Column::of(maybe), filled = some.fill(T{9});
    const Column same = Column::constant(column.kind(), greatest, 3);
    CHECK(two.get<T>(1) == T{8} && one.get<T>(0) == T{7} && same.get<T>(2) == greatest);
    CHECK(some.optionals<T>() == maybe && some.kind().nullable && filled.get<T>(1) == T{9});
    CHECK(rows_of(column.compare(Operator::equal, T{7})) == (std::vector<Value>{false, true, false}));
    hv::Builder builder(column.kind());
    builder.append(least, 2);
    CHECK(builder.finish().get<T>(1) == least);
    std::vector<T> part(2);
    column.read(1, part.data(), part.size());
    CHECK(part == (std::vector<T>{7, greatest}));
}

static void check_types() {
    check_type<long long>(HV_I64);
    check_type<unsigned long long>(HV_U64);
    check_type<long>(HV_I64);
    check_type<unsigned long>(HV_U64);
    check_type<int>(HV_I32);
    check_type<unsigned short>(HV_U16);
    check_type<signed char>(HV_I8);
    check_type<unsigned char>(HV_U8);
    check_type<char>(std::is_signed_v<char> ? HV_I8 : HV_U8);
}

// ---- Decimals ----

static void check_decimals() {
    const Column prices = Column::decimals({{1050, 0, 2}, {5, 0, 1}, {static_cast<uint64_t>(-3), -1, 0}}, 10, 2);
    CHECK(rows_of(prices) == (std::vector<Value>{Decimal::of(1050, 2), Decimal::of(50, 2), Decimal::of(-300, 2)}));
    CHECK(hv::to_string(prices.at(0)) == "10.50" && hv::to_string(prices[1]) == "0.50");
    CHECK(hv::to_string(prices[2]) == "-3.00" && prices.get<Decimal>(2) == Decimal::of(-3, 0));
    const Column fees = Column::decimals({Decimal::of(7, 0), Decimal::of(2, 0), Decimal::of(1, 1)}, 10, 2);
    CHECK(rows_of(prices.combine(hv::Pairing::lesser, fees)) ==
          (std::vector<Value>{Decimal::of(7, 0), Decimal::of(5, 1), Decimal::of(-3, 0)}));
    CHECK(rows_of(prices.less_than(fees).choose(fees, prices)) == rows_of(prices.combine(hv::Pairing::greater, fees)));
    check_refused(HV_TYPE_MISMATCH, "decimal(10, 2) and i64 are not picked from", [&] {
        (void)prices.combine(hv::Pairing::coalesce, Column::of(std::vector<int64_t>{1, 2, 3}));
    });
    CHECK(hv::to_string(prices.encode_rows().runs().at(0).value) == "10.50");
    CHECK(hv::to_string(prices.least()) == "-3.00" && hv::to_string(prices.least_and_greatest().second) == "10.50");
    CHECK(hv::to_string(Column::decimals({{12, 0}}, 4, -2)[0]) == "1200");
    CHECK(hv::to_string(Column::decimals({{0, 0}, {7, 0}}, 4, -2)[0]) == "0");
    CHECK(hv::to_string(Column::decimals({{1050, 0}}, 4, 6)[0]) == "0.001050");
    CHECK(hv::to_string(Column::decimals({{static_cast<uint64_t>(-1), -1}}, 4, 4)[0]) == "-0.0001");
    const std::vector<bool> valid{true, false};
    const Column some = Column::decimals({{1050, 0}, {0, 0}}, 10, 2, &valid);
    CHECK(hv::to_string(some.fill(7).at(1)) == "7.00" && hv::to_string(some.fill(Decimal::of(75, 1)).at(1)) == "7.50");
    CHECK(hv::to_string(Column::constant(hv::kinds::decimal(10, 2), Decimal::of(5, 1), 2).at(1)) == "0.50");
    hv::Builder builder(hv::kinds::decimal(10, 2));
    builder.append(Decimal::of(105, 1), 2), builder.append(7);
    CHECK(builder.runs() == 2 && hv::to_string(builder.finish().at(2)) == "7.00");
    check_refused(HV_CAST_OUT_OF_RANGE, "10.505 does not fit decimal(10, 2)",
                  [&] { some.fill(Decimal::of(10505, 3)); });
    const hv_kind narrow = hv::kinds::decimal(4, 2);
    CHECK(Column::constant(narrow, Decimal::of(-9999, 2), 1).get<Decimal>(0) == Decimal::of(-9999, 2));
    check_refused(HV_CAST_OUT_OF_RANGE, "100 does not fit decimal(4, 2)", [&] { Column::constant(narrow, 100, 1); });
    check_refused(HV_CAST_OUT_OF_RANGE, "row 0 is -100.00, which does not fit decimal(4, 2)",
                  [] { Column::decimals({Decimal::of(-10000, 2)}, 4, 2); });
    const Decimal least(0, INT64_MIN, 0);
    CHECK(Column::constant(hv::kinds::decimal(39, 0), least, 1).get<Decimal>(0) == least);
    check_refused(HV_CAST_OUT_OF_RANGE, "row 1 is 0.005, which does not fit decimal(10, 2)", [] {
        Column::decimals({Decimal::of(1, 0), Decimal::of(5, 3)}, 10, 2);
    });
    CHECK(Decimal::of(1050, 2) == Decimal::of(105, 1) && Decimal::of(1050, 2) != Decimal::of(1050, 1));
    CHECK(Decimal::of(0, 100) == Decimal::of(0, -100) && Decimal::of(1, 100) != Decimal::of(1, -100));
}

// ---- Comparisons with any number ----

// Is `row by value`, of decimals with one digit after the point, where the row has none?
static bool holds(Operator by, int row, int tenths) {
    switch (by) {
    case Operator::equal: return row * 10 == tenths;
    case Operator::not_equal: return row * 10 != tenths;
    case Operator::greater: return row * 10 > tenths;
    case Operator::greater_or_equal: return row * 10 >= tenths;
    case Operator::less: return row * 10 < tenths;
    default: return row * 10 <= tenths;
    }
}

static constexpr Operator operators[] = {Operator::equal,           Operator::not_equal, Operator::greater,
                                         Operator::greater_or_equal, Operator::less,      Operator::less_or_equal};

// Each operator with numbers in and past the type, in steps of a half; null stays null.
static void check_all(const Column &column, const std::vector<int> &rows) {
    for (Operator by : operators)
        for (int tenths = -3000; tenths <= 3000; tenths += 5) {
            const Column answers = column.compare(by, Decimal::of(tenths, 1));
            CHECK(answers.size() == rows.size() + 1 && answers.at(rows.size()) == Value(Null{}));
            for (size_t row = 0; row < rows.size(); row++)
                CHECK(answers.at(row) == Value(holds(by, rows[row], tenths)));
            if (tenths % 10 == 0) CHECK(rows_of(column.compare(by, tenths / 10)) == rows_of(answers));
        }
}

static void check_comparisons() {
    const Column bytes = Column::of<int8_t>({-128, -1, 0, 7, 127, 0}, {true, true, true, true, true, false});
    check_all(bytes, {-128, -1, 0, 7, 127});
    check_all(bytes.encode(), {-128, -1, 0, 7, 127});
    check_all(Column::of<uint8_t>({0, 7, 255, 0}, {true, true, true, false}), {0, 7, 255});
    const std::vector<bool> valid{true, true, true, false};
    const std::vector<Decimal> prices{Decimal::of(-5, 0), Decimal::of(0, 0), Decimal::of(12, 0), Decimal()};
    check_all(Column::decimals(prices, 10, 2, &valid), {-5, 0, 12});
    const Column wide = Column::of<uint64_t>({0, UINT64_MAX});
    CHECK(rows_of(wide.compare(Operator::greater, -1)) == (std::vector<Value>{true, true}));
    CHECK(rows_of(wide.compare(Operator::equal, -1)) == (std::vector<Value>{false, false}));
    const Column low = Column::of<int64_t>({INT64_MIN, INT64_MAX});
    CHECK(rows_of(low.compare(Operator::less, UINT64_MAX)) == (std::vector<Value>{true, true}));
    CHECK(rows_of(low.compare(Operator::not_equal, UINT64_MAX)) == (std::vector<Value>{true, true}));
    // 0.505 lies between two numbers of scale 2, and 10^100 past all of 128 bits
    const Column cents = Column::decimals({{50, 0}, {51, 0}, {UINT64_MAX, INT64_MAX}}, 38, 2);
    CHECK(rows_of(cents.compare(Operator::greater, Decimal::of(505, 3))) == (std::vector<Value>{false, true, true}));
    CHECK(rows_of(cents.compare(Operator::less_or_equal, Decimal::of(505, 3))) ==
          (std::vector<Value>{true, false, false}));
    CHECK(rows_of(cents.compare(Operator::equal, Decimal::of(505, 3))) == (std::vector<Value>{false, false, false}));
    CHECK(rows_of(cents.compare(Operator::less, Decimal::of(1, -100))) == (std::vector<Value>{true, true, true}));
    CHECK(rows_of(cents.compare(Operator::less, Decimal::of(-1, -100))) == (std::vector<Value>{false, false, false}));
    check_refused(HV_TYPE_MISMATCH, "i8? is not compared with a text",
                  [&] { bytes.compare(Operator::less, "seven"); });
    check_refused(HV_TYPE_MISMATCH, "utf8 is not compared with an integer",
                  [] { Column::of({"a"}).compare(Operator::less, 7); });
}

// ---- Sums ----

static void check_sums() {
    const char *const words = "integer overflow: with row 2 the sum leaves the range of i64";
    const Column top = Column::of<int64_t>({INT64_MAX - 1, 0, 2, -5}, {true, false, true, true});
    check_refused(HV_CAST_OUT_OF_RANGE, words, [&] { top.sum(); });
    check_refused(HV_CAST_OUT_OF_RANGE, words, [&] { top.encode().sum(); });
    check_refused(HV_CAST_OUT_OF_RANGE, "integer overflow: with row 1 the sum leaves the range of i64",
                  [] { Column::of<int64_t>({INT64_MIN, -1, 5}).sum(); });
    check_refused(HV_CAST_OUT_OF_RANGE, "integer overflow: with row 1 the sum leaves the range of u64",
                  [] { Column::of<uint64_t>({UINT64_MAX, 1}).sum(); });
    // 2^55 + 1 rows of -256 sum to less than -2^63
    const Column same = Column::constant(hv::kinds::i16, -256, (size_t{1} << 55) + 1);
    try {
        same.sum();
        CHECK(!"refused");
    } catch (const hv::Error &error) { CHECK(error.fields.first == size_t{1} << 55); }
    CHECK(Column::constant(hv::kinds::i16, -256, size_t{1} << 55).sum().get<int64_t>() == INT64_MIN);
    CHECK(Column::of<uint64_t>({UINT64_MAX - 1, 1}).sum().get<uint64_t>() == UINT64_MAX);
    check_refused(HV_UNSUPPORTED, "utf8 has no sum", [] { Column::of({"a"}).sum(); });
}

// ---- Refusals in words ----

static void check_rows_in_words() {
    const Column column = Column::of<int64_t>({7, 300, 0}, {true, true, false});
    CHECK(column.get<uint16_t>(1) == uint16_t{300} && column.get<char>(0) == char{7} && !column.get<int8_t>(2));
    check_refused(HV_CAST_OUT_OF_RANGE, "row 1 is 300, which does not fit i8", [&] { column.get<int8_t>(1); });
    check_refused(HV_TYPE_MISMATCH, "row 1 is an integer, not a text", [&] { column.get<std::string>(1); });
    check_refused(HV_TYPE_MISMATCH, "row 0 is a text, not an integer", [] { Column::of({"a"}).get<int>(0); });
    check_refused(HV_TYPE_MISMATCH, "i64 rows are not read as i32", [&] { column.numbers<int32_t>(); });
    check_refused(HV_UNSUPPORTED, "utf8 rows are not read as i32", [] { Column::of({"a"}).numbers<int32_t>(); });
    check_refused(HV_CAST_OUT_OF_RANGE, "row 1 is 300, which does not fit u8",
                  [&] { column.cast(hv::nullable(hv::kinds::u8)); });
    check_refused(HV_CAST_OUT_OF_RANGE, "row 1 is 300, which does not fit u8",
                  [&] { column.encode().cast(hv::kinds::u8); });
    check_refused(HV_NULL_NOT_ALLOWED, "row 2 is null, which does not fit i16",
                  [&] { column.cast(hv::kinds::i16); });
    CHECK(column.slice(0, 2).cast(hv::kinds::i16).kind().nullable == 0);
    check_refused(HV_UNSUPPORTED, "i64? is not cast to utf8", [&] { column.cast(hv::kinds::utf8); });
    check_refused(HV_TYPE_MISMATCH, "row 1 is not UTF-8", [] { Column::texts({"a", "\xff", "\xfe"}); });
    const std::vector<bool> last{false, true}; // a null row may have any bytes
    CHECK(Column::texts({"\xff", "a"}, &last).get<std::string>(1) == "a" && Column::bytes({"\xff"}).size() == 1);
    check_refused(HV_TYPE_MISMATCH, "row 1 is not UTF-8", [&] { Column::texts({"\xff", "\xfe"}, &last); });
}

static void check_values_in_words() {
    const Column column = Column::of<int8_t>({7, 0}, {true, false}), texts = Column::of({"a", "b"});
    check_refused(HV_CAST_OUT_OF_RANGE, "300 does not fit i8", [&] { column.fill(300); });
    check_refused(HV_CAST_OUT_OF_RANGE, "-1 does not fit u8", [] { Column::constant(hv::kinds::u8, -1, 2); });
    check_refused(HV_CAST_OUT_OF_RANGE, "0.5 does not fit i8", [&] { column.fill(Decimal::of(5, 1)); });
    check_refused(HV_TYPE_MISMATCH, "a text does not fit i8", [&] { column.fill("seven"); });
    check_refused(HV_TYPE_MISMATCH, "an integer does not fit utf8", [&] { texts.fill(7); });
    check_refused(HV_TYPE_MISMATCH, "the text is not UTF-8", [&] { texts.fill("\xff"); });
    check_refused(HV_TYPE_MISMATCH, "the text is not UTF-8", [&] { texts.compare(Operator::less, "\xff"); });
    check_refused(HV_NULL_NOT_ALLOWED, "null does not fit i64", [] { Column::constant(hv::kinds::i64, Null{}, 2); });
    check_refused(HV_TYPE_MISMATCH, "i8? is not compared with utf8", [&] { column.compare(Operator::less, texts); });
    check_refused(HV_TYPE_MISMATCH, "a mask is of type bool, not i8?", [&] { column.filter(column); });
    check_refused(HV_TYPE_MISMATCH, "indices are integers, not utf8", [&] { column.take(texts); });
    check_refused(HV_TYPE_MISMATCH, "codes are integers, not utf8", [&] { texts.take_from(column); });
    hv::Builder builder(hv::kinds::i8);
    check_refused(HV_TYPE_MISMATCH, "i8? does not go into a builder of i8", [&] { builder.append(column); });
    check_refused(HV_NULL_NOT_ALLOWED, "null does not fit i8", [&] { builder.append(Value(Null{})); });
    check_refused(HV_CAST_OUT_OF_RANGE, "300 does not fit i8", [&] { builder.append(300, 2); });
    CHECK(builder.empty());
}

// ---- Equal columns ----

static void check_same() {
    const Column column = Column::of<int32_t>({4, 4, 0, 0, 9}, {true, true, false, false, true}), runs = column.encode();
    CHECK(column == runs && runs == column && runs.slice(1, 4) == column.slice(1, 4) && column == column);
    CHECK(column.slice(0, 2) == Column::constant(hv::nullable(hv::kinds::i32), 4, 2));
    CHECK(runs != Column::of<int32_t>({4, 4, 0, 0, 9}, {true, true, false, true, true}));
    CHECK(runs != Column::of<int64_t>({4, 4, 0, 0, 9}, {true, true, false, false, true}));
    CHECK(runs != runs.slice(0, 4) && runs.slice(5, 5) == column.slice(0, 0));
    CHECK(Column::of<int32_t>({4}) != column.slice(0, 1)); // one of the types has null
    const Column texts = Column::of({"a", "a", "b"});
    CHECK(texts == texts.encode_rows() && texts != Column::of({"a", "b", "b"}));
    const Column all = Column::constant(hv::kinds::u8, 7, size_t{1} << 60);
    CHECK(all == all.clone() && all != all.slice(1, all.size()));
    const std::vector<bool> valid{true, false};
    const Column lists = Column::lists(texts, {0, 2}, {2, 1}, &valid);
    CHECK(lists == Column::lists(texts, {0, 0}, {2, 3}, &valid)); // nothing is read of a null list
    CHECK(lists == Column::lists(Column::of({"b", "a", "a"}), {1, 0}, {2, 0}, &valid));
    CHECK(lists != Column::lists(texts, {1, 2}, {2, 1}, &valid) && lists != Column::lists(texts, {0, 2}, {1, 1}, &valid));
}

// ---- Groups ----

// The groups of six rows by their keys: their keys, and what each fold answers of them.
static void check_groups() {
    using Rows = std::vector<std::optional<int16_t>>;
    const Column keys = Column::of(std::vector<std::optional<uint8_t>>{4, 4, std::nullopt, std::nullopt, 4, 7});
    const Column values = Column::of(Rows{3, -9, std::nullopt, std::nullopt, std::nullopt, 300}).encode();
    const std::vector<Value> of_keys{uint64_t{4}, Null(), uint64_t{4}, uint64_t{7}};
    const auto are = [&](hv::Fold fold, const std::vector<Value> &due, hv_kind kind) {
        const auto [groups, answers] = keys.fold_by(values, fold);
        return rows_of(groups) == of_keys && rows_of(answers) == due && answers.kind().number == kind.number &&
               answers.kind().nullable && answers.form() == hv::Form::flat;
    };
    const Value null = Null(), last = int64_t{300};
    CHECK(are(hv::Fold::sum, {int64_t{-6}, null, null, last}, hv::kinds::i64));
    CHECK(are(hv::Fold::rows, {uint64_t{2}, uint64_t{2}, uint64_t{1}, uint64_t{1}}, hv::kinds::u64));
    CHECK(are(hv::Fold::count, {uint64_t{2}, uint64_t{0}, uint64_t{0}, uint64_t{1}}, hv::kinds::u64));
    CHECK(are(hv::Fold::least, {int64_t{-9}, null, null, last}, hv::kinds::i16));
    CHECK(are(hv::Fold::greatest, {int64_t{3}, null, null, last}, hv::kinds::i16));
    CHECK(are(hv::Fold::first, {int64_t{3}, null, null, last}, hv::kinds::i16));
    CHECK(are(hv::Fold::last, {int64_t{-9}, null, null, last}, hv::kinds::i16));
    CHECK(rows_of(values.fold_by(values, hv::Fold::rows).first).size() == 4);

    const Column of_two = Column::of({1, 2, 2}), large = Column::of(std::vector<int64_t>{1, INT64_MAX, 1});
    check_refused(HV_CAST_OUT_OF_RANGE, "integer overflow: the sum of group 1 does not fit i64",
                  [&] { of_two.sum_by(large); });
    check_refused(HV_COLUMN_LENGTH, "a length of 6 next to one of 3", [&] { keys.sum_by(large); });
    CHECK(rows_of(of_two.fold_by(large, hv::Fold::greatest).second)[1] == Value(INT64_MAX));
}

// ---- Running totals ----

static void check_totals() {
    const auto none = std::nullopt;
    using Narrow = std::vector<std::optional<int16_t>>;
    const Column column = Column::of(Narrow{none, none, 4, 4, 4, none, -9, 0}), runs = column.encode();
    for (const Column *each : {&column, &runs}) {
        const auto [ends, totals] = each->running_totals();
        CHECK(rows_of(ends) == rows_of(Column::of(std::vector<uint8_t>{2, 5, 6, 7, 8})));
        CHECK(rows_of(totals) == rows_of(Column::of(std::vector<std::optional<int64_t>>{none, 12, 12, 3, 3})));
        CHECK(ends.kind().number == HV_U8 && totals.kind().number == HV_I64 && totals.kind().nullable);
        CHECK(ends.form() == hv::Form::flat && totals.form() == hv::Form::flat);
    }
    const Column large = Column::of(std::vector<uint64_t>{1, UINT64_MAX - 1, 1});
    check_refused(HV_CAST_OUT_OF_RANGE, "integer overflow: the total at the end of run 2 does not fit u64",
                  [&] { (void)large.running_totals(); });
    CHECK(large.slice(0, 2).running_totals().second.at(1) == Value(UINT64_MAX));
    check_refused(HV_UNSUPPORTED, "the call does not serve columns of this type or form",
                  [&] { (void)Column::of({"a", "b"}).running_totals(); });
}

// ---- Two columns, place by place ----

using Rows = std::vector<std::optional<int16_t>>;
using Truths = std::vector<std::optional<bool>>;

static void check_pairs() {
    const auto none = std::nullopt;
    const Column left = Column::of(Rows{4, 4, none, 7, 7}), right = Column::of(Rows{1, 1, 1, none, -9}).encode();
    const auto are = [](const Column &found, const auto &due) {
        return rows_of(found) == rows_of(Column::of(due)) && found.form() == hv::Form::runs;
    };
    CHECK(are(left + right, Rows{5, 5, none, none, -2}) && are(left - right, Rows{3, 3, none, none, 16}));
    CHECK(are(left * right, Rows{4, 4, none, none, -63}) && (left * right).kind().number == HV_I16);
    CHECK(are(left + 1, Rows{5, 5, none, 8, 8}) && are(1 - left, Rows{-3, -3, none, -6, -6}));
    CHECK(are(left * left, Rows{16, 16, none, 49, 49}) && are(2 * left - left, Rows{4, 4, none, 7, 7}));
    CHECK(are(left.equal_to(right), Truths{false, false, none, none, false}));
    CHECK(are(left.not_equal_to(right), Truths{true, true, none, none, true}));
    CHECK(are(left.less_than(right), Truths{false, false, none, none, false}));
    CHECK(are(left.at_most(right), Truths{false, false, none, none, false}));
    CHECK(are(left.greater_than(right), Truths{true, true, none, none, true}));
    CHECK(are(left.at_least(right), Truths{true, true, none, none, true}));
    CHECK(rows_of(left.at_least(7)) == rows_of(Column::of(Truths{false, false, none, true, true})));

    const Column a = Column::of(Truths{false, false, false, true, true, true, none, none, none});
    const Column b = Column::of(Truths{false, true, none, false, true, none, false, true, none});
    CHECK(are(a & b, Truths{false, false, false, false, true, none, false, none, none}));
    CHECK(are(a | b, Truths{false, true, none, true, true, true, none, true, none}));
    CHECK(rows_of(~a) == rows_of(Column::of(Truths{true, true, true, false, false, false, none, none, none})));
    CHECK(are(left.combine(hv::Pairing::coalesce, right), Rows{4, 4, 1, 7, 7}));
    CHECK(are(left.combine(hv::Pairing::lesser, right), Rows{1, 1, none, none, -9}));
    CHECK(are(left.combine(hv::Pairing::greater, right), Rows{4, 4, none, none, 7}));
    CHECK(are(left.is_null(), std::vector<bool>{false, false, true, false, false}));
    CHECK(are(right.is_valid(), std::vector<bool>{true, true, true, false, true}));
    CHECK(are(left.less_than(5).choose(left, right), Rows{4, 4, none, none, -9}));
    CHECK(are(left.is_null().choose(right, left), Rows{4, 4, 1, 7, 7}));
    check_refused(HV_UNSUPPORTED, "i16? has no opposites", [&] { (void)~left; });

    // the SipHash-1-3 of another program
    const Column hashed = Column::of(std::vector<std::optional<int64_t>>{4, 4, none, -7});
    CHECK(hashed.hash_rows() == 8325595506498645118u && hashed.encode().hash_rows() == hashed.hash_rows());
    const Column many = Column::constant(hv::kinds::u8, 7, size_t{1} << 60);
    CHECK((many + many).form() == hv::Form::constant && (many + many).at(9) == Value(uint64_t{14}));

    const Column bytes = Column::of(std::vector<uint8_t>{1, 200}), others = Column::of(std::vector<uint8_t>{1, 100});
    check_refused(HV_CAST_OUT_OF_RANGE, "integer overflow: row 1 is 200 + 100, which does not fit u8",
                  [&] { (void)(bytes + others); });
    check_refused(HV_CAST_OUT_OF_RANGE, "integer overflow: row 0 is 0 - 1, which does not fit u8",
                  [&] { (void)(0 - bytes); });
    check_refused(HV_TYPE_MISMATCH, "i16 and u8 are not added", [&] { (void)(left + bytes); });
    check_refused(HV_UNSUPPORTED, "i16 and bool are not multiplied", [&] { (void)(left * a); });
    check_refused(HV_UNSUPPORTED, "i16 and bool are not connected", [&] { (void)(left & a); });
    check_refused(HV_COLUMN_LENGTH, "a length of 5 next to one of 2", [&] { (void)(left + left.slice(0, 2)); });
    check_refused(HV_CAST_OUT_OF_RANGE, "300 does not fit u8", [&] { (void)(bytes + 300); });
    check_refused(HV_TYPE_MISMATCH, "i16? is not compared with u8", [&] { (void)left.equal_to(bytes); });
}

// ---- Floats ----

// Rows of T by T's own comparisons; a NaN, both zeros, an infinity and null among them.
template <class T> static void check_floats() {
    const T nan = std::numeric_limits<T>::quiet_NaN(), infinity = std::numeric_limits<T>::infinity();
    const std::vector<std::optional<T>> rows{T(1.5), T(1.5), std::nullopt, nan, T(-0.0), T(0.0), -infinity, T(2)};
    const auto floats = hv::Floats<T>::of(rows);
    CHECK(floats.size() == rows.size() && floats.keys().form() == hv::Form::runs);
    const auto found = floats.optionals();
    for (size_t row = 0; row < rows.size(); row++) {
        CHECK(found[row].has_value() == rows[row].has_value() && floats.at(row).has_value() == rows[row].has_value());
        if (rows[row]) CHECK(std::memcmp(&*found[row], &*rows[row], sizeof(T)) == 0);
        const auto one = floats.at(row);
        if (rows[row]) CHECK(std::memcmp(&*one, &*rows[row], sizeof(T)) == 0);
    }
    for (const T right : {T(0), nan, T(1.5), infinity}) {
        const auto equal = floats.compare(Operator::equal, right).template optionals<bool>();
        const auto less = floats.compare(Operator::less, right).template optionals<bool>();
        for (size_t row = 0; row < rows.size(); row++) {
            CHECK(equal[row].has_value() == rows[row].has_value() && less[row].has_value() == rows[row].has_value());
            if (rows[row]) CHECK(*equal[row] == (*rows[row] == right) && *less[row] == (*rows[row] < right));
        }
    }
    const auto numbers = floats.least_and_greatest(), all = floats.least_and_greatest(hv::FloatOrder::total);
    CHECK(numbers && numbers->first == -infinity && numbers->second == T(2) && all && all->second != all->second);
    CHECK(floats.compare(Operator::equal, T(0), hv::FloatOrder::total).at(4) == Value(false));
    CHECK(!hv::Floats<T>::of({nan}).least_and_greatest() && hv::Floats<T>::of({}).size() == 0);
    const auto sum = hv::Floats<T>::of({T(16777216), T(1), T(-0.5)}).sum();
    CHECK(sum.total == 16777216.5 && sum.rows == 3 && floats.sum().total != floats.sum().total);
    CHECK(hv::Floats<T>(floats.keys().slice(0, 2)).sum().total == 3);
    check_refused(HV_OUT_OF_BOUNDS, "row 8 is not among 8 rows", [&] { floats.at(8); });
}

// Floats of every width as rows of a column, and what no float is.
static void check_float_columns() {
    const double nan = std::numeric_limits<double>::quiet_NaN();
    const Column doubles = hv::Floats<double>::of({0.1, 0.1, nan, -2.5}).keys().clone();
    const Column halves = Column::of<int16_t>({0x3c00, 0x0001}).with_logical_type("e"); // 1 and 2^-24
    const Column stored = doubles.with_logical_type("");
    CHECK(doubles.logical_type() == "g" && doubles.at(1) == Value(0.1) && doubles.get<double>(3) == -2.5);
    CHECK(to_string(doubles.at(0)) == "0.1" && to_string(doubles.at(2)) == "NaN");
    CHECK(doubles.form() == hv::Form::runs && doubles.run(0).value == Value(0.1));
    CHECK(doubles.runs()[2].value == Value(-2.5));
    CHECK(doubles.least() == Value(-2.5) && doubles.greatest() == Value(0.1) && doubles == stored);
    CHECK(std::isnan(*doubles.sum().get<double>()) && doubles.slice(0, 1).sum().get<double>() == 0.1);
    CHECK(halves.at(0) == Value(1.0) && halves.sum().get<double>() == 1 + 0x1p-24 && !halves.sum().get<int64_t>());
    CHECK(stored.run(0).value == Value(stored.numbers<int64_t>()[0]) && stored.at(2) == stored.greatest());
    check_refused(HV_TYPE_MISMATCH, "row 1 is a float, not an integer", [&] { (void)doubles.get<int64_t>(1); });
    check_refused(HV_TYPE_MISMATCH, "a float does not fit i64", [&] { (void)doubles.fill(Value(1.5)); });
    const Column days = Column::of<int32_t>({3, 4}).with_logical_type("tdD");
    check_refused(HV_UNSUPPORTED, "rows of the logical type tdD have no sum", [&] { (void)days.sum(); });
    CHECK(days.at(1) == Value(int64_t{4}) && days.least() == Value(int64_t{3}));
    const uint32_t payload = 0xff800001; // a NaN that is not quiet
    float found = 0, given = 0;
    std::memcpy(&given, &payload, sizeof given);
    found = *hv::Floats<float>::of({given}).at(0);
    CHECK(std::memcmp(&found, &payload, sizeof payload) == 0);
}

static void check_float_sums() {
    CHECK(hv::Floats<double>::of({1e100, 1.0, -1e100}).sum().total == 1);
    CHECK(hv::Floats<double>::of({1.7e308, 1.7e308}).sum().total == std::numeric_limits<double>::infinity());
    try {
        hv::Floats<double> wrong(Column::of({1, 2}));
        CHECK(false);
    } catch (const hv::Error &error) {
        CHECK(error.number == HV_TYPE_MISMATCH);
    }
}

// Casts, against the machine's own.
static void check_float_casts() {
    const std::vector<std::optional<double>> rows = {0.0, -0.0, 0.1, std::nullopt, 1.5, 16777217.0, 1e300, -1e300, 5e-324};
    const auto floats = hv::Floats<double>::of(rows);
    const auto singles = floats.rounded<float>().optionals();
    for (size_t row = 0; row < rows.size(); row++) {
        CHECK(singles[row].has_value() == rows[row].has_value());
        if (!rows[row]) continue;
        CHECK(*singles[row] == static_cast<float>(*rows[row]) && std::signbit(*singles[row]) == std::signbit(*rows[row]));
    }
    check_refused(HV_CAST_OUT_OF_RANGE, "row 2 is 0.1, which does not fit float32", [&] { (void)floats.cast<float>(); });
    const auto halves = hv::Floats<float>::of({1.5f, 1.5f, -0.0f}).cast<double>();
    CHECK(halves.at(1) == 1.5 && std::signbit(*halves.at(2)) && halves.keys().values().size() == 2);
    const Column integers = Column::of(std::vector<int64_t>{3, 3, -(int64_t{1} << 53), (int64_t{1} << 53) + 1});
    CHECK(hv::Floats<double>::of_rounded_integers(integers).at(3) == 9007199254740992.0);
    check_refused(HV_CAST_OUT_OF_RANGE, "row 3 is 9007199254740993, which does not fit float64",
                  [&] { (void)hv::Floats<double>::of_integers(integers); });
    const auto exact = hv::Floats<double>::of_integers(integers.slice(0, 3));
    CHECK(exact.at(2) == -9007199254740992.0);
    CHECK(exact.to_integers(hv::kinds::i64).numbers<int64_t>() == (std::vector<int64_t>{3, 3, -(int64_t{1} << 53)}));
    check_refused(HV_CAST_OUT_OF_RANGE, "row 2 is -9007199254740992, which does not fit u8",
                  [&] { (void)exact.to_integers(hv::kinds::u8); });
    check_refused(HV_CAST_OUT_OF_RANGE, "row 1 is NaN, which does not fit i8",
                  [] { (void)hv::Floats<float>::of({7.0f, std::nanf("")}).to_integers(hv::nullable(hv::kinds::i8)); });
    check_refused(HV_TYPE_MISMATCH, "i64 rows are not keys of these floats, which are i32",
                  [] { (void)hv::Floats<float>(Column::of<int64_t>({4})); });
}

// Floats next to an integer that lies between two of them, and to one that is one of them.
static void check_float_comparisons() {
    const double low = 9007199254740992.0; // 2^53, after which comes 2^53 + 2
    const auto floats = hv::Floats<double>::of({low, low + 2, std::nan("")});
    using Flags = std::vector<bool>;
    const int64_t between = (int64_t{1} << 53) + 1;
    CHECK(floats.compare(Operator::equal, between).truths() == Flags({false, false, false}));
    CHECK(floats.compare(Operator::not_equal, between).truths() == Flags({true, true, true}));
    CHECK(floats.compare(Operator::less, between).truths() == Flags({true, false, false}));
    CHECK(floats.compare(Operator::greater_or_equal, between).truths() == Flags({false, true, false}));
    CHECK(floats.compare(Operator::equal, between - 1).truths() == Flags({true, false, false}));
    CHECK(floats.compare(Operator::less, UINT64_MAX).truths() == Flags({true, true, false}));
    const auto singles = hv::Floats<float>::of({16777216.0f, -0.0f});
    CHECK(singles.compare(Operator::greater_or_equal, 16777217).truths() == Flags({false, false}));
    CHECK(singles.compare(Operator::equal, 0).truths() == Flags({false, true}));
}

// The bits of a number, and of every NaN those of the quiet one with a plus and no payload.
template <class T> static uint64_t bits_of(T number) {
    if (number != number) number = std::numeric_limits<T>::quiet_NaN();
    std::conditional_t<sizeof(T) == 4, uint32_t, uint64_t> bits;
    std::memcpy(&bits, &number, sizeof bits);
    return bits;
}

// What floats give by T's own operators, for each pair of rows.
template <class T> static void check_float_pairs() {
    using limits = std::numeric_limits<T>;
    const std::vector<std::optional<T>> some{
        T(0), T(-0.0), T(0.1), std::nullopt, T(-3), limits::denorm_min(), limits::min(), limits::max(), limits::lowest(),
        limits::infinity(), limits::quiet_NaN()};
    std::vector<std::optional<T>> lefts, rights;
    for (const auto &left : some)
        for (const auto &right : some) lefts.push_back(left), rights.push_back(right);
    const auto left = hv::Floats<T>::of(lefts), right = hv::Floats<T>::of(rights);
    const auto check_all = [&](const hv::Floats<T> &found, auto give) {
        CHECK(found.keys().form() == hv::Form::runs);
        const auto rows = found.optionals();
        for (size_t row = 0; row < rows.size(); row++) {
            CHECK(rows[row].has_value() == (lefts[row] && rights[row]));
            if (rows[row]) CHECK(bits_of<T>(*rows[row]) == bits_of<T>(give(*lefts[row], *rights[row])));
        }
    };
    check_all(left + right, [](T a, T b) -> T { return a + b; });
    check_all(left - right, [](T a, T b) -> T { return a - b; });
    check_all(left * right, [](T a, T b) -> T { return a * b; });
    check_all(left / right, [](T a, T b) -> T { return a / b; });
    const auto prices = hv::Floats<T>::of({T(1.5), T(1.5), T(-0.25)});
    CHECK((prices * 2 + 1).optionals() == (std::vector<std::optional<T>>{T(4), T(4), T(0.5)}));
    CHECK((1 - prices / 2).at(2) == T(1.125) && (prices - prices).at(0) == T(0) && (3 / prices).at(1) == T(2));
    const auto many = hv::Floats<T>::constant(T(-0.5), size_t{1} << 60);
    CHECK((many * many).keys().form() == hv::Form::constant && (many * many).at(9) == T(0.25) && many.at(3) == T(-0.5));
    check_refused(HV_COLUMN_LENGTH, "a length of 3 next to one of 121", [&] { (void)(prices / left); });
}

// ---- Sums of decimals ----

// Integers of 128 bits added row by row, as long as they have 38 digits; the row that leaves them, or no row.
static std::pair<hv::detail::Wide, std::optional<size_t>> sum_due(const std::vector<std::optional<Decimal>> &rows) {
    hv::detail::Wide sum = 0, greatest = 1;
    for (int digit = 0; digit < 38; digit++) greatest *= 10;
    for (size_t row = 0; row < rows.size(); row++) {
        const hv::detail::Wide number = rows[row] ? rows[row]->digits() : 0;
        if (sum + number >= greatest || sum + number <= -greatest) return {sum, row};
        sum += number;
    }
    return {sum, std::nullopt};
}

static void check_decimal_sum(const std::vector<std::optional<Decimal>> &rows) {
    std::vector<Decimal> items;
    std::vector<bool> valid;
    for (const auto &row : rows) items.push_back(row.value_or(Decimal())), valid.push_back(row.has_value());
    const Column flat = Column::decimals(items, 38, 2, &valid), runs = flat.encode_rows();
    const auto [sum, leaving] = sum_due(rows);
    for (const Column *column : {&flat, &runs}) {
        if (leaving) {
            check_refused(HV_CAST_OUT_OF_RANGE,
                          "decimal overflow: with row " + std::to_string(*leaving) + " the sum leaves 38 digits",
                          [&] { (void)column->sum(); });
            continue;
        }
        const hv::Sum found = column->sum();
        CHECK(found.get<Decimal>()->digits() == sum && found.get<Decimal>()->scale == 2);
        CHECK(found.empty == (std::find(valid.begin(), valid.end(), true) == valid.end()));
    }
}

static void check_decimal_sums() {
    const auto none = std::nullopt;
    const Decimal tenth = {68739955140067328u, 542101086242752217, 2}; // 10^37
    const Decimal negative = {~tenth.low + 1, ~tenth.high, 2};
    CHECK(to_string(tenth) == "1" + std::string(35, '0') + ".00" && tenth.digits() == -negative.digits());
    check_decimal_sum({});
    check_decimal_sum({none, none});
    check_decimal_sum({Decimal::of(1050, 2), none, Decimal::of(-51, 2), Decimal::of(-51, 2)});
    for (const size_t count : {9u, 10u, 25u}) {
        std::vector<std::optional<Decimal>> rows(count, tenth);
        rows.insert(rows.begin() + 4, none);
        check_decimal_sum(rows);
        rows.insert(rows.begin(), 9, negative); // of 18 rows the product has 39 digits, and no sum on the way has
        check_decimal_sum(rows);
        rows.insert(rows.begin() + 9, Decimal::of(-1, 2));
        check_decimal_sum(rows);
    }
    CHECK(!Column::of(std::vector<int64_t>{4}).sum().get<Decimal>());
    const Column many = Column::constant(hv::kinds::decimal(4, 2), Decimal::of(1050, 2), size_t{1} << 60);
    CHECK(many.sum().get<Decimal>()->digits() == hv::detail::Wide(1050) * (int64_t{1} << 60));
}

// ---- Two columns of decimals ----

static void check_decimal_pairs() {
    const auto none = std::nullopt;
    using Decimals = std::vector<std::optional<Decimal>>;
    const std::vector<bool> valid{true, true, false, true};
    const std::vector<Decimal> of_prices{Decimal::of(1050, 2), Decimal::of(1050, 2), Decimal(), Decimal::of(-1, 2)};
    const std::vector<Decimal> of_amounts{Decimal::of(3, 0), Decimal::of(3, 0), Decimal::of(7, 0), Decimal::of(12, 0)};
    const Column prices = Column::decimals(of_prices, 6, 2, &valid), runs = prices.encode_rows();
    const Column amounts = Column::decimals(of_amounts, 2, 0), fees = Column::decimals(of_prices, 9, 2, &valid);
    const auto are = [](const Column &found, const Decimals &due, uint8_t precision, int8_t scale) {
        bool same = found.size() == due.size() && found.form() == hv::Form::runs;
        for (size_t row = 0; same && row < due.size(); row++) {
            const std::optional<Decimal> item = found.get<Decimal>(row);
            same = item.has_value() == due[row].has_value() && (!item || (*item == *due[row] && item->scale == scale));
        }
        return same && found.kind().precision == precision && found.kind().scale == scale;
    };
    for (const Column *left : {&prices, &runs}) {
        const Decimal product = Decimal::of(3150, 2);
        CHECK(are(*left * amounts, {product, product, none, Decimal::of(-12, 2)}, 9, 2));
        CHECK(are(*left + fees, {Decimal::of(21, 0), Decimal::of(21, 0), none, Decimal::of(-2, 2)}, 10, 2));
        CHECK(are(fees - *left, {Decimal(), Decimal(), none, Decimal()}, 10, 2));
        CHECK(are(*left * 3, {product, product, none, Decimal::of(-3, 2)}, 8, 2));
        CHECK(are(Decimal::of(15, 1) * *left, {Decimal::of(1575, 2), Decimal::of(1575, 2), none, Decimal::of(-15, 3)}, 9, 3));
        CHECK(are(1 - *left, {Decimal::of(-950, 2), Decimal::of(-950, 2), none, Decimal::of(101, 2)}, 7, 2));
        CHECK(are(*left + amounts, {Decimal::of(1350, 2), Decimal::of(1350, 2), none, Decimal::of(1199, 2)}, 7, 2));
    }
    const Column large = Column::constant(hv::kinds::decimal(38, 1), Decimal{68739955140067328u, 542101086242752217, 1}, 4);
    check_refused(HV_CAST_OUT_OF_RANGE,
                  "decimal overflow: row 0 is 10.50 * 1" + std::string(36, '0') + ".0, which does not fit decimal(38, 3)",
                  [&] { (void)(prices * large); });
    const Column whole = Column::of(std::vector<int64_t>{4, 4, 4, 4});
    check_refused(HV_UNSUPPORTED, "decimal(6, 2) and i64 are not multiplied", [&] { (void)(prices * whole); });
    CHECK(are(prices + Decimal::of(5, 3), {Decimal::of(10505, 3), Decimal::of(10505, 3), none, Decimal::of(-5, 3)}, 8, 3));
}

// ---- Rows in another order ----

static void check_sorts() {
    const auto none = std::nullopt;
    const Column column = Column::of(Rows{7, none, -4, 7, 7});
    const auto are = [](const Column &found, const Rows &due, hv::Form form) {
        return rows_of(found) == rows_of(Column::of(due)) && found.form() == form;
    };
    CHECK(are(column.sorted(), Rows{none, -4, 7, 7, 7}, hv::Form::runs) && column.sorted().values().size() == 3);
    CHECK(are(column.encode().reversed(), Rows{7, 7, -4, none, 7}, hv::Form::runs));
    const auto [values, counts] = column.value_counts();
    CHECK(are(values, Rows{none, -4, 7}, hv::Form::flat) && counts.form() == hv::Form::flat);
    CHECK(rows_of(counts) == rows_of(Column::of(std::vector<uint64_t>{1, 1, 3})));
    const Column many = Column::constant(hv::kinds::u8, 7, size_t{1} << 60);
    CHECK(many.sorted().form() == hv::Form::constant && many.reversed().size() == size_t{1} << 60);
    CHECK(many.value_counts().second.at(0) == Value(uint64_t{1} << 60));
    const Column lists = Column::lists(Column::of(std::vector<uint8_t>{4}), {0}, {1});
    check_refused(HV_UNSUPPORTED, "the call does not serve columns of this type or form",
                  [&] { (void)lists.sorted(); });
}

int main() {
    check_floats<float>();
    check_floats<double>();
    check_float_columns();
    check_float_sums();
    check_float_casts();
    check_float_comparisons();
    check_float_pairs<float>();
    check_float_pairs<double>();
    check_same();
    check_types();
    check_decimals();
    check_comparisons();
    check_sums();
    check_groups();
    check_totals();
    check_pairs();
    check_sorts();
    check_decimal_sums();
    check_decimal_pairs();
    check_rows_in_words();
    check_values_in_words();
    std::cout << "numbers of every type are read, shown, compared and refused by their values\n";
}
