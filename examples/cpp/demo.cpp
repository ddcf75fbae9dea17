// Columns freed by scope, rows and runs iterated, refusals as exceptions. Answers were worked out by hand.
#include "hivevigil.hpp"
#include "hivevigil_arrow.h"
#include <array>
#include <cstdlib>
#include <iostream>

using hv::Column;
using hv::Null;
using hv::Operator;
using hv::Value;

static void check(bool holds, const char *what) {
    if (holds) return;
    std::cerr << "does not hold: " << what << "\n";
    std::exit(1);
}
#define CHECK(what) check((what), #what)

static std::vector<Value> rows_of(const Column &column) {
    std::vector<Value> rows;
    for (size_t row = 0; row < column.size(); row++) rows.push_back(column.at(row));
    return rows;
}
static Column texts_with_null() { return Column::of(std::vector<std::optional<std::string>>{"one", std::nullopt}); }
static Value number(int64_t item) { return item; }

// 1 1 null null 2 3 3 3 null null
static Column made() {
    return Column::of<int32_t>({1, 1, 0, 0, 2, 3, 3, 3, 0, 0},
                               {true, true, false, false, true, true, true, true, false, false});
}

static void check_runs() {
    const Column runs = made().encode();
    CHECK(runs.form() == hv::Form::runs && runs.size() == 10 && runs.kind().number == HV_I32);
    CHECK(runs.at(4) == number(2) && runs.at(3) == Value(Null{}));
    CHECK(std::get<int64_t>(runs.sum().total) == 13 && !runs.sum().empty);
    const hv::SumParts parts = runs.sum_parts();
    CHECK(parts.total.low == 13 && parts.least.low == 0 && parts.greatest.low == 13 && runs.null_count() == 4);
    CHECK(runs.least() == number(1) && runs.greatest() == number(3));
    CHECK(!runs.is_constant() && !runs.is_sorted());
    CHECK(rows_of(runs.slice(3, 7)) == (std::vector<Value>{Null{}, number(2), number(3), number(3)}));
    CHECK(rows_of(runs.take(Column::of<uint64_t>({9, 4, 0}))) == (std::vector<Value>{Null{}, number(2), number(1)}));
    CHECK(rows_of(runs.filter(runs.compare(Operator::greater, number(1)).decode())).size() == 4);
    CHECK(runs.ends().numbers<uint8_t>() == (std::vector<uint8_t>{2, 4, 5, 8, 10}));
    CHECK(runs.decode().validity()[3] == false && runs.decode().numbers<int32_t>()[4] == 2);
    CHECK(runs.fill(number(7)).at(9) == number(7));
    CHECK(runs.cast({HV_I64, 1, 0, 0}).kind().number == HV_I64);
    CHECK(Column::of<int8_t>({5, 0}).take_from(runs).at(0) == number(3));
    const Column same = runs.compare(Operator::equal, runs);
    CHECK(same.size() == 10 && same.at(0) == Value(true) && same.at(2) == Value(Null{}));
}

static void check_own_runs() {
    const Column ends = Column::of<uint16_t>({2, 3, 5}), values = Column::of<int8_t>({7, 8, 9});
    Column runs = Column::runs(ends, values, 1, 4);
    CHECK(rows_of(runs) == (std::vector<Value>{number(7), number(8), number(9), number(9)}) && runs.offset() == 1);
    const hv::Bytes record = runs.serialize();
    CHECK(record == (hv::Bytes{0x08, 0x01, 0x10, 0x03, 0x18, 0x01}));
    CHECK(rows_of(Column::deserialize(runs.kind(), 4, record, ends, values)) == rows_of(runs));
    const hv::Bytes message = runs.to_bytes();
    const Column read = Column::from_bytes(message);
    CHECK(rows_of(read) == rows_of(runs) && read.offset() == 1 && read.to_bytes() == message);
    const Column moved = std::move(runs);
    CHECK(moved.size() == 4 && runs.size() == 0 && runs.form() == hv::Form::none);
}

static void check_other_types() {
    const Column texts = Column::texts(
        {"one", "",
         std::string_view(
             "a text that is longer than the room that it is given at first, so that it is asked for again")});
    CHECK(texts.at(0) == Value(std::string("one")) && std::get<std::string>(texts.at(2)).size() == 92);
    CHECK(texts.compare(Operator::equal, Value(std::string("one"))).at(0) == Value(true));
    CHECK(Column::bytes({"a"}).at(0) == Value(hv::Bytes{'a'}));
    CHECK(Column::truths({true, false}).truths() == (std::vector<bool>{true, false}));
    CHECK(Column::decimals({{5, 0}}, 10, 2).at(0) == Value(hv::Decimal{5, 0, 2}));
    CHECK(Column::of<uint64_t>({}).sum().empty);
}

static void check_lists() {
    const Column elements = Column::of<int32_t>({1, 2, 3});
    const Column lists = Column::lists(elements, {0, 1}, {2, 2}); // [1 2] [2 3]
    CHECK(lists.form() == hv::Form::lists && lists.size() == 2 && lists.bytes_used() == 3 * 4 + 2 * (8 + 8));
    CHECK(lists.null_count() == 0);
    CHECK(rows_of(lists.list_elements()) == rows_of(elements));
    CHECK(lists.list_offsets().numbers<uint64_t>() == (std::vector<uint64_t>{0, 1}));
    CHECK(lists.list_sizes().numbers<uint64_t>() == (std::vector<uint64_t>{2, 2}));
    const std::vector<bool> valid{true, false};
    const Column some = Column::lists(elements, {0, 9}, {2, 9}, &valid);
    CHECK(some.list_validity().truths() == valid);
    const hv::Bytes message = some.to_bytes();
    const Column read = Column::from_bytes(message);
    CHECK(message.size() == 102 && read.to_bytes() == message && read.form() == hv::Form::lists);
    CHECK(Column::is_message(message) && !Column::is_message({}));
    CHECK(read.list_validity().truths() == valid && rows_of(read.list_elements()) == rows_of(elements));
    CHECK(read.list_offsets().numbers<uint64_t>() == (std::vector<uint64_t>{0, 9})); // also of the list that is null
}

// ---- Messages with a logical type, whose bytes are put together here ----

static hv::Bytes joined(std::initializer_list<hv::Bytes> parts) {
    hv::Bytes all;
    for (const hv::Bytes &part : parts) all.insert(all.end(), part.begin(), part.end());
    return all;
}

// A length, as a varint.
static hv::Bytes length_bytes(size_t length) {
    hv::Bytes bytes;
    for (; length >= 128; length /= 128) bytes.push_back(static_cast<uint8_t>(length % 128 + 128));
    bytes.push_back(static_cast<uint8_t>(length));
    return bytes;
}

// Version 2, the name of the type in field 22, and the message of the column in field 23.
static hv::Bytes typed_message(const std::string &name, const hv::Bytes &message) {
    return joined({{0x08, 0x02},
                   {0xb2, 0x01},
                   length_bytes(name.size()),
                   {name.begin(), name.end()},
                   {0xba, 0x01},
                   length_bytes(message.size()),
                   message});
}

// Two days, 19783 and 19784, as i32: version 1, type 7, form 1, two rows without null, their items.
static const hv::Bytes days{0x08, 1, 0x10, 7, 0x18, 1, 0x20, 2, 0x28, 1, 0x3a, 8, 0x47, 0x4d, 0, 0, 0x48, 0x4d, 0, 0};

template <class Call> static int32_t number_of(Call call) {
    try {
        call();
    } catch (const hv::Error &error) {
        return error.number;
    }
    return HV_OK;
}

// The bytes are the message of a column with a logical type, or of one without, where it is empty.
static void check_typed(const hv::Bytes &message, const hv::Bytes &storage, const std::string &name) {
    const Column read = Column::from_bytes(message), untyped = Column::from_bytes(storage);
    CHECK(read.logical_type() == name && read.to_bytes() == message && Column::is_message(message));
    CHECK(untyped.logical_type().empty() && read.with_logical_type("").to_bytes() == storage);
    CHECK(untyped.with_logical_type(name).to_bytes() == message && Column::is_message(storage));
}

static void check_not_typed(const hv::Bytes &message) {
    CHECK(!Column::is_message(message));
    CHECK(number_of([&] { Column::from_bytes(message); }) == HV_BAD_METADATA);
}

static void check_typed_messages() {
    const Column column = Column::of<int32_t>({19783, 19784});
    const hv::Bytes due = joined({{0x08, 0x02, 0xb2, 0x01, 3, 't', 'd', 'D', 0xba, 0x01, 20}, days});
    CHECK(column.with_logical_type("tdD").to_bytes() == due && column.to_bytes() == days);
    const std::string zero("ts\0:", 4), longer(200, 'z');
    for (const std::string &name : {std::string("tdD"), std::string("tss:Z\u00fcrich"), std::string("x"), zero, longer})
        check_typed(typed_message(name, days), days, name);
    check_typed(days, days, "");
    // runs in a window, texts whose message has more than 127 bytes, and a constant of many rows
    const Column runs = made().encode().slice(3, 9), constant = Column::constant(hv::kinds::i64, 7, size_t{1} << 60);
    const Column texts = Column::of(std::vector<std::string>{longer, "a"});
    for (const Column *some : {&runs, &texts, &constant})
        check_typed(typed_message("g", some->to_bytes()), some->to_bytes(), "g");
    const Column typed = runs.with_logical_type("g");
    CHECK(Column::from_bytes(typed.to_bytes()).offset() == runs.offset() && runs.offset() == 3);
}

// Calls that give back rows keep what they mean, also a format that is longer than what is read at once.
static void check_kept_types() {
    const std::string longer = "tsu:" + std::string(100, 'x');
    for (const std::string &format : {std::string("tsu:UTC"), std::string("a\0b", 3), longer}) {
        const Column column = made().with_logical_type(format), runs = column.encode();
        const Column mask = column.is_valid(), ends = Column::of<uint8_t>({2, 4});
        const Column *const all[] = {&column, &runs};
        for (const Column *rows : all)
            for (const Column &kept : {rows->clone(), rows->compact(), rows->decode(), rows->encode_rows(),
                                       rows->slice(1, 3), rows->take(ends), rows->filter(mask), rows->fill(7),
                                       rows->sorted(), rows->reversed(), ends.take_from(*rows),
                                       mask.choose(*rows, column.clone()), Column::runs(ends, rows->slice(0, 2), 0, 4)})
                CHECK(kept.logical_type() == format);
        CHECK(runs.values().logical_type() == format && runs.ends().logical_type().empty());
        CHECK(column.value_counts().first.logical_type() == format && mask.logical_type().empty());
        CHECK((column + column).logical_type().empty() && column.cast(column.kind()).logical_type().empty());
        CHECK(column.with_logical_type("").logical_type().empty() && column.logical_type() == format);
    }
    CHECK(Column().logical_type().empty());
}

static void check_damaged_typed_messages() {
    const hv::Bytes whole = typed_message("tdD", days);
    for (size_t size = 0; size < whole.size(); size++)
        check_not_typed({whole.begin(), whole.begin() + static_cast<long>(size)});
    for (size_t size = 0; size < days.size(); size++)
        check_not_typed({days.begin(), days.begin() + static_cast<long>(size)});
    check_not_typed(joined({whole, {0}}));
    check_not_typed(joined({days, {0}}));
    check_not_typed(typed_message("", days));
    check_not_typed(typed_message("td\xff", days));
    check_not_typed(typed_message("tdD", whole));
    check_not_typed(typed_message("tdD", {}));
    // a byte longer than it has to be: the length of the name, and that of the message
    check_not_typed(joined({{0x08, 0x02, 0xb2, 0x01, 0x83, 0, 't', 'd', 'D', 0xba, 0x01, 20}, days}));
    check_not_typed(joined({{0x08, 0x02, 0xb2, 0x01, 3, 't', 'd', 'D', 0xba, 0x01, 0x94, 0}, days}));
    check_not_typed(joined({{0x08, 0x02, 0xba, 0x01, 20}, days, {0xb2, 0x01, 3, 't', 'd', 'D'}}));
    check_not_typed(joined({{0x08, 0x02, 0xba, 0x01, 20}, days}));
    check_not_typed(joined({{0x08, 0x03}, {whole.begin() + 2, whole.end()}}));
}

// Each byte changed to each other: another name where it stays UTF-8, another column where the message stays one.
static void check_changed_typed_messages() {
    const hv::Bytes whole = typed_message("tdD", days);
    for (size_t place = 0; place < whole.size(); place++)
        for (int byte = 0; byte < 256; byte++) {
            hv::Bytes changed = whole;
            changed[place] = static_cast<uint8_t>(byte);
            const hv::Bytes storage(changed.end() - 20, changed.end());
            const bool is_name = place >= 5 && place < 8 && byte < 128;
            const bool is_column = place >= 11 && Column::is_message(storage);
            if (changed == whole || is_name || is_column)
                check_typed(changed, storage, {changed.begin() + 5, changed.begin() + 8});
            else check_not_typed(changed);
        }
}

static void check_refused_typed_messages() {
    const Column column = Column::of<int32_t>({19783, 19784});
    for (const char *name : {"\xff", "ts\xc3", "\xed\xa0\x80"})
        CHECK(number_of([&] { column.with_logical_type(name); }) == HV_TYPE_MISMATCH);
    try {
        column.with_logical_type("td\xff");
    } catch (const hv::Error &error) { CHECK(std::string(error.what()) == "the logical type is not UTF-8"); }
    Column deep = Column::of<uint8_t>({7});
    for (int level = 0; level < 17; level++) deep = Column::runs(Column::of<uint8_t>({1}), deep, 0, 1);
    CHECK(number_of([&] { deep.to_bytes(); }) == HV_UNSUPPORTED);
    CHECK(number_of([&] { deep.with_logical_type("g").to_bytes(); }) == HV_UNSUPPORTED);
    CHECK(number_of([&] { Column().to_bytes(); }) == HV_NO_COLUMN);
    CHECK(number_of([&] { Column().with_logical_type("g"); }) == HV_NO_COLUMN);
}

static void check_refusals() {
    const Column runs = made().encode();
    try {
        runs.slice(5, 11);
        CHECK(!"refused");
    } catch (const hv::Error &error) {
        CHECK(error.number == HV_BAD_RANGE && error.fields.first == 5 && error.fields.second == 11 &&
              error.fields.third == 10);
        CHECK(std::string(error.what()) == "rows 5 to 11 are not among 10 rows");
        CHECK(std::string(error.name()) == "HV_BAD_RANGE");
    }
    try {
        Column::of<int32_t>({1, 2}, {true});
        CHECK(!"refused");
    } catch (const hv::Error &error) { CHECK(error.number == HV_COLUMN_LENGTH); }
}

// start, stop and value of each run, as one text
static std::string runs_of(const Column &column) {
    std::string text;
    for (const hv::Run &run : column.runs()) {
        text += std::to_string(run.start) + "-" + std::to_string(run.stop) + ":";
        const auto *value = std::get_if<int64_t>(&run.value);
        text += value ? std::to_string(*value) + " " : "null ";
    }
    return text;
}

static void check_iteration() {
    const Column runs = made().encode();
    CHECK(runs_of(runs) == "0-2:1 2-4:null 4-5:2 5-8:3 8-10:null ");
    CHECK(runs_of(runs.slice(3, 7)) == "0-1:null 1-2:2 2-4:3 " && runs.slice(3, 7).runs().size() == 3);
    CHECK(runs_of(runs.slice(6, 7)) == "0-1:3 " && runs_of(runs.slice(4, 4)).empty());
    CHECK(runs_of(made().slice(3, 5)) == "0-1:null 1-2:2 " && runs_of(Column()).empty());
    CHECK(runs.runs().at(3).size() == 3 && runs.runs()[4].value == Value(Null{}));
    size_t rows = 0, nulls = 0;
    for (const Value &row : runs) rows++, nulls += std::holds_alternative<Null>(row);
    CHECK(rows == 10 && nulls == 4);
}

static void check_runs_and_constants() {
    const Column runs = made().encode(), part = runs.slice(3, 7);
    CHECK(runs.run_of(7) == 3 && runs.run(3).start == 5 && runs.run(3).stop == 8 && runs.run(3).value == number(3));
    CHECK(part.run_of(0) == 0 && part.run(part.run_of(3)).stop == 4);
    hv::Runs taken = made().encode().runs(); // has the column, which nothing else does
    CHECK(taken.size() == 5 && taken.at(4).start == 8);
    const hv::Runs moved = std::move(taken);
    CHECK(moved.at(3).value == number(3));
    CHECK(runs.numbers<int32_t>()[5] == 3 && part.optionals<int32_t>()[1] == 2 && !part.optionals<int32_t>()[0]);
    CHECK((runs.validity() == std::vector<bool>{true, true, false, false, true, true, true, true, false, false}));
    const Column same = Column::constant({HV_UTF8, 0, 0, 0}, std::string("Oslo"), size_t{1} << 60);
    CHECK(same.size() == size_t{1} << 60 && same.form() == hv::Form::constant && same.runs().size() == 1);
    CHECK(same.get<std::string>(7) == "Oslo" && same.runs().at(0).stop == size_t{1} << 60);
    CHECK(Column::constant(hv::kinds::u16, 7, 3).get<uint16_t>(2) == uint16_t{7});
    CHECK(Column::constant(hv::kinds::utf8, "Oslo", 3).get<std::string>(2) == "Oslo");
    CHECK(rows_of(Column::constant({HV_I8, 1, 0, 0}, Null{}, 2)) == (std::vector<Value>{Null{}, Null{}}));
    CHECK(runs.least_and_greatest() == std::pair(number(1), number(3)));
    const std::string longer(300, 'z');
    CHECK(Column::texts({"b", longer, "a"}).least_and_greatest() == std::pair(Value("a"), Value(longer)));
    CHECK(runs.filter(runs.compare(Operator::greater, number(1))).size() == 4); // a mask in the form that it has
    const Column places = Column::of<uint8_t>({9, 9, 4}).encode();
    CHECK(rows_of(runs.take(places)) == (std::vector<Value>{Null{}, Null{}, number(2)}));
}

static void check_views_and_optionals() {
    const std::array<int16_t, 3> items = {5, 5, -6};
    const uint8_t bytes[] = {1, 2};
    const Column column = Column::of(items);
    CHECK(column.kind().number == HV_I16 && column.get<int16_t>(2) == int16_t{-6} && column[1] == number(5));
    CHECK(Column::of(hv::View<int16_t>(items)).size() == 3 && Column::of(bytes).get<uint8_t>(1) == uint8_t{2});
    const std::vector<std::optional<int64_t>> rows = {7, std::nullopt, 9};
    const Column some = Column::of(rows);
    CHECK(!some.get<int64_t>(1) && some.get<int64_t>(2) == 9 && some.optionals<int64_t>() == rows);
    std::array<int16_t, 2> part = {};
    column.read(1, part.data(), part.size());
    CHECK(part == (std::array<int16_t, 2>{5, -6}));
    CHECK(Column::texts({"one"}).get<std::string>(0) == "one" && Column::truths({true}).get<bool>(0) == true);
    try {
        some.get<std::string>(0);
        CHECK(!"refused");
    } catch (const hv::Error &error) { CHECK(error.number == HV_TYPE_MISMATCH); }
    try {
        some.runs().at(3);
        CHECK(!"refused");
    } catch (const hv::Error &error) { CHECK(std::string(error.what()) == "row 3 is not among 3 rows"); }
}

static void check_rows_of_all_sorts() {
    const std::vector<std::string> names = {"Oslo", "Oslo", "Bergen"};
    CHECK(rows_of(Column::of(names)) == rows_of(Column::of({"Oslo", "Oslo", "Bergen"})));
    CHECK(Column::of(names).kind().number == HV_UTF8 && !Column::of(names).kind().nullable);
    const std::vector<std::optional<std::string_view>> some = {"Oslo", std::nullopt};
    const Column texts = Column::of(some);
    CHECK(texts.kind().nullable && texts.at(0) == Value(std::string("Oslo")) && texts.at(1) == Value(Null{}));
    CHECK(texts.optionals<std::string>() == (std::vector<std::optional<std::string>>{"Oslo", std::nullopt}));
    const Column truths = Column::of(std::vector<bool>{true, false, true});
    CHECK(truths.kind().number == HV_BOOL && truths.get<bool>(1) == false && Column::of({true, false}).size() == 2);
    const Column maybe = Column::of(std::vector<std::optional<bool>>{std::nullopt, true});
    CHECK(maybe.optionals<bool>() == (std::vector<std::optional<bool>>{std::nullopt, true}));
    CHECK(Column::of({std::optional<int16_t>(3), std::optional<int16_t>()}).encode().optionals<int16_t>() ==
          (std::vector<std::optional<int16_t>>{3, std::nullopt}));
    CHECK(Column::of(std::vector<std::string>{}).empty() && Column::of(std::vector<std::optional<bool>>{}).empty());
}

static void check_values_as_they_are_written() {
    const Column runs = made().encode(), wide = Column::of<uint64_t>({1, UINT64_MAX});
    CHECK(rows_of(runs.compare(Operator::greater, 1)) == rows_of(runs.compare(Operator::greater, number(1))));
    CHECK(wide.compare(Operator::less, 2).at(0) == Value(true));
    CHECK(wide.compare(Operator::equal, UINT64_MAX).at(1) == Value(true));
    CHECK(runs.compare(Operator::less, 2u).at(0) == Value(true) && runs.fill(7).at(9) == number(7));
    CHECK(Column::of({"b", "c"}).compare(Operator::less, "c").truths() == (std::vector<bool>{true, false}));
    CHECK(Column::bytes({"b"}).compare(Operator::equal, std::string("b")).at(0) == Value(true));
    CHECK(texts_with_null().fill("none").at(1) == Value(std::string("none")));
}

static void check_words() {
    CHECK(made().cast(hv::nullable(hv::kinds::i64)).kind().number == HV_I64);
    CHECK(hv::to_string(made().kind()) == "i32?" && hv::to_string(hv::kinds::decimal(10, 2)) == "decimal(10, 2)");
    CHECK(hv::to_string(hv::kinds::boolean) == "bool" && hv::to_string(Column().kind()) == "none");
    CHECK(hv::to_string(number(-7)) == "-7" && hv::to_string(Value(UINT64_MAX)) == "18446744073709551615");
    CHECK(hv::to_string(Value(Null{})) == "null" && hv::to_string(Value(true)) == "true");
    CHECK(hv::to_string(Value(std::string("a b"))) == "a b" && hv::to_string(Value(hv::Bytes{0, 255})) == "00ff");
    CHECK(hv::to_string(hv::Decimal::of(0, 0), 2) == "0.00" && hv::to_string(hv::Decimal::of(5, 0), 3) == "0.005");
    CHECK(hv::to_string(hv::Decimal{UINT64_MAX, -1, 0}) == "-1" && hv::to_string(hv::Decimal::of(12, -2)) == "1200");
    CHECK(hv::to_string(hv::Decimal::of(0, -2)) == "0" && hv::to_string(hv::Decimal::of(-1050, 2)) == "-10.50");
    CHECK(hv::to_string(hv::Decimal::of(-7, 4)) == "-0.0007" && hv::to_string(hv::Decimal::of(1050, 4)) == "0.1050");
    CHECK(hv::to_string(hv::Decimal{0, 1, 0}) == "18446744073709551616");
    CHECK(hv::to_string(hv::Decimal{0, INT64_MIN, 0}) == "-170141183460469231731687303715884105728");
    CHECK(hv::to_string(hv::Decimal{0, INT64_MIN, 38}) == "-1.70141183460469231731687303715884105728");
    CHECK(made().sum().get<int64_t>() == 9 + 4 && made().sum().get<uint64_t>() == 13u);
    CHECK(!Column::of<int64_t>({-1}).sum().get<uint64_t>() && Column::of<int64_t>({-1}).sum().get<int64_t>() == -1);
    CHECK(!Column::of<uint64_t>({UINT64_MAX}).sum().get<int64_t>());
}

static void check_moves() {
    Column first = made(), second = Column::of<uint8_t>({1, 2});
    first = std::move(second);
    CHECK(first.size() == 2 && !second && second.empty() && second.form() == hv::Form::none);
    CHECK(second.begin() == second.end() && second.runs().empty() && second.numbers<uint8_t>().empty());
    CHECK(second.validity().empty() && second.truths().empty() && second.offset() == 0);
    Column &same = first;
    first = std::move(same);
    CHECK(first.size() == 2);
    try {
        second.encode();
        CHECK(!"refused");
    } catch (const hv::Error &error) { CHECK(error.number == HV_NO_COLUMN); }
}

// 7 7 null, 9 out of runs, 9 twice, null
static void check_builders() {
    hv::Builder builder({HV_I64, 1, 0, 0});
    CHECK(builder.empty() && builder.runs() == 0 && builder.encoding().empty());
    builder.append(Column::of<int64_t>({7, 7, 0}, {true, true, false}));
    builder.append(Column::of<int64_t>({8, 9, 9}, {true, true, true}).encode().slice(1, 2));
    builder.append(9, 2);
    builder.append(Value(Null{}));
    CHECK(builder.size() == 7 && builder.runs() == 4 && builder.kind().number == HV_I64);
    const Column built = builder.encoding();
    CHECK(built.form() == hv::Form::runs && built.ends().numbers<uint8_t>() == (std::vector<uint8_t>{2, 3, 6, 7}));
    CHECK(rows_of(built) == (std::vector<Value>{number(7), number(7), Null{}, number(9), number(9), number(9), Null{}}));
    hv::Builder moved(std::move(builder));
    CHECK(builder.empty() && moved.size() == 7);
    try {
        moved.append(Column::of<int64_t>({1}));
        CHECK(!"refused");
    } catch (const hv::Error &error) { CHECK(error.number == HV_TYPE_MISMATCH && moved.size() == 7); }
    hv::Builder texts({HV_UTF8, 0, 0, 0});
    texts.append("oak", 2), texts.append(Column::of({"oak", "elm"}));
    CHECK(texts.runs() == 2 && texts.encoding().at(3) == Value(std::string("elm")));
    const Column finished = moved.finish();
    CHECK(finished.to_bytes() == built.to_bytes() && moved.empty() && moved.runs() == 0);
    moved.append(Value(Null{}), 2), moved.append(4);
    CHECK(moved.runs() == 2 && rows_of(moved.finish()) == (std::vector<Value>{Null{}, Null{}, number(4)}));
    CHECK(moved.finish().empty() && finished.size() == 7 && texts.finish().at(0) == Value(std::string("oak")));
    try {
        builder.finish();
        CHECK(!"refused");
    } catch (const hv::Error &error) { CHECK(error.number == HV_NO_COLUMN); }
    const Column truths = Column::of({true, true, false}).encode_rows();
    CHECK(truths.ends().numbers<uint8_t>() == (std::vector<uint8_t>{2, 3}));
}

static void check_arrow() {
    const Column part = made().encode().slice(1, 9);
    ArrowSchema schema;
    ArrowArray array;
    hv_error error{};
    Column again;
    CHECK(!hv_arrow_export(&hv::initial_session(), part.raw(), "part", &schema, &array, &error));
    CHECK(!hv_arrow_import(&hv::initial_session(), &schema, &array, again.raw(), &error));
    hv_arrow_release(&schema, &array);
    CHECK(rows_of(again) == rows_of(part) && again.form() == hv::Form::runs);
}

int main() {
    check_runs();
    check_own_runs();
    check_runs_and_constants();
    check_other_types();
    check_iteration();
    check_views_and_optionals();
    check_rows_of_all_sorts();
    check_values_as_they_are_written();
    check_words();
    check_moves();
    check_lists();
    check_builders();
    check_typed_messages();
    check_kept_types();
    check_damaged_typed_messages();
    check_changed_typed_messages();
    check_refused_typed_messages();
    check_refusals();
    check_arrow();
    std::cout << "columns are freed by scope, and refusals are thrown\n";
}
