// Tables: rows chosen, sorted, grouped and joined, files and Arrow, refusals by number, sentence and what they leave.
// Answers were worked out by hand; table_rows.cpp holds random tables against plain rows.
#include "hivevigil_table.hpp"
#include <cstdlib>
#include <fstream>
#include <iostream>

using hv::Column;
using hv::Decimal;
using hv::Fold;
using hv::Null;
using hv::Operator;
using hv::Table;
using hv::Value;

static void check(bool holds, const char *what) {
    if (holds) return;
    std::cerr << "does not hold: " << what << "\n";
    std::exit(1);
}
#define CHECK(what) check((what), #what)

// The call is refused by this number, in this sentence.
template <class Call> static void check_refused(int32_t number, const std::string &sentence, Call call) {
    try {
        call();
    } catch (const hv::Error &error) {
        if (error.number == number && sentence == error.what()) return;
        std::cerr << error.number << ": " << error.what() << "\nand not\n" << number << ": " << sentence << "\n";
        std::exit(1);
    }
    std::cerr << "not refused: " << sentence << "\n";
    std::exit(1);
}

static const char *const no_to =
    "no column has the name 'to': the names are 'station', 'level', 'price', 'at', ...";

static std::vector<Value> rows_of(const Column &column) { return {column.begin(), column.end()}; }
static std::vector<Value> numbers(std::initializer_list<int64_t> rows) { return {rows.begin(), rows.end()}; }
static std::vector<Value> counts(std::initializer_list<uint64_t> rows) { return {rows.begin(), rows.end()}; }
static std::vector<Value> words(std::initializer_list<const char *> rows) {
    std::vector<Value> values;
    for (const char *row : rows) values.push_back(std::string(row));
    return values;
}

// station  north north south south south
// level    900   903   null  41    40
// price    1.50  1.50  1.75  1.75  1.75      in runs
// at       10    20    30    40    50        seconds since 1970
// share    0.5   -0.0  NaN   0.25  1.0       floats
static Table readings() {
    const std::vector<std::string> stations{"north", "north", "south", "south", "south"};
    const std::vector<std::optional<int64_t>> levels{900, 903, std::nullopt, 41, 40};
    const Column prices = Column::decimals({{150, 0}, {150, 0}, {175, 0}, {175, 0}, {175, 0}}, 5, 2).encode_rows();
    return Table{{"station", stations},
                 {"level", levels},
                 {"price", prices},
                 {"at", {10, 20, 30, 40, 50}, "tts"},
                 {"share", {0.5, -0.0, std::nan(""), 0.25, 1.0}}};
}

static void check_parts() {
    const Table table = readings();
    CHECK(table.rows() == 5 && table.size() == 5 && !table.empty() && table.contains("at") && !table.contains("to"));
    CHECK(table.names() == (std::vector<std::string>{"station", "level", "price", "at", "share"}));
    const std::vector<std::optional<int64_t>> levels{900, 903, std::nullopt, 41, 40};
    CHECK(table["level"].optionals<int64_t>() == levels);
    CHECK(table["price"].form() == hv::Form::runs && table.at("at").logical_type() == "tts");
    CHECK(table.at("share").logical_type() == "g" && hv::Floats<double>(table["share"].clone()).at(3) == 0.25);
    std::string names;
    for (const hv::NamedColumn &named : table) names += named.name + " ";
    CHECK(names == "station level price at share ");
    const Table few = table.select({"at", "station"});
    CHECK(few.names() == (std::vector<std::string>{"at", "station"}) && few.at("at").logical_type() == "tts");
    CHECK(table.drop({"price", "share"}).names() == (std::vector<std::string>{"station", "level", "at"}));
    const Table more = few.with_column({"row", {0, 1, 2, 3, 4}}).with_column({"at", {5, 4, 3, 2, 1}});
    CHECK(more.names() == (std::vector<std::string>{"at", "station", "row"}) && more.at("at").logical_type().empty());
    CHECK(rows_of(more["at"]) == numbers({5, 4, 3, 2, 1}) && rows_of(few["at"]) == numbers({10, 20, 30, 40, 50}));
    CHECK(few.rename("at", "time").names() == (std::vector<std::string>{"time", "station"}));
    Table moved = table.clone();
    const Table other = std::move(moved);
    CHECK(other == table && moved.rows() == 0 && moved.empty());
    moved = other.clone();
    CHECK(moved.equals(table));
    const Table none(std::vector<hv::NamedColumn>(), 3);
    CHECK(none != Table(std::vector<hv::NamedColumn>(), 2) && table != none);
    CHECK(few != few.with_column({"at", few["at"], "ttm"}) && few != table.select({"station", "at"}));
}

// Columns of floats, asked by numbers that they do not have.
static void check_floats() {
    const std::vector<float> narrow{-16777216.0f, -16777218.0f, 0.1f};
    const std::vector<double> wide{9007199254740994.0, 9007199254740996.0, 0.1};
    const Table table{{"narrow", narrow}, {"wide", wide}, {"row", {0, 1, 2}}};
    CHECK(table.at("narrow").logical_type() == "f" && table["narrow"].kind().number == HV_I32);
    CHECK(rows_of(table.filter_by("narrow", "<", -16777217)["row"]) == numbers({1}));
    CHECK(rows_of(table.filter_by("narrow", ">", -16777217)["row"]) == numbers({0, 2}));
    CHECK(table.filter_by("narrow", "==", -16777217).rows() == 0 && table.filter_by("narrow", "!=", 0.1).rows() == 3);
    CHECK(table.filter_by("narrow", "==", 0.1f).rows() == 1 && table.filter_by("wide", "==", 0.1).rows() == 1);
    CHECK(rows_of(table.filter_by("wide", "<=", int64_t{9007199254740995})["row"]) == numbers({0, 2}));
    CHECK(table.filter_by("wide", "<", UINT64_MAX).rows() == 3);
    CHECK(table.filter_by("wide", "<", std::nan("")).rows() == 0);
    const hv::TableGroups groups = table.with_column({"key", {1, 1, 2}}).group_by({"key"});
    const hv::NamedColumn sums = groups.fold({"sum", Fold::sum, "narrow"});
    CHECK(sums.logical_type() == "g" && hv::Floats<double>(sums.column.clone()).at(0) == -33554434.0);
    CHECK(groups.fold({"most", Fold::greatest, "narrow"}).logical_type() == "f");
    const std::vector<std::optional<double>> some{std::nullopt, std::nullopt, 2.5};
    const Table missing{{"key", {1, 1, 2}}, {"x", some}};
    const hv::Floats<double> found(missing.group_by({"key"}).fold({"sum", Fold::sum, "x"}).column.clone());
    CHECK(!found.at(0) && found.at(1) == 2.5);
    check_refused(HV_TYPE_MISMATCH, "column 'wide': i64 of the logical type g is not compared with a text",
                  [&] { table.filter_by("wide", "<", "1"); });
}

static void check_rows() {
    const Table table = readings();
    const Table high = table.filter_by("level", ">=", 902).select({"station", "level"});
    CHECK(high.rows() == 1 && rows_of(high["station"]) == words({"north"}));
    CHECK(rows_of(table.filter_by("level", "<", 900)["at"]) == numbers({40, 50})); // null meets no condition
    CHECK(rows_of(table.filter_by("station", Operator::equal, "south")["at"]) == numbers({30, 40, 50}));
    CHECK(rows_of(table.filter_by("station", "!=", std::string("south"))["at"]) == numbers({10, 20}));
    CHECK(rows_of(table.filter_by("price", ">", Decimal::of(15, 1))["at"]) == numbers({30, 40, 50}));
    CHECK(rows_of(table.filter_by("share", "==", 0)["at"]) == numbers({20}));
    CHECK(rows_of(table.filter_by("share", ">", 0.3)["at"]) == numbers({10, 50}));
    CHECK(table.slice(1, 3).rows() == 2 && rows_of(table.slice(1, 3)["at"]) == numbers({20, 30}));
    const Table picked = table.take(std::vector<int>{4, 0, 0});
    CHECK(rows_of(picked["at"]) == numbers({50, 10, 10}) && picked.at("at").logical_type() == "tts");
    const std::vector<std::optional<uint8_t>> maybe{1, std::nullopt};
    CHECK(rows_of(table.take(Column::of(maybe))["at"]) == (std::vector<Value>{int64_t{20}, Null{}}));
    CHECK(rows_of(table.filter(std::vector<bool>{true, false, false, false, true})["level"]) == numbers({900, 40}));
    CHECK(table.filter(table["level"].is_null()).rows() == 1);
    CHECK(rows_of(table.drop_null()["at"]) == numbers({10, 20, 40, 50}) && table.drop_null({"at"}) == table);
    CHECK(table.drop_null({"at", "level"}) == table.drop_null() && table.drop_null().at("at").logical_type() == "tts");
    const Table twice = table.append(table);
    CHECK(twice.rows() == 10 && rows_of(twice["at"]) == numbers({10, 20, 30, 40, 50, 10, 20, 30, 40, 50}));
    CHECK(twice.at("share").logical_type() == "g" && twice["price"].form() == hv::Form::runs);
    CHECK(table.append(table.select({"share", "at", "price", "level", "station"})) == twice);
    const Table none(std::vector<hv::NamedColumn>(), 3); // three rows of no columns
    CHECK(none.rows() == 3 && none.slice(0, 2).rows() == 2 && none.filter({true, false, true}).rows() == 2);
    CHECK(none.take(std::vector<int>{0, 0, 1, 2}).rows() == 4 && none.append(none).rows() == 6);
    check_refused(HV_OUT_OF_BOUNDS, "row 3 is not among 3 rows", [&] { none.take(std::vector<int>{3}); });
    check_refused(HV_MASK_LENGTH, "a mask of 1 rows over a column of 3 rows", [&] { none.filter({true}); });
}

static void check_order() {
    const Table table = readings();
    CHECK(rows_of(table.sort({"level"})["at"]) == numbers({30, 50, 40, 10, 20}));
    CHECK(rows_of(table.sort({"level"}, hv::Nulls::last)["at"]) == numbers({50, 40, 10, 20, 30}));
    CHECK(rows_of(table.sort({{"level", hv::Order::descending}})["at"]) == numbers({30, 20, 10, 40, 50}));
    CHECK(rows_of(table.sort({{"station", hv::Order::descending}, "level"}, hv::Nulls::last)["at"]) ==
          numbers({50, 40, 30, 10, 20}));
    CHECK(rows_of(table.sort({"share"})["at"]) == numbers({20, 40, 10, 50, 30})); // NaN above all else
    const Table own = table.sort({"station", {"level", hv::Order::ascending, hv::Nulls::last}}); // nulls of one key last
    CHECK(rows_of(own["at"]) == numbers({10, 20, 50, 40, 30}) && own == table.sort({"station", "level"}, hv::Nulls::last));
    const Table same = table.sort({"at"});
    CHECK(same == table && same["price"].form() == hv::Form::runs);
    CHECK(table.sort({{"price", hv::Order::descending}})["price"].runs().size() == 2);
    check_refused(HV_UNSUPPORTED, "at least one column says the order", [&] { table.sort({}); });
    check_refused(HV_TABLE_NAME_TWICE, "two columns have the name 'at'", [&] { table.sort({"at", "level", "at"}); });
    const Table lists = table.select({"at"}).with_column(
        {"lists", Column::lists(Column::of({1, 2}), {0, 0, 1, 1, 0}, {2, 0, 1, 1, 1})});
    check_refused(HV_UNSUPPORTED, "column 'lists': lists have no order", [&] { lists.sort({"at", "lists"}); });
    const Table turned = lists.sort({{"at", hv::Order::descending}});
    CHECK(turned["lists"].list_sizes().numbers<uint64_t>() == (std::vector<uint64_t>{1, 1, 1, 0, 2}));
}

static void check_groups() {
    const Table table = readings();
    const hv::TableGroups groups = table.group_by({"station"});
    CHECK(groups.size() == 2 && rows_of(groups.keys()["station"]) == words({"north", "south"}));
    CHECK(rows_of(groups.sizes()) == counts({2, 3}));
    const Table found = groups.agg({{"rows", Fold::rows},
                                    {"levels", Fold::count, "level"},
                                    {"total", Fold::sum, "level"},
                                    {"least", Fold::least, "level"},
                                    {"first", Fold::first, "at"},
                                    {"cost", Fold::sum, "price"}});
    CHECK(found.names() == (std::vector<std::string>{"station", "rows", "levels", "total", "least", "first", "cost"}));
    CHECK(rows_of(found["rows"]) == counts({2, 3}) && rows_of(found["levels"]) == counts({2, 2}));
    CHECK(rows_of(found["total"]) == numbers({1803, 81}) && rows_of(found["least"]) == numbers({900, 40}));
    CHECK(rows_of(found["first"]) == numbers({10, 30}) && found.at("first").logical_type() == "tts");
    CHECK(rows_of(found["cost"]) == (std::vector<Value>{Decimal::of(300, 2), Decimal::of(525, 2)}));
    CHECK(found["cost"].kind().precision == 38 && found.at("total").logical_type().empty());
    const Table shares = table.filter_by("share", ">=", 0);
    const Table pairs = shares.group_by({"price", "station"}).agg({{"sum", Fold::sum, "share"}});
    CHECK(pairs.rows() == 2 && rows_of(pairs["station"]) == words({"north", "south"}));
    const hv::Floats<double> sums(pairs["sum"].clone());
    CHECK(pairs.at("sum").logical_type() == "g" && sums.at(0) == 0.5 && sums.at(1) == 1.25);
    const Table none = table.slice(0, 0).group_by({"station", "at"}).agg({{"sum", Fold::sum, "share"}});
    CHECK(none.rows() == 0 && none.size() == 3 && none.at("at").logical_type() == "tts");
    const Table ends = groups.agg({{"least", Fold::least, "share"}, {"most", Fold::greatest, "share"}}); // no NaN
    const hv::Floats<double> least(ends["least"].clone()), most(ends["most"].clone());
    CHECK(least.at(0) == 0.0 && std::signbit(*least.at(0)) && least.at(1) == 0.25);
    CHECK(most.at(0) == 0.5 && most.at(1) == 1.0 && ends.at("most").logical_type() == "g");
    const Table odd = table.group_by({"at"}).agg({{"least", Fold::least, "share"}, {"first", Fold::first, "share"}});
    CHECK(hv::Floats<double>(odd["least"].clone()).at(2) == std::nullopt);
    CHECK(std::isnan(*hv::Floats<double>(odd["first"].clone()).at(2)));
    CHECK(groups.fold({"station", Fold::last, "station"}).name == "station"); // a key's name, which agg refuses
    const std::string zero("g\0", 2); // none of Arrow, by which these are no floats
    const hv::TableGroups odds = Table{{"key", {1, 1}}, {"number", {int64_t{5}, int64_t{6}}, zero}}.group_by({"key"});
    const hv::NamedColumn total = odds.fold({"sum", Fold::sum, "number"});
    CHECK(rows_of(total.column) == numbers({11}) && total.logical_type().empty());
    CHECK(odds.fold({"least", Fold::least, "number"}).logical_type() == zero);
}

static void check_groups_refused() {
    const Table table = readings();
    const hv::TableGroups groups = table.group_by({"station"});
    check_refused(HV_UNSUPPORTED, "column 'at': rows of the logical type tts have no sum",
                  [&] { groups.fold({"sum", Fold::sum, "at"}); });
    check_refused(HV_UNSUPPORTED, "column 'station': utf8 has no sum",
                  [&] { groups.fold({"sum", Fold::sum, "station"}); });
    check_refused(HV_TABLE_UNKNOWN_NAME, no_to, [&] { groups.fold({"sum", Fold::sum, "to"}); });
    check_refused(HV_TABLE_NAME_TWICE, "two columns have the name 'station'",
                  [&] { groups.agg({{"station", Fold::rows}}); });
    check_refused(HV_TABLE_NAME_TWICE, "two columns have the name 'a'",
                  [&] { groups.agg({{"a", Fold::sum, "to"}, {"a", Fold::rows}}); });
    check_refused(HV_TYPE_MISMATCH, "the name of a column is not UTF-8", [&] { groups.agg({{"\xff", Fold::rows}}); });
    check_refused(HV_UNSUPPORTED, "at least one column has the keys", [&] { table.group_by({}); });
    check_refused(HV_TABLE_NAME_TWICE, "two columns have the name 'at'", [&] { table.group_by({"at", "to", "at"}); });
    check_refused(HV_TABLE_UNKNOWN_NAME, no_to, [&] { table.group_by({"at", "to"}); });
    const Table lists{{"key", {1, 1}}, {"lists", Column::lists(Column::of({1, 2}), {0, 1}, {1, 1})}};
    const char *const unserved = "column 'lists': the call does not serve columns of this type or form";
    check_refused(HV_UNSUPPORTED, unserved, [&] { lists.group_by({"lists"}); });
    check_refused(HV_UNSUPPORTED, unserved, [&] { lists.group_by({"key"}).fold({"a", Fold::last, "lists"}); });
    const Table large{{"key", {1, 1, 2}}, {"number", {INT64_MAX, int64_t{1}, int64_t{1}}}};
    check_refused(HV_CAST_OUT_OF_RANGE, "column 'number': integer overflow: the sum of group 0 does not fit i64",
                  [&] { large.group_by({"key"}).fold({"sum", Fold::sum, "number"}); });
    check_refused(HV_TABLE_UNKNOWN_NAME, "no column has the name 'to': the names are 'key', 'number'",
                  [&] { large.group_by({"key"}).agg({{"sum", Fold::sum, "number"}, {"b", Fold::sum, "to"}}); });
    const hv_pair most{UINT64_MAX, INT64_MAX}; // 2^127 - 1, next to 10^38
    const Table decimals{{"key", {1, 2, 2}}, {"cost", Column::decimals({{1, 0}, most, most}, 38, 0)}};
    check_refused(HV_CAST_OUT_OF_RANGE, "column 'cost': decimal overflow: the sum of group 1 leaves 38 digits",
                  [&] { decimals.group_by({"key"}).agg({{"sum", Fold::sum, "cost"}}); });
}

// Each refusal by its number, its name and its sentence; the table is as it was.
static void check_refusals() {
    const Table table = readings(), copy = table.clone();
    const hv::Bytes before = table.to_bytes();
    check_refused(HV_COLUMN_LENGTH, "column 'b' has 1 rows, and the table 2", [] { Table{{"a", {1, 2}}, {"b", {1}}}; });
    check_refused(HV_TABLE_NAME_TWICE, "two columns have the name 'a'",
                  [] { Table{{"a", {1}}, {"b", {1}}, {"a", {1}}}; });
    check_refused(HV_TYPE_MISMATCH, "the name of a column is not UTF-8", [] { Table{{"\xff", {1}}}; });
    check_refused(HV_TYPE_MISMATCH, "column 'a': the logical type is not UTF-8", [] { Table{{"a", {1}, "\xff"}}; });
    check_refused(HV_TABLE_UNKNOWN_NAME, no_to, [&] { table["to"]; });
    check_refused(HV_TABLE_UNKNOWN_NAME, no_to, [&] { table.select({"at", "to"}); });
    check_refused(HV_TABLE_UNKNOWN_NAME, no_to, [&] { table.drop({"to"}); });
    check_refused(HV_TABLE_UNKNOWN_NAME, no_to, [&] { table.filter_by("to", ">", 1); });
    check_refused(HV_TABLE_NAME_TWICE, "two columns have the name 'at'", [&] { table.select({"at", "at"}); });
    check_refused(HV_TABLE_NAME_TWICE, "two columns have the name 'at'", [&] { table.rename("level", "at"); });
    check_refused(HV_COLUMN_LENGTH, "column 'x' has 1 rows, and the table 5", [&] { table.with_column({"x", {1}}); });
    check_refused(HV_BAD_RANGE, "rows 3 to 6 are not among 5 rows", [&] { table.slice(3, 6); });
    check_refused(HV_OUT_OF_BOUNDS, "row 5 is not among 5 rows", [&] { table.take(std::vector<int>{0, 5}); });
    check_refused(HV_TYPE_MISMATCH, "indices are integers, not utf8", [&] { table.take(table["station"]); });
    check_refused(HV_TYPE_MISMATCH, "a mask is of type bool, not utf8", [&] { table.filter(table["station"]); });
    check_refused(HV_MASK_LENGTH, "a mask of 2 rows over a column of 5 rows", [&] { table.filter({true, false}); });
    check_refused(HV_BAD_NUMBER, "'~' is not an operator: == != < <= > >=", [&] { table.filter_by("at", "~", 1); });
    check_refused(HV_TYPE_MISMATCH, "column 'station': utf8 is not compared with an integer",
                  [&] { table.filter_by("station", "<", 1); });
    check_refused(HV_TYPE_MISMATCH, "column 'station': utf8 is not compared with a float",
                  [&] { table.filter_by("station", "<", 1.5); });
    check_refused(HV_TABLE_UNKNOWN_NAME,
                  "no column has the name 'at': the names are 'station', 'level', 'price', 'share'",
                  [&] { table.append(table.drop({"at"})); });
    check_refused(HV_TABLE_UNKNOWN_NAME,
                  "no column has the name 'x': the names are 'station', 'level', 'price', 'at', ...",
                  [&] { table.append(table.with_column({"x", {1, 2, 3, 4, 5}})); });
    check_refused(HV_TABLE_UNKNOWN_NAME, no_to, [&] { table.drop_null({"to"}); });
    check_refused(HV_TABLE_UNKNOWN_NAME, no_to, [&] { table.sort({"at", "to"}); });
    const std::string odd = "\xff"; // no name of a column
    CHECK(!table.contains(odd));
    check_refused(HV_TABLE_UNKNOWN_NAME,
                  "no column has the name '\xff': the names are 'station', 'level', 'price', 'at', ...",
                  [&] { table.select({"at", odd}); });
    check_refused(HV_TYPE_MISMATCH, "the name of a column is not UTF-8", [&] { table.rename("at", odd); });
    check_refused(HV_TABLE_UNKNOWN_NAME, no_to, [&] { table.rename("to", odd); });
    check_refused(HV_COLUMN_LENGTH, "column 'a' has 1 rows, and the table 0", [] {
        std::vector<hv::NamedColumn> one;
        one.emplace_back("a", Column::of({1}));
        Table(std::move(one), 0);
    });
    check_refused(HV_NO_COLUMN, "column 'a' was moved away", [] { Table{{"a", Column()}}; });
    check_refused(HV_TYPE_MISMATCH, "column 'at': the logical types are 'tts' and ''",
                  [&] { table.append(table.with_column({"at", {1, 2, 3, 4, 5}})); });
    check_refused(HV_TYPE_MISMATCH, "column 'level': i64? is not joined with utf8",
                  [&] { table.append(table.with_column({"level", table["station"]})); });
    try {
        table["to"];
    } catch (const hv::Error &error) { CHECK(std::string(error.name()) == "HV_TABLE_UNKNOWN_NAME"); }
    check_refused(HV_TABLE_UNKNOWN_NAME, "no column has the name 'to': the table has none", [] { Table()["to"]; });
    CHECK(std::string(hv::TableError(HV_ARROW_STREAM_FAILED, {5, 0, 0}).name()) == "HV_ARROW_STREAM_FAILED");
    CHECK(table == copy && table.to_bytes() == before);
}

// Tables without columns, of rows that 64 bits count or not.
static void check_many_rows() {
    const char *const said = "offset and length, or all rows together, are 2^64 or more";
    const Table most({}, SIZE_MAX), one({}, 1), half({}, SIZE_MAX / 2 + 1);
    CHECK(most.append(Table()).rows() == SIZE_MAX && half.append(Table({}, SIZE_MAX / 2)).rows() == SIZE_MAX);
    check_refused(HV_WINDOW_OVERFLOW, said, [&] { most.append(one); });
    check_refused(HV_WINDOW_OVERFLOW, said, [&] { half.append(half); });
    const Table constants{{"a", Column::constant(hv::kinds::u8, uint64_t{7}, SIZE_MAX / 2 + 1)}};
    check_refused(HV_WINDOW_OVERFLOW, said, [&] { constants.append(constants); });
}

// ---- Files ----

static void check_files() {
    const Table table = readings();
    const hv::Bytes bytes = table.to_bytes();
    CHECK(Table::from_bytes(bytes) == table && Table::from_bytes(bytes).to_bytes() == bytes);
    char folder[] = "/tmp/hivevigil-tables.XXXXXX";
    CHECK(mkdtemp(folder));
    const std::string path = std::string(folder) + "/readings.hv";
    table.save(path);
    CHECK(Table::load(path) == table);
    const Table part = Table::load(path, {"level", "station"});
    CHECK(part.names() == (std::vector<std::string>{"level", "station"}) && part == table.select({"level", "station"}));
    CHECK(Table::load(path, std::vector<std::string>()).rows() == 5);
    check_refused(HV_TABLE_UNKNOWN_NAME, no_to, [&] { Table::load(path, {"at", "to"}); });
    check_refused(HV_TABLE_NAME_TWICE, "two columns have the name 'at'", [&] { Table::load(path, {"at", "at"}); });
    const hv::TableFooter footer = Table::footer(path);
    CHECK(footer.rows == 5 && footer.columns.size() == 5 && footer["at"].logical_type == "tts");
    CHECK(footer["level"].nulls == 1 && footer["level"].runs == 5 && footer["price"].runs == 2);
    CHECK(footer["level"].least() == Value(int64_t{40}) && footer["level"].greatest() == Value(int64_t{903}));
    CHECK(footer["price"].size == table["price"].to_bytes().size() && !footer["price"].form_as_differences);
    CHECK(!footer.may_have("level", Operator::greater, 903) && footer.may_have("level", Operator::greater, 902));
    CHECK(!footer.may_have("level", Operator::equal, 39) && footer.may_have("level", Operator::equal, 500));
    CHECK(!footer.may_have("station", Operator::less, "north") && footer.may_have("share", Operator::greater, 7));
    check_refused(HV_TABLE_UNKNOWN_NAME, no_to, [&] { footer["to"]; });
    check_refused(HV_TYPE_MISMATCH, "column 'share': i64 of the logical type g is not compared with a text",
                  [&] { footer.may_have("share", Operator::equal, "north"); }); // of which a row is NaN
    { std::ofstream(path, std::ios::binary) << "no table"; }
    check_refused(HV_BAD_METADATA, path + ", of 8 bytes, is not the file of a table", [&] { Table::load(path); });
    check_refused(HV_BAD_METADATA, path + ", of 8 bytes, is not the file of a table", [&] { Table::footer(path); });
    CHECK(!std::remove(path.c_str()));
    check_refused(HV_TABLE_FILE_REFUSED, path + ": No such file or directory", [&] { Table::load(path); });
    check_refused(HV_TABLE_FILE_REFUSED, path + "/x: No such file or directory", [&] { table.save(path + "/x"); });
    CHECK(!rmdir(folder));
}

// The two examples of docs/BYTES.md, byte by byte.
static hv::Bytes bytes_of_digits(const std::string &digits) {
    hv::Bytes bytes;
    for (size_t at = 0; at + 1 < digits.size(); at += 2)
        bytes.push_back(static_cast<uint8_t>(std::stoul(digits.substr(at, 2), nullptr, 16)));
    return bytes;
}

static void check_bytes_of_page() {
    const std::vector<std::optional<int32_t>> days{7, 7, std::nullopt};
    const Table table{{"day", Column::of(days).encode_rows(), "tdD"},
                      {"place", Column::constant(hv::kinds::utf8, "ab", 3)}};
    const hv::Bytes due = bytes_of_digits(
        "0a0968697665766967696c10011a2908011007180220034000480152020201"
        "5a170801100718012002280432010"
        "13a080700000000000000"
        "1a0e0801100b1803200328013a026162"
        "225108031226"
        "0a036461791203746444182920012802321408011007180120022802"
        "3a080700000007000000"
        "12250a05706c6163651200180e200028013214"
        "0801100b18012002280162020202"
        "6a0461626162"
        "295100000000000000");
    CHECK(due.size() == 164 && table.to_bytes() == due && table.to_bytes(true) == due);
    const Table times{{"at", {100, 160, 220, 280, 340, 400}, "tss:UTC"}};
    const Table wide{{"at", times["at"].cast(hv::kinds::i64), "tss:UTC"}};
    const hv::Bytes differences = bytes_of_digits(
        "0a0968697665766967696c10021a2e0801100818022006400048015202"
        "01055a1c0801100818012002280"
        "13a1064000000000000003c00000000000000"
        "2237080612330a026174"
        "12077473733a555443182e20002806321c08011008180120022801"
        "3a1064000000000000009001000000000000"
        "3801293700000000000000");
    CHECK(wide.to_bytes().size() == 139 && differences.size() == 127 && wide.to_bytes(true) == differences);
    const Table again = Table::from_bytes(differences);
    CHECK(again == wide && again["at"].form() == hv::Form::flat && again.to_bytes() == wide.to_bytes());
}

// The bytes are refused as no table's, or they are those of the table that they are read as.
static void check_read(const hv::Bytes &bytes, const hv::Bytes &original, size_t &refused) {
    try {
        const Table table = Table::from_bytes(bytes);
        const bool is_second = bytes[12] == 2; // of which the writer chooses what is kept as differences
        CHECK(is_second || table.to_bytes() == bytes);
        CHECK(table.to_bytes() != original && table.to_bytes(true) != original);
    } catch (const hv::Error &error) {
        CHECK(error.number == HV_BAD_METADATA);
        refused++;
    }
}

// Every prefix, every longer one, and each byte changed in each of its bits, and to the least and the greatest.
static void check_damaged(const hv::Bytes &bytes) {
    size_t refused = 0, tried = 0;
    for (size_t size = 0; size < bytes.size(); size++, tried++)
        check_read(hv::Bytes(bytes.begin(), bytes.begin() + static_cast<std::ptrdiff_t>(size)), bytes, refused);
    CHECK(refused == bytes.size());
    for (uint8_t byte : {uint8_t{0}, uint8_t{8}, uint8_t{255}}) {
        hv::Bytes longer = bytes;
        longer.push_back(byte);
        check_read(longer, bytes, refused), tried++;
    }
    CHECK(refused == bytes.size() + 3);
    for (size_t at = 0; at < bytes.size(); at++)
        for (int change = 0; change < 10; change++) {
            hv::Bytes changed = bytes;
            changed[at] = static_cast<uint8_t>(change < 8 ? changed[at] ^ 1 << change : change == 8 ? 0 : 255);
            if (changed[at] == bytes[at]) continue;
            check_read(changed, bytes, refused), tried++;
        }
    std::cout << refused << " of " << tried << " damaged files refused\n";
}

// ---- Files that are put together by hand ----

struct Part {
    hv::Bytes message, footer;
};

// The parts of a column, kept in a form.
static Part part_of(const hv::NamedColumn &named, uint64_t version, uint8_t kept, hv::Bytes message) {
    hv::detail::Buffer footer;
    hv_error error;
    const std::string format = named.logical_type();
    const hv_table_part part{hv::detail::span_of(named.name), hv::detail::span_of(format), named.column.raw()};
    CHECK(!hv_table_put_footer(footer.raw(), &part, message.size(), version, kept, &error));
    return {message, footer.bytes()};
}

static hv_table_span span_of(const hv::Bytes &bytes) { return {bytes.data(), bytes.size()}; }

// A file of these parts, with bytes after the columns, and with its number of rows in these bytes.
static hv::Bytes file_of(uint64_t version, const hv::Bytes &rows, const std::vector<Part> &parts,
                         const hv::Bytes &after) {
    hv::Bytes footer_front{8};
    hv::detail::Buffer bytes, footer;
    footer_front.insert(footer_front.end(), rows.begin(), rows.end());
    hv_buffer_put(footer.raw(), footer_front.data(), footer_front.size());
    hv_table_put_head(bytes.raw(), version);
    for (const Part &part : parts) {
        hv_table_put_sized(bytes.raw(), 3, span_of(part.message));
        hv_table_put_sized(footer.raw(), 2, span_of(part.footer));
    }
    hv_buffer_put(bytes.raw(), after.data(), after.size());
    hv_table_put_sized(bytes.raw(), 4, span_of(footer.bytes()));
    const uint64_t size = footer.bytes().size();
    hv::Bytes file = bytes.bytes();
    file.push_back(0x29);
    for (int byte = 0; byte < 8; byte++) file.push_back(static_cast<uint8_t>(size >> (8 * byte)));
    return file;
}

static bool is_table(const hv::Bytes &bytes) {
    try {
        Table::from_bytes(bytes);
        return true;
    } catch (const hv::Error &error) {
        CHECK(error.number == HV_BAD_METADATA);
        return false;
    }
}

static void check_parts_of_files() {
    const hv::NamedColumn named("a", Column::of<int8_t>({1, 2}));
    const Part part = part_of(named, 1, HV_TABLE_KEPT_ROWS, named.column.to_bytes());
    CHECK(file_of(1, {2}, {part}, {}) == Table{named.clone()}.to_bytes());
    CHECK(!is_table(file_of(1, {0x82, 0}, {part}, {}))); // a longer varint
    CHECK(!is_table(file_of(1, {3}, {part}, {})) && !is_table(file_of(1, {2}, {part, part}, {}))); // a name twice
    CHECK(!is_table(file_of(1, {2}, {part}, {0x1a, 0})) && is_table(file_of(1, {0x80, 1}, {}, {})));
    const Part second = part_of(named, 2, HV_TABLE_KEPT_ROWS, named.column.to_bytes());
    CHECK(!is_table(file_of(2, {2}, {second}, {})) && !is_table(file_of(2, {2}, {part}, {})));
    const auto in_differences = [](const Column &column, int64_t each, uint8_t kept) {
        const Column differences = Column::of({each, each}).encode_rows();
        return file_of(2, {2}, {part_of({"a", column}, 2, kept, differences.to_bytes())}, {});
    };
    CHECK(is_table(in_differences(Column::of<int8_t>({1, 2}), 1, HV_TABLE_KEPT_FLAT)));
    CHECK(is_table(in_differences(Column::of<int8_t>({1, 2}), 1, HV_TABLE_KEPT_RUNS)));
    CHECK(!is_table(in_differences(Column::of<int8_t>({1, 2}), 1, 3)));
    CHECK(!is_table(in_differences(Column::of<int8_t>({100, -56}), 100, HV_TABLE_KEPT_FLAT))); // 200 does not fit
    CHECK(!is_table(in_differences(Column::of<int8_t>({100, -56}), 100, HV_TABLE_KEPT_RUNS)));
    // the logical type is in the footer, and neither in the message of a column nor in that of its bounds
    const hv::NamedColumn typed("a", named.column, "tts");
    const Part typed_part = part_of(typed, 1, HV_TABLE_KEPT_ROWS, part.message);
    CHECK(file_of(1, {2}, {typed_part}, {}) == Table{typed.clone()}.to_bytes());
    CHECK(!is_table(file_of(1, {2}, {part_of(typed, 1, HV_TABLE_KEPT_ROWS, typed.column.to_bytes())}, {})));
    CHECK(!is_table(file_of(1, {2}, {{typed.column.to_bytes(), part.footer}}, {})));
    const hv::Bytes &said = part.footer;
    const auto bounds = std::find(said.begin(), said.end(), 6 * 8 + 2);
    hv::Bytes with_type(said.begin(), bounds), typed_bounds = typed.column.to_bytes();
    with_type.insert(with_type.end(), {6 * 8 + 2, static_cast<uint8_t>(typed_bounds.size())});
    with_type.insert(with_type.end(), typed_bounds.begin(), typed_bounds.end());
    CHECK(!is_table(file_of(1, {2}, {{part.message, with_type}}, {})));
    Part longer = part;
    longer.footer.insert(longer.footer.end(), {7 * 8, 0});
    check_refused(HV_BAD_METADATA, "x, of 73 bytes, is not the file of a table",
                  [&] { hv::detail::read_footer(hv::StoredFile(file_of(1, {2}, {longer}, {}), "x")); });
}

// Columns that are kept as differences, within a limit: rows of 8 bytes, and runs of 8 and 8 more for each end.
static void check_limits() {
    std::vector<int64_t> steps;
    for (int64_t row = 0; row < 1000; row++) steps.push_back(60 * row);
    const Column flat = Column::of(steps);
    const Table table{{"flat", flat}, {"runs", flat.encode_rows()}};
    const hv::Bytes bytes = table.to_bytes(true);
    const uint64_t due = 1000 * 8 + 1000 * 16;
    CHECK(Table::from_bytes(bytes, hv::Limit(due)) == table && Table::from_bytes(bytes) == table);
    const std::string said = " bytes in memory, above the limit of ", what = "the columns kept as differences take ";
    check_refused(HV_TABLE_OVER_LIMIT, "Table::from_bytes: " + what + "24000" + said + "23999",
                  [&] { Table::from_bytes(bytes, hv::Limit(due - 1)); });
    char path[] = "/tmp/hivevigil-limits.XXXXXX";
    CHECK(close(mkstemp(path)) == 0);
    table.save(path, true);
    CHECK(Table::load(path) == table && Table::load(path, hv::Limit(due)) == table);
    CHECK(Table::load(path, {"flat"}, hv::Limit(8000)) == table.select({"flat"}));
    check_refused(HV_TABLE_OVER_LIMIT, path + (": " + what) + "8000" + said + "7999",
                  [&] { Table::load(path, {"flat"}, hv::Limit(7999)); });
    check_refused(HV_TABLE_OVER_LIMIT, path + (": " + what) + "24000" + said + "0", [&] { Table::load(path, hv::Limit(0)); });
    table.save(path); // as rows, which no limit is for
    CHECK(Table::load(path, hv::Limit(0)) == table);
    CHECK(!std::remove(path));
}

// ---- Arrow ----

static void check_arrow() {
    const Table table = readings();
    ArrowArrayStream stream;
    table.to_arrow(&stream, 2);
    CHECK(Table::from_arrow(&stream) == table && !stream.release);
    check_refused(HV_ARROW_STREAM_FAILED, "the Arrow stream failed: it was released",
                  [&] { Table::from_arrow(&stream); });
    ArrowSchema schema;
    ArrowArray array;
    table.to_arrow(&schema, &array);
    CHECK(schema.n_children == 5 && array.length == 5 && std::string(schema.format) == "+s");
    CHECK(std::string(schema.children[3]->format) == "tts" && std::string(schema.children[3]->name) == "at");
    CHECK(std::string(schema.children[2]->format) == "+r" && std::string(schema.children[4]->format) == "+r");
    CHECK(std::string(hv_arrow_value_format(schema.children[4])) == "g");
    const Table again = Table::from_arrow(&schema, &array);
    CHECK(again == table && again["price"].form() == hv::Form::runs && again.at("share").logical_type() == "g");
    check_refused(HV_UNSUPPORTED, "a table comes from batches that have columns",
                  [&] { Table::from_arrow(schema.children[0], array.children[0]); });
    hv_arrow_release(&schema, &array);
    const Table flat{{"share", table["share"].decode(), "g"}};
    flat.to_arrow(&stream);
    CHECK(Table::from_arrow(&stream)["share"].form() == hv::Form::flat);
    table.slice(0, 0).to_arrow(&stream);
    CHECK(Table::from_arrow(&stream) == table.slice(0, 0));
    check_refused(HV_UNSUPPORTED, "a table without columns does not go out to Arrow",
                  [&] { Table().to_arrow(&stream); });
    check_refused(HV_UNSUPPORTED, "a name of Arrow has no zero byte, and that of a column has",
                  [&] { Table{{std::string("a\0b", 3), {1}}}.to_arrow(&stream); });
}

int main() {
    check_parts();
    check_floats();
    check_rows();
    check_order();
    check_groups();
    check_groups_refused();
    check_refusals();
    check_many_rows();
    check_files();
    check_bytes_of_page();
    check_parts_of_files();
    check_limits();
    const Table table = readings();
    check_damaged(table.to_bytes());
    const std::vector<int64_t> levels(200, 7);
    std::vector<int64_t> times;
    for (int64_t row = 0; row < 200; row++) times.push_back(row < 90 ? 60 * row : 50 * row);
    const Table regular{{"at", times, "tss:"}, {"level", levels}, {"again", Column::of(times).encode_rows()}};
    CHECK(regular.to_bytes(true)[12] == 2 && Table::from_bytes(regular.to_bytes(true)) == regular);
    check_damaged(regular.to_bytes(true));
    check_arrow();
    std::cout << "tables of C++ as they are by hand\n";
}
