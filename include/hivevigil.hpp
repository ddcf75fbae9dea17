// Columns as C++17 values, over hivevigil.h: made by a call, moved and never copied implicitly, freed by scope. A
// refusal is thrown as hv::Error. Headers only; nothing here is proved.
//
//     hv::Column runs = hv::Column::of(std::vector<int64_t>{4, 4, 4, 7, 7, 9}).encode();
//     for (const hv::Run &run : runs.runs()) use(run.start, run.stop, run.value);
//     for (const hv::Value &row : runs) use(row);
//
// Any thread may use a column, one thread at a time; columns that were made one from the other may be used at once,
// except for lists.
#ifndef HIVEVIGIL_HPP
#define HIVEVIGIL_HPP
#if __cplusplus < 201703L
#error "hivevigil.hpp is for C++17 and later: -std=c++17"
#else
#include "hivevigil_fits.hpp"
#include "hivevigil_helpers.h"
#include <cstddef>
#include <initializer_list>
#include <string_view>

namespace hv {

class Runs;
enum class SplitBy { rows, runs };
template <class T> class Floats;

class Column {
public:
    Column() = default;
    // A column that was moved away has no rows and no form; a command on it is refused as HV_NO_COLUMN.
    Column(Column &&other) noexcept : handle(std::exchange(other.handle, hv_column HV_EMPTY)) {}
    Column &operator=(Column &&other) noexcept {
        hv_column taken = std::exchange(other.handle, hv_column HV_EMPTY);
        hv_free(&handle);
        handle = taken;
        return *this;
    }
    Column(const Column &) = delete;
    Column &operator=(const Column &) = delete;
    ~Column() { hv_free(&handle); }

    // ---- Made of rows ----

    // Integers, of which none is null: of a vector, an array, a view or a span.
    template <class Items, class T = detail::Item<Items>,
              class = std::enable_if_t<detail::is_number<T> && !detail::is_text<Items>>>
    static Column of(const Items &items) {
        return of(std::data(items), std::size(items), nullptr);
    }
    // The same of a list of integers, booleans or texts.
    template <class T> static Column of(std::initializer_list<T> items) {
        static_assert(detail::is_row<T>, "rows are integers, booleans or texts, or std::optional of these; floats are hv::Floats");
        if constexpr (detail::is_number<T>) return of(items.begin(), items.size(), nullptr);
        else return of_rows(items);
    }
    // Integers, null where the flag is false.
    template <class Items, class T = detail::Item<Items>,
              class = std::enable_if_t<detail::is_number<T> && !detail::is_text<Items>>>
    static Column of(const Items &items, const std::vector<bool> &valid) {
        return of(std::data(items), std::size(items), &valid);
    }
    template <class T> static Column of(std::initializer_list<T> items, const std::vector<bool> &valid) {
        return of(items.begin(), items.size(), &valid);
    }
    // Booleans or texts; std::optional of these or of integers, null where there is none; integers of any other range.
    template <class Items, class T = detail::Row<Items>,
              class = std::enable_if_t<detail::is_row<T> && !(detail::is_number<T> && detail::has_data<Items>)>,
              class = void>
    static Column of(const Items &rows) {
        return of_rows(rows);
    }
    // Floats are rows of hv::Floats, and not of this class.
    template <class Items, class T = detail::InnerOf<detail::Row<Items>>,
              std::enable_if_t<std::is_floating_point_v<T>, int> = 0>
    static Column of(const Items &) {
        static_assert(sizeof(Items) == 0, "rows of floats are made by hv::Floats<double>::of or hv::Floats<float>::of");
        return Column();
    }
    static Column truths(const std::vector<bool> &rows, const std::vector<bool> *valid = nullptr) {
        const Bytes bits = detail::bits_of(rows);
        return with_nulls(rows.size(), valid, [&](auto validity, auto *out, auto *error) {
            return hv_bools(bits.data(), bits.size(), 0, rows.size(), validity, out, error);
        });
    }
    // Decimals, each as it is at this scale; refused as HV_CAST_OUT_OF_RANGE where one has more digits after the point,
    // or more digits than the precision.
    static Column decimals(const std::vector<Decimal> &rows, uint8_t precision, int8_t scale,
                           const std::vector<bool> *valid = nullptr) {
        const hv_kind kind = kinds::decimal(precision, scale);
        std::vector<hv_pair> pairs(rows.size());
        for (size_t row = 0; row < rows.size(); row++) pairs[row] = detail::pair_at(rows[row], kind, row);
        return decimals(pairs, precision, scale, valid);
    }
    // The same of numbers that are at this scale, of which nothing is tested: {1050, 0} of scale 2 is 10.50.
    static Column decimals(const std::vector<hv_pair> &pairs, uint8_t precision, int8_t scale,
                           const std::vector<bool> *valid = nullptr) {
        return with_nulls(pairs.size(), valid, [&](auto validity, auto *out, auto *error) {
            return hv_decimals(pairs.data(), pairs.size(), precision, scale, validity, out, error);
        });
    }
    // Texts; refused as HV_TYPE_MISMATCH where one is not UTF-8.
    static Column texts(const std::vector<std::string_view> &rows, const std::vector<bool> *valid = nullptr) {
        return cut(false, rows, valid);
    }
    static Column bytes(const std::vector<std::string_view> &rows, const std::vector<bool> *valid = nullptr) {
        return cut(true, rows, valid);
    }
    // Runs of these ends and values, of which `rows` rows from row `offset` on are shown. Both are copied.
    static Column runs(const Column &ends, const Column &values, size_t offset, size_t rows) {
        return ends.beside(values, [&](auto *other, auto *out, auto *error) {
            return hv_runs(&ends.handle, other, offset, rows, out, error);
        });
    }
    // Lists: row i is the sizes[i] elements from offsets[i] on, null where the flag is false. Elements are flat.
    static Column lists(const Column &elements, const std::vector<uint64_t> &offsets,
                        const std::vector<uint64_t> &sizes, const std::vector<bool> *valid = nullptr) {
        return with_nulls(offsets.size(), valid, [&](auto validity, auto *out, auto *error) {
            return hv_lists(&elements.handle, offsets.data(), offsets.size(), sizes.data(), sizes.size(), validity,
                            out, error);
        });
    }
    // The runs that a record describes, over these ends and values.
    static Column deserialize(hv_kind kind, size_t rows, const Bytes &record, const Column &ends,
                              const Column &values) {
        return ends.beside(values, [&](auto *other, auto *out, auto *error) {
            return hv_deserialize(&kind, rows, record.data(), record.size(), &ends.handle, other, out, error);
        });
    }
    // The value in each of `rows` rows of a type, in memory for one: a Value, or an integer or a text as it is written.
    template <class T, class = std::enable_if_t<detail::is_number<T> || detail::is_text<T>>>
    static Column constant(hv_kind kind, const T &value, size_t rows) {
        return constant(kind, detail::written(value, kind), rows);
    }
    static Column constant(hv_kind kind, const Value &value, size_t rows) {
        const Value row = detail::fitted(value, kind);
        const detail::Passed passed(row);
        return made(
            [&](auto *out, auto *error) {
                return hv_constant(&kind, &passed.value, passed.text, passed.size, rows, out, error);
            },
            detail::words_of_value(row, kind));
    }
    // The column that to_bytes wrote, under its logical type; refused as HV_BAD_METADATA for other bytes.
    static Column from_bytes(const Bytes &message) {
        return made([&](auto *out, auto *error) {
            return hv_read_column(message.data(), message.size(), out, error);
        });
    }
    // Are the bytes what to_bytes writes of some column? Nothing is made.
    static bool is_message(const Bytes &message) {
        uint8_t truth = 0;
        detail::ask([&](auto *error) { return hv_is_message(message.data(), message.size(), &truth, error); });
        return truth != 0;
    }
    Column clone() const {
        return made([&](auto *out, auto *error) { return hv_clone(&handle, out, error); });
    }
    // A copy that shares no buffer except the bytes of texts: a small slice keeps the whole column's.
    Column compact() const {
        return made([&](auto *out, auto *error) { return hv_compact(&handle, out, error); });
    }

    // The column under a format of Arrow that says what its rows mean, as "tsu:UTC"; an empty one takes it away. Calls
    // that give back its rows keep it, as hivevigil.h lists them, and no call asks what it says. Refused as
    // HV_TYPE_MISMATCH where it is not UTF-8.
    Column with_logical_type(std::string_view format) const {
        const auto *const bytes = reinterpret_cast<const uint8_t *>(format.data());
        return made([&](auto *out, auto *error) { return hv_with_type(&handle, bytes, format.size(), out, error); },
                    [](int32_t answer) { return answer == HV_TYPE_MISMATCH ? "the logical type is not UTF-8" : ""; });
    }

    // ---- Commands, each of which makes a column ----

    Column encode(const hv_session &session = initial_session()) const {
        return made([&](auto *out, auto *error) { return hv_encode(&session, &handle, out, error); });
    }
    // The rows of any type but lists as runs, as few as there can be.
    Column encode_rows() const { return part(hv_encode_rows); }
    // The rows of any type but lists in order, null first, and in reverse order: a constant stays one, and any other
    // column becomes runs, as few as there can be.
    Column sorted() const { return part(hv_sort); }
    Column reversed() const { return part(hv_reverse); }
    // The distinct rows in that order, and how many rows are equal to each, in u64, both flat.
    std::pair<Column, Column> value_counts() const {
        std::pair<Column, Column> made;
        detail::ask([&](auto *error) {
            return hv_value_counts(&handle, &made.first.handle, &made.second.handle, error);
        });
        return made;
    }
    Column decode(const hv_session &session = initial_session()) const {
        return made([&](auto *out, auto *error) { return hv_decode(&session, &handle, out, error); });
    }
    Column slice(size_t start, size_t stop, const hv_session &session = initial_session()) const {
        return made([&](auto *out, auto *error) { return hv_slice(&session, &handle, start, stop, out, error); });
    }
    // The column in this many windows, which share its buffers, for threads: of as many rows each, give or take one, or
    // of as many runs. Some are empty where there are fewer. Refused as HV_BAD_NUMBER for 0.
    std::vector<Column> split(size_t parts, SplitBy by = SplitBy::rows) const;
    // Each row as the same value of a type: among integers and decimals of any scale, at the cost of runs where one of
    // the two types is of decimals, else of one kind. The sentence of a refusal names the first row that does not fit.
    Column cast(hv_kind kind, const hv_session &session = initial_session()) const;
    Column take(const Column &indices, const hv_session &session = initial_session()) const {
        return beside(
            indices,
            [&](auto *other, auto *out, auto *error) { return hv_take(&session, &handle, other, out, error); },
            detail::words_of_other("indices are integers, not ", indices.kind()));
    }
    Column filter(const Column &mask, const hv_session &session = initial_session()) const {
        return beside(
            mask, [&](auto *other, auto *out, auto *error) { return hv_filter(&session, &handle, other, out, error); },
            detail::words_of_other("a mask is of type bool, not ", mask.kind()));
    }
    // The rows of the dictionary that these codes name.
    Column take_from(const Column &dictionary, const hv_session &session = initial_session()) const {
        return beside(
            dictionary,
            [&](auto *other, auto *out, auto *error) { return hv_take_from(&session, &handle, other, out, error); },
            detail::words_of_other("codes are integers, not ", kind()));
    }
    // Row by row, in runs unless both are flat; null where either is null. Decimals of two scales are compared exactly.
    Column compare(Operator by, const Column &right, const hv_session &session = initial_session()) const;
    // The same with one value, in the form of the column. Any number is compared with integers, decimals and floats, as
    // the exact numbers that they are, of which NaN is unequal to each: each i8 is less than 300. Next to dates and times
    // an integer is what is stored.
    Column compare(Operator by, const Value &right, const hv_session &session = initial_session()) const {
        const detail::Passed passed = detail::compared_with(right);
        const uint8_t operator_ = static_cast<uint8_t>(by);
        return made(
            [&](auto *out, auto *error) {
                const int32_t answer = hv_compare_number(&handle, operator_, &passed.value, out, error);
                if (answer != HV_TYPE_MISMATCH) return answer;
                return hv_compare_value(&session, &handle, operator_, &passed.value, passed.text, passed.size, out,
                                        error);
            },
            detail::words_of_compared(right, *this));
    }
    // The same with an integer or a text as it is written: column.compare(hv::Operator::less, 4).
    template <class T, class = std::enable_if_t<detail::is_number<T> || detail::is_text<T>>>
    Column compare(Operator by, const T &right, const hv_session &session = initial_session()) const {
        return compare(by, detail::written(right, kind()), session);
    }
    template <class T, class = std::enable_if_t<detail::is_number<T> || detail::is_text<T>>>
    Column fill(const T &value, const hv_session &session = initial_session()) const {
        return fill(detail::written(value, kind()), session);
    }
    // A value in place of each null, after which the type has no null.
    Column fill(const Value &value, const hv_session &session = initial_session()) const {
        const Value row = detail::fitted(value, kind());
        const detail::Passed passed(row);
        return made(
            [&](auto *out, auto *error) {
                return hv_fill(&session, &handle, &passed.value, passed.text, passed.size, out, error);
            },
            detail::words_of_value(row, kind()));
    }

    // ---- Two columns ----

    // The key of each group of equal neighbouring rows of this column, null equal to null, and what is answered of the
    // values in these rows. Refused as HV_CAST_OUT_OF_RANGE where a sum does not fit 64 bits; the first field is its
    // group, counted from 0.
    std::pair<Column, Column> fold_by(const Column &values, Fold fold) const {
        if (&values == this) return clone().fold_by(values, fold);
        std::pair<Column, Column> made;
        hv_error fields{};
        const int32_t answer = hv_fold_by(&handle, &values.handle, static_cast<uint8_t>(fold), &made.first.handle,
                                          &made.second.handle, &fields);
        if (answer == HV_CAST_OUT_OF_RANGE) throw Error(answer, fields, detail::words_of_group(values.kind(), fields));
        if (answer) throw Error(answer, fields);
        return made;
    }
    // The sum of the values in each group, null where all of them are null.
    std::pair<Column, Column> sum_by(const Column &values) const { return fold_by(values, Fold::sum); }
    // Where each run of equal neighbouring rows ends, null equal to null, and the sum of all rows before that end, null
    // where all of them are. Refused as HV_CAST_OUT_OF_RANGE where a total does not fit 64 bits; the first field is its
    // run, counted from 0.
    std::pair<Column, Column> running_totals() const {
        std::pair<Column, Column> made;
        hv_error fields{};
        const int32_t answer = hv_running_totals(&handle, &made.first.handle, &made.second.handle, &fields);
        if (answer == HV_CAST_OUT_OF_RANGE) throw Error(answer, fields, detail::words_of_total(kind(), fields));
        if (answer) throw Error(answer, fields);
        return made;
    }
    // What the two rows at each place give; so do + - * & | and ~ (hivevigil_pairs.hpp).
    Column combine(Pairing by, const Column &right) const;
    // Whether each row is null, or is not; the other boolean, as ~; of a mask the left row where it is true, else the
    // right one, null where it is null.
    Column is_null() const;
    Column is_valid() const;
    Column opposite() const;
    Column choose(const Column &left, const Column &right) const;
    // Whether the rows compare so with those of a column, in runs, or with one value; null where either is null.
    template <class Right> Column equal_to(const Right &right) const { return compared(Operator::equal, right); }
    template <class Right> Column not_equal_to(const Right &right) const { return compared(Operator::not_equal, right); }
    template <class Right> Column less_than(const Right &right) const { return compared(Operator::less, right); }
    template <class Right> Column at_most(const Right &right) const { return compared(Operator::less_or_equal, right); }
    template <class Right> Column greater_than(const Right &right) const { return compared(Operator::greater, right); }
    template <class Right> Column at_least(const Right &right) const {
        return compared(Operator::greater_or_equal, right);
    }

    // ---- Questions ----

    // Is there a column? Not of one that was moved away.
    explicit operator bool() const { return form() != Form::none; }
    size_t size() const { return hv_length(&handle); }
    bool empty() const { return size() == 0; }
    hv_kind kind() const { return hv_kind_of(&handle); }
    Form form() const { return static_cast<Form>(hv_form(&handle)); }
    // The format of Arrow that says what the rows mean; empty where there is none. Floats ("e", "f", "g") are stored by
    // their keys, which numbers() and ends of runs read (hivevigil_floats.hpp); a row and a sum of them is a double.
    std::string logical_type() const;
    size_t offset() const { return hv_offset(&handle); }
    // How many rows are null.
    size_t null_count() const { return hv_null_count(&handle); }
    // How many bytes the column takes for what it shows, in its form; hivevigil.h says of what they are.
    size_t bytes_used() const { return hv_bytes_used(&handle); }
    // Row `row`, refused as HV_OUT_OF_BOUNDS past the end; so is [].
    Value at(size_t row) const {
        return shown([&](auto *value, auto *text, size_t room, auto *error) {
            return hv_at(&handle, row, value, text, room, error);
        });
    }
    Value operator[](size_t row) const { return at(row); }
    // The row as T (any integer, bool, Decimal, double, std::string, Bytes), none where it is null. Refused as
    // HV_CAST_OUT_OF_RANGE where T does not have the integer, and as HV_TYPE_MISMATCH where the row is of another sort.
    template <class T> std::optional<T> get(size_t row) const { return detail::optional_of<T>(at(row), row); }

    // ---- Iterated ----

    // The rows in turn, each looked up when it is asked for.
    detail::Walk<Column> begin() const { return {this, 0}; }
    detail::Walk<Column> end() const { return {this, size()}; }
    Value item(size_t row) const { return at(row); }
    // The runs as they are stored, cut to the window, and copied nowhere: they are looked up in this column, which has
    // to live as long. A constant is one run, and each row of other forms is one.
    Runs runs() const &;
    Runs runs() &&; // which has the column
    // The run of row `row` of a run column, counted as in ends() and values(); refused as HV_OUT_OF_BOUNDS.
    size_t run_of(size_t row) const {
        size_t run = 0;
        detail::ask([&](auto *error) { return hv_run_of(&handle, row, &run, error); });
        return run;
    }
    // Run `index`, counted so; it has no row where the window does not reach it.
    Run run(size_t index) const {
        Run found{};
        found.value = shown([&](auto *value, auto *text, size_t room, auto *error) {
            return hv_run(&handle, index, &found.start, &found.stop, value, text, room, error);
        });
        if (std::holds_alternative<int64_t>(found.value)) found.value = values().at(index); // it may be a float's key
        return found;
    }
    // The least row that is not null, of floats the least number, which NaN is not; Null where there is none.
    Value least(const hv_session &session = initial_session()) const { return least_and_greatest(session).first; }
    Value greatest(const hv_session &session = initial_session()) const { return least_and_greatest(session).second; }
    // Both at once.
    std::pair<Value, Value> least_and_greatest(const hv_session &session = initial_session()) const {
        hv_error fields{};
        for (size_t room = 64;; room = fields.first) {
            Bytes low(room), high(room);
            hv_value least{}, greatest{};
            const int32_t answer = hv_min_max(&session, &handle, &least, low.data(), low.size(), &greatest, high.data(),
                                              high.size(), &fields);
            if (!answer) return {detail::value_of(least, low, kind()), detail::value_of(greatest, high, kind())};
            if (answer != HV_COLUMN_LENGTH) throw Error(answer, fields);
        }
    }
    // The rows that are not null, added up: integers and durations in 64 bits, one at a time, decimals exactly, at the
    // scale of the column and whatever its precision, floats exactly, and rounded once to a double, which is NaN where a
    // row is or both infinities are. Refused as HV_UNSUPPORTED for dates, times, timestamps and all other rows, and as
    // HV_CAST_OUT_OF_RANGE where the sum leaves 64 bits or 38 digits; the first field is the row with which it does.
    Sum sum(const hv_session &session = initial_session()) const;
    // What the rows add to a sum, by which the sum of joined rows is known, also where it overflows on the way.
    SumParts sum_parts() const {
        SumParts parts{};
        detail::ask(
            [&](auto *error) { return hv_sum_parts(&handle, &parts.total, &parts.least, &parts.greatest, error); },
            detail::words_of_type(kind(), " has no sum"));
        return parts;
    }
    bool is_constant(const hv_session &session = initial_session()) const {
        uint8_t truth = 0;
        detail::ask([&](auto *error) { return hv_is_constant(&session, &handle, &truth, error); });
        return truth != 0;
    }
    bool is_sorted(bool strict = false, const hv_session &session = initial_session()) const {
        uint8_t truth = 0;
        detail::ask([&](auto *error) { return hv_is_sorted(&session, &handle, strict, &truth, error); });
        return truth != 0;
    }

    // A hash of the rows, the same for all columns with these rows, in whatever forms and of whatever types.
    uint64_t hash_rows() const {
        uint64_t hash = 0;
        detail::ask([&](auto *error) { return hv_hash(&handle, &hash, error); });
        return hash;
    }

    // Are type and rows the same, in whatever forms, null the same as null? Each run of both is read at most once; of
    // lists each row. So do == and !=.
    bool same_rows(const Column &other) const;
    friend bool operator==(const Column &left, const Column &right) { return left.same_rows(right); }
    friend bool operator!=(const Column &left, const Column &right) { return !left.same_rows(right); }

    // ---- Read out ----

    // The numbers of all rows, in any form, as the column's own integers; where a row is null it may be any number.
    template <class T> std::vector<T> numbers() const {
        if (!*this) return {};
        std::vector<T> items(size());
        read(0, items.data(), items.size());
        return items;
    }
    // As many of them as there is room for, from row `start` on; refused as HV_BAD_RANGE past the end.
    template <class T> void read(size_t start, T *items, size_t count) const {
        using Native = detail::Native<T>;
        detail::ask([&](auto *error) { return Native::read(&handle, start, items, count, error); },
                    detail::words_of_read(kind(), Native::kind));
    }
    // The rows as T (as get has them), none where a row is null; integers by one call for all.
    template <class T> std::vector<std::optional<T>> optionals() const {
        if constexpr (detail::is_number<T>) return number_optionals<T>();
        std::vector<std::optional<T>> rows;
        for (const Value &row : *this) rows.push_back(detail::optional_of<T>(row, rows.size()));
        return rows;
    }
    std::vector<bool> truths() const { return flags(hv_call_read_bools_from); }
    std::vector<bool> validity() const { return flags(hv_call_read_validity_from); }
    // The parts of runs, copied.
    Column ends() const {
        return made([&](auto *out, auto *error) { return hv_ends(&handle, out, error); });
    }
    Column values() const {
        return made([&](auto *out, auto *error) { return hv_values(&handle, out, error); });
    }
    // The parts of lists: the elements of all, where those of each start, how many they are, and whether it is valid.
    Column list_elements() const { return part(hv_call_list_elements); }
    Column list_offsets() const { return part(hv_call_list_offsets); }
    Column list_sizes() const { return part(hv_call_list_sizes); }
    Column list_validity() const { return part(hv_call_list_validity); }
    Bytes serialize() const {
        Bytes record(64);
        size_t size = 0;
        detail::ask([&](auto *error) { return hv_serialize(&handle, record.data(), record.size(), &size, error); });
        record.resize(size);
        return record;
    }

    // The column as bytes, in the form that it has and with its logical type, to keep or to send: a message of the
    // Protocol Buffers encoding.
    Bytes to_bytes() const {
        size_t size = 0;
        detail::ask([&](auto *error) { return hv_write_size(&handle, &size, error); });
        Bytes message(size);
        detail::ask([&](auto *error) { return hv_write(&handle, message.data(), message.size(), &size, error); });
        return message;
    }

#ifdef __cpp_lib_span
    // ---- With C++20, spans (hivevigil_spans.hpp): of integers to read into, and of bytes of any type of one byte ----

    template <detail::OfNumbers Span> void read(size_t start, Span items) const;
    template <detail::OfBytes Span> static Column from_bytes(Span message);
    template <detail::OfBytes Span> static bool is_message(Span message);
    // Writes the message into the room, and returns its size; refused as HV_COLUMN_LENGTH where there is too little.
    template <detail::OfBytes Span> size_t to_bytes(Span room) const;
    template <detail::OfBytes Span>
    static Column deserialize(hv_kind kind, size_t rows, Span record, const Column &ends, const Column &values);
    // Integers, null where the flag is false.
    template <class Items, detail::OfFlags Span> static Column of(const Items &items, Span valid);
#endif

    // The handle, for calls of hivevigil.h and hivevigil_arrow.h; it stays this column's.
    hv_column *raw() const { return &handle; }

private:
    template <class T> friend class Floats;

    mutable hv_column handle = HV_EMPTY; // a call that reads takes the column out and puts it back

    template <class Call, class... Words> static Column made(Call call, Words... words) {
        Column out;
        detail::ask([&](auto *error) { return call(&out.handle, error); }, words...);
        return out;
    }
    template <class Call> Column part(Call call) const {
        return made([&](auto *out, auto *error) { return call(&handle, out, error); });
    }
    // Two handles of one call are two: a column that is lent next to itself is cloned first.
    template <class Call, class... Words> Column beside(const Column &other, Call call, Words... words) const {
        if (&other == this) return beside(clone(), call, words...);
        return made([&](auto *out, auto *error) { return call(&other.handle, out, error); }, words...);
    }
    template <class Call, class... Words>
    static Column with_nulls(size_t rows, const std::vector<bool> *valid, Call call, Words... words) {
        if (valid && valid->size() != rows) throw Error(HV_COLUMN_LENGTH, {rows, valid->size(), 0});
        const Bytes bits = valid ? detail::bits_of(*valid) : Bytes();
        const hv_validity validity = valid ? hv_valid_bits(bits.data(), bits.size(), 0) : hv_not_nullable();
        return made([&](auto *out, auto *error) { return call(validity, out, error); }, words...);
    }
    template <class T> static Column of(const T *items, size_t rows, const std::vector<bool> *valid) {
        return with_nulls(rows, valid, [&](auto validity, auto *out, auto *error) {
            return detail::Native<T>::make(items, rows, validity, out, error);
        });
    }
    template <class Items> static Column of_rows(const Items &rows);
    template <class T> std::vector<std::optional<T>> number_optionals() const {
        const std::vector<T> items = numbers<T>();
        const std::vector<bool> valid = validity();
        std::vector<std::optional<T>> rows(items.size());
        for (size_t row = 0; row < rows.size(); row++)
            if (valid[row]) rows[row] = items[row];
        return rows;
    }
    static Column cut(bool binary, const std::vector<std::string_view> &rows, const std::vector<bool> *valid);
    Column compared(Operator by, const Column &right) const;
    template <class Right> Column compared(Operator by, const Right &right) const { return compare(by, right); }
    // A row, asked for again with more room where its text has none.
    template <class Call> Value shown(Call call) const {
        Bytes text(64);
        hv_value value{};
        hv_error fields{};
        int32_t answer = call(&value, text.data(), text.size(), &fields);
        if (answer == HV_COLUMN_LENGTH) {
            text.resize(fields.first);
            answer = call(&value, text.data(), text.size(), &fields);
        }
        if (answer) throw Error(answer, fields);
        return detail::value_of(value, text, value.kind == HV_DECIMAL_VALUE ? kind() : hv_kind{});
    }
    template <class Call> std::vector<bool> flags(Call call) const {
        if (!*this) return {};
        const size_t rows = size(), count = rows / 64 + (rows % 64 != 0);
        std::vector<uint64_t> words(count);
        detail::ask([&](auto *error) { return call(&handle, 0, rows, words.data(), count, error); });
        return detail::flags_of(words, rows);
    }
};

inline std::string Column::logical_type() const {
    Bytes format(32);
    size_t size = 0;
    hv_error fields{};
    int32_t answer = hv_type(&handle, format.data(), format.size(), &size, &fields);
    if (answer == HV_COLUMN_LENGTH) {
        format.resize(fields.first);
        answer = hv_type(&handle, format.data(), format.size(), &size, &fields);
    }
    return answer ? "" : std::string(format.begin(), format.begin() + static_cast<std::ptrdiff_t>(size));
}

} // namespace hv
#include "hivevigil_making.hpp"
#include "hivevigil_runs.hpp"
#include "hivevigil_parts.hpp"
#include "hivevigil_spans.hpp"
#include "hivevigil_builder.hpp"
#include "hivevigil_pairs.hpp"
#include "hivevigil_floats.hpp"
#endif
#endif
