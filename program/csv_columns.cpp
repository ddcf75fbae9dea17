#include "csv_columns.hpp"
#include "failure.hpp"
#include "floats.hpp"
#include "times.hpp"
#include "values.hpp"
#include <algorithm>
#include <hivevigil_table.hpp>

using Fields = std::vector<std::string>;

// Reads the records after the names, each with as many fields as there are names.
class NamedReader {
public:
    NamedReader(const CsvOptions &options, InputFile file) : reader(std::move(file), options.separator) {
        if (!reader.next(found)) throw Failure(options.path + ": no line of names");
        if (!are_texts(found)) throw Failure(options.path + ": the names are not UTF-8");
        Fields sorted = found;
        std::sort(sorted.begin(), sorted.end());
        const auto twice = std::adjacent_find(sorted.begin(), sorted.end());
        if (twice != sorted.end()) throw Failure(options.path + ": two columns have the name '" + *twice + "'");
    }
    const Fields &names() const { return found; }
    // Goes back to the first record after the names.
    void restart() {
        reader.restart();
        reader.next(found);
    }
    bool next(Fields &fields) {
        if (!reader.next(fields)) return false;
        if (fields.size() == found.size()) return true;
        throw Failure(reader.at_line(" has " + std::to_string(fields.size()) + " fields, the first " +
                                     std::to_string(found.size())));
    }
    std::string at_line(const std::string &sentence) const { return reader.at_line(sentence); }

private:
    CsvReader reader;
    Fields found;
};

// A double has each number of this number of digits, in these digits.
static constexpr size_t digits_of_floats = 15;

// What all fields of a column are, so far: booleans, integers, decimals, floats, dates, times of day, timestamps
// without an offset or with one; else texts.
class Guess {
public:
    void add(const std::string &field) {
        if (field.empty() || (seen && field == last)) return;
        seen = true, last = field;
        truths = truths && (field == "true" || field == "false");
        if (decimals || floats) add_number(field);
        dates = dates && day_of_text(field);
        if (times || timestamps || instants) add_time(field);
    }
    RowType type() const {
        if (!seen) return {hv::nullable(hv::kinds::utf8), std::nullopt};
        if (truths) return {hv::nullable(hv::kinds::boolean), std::nullopt};
        if (decimals || floats) return number_type();
        if (dates) return of_name("date");
        const std::string unit = unit_of(places_of_second);
        const bool is_past = unit == "ns" && !(of_i64(first) && of_i64(latest));
        if (times) return of_name("time[" + unit + "]");
        if (timestamps && !is_past) return of_name("timestamp[" + unit + "]");
        if (instants && !is_past) return of_name("timestamp[" + unit + ", UTC]");
        return {hv::nullable(hv::kinds::utf8), std::nullopt};
    }

private:
    using Wide = hv::detail::Wide;
    bool seen = false, truths = true, whole = true, decimals = true, floats = true;
    bool dates = true, times = true, timestamps = true, instants = true; // with an offset
    std::string last;
    size_t digits = 1, places = 0, places_of_second = 0; // the most of each
    Wide least = 0, greatest = 0, first = 0, latest = 0; // of integers; of nanoseconds

    static RowType of_name(const std::string &name) { return type_of_text(name + "?"); }
    static bool of_i64(Wide number) { return hv::detail::range_of(hv::kinds::i64).has(number); }
    // The coarsest unit that has this number of digits after the second.
    static std::string unit_of(size_t count) { return count == 0 ? "s" : count < 4 ? "ms" : count < 7 ? "us" : "ns"; }
    void add_number(const std::string &field) {
        const std::optional<NumberText> number = number_text(field);
        // no decimal has the sign of -0.0
        const bool is_negative_zero = number && number->places && field.find_first_not_of("-0.") == field.npos;
        decimals = decimals && number && !(is_negative_zero && field[0] == '-');
        const bool is_short = number && number->digits + number->places <= digits_of_floats;
        floats = floats && (is_short || is_shortest_float(field));
        whole = whole && decimals && !number->places && number->digits <= 19; // 64 bits have at most 19 digits
        if (decimals) digits = std::max(digits, number->digits), places = std::max(places, number->places);
        if (!whole) return;
        const auto value = std::get<hv::Decimal>(value_of_text(field, hv::kinds::i64)).digits();
        least = std::min(least, value), greatest = std::max(greatest, value);
    }
    void add_time(const std::string &field) {
        const std::optional<TimeOfDay> time = times ? time_of_text(field) : std::nullopt;
        const std::optional<Instant> instant = timestamps || instants ? instant_of_text(field) : std::nullopt;
        times = time.has_value();
        timestamps = timestamps && instant && !instant->has_offset;
        instants = instants && instant && instant->has_offset;
        places_of_second = std::max({places_of_second, time ? time->places : 0, instant ? instant->places : 0});
        if (instant) first = std::min(first, instant->nanoseconds), latest = std::max(latest, instant->nanoseconds);
    }
    RowType number_type() const {
        for (hv_kind integer : {hv::kinds::i32, hv::kinds::i64})
            if (whole && hv::detail::range_of(integer).has(least) && hv::detail::range_of(integer).has(greatest))
                return {hv::nullable(integer), std::nullopt};
        if (decimals && digits + places <= most_digits) {
            const auto kind = hv::kinds::decimal(static_cast<uint8_t>(digits + places), static_cast<int8_t>(places));
            return {hv::nullable(kind), std::nullopt};
        }
        return floats ? of_name("float64") : RowType{hv::nullable(hv::kinds::utf8), std::nullopt};
    }
};

// Takes fields of one type, and passes the first of a stretch of equal ones to the library at once, so that a refusal
// is about this line, and the others together.
class Gathered {
public:
    explicit Gathered(RowType rows) : type(std::move(rows)), builder(type.kind) {}
    void add(const std::string &field) {
        nulls += field.empty();
        if (some && field == last) return void(waiting++);
        flush();
        value = field.empty() ? hv::Value() : value_of_text(field, type);
        builder.append(value);
        some = true, last = field;
    }
    // The rows in runs.
    CsvColumn finish(const std::string &name) {
        flush();
        return {name, type, builder.finish(), nulls};
    }

private:
    RowType type;
    hv::Builder builder;
    bool some = false;
    std::string last;
    hv::Value value;
    size_t waiting = 0, nulls = 0; // rows of `value` that the builder does not have yet; rows that are null

    void flush() {
        if (waiting) builder.append(value, waiting);
        waiting = 0;
    }
};

// The places of the columns that are read.
static std::vector<size_t> places_of(const CsvOptions &options, const Fields &names) {
    std::vector<size_t> places;
    for (size_t place = 0; place < names.size(); place++)
        if (!options.column || names[place] == *options.column) places.push_back(place);
    if (options.column && places.empty())
        throw Failure(options.path + ": " + hv::detail::no_column_words(*options.column, names));
    return places;
}

// The type of each column, for which the records are read, and the reader goes back to the first.
static std::vector<RowType> guessed(const CsvOptions &options, NamedReader &reader, const std::vector<size_t> &places) {
    if (options.type) return {*options.type};
    std::vector<Guess> guesses(places.size());
    for (Fields fields; reader.next(fields);)
        for (size_t at = 0; at < places.size(); at++) guesses[at].add(fields[places[at]]);
    reader.restart();
    std::vector<RowType> types;
    for (const Guess &guess : guesses) types.push_back(guess.type());
    return types;
}

static void add_field(Gathered &column, const std::string &field, const NamedReader &reader, size_t place) {
    const auto refused = [&](const std::exception &error) {
        return Failure(reader.at_line(": column '" + reader.names()[place] + "': " + error.what()));
    };
    try {
        column.add(field);
    } catch (const hv::Error &error) {
        throw refused(error);
    } catch (const Failure &error) {
        throw refused(error);
    }
}

std::vector<CsvColumn> read_csv(const CsvOptions &options, InputFile file) {
    NamedReader reader(options, std::move(file));
    const std::vector<size_t> places = places_of(options, reader.names());
    std::vector<Gathered> gathered;
    for (RowType &type : guessed(options, reader, places)) gathered.emplace_back(std::move(type));
    for (Fields fields; reader.next(fields);)
        for (size_t at = 0; at < places.size(); at++) add_field(gathered[at], fields[places[at]], reader, places[at]);
    std::vector<CsvColumn> columns;
    for (size_t at = 0; at < places.size(); at++) columns.push_back(gathered[at].finish(reader.names()[places[at]]));
    return columns;
}
