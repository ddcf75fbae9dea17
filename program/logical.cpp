#include "logical.hpp"
#include "failure.hpp"
#include "floats.hpp"
#include "times.hpp"
#include "values.hpp"
#include <algorithm>
#include <cmath>

using hv::Column;
using hv::Value;
using Wide = hv::detail::Wide;

// ---- Names and formats ----

// A unit of time: its letter in Arrow's formats, and how many digits after the second it has.
struct Unit {
    const char *name;
    char letter;
    int places;
};
static constexpr Unit units[] = {{"s", 's', 0}, {"ms", 'm', 3}, {"us", 'u', 6}, {"ns", 'n', 9}, {"D", 'D', 0}};

// Those that count time, and the letters that their formats begin with.
struct Counted {
    Sort sort;
    const char *name, *letters;
};
static constexpr Counted counted_sorts[] = {
    {Sort::date, "date", "td"}, {Sort::time, "time", "tt"}, {Sort::timestamp, "timestamp", "ts"},
    {Sort::duration, "duration", "tD"}};

struct FloatName {
    const char *bits, *letter;
};
static constexpr FloatName float_names[] = {{"16", "e"}, {"32", "f"}, {"64", "g"}};

static const Unit &unit_of(const LogicalType &type) {
    return *std::find_if(std::begin(units), std::end(units), [&](const Unit &unit) { return unit.name == type.unit; });
}

static const Counted &counted_of(const LogicalType &type) {
    return *std::find_if(std::begin(counted_sorts), std::end(counted_sorts),
                         [&](const Counted &counted) { return counted.sort == type.sort; });
}

// Dates count days or milliseconds, and others all units but days.
static bool has_unit(Sort sort, const Unit &unit) {
    const bool is_day = unit.letter == 'D';
    return sort == Sort::date ? is_day || unit.letter == 'm' : !is_day;
}

std::optional<LogicalType> LogicalType::of_format(const std::string &format) {
    for (const FloatName &known : float_names)
        if (format == known.letter) return LogicalType{Sort::floating, known.bits, ""};
    for (const Counted &counted : counted_sorts) {
        if (format.compare(0, 2, counted.letters) != 0 || format.size() < 3) continue;
        const bool has_zone = counted.sort == Sort::timestamp;
        const std::string rest = format.substr(3);
        if (has_zone ? rest[0] != ':' || rest.find('\0') != rest.npos : !rest.empty()) return std::nullopt;
        for (const Unit &unit : units)
            if (unit.letter == format[2] && has_unit(counted.sort, unit))
                return LogicalType{counted.sort, unit.name, has_zone ? rest.substr(1) : ""};
    }
    return std::nullopt;
}

// The text without spaces at its ends.
static std::string stripped(const std::string &text) {
    const size_t start = text.find_first_not_of(' ');
    return start == text.npos ? "" : text.substr(start, text.find_last_not_of(' ') + 1 - start);
}

std::optional<LogicalType> LogicalType::of_name(const std::string &name) {
    for (const FloatName &known : float_names)
        if (name == std::string("float") + known.bits) return LogicalType{Sort::floating, known.bits, ""};
    if (name == "date") return LogicalType{Sort::date, "D", ""};
    const size_t open = name.find('['), comma = name.find(',');
    if (open == name.npos || name.back() != ']') return std::nullopt;
    const std::string within = name.substr(open + 1, std::min(comma, name.size() - 1) - open - 1);
    const std::string zone = comma == name.npos ? "" : stripped(name.substr(comma + 1, name.size() - comma - 2));
    if ((comma != name.npos && zone.empty()) || zone.find_first_of("]\n") != zone.npos) return std::nullopt;
    for (const Counted &counted : counted_sorts)
        for (const Unit &unit : units)
            if (name.compare(0, open, counted.name) == 0 && stripped(within) == unit.name &&
                has_unit(counted.sort, unit) && (zone.empty() || counted.sort == Sort::timestamp))
                return LogicalType{counted.sort, unit.name, zone};
    return std::nullopt;
}

std::string LogicalType::format() const {
    for (const FloatName &known : float_names)
        if (sort == Sort::floating && unit == known.bits) return known.letter;
    return std::string(counted_of(*this).letters) + unit_of(*this).letter +
           (sort == Sort::timestamp ? ":" + zone : "");
}

std::string LogicalType::name() const {
    if (sort == Sort::floating) return "float" + unit;
    if (unit == "D") return "date";
    return std::string(counted_of(*this).name) + "[" + unit + (zone.empty() ? "" : ", " + zone) + "]";
}

hv_kind LogicalType::storage() const {
    if (sort == Sort::floating) return unit == "16" ? hv::kinds::i16 : unit == "32" ? hv::kinds::i32 : hv::kinds::i64;
    const bool is_narrow = unit == "D" || (sort == Sort::time && unit_of(*this).places < 6);
    return is_narrow ? hv::kinds::i32 : hv::kinds::i64;
}

RowType type_of(const hv::Column &column) {
    const hv_kind kind = column.kind();
    const std::optional<LogicalType> logical = LogicalType::of_format(column.logical_type());
    const bool is_stored_so = logical && logical->storage().number == kind.number;
    return {kind, is_stored_so ? logical : std::nullopt};
}

RowType type_of_text(const std::string &text) {
    const bool may_be_null = !text.empty() && text.back() == '?';
    const auto logical = LogicalType::of_name(text.substr(0, text.size() - may_be_null));
    if (!logical) return {kind_of_text(text), std::nullopt};
    return {may_be_null ? hv::nullable(logical->storage()) : logical->storage(), logical};
}

std::string to_string(const RowType &type) {
    return type.logical ? type.logical->name() + (type.kind.nullable ? "?" : "") : hv::to_string(type.kind);
}

// ---- Read ----

static Failure not_as(const std::string &text, const std::string &expected) {
    return Failure("'" + text + "' is not " + expected);
}

// Nanoseconds from midnight or from 1970-01-01.
static Wide nanoseconds_of_text(const std::string &text, const LogicalType &type) {
    if (type.sort == Sort::date) {
        if (const auto day = day_of_text(text)) return static_cast<Wide>(*day) * nanoseconds_of_day;
        throw not_as(text, "a date as 2024-03-01");
    }
    if (type.sort == Sort::time) {
        if (const auto time = time_of_text(text)) return time->nanoseconds;
        throw not_as(text, "a time of day as 10:00:00");
    }
    const std::optional<Instant> found = instant_of_text(text);
    if (found && found->has_offset == !type.zone.empty()) return found->nanoseconds;
    throw not_as(text, type.zone.empty() ? "a date and a time without an offset as 2024-03-01T10:00:00"
                                         : "a date and a time with an offset as 2024-03-01T10:00:00Z");
}

// How many units a text means, exactly: a number that may have digits after the point.
static hv::Decimal count_of_text(const std::string &text, const LogicalType &type) {
    const int places = unit_of(type).places;
    if (type.sort == Sort::duration) {
        if (!number_text(text)) throw not_as(text, "a number of seconds");
        const auto seconds = std::get<hv::Decimal>(value_of_text(text, hv::kinds::i64));
        return hv::Decimal(seconds.low, seconds.high, static_cast<int8_t>(seconds.scale - places));
    }
    const Wide nanoseconds = nanoseconds_of_text(text, type);
    const Wide number = type.unit == "D" ? nanoseconds / nanoseconds_of_day : nanoseconds;
    return hv::Decimal(static_cast<uint64_t>(number), static_cast<int64_t>(number >> 64),
                       static_cast<int8_t>(type.unit == "D" ? 0 : 9 - places));
}

// The key of the float that is nearest to a number, and not past the finite ones.
static int64_t key_of_text(const std::string &text, const LogicalType &type) {
    const std::optional<uint64_t> bits = nearest_bits(text, type.width());
    if (!bits) throw not_as(text, "a number");
    const bool is_named = text.find_first_of("nN") != text.npos; // NaN and infinities
    if (!is_named && std::isinf(float_of_bits(*bits, type.width())))
        throw Failure("no " + type.name() + " is " + text);
    return hv::detail::key_of_bits(*bits, type.width());
}

Value value_of_text(const std::string &text, const RowType &type) {
    if (!type.logical) return value_of_text(text, type.kind);
    if (type.is_float()) return key_of_text(text, *type.logical);
    const hv::Decimal count = count_of_text(text, *type.logical);
    const hv::detail::AtScale whole = hv::detail::at_scale(count.digits(), count.scale, 0);
    if (whole.rest) throw Failure("'" + text + "' is finer than " + type.logical->name());
    if (whole.past || !hv::detail::range_of(type.kind).has(whole.floor))
        throw Failure("'" + text + "' does not fit " + type.logical->name());
    return static_cast<int64_t>(whole.floor);
}

// ---- Written ----

// A count of a unit that is written as a date, a time, or both.
static std::string text_of_count(int64_t count, const LogicalType &type) {
    Wide nanoseconds = count;
    if (type.unit == "D") nanoseconds *= nanoseconds_of_day;
    else nanoseconds = hv::detail::at_scale(count, unit_of(type).places, 9).floor;
    if (type.sort == Sort::duration) return text_of_seconds(nanoseconds);
    const auto refused = [&](const char *why) {
        return Failure(std::to_string(count) + " of " + type.name() + " is " + why);
    };
    const Wide before = nanoseconds < 0 ? nanoseconds - (nanoseconds_of_day - 1) : nanoseconds;
    const Wide day = before / nanoseconds_of_day;
    const int64_t rest = static_cast<int64_t>(nanoseconds - day * nanoseconds_of_day);
    if (type.sort == Sort::time && day != 0) throw refused("not within a day");
    if (type.sort == Sort::time) return text_of_time(rest);
    const std::optional<std::string> date = text_of_day(day);
    if (!date) throw refused("not from the year 1 to the year 9999");
    if (type.sort == Sort::date && rest) throw refused("not a whole day");
    if (type.sort == Sort::date) return *date;
    return *date + "T" + text_of_time(rest) + (type.zone.empty() ? "" : "+00:00");
}

std::string csv_field(const Value &value, const RowType &type) {
    const auto *count = std::get_if<int64_t>(&value);
    return type.logical && count ? text_of_count(*count, *type.logical) : csv_field(value);
}

// ---- Asked ----

Column compare_with_text(const Column &column, const RowType &type, hv::Operator by, const std::string &text) {
    if (!type.logical) return column.compare(by, value_of_text(text, type.kind));
    if (!type.is_float()) return column.with_logical_type("").compare(by, count_of_text(text, *type.logical));
    const FloatComparison asked = float_comparison(by, text);
    return column.compare(asked.by, asked.number);
}

static Value total_of(const Column &column, const RowType &type) {
    try {
        return std::visit([](auto total) { return Value(total); }, column.sum().total);
    } catch (const hv::Error &error) {
        if (error.number != HV_UNSUPPORTED) throw;
        throw Failure(to_string(type) + " has no sum");
    }
}

std::string sum_of(const Column &column, const RowType &type) { return csv_field(total_of(column, type), type); }

bool has_mean(const RowType &type) {
    if (type.logical) return type.is_float();
    return type.kind.number == HV_DECIMAL || hv::detail::is_integer(type.kind);
}

// A quotient in decimal digits. Those past the 400th after the point are cut off, and a 1 says that there are some: no
// double that is next to such a quotient has as many, and no middle of two, so that the text is on the same side of
// each as the quotient.
static std::string text_of_quotient(const hv::Decimal &number, uint64_t by) {
    constexpr size_t most_places = 400;
    __extension__ typedef unsigned __int128 Size;
    const Wide digits = number.digits();
    const Size size = digits < 0 ? -static_cast<Size>(digits) : static_cast<Size>(digits);
    Size rest = size % by;
    const Size whole = size / by;
    std::string text = digits < 0 ? "-" : "";
    text += to_string(hv::Decimal(static_cast<uint64_t>(whole), static_cast<int64_t>(whole >> 64), 0)) + ".";
    for (size_t place = 0; rest && place < most_places; place++) {
        rest *= 10;
        text += static_cast<char>('0' + static_cast<int>(rest / by));
        rest %= by;
    }
    return text + (rest ? "1" : "0") + "e" + std::to_string(-number.scale);
}

std::optional<double> mean_of_sum(const Value &sum, size_t count) {
    if (count == 0) return std::nullopt;
    if (auto *total = std::get_if<double>(&sum)) return *total / static_cast<double>(count);
    if (auto *total = std::get_if<hv::Decimal>(&sum)) return float_of_text(text_of_quotient(*total, count));
    if (auto *total = std::get_if<uint64_t>(&sum)) return float_of_text(text_of_quotient({*total, 0, 0}, count));
    return float_of_text(text_of_quotient(hv::Decimal::of(std::get<int64_t>(sum), 0), count));
}

std::string mean_of(const Column &column, const RowType &type, size_t count) {
    if (!has_mean(type)) throw Failure(to_string(type) + " has no mean");
    const std::optional<double> mean = mean_of_sum(total_of(column, type), count);
    return mean ? text_of_float(*mean) : "";
}
