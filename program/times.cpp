#include "times.hpp"

using Wide = hv::detail::Wide;

static bool is_digit(char letter) { return letter >= '0' && letter <= '9'; }

// Does the text have these letters, where a 0 is any digit?
static bool is_like(const std::string &text, const std::string &pattern) {
    if (text.size() != pattern.size()) return false;
    for (size_t at = 0; at < text.size(); at++)
        if (pattern[at] == '0' ? !is_digit(text[at]) : text[at] != pattern[at]) return false;
    return true;
}

// The number of these digits, of which there are at most nine.
static int number_at(const std::string &text, size_t start, size_t count) {
    int number = 0;
    for (size_t at = start; at < start + count; at++) number = number * 10 + (text[at] - '0');
    return number;
}

// ---- The calendar ----
// Years begin with March, so that a leap day is the last day of one; 400 years have 146,097 days, and the day 0 is
// 719,468 days after the first of March of the year 0.

static constexpr int64_t days_of_400_years = 146'097, first_march = 719'468;
static constexpr int64_t first_day = -719'162, last_day = 2'932'896; // 0001-01-01 and 9999-12-31

static bool is_leap(int year) { return year % 4 == 0 && (year % 100 != 0 || year % 400 == 0); }

static int days_of_month(int year, int month) {
    static constexpr int days[] = {31, 28, 31, 30, 31, 30, 31, 31, 30, 31, 30, 31};
    return days[month - 1] + (month == 2 && is_leap(year));
}

// Days from the first of March to the first day of a month, which is counted from March as 0.
static int64_t days_before_month(int64_t month) { return (153 * month + 2) / 5; }

static int64_t day_of(int64_t year, int64_t month, int64_t day) {
    if (month < 3) year--, month += 12;
    return 365 * year + year / 4 - year / 100 + year / 400 + days_before_month(month - 3) + day - 1 - first_march;
}

// ---- Read ----

std::optional<int64_t> day_of_text(const std::string &text) {
    if (!is_like(text, "0000-00-00")) return std::nullopt;
    const int year = number_at(text, 0, 4), month = number_at(text, 5, 2), day = number_at(text, 8, 2);
    if (year < 1 || month < 1 || month > 12 || day < 1 || day > days_of_month(year, month)) return std::nullopt;
    return day_of(year, month, day);
}

std::optional<TimeOfDay> time_of_text(const std::string &text) {
    const size_t places = text.size() > 9 ? text.size() - 9 : 0;
    const bool has_second = text.size() > 5;
    const std::string pattern = has_second ? "00:00:00" + (places ? "." + std::string(places, '0') : "") : "00:00";
    if (places > 9 || !is_like(text, pattern)) return std::nullopt;
    const int hour = number_at(text, 0, 2), minute = number_at(text, 3, 2);
    const int second = has_second ? number_at(text, 6, 2) : 0;
    if (hour > 23 || minute > 59 || second > 59) return std::nullopt;
    int64_t fraction = places ? number_at(text, 9, places) : 0;
    for (size_t place = places; place < 9; place++) fraction *= 10;
    return TimeOfDay{((hour * 60 + minute) * 60 + second) * nanoseconds_of_second + fraction, places};
}

// How many minutes a clock is ahead of UTC by an offset as +02:00.
static std::optional<int> minutes_of_offset(const std::string &text) {
    if (!is_like(text, "+00:00") && !is_like(text, "-00:00")) return std::nullopt;
    const int hours = number_at(text, 1, 2), minutes = number_at(text, 4, 2);
    if (hours > 23 || minutes > 59) return std::nullopt;
    return (hours * 60 + minutes) * (text[0] == '-' ? -1 : 1);
}

std::optional<Instant> instant_of_text(const std::string &text) {
    static constexpr size_t date_letters = 10, offset_letters = 6;
    const size_t least = date_letters + 1;
    if (text.size() < least || (text[date_letters] != 'T' && text[date_letters] != ' ')) return std::nullopt;
    std::string time = text.substr(least);
    std::optional<int> ahead;
    if (time.size() > 0 && time.back() == 'Z') {
        ahead = 0;
        time.pop_back();
    } else if (time.size() > offset_letters) {
        ahead = minutes_of_offset(time.substr(time.size() - offset_letters));
        if (ahead) time.resize(time.size() - offset_letters);
    }
    const std::optional<int64_t> day = day_of_text(text.substr(0, date_letters));
    const std::optional<TimeOfDay> found = time_of_text(time);
    if (!day || !found) return std::nullopt;
    const Wide local = static_cast<Wide>(*day) * nanoseconds_of_day + found->nanoseconds;
    return Instant{local - static_cast<Wide>(ahead.value_or(0)) * 60 * nanoseconds_of_second, ahead.has_value(),
                   found->places};
}

// ---- Written ----

// A number in at least this number of digits.
static std::string padded(int64_t number, size_t digits) {
    const std::string text = std::to_string(number);
    return std::string(digits - std::min(digits, text.size()), '0') + text;
}

std::optional<std::string> text_of_day(Wide day) {
    if (day < first_day || day > last_day) return std::nullopt;
    const int64_t from_march = static_cast<int64_t>(day) + first_march;
    const int64_t era = from_march / days_of_400_years, of_era = from_march % days_of_400_years;
    const int64_t of_years = of_era - of_era / 1460 + of_era / 36'524 - of_era / 146'096; // without the leap days
    const int64_t year_of_era = of_years / 365;
    const int64_t of_year = of_era - (365 * year_of_era + year_of_era / 4 - year_of_era / 100);
    const int64_t month = (5 * of_year + 2) / 153;
    const int64_t year = era * 400 + year_of_era + (month > 9);
    return padded(year, 4) + "-" + padded(month < 10 ? month + 3 : month - 9, 2) + "-" +
           padded(of_year - days_before_month(month) + 1, 2);
}

std::string text_of_time(int64_t nanoseconds) {
    const int64_t seconds = nanoseconds / nanoseconds_of_second, rest = nanoseconds % nanoseconds_of_second;
    const std::string time =
        padded(seconds / 3600, 2) + ":" + padded(seconds / 60 % 60, 2) + ":" + padded(seconds % 60, 2);
    if (rest == 0) return time;
    return time + "." + (rest % 1000 ? padded(rest, 9) : padded(rest / 1000, 6));
}

std::string text_of_seconds(Wide nanoseconds) {
    std::string text = hv::to_string(
        hv::Decimal(static_cast<uint64_t>(nanoseconds), static_cast<int64_t>(nanoseconds >> 64), int8_t{9}));
    text.erase(text.find_last_not_of('0') + 1);
    if (text.back() == '.') text.pop_back();
    return text;
}
