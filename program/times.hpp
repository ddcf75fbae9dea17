// Dates and times as ISO 8601 spells them: 2026-01-31, 09:30, 2026-01-31T09:30:00.5+02:00.
#ifndef HIVEVIGIL_PROGRAM_TIMES_HPP
#define HIVEVIGIL_PROGRAM_TIMES_HPP
#include <hivevigil.hpp>
#include <string>

inline constexpr int64_t nanoseconds_of_second = 1'000'000'000, nanoseconds_of_day = 86'400 * nanoseconds_of_second;

// A time of day: nanoseconds from midnight, and the digits that were after the second.
struct TimeOfDay {
    int64_t nanoseconds;
    size_t places;
};

// A date and a time: nanoseconds from 1970-01-01 00:00, in UTC where it has an offset, and the digits after the second.
struct Instant {
    hv::detail::Wide nanoseconds;
    bool has_offset;
    size_t places;
};

// ---- Read; none where the text is not written so ----

// Days from 1970-01-01 to a date, which is from the year 1 to the year 9999.
std::optional<int64_t> day_of_text(const std::string &text);
// Hours and minutes, then maybe seconds, and of these at most nine digits after the point.
std::optional<TimeOfDay> time_of_text(const std::string &text);
// A date, a T or a space, a time, and maybe Z or an offset as +02:00.
std::optional<Instant> instant_of_text(const std::string &text);

// ---- Written ----

// The date that is this number of days after 1970-01-01; none where it is not from the year 1 to the year 9999.
std::optional<std::string> text_of_day(hv::detail::Wide day);
// A time from midnight, which is within a day: seconds, and after them nothing, six digits or nine.
std::string text_of_time(int64_t nanoseconds);
// A number of seconds: "-1.5".
std::string text_of_seconds(hv::detail::Wide nanoseconds);

#endif
