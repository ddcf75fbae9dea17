// Values and types as texts: fields of a CSV file, arguments, and what is printed.
#ifndef HIVEVIGIL_PROGRAM_VALUES_HPP
#define HIVEVIGIL_PROGRAM_VALUES_HPP
#include <hivevigil_table.hpp>
#include <string>

// Digits before and after the point of a number as it is written: -12.50 has two of both. None where the text is not a
// number: an optional minus, digits without a 0 in front of others, and maybe a point with digits after it.
struct NumberText {
    size_t digits, places;
};
std::optional<NumberText> number_text(const std::string &text);

// The most digits that a decimal has, before and after the point together.
inline constexpr size_t most_digits = 38;

// The type of these words: u8 to u64, i8 to i64, bool, utf8, binary, decimal(10,2), with a ? after it where rows may be
// null. Throws a Failure.
hv_kind kind_of_text(const std::string &text);

// The value of a text for rows of a type: a number as above, true or false, a text, bytes in hexadecimal digits.
// Throws a Failure that says what the text is not.
hv::Value value_of_text(const std::string &text, hv_kind kind);

// The text as a field of a CSV file: in quotes where it is empty or needs them.
std::string csv_field(const std::string &text);
// The value in the same way; null is an empty field.
std::string csv_field(const hv::Value &value);
// The name in the first line of a CSV file: in quotes also where it has a mark that may divide fields.
std::string csv_name(const std::string &name);
// The value within a list, as JSON has it; bytes are a text of hexadecimal digits.
std::string json_of(const hv::Value &value);

// Are all of them UTF-8?
bool are_texts(const std::vector<std::string> &texts);

// "1,234,567"
using hv::detail::with_commas;

#endif
