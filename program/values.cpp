#include "values.hpp"
#include "failure.hpp"
#include "floats.hpp"
#include <algorithm>

static size_t digits_from(const std::string &text, size_t start) {
    size_t stop = start;
    while (stop < text.size() && text[stop] >= '0' && text[stop] <= '9') stop++;
    return stop - start;
}

std::optional<NumberText> number_text(const std::string &text) {
    const size_t start = text.size() && text[0] == '-', digits = digits_from(text, start);
    if (digits == 0 || (digits > 1 && text[start] == '0')) return std::nullopt;
    size_t end = start + digits, places = 0;
    if (end < text.size() && text[end] == '.') {
        places = digits_from(text, end + 1);
        if (places == 0) return std::nullopt;
        end += 1 + places;
    }
    if (end != text.size()) return std::nullopt;
    return NumberText{digits, places};
}

static hv::Value number_of_text(const std::string &text) {
    const std::optional<NumberText> found = number_text(text);
    if (!found) throw Failure("'" + text + "' is not a number");
    if (found->digits + found->places > most_digits)
        throw Failure(text + " has more than " + std::to_string(most_digits) + " digits");
    hv::detail::Wide number = 0;
    for (char letter : text)
        if (letter >= '0' && letter <= '9') number = number * 10 + (letter - '0');
    if (text[0] == '-') number = -number;
    return hv::Decimal(static_cast<uint64_t>(number), static_cast<int64_t>(number >> 64),
                       static_cast<int8_t>(found->places));
}

static int hex_digit(char letter) {
    static const std::string digits = "0123456789abcdef";
    const size_t place = digits.find(letter >= 'A' && letter <= 'F' ? static_cast<char>(letter - 'A' + 'a') : letter);
    return place == digits.npos ? -1 : static_cast<int>(place);
}

static hv::Value bytes_of_text(const std::string &text) {
    hv::Bytes bytes;
    for (size_t at = 0; at < text.size(); at += 2) {
        const int high = hex_digit(text[at]), low = at + 1 < text.size() ? hex_digit(text[at + 1]) : -1;
        if (high < 0 || low < 0) throw Failure("'" + text + "' is not bytes in hexadecimal digits");
        bytes.push_back(static_cast<uint8_t>(high * 16 + low));
    }
    return bytes;
}

hv::Value value_of_text(const std::string &text, hv_kind kind) {
    switch (kind.number) {
    case HV_UTF8: return text;
    case HV_BINARY: return bytes_of_text(text);
    case HV_BOOL:
        // Python writes True and False, which are booleans only where these are asked for
        if (text == "true" || text == "True") return true;
        if (text == "false" || text == "False") return false;
        throw Failure("'" + text + "' is neither true nor false");
    case HV_LIST: throw Failure("'" + text + "' is not a list, and lists have no order");
    default: return number_of_text(text);
    }
}

static hv_kind decimal_of_text(const std::string &text, const Failure &unknown) {
    int precision = 0, scale = 0, read = -1;
    std::sscanf(text.c_str(), "decimal(%3d,%4d)%n", &precision, &scale, &read);
    if (read != static_cast<int>(text.size())) throw unknown;
    if (precision < 1 || precision > static_cast<int>(most_digits) || scale < 0 || scale > precision)
        throw Failure(text + ": a decimal has 1 to 38 digits, and no more of them after the point");
    return hv::kinds::decimal(static_cast<uint8_t>(precision), static_cast<int8_t>(scale));
}

hv_kind kind_of_text(const std::string &text) {
    using namespace hv::kinds;
    const Failure unknown("'" + text + "' is not a type: u8 .. u64, i8 .. i64, bool, utf8, binary, decimal(10,2), "
                                       "float64, date, time[us], timestamp[us], timestamp[us, UTC], duration[us], "
                                       "and ? after it where rows may be null");
    const bool may_be_null = !text.empty() && text.back() == '?';
    const std::string name = text.substr(0, text.size() - may_be_null);
    for (hv_kind kind : {u8, u16, u32, u64, i8, i16, i32, i64, boolean, utf8, binary})
        if (name == hv::to_string(kind)) return may_be_null ? hv::nullable(kind) : kind;
    const hv_kind kind = decimal_of_text(name, unknown);
    return may_be_null ? hv::nullable(kind) : kind;
}

std::string csv_field(const std::string &text) {
    if (!text.empty() && text.find_first_of(",\"\r\n") == text.npos) return text;
    std::string field = "\"";
    for (char letter : text) field += letter == '"' ? "\"\"" : std::string(1, letter);
    return field + "\"";
}

std::string csv_name(const std::string &name) {
    const std::string field = csv_field(name);
    return field == name && name.find_first_of(";\t|") != name.npos ? "\"" + name + "\"" : field;
}

std::string csv_field(const hv::Value &value) {
    if (auto *text = std::get_if<std::string>(&value)) return csv_field(*text);
    if (std::holds_alternative<hv::Bytes>(value)) return csv_field(hv::to_string(value));
    if (auto *number = std::get_if<double>(&value)) return text_of_float(*number);
    return std::holds_alternative<hv::Null>(value) ? "" : hv::to_string(value);
}

std::string json_of(const hv::Value &value) {
    if (std::holds_alternative<hv::Bytes>(value)) return "\"" + hv::to_string(value) + "\"";
    auto *text = std::get_if<std::string>(&value);
    if (!text) return hv::to_string(value);
    std::string json = "\"";
    for (char letter : *text) {
        char escaped[7] = {'\\', letter, 0};
        if (static_cast<unsigned char>(letter) < ' ') std::snprintf(escaped, sizeof escaped, "\\u%04x", letter);
        else if (letter != '"' && letter != '\\') escaped[0] = letter, escaped[1] = 0;
        json += escaped;
    }
    return json + "\"";
}

bool are_texts(const std::vector<std::string> &texts) {
    try {
        hv::Column::texts({texts.begin(), texts.end()});
        return true;
    } catch (const hv::Error &error) {
        if (error.number == HV_TYPE_MISMATCH) return false;
        throw;
    }
}
