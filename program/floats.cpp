#include "floats.hpp"
#include "failure.hpp"
#include <charconv>
#include <cmath>
#include <cstdlib>

// ---- Numbers by their digits ----

// 0.DIGITS times a power of ten, without a 0 at either end of the digits; 0 has none.
struct Digits {
    bool is_negative;
    std::string digits;
    long exponent;
};

static bool is_digit(char letter) { return letter >= '0' && letter <= '9'; }

static size_t digits_end(const std::string &text, size_t start) {
    while (start < text.size() && is_digit(text[start])) start++;
    return start;
}

// The digits of a number, where the text is one: an optional minus, digits without a 0 in front of others, maybe a
// point with digits after it, and maybe a power of ten of at most four digits.
static std::optional<Digits> digits_of(const std::string &text) {
    const size_t start = text.size() && text[0] == '-', point = digits_end(text, start);
    if (point == start || (point > start + 1 && text[start] == '0')) return std::nullopt;
    Digits found{start > 0, text.substr(start, point - start), static_cast<long>(point - start)};
    size_t at = point;
    if (at < text.size() && text[at] == '.') {
        at = digits_end(text, point + 1);
        if (at == point + 1) return std::nullopt;
        found.digits += text.substr(point + 1, at - point - 1);
    }
    if (at < text.size() && (text[at] == 'e' || text[at] == 'E')) {
        const size_t sign = at + 1, first = sign + (sign < text.size() && (text[sign] == '+' || text[sign] == '-'));
        at = digits_end(text, first);
        if (at == first || at > first + 4) return std::nullopt;
        const long power = std::strtol(text.substr(first, at - first).c_str(), nullptr, 10);
        found.exponent += text[sign] == '-' ? -power : power;
    }
    if (at != text.size()) return std::nullopt;
    const size_t zeros = std::min(found.digits.find_first_not_of('0'), found.digits.size());
    found.digits.erase(0, zeros);
    found.digits.erase(found.digits.find_last_not_of('0') + 1);
    found.exponent = found.digits.empty() ? 0 : found.exponent - static_cast<long>(zeros);
    return found;
}

// A double to this number of digits after the first, or in its shortest digits.
static std::string scientific(double number, std::optional<int> places = std::nullopt) {
    std::string text(1200, '\0');
    char *const first = text.data(), *const last = first + text.size();
    const auto form = std::chars_format::scientific;
    const std::to_chars_result end =
        places ? std::to_chars(first, last, number, form, *places) : std::to_chars(first, last, number, form);
    text.resize(static_cast<size_t>(end.ptr - first));
    return text;
}

// All digits of a finite double, of which none has more than 767.
static Digits exact_digits(double number) { return *digits_of(scientific(number, 766)); }

// Less than 0, 0 or more than 0, as the left number is below, equal to or above the right one.
static int compared(const Digits &left, const Digits &right) {
    const auto sign = [](const Digits &number) { return number.digits.empty() ? 0 : number.is_negative ? -1 : 1; };
    if (sign(left) != sign(right)) return sign(left) - sign(right);
    const int by_digits = left.exponent != right.exponent ? (left.exponent < right.exponent ? -1 : 1)
                                                           : left.digits.compare(right.digits);
    return sign(left) < 0 ? -by_digits : by_digits;
}

// ---- Bits ----

// How many bits a float of a width has after the point, and what is added to its power of two.
struct FloatLayout {
    int places, bias;
};

static FloatLayout float_layout_of(int width) {
    switch (width) {
    case 16: return {10, 15};
    case 32: return {23, 127};
    default: return {52, 1023};
    }
}

static uint64_t bits_of_infinity(const FloatLayout &layout) {
    return static_cast<uint64_t>(2 * layout.bias + 1) << layout.places;
}

using hv::detail::sign_bit;

double float_of_bits(uint64_t bits, int width) {
    const FloatLayout layout = float_layout_of(width);
    const uint64_t size = bits & ~sign_bit(width), infinity = bits_of_infinity(layout);
    const double sign = bits & sign_bit(width) ? -1 : 1;
    if (size >= infinity) return size == infinity ? sign * HUGE_VAL : std::nan("");
    const int power = static_cast<int>(size >> layout.places);
    const uint64_t one = uint64_t{1} << layout.places, fraction = size & (one - 1);
    return sign * std::ldexp(static_cast<double>(power ? one + fraction : fraction),
                             std::max(power, 1) - layout.bias - layout.places);
}

// The float of this width that is nearest on the side of 0: of a finite number a finite one.
static uint64_t bits_toward_zero(double number, int width) {
    const FloatLayout layout = float_layout_of(width);
    const uint64_t infinity = bits_of_infinity(layout), sign = std::signbit(number) ? sign_bit(width) : 0;
    if (std::isnan(number)) return infinity + (uint64_t{1} << (layout.places - 1)); // a quiet one
    if (std::isinf(number)) return sign + infinity;
    if (number == 0) return sign;
    int power = 0;
    std::frexp(number, &power);
    const int biased = std::max(power - 1 + layout.bias, 1); // also of numbers near to 0, which are spaced so
    if (biased > 2 * layout.bias) return sign + infinity - 1;
    const double scaled = std::ldexp(std::fabs(number), layout.places + layout.bias - biased);
    return sign + (static_cast<uint64_t>(biased - 1) << layout.places) + static_cast<uint64_t>(scaled);
}

// ---- Texts ----

// NaN or an infinity, as a text names it.
static std::optional<double> named_float(const std::string &text) {
    if (text == "nan" || text == "NaN") return std::nan("");
    const size_t start = text.size() && (text[0] == '-' || text[0] == '+');
    for (const char *name : {"inf", "Inf", "Infinity"})
        if (text.compare(start, text.npos, name) == 0) return text[0] == '-' ? -HUGE_VAL : HUGE_VAL;
    return std::nullopt;
}

std::optional<double> float_of_text(const std::string &text) {
    if (const std::optional<double> named = named_float(text)) return named;
    return digits_of(text) ? std::optional(std::strtod(text.c_str(), nullptr)) : std::nullopt;
}

std::optional<uint64_t> nearest_bits(const std::string &text, int width) {
    const std::optional<double> near = float_of_text(text);
    if (!near) return std::nullopt;
    const uint64_t lower = bits_toward_zero(*near, width);
    if (width == 64 || !std::isfinite(*near)) return lower;
    // the middle of two floats, which a double has; next to the last one as if another came
    const double low = float_of_bits(lower, width), next = float_of_bits(lower + 1, width);
    const double step = std::isfinite(next) ? next - low : low - float_of_bits(lower - 1, width);
    const int order = compared(*digits_of(text), exact_digits(low + step / 2));
    const bool is_past = std::signbit(low) ? order < 0 : order > 0;
    return lower + (is_past || (order == 0 && lower % 2 == 1));
}

bool is_shortest_float(const std::string &text) {
    const std::optional<Digits> found = digits_of(text);
    if (!found) return named_float(text).has_value();
    const double number = std::strtod(text.c_str(), nullptr);
    return std::isfinite(number) && compared(*found, *digits_of(scientific(number))) == 0;
}

std::string text_of_float(double number) {
    if (std::isnan(number)) return "nan";
    if (std::isinf(number)) return number < 0 ? "-inf" : "inf";
    const std::string text = scientific(number);
    const int power = static_cast<int>(std::strtol(text.c_str() + text.find('e') + 1, nullptr, 10));
    if (power < -4 || power > 15) return text;
    std::string digits;
    for (char letter : text.substr(0, text.find('e')))
        if (is_digit(letter)) digits += letter;
    if (power < 0) digits.insert(0, static_cast<size_t>(-power), '0');
    const size_t before = static_cast<size_t>(std::max(power, 0)) + 1;
    while (digits.size() <= before) digits += '0';
    return (std::signbit(number) ? "-" : "") + digits.insert(before, ".");
}

// ---- Comparisons ----

FloatComparison float_comparison(hv::Operator by, const std::string &text) {
    const std::optional<double> near = float_of_text(text);
    if (!near) throw Failure("'" + text + "' is not a number");
    const std::optional<Digits> number = digits_of(text);
    if (!number) return {by, *near};
    const double finite = std::isinf(*near) ? std::copysign(std::numeric_limits<double>::max(), *near) : *near;
    const int order = compared(*number, exact_digits(finite)); // of which one is the double nearest to the other
    if (order == 0) return {by, finite};
    if (by == hv::Operator::equal || by == hv::Operator::not_equal) return {by, std::nan("")};
    const bool is_below = by == hv::Operator::less || by == hv::Operator::less_or_equal;
    if (order > 0) return {is_below ? hv::Operator::less_or_equal : hv::Operator::greater, finite};
    return {is_below ? hv::Operator::less : hv::Operator::greater_or_equal, finite};
}
