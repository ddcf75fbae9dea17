// Floats of 16, 32 and 64 bits as words. A format is named by the type of its keys, HV_I16, HV_I32 or HV_I64.
#ifndef VECTORS_FLOATS_HPP
#define VECTORS_FLOATS_HPP
#include "library.hpp"
#include <charconv>
#include <cmath>
#include <cstring>

namespace vectors {

// How many bits a float has, and how many of them are after the point.
struct FloatLayout {
    int width, places;
    uint64_t sign() const { return uint64_t{1} << (width - 1); }
    uint64_t infinity() const { return (sign() - 1) >> places << places; }
};

inline FloatLayout layout_of(int format) {
    return format == HV_I16 ? FloatLayout{16, 10} : format == HV_I32 ? FloatLayout{32, 23} : FloatLayout{64, 52};
}

inline uint8_t read_format(const std::string &word) {
    require(word == "f16" || word == "f32" || word == "f64");
    return word == "f16" ? HV_I16 : word == "f32" ? HV_I32 : HV_I64;
}

template <class Bits, class Float> Bits bits_of(Float number) {
    static_assert(sizeof(Bits) == sizeof(Float), "bits of the width of the float");
    Bits bits;
    std::memcpy(&bits, &number, sizeof bits);
    return bits;
}
template <class Float, class Bits> Float float_of(Bits bits) { return bits_of<Float>(bits); }

// The bits of the float of 16 bits that is nearest to a number, at a tie the even one. Steps between floats are powers
// of two, so the number is exactly divided by the step where it is, and 1024 steps on they double.
inline uint64_t half_bits(double number) {
    const uint64_t sign = std::signbit(number) ? layout_of(HV_I16).sign() : 0, most = layout_of(HV_I16).infinity();
    const double size = std::fabs(number);
    if (size == 0) return sign;
    if (size >= 65536) return sign | most;
    int power = 0;
    std::frexp(size, &power);
    const int step = std::max(power - 11, -24);
    const double steps = std::nearbyint(std::ldexp(size, -step));
    return sign | std::min(static_cast<uint64_t>(step + 24) * 1024 + static_cast<uint64_t>(steps), most);
}

// The bits in a format of a float of it that is given as a double. A NaN has its payload from the highest bit on.
inline uint64_t narrowed(int format, uint64_t bits) {
    const FloatLayout narrow = layout_of(format), wide = layout_of(HV_I64);
    const uint64_t places = bits & ((uint64_t{1} << wide.places) - 1);
    if ((bits & (wide.sign() - 1)) > wide.infinity())
        return (bits & wide.sign() ? narrow.sign() : 0) | narrow.infinity() | places >> (wide.places - narrow.places);
    const double number = float_of<double>(bits);
    if (format == HV_I16) return half_bits(number);
    return format == HV_I32 ? bits_of<uint32_t>(static_cast<float>(number)) : bits;
}

inline float half_number(uint64_t bits) {
    const int power = static_cast<int>(bits >> 10 & 31), places = static_cast<int>(bits & 1023);
    const float size = power == 31 ? HUGE_VALF
                                   : std::ldexp(static_cast<float>(power ? 1024 + places : places),
                                                std::max(power, 1) - 25);
    return bits & layout_of(HV_I16).sign() ? -size : size;
}

// The bits of the float that is nearest to a decimal.
inline uint64_t bits_of_decimal(int format, const std::string &word) {
    const auto is_part = [](char letter) { return std::strchr("0123456789-.e", letter) && letter; };
    require(!word.empty() && std::all_of(word.begin(), word.end(), is_part));
    char *end = nullptr;
    const double number = std::strtod(word.c_str(), &end);
    require(*end == 0);
    if (format == HV_I32) return bits_of<uint32_t>(std::strtof(word.c_str(), &end));
    return format == HV_I16 ? half_bits(number) : bits_of<uint64_t>(number);
}

// The bits that hexadecimal digits write.
inline uint64_t bits_of_pattern(int format, const std::string &digits) {
    uint64_t bits = 0;
    require(!digits.empty());
    for (const char digit : digits) {
        require(bits >> 60 == 0);
        bits = bits << 4 | digit_of(digit);
    }
    require((bits >> (layout_of(format).width - 1)) <= 1);
    return bits;
}

inline uint64_t read_float(int format, const std::string &word) {
    const FloatLayout layout = layout_of(format);
    if (word == "nan") return layout.infinity() | uint64_t{1} << (layout.places - 1);
    if (word == "inf") return layout.infinity();
    if (word == "-inf") return layout.sign() | layout.infinity();
    return starts_with(word, "0x") ? bits_of_pattern(format, word.substr(2)) : bits_of_decimal(format, word);
}

// The digits of a number, the point after `before` of them, with at most `most` digits before it and `zeros` zeros
// right after it, else with an exponent.
inline std::string placed(const std::string &digits, int before, int most, int zeros) {
    const int count = static_cast<int>(digits.size());
    const auto zeros_of = [](int number) { return std::string(static_cast<size_t>(number), '0'); };
    if (before > 0 && before <= most)
        return before >= count ? digits + zeros_of(before - count) + ".0"
                               : digits.substr(0, static_cast<size_t>(before)) + "." +
                                     digits.substr(static_cast<size_t>(before));
    if (before <= 0 && -before <= zeros) return "0." + zeros_of(-before) + digits;
    return digits.substr(0, 1) + (count > 1 ? "." + digits.substr(1) : "") + "e" + std::to_string(before - 1);
}

// The shortest decimal that reads back as the number.
template <class Float> std::string shortest(Float number, int most, int zeros) {
    const std::string sign = std::signbit(number) ? "-" : "";
    if (std::isinf(number)) return sign + "inf";
    if (number == 0) return sign + "0.0";
    std::array<char, 64> text{};
    const auto end =
        std::to_chars(text.data(), text.data() + text.size(), std::fabs(number), std::chars_format::scientific);
    std::string digits(text.data(), end.ptr);
    const size_t mark = digits.find('e');
    const int exponent = std::stoi(digits.substr(mark + 1));
    digits.resize(mark);
    digits.erase(std::remove(digits.begin(), digits.end(), '.'), digits.end());
    return sign + placed(digits, exponent + 1, most, zeros);
}

// A NaN by its bits, any other float by its shortest decimal, which of 16 bits is that of the same number in 32.
inline std::string float_word(int format, uint64_t bits) {
    const FloatLayout layout = layout_of(format);
    if ((bits & (layout.sign() - 1)) > layout.infinity()) {
        std::array<char, 17> digits{};
        const auto end = std::to_chars(digits.data(), digits.data() + digits.size(), bits, 16);
        return "0x" + std::string(digits.data(), end.ptr);
    }
    if (format == HV_I64) return shortest(float_of<double>(bits), 16, 4);
    return shortest(format == HV_I16 ? half_number(bits) : float_of<float>(static_cast<uint32_t>(bits)), 13, 5);
}

} // namespace vectors
#endif
