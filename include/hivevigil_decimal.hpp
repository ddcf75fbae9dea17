// Decimals with their scale, as C++ values. Part of hivevigil.hpp, which includes it.
#ifndef HIVEVIGIL_DECIMAL_HPP
#define HIVEVIGIL_DECIMAL_HPP
#include <algorithm>
#include <cstdint>
#include <string>

namespace hv {

namespace detail {

__extension__ typedef __int128 Wide; // every integer of a column, and every decimal without its scale
inline constexpr Wide wide_greatest = (Wide(INT64_MAX) << 64) + UINT64_MAX;
inline constexpr Wide wide_least = -wide_greatest - 1;

// A number at a scale: `floor` is the greatest integer that is not above it, and `rest` says that it is not that
// integer. `past` is 1 or -1, and not 0, where that integer has more than 128 bits.
struct AtScale {
    Wide floor;
    bool rest;
    int past;
};

constexpr AtScale at_scale(Wide number, int from, int to) {
    bool rest = false;
    for (; from < to && number != 0; from++) {
        if (number > wide_greatest / 10 || number < wide_least / 10) return {0, false, number < 0 ? -1 : 1};
        number *= 10;
    }
    for (; from > to && number != 0; from--) {
        const Wide digit = number % 10;
        rest = rest || digit != 0;
        number = number / 10 - (digit < 0);
    }
    return {number, rest, 0};
}

} // namespace detail

// A number: high * 2^64 + low, the last `scale` digits of which are after the point. {1050, 0, 2} is 10.50, and equal
// to {105, 0, 1}; numbers of two scales are in the order of their values.
struct Decimal {
    uint64_t low = 0;
    int64_t high = 0;
    int8_t scale = 0;

    constexpr Decimal() = default;
    constexpr Decimal(uint64_t low_bits, int64_t high_bits, int8_t digits_after_point)
        : low(low_bits), high(high_bits), scale(digits_after_point) {}
    // Decimal::of(-1050, 2) is -10.50.
    static constexpr Decimal of(int64_t number, int8_t scale) {
        return {static_cast<uint64_t>(number), number < 0 ? -1 : 0, scale};
    }
    // The number without its point.
    constexpr detail::Wide digits() const { return detail::Wide(high) * (detail::Wide(UINT64_MAX) + 1) + low; }
    friend constexpr bool operator==(Decimal left, Decimal right) {
        const detail::AtScale same = detail::at_scale(left.digits(), left.scale, right.scale);
        return !same.past && !same.rest && same.floor == right.digits();
    }
    friend constexpr bool operator!=(Decimal left, Decimal right) { return !(left == right); }
    friend constexpr bool operator<(Decimal left, Decimal right) {
        const detail::AtScale same = detail::at_scale(left.digits(), left.scale, right.scale);
        return same.past ? same.past < 0 : same.floor < right.digits();
    }
    friend constexpr bool operator>(Decimal left, Decimal right) { return right < left; }
    friend constexpr bool operator<=(Decimal left, Decimal right) { return !(right < left); }
    friend constexpr bool operator>=(Decimal left, Decimal right) { return !(left < right); }
};

// The number with `scale` digits after the point, in place of its own.
inline std::string to_string(Decimal number, int scale) {
    const bool negative = number.high < 0;
    uint64_t high = static_cast<uint64_t>(number.high), low = number.low;
    if (negative) low = ~low + 1, high = ~high + (low == 0);
    uint64_t parts[] = {high >> 32, high & UINT32_MAX, low >> 32, low & UINT32_MAX};
    std::string digits(scale < 0 && (high || low) ? static_cast<size_t>(-scale) : 0, '0'); // the last one first
    for (bool some = true; some;) {
        uint64_t rest = 0;
        some = false;
        for (uint64_t &part : parts) {
            const uint64_t all = rest << 32 | part;
            part = all / 10, rest = all % 10, some |= part != 0;
        }
        digits.push_back(static_cast<char>('0' + rest));
    }
    while (static_cast<int>(digits.size()) <= scale) digits.push_back('0');
    if (scale > 0) digits.insert(static_cast<size_t>(scale), ".");
    if (negative) digits.push_back('-');
    std::reverse(digits.begin(), digits.end());
    return digits;
}
// The number as it is written: "10.50", "-0.005"; of scale -2, "1200".
inline std::string to_string(Decimal number) { return to_string(number, number.scale); }

} // namespace hv
#endif
