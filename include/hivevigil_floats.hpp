// Columns of floats, over hivevigil.hpp: each float is stored by its key, the place of its bits in the total order of
// IEEE 754, in a column of i32 under the format "f" (float) or of i64 under "g" (double). Slices, takes, filters and
// bytes of the keys are those of the floats.
//
//     const auto prices = hv::Floats<double>::of({1.5, 1.5, std::nan("")});
//     prices.sum(), prices.at(0), prices.compare(hv::Operator::greater, 1.0), prices * 1.19 + prices;
#ifndef HIVEVIGIL_FLOATS_HPP
#define HIVEVIGIL_FLOATS_HPP
#include "hivevigil.hpp"
#include <cmath>

namespace hv {

// Which floats an extreme or a comparison looks at: numbers by IEEE 754, or all by their place in the total order, in
// which only equal bits are equal, -0.0 is below 0.0, and NaNs lie outside of all numbers, by their signs.
enum class FloatOrder : uint8_t { total = 0, ieee = 1 };

// What two floats give, as IEEE 754 says.
enum class FloatPairing : uint8_t {
    add = HV_ADD,
    subtract = HV_SUBTRACT,
    multiply = HV_MULTIPLY,
    divide = HV_DIVIDE
};

// The exact sum of rows, rounded once, and how many they are.
struct FloatSum {
    double total;
    uint64_t rows;
};

namespace detail {

inline uint64_t sign_bit(int width) { return uint64_t{1} << (width - 1); }

// The place of a float in the total order of IEEE 754, counted from 0.0, and the float in a place.
inline int64_t key_of_bits(uint64_t bits, int width) {
    const uint64_t sign = sign_bit(width);
    return bits < sign ? static_cast<int64_t>(bits) : -static_cast<int64_t>(bits - sign) - 1;
}

inline uint64_t bits_of_key(int64_t key, int width) {
    return key >= 0 ? static_cast<uint64_t>(key) : static_cast<uint64_t>(-(key + 1)) + sign_bit(width);
}

// A float of a column as the double that the library answers; a NaN keeps its sign and its payload.
template <class T> T narrowed(double number) {
    if (sizeof(T) == sizeof number || !std::isnan(number)) return static_cast<T>(number);
    uint64_t bits = 0;
    std::memcpy(&bits, &number, sizeof bits);
    const uint32_t narrow = static_cast<uint32_t>(bits >> 63 << 31 | (bits >> 29 & 0x7FFFFFFF));
    T nan{};
    std::memcpy(&nan, &narrow, sizeof narrow);
    return nan;
}

// The first row with which a conversion is refused: those before it are converted.
template <class Convert> size_t first_refused(const Column &column, Convert convert) {
    size_t fits = 0, refused = column.size();
    hv_error ignored{};
    while (fits + 1 < refused) {
        const size_t middle = fits + (refused - fits) / 2;
        const Column some = column.slice(fits, middle);
        Column made;
        (convert(some.raw(), made.raw(), &ignored) ? refused : fits) = middle;
    }
    return fits;
}

// The column of another type. The sentence of a refusal names the first row that the type does not have.
template <class Convert, class Shown>
Column converted(const Column &column, const std::string &type, Convert convert, Shown shown) {
    Column made;
    hv_error fields{};
    const int32_t answer = convert(column.raw(), made.raw(), &fields);
    if (!answer) return made;
    if (answer != HV_CAST_OUT_OF_RANGE) throw Error(answer, fields);
    const size_t row = first_refused(column, convert);
    throw Error(answer, fields, "row " + std::to_string(row) + " is " + shown(row) + ", which does not fit " + type);
}

} // namespace detail

template <class T> class Floats {
    static_assert(std::is_same_v<T, float> || std::is_same_v<T, double>, "floats are of 32 or of 64 bits");
    using Bits = std::conditional_t<sizeof(T) == 4, uint32_t, uint64_t>;
    using Key = std::conditional_t<sizeof(T) == 4, int32_t, int64_t>;

public:
    // ---- Made of rows, in as few runs as possible, bit by bit ----

    static Floats of(View<T> rows) { return of_bits(bits_of(rows), nullptr); }
    static Floats of(std::initializer_list<T> rows) { return of(View<T>(rows.begin(), rows.size())); }
    // null where the flag is false
    static Floats of(View<T> rows, const std::vector<bool> &valid) { return of_bits(bits_of(rows), &valid); }
    // null where there is none
    static Floats of(const std::vector<std::optional<T>> &rows) {
        std::vector<T> items;
        std::vector<bool> valid;
        for (const auto &row : rows) items.push_back(row.value_or(T{})), valid.push_back(row.has_value());
        return of(View<T>(items.data(), items.size()), valid);
    }
    // One float in each of these rows.
    static Floats constant(T number, size_t rows) {
        return Floats(Column::constant(detail::not_nullable(detail::Native<Key>::kind), key_of(number), rows));
    }
    // The floats that have these keys, whatever their logical type is. Refused as HV_TYPE_MISMATCH unless the column has
    // integers of T's width.
    explicit Floats(const Column &keys) : stored(checked(keys)) {}

    // ---- Read ----

    // The keys under the format of the floats, whose commands are those of the floats.
    const Column &keys() const { return stored; }
    size_t size() const { return stored.size(); }
    // Row `row`, none where it is null; refused as HV_OUT_OF_BOUNDS past the end.
    std::optional<T> at(size_t row) const { return float_in(stored.at(row)); }
    // All rows, none where a row is null.
    std::vector<std::optional<T>> optionals() const {
        std::vector<std::optional<T>> rows;
        for (const auto &bits : decoded().template optionals<Bits>())
            rows.push_back(bits ? std::optional<T>(float_of(*bits)) : std::nullopt);
        return rows;
    }

    // ---- Asked ----

    // Row by row whether `row by right`, null where the row is: as numbers, unless the total order is asked for, which
    // is that of the keys.
    Column compare(Operator by, T right, FloatOrder order = FloatOrder::ieee) const {
        if (order == FloatOrder::total) return stored.with_logical_type("").compare(by, key_of(right));
        return stored.compare(by, Value(double{right}));
    }
    // The same with any number, exactly, also with one that no float is: none is equal to 2^53 + 1.
    template <class N, class = std::enable_if_t<detail::is_number<N>>> Column compare(Operator by, N right) const {
        return stored.compare(by, right);
    }
    // The least and the greatest row that is not null, none where there is none: of numbers, unless the total order is
    // asked for.
    std::optional<std::pair<T, T>> least_and_greatest(FloatOrder order = FloatOrder::ieee) const {
        // the total order is that of the keys
        const Column asked = stored.with_logical_type(order == FloatOrder::total ? "" : format);
        const auto found = asked.least_and_greatest();
        if (std::holds_alternative<Null>(found.first)) return std::nullopt;
        return std::pair<T, T>(*float_in(found.first), *float_in(found.second));
    }
    // The exact sum of the rows that are not null, rounded once to a double: an infinity past the finite ones, NaN where
    // a row is or both infinities are.
    FloatSum sum() const { return {*stored.sum().template get<double>(), stored.size() - stored.null_count()}; }

    // ---- Worked place by place, at the cost of the runs of both ----

    // What the two floats at each place give, rounded once; an infinity past the finite ones, and divided by zero; null
    // where either row is null; of every NaN the one without sign and payload. In as few runs as possible, or a constant
    // of two. Refused as HV_COLUMN_LENGTH for another number of rows. So do + - * and /, also with one float.
    Floats combine(FloatPairing by, const Floats &right) const {
        if (&right == this) return Floats(stored.clone()).combine(by, right);
        return Floats(Column::made([&](auto *out, auto *error) {
            return hv_float_combine(&stored.handle, static_cast<uint8_t>(by), &right.stored.handle, out, error);
        }));
    }
    friend Floats operator+(const Floats &left, const Floats &right) { return left.combine(FloatPairing::add, right); }
    friend Floats operator-(const Floats &left, const Floats &right) {
        return left.combine(FloatPairing::subtract, right);
    }
    friend Floats operator*(const Floats &left, const Floats &right) {
        return left.combine(FloatPairing::multiply, right);
    }
    friend Floats operator/(const Floats &left, const Floats &right) { return left.combine(FloatPairing::divide, right); }
    friend Floats operator+(const Floats &left, T right) { return left + left.beside(right); }
    friend Floats operator-(const Floats &left, T right) { return left - left.beside(right); }
    friend Floats operator*(const Floats &left, T right) { return left * left.beside(right); }
    friend Floats operator/(const Floats &left, T right) { return left / left.beside(right); }
    friend Floats operator+(T left, const Floats &right) { return right.beside(left) + right; }
    friend Floats operator-(T left, const Floats &right) { return right.beside(left) - right; }
    friend Floats operator*(T left, const Floats &right) { return right.beside(left) * right; }
    friend Floats operator/(T left, const Floats &right) { return right.beside(left) / right; }

    // ---- Cast, in as few runs as possible ----

    // The same floats in another format; refused as HV_CAST_OUT_OF_RANGE where that does not have one, or the payload of
    // a NaN.
    template <class U> Floats<U> cast() const { return cast_by<U>(0); }
    // The nearest floats in another format, at a tie the even ones: an infinity past the finite ones by half a step or
    // more; the quiet NaN where the format does not have the payload of one.
    template <class U> Floats<U> rounded() const { return cast_by<U>(1); }
    // The floats that integers are, refused as HV_CAST_OUT_OF_RANGE where no float is one of them; or the nearest.
    static Floats of_integers(const Column &integers) { return of_numbers(integers, 0); }
    static Floats of_rounded_integers(const Column &integers) { return of_numbers(integers, 1); }
    // The integers that the floats are; refused as HV_CAST_OUT_OF_RANGE where one is not an integer of the type.
    Column to_integers(hv_kind kind) const {
        return detail::converted(
            stored, to_string(detail::not_nullable(kind)),
            [=](auto *keys, auto *out, auto *error) { return hv_float_to_integers(keys, kind.number, out, error); },
            [this](size_t row) { return in_words(row); });
    }

private:
    static constexpr const char *format = sizeof(T) == 4 ? "f" : "g";

    Column stored;

    static Column checked(const Column &keys) {
        const hv_kind kind = detail::not_nullable(keys.kind()), due = detail::Native<Key>::kind;
        if (kind.number == due.number) return keys.with_logical_type(format);
        throw Error(HV_TYPE_MISMATCH, {},
                    to_string(kind) + " rows are not keys of these floats, which are " + to_string(due));
    }
    // The float of a row: a double, or in the total order a key.
    static std::optional<T> float_in(const Value &row) {
        if (auto *key = std::get_if<int64_t>(&row)) return float_of(detail::bits_of_key(*key, 8 * int{sizeof(T)}));
        auto *number = std::get_if<double>(&row);
        return number ? std::optional<T>(detail::narrowed<T>(*number)) : std::nullopt;
    }
    // One float in each row of a column next to this one.
    Floats beside(T number) const { return constant(number, size()); }
    static Key key_of(T number) {
        return static_cast<Key>(detail::key_of_bits(bits_of(number), 8 * int{sizeof(T)}));
    }
    static Bits bits_of(T number) {
        Bits bits;
        std::memcpy(&bits, &number, sizeof bits);
        return bits;
    }
    static std::vector<Bits> bits_of(View<T> rows) {
        std::vector<Bits> bits;
        for (const T &row : rows) bits.push_back(bits_of(row));
        return bits;
    }
    static T float_of(uint64_t bits) {
        const Bits narrow = static_cast<Bits>(bits);
        T number;
        std::memcpy(&number, &narrow, sizeof narrow);
        return number;
    }
    static Floats of_bits(const std::vector<Bits> &bits, const std::vector<bool> *valid) {
        const Column flat = valid ? Column::of(bits, *valid) : Column::of(bits);
        return Floats(
            Column::made([&](auto *out, auto *error) { return hv_float_encode(&flat.handle, 0, out, error); }));
    }
    Column decoded() const {
        return Column::made([&](auto *out, auto *error) { return hv_float_decode(&stored.handle, out, error); });
    }
    template <class U> static constexpr uint8_t keys_of = sizeof(U) == 4 ? HV_I32 : HV_I64;
    template <class U> static constexpr const char *format_of = sizeof(U) == 4 ? "float32" : "float64";
    std::string in_words(size_t row) const { return detail::words_of_float(at(row).value_or(T{})); }
    template <class U> Floats<U> cast_by(uint8_t is_rounded) const {
        return Floats<U>(detail::converted(
            stored, format_of<U>,
            [=](auto *keys, auto *out, auto *error) {
                return hv_float_cast(keys, keys_of<U>, is_rounded, out, error);
            },
            [this](size_t row) { return in_words(row); }));
    }
    static Floats of_numbers(const Column &integers, uint8_t is_rounded) {
        return Floats(detail::converted(
            integers, format_of<T>,
            [=](auto *from, auto *out, auto *error) {
                return hv_float_of_integers(from, keys_of<T>, is_rounded, out, error);
            },
            [&](size_t row) { return to_string(integers.at(row)); }));
    }
};

} // namespace hv
#endif
