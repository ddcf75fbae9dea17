// What hivevigil.hpp speaks of: refusals, rows, sums, runs, views, and what fits a type. Part of hivevigil.hpp, which
// includes it.
#ifndef HIVEVIGIL_VALUES_HPP
#define HIVEVIGIL_VALUES_HPP
#include "hivevigil_decimal.hpp"
#include "hivevigil_errors.h"
#include <cstddef>
#include <cstdint>
#include <cstdio>
#include <cstdlib>
#include <cstring>
#include <iterator>
#include <limits>
#include <optional>
#include <stdexcept>
#include <string>
#include <string_view>
#include <type_traits>
#include <utility>
#include <variant>
#include <vector>
#if __cplusplus >= 202002L && __has_include(<span>)
#include <span>
#endif

namespace hv {

// What a call refused: its number, as HV_OUT_OF_BOUNDS, its fields in the order of hivevigil.h, and a sentence.
class Error : public std::runtime_error {
public:
    Error(int32_t answer, hv_error of_answer) : Error(answer, of_answer, text_of(answer, of_answer)) {}
    Error(int32_t answer, hv_error of_answer, const std::string &sentence)
        : std::runtime_error(sentence), number(answer), fields(of_answer) {}
    const int32_t number;
    const hv_error fields;
    // "HV_OUT_OF_BOUNDS"
    virtual const char *name() const { return hv_error_name(number); }

private:
    static std::string text_of(int32_t answer, hv_error of_answer) {
        char text[HV_ERROR_TEXT];
        return hv_error_text(answer, &of_answer, text);
    }
};

using Null = std::monostate;
using Bytes = std::vector<uint8_t>;

// A row: null, an integer, a boolean, a decimal, a text, bytes, or a float of any width as the double that it is.
using Value = std::variant<Null, uint64_t, int64_t, bool, Decimal, std::string, Bytes, double>;

// What rows add to a sum: the total, and the least and the greatest sum on the way, one of which is the 0 before the
// first row. Each is high * 2^64 + low; for rows without sign the bits of `high` are those of a uint64_t.
struct SumParts {
    hv_pair total, least, greatest;
};

// A sum: a uint64_t of integers without sign, a Decimal of decimals, at the scale of their column, a double of floats,
// else an int64_t. `empty`: no row is valid, and the sum is 0.
struct Sum {
    std::variant<uint64_t, int64_t, Decimal, double> total;
    bool empty;
    // The number as T; none where T does not have it, or is of another sort.
    template <class T> std::optional<T> get() const {
        if (auto *item = std::get_if<T>(&total)) return *item;
        if constexpr (std::is_integral_v<T>) {
            if (auto *item = std::get_if<int64_t>(&total); item && *item >= 0) return static_cast<T>(*item);
            if (auto *item = std::get_if<uint64_t>(&total); item && *item <= INT64_MAX) return static_cast<T>(*item);
        }
        return std::nullopt;
    }
};

// Types by name, without null: hv::kinds::i64, and hv::nullable(hv::kinds::i64).
namespace kinds {
inline constexpr hv_kind u8{HV_U8, 0, 0, 0}, u16{HV_U16, 0, 0, 0}, u32{HV_U32, 0, 0, 0}, u64{HV_U64, 0, 0, 0};
inline constexpr hv_kind i8{HV_I8, 0, 0, 0}, i16{HV_I16, 0, 0, 0}, i32{HV_I32, 0, 0, 0}, i64{HV_I64, 0, 0, 0};
inline constexpr hv_kind boolean{HV_BOOL, 0, 0, 0}, utf8{HV_UTF8, 0, 0, 0}, binary{HV_BINARY, 0, 0, 0};
constexpr hv_kind decimal(uint8_t precision, int8_t scale) { return {HV_DECIMAL, 0, precision, scale}; }
} // namespace kinds
constexpr hv_kind nullable(hv_kind kind) { return {kind.number, 1, kind.precision, kind.scale}; }

enum class Form : uint8_t {
    flat = HV_FORM_FLAT,
    constant = HV_FORM_CONSTANT,
    lists = HV_FORM_LISTS,
    runs = HV_FORM_RUNS,
    none = HV_FORM_NONE
};
enum class Operator : uint8_t {
    equal = HV_EQ,
    not_equal = HV_NE,
    greater = HV_GT,
    greater_or_equal = HV_GE,
    less = HV_LT,
    less_or_equal = HV_LE
};

// What the two rows at a place give, as hivevigil.h has it; `both` and `either` are those of booleans, the last three
// pick one of the two: the first that is not null, the lesser, the greater.
enum class Pairing : uint8_t {
    add = HV_ADD,
    subtract = HV_SUBTRACT,
    multiply = HV_MULTIPLY,
    both = HV_AND,
    either = HV_OR,
    coalesce = HV_COALESCE,
    lesser = HV_LESSER,
    greater = HV_GREATER
};

// What is answered of the values in a group, as hivevigil.h has it.
enum class Fold : uint8_t {
    sum = HV_FOLD_SUM,
    rows = HV_FOLD_ROWS,
    count = HV_FOLD_COUNT,
    least = HV_FOLD_LEAST,
    greatest = HV_FOLD_GREATEST,
    first = HV_FOLD_FIRST,
    last = HV_FOLD_LAST
};

// Rows start to stop - 1 of a column, which are stored once.
struct Run {
    size_t start, stop;
    Value value;
    size_t size() const { return stop - start; }
};

// Items that lie one after the other, lent and not owned, as C++20's std::span has them.
template <class T> class View {
public:
    constexpr View() = default;
    constexpr View(const T *first, size_t size) : items(first), count(size) {}
    // From a vector, an array or a span.
    template <class Items, class = std::enable_if_t<std::is_convertible_v<
                               decltype(std::data(std::declval<const Items &>())), const T *>>>
    constexpr View(const Items &all) : items(std::data(all)), count(std::size(all)) {}
    constexpr const T *data() const { return items; }
    constexpr size_t size() const { return count; }
    constexpr bool empty() const { return count == 0; }
    constexpr const T *begin() const { return items; }
    constexpr const T *end() const { return items + count; }
    constexpr const T &operator[](size_t index) const { return items[index]; }

private:
    const T *items = nullptr;
    size_t count = 0;
};

// "i64", "decimal(10, 2)", and "?" after it where rows may be null
inline std::string to_string(hv_kind kind) {
    static constexpr const char *names[] = {"u8",  "u16",  "u32",     "u64",  "i8",     "i16", "i32",
                                            "i64", "bool", "decimal", "utf8", "binary", "list"};
    std::string text = kind.number <= HV_LIST ? names[kind.number] : "none";
    if (kind.number == HV_DECIMAL)
        text += "(" + std::to_string(kind.precision) + ", " + std::to_string(kind.scale) + ")";
    return text + (kind.nullable ? "?" : "");
}

namespace detail {

// A float in the fewest digits that no other has.
template <class T> std::string words_of_float(T number) {
    uint64_t bits = 0;
    std::memcpy(&bits, &number, sizeof number);
    const int above_payload = sizeof number == sizeof bits ? 13 : 42; // the sign, the power and whether it is quiet
    if (number != number) return bits << above_payload ? "a NaN with a payload" : "NaN";
    char text[32];
    for (int digits = std::numeric_limits<T>::digits10; digits <= std::numeric_limits<T>::max_digits10; digits++) {
        std::snprintf(text, sizeof text, "%.*g", digits, static_cast<double>(number));
        if (static_cast<T>(std::strtod(text, nullptr)) == number) break;
    }
    return text;
}

} // namespace detail

// A row to look at: "null", numbers, "true", a text as it is, bytes in hexadecimal.
inline std::string to_string(const Value &value) {
    if (auto *item = std::get_if<uint64_t>(&value)) return std::to_string(*item);
    if (auto *item = std::get_if<int64_t>(&value)) return std::to_string(*item);
    if (auto *item = std::get_if<bool>(&value)) return *item ? "true" : "false";
    if (auto *item = std::get_if<Decimal>(&value)) return to_string(*item);
    if (auto *item = std::get_if<double>(&value)) return detail::words_of_float(*item);
    if (auto *item = std::get_if<std::string>(&value)) return *item;
    std::string text = std::holds_alternative<Null>(value) ? "null" : "";
    if (auto *item = std::get_if<Bytes>(&value))
        for (uint8_t byte : *item) text += "0123456789abcdef"[byte >> 4], text += "0123456789abcdef"[byte & 15];
    return text;
}

// The session with every kernel and the thresholds of the library.
inline const hv_session &initial_session() {
    static const hv_session session = [] {
        hv_session made{};
        hv_session_initial(&made);
        return made;
    }();
    return session;
}

namespace detail {

template <class T>
inline constexpr bool is_number = std::is_integral_v<T> && !std::is_same_v<T, bool> && sizeof(T) <= sizeof(int64_t);

// The calls that serve integers of a width and sign, and the type of their columns.
template <size_t width, bool with_sign> struct NativeOf;
#define HV_NATIVE(type, suffix, named) \
    template <> struct NativeOf<sizeof(type), std::is_signed_v<type>> { \
        using Item = type; \
        static constexpr hv_kind kind{named, 0, 0, 0}; \
        static constexpr auto make = hv_call_##suffix; \
        static constexpr auto read = hv_call_read_##suffix; \
    };
HV_NATIVE(uint8_t, u8, HV_U8)
HV_NATIVE(uint16_t, u16, HV_U16)
HV_NATIVE(uint32_t, u32, HV_U32)
HV_NATIVE(uint64_t, u64, HV_U64)
HV_NATIVE(int8_t, i8, HV_I8)
HV_NATIVE(int16_t, i16, HV_I16)
HV_NATIVE(int32_t, i32, HV_I32)
HV_NATIVE(int64_t, i64, HV_I64)
#undef HV_NATIVE

// Those of any integer of C++: long long and char are passed as the type of their width and sign.
template <class T> struct Native {
    static_assert(is_number<T>, "columns hold integers of 8 to 64 bits");
    using Calls = NativeOf<sizeof(T), std::is_signed_v<T>>;
    using Item = typename Calls::Item;
    static constexpr hv_kind kind = Calls::kind;
    static int32_t make(const T *items, size_t count, hv_validity validity, hv_column *out, hv_error *error) {
        return Calls::make(reinterpret_cast<const Item *>(items), count, validity, out, error);
    }
    static int32_t read(const hv_column *column, size_t start, T *items, size_t count, hv_error *error) {
        return Calls::read(column, start, reinterpret_cast<Item *>(items), count, error);
    }
};

// The flags as bits, 8 to a byte.
inline Bytes bits_of(const std::vector<bool> &flags) {
    Bytes bits((flags.size() + 7) / 8);
    for (size_t row = 0; row < flags.size(); row++)
        bits[row / 8] = static_cast<uint8_t>(bits[row / 8] | (flags[row] << (row % 8)));
    return bits;
}

inline std::vector<bool> flags_of(const std::vector<uint64_t> &words, size_t rows) {
    std::vector<bool> flags(rows);
    for (size_t row = 0; row < rows; row++) flags[row] = words[row / 64] >> (row % 64) & 1;
    return flags;
}

// A value as C passes it, with the bytes of a text next to it.
class Passed {
public:
    explicit Passed(const Value &row) {
        std::visit([this](const auto &item) { set(item); }, row);
    }
    hv_value value{};
    const uint8_t *text = nullptr;
    size_t size = 0;

private:
    void set(Null) { value.kind = HV_NULL; }
    void set(uint64_t item) { value.kind = HV_UNSIGNED, value.as_unsigned = item; }
    void set(int64_t item) { value.kind = HV_SIGNED, value.as_signed = item; }
    void set(bool item) { value.kind = HV_TRUTH, value.truth = item; }
    void set(Decimal item) { value.kind = HV_DECIMAL_VALUE, value.as_unsigned = item.low, value.as_signed = item.high; }
    void set(double item) { value.kind = HV_DOUBLE, std::memcpy(&value.as_unsigned, &item, sizeof item); }
    void set(const std::string &item) { point(HV_TEXT, reinterpret_cast<const uint8_t *>(item.data()), item.size()); }
    void set(const Bytes &item) { point(HV_BYTES, item.data(), item.size()); }
    void point(uint8_t kind, const uint8_t *bytes, size_t length) {
        value.kind = kind, value.as_unsigned = length, text = bytes, size = length;
    }
};

// A value that rows are compared with: a decimal as the number that it is, and an integer with a sign where it can be.
inline Passed compared_with(const Value &value) {
    Passed passed(value);
    if (auto *number = std::get_if<Decimal>(&value)) passed.value.kind = HV_SCALED, passed.value.scale = number->scale;
    if (auto *number = std::get_if<uint64_t>(&value); number && *number <= INT64_MAX)
        passed.value.kind = HV_SIGNED, passed.value.as_signed = static_cast<int64_t>(*number);
    return passed;
}

inline double double_of(uint64_t bits) {
    double number;
    std::memcpy(&number, &bits, sizeof number);
    return number;
}

// What a call answered of a column of this type, with the buffer that it was given for a text.
inline Value value_of(const hv_value &value, const Bytes &text, hv_kind kind) {
    const bool has_text = value.kind == HV_TEXT || value.kind == HV_BYTES;
    auto end = text.begin() + static_cast<std::ptrdiff_t>(has_text ? value.as_unsigned : 0);
    switch (value.kind) {
    case HV_UNSIGNED: return value.as_unsigned;
    case HV_SIGNED: return value.as_signed;
    case HV_TRUTH: return value.truth != 0;
    case HV_DECIMAL_VALUE: return Decimal{value.as_unsigned, value.as_signed, kind.scale};
    case HV_TEXT: return std::string(text.begin(), end);
    case HV_BYTES: return Bytes(text.begin(), end);
    case HV_DOUBLE: return double_of(value.as_unsigned);
    default: return Null{};
    }
}

// Throws what a call refused.
template <class Call> void ask(Call call) {
    hv_error fields{};
    if (int32_t answer = call(&fields)) throw Error(answer, fields);
}
// The same, in the sentence that `words` has for the number; an empty one leaves that of hivevigil_errors.h.
template <class Call, class Words> void ask(Call call, Words words) {
    hv_error fields{};
    const int32_t answer = call(&fields);
    if (!answer) return;
    const std::string sentence = words(answer);
    if (sentence.empty()) throw Error(answer, fields);
    throw Error(answer, fields, sentence);
}

// The item type of a vector, an array or a span.
template <class Items>
using Item = std::remove_cv_t<std::remove_pointer_t<decltype(std::data(std::declval<const Items &>()))>>;
template <class T> inline constexpr bool is_text = std::is_convertible_v<const T &, std::string_view>;
// Do the items lie one after the other, as those of a vector, and not of a std::deque?
template <class Items, class = void> inline constexpr bool has_data = false;
template <class Items>
inline constexpr bool has_data<Items, std::void_t<decltype(std::data(std::declval<const Items &>()))>> = true;

#ifdef __cpp_lib_span
template <class T> inline constexpr bool is_span = false;
template <class T, size_t count> inline constexpr bool is_span<std::span<T, count>> = true;

// Spans by what they hold.
template <class Span>
concept OfNumbers = is_span<Span> && is_number<typename Span::element_type>;
template <class Span>
concept OfFlags = is_span<Span> && std::is_same_v<typename Span::value_type, bool>;
template <class Span>
concept OfBytes = is_span<Span> && (std::is_same_v<typename Span::value_type, uint8_t> ||
                                    std::is_same_v<typename Span::value_type, char> ||
                                    std::is_same_v<typename Span::value_type, std::byte>);

template <OfBytes Span> const uint8_t *bytes_of(Span bytes) { return reinterpret_cast<const uint8_t *>(bytes.data()); }
#endif

// A row as it is in a container, and its type where it is not null.
template <class Items> using Row = std::decay_t<decltype(*std::begin(std::declval<const Items &>()))>;
template <class T> struct Inner {
    using type = T;
    static const T *of(const T &row) { return &row; }
};
template <class T> struct Inner<std::optional<T>> {
    using type = T;
    static const T *of(const std::optional<T> &row) { return row ? &*row : nullptr; }
};
template <class T> using InnerOf = typename Inner<T>::type;
template <class T> inline constexpr bool is_optional = !std::is_same_v<T, InnerOf<T>>;
template <class T>
inline constexpr bool is_row = is_number<InnerOf<T>> || is_text<InnerOf<T>> || std::is_same_v<InnerOf<T>, bool>;

// An integer or a text of C++ as a value, bytes next to a column of bytes; any other value as it is.
template <class T> Value written(const T &item, hv_kind kind) {
    if constexpr (is_text<T>) {
        const std::string_view text = item;
        return kind.number == HV_BINARY ? Value(Bytes(text.begin(), text.end())) : Value(std::string(text));
    } else if constexpr (!is_number<T>) {
        return item;
    } else if constexpr (std::is_signed_v<T>) {
        return static_cast<int64_t>(item);
    } else {
        return static_cast<uint64_t>(item);
    }
}

// Walks positions of a Source, each answered by source.item(position). It refers to the source, which has to live on.
template <class Source> class Walk {
public:
    using iterator_category = std::input_iterator_tag;
    using value_type = decltype(std::declval<const Source &>().item(0));
    using difference_type = std::ptrdiff_t;
    using pointer = const value_type *;
    using reference = value_type;

    Walk() = default; // which walks nothing, and is assigned to, as std::ranges asks for
    Walk(const Source *walked, size_t first) : source(walked), position(first) {}
    value_type operator*() const { return source->item(position); }
    Walk &operator++() {
        position++;
        return *this;
    }
    Walk operator++(int) { return Walk(source, position++); }
    friend bool operator==(const Walk &left, const Walk &right) { return left.position == right.position; }
    friend bool operator!=(const Walk &left, const Walk &right) { return !(left == right); }

private:
    const Source *source = nullptr;
    size_t position = 0;
};

} // namespace detail

} // namespace hv
#endif
