// The words of a line: names, numbers, bytes and quoted texts, and the same written as answers.
#ifndef VECTORS_WORDS_HPP
#define VECTORS_WORDS_HPP
#include <algorithm>
#include <array>
#include <cstddef>
#include <cstdint>
#include <optional>
#include <string>
#include <vector>

namespace vectors {

__extension__ typedef __int128 Wide; // every integer of a line, and every decimal without its scale
__extension__ typedef unsigned __int128 UnsignedWide;
using Words = std::vector<std::string>;

// The line cannot be read, names a column that there is not, or asks something of a column of another form.
struct BadLine {};

inline void require(bool holds) {
    if (!holds) throw BadLine{};
}

inline Words split(const std::string &text, char between) {
    Words words;
    size_t start = 0;
    for (size_t stop = text.find(between); stop != std::string::npos; stop = text.find(between, start)) {
        words.push_back(text.substr(start, stop - start));
        start = stop + 1;
    }
    words.push_back(text.substr(start));
    return words;
}

// The words with a space between them, `-` where there are none.
inline std::string joined(const Words &words) {
    std::string text;
    for (const std::string &word : words) text += (text.empty() ? "" : " ") + word;
    return words.empty() ? "-" : text;
}

inline Words words_from(const Words &words, size_t first) {
    require(first <= words.size());
    return {words.begin() + static_cast<std::ptrdiff_t>(first), words.end()};
}

// The words before the first of these, and those after it.
inline std::array<Words, 2> parted_at(const Words &words, const std::string &mark) {
    const auto at = std::find(words.begin(), words.end(), mark);
    require(at != words.end());
    return {Words(words.begin(), at), Words(at + 1, words.end())};
}

// Parts of words, with `;` between them, each of at least a word.
inline std::vector<Words> parts_of(const Words &words) {
    std::vector<Words> parts(1);
    for (const std::string &word : words) {
        if (word == ";") parts.emplace_back();
        else parts.back().push_back(word);
    }
    for (const Words &part : parts) require(!part.empty());
    return parts;
}

inline bool starts_with(const std::string &word, const std::string &start) {
    return word.compare(0, start.size(), start) == 0;
}

// What is between these at the ends of the word, if it has them.
inline std::optional<std::string> between(const std::string &word, const std::string &before, char after) {
    if (word.size() <= before.size() || !starts_with(word, before) || word.back() != after) return std::nullopt;
    return word.substr(before.size(), word.size() - before.size() - 1);
}

inline bool is_name(const std::string &word) {
    static const char *const taken[] = {"read",    "kernels", "thresholds", "refuse",
                                        "nonnull", "valid",   "invalid",    "column"};
    const auto is_lower = [](char letter) { return letter >= 'a' && letter <= 'z'; };
    const auto is_part = [&](char letter) {
        return is_lower(letter) || (letter >= '0' && letter <= '9') || letter == '_';
    };
    return !word.empty() && is_lower(word[0]) && std::all_of(word.begin(), word.end(), is_part) &&
           std::none_of(std::begin(taken), std::end(taken), [&](const char *other) { return word == other; });
}

// ---- Numbers ----

inline std::optional<Wide> integer_of(const std::string &word) {
    const bool is_negative = !word.empty() && word[0] == '-';
    const UnsignedWide most = (static_cast<UnsignedWide>(1) << 127) - 1 + is_negative;
    if (word.size() == is_negative) return std::nullopt;
    UnsignedWide size = 0;
    for (size_t at = is_negative; at < word.size(); at++) {
        if (word[at] < '0' || word[at] > '9') return std::nullopt;
        const UnsignedWide digit = static_cast<UnsignedWide>(word[at] - '0');
        if (size > (most - digit) / 10) return std::nullopt;
        size = size * 10 + digit;
    }
    return static_cast<Wide>(is_negative ? -size : size);
}

inline std::optional<uint64_t> count_of(const std::string &word) {
    const std::optional<Wide> number = integer_of(word);
    if (!number || word[0] == '-' || *number > static_cast<Wide>(UINT64_MAX)) return std::nullopt;
    return static_cast<uint64_t>(*number);
}

inline Wide read_integer(const std::string &word) {
    const std::optional<Wide> number = integer_of(word);
    require(number.has_value());
    return *number;
}

inline uint64_t read_count(const std::string &word) {
    const std::optional<uint64_t> number = count_of(word);
    require(number.has_value());
    return *number;
}

inline std::string word_of(Wide number) {
    std::string digits;
    UnsignedWide size = number < 0 ? -static_cast<UnsignedWide>(number) : static_cast<UnsignedWide>(number);
    do {
        digits += static_cast<char>('0' + static_cast<int>(size % 10));
        size /= 10;
    } while (size != 0);
    if (number < 0) digits += '-';
    std::reverse(digits.begin(), digits.end());
    return digits;
}

// ---- Bytes and texts ----

// The number of a hexadecimal digit of either case.
inline unsigned digit_of(char letter) {
    static const std::string lower = "0123456789abcdef", upper = "0123456789ABCDEF";
    const size_t at = std::min(lower.find(letter), upper.find(letter));
    require(at != std::string::npos);
    return static_cast<unsigned>(at);
}

inline std::string bytes_of_digits(const std::string &digits) {
    require(digits.size() % 2 == 0);
    std::string bytes;
    for (size_t at = 0; at < digits.size(); at += 2)
        bytes += static_cast<char>(digit_of(digits[at]) * 16 + digit_of(digits[at + 1]));
    return bytes;
}

// The bytes of words of two digits each; `-` is the word of no bytes.
inline std::string read_bytes(const Words &words) {
    require(!words.empty());
    if (words.size() == 1 && words[0] == "-") return "";
    std::string bytes;
    for (const std::string &word : words) {
        require(word.size() == 2);
        bytes += bytes_of_digits(word);
    }
    return bytes;
}

inline std::string digits_of(char byte) {
    static const char digits[] = "0123456789ABCDEF";
    const unsigned number = static_cast<unsigned char>(byte);
    return {digits[number >> 4], digits[number & 15]};
}

inline std::string byte_words(const std::string &bytes) {
    Words words;
    for (const char byte : bytes) words.push_back(digits_of(byte));
    return joined(words);
}

// The word of a value of bytes.
inline std::string word_of_bytes(const std::string &bytes) {
    std::string word = "x";
    for (const char byte : bytes) word += digits_of(byte);
    return word;
}

// Each letter that a word cannot have, and the letter after a backslash that stands for it.
inline constexpr std::array<std::array<char, 2>, 4> escapes{{{' ', 's'}, {'\n', 'n'}, {'"', '"'}, {'\\', '\\'}}};

inline std::string word_of_text(const std::string &text) {
    std::string word = "\"";
    for (const char letter : text) {
        const auto found = std::find_if(escapes.begin(), escapes.end(), [&](auto pair) { return pair[0] == letter; });
        word += found == escapes.end() ? std::string(1, letter) : std::string{'\\', (*found)[1]};
    }
    return word + "\"";
}

// The text that is between quotes.
inline std::string text_of_quoted(const std::string &quoted) {
    std::string text;
    for (size_t at = 0; at < quoted.size(); at++) {
        require(quoted[at] != '"');
        if (quoted[at] != '\\') {
            text += quoted[at];
            continue;
        }
        require(++at < quoted.size());
        const auto found =
            std::find_if(escapes.begin(), escapes.end(), [&](auto pair) { return pair[1] == quoted[at]; });
        require(found != escapes.end());
        text += (*found)[0];
    }
    return text;
}

} // namespace vectors
#endif
