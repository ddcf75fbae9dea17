// The cases of tables (examples/corpus/table_cases.txt) for the programs that run them over the calls of C++ and of C:
// an answer that differs is shown, unless known_differences.txt lists it, and what is listed has to differ as it says.
#ifndef TABLE_CASES_HPP
#define TABLE_CASES_HPP
#include "hivevigil_table.hpp"
#include <cstdlib>
#include <filesystem>
#include <fstream>
#include <functional>
#include <iomanip>
#include <iostream>
#include <sstream>
#include <unistd.h>

namespace cases {

using Words = std::vector<std::string>;
inline const std::string letters = " \n\"\\" + std::string(1, '\0'), escapes = "sn\"\\0";
inline const std::string plain = "abcdefghijklmnopqrstuvwxyzABCDEFGHIJKLMNOPQRSTUVWXYZ_0123456789";

// ---- Words ----

inline Words split(const std::string &line, char at) {
    Words words;
    std::istringstream text(line);
    for (std::string word; std::getline(text, word, at);) words.push_back(word);
    return words;
}
inline bool begins(const std::string &text, const std::string &front) { return text.rfind(front, 0) == 0; }
inline std::string text_of(const std::string &word) {
    if (word[0] != '"') return word;
    std::string text;
    for (size_t at = 1; at + 1 < word.size(); at++)
        text += word[at] == '\\' ? letters[escapes.find(word[++at])] : word[at];
    return text;
}
inline std::string word_of(const std::string &text) {
    std::string word = "\"";
    for (char letter : text) {
        const size_t at = letters.find(letter);
        at == std::string::npos ? word += letter : (word += '\\') += escapes[at];
    }
    return word + "\"";
}
inline hv::Bytes bytes_of(const std::string &word) {
    hv::Bytes bytes;
    for (size_t at = 1; at < word.size(); at += 2)
        bytes.push_back(static_cast<uint8_t>(std::stoul(word.substr(at, 2), nullptr, 16)));
    return bytes;
}
inline std::string hex_of(const hv::Bytes &bytes) {
    std::string word = "x";
    for (uint8_t byte : bytes) (word += "0123456789ABCDEF"[byte >> 4]) += "0123456789ABCDEF"[byte & 15];
    return word;
}
inline hv::Decimal decimal_of(const std::string &word) {
    hv::detail::Wide digits = 0;
    const size_t point = word.find('.');
    for (char digit : word) digits = isdigit(digit) ? digits * 10 + (digit - '0') : digits;
    if (word[0] == '-') digits = -digits;
    const size_t scale = point == std::string::npos ? 0 : word.size() - point - 1;
    return {static_cast<uint64_t>(digits), static_cast<int64_t>(digits >> 64), static_cast<int8_t>(scale)};
}

// What rows are compared with; `+5` and `-5` are of a type with sign.
inline hv::Value literal_of(const std::string &word) {
    if (word == "null") return hv::Null();
    if (word == "true" || word == "false") return word == "true";
    if (word[0] == '"') return text_of(word);
    if (word[0] == 'x') return bytes_of(word);
    if (word.back() == 'd') return decimal_of(word.substr(0, word.size() - 1));
    if (word.find_first_of(".ni") != std::string::npos) return std::strtod(word.c_str(), nullptr);
    if (isdigit(word[0])) return uint64_t{std::stoull(word)};
    return int64_t{std::stoll(word)};
}
inline std::string shown(double number) {
    if (std::isnan(number)) return std::signbit(number) ? "-nan" : "nan";
    char text[32];
    for (int digits = 1; digits <= 17; digits++) {
        std::snprintf(text, sizeof text, "%.*g", digits, number);
        if (std::strtod(text, nullptr) == number) break;
    }
    return std::strpbrk(text, ".ei") ? text : std::string(text) + ".0";
}
inline std::string shown(const hv::Value &value) {
    if (auto *text = std::get_if<std::string>(&value)) return word_of(*text);
    if (auto *bytes = std::get_if<hv::Bytes>(&value)) return hex_of(*bytes);
    if (auto *number = std::get_if<double>(&value)) return shown(*number);
    return hv::to_string(value);
}

// ---- Columns and tables ----

struct Type {
    hv_kind kind;
    std::string format;
    bool is_list;
};

inline Type type_of(std::string word) {
    std::string format = word.find(':') == std::string::npos ? "" : word.substr(word.find(':') + 1);
    word = word.substr(0, word.find(':'));
    const bool is_nullable = word.back() == '?', is_list = begins(word, "list(");
    if (is_nullable) word.pop_back();
    if (is_list) word = word.substr(5, word.size() - 6);
    if (word == "f32" || word == "f64") format = word == "f32" ? "f" : "g", word = word == "f32" ? "i32" : "i64";
    static const char *const names[] = {"u8",  "u16", "u32",  "u64", "i8",   "i16",
                                        "i32", "i64", "bool", "",    "utf8", "binary"};
    uint8_t number = 0;
    while (number < 11 && names[number] != word) number++;
    hv_kind kind{number, is_nullable, 0, 0};
    if (begins(word, "decimal(")) {
        const Words digits = split(word.substr(8), ',');
        kind.precision = static_cast<uint8_t>(std::stoi(digits[0]));
        kind.scale = static_cast<int8_t>(std::stoi(digits[1]));
        kind.number = HV_DECIMAL;
    }
    return {kind, format, is_list};
}

// Floats, which columns have by their keys.
inline hv::Value key_of(const std::string &word, const std::string &format) {
    const double wide = std::strtod(word.c_str(), nullptr);
    const float narrow = std::strtof(word.c_str(), nullptr);
    uint64_t bits = 0;
    format == "g" ? std::memcpy(&bits, &wide, sizeof wide) : std::memcpy(&bits, &narrow, sizeof narrow);
    return hv::detail::key_of_bits(bits, format == "g" ? 64 : 32);
}

inline hv::Value value_of(const std::string &word, const Type &type) {
    const bool has_letters = word.find_first_of(".ni") != std::string::npos && word != "null";
    const bool is_float = type.kind.number <= HV_I64 && has_letters;
    if (is_float) return key_of(word, type.format);
    if (type.kind.number == HV_DECIMAL && word != "null") return decimal_of(word);
    return literal_of(word);
}

inline hv::Column lists_of(hv_kind kind, const Words &rows) {
    hv::Builder elements(hv_kind{kind.number, 0, kind.precision, kind.scale});
    std::vector<uint64_t> offsets, sizes;
    std::vector<bool> valid;
    for (const std::string &row : rows) {
        const Words items = row == "null" || row == "[]" ? Words() : split(row.substr(1, row.size() - 2), ',');
        valid.push_back(row != "null"), offsets.push_back(elements.size()), sizes.push_back(items.size());
        for (const std::string &item : items) elements.append(value_of(item, {kind, "", false}));
    }
    return hv::Column::lists(elements.finish().decode(), offsets, sizes, kind.nullable ? &valid : nullptr);
}

// The column of a type, a form and rows.
inline hv::NamedColumn column_of(const std::string &name, const Words &words) {
    const Type type = type_of(words[0]);
    const std::string form = words.size() > 1 ? words[1] : "";
    Words rows(words.begin() + (form == "runs" || form == "constant" ? 2 : 1), words.end());
    if (type.is_list) return {name, lists_of(type.kind, rows)};
    if (form == "constant")
        return {name, hv::Column::constant(type.kind, value_of(rows[0], type), std::stoull(rows[1])), type.format};
    hv::Builder builder(type.kind);
    for (const std::string &row : rows) builder.append(value_of(row, type));
    hv::Column runs = builder.finish();
    return {name, form == "runs" ? std::move(runs) : runs.decode(), type.format};
}

inline hv::Table table_of(const std::vector<Words> &lines) {
    std::vector<hv::NamedColumn> columns;
    for (size_t at = 1; at < lines.size(); at++)
        columns.push_back(column_of(text_of(lines[at][1]), {lines[at].begin() + 2, lines[at].end()}));
    if (lines[0].size() > 1) return hv::Table(std::move(columns), std::stoull(lines[0][1]));
    return hv::Table(std::move(columns));
}

inline std::string shown(const hv::Table &table) {
    std::string text = table.empty() ? "table " + std::to_string(table.rows()) : "table";
    for (const hv::NamedColumn &named : table) {
        const std::string format = named.logical_type();
        const hv_kind kind = named.column.kind();
        const bool is_float = (format == "f" && kind.number == HV_I32) || (format == "g" && kind.number == HV_I64);
        const std::string null = kind.nullable ? "?" : "";
        std::string type = is_float ? (format == "f" ? "f32" : "f64") + null : hv::to_string(kind);
        type.erase(std::remove(type.begin(), type.end(), ' '), type.end());
        if (!is_float && !format.empty()) type += ":" + format;
        const bool is_word = !named.name.empty() && named.name.find_first_not_of(plain) == std::string::npos;
        text += " ; column " + (is_word ? named.name : word_of(named.name)) + " " + type;
        for (size_t row = 0; kind.number != HV_LIST && row < table.rows(); row++) {
            text += " " + shown(named.column.at(row));
        }
    }
    return text;
}

// A file that has the table.
inline std::string in_file(const hv::Table &table) {
    static const std::string path =
        (std::filesystem::temp_directory_path() / ("table_cases_" + std::to_string(getpid()) + ".hv")).string();
    table.save(path);
    return path;
}

// A refusal with as many fields as are wanted of its number.
inline std::string refused(const hv::Error &error, const std::string &wanted) {
    std::string text = "refused " + std::to_string(error.number);
    const uint64_t fields[] = {error.fields.first, error.fields.second, error.fields.third};
    const Words words = split(wanted, ' ');
    for (size_t at = 0; begins(wanted + " ", text + " ") && at + 2 < words.size(); at++)
        text += " " + std::to_string(fields[at]);
    return text;
}

// ---- Cases ----

// What a call answers of tables and words.
using Tables = std::vector<hv::Table>;
using Answers = std::function<std::string(const std::string &call, const Tables &tables, const Words &words)>;

struct Case {
    std::string name, call, wanted;
    std::vector<std::vector<Words>> tables; // of which each line has words
    Words words;
};

// A line without the rows of a column of lists, which are not shown: whether they are the same `equals` says.
inline std::string without_lists(const std::string &line) {
    const Words words = split(line, ' ');
    if (words.size() < 3 || !begins(words[2], "list(")) return line;
    return words[0] + " " + words[1] + " list" + (words[2].back() == '?' ? "?" : "");
}

inline std::vector<Case> cases_of(const std::string &path) {
    std::vector<Case> cases;
    std::ifstream file(path);
    for (std::string line; std::getline(file, line);) {
        const Words words = split(line, ' ');
        if (line.empty() || line[0] == '#') continue;
        if (words[0] == "case") cases.push_back({words[1], "", "", {}, {}});
        Case &last = cases.back();
        if (words[0] == "answer") last.wanted = line.substr(7);
        else if (!last.wanted.empty()) last.wanted += " ; " + without_lists(line);
        else if (words[0] == "table") last.tables.push_back({words});
        else if (words[0] == "column") last.tables.back().push_back(words);
        else if (words[0] == "ask") last.call = words[1], last.words = Words(words.begin() + 2, words.end());
    }
    return cases;
}

// What a program throws of a call that its language does not have.
inline const std::runtime_error skipped("skipped");

inline std::string answer_of(const Case &asked, const Answers &answered) {
    try {
        std::vector<hv::Table> tables;
        for (const auto &lines : asked.tables) tables.push_back(table_of(lines));
        return answered(asked.call, tables, asked.words);
    } catch (const hv::Error &error) {
        return refused(error, asked.wanted);
    } catch (const std::runtime_error &error) {
        return error.what();
    }
}

// Runs all cases in a language; 0 where each answers as it is due.
inline int run(const std::string &language, const std::string &corpus, const Answers &answered) {
    std::map<std::string, std::string> known;
    std::ifstream file(corpus + "/known_differences.txt");
    for (std::string line; std::getline(file, line);) {
        const size_t start = language.size() + 1, end = line.find(' ', start);
        if (begins(line, language + " ")) known[line.substr(start, end - start)] = line.substr(end + 1);
    }
    size_t agree = 0, wrong = 0, count = known.size();
    for (const Case &asked : cases_of(corpus + "/table_cases.txt")) {
        const std::string found = answer_of(asked, answered);
        const auto listed = known.find(asked.name);
        const bool is_known = listed != known.end();
        if (found == skipped.what()) continue;
        agree += found == asked.wanted;
        if (found != (is_known ? listed->second : asked.wanted) || (is_known && found == asked.wanted)) {
            wrong++;
            std::cout << language << " " << asked.name << " " << found << "\n    should be " << asked.wanted << "\n";
        }
        if (is_known) known.erase(listed);
    }
    for (const auto &[name, answer] : known)
        std::cout << language << " " << name << ": no case has this name\n", wrong++;
    std::cout << agree << " cases agree, " << count << " differences are known, " << wrong << " not\n";
    return wrong != 0;
}

} // namespace cases
#endif
