// Runs the cases of tables over hivevigil_tables.h and the headers over it, the calls of C: `table_cases_of_c
// examples/corpus`. Tables and columns go in and out by C++; what no call of C does is skipped.
#include "table_cases.hpp"
#include "hivevigil_table_concat.h"
#include "hivevigil_table_groups.h"

namespace {

using namespace cases;

const hv_session &session() { return hv::initial_session(); }

// Calls, and throws where the call is refused.
template <class Call> void ask(Call call) { hv::detail::ask(call); }

// What a call makes, shown.
template <class Call> std::string made(Call call) {
    hv::Table out;
    ask([&](auto *error) { return call(out.raw(), error); });
    return shown(out);
}

hv::Column names_of(const Words &names) {
    return hv::Column::texts(std::vector<std::string_view>(names.begin(), names.end()));
}

// Names as texts of C, which has none with a zero byte.
std::vector<const char *> texts_of(const Words &names) {
    std::vector<const char *> texts;
    for (const std::string &name : names) {
        if (name.size() != std::strlen(name.c_str())) throw std::runtime_error("not served");
        texts.push_back(name.c_str());
    }
    return texts;
}

// What rows are compared with.
struct Condition {
    hv::Value value;
    hv::detail::Passed passed;
    hv_table_condition all;

    Condition(const Words &names, const Words &words)
        : value(literal_of(words[2])), passed(hv::detail::compared_with(value)),
          all{names[0].c_str(), static_cast<uint8_t>(hv::detail::operator_of(words[1])), &passed.value, passed.text,
              passed.size} {}
};

std::string sorted(const hv::Table &table, const Words &words) {
    Words names;
    hv::Bytes flags;
    for (size_t at = 0; at + 2 < words.size(); at += 3) {
        const int order = words[at + 1] == "descending" ? HV_TABLE_DESCENDING : 0;
        const int place = words[at + 2] == "last" ? HV_TABLE_NULLS_LAST : 0;
        names.push_back(text_of(words[at])), flags.push_back(static_cast<uint8_t>(order | place));
    }
    const hv::Column keys = names_of(names);
    return made([&](auto *out, auto *error) {
        return hv_table_sort(table.raw(), keys.raw(), flags.data(), flags.size(), out, error);
    });
}

std::string grouped(const hv::Table &table, const Words &names, const Words &words) {
    static const Words folds{"sum", "rows", "count", "least", "greatest", "first", "last"};
    const std::vector<const char *> texts = texts_of(names);
    std::vector<hv_table_answer> asked;
    size_t keys = 0;
    while (keys < words.size() && words[keys] != "/") keys++;
    for (size_t at = keys; at < words.size(); at += asked.back().column ? 4 : 3) {
        const auto fold = static_cast<uint8_t>(std::find(folds.begin(), folds.end(), words[at + 2]) - folds.begin());
        asked.push_back({texts[at + 1], fold, fold == HV_FOLD_ROWS ? nullptr : texts[at + 3]});
    }
    return made([&](auto *out, auto *error) {
        const int32_t answer =
            hv_table_grouping(table.raw(), texts.data(), keys, asked.data(), asked.size(), out, error);
        if (answer == HV_TABLE_ANSWER_TWICE) error->second += keys; // its place among all columns
        return answer;
    });
}

std::string renamed(const hv::Table &table, const Words &names) {
    const hv::Column from = names_of({names[0]}), to = names_of({names[1]});
    return made(
        [&](auto *out, auto *error) { return hv_table_rename(table.raw(), from.raw(), to.raw(), out, error); });
}

std::string with_column(const hv::Table &table, const std::string &name, const Words &words) {
    const hv::NamedColumn named = column_of(name, words);
    return made([&](auto *out, auto *error) {
        const auto *const bytes = reinterpret_cast<const uint8_t *>(name.data());
        const int32_t answer = hv_table_clone(table.raw(), out, error);
        return answer ? answer : hv_table_put(out, bytes, name.size(), named.column.raw(), error);
    });
}

std::string read(const std::string &call, const hv::Table &table, const Words &names, const Words &words) {
    if (call == "to_bytes") {
        hv_buffer bytes = HV_BUFFER_EMPTY;
        ask([&](auto *error) { return hv_table_to_bytes(table.raw(), !words.empty(), &bytes, error); });
        const std::string word = hex_of({bytes.at, bytes.at + bytes.size});
        hv_buffer_free(&bytes);
        return word;
    }
    if (call == "from_bytes") {
        const hv::Bytes bytes = bytes_of(words[0]);
        return made(
            [&](auto *out, auto *error) { return hv_table_from_bytes(bytes.data(), bytes.size(), out, error); });
    }
    const std::string path = in_file(table);
    const std::vector<const char *> texts = texts_of(names);
    if (call == "load")
        return made([&](auto *out, auto *error) {
            return hv_table_load_columns(path.c_str(), texts.data(), texts.size(), out, error);
        });
    hv_table_footer footer = HV_TABLE_FOOTER_EMPTY;
    const Condition asked(names, words);
    uint8_t truth = 0;
    hv_error error{};
    int32_t answer = hv_table_load_footer(path.c_str(), &footer, &error);
    if (!answer) answer = hv_table_may_have(&footer, &asked.all, &truth, &error);
    hv_table_footer_free(&footer);
    if (answer) throw hv::Error(answer, error);
    return truth ? "true" : "false";
}

std::string some_rows(const std::string &call, const hv::Table &table, const Words &names, const Words &words) {
    if (call == "slice") {
        const size_t start = std::stoull(words[0]), stop = std::stoull(words[1]);
        return made([&](auto *out, auto *error) { return hv_table_slice(table.raw(), start, stop, out, error); });
    }
    if (call == "filter_by") {
        const Condition asked(names, words);
        const auto *const name = reinterpret_cast<const uint8_t *>(names[0].data());
        return made([&](auto *out, auto *error) {
            return hv_table_filter_by(table.raw(), name, names[0].size(), asked.all.operator_, asked.all.value,
                                      asked.all.text, asked.all.text_len, out, error);
        });
    }
    const hv::Column column = column_of("", words).column.clone();
    return made([&](auto *out, auto *error) {
        return call == "take" ? hv_table_take(table.raw(), column.raw(), out, error)
                              : hv_table_filter(table.raw(), column.raw(), out, error);
    });
}

std::string asked_of(const std::string &call, const std::vector<hv::Table> &tables, const Words &words) {
    static const hv::Table none;
    const hv::Table &table = tables.empty() ? none : tables[0];
    Words names;
    for (const std::string &word : words) names.push_back(text_of(word));
    if (call == "slice" || call == "take" || call == "filter" || call == "filter_by")
        return some_rows(call, table, names, words);
    if (call == "sort") return sorted(table, words);
    if (call == "group_by") return grouped(table, names, words);
    if (call == "rename") return renamed(table, names);
    if (call == "put") return with_column(table, names[0], {words.begin() + 1, words.end()});
    if (call == "to_bytes" || call == "from_bytes" || call == "load" || call == "may_have")
        return read(call, table, names, words);
    if (call == "append")
        return made([&](auto *out, auto *error) {
            return hv_table_concat(&session(), table.raw(), tables[1].raw(), out, error);
        });
    if (call != "select") throw skipped;
    const hv::Column texts = names_of(names);
    return made([&](auto *out, auto *error) { return hv_table_select(table.raw(), texts.raw(), out, error); });
}

// The refusals of which C says more than other languages, as those have them.
hv::Error in_other_languages(const hv::Error &error) {
    const hv_error &fields = error.fields;
    switch (error.number) {
    case HV_TABLE_ROW_COUNT: return {HV_COLUMN_LENGTH, {fields.third, fields.second, 0}};
    case HV_TABLE_NEW_NAME_TWICE: return {HV_TABLE_NAME_TWICE, fields};
    case HV_TABLE_ANSWER_TWICE: return {HV_TABLE_NAME_TWICE, fields};
    case HV_TABLE_OTHER_NAMES:
    case HV_TABLE_UNKNOWN_COLUMN: return {HV_TABLE_UNKNOWN_NAME, {}};
    case HV_TABLE_OTHER_TYPE: return {HV_TYPE_MISMATCH, {}};
    case HV_TABLE_SUM_OVERFLOW: return {HV_CAST_OUT_OF_RANGE, {fields.second, 0, 0}};
    case HV_TABLE_NO_KEYS:
    case HV_TABLE_KEY_OF_LISTS:
    case HV_TABLE_UNSUPPORTED_ANSWER: return {HV_UNSUPPORTED, {}};
    default: return error;
    }
}

std::string answered(const std::string &call, const std::vector<hv::Table> &tables, const Words &words) {
    try {
        return asked_of(call, tables, words);
    } catch (const hv::Error &error) {
        throw in_other_languages(error);
    }
}

} // namespace

int main(int, char **arguments) { return cases::run("c", arguments[1], answered); }
