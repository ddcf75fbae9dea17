#include "query.hpp"
#include "commands.hpp"
#include "sorting.hpp"
#include "table_questions.hpp"
#include "values.hpp"
#include <cstdio>
#include <set>

using hv::Column;

// What is asked, as a word: filter, a question, or nothing where there is none.
static std::string asked_word(const Arguments &arguments) {
    return arguments.words.size() > 2 ? arguments.words[2] : "";
}

static void answer(const Arguments &arguments, const Column &rows) {
    const std::string word = asked_word(arguments);
    if (word == "filter" && arguments.has("to")) return save_column(rows, *arguments.value("to"));
    const RowType type = type_of(rows);
    about_file(arguments, [&] {
        if (word == "filter") print_rows(rows, type, 0, rows.size());
        else std::printf("%s\n", answer_of(rows, type, *question_of_word(word)).c_str());
    });
}

static std::vector<std::string> names_of(const hv::StoredFile &file) {
    std::vector<std::string> names;
    for (const hv::ColumnFooter &column : footer_of(file).columns) names.push_back(column.name);
    return names;
}

static std::vector<NamedCondition> named_conditions(const std::vector<std::string> &texts,
                                                    const std::vector<std::string> &names) {
    std::vector<NamedCondition> conditions;
    for (const std::string &text : texts) conditions.push_back(named_condition(text, names));
    return conditions;
}

// The rows of a table that meet conditions. Only columns of which these are, and others of some names, are read.
static hv::Table rows_asked(const Arguments &arguments, const hv::StoredFile &file, std::vector<std::string> wanted,
                            const std::vector<NamedCondition> &conditions) {
    for (const NamedCondition &asked : conditions) wanted.push_back(asked.name);
    return table_where(load_table(file, asked_limit(arguments), wanted), conditions);
}

// Whole rows, or what one column is asked.
static void query_table(const Arguments &arguments, const hv::StoredFile &file, const std::vector<std::string> &texts) {
    const bool filters = asked_word(arguments) == "filter", is_one = arguments.has("column");
    const std::vector<std::string> names = names_of(file);
    const std::vector<NamedCondition> conditions = named_conditions(texts, names);
    std::vector<std::string> wanted = is_one || !filters ? std::vector{arguments.needed("column")} : names;
    for (const hv::SortKey &key : asked_keys(arguments, names)) wanted.push_back(key.name);
    const hv::Table rows = in_order(arguments, rows_asked(arguments, file, wanted, conditions));
    if (is_one) answer(arguments, rows[wanted[0]]);
    else if (arguments.has("to")) rows.save(*arguments.value("to"), arguments.has("differences"));
    else about_file(arguments, [&] { print_table_rows(rows, 0, rows.rows()); });
}

// The columns that --by names.
static std::vector<hv::SortKey> group_keys(const Arguments &arguments, const std::vector<std::string> &names) {
    if (!arguments.has("by")) return {};
    return about_file(arguments, [&] { return sort_keys(arguments.options.at("by"), names); });
}

// A table with a row for each group.
static void print_groups(const Arguments &arguments, const hv::Table &rows, const std::vector<hv::SortKey> &keys) {
    hv::Table groups =
        about_file(arguments, [&] { return table_of_groups(rows, keys, asked_nulls(arguments), arguments.asked); });
    groups = in_order(arguments, std::move(groups));
    if (arguments.has("to")) return groups.save(*arguments.value("to"), arguments.has("differences"));
    about_file(arguments, [&] { print_table_rows(groups, 0, groups.rows()); });
}

// What options ask of the rows of a table that meet the conditions; where there is none, how many these are.
static void query_rows(const Arguments &arguments, const hv::StoredFile &file, const std::vector<std::string> &texts) {
    const std::vector<std::string> names = names_of(file);
    const std::vector<NamedCondition> conditions = named_conditions(texts, names);
    const std::vector<hv::SortKey> keys = group_keys(arguments, names);
    std::vector<std::string> wanted;
    for (const hv::SortKey &key : keys) wanted.push_back(key.name);
    for (const Asked &asked : arguments.asked) wanted.push_back(asked.column);
    const hv::Table rows = rows_asked(arguments, file, wanted, conditions);
    if (!keys.empty()) return print_groups(arguments, rows, keys);
    about_file(arguments, [&] {
        if (arguments.asked.empty()) std::printf("%zu\n", rows.rows());
        else print_answers(rows, arguments.asked);
    });
}

static void query_column(const Arguments &arguments, const hv::StoredFile &file,
                         const std::vector<std::string> &texts) {
    refuse_options(arguments, "table", {"by", "count", "sum", "mean", "min", "max", "differences", "sort", "limit"});
    std::vector<Condition> conditions;
    for (const std::string &text : texts) conditions.push_back(condition_of_text(text));
    const StoredColumn stored = asked_column(arguments, file);
    const Column rows = rows_where(stored.column, stored.type(), conditions);
    if (asked_word(arguments).empty()) std::printf("%zu\n", rows.size());
    else answer(arguments, rows);
}

// Refuses what --by and questions that are options are not asked with.
static void check_groups(const Arguments &arguments, const std::string &word) {
    const bool has_groups = arguments.has("by");
    if (!word.empty() && (has_groups || !arguments.asked.empty()))
        throw BadUsage("query takes " + word + " or --" + (has_groups ? "by" : arguments.asked[0].word) + ", not both");
    std::set<std::string> names;
    for (const Asked &asked : arguments.asked)
        if (!names.insert(asked.name()).second)
            throw BadUsage("--" + asked.word + " is given twice for '" + asked.column + "'");
    for (const char *option : {"sort", "to", "differences"})
        if (word.empty() && !has_groups && arguments.has(option))
            throw BadUsage("--" + std::string(option) + " takes filter or --by");
}

// Refuses options that what is asked does not take.
static void check_options(const Arguments &arguments, const std::string &word) {
    const bool filters = word == "filter";
    if (!filters && !word.empty() && !question_of_word(word))
        throw BadUsage("query takes a file and one of count, sum, mean, min, max, filter, or none of them");
    if (word.empty() && arguments.has("column"))
        throw BadUsage("query takes one of count, sum, mean, min, max, filter with --column");
    check_groups(arguments, word);
    std::vector<std::string> options = {"column", "where", "limit", "by", "count", "sum", "mean", "min", "max"};
    if (filters || word.empty()) options.insert(options.end(), {"to", "differences", "sort", "nulls"});
    take(arguments, filters ? 4 : word.empty() ? 2 : 3, options);
    if (arguments.has("differences") && (!arguments.has("to") || arguments.has("column")))
        throw BadUsage("--differences takes --to, and is of a table");
    asked_nulls(arguments);
    asked_limit(arguments);
}

// The conditions, as they are written: that of filter first.
static std::vector<std::string> asked_conditions(const Arguments &arguments) {
    std::vector<std::string> texts;
    if (arguments.words.size() > 3) texts.push_back(arguments.words[3]);
    if (arguments.has("where"))
        texts.insert(texts.end(), arguments.options.at("where").begin(), arguments.options.at("where").end());
    for (const std::string &text : texts)
        if (!has_operator(text)) condition_of_text(text);
    return texts;
}

void query(const Arguments &arguments) {
    const std::string word = asked_word(arguments);
    check_options(arguments, word);
    const std::vector<std::string> texts = asked_conditions(arguments);
    const hv::StoredFile file(arguments.words[1]);
    const bool is_of_rows = word.empty() || (word == "count" && !arguments.has("column"));
    if (!is_table(file)) query_column(arguments, file, texts);
    else if (is_of_rows) query_rows(arguments, file, texts);
    else query_table(arguments, file, texts);
}
