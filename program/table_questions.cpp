#include "table_questions.hpp"
#include "failure.hpp"
#include "values.hpp"
#include <algorithm>
#include <cstdio>

using hv::Column;
using hv::Form;

// The condition that text after a name is; none where it is not one. An operator in words comes after a space.
static std::optional<Condition> condition_after_name(const std::string &text) {
    const size_t start = text.find_first_not_of(' ');
    if (start == text.npos) return std::nullopt;
    const bool is_word = text[start] >= 'a' && text[start] <= 'z';
    if (is_word && start == 0) return std::nullopt;
    try {
        return condition_of_text(text.substr(start));
    } catch (const BadUsage &) {
        return std::nullopt;
    }
}

NamedCondition named_condition(const std::string &text, const std::vector<std::string> &names) {
    std::vector<std::string> longest_first = names;
    std::stable_sort(longest_first.begin(), longest_first.end(),
                     [](const std::string &left, const std::string &right) { return left.size() > right.size(); });
    for (const std::string &name : longest_first) {
        if (text.compare(0, name.size(), name) != 0) continue;
        const std::optional<Condition> condition = condition_after_name(text.substr(name.size()));
        if (condition) return {name, *condition};
    }
    throw BadUsage("'" + text + "' is not the name of a column, an operator (= != < <= > >=, or eq ne lt le gt ge) "
                                "and a value");
}

// Row by row whether it meets the condition: of runs each value is compared once.
static Column mask_of(const Column &column, const Condition &condition) {
    const auto compared = [&](const Column &rows) {
        return compare_with_text(rows, type_of(column), condition.by, condition.value);
    };
    if (column.form() != Form::runs) return compared(column);
    return Column::runs(column.ends(), compared(column.values()), column.offset(), column.size());
}

hv::Table table_where(const hv::Table &table, const std::vector<NamedCondition> &conditions) {
    hv::Table rows = table.clone();
    for (const NamedCondition &asked : conditions) rows = rows.filter(mask_of(rows[asked.name], asked.condition));
    return rows;
}

std::vector<std::vector<std::string>> lines_of_table(const hv::Table &table, const hv::TableFooter &footer) {
    std::vector<std::vector<std::string>> lines = {
        {"column", "type", "nulls", "runs", "bytes in file", "bytes in memory"}};
    for (const hv::NamedColumn &named : table) {
        const Column &column = named.column;
        const bool is_list = column.kind().number == HV_LIST;
        const RowType type = type_of(column);
        const std::string format = column.logical_type();
        const std::string unknown = type.logical || format.empty() ? "" : " " + csv_field(format);
        lines.push_back({csv_field(named.name), to_string(type) + unknown,
                         with_commas(column.size() - count_valid(column)),
                         is_list ? "" : with_commas(column.encode_rows().runs().size()),
                         with_commas(footer.columns[lines.size() - 1].size), with_commas(column.bytes_used())});
    }
    return lines;
}

static void print_line(const std::vector<std::string> &fields) {
    std::string line;
    for (size_t at = 0; at < fields.size(); at++) line += (at ? "," : "") + fields[at];
    std::fwrite((line + "\n").data(), 1, line.size() + 1, stdout);
}

// The mean of each group, by its sum and how many rows it has that are not null.
static hv::NamedColumn means_of(const hv::TableGroups &groups, const hv::NamedColumn &values, const Asked &asked) {
    const RowType type = type_of(values.column);
    if (!has_mean(type)) throw Failure("column '" + values.name + "': " + to_string(type) + " has no mean");
    const Column sums = groups.fold({"", hv::Fold::sum, values.name}).column;
    const Column counts = groups.fold({"", hv::Fold::count, values.name}).column;
    std::vector<std::optional<double>> means;
    for (size_t group = 0; group < groups.size(); group++)
        means.push_back(mean_of_sum(sums.at(group), std::get<uint64_t>(counts.at(group))));
    return {asked.name(), means};
}

static hv::NamedColumn answer_of_groups(const hv::TableGroups &groups, const hv::NamedColumn &values,
                                        const Asked &asked) {
    switch (*question_of_word(asked.word)) {
    case Question::mean: return means_of(groups, values, asked);
    case Question::count: return groups.fold({asked.name(), hv::Fold::count, values.name});
    case Question::sum: return groups.fold({asked.name(), hv::Fold::sum, values.name});
    case Question::least: return groups.fold({asked.name(), hv::Fold::least, values.name});
    default: return groups.fold({asked.name(), hv::Fold::greatest, values.name});
    }
}

hv::Table table_of_groups(const hv::Table &table, const std::vector<hv::SortKey> &keys, hv::Nulls nulls,
                          const std::vector<Asked> &asked) {
    std::vector<std::string> names;
    for (const hv::SortKey &key : keys) names.push_back(key.name);
    const hv::Table sorted = table.sort(keys, nulls);
    const hv::TableGroups groups = sorted.group_by(names);
    std::vector<hv::NamedColumn> columns;
    for (const hv::NamedColumn &key : groups.keys()) columns.push_back(key.clone());
    for (const Asked &each : asked) columns.push_back(answer_of_groups(groups, sorted.at(each.column), each));
    if (asked.empty()) columns.push_back(groups.fold({"rows", hv::Fold::rows}));
    return hv::Table(std::move(columns), groups.size());
}

void print_answers(const hv::Table &table, const std::vector<Asked> &asked) {
    std::vector<std::string> names, answers;
    for (const Asked &each : asked) {
        const Column &column = table[each.column];
        names.push_back(csv_name(each.name()));
        try {
            answers.push_back(answer_of(column, type_of(column), *question_of_word(each.word)));
        } catch (const std::runtime_error &error) {
            throw Failure("column '" + each.column + "': " + error.what());
        }
    }
    print_line(names);
    print_line(answers);
}

void print_table_rows(const hv::Table &table, size_t start, size_t stop) {
    std::vector<std::string> names;
    for (const hv::NamedColumn &named : table) names.push_back(csv_name(named.name));
    print_line(names);
    for (const size_t step = 4096; start < stop; start += step) {
        const size_t end = std::min(stop, start + step);
        std::vector<std::vector<std::string>> columns;
        for (const hv::NamedColumn &named : table)
            columns.push_back(fields_of_rows(named.column, type_of(named.column), start, end));
        for (size_t row = 0; row < end - start; row++) {
            std::vector<std::string> fields;
            for (const std::vector<std::string> &column : columns) fields.push_back(column[row]);
            print_line(fields);
        }
    }
}
