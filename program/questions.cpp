#include "questions.hpp"
#include "failure.hpp"
#include "values.hpp"
#include <algorithm>
#include <cstdio>

using hv::Column;
using hv::Form;

static void print_line(const std::string &text) {
    std::fwrite(text.data(), 1, text.size(), stdout);
    std::fputc('\n', stdout);
}

static size_t count_true(const std::vector<bool> &flags) {
    size_t count = 0;
    for (bool flag : flags) count += flag;
    return count;
}

static bool is_valid(const hv::Run &run) { return !std::holds_alternative<hv::Null>(run.value); }

// Whether a list is null, in whichever form.
static bool is_valid_list(const Column &lists, size_t row) {
    switch (lists.form()) {
    case Form::constant: return false; // a constant of lists is null
    case Form::runs: return is_valid_list(lists.values(), lists.run_of(row));
    default: return std::get<bool>(lists.list_validity().at(row));
    }
}

static size_t count_valid_runs_of_lists(const Column &runs) {
    size_t count = 0;
    for (size_t row = 0, run = runs.empty() ? 0 : runs.run_of(0); row < runs.size(); run++) {
        uint64_t stop = 0;
        hv::detail::ask([&](auto *error) { return hv_read_ends_u64(runs.raw(), run, &stop, 1, error); });
        if (is_valid_list(runs.values(), run)) count += stop - row;
        row = stop;
    }
    return count;
}

size_t count_valid(const Column &column) {
    const bool is_list = column.kind().number == HV_LIST;
    if (!column.kind().nullable) return column.size();
    if (is_list && column.form() == Form::constant) return 0;
    if (is_list && column.form() == Form::runs) return count_valid_runs_of_lists(column);
    size_t count = 0;
    if (is_list) {
        const Column flags = column.list_validity();
        for (const hv::Run &run : flags.runs()) count += std::get<bool>(run.value) ? run.size() : 0;
        return count;
    }
    if (column.form() == Form::flat) return count_true(column.validity());
    for (const hv::Run &run : column.runs()) count += is_valid(run) ? run.size() : 0;
    return count;
}

std::string summary_of(const Column &column, const RowType &type) {
    const std::string rows = to_string(type) + ": " + with_commas(column.size()) + " rows";
    if (column.form() == Form::constant) return rows + " of one value";
    if (column.form() != Form::runs) return rows + ", flat";
    const size_t runs = column.empty() ? 0 : column.run_of(column.size() - 1) + 1 - column.run_of(0);
    return rows + " in " + with_commas(runs) + " runs";
}

static const std::pair<std::string, hv::Operator> operators[] = { // before each other, where one begins another
    {">=", hv::Operator::greater_or_equal},  {"<=", hv::Operator::less_or_equal}, {"!=", hv::Operator::not_equal},
    {">", hv::Operator::greater},            {"<", hv::Operator::less},           {"=", hv::Operator::equal},
    {"ge ", hv::Operator::greater_or_equal}, {"le ", hv::Operator::less_or_equal}, {"ne ", hv::Operator::not_equal},
    {"gt ", hv::Operator::greater},          {"lt ", hv::Operator::less},         {"eq ", hv::Operator::equal}};

bool has_operator(const std::string &text) {
    return std::any_of(std::begin(operators), std::end(operators),
                       [&](const auto &known) { return text.find(known.first) != text.npos; });
}

Condition condition_of_text(const std::string &text) {
    for (const auto &[name, by] : operators) {
        if (text.compare(0, name.size(), name) != 0) continue;
        const bool is_spaced = name.back() != ' ' && text.size() > name.size() && text[name.size()] == ' ';
        return {by, text.substr(name.size() + is_spaced)};
    }
    throw BadUsage("'" + text + "' does not begin with an operator: = != < <= > >=, or eq ne lt le gt ge");
}

Column rows_where(const Column &column, const RowType &type, const std::vector<Condition> &conditions) {
    Column rows = column.clone();
    for (const Condition &condition : conditions)
        rows = rows.filter(compare_with_text(rows, type, condition.by, condition.value));
    return rows;
}

std::optional<Question> question_of_word(const std::string &word) {
    static const std::pair<const char *, Question> words[] = {{"count", Question::count},
                                                              {"sum", Question::sum},
                                                              {"mean", Question::mean},
                                                              {"min", Question::least},
                                                              {"max", Question::greatest}};
    for (const auto &[known, question] : words)
        if (word == known) return question;
    return std::nullopt;
}

std::string answer_of(const Column &column, const RowType &type, Question question) {
    switch (question) {
    case Question::count: return std::to_string(count_valid(column));
    case Question::sum: return sum_of(column, type);
    case Question::mean: return mean_of(column, type, count_valid(column));
    case Question::least: return csv_field(column.least(), type);
    default: return csv_field(column.greatest(), type);
    }
}

static std::string json_of_list(const Column &elements, size_t start, size_t size) {
    std::string json = "[";
    for (size_t item = start; item < start + size; item++) {
        if (item > start) json += ",";
        json += json_of(elements.at(item));
    }
    return json + "]";
}

static std::vector<std::string> fields_of_lists(const Column &column, size_t start, size_t stop) {
    const Column lists = column.slice(start, stop).decode();
    const Column elements = lists.list_elements();
    const std::vector<uint64_t> offsets = lists.list_offsets().numbers<uint64_t>();
    const std::vector<uint64_t> sizes = lists.list_sizes().numbers<uint64_t>();
    const std::vector<bool> valid = lists.list_validity().truths();
    std::vector<std::string> fields;
    for (size_t row = 0; row < lists.size(); row++)
        fields.push_back(valid[row] ? csv_field(json_of_list(elements, offsets[row], sizes[row])) : "");
    return fields;
}

std::vector<std::string> fields_of_rows(const Column &column, const RowType &type, size_t start, size_t stop) {
    if (column.kind().number == HV_LIST) return fields_of_lists(column, start, stop);
    std::vector<std::string> fields;
    for (size_t row = start; row < stop; row++) {
        try {
            fields.push_back(csv_field(column.at(row), type));
        } catch (const Failure &error) {
            throw Failure("row " + std::to_string(row) + ": " + error.what());
        }
    }
    return fields;
}

void print_rows(const Column &column, const RowType &type, size_t start, size_t stop) {
    for (const size_t step = 4096; start < stop; start += step)
        for (const std::string &field : fields_of_rows(column, type, start, std::min(stop, start + step)))
            print_line(field);
}

void print_runs(const Column &column, const RowType &type) {
    const Column flat = column.form() == Form::flat ? column.encode_rows() : Column();
    const hv::Runs runs = (flat ? flat : column).runs();
    print_line("start,stop,value");
    for (const hv::Run &run : runs)
        print_line(std::to_string(run.start) + "," + std::to_string(run.stop) + "," + csv_field(run.value, type));
}
