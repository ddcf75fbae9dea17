// hivevigil: columns of CSV files in runs, kept in files, shown and asked, from the command line. The status is 0; 1
// where a file or a value is not served, and 2 where the command line is wrong. A sentence on standard error says why.
#include "commands.hpp"
#include "csv_columns.hpp"
#include "help.hpp"
#include "query.hpp"
#include "table_questions.hpp"
#include "values.hpp"
#include <algorithm>
#include <cstdio>
#include <new>

using hv::Column;

#ifndef HIVEVIGIL_PROGRAM_VERSION
#error "program/build.sh says which version this is"
#endif

static CsvOptions csv_options(const Arguments &arguments) {
    CsvOptions options{arguments.words[1], std::nullopt, arguments.value("column"), std::nullopt};
    const std::optional<std::string> mark = arguments.value("separator"), type = arguments.value("type");
    if (mark && (mark->size() != 1 || mark->find_first_of("\"\r\n") != mark->npos))
        throw BadUsage("--separator takes one character of ASCII, not '" + *mark + "'");
    if (mark) options.separator = (*mark)[0];
    try {
        if (type) options.type = type_of_text(*type);
    } catch (const Failure &error) {
        throw BadUsage(error.what());
    }
    return options;
}

// ---- Commands ----

using Cells = std::vector<std::string>;

// Left the first two columns, right the others.
static void print_table(const std::vector<Cells> &lines) {
    std::vector<size_t> widths(lines[0].size());
    const auto width_of = [](const std::string &text) { // letters, not bytes
        const auto begins_letter = [](char byte) { return (byte & 0xC0) != 0x80; };
        return static_cast<size_t>(std::count_if(text.begin(), text.end(), begins_letter));
    };
    for (const Cells &line : lines)
        for (size_t at = 0; at < line.size(); at++) widths[at] = std::max(widths[at], width_of(line[at]));
    for (const Cells &line : lines) {
        std::string text;
        for (size_t at = 0; at < line.size(); at++) {
            const std::string space(widths[at] - width_of(line[at]), ' ');
            text += (at ? "  " : "") + (at < 2 ? line[at] + space : space + line[at]);
        }
        std::printf("%s\n", text.c_str());
    }
}

// What the rows take where they are written out, some of them at a time.
static size_t bytes_flat(const Column &runs) {
    size_t bytes = 0;
    for (size_t start = 0, step = 1 << 16; start < runs.size(); start += step)
        bytes += runs.slice(start, std::min(runs.size(), start + step)).decode().bytes_used();
    return bytes;
}

static void report(const Arguments &arguments) {
    take(arguments, 2, {"separator"});
    std::vector<Cells> lines = {{"column", "type", "rows", "nulls", "runs", "bytes flat", "bytes in runs"}};
    size_t all_flat = 0, all_in_runs = 0;
    const CsvOptions options = csv_options(arguments);
    for (const CsvColumn &column : read_csv(options, InputFile(options.path))) {
        const Column &runs = column.runs;
        const size_t flat = bytes_flat(runs), in_runs = runs.bytes_used();
        lines.push_back({column.name, to_string(column.type), with_commas(runs.size()), with_commas(column.nulls),
                         with_commas(runs.runs().size()), with_commas(flat), with_commas(in_runs)});
        all_flat += flat, all_in_runs += in_runs;
    }
    print_table(lines);
    std::printf("%s bytes flat, %s in runs\n", with_commas(all_flat).c_str(), with_commas(all_in_runs).c_str());
}

// Keeps a CSV file.
static void convert_csv(const Arguments &arguments, const CsvOptions &options, InputFile file, const std::string &to) {
    refuse_options(arguments, "table", {"limit"});
    std::vector<CsvColumn> found = read_csv(options, std::move(file));
    if (arguments.has("column")) return save_column(found[0].runs.with_logical_type(found[0].type.format()), to);
    std::vector<hv::NamedColumn> columns;
    for (CsvColumn &column : found) columns.push_back({column.name, column.runs, column.type.format()});
    in_order(arguments, hv::Table(std::move(columns))).save(to, arguments.has("differences"));
}

// Keeps what was kept before, each column in its form.
static void convert_stored(const Arguments &arguments, const hv::StoredFile &file, const std::string &to) {
    for (const char *option : {"type", "separator"})
        if (arguments.has(option))
            throw Failure(file.path() + " is not a CSV file, which --" + option + " is of");
    if (!is_table(file)) refuse_options(arguments, "table", {"differences", "sort", "limit"});
    if (is_table(file) && !arguments.has("column"))
        return in_order(arguments, load_table(file, asked_limit(arguments))).save(to, arguments.has("differences"));
    save_column(asked_column(arguments, file).column, to);
}

static void convert(const Arguments &arguments) {
    take(arguments, 2, {"column", "to", "type", "separator", "differences", "sort", "nulls", "limit"});
    const std::string to = arguments.needed("to");
    const bool is_one = arguments.has("column");
    if (arguments.has("type") && !is_one) throw BadUsage("--type takes --column too");
    for (const char *option : {"differences", "sort"})
        if (arguments.has(option) && is_one)
            throw BadUsage("--" + std::string(option) + " is of a table, and --column keeps a column");
    asked_nulls(arguments);
    asked_limit(arguments);
    const CsvOptions options = csv_options(arguments);
    InputFile input(options.path);
    if (kept_as(input.begun()) == Kept::nothing) convert_csv(arguments, options, std::move(input), to);
    else if (input.is_copied()) convert_stored(arguments, hv::StoredFile(input.bytes(), input.path()), to);
    else convert_stored(arguments, hv::StoredFile(input.path()), to);
}

// How many of the rows that are there --rows and --from ask for: the first, and the row after the last.
static std::pair<size_t, size_t> asked_rows(const Arguments &arguments, size_t rows) {
    const size_t start = std::min(rows, count_of(arguments.value("from").value_or("0"), "from"));
    return {start, start + std::min(count_of(arguments.needed("rows"), "rows"), rows - start)};
}

static void show_table(const Arguments &arguments, const hv::StoredFile &file) {
    if (arguments.has("runs")) throw BadUsage("--runs of a table takes --column too");
    hv::Table table = load_table(file, asked_limit(arguments));
    if (arguments.has("rows")) {
        const auto asked = asked_rows(arguments, table.rows());
        table = in_order(arguments, std::move(table));
        return about_file(arguments, [&] { print_table_rows(table, asked.first, asked.second); });
    }
    size_t in_memory = 0;
    for (const hv::NamedColumn &named : table) in_memory += named.column.bytes_used();
    print_table(lines_of_table(table, footer_of(file)));
    std::printf("%s rows, %s columns; %s bytes in the file, %s in memory\n", with_commas(table.rows()).c_str(),
                with_commas(table.size()).c_str(), with_commas(file.size()).c_str(),
                with_commas(in_memory).c_str());
}

// What options ask of a file that was kept, whose command line is right.
static void show_file(const Arguments &arguments) {
    const bool rows = arguments.has("rows"), runs = arguments.has("runs");
    const hv::StoredFile file(arguments.words[1]);
    if (is_table(file) && !arguments.has("column")) return show_table(arguments, file);
    if (arguments.has("sort")) throw BadUsage("--sort is of the rows of a table, and this is one column");
    if (!is_table(file)) refuse_options(arguments, "table", {"limit"});
    const StoredColumn stored = asked_column(arguments, file);
    const Column &column = stored.column;
    if (runs) return about_file(arguments, [&] { print_runs(column, stored.type()); });
    if (rows) {
        const auto asked = asked_rows(arguments, column.size());
        return about_file(arguments, [&] { print_rows(column, stored.type(), asked.first, asked.second); });
    }
    std::printf("%s, %s null; %s bytes in the file, %s in memory\n", summary_of(column, stored.type()).c_str(),
                with_commas(column.size() - count_valid(column)).c_str(), with_commas(stored.message_bytes).c_str(),
                with_commas(column.bytes_used()).c_str());
}

static void show(const Arguments &arguments) {
    take(arguments, 2, {"column", "rows", "from", "runs", "sort", "nulls", "limit"});
    asked_limit(arguments);
    const bool rows = arguments.has("rows");
    if (rows && arguments.has("runs")) throw BadUsage("show takes --rows or --runs, not both");
    for (const char *option : {"from", "sort"})
        if (arguments.has(option) && !rows) throw BadUsage("--" + std::string(option) + " takes --rows too");
    asked_nulls(arguments);
    if (rows) asked_rows(arguments, 0);
    show_file(arguments);
}

// The first rows, as `show --rows` prints them.
static void head(const Arguments &arguments) {
    take(arguments, 2, {"column", "rows", "sort", "nulls", "limit"});
    asked_limit(arguments);
    asked_nulls(arguments);
    Arguments asked = arguments;
    if (!asked.has("rows")) asked.options["rows"] = {"10"};
    asked_rows(asked, 0);
    show_file(asked);
}

static void run(const Arguments &arguments) {
    static const std::map<std::string, void (*)(const Arguments &)> commands = {
        {"report", report}, {"convert", convert}, {"show", show}, {"head", head}, {"query", query}};
    if (arguments.has("help")) return void(std::fputs(help, stdout));
    if (arguments.has("version")) return void(std::puts("hivevigil " HIVEVIGIL_PROGRAM_VERSION));
    if (arguments.words.empty()) throw BadUsage("no command: report, convert, show, head or query");
    const auto found = commands.find(arguments.words[0]);
    if (found == commands.end())
        throw BadUsage("'" + arguments.words[0] + "' is not one of report, convert, show, head, query");
    if (arguments.words.size() < 2) throw BadUsage(arguments.words[0] + " takes a file");
    // what a refusal of the library is about
    const std::string about = arguments.words[1] + ": ";
    try {
        found->second(arguments);
    } catch (const hv::Error &error) {
        const bool is_named = error.number == HV_TABLE_FILE_REFUSED; // as the file that is written, in the sentence
        throw Failure((is_named ? "" : about) + error.what());
    } catch (const std::bad_alloc &) {
        throw Failure(about + "out of memory");
    }
}

int main(int count, char **given) {
    try {
        run(arguments_of(count, given));
        if (std::fflush(stdout) || std::ferror(stdout)) throw refused_file("standard output");
        return 0;
    } catch (const BadUsage &error) {
        std::fprintf(stderr, "hivevigil: %s (hivevigil --help)\n", error.what());
        return 2;
    } catch (const std::exception &error) {
        std::fprintf(stderr, "hivevigil: %s\n", error.what());
        return 1;
    }
}
