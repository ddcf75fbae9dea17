// Runs the cases of tables in C++: `table_cases examples/corpus`.
#include "table_cases.hpp"

namespace {

using namespace cases;

// ---- Calls ----

hv::Table sorted(const hv::Table &table, const Words &words) {
    std::vector<hv::SortKey> keys;
    for (size_t at = 0; at + 2 < words.size(); at += 3) {
        const auto order = words[at + 1] == "descending" ? hv::Order::descending : hv::Order::ascending;
        keys.push_back({text_of(words[at]), order, words[at + 2] == "last" ? hv::Nulls::last : hv::Nulls::first});
    }
    return table.sort(keys);
}

hv::Table grouped(const hv::Table &table, const Words &words) {
    static const Words folds{"sum", "rows", "count", "least", "greatest", "first", "last"};
    Words keys;
    std::vector<hv::GroupAnswer> asked;
    for (size_t at = 0; at < words.size(); at++) {
        if (words[at] != "/") {
            keys.push_back(text_of(words[at]));
            continue;
        }
        const auto fold = static_cast<hv::Fold>(std::find(folds.begin(), folds.end(), words[at + 2]) - folds.begin());
        asked.push_back({text_of(words[at + 1]), fold, fold == hv::Fold::rows ? "" : text_of(words[at + 3])});
        at += fold == hv::Fold::rows ? 2 : 3;
    }
    return table.group_by(keys).agg(asked);
}

// What a column answers: its sum, its least or its greatest row.
std::string column_answer(const hv::Column &column, const std::string &call) {
    if (call == "count") return std::to_string(column.size() - column.null_count());
    if (call != "sum") return shown(call == "min" ? column.least() : column.greatest());
    return shown(std::visit([](auto total) { return hv::Value(total); }, column.sum().total));
}

std::string answered(const std::string &call, const std::vector<hv::Table> &tables, const Words &words) {
    static const hv::Table none;
    const hv::Table &table = tables.empty() ? none : tables[0];
    Words names;
    for (const std::string &word : words) names.push_back(text_of(word));
    if (call == "table") return shown(table);
    if (call == "slice") return shown(table.slice(std::stoull(words[0]), std::stoull(words[1])));
    if (call == "take") return shown(table.take(column_of("", words).column));
    if (call == "filter") return shown(table.filter(column_of("", words).column));
    if (call == "filter_by") {
        return shown(table.filter_by(names[0], words[1], literal_of(words[2])));
    }
    if (call == "may_have") {
        const hv::TableFooter footer = hv::Table::footer(in_file(table));
        const hv::Operator by = hv::detail::operator_of(words[1]);
        return footer.may_have(names[0], by, literal_of(words[2])) ? "true" : "false";
    }
    if (call == "append") return shown(table.append(tables[1]));
    if (call == "equals") return table.equals(tables[1]) ? "true" : "false";
    if (call == "sort") return shown(sorted(table, words));
    if (call == "group_by") return shown(grouped(table, words));
    if (call == "select") return shown(table.select(names));
    if (call == "drop") return shown(table.drop(names));
    if (call == "rename") return shown(table.rename(names[0], names[1]));
    if (call == "put") return shown(table.with_column(column_of(names[0], {words.begin() + 1, words.end()})));
    if (call == "to_bytes") return hex_of(table.to_bytes(!words.empty()));
    if (call == "from_bytes") return shown(hv::Table::from_bytes(bytes_of(words[0])));
    if (call == "load") return shown(hv::Table::load(in_file(table), names));
    return column_answer(table[names[0]], call);
}

} // namespace

int main(int, char **arguments) { return cases::run("c++", arguments[1], answered); }
