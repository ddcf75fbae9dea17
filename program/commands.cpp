#include "commands.hpp"
#include "sorting.hpp"

std::vector<hv::SortKey> asked_keys(const Arguments &arguments, const std::vector<std::string> &names) {
    const std::optional<std::string> asked = arguments.value("sort");
    return about_file(arguments, [&] { return asked ? sort_keys(*asked, names) : std::vector<hv::SortKey>(); });
}

hv::Table in_order(const Arguments &arguments, hv::Table table) {
    const std::vector<hv::SortKey> keys = asked_keys(arguments, table.names());
    return keys.empty() ? std::move(table) : table.sort(keys, asked_nulls(arguments));
}

StoredColumn asked_column(const Arguments &arguments, const hv::StoredFile &file) {
    const std::optional<std::string> name = arguments.value("column");
    if (name && !is_table(file)) throw Failure(file.path() + " is not the file of a table, and its column has no name");
    if (!name) return load_column(file);
    const hv::Table table = load_table(file, asked_limit(arguments), std::vector<std::string>{*name});
    return {table[*name].clone(), footer_of(file)[*name].size};
}

void refuse_options(const Arguments &arguments, const std::string &sort, const std::vector<const char *> &options) {
    for (const char *option : options)
        if (arguments.has(option))
            throw Failure(arguments.words[1] + " is not the file of a " + sort + ", which --" + option + " is of");
}
