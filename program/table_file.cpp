#include "table_file.hpp"
#include "failure.hpp"
#include <algorithm>

// A refusal of the file itself names it already, and one of a name does not.
template <class Work> static auto of_file(const hv::StoredFile &file, Work work) {
    try {
        return work();
    } catch (const hv::TableError &error) {
        const bool is_named = error.number != HV_TABLE_UNKNOWN_NAME, is_over = error.number == HV_TABLE_OVER_LIMIT;
        throw Failure((is_named ? "" : file.path() + ": ") + error.what() + (is_over ? " (--limit)" : ""));
    }
}

bool is_table(const hv::StoredFile &file) {
    return of_file(file, [&] { return hv::detail::begins_as_table(file); });
}

hv::TableFooter footer_of(const hv::StoredFile &file) {
    return of_file(file, [&] { return hv::detail::read_footer(file); });
}

hv::Table load_table(const hv::StoredFile &file, hv::Limit limit,
                     const std::optional<std::vector<std::string>> &names) {
    if (!names) return of_file(file, [&] { return hv::detail::read_table(file, nullptr, limit); });
    const hv::TableFooter footer = footer_of(file);
    return of_file(file, [&] {
        for (const std::string &name : *names) footer[name];
        std::vector<std::string> chosen;
        for (const hv::ColumnFooter &column : footer.columns)
            if (std::find(names->begin(), names->end(), column.name) != names->end()) chosen.push_back(column.name);
        return hv::detail::read_table(file, &chosen, limit);
    });
}
