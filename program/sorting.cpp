#include "sorting.hpp"
#include "failure.hpp"
#include <algorithm>

// The name that the text has from a place on, before a comma or its end; none where there is none.
static std::optional<std::string> name_at(const std::string &text, size_t at, const std::vector<std::string> &names) {
    std::optional<std::string> longest;
    for (const std::string &name : names) {
        const size_t stop = at + name.size();
        const bool is_there = text.compare(at, name.size(), name) == 0 && (stop == text.size() || text[stop] == ',');
        if (is_there && (!longest || name.size() > longest->size())) longest = name;
    }
    return longest;
}

// Adds the columns that a text names.
static void add_keys(std::vector<hv::SortKey> &keys, const std::string &text, const std::vector<std::string> &names) {
    for (size_t at = 0; at <= text.size(); at++) { // past the comma
        std::optional<std::string> name = name_at(text, at, names);
        const bool is_descending = !name && at < text.size() && text[at] == '-';
        if (is_descending) name = name_at(text, ++at, names);
        if (!name) throw Failure(hv::detail::no_column_words(text.substr(at, text.find(',', at) - at), names));
        at += name->size();
        const auto is_it = [&](const hv::SortKey &key) { return key.name == *name; };
        if (std::any_of(keys.begin(), keys.end(), is_it)) continue;
        keys.push_back({std::move(*name), is_descending ? hv::Order::descending : hv::Order::ascending});
    }
}

std::vector<hv::SortKey> sort_keys(const std::vector<std::string> &texts, const std::vector<std::string> &names) {
    std::vector<hv::SortKey> keys;
    for (const std::string &text : texts) add_keys(keys, text, names);
    return keys;
}

std::vector<hv::SortKey> sort_keys(const std::string &text, const std::vector<std::string> &names) {
    return sort_keys(std::vector<std::string>{text}, names);
}
