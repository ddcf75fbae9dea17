// Tables of some rows of another, in order, or of the rows of two, over hivevigil_tables.h: a part of
// hivevigil_table.hpp, which includes it.
#ifndef HIVEVIGIL_TABLE_ROWS_HPP
#define HIVEVIGIL_TABLE_ROWS_HPP
#include "hivevigil_table.hpp"

namespace hv {

inline Table Table::slice(size_t start, size_t stop) const { return made({}, {}, hv_call_table_slice, start, stop); }
inline Table Table::take(const Column &indices) const {
    return made({}, "indices are integers, not " + to_string(indices.kind()), hv_call_table_take, indices.raw());
}
inline Table Table::filter(const Column &mask) const {
    return made({}, "a mask is of type bool, not " + to_string(mask.kind()), hv_call_table_filter, mask.raw());
}
template <class T> Table Table::filter_by(const std::string &name, Operator by, const T &value) const {
    const Column column = column_at(place_of(name));
    return filter(detail::about_column(name, [&] { return column.compare(by, value); }));
}
template <class T> Table Table::filter_by(const std::string &name, const std::string &sign, const T &value) const {
    return filter_by(name, detail::operator_of(sign), value);
}
inline Table Table::drop_null(const std::vector<std::string> &names) const {
    return made(names, {}, hv_call_table_drop_null, texts_of(names).raw());
}
inline Table Table::sort(const std::vector<SortKey> &keys, Nulls nulls) const {
    std::vector<std::string> names;
    Bytes flags;
    for (const SortKey &key : keys) {
        const int order = key.order == Order::descending ? HV_TABLE_DESCENDING : 0;
        const int place = key.nulls.value_or(nulls) == Nulls::last ? HV_TABLE_NULLS_LAST : 0;
        names.push_back(key.name), flags.push_back(static_cast<uint8_t>(order | place));
    }
    return made(names, {}, hv_call_table_sort, texts_of(names).raw(), flags.data(), flags.size());
}

namespace detail {

// The rows of a column, then those of another of its type, or of decimals of another scale.
inline Column joined(const Column &first, const Column &second) {
    if (are_of_two_scales(first, second)) {
        const auto both = aligned(first, second);
        return joined(both.first, both.second);
    }
    hv_column lent[] = {*first.raw(), *second.raw()};
    Column out;
    ask([&](auto *error) { return hv_arrow_concat(&initial_session(), lent, 2, out.raw(), error); },
        words_of_two(first.kind(), " is not joined with ", second.kind()));
    return out;
}

} // namespace detail

// The rows of both, column by column.
inline Table Table::joined(const Table &other) const {
    std::vector<NamedColumn> both;
    for (const NamedColumn &named : *this) {
        const NamedColumn &second = other.at(named.name);
        const std::string format = named.logical_type(), other_format = second.logical_type();
        if (format != other_format)
            throw TableError(HV_TYPE_MISMATCH, {}, "column '" + named.name + "': the logical types are '" + format +
                                                       "' and '" + other_format + "'");
        both.push_back({named.name, detail::about_column(named.name, [&] {
                            return detail::joined(named.column, second.column).with_logical_type(format);
                        })});
    }
    return Table(std::move(both));
}
inline Table Table::append(const Table &other) const {
    for (const std::string &name : other.names()) place_of(name);
    const Table second = other.select(names());
    Table out;
    hv_error fields{};
    const int32_t answer = hv_table_append(raw(), second.raw(), &out.handle, &fields);
    if (answer == HV_TABLE_OTHER_TYPE || answer == HV_UNSUPPORTED) return joined(second);
    if (answer) throw TableError(answer, fields);
    return out;
}

} // namespace hv
#endif
