// What is asked of the groups of a table, over hv_table_group_by of hivevigil_tables.h: a part of hivevigil_table.hpp,
// which includes it.
//
//     table.group_by({"station"}).agg({{"readings", hv::Fold::rows}, {"highest", hv::Fold::greatest, "level"}});
#ifndef HIVEVIGIL_TABLE_GROUPS_HPP
#define HIVEVIGIL_TABLE_GROUPS_HPP
#include "hivevigil_table.hpp"

namespace hv {

// A column of answers: its name, what is asked, and of which column; nobody needs one for Fold::rows.
struct GroupAnswer {
    std::string name;
    Fold fold;
    std::string column = {};
};

// The rows of a table by runs of neighbours that are equal in all columns of keys, null equal to null: rows that are
// sorted by these come in one group for each of their values.
class TableGroups {
public:
    TableGroups(const Table &table, const std::vector<std::string> &names);
    // How many groups there are.
    size_t size() const { return each_key.rows(); }
    // The key of each group, under the names of their columns.
    const Table &keys() const { return each_key; }
    // The number of rows of each group, in u64.
    Column sizes() const { return fold({"", Fold::rows}).column; }
    // What is asked of a column in each group, flat, of a type that has null, and null where the group has no value
    // that is not null (a count: 0): the sum of integers in i64 or u64, of floats the exact sum as a double, rounded
    // once, of decimals in 38 digits; rows and counts in u64; the least, greatest, first or last value of all but
    // lists: texts by their bytes, false below true, and floats in their total order, where the least and the greatest
    // leave NaN out as they do null. Refused as HV_TABLE_UNKNOWN_NAME, as HV_UNSUPPORTED where a column is not asked
    // this, and as HV_CAST_OUT_OF_RANGE for the first group (first field, from 0) whose sum does not fit.
    NamedColumn fold(const GroupAnswer &asked) const;
    // The keys, then the answers, a row for each group. Refused as HV_TABLE_NAME_TWICE, then as `fold`, where each
    // column is looked at before a sum is found that does not fit.
    Table agg(const std::vector<GroupAnswer> &asked) const;

private:
    Table table;
    std::vector<std::string> names;
    Table each_key;

    TableError refusal(int32_t answer, hv_error fields, const std::vector<GroupAnswer> &asked) const;
};

inline TableGroups Table::group_by(const std::vector<std::string> &names) const { return TableGroups(*this, names); }

inline TableGroups::TableGroups(const Table &of, const std::vector<std::string> &keys)
    : table(of.clone()), names(keys), each_key(agg({})) {}

inline NamedColumn TableGroups::fold(const GroupAnswer &asked) const {
    std::string other; // a name that no key has: greater than each of theirs
    for (const std::string &name : names) other = std::max(other, name) + "'";
    return {asked.name, agg({{other, asked.fold, asked.column}})[other]};
}

inline Table TableGroups::agg(const std::vector<GroupAnswer> &asked) const {
    std::vector<std::string> of_answers, of_columns;
    Bytes folds;
    for (const GroupAnswer &each : asked) {
        of_answers.push_back(each.name);
        of_columns.push_back(each.fold == Fold::rows ? names.front() : each.column); // any column has rows
        folds.push_back(static_cast<uint8_t>(each.fold));
    }
    const Column keys = table.texts_of(names), columns = table.texts_of(of_columns);
    const Column answers = detail::texts_or(
        of_answers, [] { throw TableError(HV_TYPE_MISMATCH, {}, "the name of a column is not UTF-8"); });
    Table made;
    hv_error fields{};
    const int32_t answer = hv_table_group_by(table.raw(), keys.raw(), answers.raw(), columns.raw(), folds.data(),
                                             folds.size(), &made.handle, &fields);
    if (answer) throw refusal(answer, fields, asked);
    return made;
}

namespace detail {

// Why a column has not this answer.
inline Error no_answer(const Column &values, Fold by) {
    if (by != Fold::sum) return {HV_UNSUPPORTED, {}};
    return {HV_UNSUPPORTED, {}, words_of_sum(values.kind(), values.logical_type(), HV_UNSUPPORTED, {})};
}

// The sum of a group that does not fit 64 bits, or 38 digits.
inline Error sum_of_group(hv_kind values, uint64_t group) {
    const hv_error fields{group, 0, 0};
    if (values.number != HV_DECIMAL) return {HV_CAST_OUT_OF_RANGE, fields, words_of_group(values, fields)};
    return {HV_CAST_OUT_OF_RANGE, fields,
            "decimal overflow: the sum of group " + std::to_string(group) + " leaves 38 digits"};
}

} // namespace detail

// What the library refused of the groups, as C++ has it.
inline TableError TableGroups::refusal(int32_t answer, hv_error fields, const std::vector<GroupAnswer> &asked) const {
    switch (answer) {
    case HV_TABLE_NO_KEYS: return {HV_UNSUPPORTED, {}, "at least one column has the keys"};
    case HV_TABLE_KEY_OF_LISTS: return detail::about(names[fields.first], Error(HV_UNSUPPORTED, {}));
    case HV_TABLE_ANSWER_TWICE:
        return detail::name_twice(asked[fields.second].name, fields.first, names.size() + fields.second);
    case HV_TABLE_UNKNOWN_COLUMN: return detail::no_column(asked[fields.first].column, table.names());
    case HV_TABLE_UNSUPPORTED_ANSWER: {
        const GroupAnswer &of = asked[fields.first];
        return detail::about(of.column, detail::no_answer(table[of.column], of.fold));
    }
    case HV_TABLE_SUM_OVERFLOW: {
        const std::string &column = asked[fields.first].column;
        return detail::about(column, detail::sum_of_group(table[column].kind(), fields.second));
    }
    default: return detail::refusal(answer, fields, table, names);
    }
}

} // namespace hv
#endif
