// What is asked of a table.
#ifndef HIVEVIGIL_PROGRAM_TABLE_QUESTIONS_HPP
#define HIVEVIGIL_PROGRAM_TABLE_QUESTIONS_HPP
#include "arguments.hpp"
#include "questions.hpp"
#include "table_file.hpp"

// A comparison of a column with one value, as it is written.
struct NamedCondition {
    std::string name;
    Condition condition;
};
// "level > 4", "level>4", "level gt 4": the name of a column and a condition. Throws BadUsage where it begins with none
// of these names, or goes on with no operator; of several names that fit it has the longest.
NamedCondition named_condition(const std::string &text, const std::vector<std::string> &names);

// The rows that meet all conditions; a null meets none. Throws a Failure for a value that the type cannot have.
hv::Table table_where(const hv::Table &table, const std::vector<NamedCondition> &conditions);

// A row for each group of rows that are equal in the columns of the keys, in the order of these: the keys, then the
// answers, or how many rows there are where nothing is asked. Throws a Failure where a column is not asked this.
hv::Table table_of_groups(const hv::Table &table, const std::vector<hv::SortKey> &keys, hv::Nulls nulls,
                          const std::vector<Asked> &asked);
// Writes the names of the answers, then the answers about all rows, as a CSV file.
void print_answers(const hv::Table &table, const std::vector<Asked> &asked);

// A line for each column: its name, its type (and a format of Arrow that is not of such integers), rows that are null,
// runs, bytes in the file and in memory.
std::vector<std::vector<std::string>> lines_of_table(const hv::Table &table, const hv::TableFooter &footer);

// Writes the names, then rows `start` to `stop` - 1, as a CSV file.
void print_table_rows(const hv::Table &table, size_t start, size_t stop);

#endif
