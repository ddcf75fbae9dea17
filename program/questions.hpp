// What is asked of a column beyond the calls of the library.
#ifndef HIVEVIGIL_PROGRAM_QUESTIONS_HPP
#define HIVEVIGIL_PROGRAM_QUESTIONS_HPP
#include "logical.hpp"
#include <string>
#include <vector>

// How many rows are not null: by runs where there are some.
size_t count_valid(const hv::Column &column);

// "i64?: 6 rows in 3 runs"
std::string summary_of(const hv::Column &column, const RowType &type);

// A comparison with one value, as it is written.
struct Condition {
    hv::Operator by;
    std::string value;
};
// "> 4", ">4", "gt 4". Throws BadUsage where it begins with none of these operators.
Condition condition_of_text(const std::string &text);
// Is one of these operators somewhere in the text?
bool has_operator(const std::string &text);

// The rows that meet all conditions; a null meets none. Throws a Failure for a value that the type cannot have.
hv::Column rows_where(const hv::Column &column, const RowType &type, const std::vector<Condition> &conditions);

// What is asked of a column, as the command line says it.
enum class Question { count, sum, mean, least, greatest };
// The question of a word: count, sum, mean, min, max; none of another.
std::optional<Question> question_of_word(const std::string &word);
// The answer as a field of a CSV file, nothing where it is null. Throws a Failure where such rows have none.
std::string answer_of(const hv::Column &column, const RowType &type, Question question);

// Rows `start` to `stop` - 1 (some of them, since all are held at once) as fields of a CSV file; lists as JSON.
std::vector<std::string> fields_of_rows(const hv::Column &column, const RowType &type, size_t start, size_t stop);

// Writes rows `start` to `stop` - 1, a line each, as such fields.
void print_rows(const hv::Column &column, const RowType &type, size_t start, size_t stop);

// Writes a line for each run: its first row, the row after its last, and its value. Flat rows are put into runs first.
void print_runs(const hv::Column &column, const RowType &type);

#endif
