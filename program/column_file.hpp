// Columns in files, each a message of its own as docs/BYTES.md says it, which keeps what the integers of a column mean.
// Versions before 1.7 wrote a line before the message of the integers in place of that, "hivevigil type 1 FORMAT": it
// is read too. What the system refuses of a file is an hv::TableError.
#ifndef HIVEVIGIL_PROGRAM_COLUMN_FILE_HPP
#define HIVEVIGIL_PROGRAM_COLUMN_FILE_HPP
#include "logical.hpp"
#include <hivevigil_table.hpp>
#include <string>
#include <string_view>

// A column of a file, which has no name.
struct StoredColumn {
    hv::Column column;
    size_t message_bytes; // in the file from which it was read

    RowType type() const { return type_of(column); }
};

// What a file of columns is, by its first bytes.
enum class Kept { nothing, table, column };

Kept kept_as(std::string_view begun);

// The column of a file. Throws a Failure where it is not a column's.
StoredColumn load_column(const hv::StoredFile &file);

void save_column(const hv::Column &column, const std::string &path);

#endif
