// Tables in files, as hivevigil_table_file.hpp has them, for the program.
#ifndef HIVEVIGIL_PROGRAM_TABLE_FILE_HPP
#define HIVEVIGIL_PROGRAM_TABLE_FILE_HPP
#include "column_file.hpp"
#include <hivevigil_table.hpp>

// Does the file begin as that of a table? That of a column begins otherwise.
bool is_table(const hv::StoredFile &file);

// What the footer says of the columns. Throws a Failure where the file is not a table's.
hv::TableFooter footer_of(const hv::StoredFile &file);

// The table of a file, or its columns of these names, each once, in the order of the file, within a limit. Throws a
// Failure where it is not a table's, or has no column of a name.
hv::Table load_table(const hv::StoredFile &file, hv::Limit limit,
                     const std::optional<std::vector<std::string>> &names = std::nullopt);

#endif
