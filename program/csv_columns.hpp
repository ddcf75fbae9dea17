// Columns of a CSV file in runs: the type of each from all of its fields, then its rows. There are two passes over the
// file, and what is held goes by runs and not by rows.
#ifndef HIVEVIGIL_PROGRAM_CSV_COLUMNS_HPP
#define HIVEVIGIL_PROGRAM_CSV_COLUMNS_HPP
#include "csv_reader.hpp"
#include "logical.hpp"

// How a CSV file is read.
struct CsvOptions {
    std::string path;
    std::optional<char> separator;
    std::optional<std::string> column; // the only one that is read; all where there is none
    std::optional<RowType> type;       // the type of that column, in place of the one that its fields have
};

// A column that was read, as few runs as there can be. An empty field is null.
struct CsvColumn {
    std::string name;
    RowType type;
    hv::Column runs;
    size_t nulls;
};

// The columns of a file, which is at the path of the options, in its order. Throws a Failure that names the line where
// it has not as many fields as the first, which has the names, or where a field does not fit the type.
std::vector<CsvColumn> read_csv(const CsvOptions &options, InputFile file);

#endif
