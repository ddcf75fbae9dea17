// Which columns the rows of a table are sorted by, as the command line says it.
#ifndef HIVEVIGIL_PROGRAM_SORTING_HPP
#define HIVEVIGIL_PROGRAM_SORTING_HPP
#include <hivevigil_table.hpp>

// "station,-level": names of columns with a comma between them, each with a minus in front where the order is
// descending. Where several names fit it has the longest, and a column that is named again says nothing more. Throws a
// Failure where a part begins with none of them.
std::vector<hv::SortKey> sort_keys(const std::string &text, const std::vector<std::string> &names);

// The same of several texts, which come one after the other.
std::vector<hv::SortKey> sort_keys(const std::vector<std::string> &texts, const std::vector<std::string> &names);

#endif
