// The command query: questions about the rows of a file.
#ifndef HIVEVIGIL_PROGRAM_QUERY_HPP
#define HIVEVIGIL_PROGRAM_QUERY_HPP
#include "arguments.hpp"

void query(const Arguments &arguments);

#endif
