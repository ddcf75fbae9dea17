// What several commands ask of the command line and of a file.
#ifndef HIVEVIGIL_PROGRAM_COMMANDS_HPP
#define HIVEVIGIL_PROGRAM_COMMANDS_HPP
#include "arguments.hpp"
#include "table_file.hpp"

// What a refusal within is about: the file.
template <class Work> auto about_file(const Arguments &arguments, Work work) {
    try {
        return work();
    } catch (const Failure &error) {
        throw Failure(arguments.words[1] + ": " + error.what());
    }
}

// What --sort asks for: nothing where it is not given.
std::vector<hv::SortKey> asked_keys(const Arguments &arguments, const std::vector<std::string> &names);

// The rows in the order that --sort asks for.
hv::Table in_order(const Arguments &arguments, hv::Table table);

// The column that is asked for: that of the file, or of --column of a table.
StoredColumn asked_column(const Arguments &arguments, const hv::StoredFile &file);

// Refuses options that a file of this sort does not take.
void refuse_options(const Arguments &arguments, const std::string &sort, const std::vector<const char *> &options);

#endif
