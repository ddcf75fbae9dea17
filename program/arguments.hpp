// The command line: words, and options with their values.
#ifndef HIVEVIGIL_PROGRAM_ARGUMENTS_HPP
#define HIVEVIGIL_PROGRAM_ARGUMENTS_HPP
#include "failure.hpp"
#include <hivevigil_table.hpp>
#include <map>
#include <optional>
#include <string>
#include <vector>

// A question about a column that is an option: "mean" of "level".
struct Asked {
    std::string word, column;
    // The name of the answer: "mean(level)"
    std::string name() const { return word + "(" + column + ")"; }
};

struct Arguments {
    std::vector<std::string> words; // the command, and what is not an option
    std::map<std::string, std::vector<std::string>> options;
    std::vector<Asked> asked; // in the order of the command line

    bool has(const std::string &name) const { return options.count(name) != 0; }
    // The value of an option that is given at most once.
    std::optional<std::string> value(const std::string &name) const {
        const auto found = options.find(name);
        if (found == options.end()) return std::nullopt;
        if (found->second.size() > 1) throw BadUsage("--" + name + " is given twice");
        return found->second[0];
    }
    std::string needed(const std::string &name) const {
        const std::optional<std::string> found = value(name);
        if (!found) throw BadUsage(words[0] + " needs --" + name);
        return *found;
    }
};

// Throws BadUsage for an option that is not known, or has no value where it takes one.
Arguments arguments_of(int count, char **given);

// Refuses what a command does not take: another number of words, or options that it does not read.
void take(const Arguments &arguments, size_t words, const std::vector<std::string> &options);

// The number that an option has. Throws BadUsage where the text is none.
size_t count_of(const std::string &text, const std::string &option, const std::string &what = "rows");

// Where --nulls puts null in rows that are sorted. Throws BadUsage where nothing is.
hv::Nulls asked_nulls(const Arguments &arguments);

// How many bytes columns that are kept as differences may take in memory.
hv::Limit asked_limit(const Arguments &arguments);

#endif
