// What ends the program: a sentence on standard error, and a status.
#ifndef HIVEVIGIL_PROGRAM_FAILURE_HPP
#define HIVEVIGIL_PROGRAM_FAILURE_HPP
#include <cerrno>
#include <cstring>
#include <stdexcept>
#include <string>

// A file or a value that cannot be served: status 1.
struct Failure : std::runtime_error {
    using std::runtime_error::runtime_error;
};

// A command line that says nothing to do: status 2.
struct BadUsage : std::runtime_error {
    using std::runtime_error::runtime_error;
};

// What the system refused of a file.
inline Failure refused_file(const std::string &path) { return Failure(path + ": " + std::strerror(errno)); }

#endif
