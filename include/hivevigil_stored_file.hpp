// Files of bytes, read from any place, and written whole or not at all: a part of hivevigil_table.hpp, which includes
// it, over hivevigil_stored_file.h. POSIX. What the system refuses is thrown as HV_TABLE_FILE_REFUSED.
#ifndef HIVEVIGIL_STORED_FILE_HPP
#define HIVEVIGIL_STORED_FILE_HPP
#include "hivevigil_stored_file.h"
#include "hivevigil.hpp"

namespace hv {

// A refusal of a table, or of its file: a number of hivevigil_table_errors.h, or of hivevigil.h.
class TableError : public Error {
public:
    using Error::Error;
    // "HV_TABLE_UNKNOWN_NAME"
    const char *name() const override { return hv_table_error_name(number); }
};

namespace detail {

// What the system refused of a file, in its words, or what a call refused.
template <class Call> void ask_file(const std::string &path, Call call) {
    hv_error fields{};
    const int32_t answer = call(&fields);
    if (answer == HV_TABLE_FILE_REFUSED)
        throw TableError(answer, fields, path + ": " + std::strerror(static_cast<int>(fields.first)));
    if (answer) throw Error(answer, fields);
}

// Bytes that C wrote.
class Buffer {
public:
    Buffer() = default;
    ~Buffer() { hv_buffer_free(&all); }
    Buffer(const Buffer &) = delete;
    Buffer &operator=(const Buffer &) = delete;
    hv_buffer *raw() { return &all; }
    Bytes bytes() const { return Bytes(all.at, all.at + all.size); }

private:
    hv_buffer all = HV_BUFFER_EMPTY;
};

} // namespace detail

// The bytes of a file, read from any place; of one that is not a regular file (a pipe) read at once.
class StoredFile {
public:
    explicit StoredFile(const std::string &path) : name(path) {
        detail::ask_file(name, [&](auto *error) { return hv_stored_file_open(name.c_str(), &file, error); });
    }
    // Bytes that are in memory, under the name of `path`.
    StoredFile(Bytes bytes, std::string path)
        : name(std::move(path)), own(std::move(bytes)), file(hv_stored_bytes(own.data(), own.size())) {}
    ~StoredFile() { hv_stored_file_close(&file); }
    StoredFile(const StoredFile &) = delete;
    StoredFile &operator=(const StoredFile &) = delete;
    const std::string &path() const { return name; }
    size_t size() const { return file.size; }
    const hv_stored_file *raw() const { return &file; }
    // `length` bytes from `start` on, or fewer where the file ends.
    Bytes read(size_t start, size_t length) const {
        detail::Buffer found;
        detail::ask_file(
            name, [&](auto *error) { return hv_stored_file_read(&file, start, length, found.raw(), error); });
        return found.bytes();
    }

private:
    std::string name;
    Bytes own;
    hv_stored_file file = HV_STORED_FILE_EMPTY;
};

// Writes the bytes as a file, which is replaced whole or not at all; one that is not a regular file (/dev/stdout) is
// written to.
inline void save_bytes(const Bytes &bytes, const std::string &path) {
    detail::ask_file(
        path, [&](auto *error) { return hv_save_bytes(bytes.data(), bytes.size(), path.c_str(), error); });
}

} // namespace hv
#endif
