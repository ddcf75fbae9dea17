#include "column_file.hpp"
#include "failure.hpp"
#include "values.hpp"
#include <algorithm>

static const std::string line_of_type = "hivevigil type 1 ";

Kept kept_as(std::string_view begun) {
    const auto begins = [&](std::string_view with) { return begun.substr(0, with.size()) == with; };
    if (begins("\x0a\x09hivevigil\x10")) return Kept::table;
    // fields 1, the version, and 2, the type, or 22, the logical type, of a message
    if (begins("\x08\x01\x10") || begins("\x08\x02\xb2\x01")) return Kept::column;
    const size_t line = begins(line_of_type) ? begun.find('\n') : begun.npos;
    const bool is_after_line = line != begun.npos && begun.substr(line + 1, 3) == "\x08\x01\x10";
    return is_after_line ? Kept::column : Kept::nothing;
}

// The format in the line of a type, which is taken off the bytes; none where there is no such line.
static std::optional<std::string> format_of_line(hv::Bytes &bytes) {
    const auto before = std::mismatch(line_of_type.begin(), line_of_type.end(), bytes.begin(), bytes.end());
    if (before.first != line_of_type.end()) return std::nullopt;
    const auto end = std::find(before.second, bytes.end(), '\n');
    if (end == bytes.end()) return std::nullopt; // and no column either
    std::string format(before.second, end);
    bytes.erase(bytes.begin(), end + 1);
    return format;
}

// The column of a line that names its type and of the message after it, which has none.
static hv::Column column_after_line(const std::string &format, const hv::Bytes &message) {
    const hv::Column read = hv::Column::from_bytes(message);
    if (!read.logical_type().empty() || !are_texts({format})) throw hv::Error(HV_BAD_METADATA, {});
    hv::Column typed = read.with_logical_type(format);
    if (!type_of(typed).logical) throw hv::Error(HV_BAD_METADATA, {});
    return typed;
}

StoredColumn load_column(const hv::StoredFile &file) {
    hv::Bytes bytes = file.read(0, file.size());
    const std::optional<std::string> format = format_of_line(bytes);
    try {
        return {format ? column_after_line(*format, bytes) : hv::Column::from_bytes(bytes), file.size()};
    } catch (const hv::Error &error) {
        if (error.number != HV_BAD_METADATA) throw;
        throw Failure(file.path() + ", of " + with_commas(file.size()) + " bytes, is not the file of a column");
    }
}

void save_column(const hv::Column &column, const std::string &path) { hv::save_bytes(column.to_bytes(), path); }
