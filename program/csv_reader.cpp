#include "csv_reader.hpp"
#include "column_file.hpp"
#include "failure.hpp"
#include <algorithm>

// The bytes in a file that is removed where it is closed, and that can be read twice, as a pipe cannot.
static File copied(std::FILE *from, const std::string &path, std::vector<char> &block) {
    File copy(std::tmpfile());
    if (!copy) throw refused_file(path + ": a temporary file");
    for (size_t count; (count = std::fread(block.data(), 1, block.size(), from)) > 0;)
        if (std::fwrite(block.data(), 1, count, copy.get()) != count) throw refused_file(path + ": a temporary file");
    if (std::ferror(from)) throw refused_file(path);
    if (std::fflush(copy.get())) throw refused_file(path + ": a temporary file");
    return copy;
}

InputFile::InputFile(const std::string &path) : name(path), file(std::fopen(path.c_str(), "rb")), block(1 << 16) {
    if (!file) throw refused_file(name);
    was_copied = std::fseek(file.get(), 0, SEEK_SET) != 0;
    if (was_copied) file = copied(file.get(), name, block);
    restart();
}

std::vector<uint8_t> InputFile::bytes() {
    restart();
    std::vector<uint8_t> all;
    for (int byte; (byte = get()) != EOF;) all.push_back(static_cast<uint8_t>(byte));
    return all;
}

void InputFile::restart() {
    std::rewind(file.get());
    at = filled = 0;
}

int InputFile::filled_peek() {
    at = 0;
    filled = std::fread(block.data(), 1, block.size(), file.get());
    if (filled == 0 && std::ferror(file.get())) throw refused_file(name);
    return filled ? static_cast<unsigned char>(block[0]) : EOF;
}

// The first of the marks that the first line has, except in fields in quotes.
static char separator_of(std::string_view begun) {
    static constexpr std::string_view marks = ",;\t|";
    std::string_view line = begun.substr(0, begun.find_first_of("\r\n"));
    if (line.substr(0, 3) == "\xef\xbb\xbf") line.remove_prefix(3);
    size_t best = marks.npos;
    bool may_open = true, is_quoted = false; // a quote opens and closes a field that begins with one
    for (char letter : line) {
        if (letter == '"' && may_open) is_quoted = !is_quoted;
        if (letter == '"' || is_quoted) continue;
        best = std::min(best, marks.find(letter));
        may_open = marks.find(letter) != marks.npos;
    }
    return best == marks.npos ? ',' : marks[best];
}

CsvReader::CsvReader(InputFile file, std::optional<char> separator)
    : input(std::move(file)), mark(separator ? *separator : separator_of(input.begun())) {
    const Kept kept = kept_as(input.begun());
    if (kept != Kept::nothing)
        throw Failure(input.path() + " is the file of a " + (kept == Kept::table ? "table" : "column") +
                      ", not a CSV file");
    restart();
}

void CsvReader::restart() {
    input.restart();
    lines = 0;
    if (input.begun().substr(0, 3) == "\xef\xbb\xbf")
        for (int byte = 0; byte < 3; byte++) input.get();
}

std::string CsvReader::at_line(const std::string &sentence) const {
    return input.path() + ": line " + std::to_string(lines) + sentence;
}

bool CsvReader::next(std::vector<std::string> &fields) {
    while (input.peek() != EOF && is_line_end()) end_line();
    if (input.peek() == EOF) return false;
    size_t count = 0;
    for (bool more = true; more; count++) {
        if (count == fields.size()) fields.emplace_back();
        fields[count].clear();
        read_field(fields[count]);
        more = input.peek() == mark;
        if (more) input.get();
    }
    fields.resize(count);
    end_line();
    return true;
}

// CR, LF, both, or the end of the file, which ends a line too.
void CsvReader::end_line() {
    lines++;
    if (input.get() == '\r' && input.peek() == '\n') input.get();
}

void CsvReader::read_field(std::string &field) {
    if (input.peek() == '"') return read_quoted(field);
    while (!is_field_end()) field += static_cast<char>(input.get());
}

void CsvReader::read_quoted(std::string &field) {
    input.get();
    while (input.peek() != '"' || (input.get(), input.peek() == '"')) {
        const int byte = input.get();
        if (byte == EOF) {
            lines++;
            throw Failure(at_line(": the file ends within quotes"));
        }
        lines += byte == '\n' || (byte == '\r' && input.peek() != '\n');
        field += static_cast<char>(byte);
    }
    if (is_field_end()) return;
    lines++;
    throw Failure(at_line(": text after a closing quote"));
}
