// Records of a CSV file by RFC 4180. It is written here because a C++ compiler and the library are all that the program
// needs to be built: Debian's libcsv, say, would have to be installed first.
#ifndef HIVEVIGIL_PROGRAM_CSV_READER_HPP
#define HIVEVIGIL_PROGRAM_CSV_READER_HPP
#include <cstdint>
#include <cstdio>
#include <memory>
#include <optional>
#include <string>
#include <vector>

struct ClosesFile {
    void operator()(std::FILE *file) const { std::fclose(file); }
};
using File = std::unique_ptr<std::FILE, ClosesFile>;

// The bytes of a file in turn, read by blocks. One that cannot be read twice, as a pipe, is copied to a temporary file.
class InputFile {
public:
    explicit InputFile(const std::string &path);
    // Goes back to the first byte.
    void restart();
    // The next byte, which stays; EOF at the end.
    int peek() { return at < filled ? static_cast<unsigned char>(block[at]) : filled_peek(); }
    // The next byte.
    int get() {
        const int next = peek();
        at += next != EOF;
        return next;
    }
    // The first bytes of the file, at most a block of them, while nothing is read yet.
    std::string_view begun() { return peek() == EOF ? std::string_view() : std::string_view(block.data(), filled); }
    const std::string &path() const { return name; }
    bool is_copied() const { return was_copied; }
    // All bytes of the file.
    std::vector<uint8_t> bytes();

private:
    std::string name;
    File file;
    bool was_copied = false;
    std::vector<char> block;
    size_t at = 0, filled = 0;
    int filled_peek();
};

// A field may be in double quotes, in which a doubled quote is one, and a mark or a line end is text. Lines end in LF,
// CR or both; a line without a byte is skipped, and so is a byte order mark in front.
class CsvReader {
public:
    // Fields are divided by `separator`; where there is none, by the first of , ; tab | that the first line has.
    CsvReader(InputFile file, std::optional<char> separator);
    // Goes back to the first record.
    void restart();
    // The fields of the next record; false at the end of the file. Throws a Failure that names the line.
    bool next(std::vector<std::string> &fields);
    // The line on which the last record ended, from 1.
    size_t line() const { return lines; }
    // A sentence about the line of the last record.
    std::string at_line(const std::string &sentence) const;

private:
    InputFile input;
    char mark;
    size_t lines = 0;

    bool is_field_end() { return input.peek() == mark || is_line_end(); }
    bool is_line_end() { return input.peek() == '\n' || input.peek() == '\r' || input.peek() == EOF; }
    void end_line();
    void read_field(std::string &field);
    void read_quoted(std::string &field);
};

#endif
