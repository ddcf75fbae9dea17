// Messages of columns (docs/column.proto): read field by field, for what no call says of a form, and written, for
// columns that no call makes of rows.
#ifndef VECTORS_MESSAGES_HPP
#define VECTORS_MESSAGES_HPP
#include "library.hpp"
#include <stdexcept>

namespace vectors {

namespace field {
enum Field {
    version = 1, type, form, rows, validity, validity_bits, items, offset, ends_type, run_lengths, values,
    text_lengths, text_bytes, precision, scale, validity_runs, elements, offsets, sizes, element_type,
    element_nullability
};
}
enum MessageForm { flat_form = 1, runs_form, constant_form, lists_form };
enum ValidityCode { never_null = 1, none_null, all_null, by_bits, by_runs };
inline constexpr int list_type = HV_LIST + 1; // types are counted from 1 in messages

// ---- Reading ----

// The varint from place `at` on, which moves past it.
inline uint64_t take_varint(const std::string &bytes, size_t &at) {
    uint64_t number = 0;
    for (unsigned shift = 0; shift < 70; shift += 7) {
        const unsigned byte = static_cast<unsigned char>(bytes.at(at++));
        if (shift < 64) number |= static_cast<uint64_t>(byte & 127) << shift;
        if (byte < 128) return number;
    }
    throw std::runtime_error("a number of a message that does not end");
}

inline std::vector<uint64_t> varints_of(const std::string &bytes) {
    std::vector<uint64_t> numbers;
    for (size_t at = 0; at < bytes.size();) numbers.push_back(take_varint(bytes, at));
    return numbers;
}

// The fields of a message by their numbers.
class Message {
public:
    explicit Message(const std::string &bytes) {
        for (size_t at = 0; at < bytes.size();) {
            const uint64_t key = take_varint(bytes, at), number = take_varint(bytes, at);
            if (key % 8 == 0) {
                numbers[key / 8] = number;
                continue;
            }
            if (key % 8 != 2 || number > bytes.size() - at) throw std::runtime_error("a field that ends nowhere");
            parts[key / 8] = bytes.substr(at, number);
            at += number;
        }
    }
    bool has(uint64_t field) const { return numbers.count(field) || parts.count(field); }
    uint64_t number(uint64_t field) const { return numbers.at(field); }
    // A part, of no bytes where it is left out.
    const std::string &part(uint64_t field) const {
        static const std::string empty;
        const auto found = parts.find(field);
        return found == parts.end() ? empty : found->second;
    }
    Message message(uint64_t field) const { return Message(part(field)); }

private:
    std::map<uint64_t, uint64_t> numbers;
    std::map<uint64_t, std::string> parts;
};

inline bool bit_at(const std::string &bits, size_t index) {
    return static_cast<unsigned char>(bits.at(index / 8)) >> index % 8 & 1;
}

// The type of a number, counted from 1, with the precision and scale of the message where it is one of decimals.
inline hv_kind kind_of(const Message &message, uint64_t type, bool is_nullable) {
    hv_kind kind = kind_of_number(static_cast<int>(type) - 1, is_nullable);
    if (kind.number != HV_DECIMAL) return kind;
    const uint64_t zigzag = message.number(field::scale);
    const int size = static_cast<int>(zigzag / 2);
    kind.precision = static_cast<uint8_t>(message.number(field::precision));
    kind.scale = static_cast<int8_t>(zigzag % 2 ? -size - 1 : size);
    return kind;
}

inline hv_kind kind_of(const Message &message) {
    return kind_of(message, message.number(field::type), message.number(field::validity) != never_null);
}

// The word of an integer, decimal or boolean that is stored at a place.
inline std::string stored_word(const hv_kind &kind, const std::string &items, size_t index) {
    if (kind.number == HV_BOOL) return bit_at(items, index) ? "true" : "false";
    const size_t width = width_of(kind), start = index * width;
    const bool has_sign = is_signed(kind) || kind.number == HV_DECIMAL;
    const bool is_negative = has_sign && bit_at(items, (start + width) * 8 - 1);
    UnsignedWide number = is_negative ? ~static_cast<UnsignedWide>(0) : 0;
    for (size_t byte = width; byte-- > 0;)
        number = number << 8 | static_cast<unsigned char>(items.at(start + byte));
    return word_of(static_cast<Wide>(number));
}

inline std::string value_word(const hv_kind &kind, const std::string &stored) {
    if (!is_text(kind)) return stored_word(kind, stored, 0);
    return kind.number == HV_UTF8 ? word_of_text(stored) : word_of_bytes(stored);
}

// The words of what a flat column stores, under null too.
inline Words stored_words(const Message &message) {
    const hv_kind kind = kind_of(message);
    const std::vector<uint64_t> lengths = varints_of(message.part(field::text_lengths));
    const size_t rows = message.number(field::rows);
    Words words;
    size_t start = 0;
    for (size_t row = 0; row < rows; row++) {
        if (is_text(kind)) {
            words.push_back(value_word(kind, message.part(field::text_bytes).substr(start, lengths.at(row))));
            start += lengths[row];
        } else {
            words.push_back(stored_word(kind, message.part(field::items), row));
        }
    }
    return words;
}

inline bool is_valid_at(const Message &message, size_t row) {
    const uint64_t validity = message.number(field::validity);
    return validity == by_bits ? bit_at(message.part(field::validity_bits), row) : validity != all_null;
}

// ---- Writing ----

class Writing {
public:
    // A message of version 1.
    Writing(int type, MessageForm form, uint64_t rows) {
        number(field::version, 1).number(field::type, static_cast<uint64_t>(type));
        number(field::form, form).number(field::rows, rows);
    }
    Writing &number(field::Field field, uint64_t given) {
        varint(static_cast<uint64_t>(field) << 3);
        varint(given);
        return *this;
    }
    Writing &part(field::Field field, const std::string &given) {
        varint(static_cast<uint64_t>(field) << 3 | 2);
        varint(given.size());
        bytes += given;
        return *this;
    }
    Writing &decimal(const hv_kind &kind) {
        if (kind.number != HV_DECIMAL) return *this;
        const int scale = kind.scale;
        return number(field::precision, kind.precision)
            .number(field::scale, static_cast<uint64_t>(scale < 0 ? -2 * scale - 1 : 2 * scale));
    }
    const std::string &text() const { return bytes; }
    static std::string varints(const std::vector<uint64_t> &numbers) {
        Writing all;
        for (const uint64_t each : numbers) all.varint(each);
        return all.bytes;
    }

private:
    Writing() = default;
    void varint(uint64_t given) {
        for (; given >= 128; given >>= 7) bytes += static_cast<char>(given | 128);
        bytes += static_cast<char>(given);
    }
    std::string bytes;
};

inline std::string packed_bits(const std::vector<bool> &bits) {
    std::string bytes((bits.size() + 7) / 8, 0);
    for (size_t at = 0; at < bits.size(); at++)
        if (bits[at]) bytes[at / 8] = static_cast<char>(bytes[at / 8] | 1 << at % 8);
    return bytes;
}

// The items of integers, decimals or booleans.
inline std::string items_of(const hv_kind &kind, const Rows &rows) {
    std::vector<bool> truths;
    std::string bytes;
    for (const Row &row : rows) {
        const Wide number = stored_number(row, kind);
        truths.push_back(number != 0);
        for (size_t byte = 0; byte < width_of(kind); byte++) bytes += static_cast<char>(number >> 8 * byte);
    }
    return kind.number == HV_BOOL ? packed_bits(truths) : bytes;
}

// The message of a flat column. Of texts and bytes no row is valid.
inline std::string flat_message(const hv_kind &kind, ValidityCode validity, const std::vector<bool> &bits,
                                const Rows &rows) {
    Writing message(kind.number + 1, flat_form, rows.size());
    message.number(field::validity, validity);
    if (validity == by_bits) message.part(field::validity_bits, packed_bits(bits));
    if (!is_text(kind)) return message.part(field::items, items_of(kind, rows)).decimal(kind).text();
    for (const Row &row : rows) require(!row.is_valid && row.value.sort == Value::null);
    const std::string lengths = Writing::varints(std::vector<uint64_t>(rows.size()));
    return message.part(field::text_lengths, lengths).part(field::text_bytes, "").text();
}

// ---- Messages by calls ----

inline std::string message_of(const Column &column) {
    size_t size = 0;
    ask([&](hv_error *error) { return hv_write_size(column.get(), &size, error); });
    std::string bytes(size, 0);
    ask([&](hv_error *error) { return hv_write(column.get(), data_of(bytes), bytes.size(), &size, error); });
    return bytes;
}

inline Shared read_message(const std::string &bytes) {
    return made([&](hv_column *out, hv_error *error) {
        return hv_read_column(data_of(bytes), bytes.size(), out, error);
    });
}

// The column under another format. The columns of lines have none.
inline Shared under(const Column &column, const std::string &format) {
    const Memory::Aside aside;
    return made([&](hv_column *out, hv_error *error) {
        return hv_with_type(column.get(), data_of(format), format.size(), out, error);
    });
}

// The format of a column, of at most so many bytes.
inline std::string format_of(const Column &column, size_t most) {
    std::string format(most, 0);
    size_t size = 0;
    ask([&](hv_error *error) { return hv_type(column.get(), data_of(format), most, &size, error); });
    return format.substr(0, size);
}

} // namespace vectors
#endif
