// What a column is, as answers write it: its rows, its type and its form.
#ifndef VECTORS_FORMS_HPP
#define VECTORS_FORMS_HPP
#include "making.hpp"

namespace vectors {

// More rows than this are not written out.
inline constexpr uint64_t most_rows = uint64_t{1} << 32;

// A value that a call wrote, and the bytes of its text.
struct Found {
    hv_value value{};
    std::string text = std::string(256, 0);
};

inline std::string word_of(const Found &found) {
    const hv_value &value = found.value;
    switch (value.kind) {
    case HV_NULL: return "null";
    case HV_UNSIGNED: return std::to_string(value.as_unsigned);
    case HV_SIGNED: return std::to_string(value.as_signed);
    case HV_TRUTH: return value.truth ? "true" : "false";
    case HV_DECIMAL_VALUE:
        return word_of(static_cast<Wide>(static_cast<UnsignedWide>(value.as_signed) << 64 | value.as_unsigned));
    case HV_TEXT: return word_of_text(found.text.substr(0, value.as_unsigned));
    default: return word_of_bytes(found.text.substr(0, value.as_unsigned));
    }
}

// Makes a call that writes values, with more room for their texts where it is refused for that.
template <class Ask> void ask_for(std::initializer_list<Found *> all, Ask once) {
    for (;;) {
        try {
            return once();
        } catch (const Refused &refused) {
            const size_t room = (*all.begin())->text.size();
            if (refused.number != HV_COLUMN_LENGTH || refused.fields.first <= room) throw;
            for (Found *found : all) found->text.resize(refused.fields.first);
        }
    }
}

inline std::string row_word(const Column &column, size_t row) {
    Found found;
    ask_for({&found}, [&] {
        ask([&](hv_error *error) {
            return hv_at(column.get(), row, &found.value, data_of(found.text), found.text.size(), error);
        });
    });
    return word_of(found);
}

// ---- Parts of a column ----

using PartCall = int32_t (*)(const hv_column *, hv_column *, hv_error *);

inline Shared part_of(PartCall call, const Column &column) {
    return made([&](hv_column *out, hv_error *error) { return call(column.get(), out, error); });
}

inline Shared decoded(const hv_session &session, const Column &column) {
    return made([&](hv_column *out, hv_error *error) { return hv_decode(&session, column.get(), out, error); });
}

// What is below all levels of runs.
inline Shared below_runs(const Column &column) {
    Shared inner = copy_of(column);
    while (inner->form() == HV_FORM_RUNS) inner = part_of(hv_call_values, *inner);
    return inner;
}

// ---- Rows ----

// Rows of lists, written out by hv_decode and read part by part.
inline Words list_words(const hv_session &session, const Column &column) {
    const Shared lists = decoded(session, column);
    if (lists->form() == HV_FORM_CONSTANT) return Words(lists->length(), "null");
    const Shared elements = part_of(hv_call_list_elements, *lists), validity = part_of(hv_call_list_validity, *lists);
    const std::vector<uint64_t> offsets = counts_of(*part_of(hv_call_list_offsets, *lists));
    const std::vector<uint64_t> sizes = counts_of(*part_of(hv_call_list_sizes, *lists));
    Words words;
    for (size_t row = 0; row < lists->length(); row++) {
        const bool is_valid = row_word(*validity, row) == "true"; // a null list may have any offset and size
        std::string word;
        for (size_t item = 0; is_valid && item < sizes[row]; item++)
            word += (item ? "," : "") + row_word(*elements, offsets[row] + item);
        words.push_back(is_valid ? "[" + word + "]" : "null");
    }
    return words;
}

inline std::string rows_text(const hv_session &session, const Column &column) {
    if (column.length() > most_rows) throw Refused(HV_OUT_OF_MEMORY);
    if (column.kind().number == HV_LIST) return joined(list_words(session, column));
    Words words;
    for (size_t row = 0; row < column.length(); row++) words.push_back(row_word(column, row));
    return joined(words);
}

// One row; of lists by a slice of it.
inline std::string one_row(const hv_session &session, const Column &column, size_t row) {
    if (column.kind().number != HV_LIST) return row_word(column, row);
    if (row >= column.length()) throw Refused(HV_OUT_OF_BOUNDS, {row, column.length(), 0});
    const Shared slice = made([&](hv_column *out, hv_error *error) {
        return hv_slice(&session, column.get(), row, row + 1, out, error);
    });
    return list_words(session, *slice).at(0);
}

// ---- Types and forms ----

inline std::string form_text(const Column &column);

inline std::string flat_text(const Message &message) {
    static const std::array<const char *, 5> validities{"", " nonnull", " valid", " invalid", " bits"};
    std::string text = "flat " + word_of(kind_of(message)) + validities.at(message.number(field::validity));
    const Words stored = stored_words(message);
    for (size_t row = 0; row < stored.size(); row++) text += " " + (is_valid_at(message, row) ? stored[row] : "null");
    return text;
}

inline hv_kind element_kind(const Message &constant) {
    return kind_of(constant, constant.number(field::element_type), constant.number(field::element_nullability) == 2);
}

inline std::string constant_type(const Message &message) {
    const bool is_list = message.number(field::type) == list_type;
    return is_list ? list_word(element_kind(message), true) : word_of(kind_of(message));
}

inline std::string constant_text(const Message &message) {
    const bool is_null = message.number(field::validity) == all_null;
    return "constant " + constant_type(message) + " " +
           (is_null ? "null" : value_word(kind_of(message), message.part(field::items))) + " " +
           std::to_string(message.number(field::rows));
}

// A part of lists, by its message: flat or in runs.
inline std::string part_text(const Message &message) {
    if (message.number(field::form) != runs_form) return flat_text(message);
    std::string text = "runs " + std::string(type_names.at(message.number(field::ends_type) - 1)) + " " +
                       std::to_string(message.number(field::offset)) + " " +
                       std::to_string(message.number(field::rows));
    uint64_t end = 0;
    for (const uint64_t length : varints_of(message.part(field::run_lengths)))
        text += " " + std::to_string(end += length);
    return text + " { " + part_text(message.message(field::values)) + " }";
}

inline std::string list_validity_text(const Message &message) {
    static const std::array<const char *, 5> words{"", "nonnull", "valid", "invalid", "bits "};
    const uint64_t validity = message.number(field::validity);
    if (validity == by_runs) return "{ " + part_text(message.message(field::validity_runs)) + " }";
    std::string bits;
    for (size_t row = 0; validity == by_bits && row < message.number(field::rows); row++)
        bits += is_valid_at(message, row) ? '1' : '0';
    return words.at(validity) + (validity == by_bits && bits.empty() ? "-" : bits);
}

inline std::string lists_text(const Message &message) {
    std::string text = "lists";
    for (const uint64_t part : {field::elements, field::offsets, field::sizes})
        text += " { " + part_text(message.message(part)) + " }";
    return text + " " + list_validity_text(message);
}

// What no call says of a form, such as how its nulls are kept, its message says.
inline std::string leaf_text(const Column &column) {
    const Message message(message_of(column));
    switch (column.form()) {
    case HV_FORM_FLAT: return flat_text(message);
    case HV_FORM_CONSTANT: return constant_text(message);
    default: return lists_text(message);
    }
}

inline std::string form_text(const Column &column) {
    if (column.form() != HV_FORM_RUNS) return leaf_text(column);
    const Shared ends = part_of(hv_call_ends, column), values = part_of(hv_call_values, column);
    std::string text = "runs " + word_of(ends->kind()) + " " + std::to_string(hv_offset(column.get())) + " " +
                       std::to_string(column.length());
    for (size_t run = 0; run < ends->length(); run++) text += " " + row_word(*ends, run);
    return text + " { " + form_text(*values) + " }";
}

inline std::string type_text(const Column &column) {
    const hv_kind kind = column.kind();
    if (kind.number != HV_LIST) return word_of(kind);
    const Shared inner = below_runs(column);
    if (inner->form() == HV_FORM_CONSTANT) return constant_type(Message(message_of(*inner)));
    return list_word(part_of(hv_call_list_elements, *inner)->kind(), kind.nullable);
}

// What a flat column of numbers or booleans stores.
inline std::string stored_text(const Column &column) {
    require(column.form() == HV_FORM_FLAT && !is_text(column.kind()));
    return joined(stored_words(Message(message_of(column))));
}

} // namespace vectors
#endif
