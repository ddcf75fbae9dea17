// Columns of rows, constants and scalars, as words write them.
#ifndef VECTORS_MAKING_HPP
#define VECTORS_MAKING_HPP
#include "messages.hpp"

namespace vectors {

// The word of a validity: a code, and for by_bits its bits.
struct Validity {
    ValidityCode code;
    std::vector<bool> bits;
};

inline std::vector<bool> read_bits(const std::string &word) {
    std::vector<bool> bits;
    require(!word.empty());
    if (word == "-") return bits;
    for (const char letter : word) {
        require(letter == '0' || letter == '1');
        bits.push_back(letter == '1');
    }
    return bits;
}

inline Validity read_validity(const std::string &word) {
    if (word == "nonnull") return {never_null, {}};
    if (word == "valid") return {none_null, {}};
    if (word == "invalid") return {all_null, {}};
    return {by_bits, read_bits(word)};
}

// A validity as C passes it, and the bytes that it points to.
class PassedValidity {
public:
    explicit PassedValidity(const Validity &validity) : code(validity.code), bytes(packed_bits(validity.bits)) {}
    hv_validity get() const {
        if (code == never_null) return hv_not_nullable();
        return code == none_null ? hv_all_valid() : hv_valid_bits(data_of(bytes), bytes.size(), 0);
    }

private:
    ValidityCode code;
    std::string bytes;
};

// What the bits of rows say, as a column of this nullability keeps it: none is null, all are, or some.
inline Validity validity_of(const Rows &rows, bool is_nullable) {
    Validity validity{by_bits, {}};
    for (const Row &row : rows) validity.bits.push_back(row.is_valid);
    const size_t nulls = static_cast<size_t>(std::count(validity.bits.begin(), validity.bits.end(), false));
    require(is_nullable || nulls == 0);
    if (nulls == 0) return {is_nullable ? none_null : never_null, {}};
    return nulls == rows.size() ? Validity{all_null, {}} : validity;
}

// ---- Flat columns ----

template <class Item>
Shared integers(int32_t (*make)(const Item *, size_t, hv_validity, hv_column *, hv_error *),
                const std::vector<Wide> &numbers, const PassedValidity &validity) {
    const std::vector<Item> items(numbers.begin(), numbers.end());
    return made([&](hv_column *out, hv_error *error) {
        return make(items.data(), items.size(), validity.get(), out, error);
    });
}

inline Shared decimals(const hv_kind &kind, const std::vector<Wide> &numbers, const PassedValidity &validity) {
    std::vector<hv_pair> pairs;
    for (const Wide number : numbers)
        pairs.push_back({static_cast<uint64_t>(number), static_cast<int64_t>(number >> 64)});
    return made([&](hv_column *out, hv_error *error) {
        return hv_decimals(pairs.data(), pairs.size(), kind.precision, kind.scale, validity.get(), out, error);
    });
}

inline Shared booleans(const std::vector<bool> &truths, const PassedValidity &validity) {
    const std::string bits = packed_bits(truths);
    return made([&](hv_column *out, hv_error *error) {
        return hv_bools(data_of(bits), bits.size(), 0, truths.size(), validity.get(), out, error);
    });
}

inline Shared numbers_column(const hv_kind &kind, const std::vector<Wide> &numbers, const PassedValidity &validity) {
    switch (kind.number) {
    case HV_U8: return integers(hv_call_u8, numbers, validity);
    case HV_U16: return integers(hv_call_u16, numbers, validity);
    case HV_U32: return integers(hv_call_u32, numbers, validity);
    case HV_U64: return integers(hv_call_u64, numbers, validity);
    case HV_I8: return integers(hv_call_i8, numbers, validity);
    case HV_I16: return integers(hv_call_i16, numbers, validity);
    case HV_I32: return integers(hv_call_i32, numbers, validity);
    case HV_I64: return integers(hv_call_i64, numbers, validity);
    case HV_BOOL: return booleans(std::vector<bool>(numbers.begin(), numbers.end()), validity);
    default: return decimals(kind, numbers, validity);
    }
}

inline Shared texts_column(bool is_binary, const Words &texts, const PassedValidity &validity) {
    std::string bytes;
    std::vector<int32_t> offsets{0};
    for (const std::string &text : texts) {
        bytes += text;
        offsets.push_back(static_cast<int32_t>(bytes.size()));
    }
    return made([&](hv_column *out, hv_error *error) {
        return hv_texts(is_binary, offsets.data(), offsets.size(), data_of(bytes), bytes.size(), validity.get(), out,
                        error);
    });
}

// A flat column of rows that are not lists. No call makes one of which the validity says that all rows are null, so a
// message does.
inline Shared flat_column(const hv_kind &kind, const Rows &rows) {
    const Validity validity = validity_of(rows, kind.nullable);
    if (validity.code == all_null) return read_message(flat_message(kind, all_null, {}, rows));
    const PassedValidity passed(validity);
    Words texts;
    std::vector<Wide> numbers;
    for (const Row &row : rows) {
        if (is_text(kind)) texts.push_back(stored_text(row, kind));
        else numbers.push_back(stored_number(row, kind));
    }
    if (is_text(kind)) return texts_column(kind.number == HV_BINARY, texts, passed);
    return numbers_column(kind, numbers, passed);
}

// The integers of a flat column of u64.
inline std::vector<uint64_t> counts_of(const Column &column) {
    std::vector<uint64_t> counts(column.length());
    ask([&](hv_error *error) { return hv_read_u64(column.get(), 0, counts.data(), counts.size(), error); });
    return counts;
}

// ---- Lists ----

inline Shared lists_column(const Column &elements, const std::vector<uint64_t> &offsets,
                           const std::vector<uint64_t> &sizes, const PassedValidity &validity) {
    return made([&](hv_column *out, hv_error *error) {
        return hv_lists(elements.get(), offsets.data(), offsets.size(), sizes.data(), sizes.size(), validity.get(), out,
                        error);
    });
}

// The message of lists of these parts; `runs` is the validity by runs, where it is one.
inline std::string lists_message(const Column &elements, const Column &offsets, const Column &sizes,
                                 const Validity &validity, const Column *runs) {
    Writing message(list_type, lists_form, offsets.length());
    message.number(field::validity, validity.code);
    if (validity.code == by_bits) message.part(field::validity_bits, packed_bits(validity.bits));
    if (runs) message.part(field::validity_runs, message_of(*runs));
    return message.part(field::elements, message_of(elements))
        .part(field::offsets, message_of(offsets))
        .part(field::sizes, message_of(sizes))
        .text();
}

inline Shared list_rows_column(const Type &type, const Rows &rows) {
    Rows elements;
    std::vector<Wide> offsets, sizes;
    for (const Row &row : rows) {
        const size_t start = elements.size();
        require(row.value.sort == (row.is_valid ? Value::list : Value::null));
        for (const std::string &word : elements_of(row.value.word)) elements.push_back(read_row(word));
        offsets.push_back(start);
        sizes.push_back(elements.size() - start);
    }
    const Validity validity = validity_of(rows, type.has_null_lists);
    const Shared items = flat_column(type.kind, elements);
    const PassedValidity passed(validity), whole({never_null, {}});
    const Shared starts = integers(hv_call_u64, offsets, whole), counts = integers(hv_call_u64, sizes, whole);
    if (validity.code == all_null) return read_message(lists_message(*items, *starts, *counts, validity, nullptr));
    return lists_column(*items, counts_of(*starts), counts_of(*counts), passed);
}

inline Shared column_of_rows(const Type &type, const Rows &rows) {
    return type.is_list ? list_rows_column(type, rows) : flat_column(type.kind, rows);
}

// ---- Scalars and constants ----

// A value of a type, as C passes it.
struct Scalar {
    Type type;
    hv_value value;
    std::string text;
};

inline hv_value passed_integer(const hv_kind &kind, Wide number) {
    hv_value value{};
    value.as_unsigned = static_cast<uint64_t>(number);
    value.as_signed = static_cast<int64_t>(number);
    if (is_signed(kind) && value.as_signed == number) value.kind = HV_SIGNED;
    else if (is_integer(kind) && !is_signed(kind) && static_cast<Wide>(value.as_unsigned) == number)
        value.kind = HV_UNSIGNED;
    else value.kind = HV_DECIMAL_VALUE, value.as_signed = static_cast<int64_t>(number >> 64);
    return value;
}

inline Scalar scalar_of(const Type &type, const Value &given) {
    require(given.sort != Value::list);
    Scalar scalar{type, {}, ""};
    scalar.value.kind = HV_NULL;
    if (given.sort == Value::truth) scalar.value.kind = HV_TRUTH, scalar.value.truth = given.number != 0;
    if (given.sort == Value::integer) scalar.value = passed_integer(type.kind, given.number);
    if (given.sort == Value::text) scalar.value.kind = HV_TEXT, scalar.text = text_of_quoted(given.word);
    if (given.sort == Value::bytes) scalar.value.kind = HV_BYTES, scalar.text = bytes_of_digits(given.word);
    return scalar;
}

// A constant of null lists, which no call makes, is a message.
inline Shared null_lists(const Type &type, uint64_t count) {
    Writing message(list_type, constant_form, count);
    message.number(field::validity, all_null).part(field::items, "").decimal(type.kind);
    message.number(field::element_type, type.kind.number + 1u);
    return read_message(message.number(field::element_nullability, type.kind.nullable ? 2 : 1).text());
}

inline Shared constant_of(const Scalar &scalar, uint64_t count) {
    if (!scalar.type.is_list)
        return made([&](hv_column *out, hv_error *error) {
            return hv_constant(&scalar.type.kind, &scalar.value, data_of(scalar.text), scalar.text.size(), count, out,
                               error);
        });
    if (scalar.value.kind == HV_NULL && scalar.type.has_null_lists) return null_lists(scalar.type, count);
    throw NotServed("a scalar of lists that is refused", true);
}

// The scalar of a type and a value, refused before there is a call where the value is not of the type.
inline Scalar read_scalar(const std::string &type, const std::string &value) {
    const Scalar scalar = scalar_of(read_type(type), read_value(value));
    try {
        constant_of(scalar, 1);
    } catch (Refused &refused) {
        refused.is_early = true;
        throw;
    }
    return scalar;
}

// Is the value, as C passes it, of a type that a column of this type has no value of? C passes no width, precision or
// scale, so of these it does not know.
inline bool plainly_differs(const Scalar &scalar, const hv_kind &kind) {
    const auto family = [](const hv_kind &of) { return is_integer(of) ? static_cast<int>(is_signed(of)) : of.number; };
    return !scalar.type.is_list && kind.number != HV_LIST && scalar.value.kind != HV_NULL &&
           family(scalar.type.kind) != family(kind);
}

} // namespace vectors
#endif
