// Columns that lines make from the rows of others: of one column, of two, of groups, of floats and of decimals.
#ifndef VECTORS_PAIRS_HPP
#define VECTORS_PAIRS_HPP
#include "floats.hpp"
#include "makers.hpp"

#include <utility>

namespace vectors {

// The words of the operators of two rows, each at the number that it has in hivevigil.h.
inline const Words &operator_words() {
    static const Words all{"eq", "ne",  "gt", "ge",       "lt",     "le",      "+", "-",
                           "*",  "and", "or", "coalesce", "lesser", "greater", "/"};
    return all;
}

inline std::optional<uint8_t> pair_operator(const std::string &word) {
    const auto found = std::find(operator_words().begin(), operator_words().end(), word);
    if (found == operator_words().end() || word == "/") return std::nullopt;
    return static_cast<uint8_t>(found - operator_words().begin());
}

inline bool is_arithmetic(uint8_t operator_) { return operator_ >= HV_ADD && operator_ <= HV_MULTIPLY; }

inline Call read_pair(const Words &words, const Workspace &workspace) {
    const uint8_t operator_ = pair_operator(words[1]).value();
    const Shared left = workspace.find(words[0]), right = workspace.find(words[2]);
    if (is_arithmetic(operator_) && left->kind().number == HV_DECIMAL && right->kind().number == HV_DECIMAL)
        throw NotServed("decimals added, subtracted or multiplied as integers", true);
    return making(
        [=](hv_column *out, hv_error *error) { return hv_combine(left->get(), operator_, right->get(), out, error); },
        is_arithmetic(operator_));
}

// ---- Of one column ----

template <PartCall call> Call read_one(const Words &words, const Workspace &workspace) {
    require(words.size() == 1);
    const Shared column = workspace.find(words[0]);
    return making([=](hv_column *out, hv_error *error) { return call(column->get(), out, error); });
}

// A call that makes two columns, of which a line keeps one.
using TwoCall = int32_t (*)(const hv_column *, hv_column *, hv_column *, hv_error *);

template <TwoCall call, bool is_first, bool has_row>
Call read_one_of_two(const Words &words, const Workspace &workspace) {
    require(words.size() == 1);
    const Shared column = workspace.find(words[0]);
    return making(
        [=](hv_column *out, hv_error *error) {
            Column other;
            return is_first ? call(column->get(), out, other.out(), error)
                            : call(column->get(), other.out(), out, error);
        },
        has_row);
}

// ---- Of several columns ----

inline Call read_if_else(const Words &words, const Workspace &workspace) {
    require(words.size() == 3);
    const Shared mask = workspace.find(words[0]), left = workspace.find(words[1]), right = workspace.find(words[2]);
    return making([=](hv_column *out, hv_error *error) {
        return hv_if_else(mask->get(), left->get(), right->get(), out, error);
    });
}

using PairCall = int32_t (*)(const hv_column *, uint8_t, const hv_column *, hv_column *, hv_error *);

// Arithmetic of floats, which are divided too, or of decimals. The call for decimals serves integers too, which these
// lines refuse.
template <PairCall call, bool is_float> Call read_arithmetic(const Words &words, const Workspace &workspace) {
    require(words.size() == 3);
    const uint8_t operator_ = pair_operator(words[1]).value_or(HV_DIVIDE);
    require(is_arithmetic(operator_) || (is_float && words[1] == "/"));
    const Shared left = workspace.find(words[0]), right = workspace.find(words[2]);
    if (!is_float && is_integer(left->kind()) && is_integer(right->kind()))
        throw NotServed("integers added, subtracted or multiplied as decimals", true);
    return making(
        [=](hv_column *out, hv_error *error) { return call(left->get(), operator_, right->get(), out, error); },
        !is_float);
}

// What is kept of groups: their answers by a fold, their keys, or the rows before which they end.
struct GroupPart {
    enum Kept { answers, keys, ends };
    Kept kept;
    uint8_t fold;
};

inline GroupPart read_group_part(const std::string &word) {
    static const Words folds{"sum", "rows", "count", "least", "greatest", "first", "last"};
    if (word == "keys") return {GroupPart::keys, HV_FOLD_ROWS};
    if (word == "ends") return {GroupPart::ends, HV_FOLD_ROWS};
    const auto found = std::find(folds.begin(), folds.end(), word);
    require(found != folds.end());
    return {GroupPart::answers, static_cast<uint8_t>(HV_FOLD_SUM + (found - folds.begin()))};
}

// Where groups of these numbers of rows end, in the least type that has the number of all rows.
inline Shared ends_of(const std::vector<uint64_t> &counts) {
    Rows ends;
    uint64_t end = 0;
    for (const uint64_t count : counts) ends.push_back(row_of(end += count));
    const int least = end <= UINT8_MAX ? HV_U8 : end <= UINT16_MAX ? HV_U16 : end <= UINT32_MAX ? HV_U32 : HV_U64;
    return flat_column(kind_of_number(least), ends);
}

inline Call read_fold(const Words &words, const Workspace &workspace) {
    require(words.size() == 4 && words[2] == "by");
    const GroupPart part = read_group_part(words[0]);
    const Shared values = workspace.find(words[1]), keys = workspace.find(words[3]);
    const Call folded = making(
        [=](hv_column *out, hv_error *error) {
            Column other;
            hv_column *group_keys = out, *answers = other.out();
            if (part.kept != GroupPart::keys) std::swap(group_keys, answers);
            return hv_fold_by(keys->get(), values->get(), part.fold, group_keys, answers, error);
        },
        true);
    if (part.kept != GroupPart::ends) return folded;
    return [=] { return done(ends_of(counts_of(*folded().column))); };
}

// ---- Floats ----

inline Call read_floats(const Words &words, const Workspace &) {
    require(!words.empty());
    std::string format_word = words[0];
    const bool is_nullable = take_mark(format_word);
    const uint8_t format = read_format(format_word);
    Rows rows;
    for (const std::string &word : words_from(words, 1))
        rows.push_back(word == "null" ? null_row() : row_of(read_float(format, word)));
    const Shared bits = flat_column(kind_of_number(format - HV_I8, is_nullable), rows);
    return making([=](hv_column *out, hv_error *error) { return hv_float_encode(bits->get(), 0, out, error); });
}

template <bool is_canonical> Call read_encode_floats(const Words &words, const Workspace &workspace) {
    require(words.size() == 1);
    const Shared bits = workspace.find(words[0]);
    return making([=](hv_column *out, hv_error *error) {
        return hv_float_encode(bits->get(), is_canonical, out, error);
    });
}

using FloatCast = int32_t (*)(const hv_column *, uint8_t, uint8_t, hv_column *, hv_error *);

template <FloatCast call, bool is_rounded> Call read_float_cast(const Words &words, const Workspace &workspace) {
    require(words.size() == 2);
    const uint8_t format = read_format(words[0]);
    const Shared column = workspace.find(words[1]);
    return making([=](hv_column *out, hv_error *error) { return call(column->get(), format, is_rounded, out, error); });
}

using IntegerCast = int32_t (*)(const hv_column *, uint8_t, hv_column *, hv_error *);

template <IntegerCast call, bool has_row> Call read_to_integers(const Words &words, const Workspace &workspace) {
    require(words.size() == 2);
    const uint8_t type = read_integer_type(words[0]);
    const Shared column = workspace.find(words[1]);
    return making([=](hv_column *out, hv_error *error) { return call(column->get(), type, out, error); }, has_row);
}

template <bool is_ieee> Call read_float_compare(const Words &words, const Workspace &workspace) {
    require(words.size() == 4);
    const uint8_t operator_ = read_operator(words[0]);
    const uint64_t bits = read_float(read_format(words[1]), words[2]);
    const Shared floats = workspace.find(words[3]);
    return making([=](hv_column *out, hv_error *error) {
        return hv_float_compare(floats->get(), operator_, bits, is_ieee, out, error);
    });
}

// ---- Decimals ----

// The call casts integers and decimals, and each line only one of both, which it refuses of the other.
template <bool is_rescale> Call read_decimal_cast(const Words &words, const Workspace &workspace) {
    require(words.size() == 2);
    const hv_kind kind = read_decimal(words[0]);
    const Shared column = workspace.find(words[1]);
    const hv_kind from = column->kind();
    if (is_rescale ? is_integer(from) : from.number == HV_DECIMAL)
        throw NotServed("integers rescaled, or decimals made of decimals", true);
    return making(
        [=](hv_column *out, hv_error *error) {
            return hv_decimal_cast(column->get(), kind.precision, kind.scale, out, error);
        },
        true);
}

// ---- All makers that make a call ----

using Maker = Call (*)(const Words &words, const Workspace &workspace);

inline const std::map<std::string, Maker> &makers() {
    static const std::map<std::string, Maker> all{
        {"copy", read_one<hv_call_clone>},
        {"encode", read_encoding},
        {"encode_rows", read_one<hv_call_encode_rows>},
        {"built", read_built},
        {"runs", read_runs},
        {"whole", read_whole},
        {"lists", read_lists},
        {"views", read_views},
        {"deserialize", read_deserialize},
        {"from", read_from},
        {"sort", read_one<hv_call_sort>},
        {"reverse", read_one<hv_call_reverse>},
        {"not", read_one<hv_call_not>},
        {"is_null", read_one<hv_call_is_null>},
        {"is_valid", read_one<hv_call_is_valid>},
        {"distinct", read_one_of_two<hv_call_value_counts, true, false>},
        {"counts", read_one_of_two<hv_call_value_counts, false, false>},
        {"total_ends", read_one_of_two<hv_call_running_totals, true, true>},
        {"totals", read_one_of_two<hv_call_running_totals, false, true>},
        {"if_else", read_if_else},
        {"fold", read_fold},
        {"floats", read_floats},
        {"encode_floats", read_encode_floats<false>},
        {"canonical_floats", read_encode_floats<true>},
        {"decode_floats", read_one<hv_call_float_decode>},
        {"cast_floats", read_float_cast<hv_call_float_cast, false>},
        {"round_floats", read_float_cast<hv_call_float_cast, true>},
        {"floats_of_integers", read_float_cast<hv_call_float_of_integers, false>},
        {"round_integers", read_float_cast<hv_call_float_of_integers, true>},
        {"integers_of_floats", read_to_integers<hv_call_float_to_integers, false>},
        {"compare_numbers", read_float_compare<true>},
        {"compare_total", read_float_compare<false>},
        {"float_numeric", read_arithmetic<hv_call_float_combine, true>},
        {"decimal_numeric", read_arithmetic<hv_call_combine, false>},
        {"rescale", read_decimal_cast<true>},
        {"decimals_of", read_decimal_cast<false>},
        {"integers_of", read_to_integers<hv_call_decimal_to_integers, true>},
    };
    return all;
}

// The call that makes a column, by the words after `=`. Where an operator is between two names, they are columns,
// whatever their names.
inline Call read_maker(const Words &words, const Workspace &workspace) {
    if (words.size() == 3 && pair_operator(words[1])) return read_pair(words, workspace);
    const auto found = makers().find(words.at(0));
    require(found != makers().end());
    return found->second(words_from(words, 1), workspace);
}

} // namespace vectors
#endif
