// Commands on a column: what words ask for, as calls of the library.
#ifndef VECTORS_COMMANDS_HPP
#define VECTORS_COMMANDS_HPP
#include "forms.hpp"

namespace vectors {

// A command that leaves a column, by a call that is given the session, the column, and where what is left goes.
template <class Leave> Command leaving(const Workspace &workspace, Leave leave) {
    const hv_session *session = &workspace.session;
    return [session, leave](const Column &column) {
        return done(made([&](hv_column *out, hv_error *error) { return leave(session, column.get(), out, error); }));
    };
}

// As `leaving`; what is left of a constant is written out, which the calls keep one.
template <class Leave> Command leaving_flat(const Workspace &workspace, Leave leave) {
    const Command command = leaving(workspace, leave);
    const hv_session *session = &workspace.session;
    return [session, command](const Column &column) {
        const Answer left = command(column);
        const bool is_kept = column.form() == HV_FORM_CONSTANT && left.column->form() == HV_FORM_CONSTANT;
        return is_kept ? done(decoded(*session, *left.column)) : left;
    };
}

inline uint8_t read_operator(const std::string &word) {
    static const std::array<std::string, 6> operators{"eq", "ne", "gt", "ge", "lt", "le"};
    const auto found = std::find(operators.begin(), operators.end(), word);
    require(found != operators.end());
    return static_cast<uint8_t>(HV_EQ + (found - operators.begin()));
}

// The first negative one of integers in any form.
inline std::string first_negative(const Column &integers) {
    const Memory::Aside aside;
    const Shared values = part_of(hv_call_values, *part_of(hv_call_encode_rows, integers));
    for (size_t run = 0; run < values->length(); run++) {
        const std::string word = row_word(*values, run);
        if (word[0] == '-') return word;
    }
    return "";
}

// As `leaving`, by indices that are given or are the column. C says 2^64 - 1 of an index that no uint64_t has, so of a
// negative one; the first that is past the rows is then the first negative one.
template <class Leave> Command leaving_rows_at(const Workspace &workspace, const Shared &indices, Leave leave) {
    const Command command = leaving(workspace, leave);
    return [indices, command](const Column &column) {
        try {
            return command(column);
        } catch (Refused &refused) {
            const bool is_wide = refused.number == HV_OUT_OF_BOUNDS && refused.fields.first == UINT64_MAX;
            if (is_wide) refused.index = first_negative(indices ? *indices : column);
            throw;
        }
    };
}

// ---- Commands that are their verb ----

inline Command read_encode(const Words &words, const Workspace &workspace) {
    require(words.size() == 1);
    return leaving(workspace, hv_call_encode);
}

inline Command read_decode(const Words &words, const Workspace &workspace) {
    require(words.size() == 1);
    return leaving(workspace, hv_call_decode);
}

inline std::string total_text(const hv_total &total) {
    if (total.kind == HV_NULL) return "overflow";
    const std::string number =
        total.kind == HV_SIGNED ? std::to_string(total.as_signed) : std::to_string(total.as_unsigned);
    return total.empty ? number + " empty" : number;
}

inline Command read_sum(const Words &words, const Workspace &workspace) {
    require(words.size() == 1);
    return [session = &workspace.session](const Column &column) {
        hv_total total{};
        if (column.kind().number == HV_DECIMAL) throw NotServed("a sum of decimals that is refused", true);
        ask([&](hv_error *error) { return hv_sum(session, column.get(), &total, error); });
        return Answer{total_text(total), nullptr};
    };
}

inline Command read_minmax(const Words &words, const Workspace &workspace) {
    require(words.size() == 1);
    return [session = &workspace.session](const Column &column) {
        Found least, greatest;
        ask_for({&least, &greatest}, [&] {
            ask([&](hv_error *error) {
                return hv_min_max(session, column.get(), &least.value, data_of(least.text), least.text.size(),
                                  &greatest.value, data_of(greatest.text), greatest.text.size(), error);
            });
        });
        return Answer{least.value.kind == HV_NULL ? "none" : word_of(least) + " " + word_of(greatest), nullptr};
    };
}

inline Command read_constant(const Words &words, const Workspace &workspace) {
    require(words.size() == 1);
    return [session = &workspace.session](const Column &column) {
        uint8_t holds = 0;
        ask([&](hv_error *error) { return hv_is_constant(session, column.get(), &holds, error); });
        return truth(holds);
    };
}

inline Command read_sorted(const Words &words, const Workspace &workspace) {
    require(words.size() == 1);
    const bool is_strict = words[0] == "strict";
    return [session = &workspace.session, is_strict](const Column &column) {
        uint8_t holds = 0;
        ask([&](hv_error *error) { return hv_is_sorted(session, column.get(), is_strict, &holds, error); });
        return truth(holds);
    };
}

// ---- Commands with words ----

inline Command read_slice(const Words &words, const Workspace &workspace) {
    require(words.size() == 3);
    const uint64_t start = read_count(words[1]), stop = read_count(words[2]);
    return leaving(workspace, [=](const hv_session *session, const hv_column *column, hv_column *out, hv_error *error) {
        return hv_slice(session, column, start, stop, out, error);
    });
}

// A mask of bits, or of the rows of a column.
inline Shared read_mask(const Words &words, const Workspace &workspace) {
    if (words.size() == 3 && words[1] == "column") return workspace.find(words[2]);
    require(words.size() == 2);
    return booleans(read_bits(words[1]), PassedValidity({never_null, {}}));
}

inline Command read_filter(const Words &words, const Workspace &workspace) {
    const Shared mask = read_mask(words, workspace);
    return leaving_flat(workspace,
                        [mask](const hv_session *session, const hv_column *column, hv_column *out, hv_error *error) {
                            return hv_filter(session, column, mask->get(), out, error);
                        });
}

// Indices that are written out, or the rows of a column.
inline Shared read_indices(const Words &words, const Workspace &workspace) {
    require(words.size() > 1);
    if (words.size() == 3 && words[1] == "column") return workspace.find(words[2]);
    const Type type = read_type(words[1]);
    require(!type.is_list && is_integer(type.kind));
    return flat_column(type.kind, read_rows(words_from(words, 2)));
}

inline Command read_take(const Words &words, const Workspace &workspace) {
    const Shared indices = read_indices(words, workspace);
    return leaving_rows_at(
        workspace, indices,
        [indices](const hv_session *session, const hv_column *column, hv_column *out, hv_error *error) {
            return hv_take(session, column, indices->get(), out, error);
        });
}

inline Command read_codes(const Words &words, const Workspace &workspace) {
    require(words.size() == 2);
    const Shared dictionary = workspace.find(words[1]);
    return leaving_rows_at(
        workspace, nullptr,
        [dictionary](const hv_session *session, const hv_column *column, hv_column *out, hv_error *error) {
            return hv_take_from(session, column, dictionary->get(), out, error);
        });
}

inline Command read_cast(const Words &words, const Workspace &workspace) {
    require(words.size() == 2);
    const Type type = read_type(words[1]);
    if (type.is_list) return [](const Column &) -> Answer { throw NotServed("a cast to lists", true); };
    return leaving_flat(
        workspace, [type](const hv_session *session, const hv_column *column, hv_column *out, hv_error *error) {
            return hv_cast(session, column, &type.kind, out, error);
        });
}

// No call serves a scalar whose type differs from the column's in what C passes no word of. `is_typed`: the answer
// keeps whether the type of the scalar has null.
inline void require_served(const Scalar &scalar, const Column &column, bool is_typed) {
    const hv_kind kind = column.kind();
    if (kind.number == HV_LIST && scalar.value.kind == HV_NULL) return; // null is of any type
    const bool is_same = !scalar.type.is_list && same_but_null(scalar.type.kind, kind);
    if (!is_same && !plainly_differs(scalar, kind))
        throw NotServed("a scalar of a type that C does not know from the column's", true);
    if (is_typed && is_same && scalar.type.kind.nullable && !kind.nullable && scalar.value.kind != HV_NULL)
        throw NotServed("a scalar whose type has null, with a column whose type has none");
}

inline Command read_compare(const Words &words, const Workspace &workspace) {
    require(words.size() == 4);
    const uint8_t operator_ = read_operator(words[1]);
    if (words[2] == "column") {
        const Shared right = workspace.find(words[3]);
        return leaving_flat(
            workspace, [=](const hv_session *session, const hv_column *column, hv_column *out, hv_error *error) {
                return hv_compare(session, column, operator_, right->get(), out, error);
            });
    }
    const Scalar scalar = read_scalar(words[2], words[3]);
    const Command command = leaving_flat(
        workspace, [=](const hv_session *session, const hv_column *column, hv_column *out, hv_error *error) {
            return hv_compare_scalar(session, column, operator_, &scalar.value, data_of(scalar.text),
                                     scalar.text.size(), out, error);
        });
    return [=](const Column &column) {
        require_served(scalar, column, true);
        return command(column);
    };
}

inline Command read_fill(const Words &words, const Workspace &workspace) {
    require(words.size() == 3);
    const Scalar scalar = read_scalar(words[1], words[2]);
    const Command command = leaving_flat(
        workspace, [=](const hv_session *session, const hv_column *column, hv_column *out, hv_error *error) {
            return hv_fill(session, column, &scalar.value, data_of(scalar.text), scalar.text.size(), out, error);
        });
    return [=](const Column &column) {
        require_served(scalar, column, false);
        return command(column);
    };
}

inline Command read_at(const Words &words, const Workspace &) {
    require(words.size() == 2);
    const uint64_t row = read_count(words[1]);
    return [row](const Column &column) { return Answer{row_word(column, row), nullptr}; };
}

// ---- All commands ----

struct CommandWord {
    Command (*read)(const Words &words, const Workspace &workspace);
    bool leaves_column;
};

inline const std::map<std::string, CommandWord> &command_words() {
    static const std::map<std::string, CommandWord> all{
        {"encode", {read_encode, true}},     {"decode", {read_decode, true}}, {"slice", {read_slice, true}},
        {"filter", {read_filter, true}},     {"take", {read_take, true}},     {"codes", {read_codes, true}},
        {"compare", {read_compare, true}},   {"cast", {read_cast, true}},     {"fill", {read_fill, true}},
        {"at", {read_at, false}},            {"sum", {read_sum, false}},      {"minmax", {read_minmax, false}},
        {"constant", {read_constant, false}}, {"sorted", {read_sorted, false}}, {"strict", {read_sorted, false}},
    };
    return all;
}

// The command of these words, of which the first is its verb.
inline Command read_command(const Words &words, const Workspace &workspace) {
    const auto found = command_words().find(words[0]);
    require(found != command_words().end());
    return found->second.read(words, workspace);
}

} // namespace vectors
#endif
