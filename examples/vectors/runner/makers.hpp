// Columns that lines make of values, of parts, of other columns as they are, and of bytes.
#ifndef VECTORS_MAKERS_HPP
#define VECTORS_MAKERS_HPP
#include "commands.hpp"
#include <set>

namespace vectors {

// A call that makes a column, by a function that is given where it goes.
template <class Make> Call making(Make make, bool has_row = false) {
    return [make, has_row] { return done(made(make, has_row)); };
}

// ---- Columns without a call that could be refused memory in turn ----

inline Shared read_flat(const Words &words, const Workspace &) {
    require(!words.empty());
    return column_of_rows(read_type(words[0]), read_rows(words_from(words, 1)));
}

inline Shared read_raw(const Words &words, const Workspace &) {
    require(words.size() > 1);
    const Type type = read_type(words[0]);
    const Validity validity = read_validity(words[1]);
    require(!type.is_list && !is_text(type.kind) && (validity.code == never_null) == !type.kind.nullable);
    const Rows rows = read_rows(words_from(words, 2));
    for (const Row &row : rows) require(row.is_valid);
    const std::string message = flat_message(type.kind, validity.code, validity.bits, rows);
    if (validity.code == by_bits && validity.bits.size() != rows.size())
        throw NotServed("bits of validity of another length than the rows", true);
    return read_message(message);
}

inline Shared read_invalid(const Words &words, const Workspace &) {
    require(words.size() == 2);
    const Type type = read_type(words[0]);
    const uint64_t count = read_count(words[1]);
    require(!type.is_list && type.kind.nullable);
    return read_message(flat_message(type.kind, all_null, {}, Rows(count, null_row())));
}

inline Shared read_constant_column(const Words &words, const Workspace &) {
    require(words.size() == 3);
    const Value value = read_value(words[1]);
    const uint64_t count = read_count(words[2]);
    return constant_of(scalar_of(read_type(words[0]), value), count);
}

template <PartCall part> Shared read_part(const Words &words, const Workspace &workspace) {
    require(words.size() == 1);
    const Shared column = workspace.find(words[0]);
    require(column->form() == HV_FORM_RUNS);
    return part_of(part, *column);
}

using PlainMaker = Shared (*)(const Words &words, const Workspace &workspace);

inline const std::map<std::string, PlainMaker> &plain_makers() {
    static const std::map<std::string, PlainMaker> all{
        {"flat", read_flat},
        {"raw", read_raw},
        {"invalid", read_invalid},
        {"constant", read_constant_column},
        {"ends", read_part<hv_call_ends>},
        {"values", read_part<hv_call_values>},
    };
    return all;
}

// ---- Runs ----

inline Call runs_call(const Words &words, const Workspace &workspace, uint64_t offset, std::optional<uint64_t> count) {
    require(words.size() > 1);
    const Type type = read_type(words[0]);
    require(!type.is_list && is_integer(type.kind));
    const auto [ends_words, value_words] = parted_at(words_from(words, 1), "/");
    require(value_words.size() == 1);
    const Rows rows = read_rows(ends_words);
    const Shared ends = flat_column(type.kind, rows), values = workspace.find(value_words[0]);
    const Wide last = rows.empty() ? 0 : rows.back().value.number;
    const uint64_t shown = count ? *count : last > 0 ? static_cast<uint64_t>(last) : 0;
    return making([=](hv_column *out, hv_error *error) {
        return hv_runs(ends->get(), values->get(), offset, shown, out, error);
    });
}

inline Call read_runs(const Words &words, const Workspace &workspace) {
    require(words.size() > 3);
    Words ends{words[0]};
    ends.insert(ends.end(), words.begin() + 3, words.end());
    return runs_call(ends, workspace, read_count(words[1]), read_count(words[2]));
}

// The window up to the last end.
inline Call read_whole(const Words &words, const Workspace &workspace) {
    return runs_call(words, workspace, 0, std::nullopt);
}

inline Call read_deserialize(const Words &words, const Workspace &workspace) {
    require(words.size() > 2);
    const Type type = read_type(words[0]);
    const uint64_t count = read_count(words[1]);
    const auto [byte_words, names] = parted_at(words_from(words, 2), "/");
    require(names.size() == 2);
    const std::string bytes = read_bytes(byte_words);
    const Shared ends = workspace.find(names[0]), values = workspace.find(names[1]);
    if (type.is_list) throw NotServed("deserialize of lists");
    return making([=](hv_column *out, hv_error *error) {
        return hv_deserialize(&type.kind, count, data_of(bytes), bytes.size(), ends->get(), values->get(), out, error);
    });
}

// ---- Lists and views ----

struct ListParts {
    Shared elements, offsets, sizes, runs; // runs: the validity, where it is by runs
    Validity validity;
};

// Is it of this type without null, and flat, or in runs of flat values?
inline bool is_list_part(const Column &column, int type) {
    const hv_kind kind = column.kind();
    if (kind.number != type || kind.nullable) return false;
    const bool is_runs = column.form() == HV_FORM_RUNS;
    return (is_runs ? part_of(hv_call_values, column)->form() : column.form()) == HV_FORM_FLAT;
}

// The first row of each stretch of rows in which no part changes.
inline std::vector<uint64_t> stretches_of(const ListParts &parts) {
    std::set<uint64_t> starts;
    for (const Shared &part : {parts.offsets, parts.sizes, parts.runs}) {
        if (!part) continue;
        size_t count = part->length();
        const bool is_runs = part->form() == HV_FORM_RUNS;
        if (is_runs) ask([&](hv_error *error) { return hv_run_count(part->get(), &count, error); });
        std::vector<uint64_t> stops(count);
        for (size_t row = 0; row < count; row++) stops[row] = row + 1;
        if (is_runs)
            ask([&](hv_error *error) { return hv_read_ends_u64(part->get(), 0, stops.data(), count, error); });
        starts.insert(0);
        starts.insert(stops.begin(), stops.end());
    }
    return {starts.begin(), starts.lower_bound(parts.offsets->length())};
}

inline Shared rows_at(const hv_session &session, const Column &column, const std::vector<uint64_t> &rows) {
    const PassedValidity whole({never_null, {}});
    const Shared indices = integers(hv_call_u64, std::vector<Wide>(rows.begin(), rows.end()), whole);
    const Shared taken = made([&](hv_column *out, hv_error *error) {
        return hv_take(&session, column.get(), indices->get(), out, error);
    });
    return decoded(session, *taken);
}

// The lists of one row of each stretch, by the call, and its refusal with the row that it is of all rows.
inline void ask_stretches(const hv_session &session, const ListParts &parts) {
    const std::vector<uint64_t> rows = stretches_of(parts);
    Validity validity = parts.runs ? Validity{by_bits, {}} : parts.validity;
    if (validity.code == all_null) validity = {by_bits, std::vector<bool>(rows.size(), false)};
    for (size_t at = 0; parts.runs && at < rows.size(); at++)
        validity.bits.push_back(row_word(*parts.runs, rows[at]) == "true");
    try {
        lists_column(*parts.elements, counts_of(*rows_at(session, *parts.offsets, rows)),
                     counts_of(*rows_at(session, *parts.sizes, rows)), PassedValidity(validity));
    } catch (Refused &refused) {
        if (refused.number == HV_OUT_OF_BOUNDS) refused.fields.first = rows.at(refused.fields.first);
        throw;
    }
}

// Lists whose offsets and sizes are flat are made by a call; those in runs, or of which the validity says that all are
// null or is by runs, by a message. How that is refused says the call over a row of each stretch.
inline Shared lists_of(const hv_session &session, const ListParts &parts) {
    const bool is_flat = parts.offsets->form() == HV_FORM_FLAT && parts.sizes->form() == HV_FORM_FLAT;
    const bool is_call = is_flat && !parts.runs && parts.validity.code != all_null;
    if (is_call)
        return lists_column(*parts.elements, counts_of(*parts.offsets), counts_of(*parts.sizes),
                            PassedValidity(parts.validity));
    const std::string message =
        lists_message(*parts.elements, *parts.offsets, *parts.sizes, parts.validity, parts.runs.get());
    try {
        return read_message(message);
    } catch (const Refused &refused) {
        if (refused.number != HV_BAD_METADATA) throw;
        if (parts.offsets->length() != parts.sizes->length())
            throw Refused(HV_COLUMN_LENGTH, {parts.offsets->length(), parts.sizes->length(), 0});
        ask_stretches(session, parts);
        throw;
    }
}

inline Call read_lists(const Words &words, const Workspace &workspace) {
    require(words.size() == 4);
    const Shared elements = workspace.find(words[0]), offsets = workspace.find(words[1]);
    ListParts parts{elements, offsets, workspace.find(words[2]), nullptr, {by_runs, {}}};
    if (is_name(words[3])) parts.runs = workspace.find(words[3]);
    else parts.validity = read_validity(words[3]);
    require(parts.elements->form() == HV_FORM_FLAT && (!parts.runs || parts.runs->form() == HV_FORM_RUNS));
    const size_t rows = parts.runs ? parts.runs->length() : parts.validity.bits.size();
    if (parts.validity.code >= by_bits && rows != parts.offsets->length())
        throw NotServed("a validity of another length than the rows", true);
    if (!is_list_part(*parts.offsets, HV_U64) || !is_list_part(*parts.sizes, HV_U64) ||
        (parts.runs && !is_list_part(*parts.runs, HV_BOOL)))
        throw NotServed("parts of lists that C does not take", true);
    return [session = &workspace.session, parts] { return done(lists_of(*session, parts)); };
}

// The views of texts in buffers: of each the number of a buffer, a start and a size.
struct View {
    uint64_t buffer, start, size;
};

inline Words views_texts(const Words &buffers, const std::vector<View> &views, const Validity &validity) {
    Words texts;
    for (size_t row = 0; row < views.size(); row++) {
        const View &view = views[row];
        const bool is_valid = validity.code == by_bits ? validity.bits[row] : validity.code != all_null;
        const bool is_there = view.buffer < buffers.size() && view.start <= buffers[view.buffer].size() &&
                              view.size <= buffers[view.buffer].size() - view.start;
        if (is_valid && !is_there) throw NotServed("views past their buffers", true);
        texts.push_back(is_valid ? buffers[view.buffer].substr(view.start, view.size) : "");
    }
    return texts;
}

inline Call read_views(const Words &words, const Workspace &) {
    require(words.size() > 2 && (words[0] == "utf8" || words[0] == "binary"));
    const bool is_binary = words[0] == "binary";
    const Validity validity = read_validity(words[1]);
    const auto [view_words, buffer_words] = parted_at(words_from(words, 2), "/");
    require(view_words.size() % 3 == 0);
    Words buffers;
    std::vector<View> views;
    for (const std::string &word : buffer_words) {
        const Value value = read_value(word);
        require(value.sort == Value::bytes);
        buffers.push_back(bytes_of_digits(value.word));
    }
    for (size_t at = 0; at < view_words.size(); at += 3)
        views.push_back({read_count(view_words[at]), read_count(view_words[at + 1]), read_count(view_words[at + 2])});
    if (validity.code == by_bits && validity.bits.size() != views.size())
        throw NotServed("bits of validity of another length than the rows", true);
    const Words texts = views_texts(buffers, views, validity);
    if (validity.code != all_null)
        return [=] { return done(texts_column(is_binary, texts, PassedValidity(validity))); };
    const hv_kind kind = kind_of_number(is_binary ? HV_BINARY : HV_UTF8, true);
    return [=] { return done(read_message(flat_message(kind, all_null, {}, Rows(views.size(), null_row())))); };
}

// ---- Builders ----

struct BuilderPart {
    Shared rows; // or this many rows of the scalar
    Scalar scalar;
    uint64_t count;
};

class Builder {
public:
    explicit Builder(const hv_kind &of) : kind(of) {
        ask([&](hv_error *error) { return hv_builder_new(&kind, &handle, error); });
    }
    Builder(const Builder &) = delete;
    Builder &operator=(const Builder &) = delete;
    ~Builder() { hv_builder_free(&handle); }
    void append(const BuilderPart &part) {
        if (part.rows) return ask([&](hv_error *error) { return hv_append(&handle, part.rows->get(), error); });
        const hv_kind &own = part.scalar.type.kind;
        const bool is_same = !part.scalar.type.is_list && same_but_null(own, kind) && own.nullable == kind.nullable;
        if (!is_same && !plainly_differs(part.scalar, kind))
            throw NotServed("a scalar of a type that C does not know from the builder's", true);
        ask([&](hv_error *error) {
            return hv_append_value(&handle, &part.scalar.value, data_of(part.scalar.text), part.scalar.text.size(),
                                   part.count, error);
        });
    }
    Shared finish() {
        return made([&](hv_column *out, hv_error *error) { return hv_finish(&handle, out, error); });
    }

private:
    hv_kind kind;
    hv_builder handle = HV_EMPTY;
};

// What a builder makes of the parts from one on.
inline Shared built_from(Builder &builder, const std::vector<BuilderPart> &parts, size_t first) {
    for (size_t at = first; at < parts.size(); at++) builder.append(parts[at]);
    return builder.finish();
}

// A builder that was refused memory has what it had: the same call, and those after it, leave what a new one makes of
// all parts. One that is finished has nothing: it then makes the same once more.
inline void check_goes_on(Builder &builder, const hv_kind &kind, const std::vector<BuilderPart> &parts, size_t first) {
    const Memory::Aside aside;
    Shared due;
    try {
        Builder fresh(kind);
        due = built_from(fresh, parts, 0);
    } catch (const Refused &) {
        return; // a later part is refused whatever memory there is
    }
    for (const size_t from : {first, size_t{0}})
        if (form_text(*built_from(builder, parts, from)) != form_text(*due))
            throw std::runtime_error("a builder that was refused memory has lost rows, or has more");
}

inline BuilderPart read_builder_part(const Words &words, const Workspace &workspace) {
    if (words.size() == 1) return {workspace.find(words[0]), {}, 0};
    require(words.size() == 3);
    const uint64_t count = read_count(words[2]);
    return {nullptr, read_scalar(words[0], words[1]), count};
}

inline Call read_built(const Words &words, const Workspace &workspace) {
    require(!words.empty());
    const Type type = read_type(words[0]);
    std::vector<BuilderPart> parts;
    if (words.size() > 1)
        for (const Words &part : parts_of(words_from(words, 1))) parts.push_back(read_builder_part(part, workspace));
    if (type.is_list) throw NotServed("a builder of lists", true);
    return [=] {
        Builder builder(type.kind);
        size_t at = 0;
        try {
            for (; at < parts.size(); at++) builder.append(parts[at]);
            return done(builder.finish());
        } catch (const Refused &refused) {
            if (refused.number == HV_OUT_OF_MEMORY) check_goes_on(builder, type.kind, parts, at);
            throw;
        }
    };
}

// ---- Encodings of flat columns, and bytes ----

// RunEnd::encode, which takes flat columns only.
inline Call read_encoding(const Words &words, const Workspace &workspace) {
    require(words.size() == 1);
    const Shared column = workspace.find(words[0]);
    if (column->form() != HV_FORM_FLAT) throw NotServed("RunEnd::encode of a column that is not flat", true);
    return making([=, session = &workspace.session](hv_column *out, hv_error *error) {
        return hv_encode(session, column->get(), out, error);
    });
}

inline Call read_from(const Words &words, const Workspace &) {
    require(!words.empty() && (words[0] == "bytes" || words[0] == "typed_bytes"));
    const std::string bytes = read_bytes(words_from(words, 1));
    const bool is_typed = words[0] == "typed_bytes";
    return [=] {
        const Shared column = read_message(bytes);
        const bool has_format = !format_of(*column, bytes.size()).empty();
        // The call reads messages of both versions; a line of `bytes` has those without a format only.
        if (has_format && !is_typed) throw Refused(HV_BAD_METADATA);
        return done(has_format ? under(*column, "") : column);
    };
}

} // namespace vectors
#endif
