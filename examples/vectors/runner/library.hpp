// The library as the runner calls it: columns that are freed by scope, refusals, requests for memory that are refused,
// and what lines share.
#ifndef VECTORS_LIBRARY_HPP
#define VECTORS_LIBRARY_HPP
#include "hivevigil_errors.h"
#include "types.hpp"
#include <functional>
#include <map>
#include <memory>
extern "C" {
#include "../../c/refusing_malloc.h"
}

namespace vectors {

// A call refused what was asked. Where `has_row`, the fields of 14 are a row, group or run, and why it does not fit.
struct Refused {
    explicit Refused(int32_t answer, hv_error of_answer = {0, 0, 0}, bool of_row = false)
        : number(answer), fields(of_answer), has_row(of_row) {}
    int32_t number;
    hv_error fields;
    bool has_row;
    bool is_early = false; // what the line gives the call was refused, so that there was no call
    std::string index;     // in place of the first field, where C has no number for it
};

// No call of the library serves the line, as its words and the types and forms of its columns show.
struct NotServed {
    explicit NotServed(const char *reason, bool refused = false) : why(reason), is_refused(refused) {}
    const char *why;
    bool is_refused; // by its definition the line is refused, so that it changes no column
};

// How many fields the sentence of an error names.
inline int count_of_fields(int32_t number) {
    const char *sentence = hv_error_sentence(number);
    int most = 0;
    for (const char *at = sentence; at && *at; at++)
        if (*at == '%') most = std::max(most, at[1] - '0');
    return most;
}

inline std::string text_of(const Refused &refused) {
    std::string text = "refused " + std::to_string(refused.number);
    const uint64_t fields[] = {refused.fields.first, refused.fields.second, refused.fields.third};
    if (refused.number == HV_CAST_OUT_OF_RANGE && refused.has_row)
        return text + " " + std::to_string(fields[0]) + (fields[1] ? " inexact" : "");
    for (int field = 0; field < count_of_fields(refused.number); field++)
        text += " " + (field == 0 && !refused.index.empty() ? refused.index : std::to_string(fields[field]));
    return text;
}

// Requests for memory, counted and refused only while the library runs.
class Memory {
public:
    // From now on refuses this request, counted from 0, or with `is_rest` all from it on.
    static void refuse(long request, bool is_rest) {
        chosen = request;
        counted = refused = 0;
        refuse_rest = is_rest;
    }
    // Refuses nothing from now on; answers how many requests were refused.
    static long grant() {
        chosen = -1;
        return refused;
    }
    template <class Call> static int32_t during(Call call) {
        if (is_aside) return call();
        requests = counted;
        refuse_at = chosen;
        const int32_t answer = call();
        refuse_at = -1;
        counted = requests;
        return answer;
    }
    // Calls that only say more of an answer are given all memory while one of these is there.
    class Aside {
    public:
        Aside() : was_aside(is_aside) { is_aside = true; }
        Aside(const Aside &) = delete;
        Aside &operator=(const Aside &) = delete;
        ~Aside() { is_aside = was_aside; }

    private:
        bool was_aside;
    };

private:
    static inline long chosen = -1, counted = 0;
    static inline bool is_aside = false;
};

// Makes a call, which is given where the fields of an error go.
template <class Call> void ask(Call call, bool has_row = false) {
    hv_error error = {0, 0, 0};
    const int32_t answer = Memory::during([&] { return call(&error); });
    if (answer != HV_OK) throw Refused(answer, error, has_row);
}

// A column of the library. Several names and answers may share it, since no call changes it.
class Column {
public:
    Column() = default;
    Column(const Column &) = delete;
    Column &operator=(const Column &) = delete;
    ~Column() { hv_free(&handle); }
    hv_column *out() { return &handle; }
    const hv_column *get() const { return &handle; }
    hv_kind kind() const { return hv_kind_of(&handle); }
    uint8_t form() const { return hv_form(&handle); }
    size_t length() const { return hv_length(&handle); }

private:
    hv_column handle = HV_EMPTY;
};
using Shared = std::shared_ptr<const Column>;

// The column that a call makes, which is given where the column goes and where the fields of an error go.
template <class Call> Shared made(Call call, bool has_row = false) {
    const auto column = std::make_shared<Column>();
    ask([&](hv_error *error) { return call(column->out(), error); }, has_row);
    return column;
}

inline Shared copy_of(const Column &column) {
    return made([&](hv_column *out, hv_error *error) { return hv_clone(column.get(), out, error); });
}

inline const uint8_t *data_of(const std::string &bytes) { return reinterpret_cast<const uint8_t *>(bytes.data()); }
inline uint8_t *data_of(std::string &bytes) { return reinterpret_cast<uint8_t *>(bytes.data()); }

// What a call answers: a text, and the column that it made or left, if it did.
struct Answer {
    std::string text;
    Shared column;
};
inline Answer done(Shared column) { return {"ok", std::move(column)}; }
inline Answer truth(bool holds) { return {holds ? "true" : "false", nullptr}; }

// What lines share: the session, and columns by their names. A column is null where a line that is not served may have
// made or changed it.
struct Workspace {
    hv_session session{};
    std::map<std::string, Shared> columns;

    Workspace() { hv_session_initial(&session); }

    // A copy of the column of this name, which a call is lent.
    Shared find(const std::string &name) const {
        require(is_name(name));
        const auto found = columns.find(name);
        require(found != columns.end());
        if (!found->second) throw NotServed("a column that a line without a call may have changed");
        return copy_of(*found->second);
    }
};

// What a line asks, after all that it takes is made: commands on a column, or one call.
using Command = std::function<Answer(const Column &)>;
using Call = std::function<Answer()>;

} // namespace vectors
#endif
