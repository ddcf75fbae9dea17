// Questions about a column, and about bytes, that are not commands.
#ifndef VECTORS_QUESTIONS_HPP
#define VECTORS_QUESTIONS_HPP
#include "pairs.hpp"

namespace vectors {

inline Answer said(std::string text) { return {std::move(text), nullptr}; }

// ---- Rows and forms ----

inline Command read_row_question(const Words &words, const Workspace &workspace) {
    require(words.size() == 2);
    const uint64_t row = read_count(words[1]);
    return [row, session = &workspace.session](const Column &column) { return said(one_row(*session, column, row)); };
}

// The value of the run that shows the row; a row of lists has no such call.
inline Command read_probe(const Words &words, const Workspace &workspace) {
    require(words.size() == 2);
    const uint64_t row = read_count(words[1]);
    return [row, session = &workspace.session](const Column &column) {
        require(column.form() == HV_FORM_RUNS);
        if (column.kind().number == HV_LIST) return said(one_row(*session, column, row));
        size_t run = 0, start = 0, stop = 0;
        Found found;
        ask([&](hv_error *error) { return hv_run_of(column.get(), row, &run, error); });
        ask_for({&found}, [&] {
            ask([&](hv_error *error) {
                return hv_run(column.get(), run, &start, &stop, &found.value, data_of(found.text), found.text.size(),
                              error);
            });
        });
        return said(word_of(found));
    };
}

inline Command read_validity_question(const Words &words, const Workspace &) {
    require(words.size() == 1);
    return [](const Column &column) -> Answer {
        require(column.form() == HV_FORM_RUNS);
        throw NotServed("the validity of a run column, as a form");
    };
}

inline Command read_equals(const Words &words, const Workspace &workspace) {
    require(words.size() == 2);
    const Shared other = workspace.find(words[1]);
    return [other](const Column &column) {
        uint8_t holds = 0;
        ask([&](hv_error *error) { return hv_equals(column.get(), other->get(), &holds, error); });
        return truth(holds);
    };
}

inline Command read_hash(const Words &words, const Workspace &) {
    require(words.size() == 1);
    return [](const Column &column) {
        uint64_t hash = 0;
        ask([&](hv_error *error) { return hv_hash(column.get(), &hash, error); });
        return said(std::to_string(hash));
    };
}

// ---- Bytes ----

inline Command read_meta(const Words &words, const Workspace &) {
    require(words.size() == 1);
    return [](const Column &column) {
        require(column.form() == HV_FORM_RUNS);
        std::string bytes(64, 0); // a record has at most 22
        size_t size = 0, same_size = 0;
        ask([&](hv_error *error) { return hv_serialize(column.get(), data_of(bytes), bytes.size(), &size, error); });
        // And into just the room that it takes.
        ask([&](hv_error *error) { return hv_serialize(column.get(), data_of(bytes), size, &same_size, error); });
        return said(byte_words(bytes.substr(0, same_size)));
    };
}

inline Command read_bytes_question(const Words &words, const Workspace &) {
    require(words.size() == 1);
    return [](const Column &column) { return said(byte_words(message_of(column))); };
}

inline Command read_typed_bytes(const Words &words, const Workspace &) {
    require(words.size() == 2);
    const std::optional<std::string> quoted = between(words[1], "\"", '"');
    require(quoted.has_value());
    const std::string format = text_of_quoted(*quoted);
    return [format](const Column &column) { return said(byte_words(message_of(*under(column, format)))); };
}

// ---- Floats and decimals ----

inline Command read_floats_question(const Words &words, const Workspace &) {
    require(words.size() == 1);
    return [](const Column &column) {
        const Shared bits = part_of(hv_call_float_decode, column);
        const int format = bits->kind().number + HV_I8;
        Words floats;
        for (size_t row = 0; row < bits->length(); row++) {
            const std::string word = row_word(*bits, row);
            floats.push_back(word == "null" ? word : float_word(format, read_count(word)));
        }
        return said(joined(floats));
    };
}

// The floats whose keys a column has, under their format. The calls work other columns as what these mean.
inline Shared floats_of(const Column &column) {
    const uint8_t type = column.kind().number;
    if (type != HV_I16 && type != HV_I32 && type != HV_I64) throw NotServed("floats of a column of another type", true);
    return under(column, type == HV_I16 ? "e" : type == HV_I32 ? "f" : "g");
}

// What a call answers of floats whose keys have this type: each as the double with its number.
inline std::string float_word_of(int format, const Found &found) {
    if (found.value.kind != HV_DOUBLE) return word_of(found);
    return float_word(format, narrowed(format, found.value.as_unsigned));
}

inline Command read_float_at(const Words &words, const Workspace &) {
    require(words.size() == 2);
    const uint64_t row = read_count(words[1]);
    return [row](const Column &column) {
        const Shared floats = floats_of(column);
        Found found;
        ask([&](hv_error *error) { return hv_at(floats->get(), row, &found.value, nullptr, 0, error); });
        return said(float_word_of(column.kind().number, found));
    };
}

inline Command read_min_max_numbers(const Words &words, const Workspace &workspace) {
    require(words.size() == 1);
    return [session = &workspace.session](const Column &column) {
        const Shared floats = floats_of(column);
        Found least, greatest;
        ask([&](hv_error *error) {
            return hv_min_max(session, floats->get(), &least.value, nullptr, 0, &greatest.value, nullptr, 0, error);
        });
        const int format = column.kind().number;
        return said(least.value.kind == HV_NULL ? "none"
                                                : float_word_of(format, least) + " " + float_word_of(format, greatest));
    };
}

inline Command read_min_max_total(const Words &words, const Workspace &) {
    require(words.size() == 1);
    return [](const Column &) -> Answer { throw NotServed("the total order of floats, as minmax of their keys", true); };
}

inline hv_total sum_of(const hv_session &session, const Column &column, bool has_row = false) {
    hv_total total{};
    ask([&](hv_error *error) { return hv_sum(&session, column.get(), &total, error); }, has_row);
    return total;
}

inline Command read_float_sum(const Words &words, const Workspace &workspace) {
    require(words.size() == 1);
    return [session = &workspace.session](const Column &column) {
        return said(float_word(HV_I64, sum_of(*session, *floats_of(column)).as_unsigned));
    };
}

inline Command read_decimal_sum(const Words &words, const Workspace &workspace) {
    require(words.size() == 1);
    return [session = &workspace.session](const Column &column) {
        if (column.kind().number != HV_DECIMAL) throw NotServed("a sum of decimals of a column of another type", true);
        const hv_total total = sum_of(*session, column, true);
        const UnsignedWide bits = static_cast<UnsignedWide>(total.as_signed) << 64 | total.as_unsigned;
        return said(word_of(static_cast<Wide>(bits)) + (total.empty ? " empty" : ""));
    };
}

using QuestionReader = Command (*)(const Words &words, const Workspace &workspace);

inline const std::map<std::string, QuestionReader> &questions() {
    static const std::map<std::string, QuestionReader> all{
        {"row", read_row_question},
        {"probe", read_probe},
        {"validity", read_validity_question},
        {"equals", read_equals},
        {"hash", read_hash},
        {"meta", read_meta},
        {"bytes", read_bytes_question},
        {"typed_bytes", read_typed_bytes},
        {"floats", read_floats_question},
        {"float_at", read_float_at},
        {"min_max_numbers", read_min_max_numbers},
        {"min_max_total", read_min_max_total},
        {"sum_floats", read_float_sum},
        {"sum_decimals", read_decimal_sum},
    };
    return all;
}

// ---- Records, and messages without a column ----

// A record is asked by hv_deserialize: its type of ends is the one that the call does not refuse, its number of runs
// the one that the call misses, and its offset is that of a column over as many runs.
class RecordQuestion {
public:
    explicit RecordQuestion(std::string record) : bytes(std::move(record)) {}
    std::string text() const {
        for (int type = HV_U8; type <= HV_U64; type++) {
            try {
                return text_of_runs(type, 0, hv_offset(column_over(type, 0)->get()));
            } catch (const Refused &refused) {
                if (refused.number == HV_NO_RUNS_WINDOW) return text_of_runs(type, 0, refused.fields.first);
                if (refused.number == HV_RUN_COUNT) return text_of_many(type, refused.fields.first);
                if (refused.number != HV_TYPE_MISMATCH) throw;
            }
        }
        throw BadLine{};
    }

private:
    static std::string text_of_runs(int type, uint64_t runs, uint64_t offset) {
        return word_of(kind_of_number(type)) + " " + std::to_string(runs) + " " + std::to_string(offset);
    }
    std::string text_of_many(int type, uint64_t runs) const {
        const uint64_t most = type == HV_U8 ? UINT8_MAX : type == HV_U16 ? UINT16_MAX : 100000;
        if (runs > most) throw NotServed("a record of more runs than a column is made with");
        return text_of_runs(type, runs, hv_offset(column_over(type, runs)->get()));
    }
    // A run column by the record, of no rows, over this number of runs.
    Shared column_over(int type, uint64_t runs) const {
        Rows rows;
        for (uint64_t run = 0; run < runs; run++) rows.push_back(row_of(run + 1));
        const hv_kind kind = kind_of_number(HV_U8);
        const Shared ends = flat_column(kind_of_number(type), rows);
        const Shared values = constant_of(scalar_of({kind, false, false}, {Value::integer, 0, ""}), runs);
        return made([&](hv_column *out, hv_error *error) {
            return hv_deserialize(&kind, 0, data_of(bytes), bytes.size(), ends->get(), values->get(), out, error);
        });
    }
    std::string bytes;
};

// What a message says of a logical type.
inline Answer logical_type(const std::string &bytes) {
    const Shared column = read_message(bytes);
    return said(word_of_text(format_of(*column, bytes.size())));
}

// The words after `read`.
inline Call read_reading(const Words &words) {
    if (!words.empty() && words[0] == "typed_bytes")
        return [bytes = read_bytes(words_from(words, 1))] { return logical_type(bytes); };
    return [record = RecordQuestion(read_bytes(words))] { return said(record.text()); };
}

} // namespace vectors
#endif
