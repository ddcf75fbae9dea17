// Lines, and what each is answered: what it asks is made ready, and then done, also with memory refused in turn.
#ifndef VECTORS_LINES_HPP
#define VECTORS_LINES_HPP
#include "questions.hpp"
#include <exception>

namespace vectors {

// What a line asks, ready to be done any number of times: commands, of which one makes a column where `on` is none.
struct Work {
    std::string name;
    Shared on;
    std::vector<Command> commands;
};

// What commands come to: the answer of each, whether it was refused for memory, the column that they leave, and a
// command that no call serves, which is refused by its definition.
struct Outcome {
    Words answers;
    std::vector<bool> lacking;
    Shared left;
    std::optional<NotServed> not_served;
};

// Does the commands, each on the column that the last one left, but for those that are left out.
inline Outcome do_work(const Work &work, const std::vector<bool> &left_out = {}) {
    static const Column none;
    Outcome outcome;
    Shared now = work.on;
    for (size_t at = 0; at < work.commands.size(); at++) {
        if (at < left_out.size() && left_out[at]) continue;
        Answer answer;
        bool lacks_memory = false;
        try {
            answer = work.commands[at](now ? *now : none);
        } catch (const Refused &refused) {
            answer.text = text_of(refused);
            lacks_memory = refused.number == HV_OUT_OF_MEMORY;
        } catch (const NotServed &not_served) {
            if (!not_served.is_refused) throw;
            outcome.not_served = not_served;
        }
        if (answer.column) now = outcome.left = answer.column;
        outcome.answers.push_back(answer.text);
        outcome.lacking.push_back(lacks_memory);
    }
    return outcome;
}

inline std::string text_of(const Outcome &outcome) {
    std::string text;
    for (const std::string &answer : outcome.answers) text += (text.empty() ? "" : " ; ") + answer;
    return text;
}

// The answers of commands that were not refused for memory, and the form that is left.
inline Words served(const Work &work, const Outcome &outcome) {
    Words shown;
    for (size_t at = 0; at < outcome.answers.size(); at++)
        if (!outcome.lacking[at]) shown.push_back(outcome.answers[at]);
    const Shared &left = outcome.left ? outcome.left : work.on;
    shown.push_back(left ? form_text(*left) : "");
    return shown;
}

// Refuses requests for memory while it is there.
class Refusing {
public:
    Refusing(long request, bool is_rest) { Memory::refuse(request, is_rest); }
    Refusing(const Refusing &) = delete;
    Refusing &operator=(const Refusing &) = delete;
    ~Refusing() { Memory::grant(); }
    bool happened() const { return Memory::grant() > 0; }
};

// The work with a request refused, from 0; none where there was no such request.
inline std::optional<Outcome> refused_at(const Work &work, long request, bool is_rest) {
    const Refusing refusing(request, is_rest);
    const Outcome outcome = do_work(work);
    if (!refusing.happened()) return std::nullopt;
    return outcome;
}

class Lines {
public:
    // The answer to a line without its ` => `, which has its effect.
    std::string answer(const std::string &request) {
        try {
            return answer_words(split(request, ' '));
        } catch (const BadLine &) {
            return "bad line";
        } catch (const Refused &refused) {
            return text_of(refused);
        } catch (const std::exception &error) {
            return std::string("no answer: ") + error.what();
        }
    }

private:
    std::string answer_words(const Words &words) {
        if (words[0] == "kernels") return set_kernels(words_from(words, 1));
        if (words[0] == "thresholds") return set_thresholds(words_from(words, 1));
        if (words[0] != "refuse") return answer_plain(words);
        require(words.size() > 1);
        if (const auto position = count_of(words[1])) return refuse_one(*position, words_from(words, 2));
        return refuse_in_turn(words_from(words, 1));
    }

    // ---- Session ----

    std::string set_kernels(const Words &words) {
        static const Words names{"slice",   "filter",    "take",      "take_from", "compare",     "cast",
                                 "fill_null", "scalar_fn", "sum",       "min_max",   "is_constant", "is_sorted"};
        require(!words.empty());
        const bool is_all = words[0] == "all", is_one_word = words.size() == 1 && (is_all || words[0] == "none");
        std::array<uint8_t, 12> kernels{};
        if (is_one_word) kernels.fill(is_all);
        for (const std::string &word : is_one_word ? Words() : words) {
            const auto found = std::find(names.begin(), names.end(), word);
            require(found != names.end());
            kernels.at(static_cast<size_t>(found - names.begin())) = 1;
        }
        std::copy(kernels.begin(), kernels.end(), workspace.session.kernels);
        return "ok";
    }

    std::string set_thresholds(const Words &words) {
        hv_session given{};
        size_t *const fields[] = {&given.prefill_runs,          &given.min_run_filter_rows, &given.filter_factor,
                                  &given.sorted_runs_per_index, &given.table_len_per_index, &given.unsorted_min_runs,
                                  &given.unsorted_runs_per_index};
        const bool is_word = words.size() == 1;
        require(is_word ? words[0] == "crate" || words[0] == "zero" : words.size() == 7);
        if (is_word && words[0] == "crate") hv_session_initial(&given);
        for (size_t at = 0; !is_word && at < 7; at++) *fields[at] = read_count(words[at]);
        given.size = workspace.session.size;
        std::copy_n(workspace.session.kernels, 12, given.kernels);
        workspace.session = given;
        return "ok";
    }

    // ---- What a line asks ----

    // Reads a line; what changes a column that no call serves leaves one that is not known.
    template <class Do> std::string with_columns(const Words &words, Do work) {
        try {
            return work();
        } catch (const NotServed &not_served) {
            if (may_change(words) && !not_served.is_refused) workspace.columns[words[0]] = nullptr;
            throw;
        }
    }

    static bool may_change(const Words &words) {
        if (words.size() < 2 || !is_name(words[0])) return false;
        const auto found = command_words().find(words[1]);
        return words[1] == "=" || words[1] == "run" || (found != command_words().end() && found->second.leaves_column);
    }

    // The plain maker of a line, if it has one.
    static PlainMaker plain_maker(const Words &words) {
        const bool is_made = words.size() > 2 && words[1] == "=" && is_name(words[0]);
        if (!is_made || (words.size() == 5 && pair_operator(words[3]))) return nullptr;
        const auto found = plain_makers().find(words[2]);
        return found == plain_makers().end() ? nullptr : found->second;
    }

    Work read_work(const Words &words) const {
        if (words.at(0) == "read") return {"", nullptr, {as_command(read_reading(words_from(words, 1)))}};
        require(words.size() > 1 && is_name(words[0]));
        const Words asked = words_from(words, 1);
        if (asked[0] == "=") {
            require(asked.size() > 1);
            return {words[0], nullptr, {as_command(read_maker(words_from(asked, 1), workspace))}};
        }
        std::vector<Command> commands;
        const auto question = questions().find(asked[0]);
        if (question != questions().end()) commands.push_back(question->second(asked, workspace));
        else if (asked[0] != "run") commands.push_back(read_command(asked, workspace));
        else
            for (const Words &part : parts_of(words_from(asked, 1))) commands.push_back(read_command(part, workspace));
        return {words[0], workspace.find(words[0]), commands};
    }

    static Command as_command(Call call) {
        return [call](const Column &) { return call(); };
    }

    // Does the work, and keeps what it leaves.
    std::string settle(const Work &work, const Outcome &outcome) {
        if (outcome.left) workspace.columns[work.name] = outcome.left;
        if (outcome.not_served) throw NotServed(*outcome.not_served);
        return text_of(outcome);
    }

    std::optional<std::string> look_at(const Words &words) const {
        static const Words looks{"rows", "type", "form", "stored"};
        if (words.size() < 2 || std::find(looks.begin(), looks.end(), words[1]) == looks.end()) return std::nullopt;
        require(words.size() == 2);
        const Shared column = workspace.find(words[0]);
        if (words[1] == "rows") return rows_text(workspace.session, *column);
        if (words[1] == "type") return type_text(*column);
        return words[1] == "form" ? form_text(*column) : stored_text(*column);
    }

    std::string answer_plain(const Words &words) {
        return with_columns(words, [&]() -> std::string {
            if (const PlainMaker maker = plain_maker(words)) {
                workspace.columns[words[0]] = maker(words_from(words, 3), workspace);
                return "ok";
            }
            if (const auto look = look_at(words)) return *look;
            const Work work = read_work(words);
            return settle(work, do_work(work));
        });
    }

    // ---- Memory refused in turn ----

    std::string refuse_in_turn(const Words &words) {
        require(!plain_maker(words) && !look_at(words));
        return with_columns(words, [&] {
            Work work;
            try {
                work = read_work(words);
            } catch (const Refused &refused) {
                if (!refused.is_early) throw;
                return text_of(refused) + " none";
            }
            const Outcome plain = do_work(work);
            if (plain.not_served) return settle(work, plain);
            bool is_lacking = false;
            for (const bool is_rest : {false, true})
                if (const long broken = first_broken(work, is_rest, is_lacking))
                    return "broken at " + std::to_string(broken);
            return settle(work, plain) + (is_lacking ? " memory" : " none");
        });
    }

    // Refuses each request in turn. Answers the number, from 1, of the first after which anything but the commands that
    // were refused for memory is not as with enough memory; 0 for none.
    static long first_broken(const Work &work, bool is_rest, bool &is_lacking) {
        const std::string before = work.on ? form_text(*work.on) : "";
        for (long request = 0;; request++) {
            const std::optional<Outcome> outcome = refused_at(work, request, is_rest);
            if (!outcome) return 0;
            const bool is_kept = !work.on || form_text(*work.on) == before;
            const Outcome due = do_work(work, outcome->lacking);
            if (!is_kept || served(work, *outcome) != served(work, due)) return request + 1;
            for (const bool lacks : outcome->lacking) is_lacking = is_lacking || lacks;
        }
    }

    // Runs a list of commands with only the one at this position, from 1, refused for memory.
    std::string refuse_one(uint64_t position, const Words &words) {
        require(words.size() > 2 && words[1] == "run");
        return with_columns(words, [&]() -> std::string {
            const Work work = read_work(words);
            if (const auto not_served = do_work(work).not_served) throw NotServed(not_served->why);
            for (long request = 0; position > 0 && position <= work.commands.size(); request++) {
                const std::optional<Outcome> outcome = refused_at(work, request, false);
                if (!outcome) return "never";
                if (outcome->lacking[position - 1]) return settle(work, *outcome);
            }
            return "never";
        });
    }

    Workspace workspace;
};

} // namespace vectors
#endif
