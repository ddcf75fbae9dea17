// Finds a line of a file of vectors (docs/VECTORS.md) that sees each wrong body in a library of tools/mutants.py, which
// compiles and starts this. Prints `NUMBER LINE HOW` for each that is seen, where HOW is `differs`, `crashes` or
// `runs on`, and `NUMBER unseen` or `NUMBER unreached` for each other. The library asks hv_is_mutant where a body has
// wrong ones.
//     mutants FILE COUNT KNOWN [MOST]
// A line is answered once with the right bodies. The file KNOWN names, as `NUMBER LINE`, lines that saw a wrong body
// before: a process of its own answers these with it first, and some lines above. From some of the lines that reach a
// wrong body on, another then answers a few; where none of them sees it, all lines that reach it are answered, or MOST of
// them. What is compared is the answer of the right bodies, which agrees with the file. Of lines that see a wrong body one is named
// whose text is in the file once, if there is one among those that were answered.
#include "lines.hpp"
#include <fcntl.h>
#include <fstream>
#include <iostream>
#include <map>
#include <sys/mman.h>
#include <sys/resource.h>
#include <sys/wait.h>
#include <unistd.h>

namespace {

constexpr size_t starts = 60;        // of the lines that reach a wrong body, spread evenly
constexpr size_t lines_each = 12;    // answered from one of them on, and after the last that reaches it
constexpr rlim_t seconds = 5;        // of processor, for one process that answers a few
constexpr size_t more_lines = 500;   // for which it may have a second more
constexpr rlim_t memory = 4ul << 30; // bytes that it may have

uint32_t chosen = 0;
std::vector<bool> is_reached;

struct Line {
    size_t number; // in the file, from 1
    std::string text;
    std::string request;
    std::string expected;
    bool is_once;                  // in the file, with its answer
    std::string answer;            // with the right bodies
    std::vector<uint32_t> reaches; // wrong bodies
};

// What a process that answers lines with a wrong body leaves: the line that it answers, and the one whose answer
// differs, 0 for none.
struct Progress {
    size_t line;
    size_t differs;
};

std::string answer_of(vectors::Lines &lines, const std::string &request) {
    try {
        return lines.answer(request);
    } catch (const vectors::NotServed &) {
        return "not served";
    }
}

std::vector<Line> lines_of(const char *path) {
    std::vector<Line> lines;
    std::map<std::string, size_t> counts;
    std::ifstream file(path);
    std::string text;
    for (size_t number = 1; std::getline(file, text); number++) {
        if (text.empty() || text[0] == '#') continue;
        const size_t mark = text.find(" => ");
        const std::string expected = mark == std::string::npos ? "ok" : text.substr(mark + 4);
        lines.push_back({number, text, text.substr(0, mark), expected, false, "", {}});
        counts[text]++;
    }
    for (Line &line : lines) line.is_once = counts[line.text] == 1;
    return lines;
}

class Mutants {
public:
    Mutants(std::vector<Line> given, uint32_t count) : lines(std::move(given)), is_seen(count + 1) {
        void *const shared = mmap(nullptr, sizeof(Progress), PROT_READ | PROT_WRITE, MAP_SHARED | MAP_ANONYMOUS, -1, 0);
        if (shared == MAP_FAILED) throw std::runtime_error("no memory to share");
        progress = static_cast<Progress *>(shared);
    }

    // Answers all lines with the right bodies; says whether they agree with the file.
    bool agrees() {
        vectors::Lines answered;
        size_t differ = 0;
        for (Line &line : lines) {
            is_reached.assign(is_seen.size(), false);
            line.answer = answer_of(answered, line.request);
            for (uint32_t number = 1; number < is_seen.size(); number++)
                if (is_reached[number]) line.reaches.push_back(number);
            differ += line.answer != line.expected && line.answer != "not served";
        }
        if (differ) std::cerr << differ << " lines differ with the right bodies\n";
        return differ == 0;
    }

    // Tries each wrong body where it was seen before, then from some of the lines that reach it on, and then, if it is
    // still not seen, over all of them, or as many as are asked for.
    void try_all(const char *known, size_t most) {
        const std::vector<std::vector<size_t>> places = places_of();
        try_planned(before(known));
        try_planned(planned(places, lines_each * starts));
        try_planned(planned(places, most));
        for (uint32_t number = 1; number < is_seen.size(); number++)
            if (!is_seen[number]) std::cout << number << (places[number].empty() ? " unreached\n" : " unseen\n");
    }

private:
    // Lines that are answered with a wrong body in one process, by the first of them.
    struct Try {
        uint32_t number;
        size_t count;
    };
    using Plan = std::vector<std::vector<Try>>;

    // Of each wrong body the lines that reach it.
    std::vector<std::vector<size_t>> places_of() const {
        std::vector<std::vector<size_t>> places(is_seen.size());
        for (size_t at = 0; at < lines.size(); at++)
            for (const uint32_t number : lines[at].reaches) places[number].push_back(at);
        return places;
    }

    // What a line shows may come from a few lines above it.
    Plan before(const char *known) const {
        Plan plan(lines.size());
        std::ifstream file(known);
        for (size_t number, line; file >> number >> line;) {
            const auto is_above = [](const Line &each, size_t other) { return each.number < other; };
            const size_t at = std::lower_bound(lines.begin(), lines.end(), line, is_above) - lines.begin();
            const size_t first = at - std::min(at, lines_each);
            if (number < is_seen.size() && at < lines.size())
                plan[first].push_back({static_cast<uint32_t>(number), at - first + 1});
        }
        return plan;
    }

    // For each wrong body all lines that reach it, where these are no more than `most`, or else from some on.
    Plan planned(const std::vector<std::vector<size_t>> &places, size_t most) const {
        Plan plan(lines.size());
        for (uint32_t number = 1; number < places.size(); number++) {
            const std::vector<size_t> &reaching = places[number];
            if (reaching.size() <= most) plan_all(number, reaching, plan);
            else plan_some(number, reaching, most / lines_each, plan);
        }
        return plan;
    }

    static void plan_some(uint32_t number, const std::vector<size_t> &reaching, size_t tries, Plan &plan) {
        for (size_t each = 0; each < tries; each++)
            plan[reaching[each * reaching.size() / tries]].push_back({number, lines_each});
    }

    // Lines that reach a wrong body are in one process with those that follow closely.
    static void plan_all(uint32_t number, const std::vector<size_t> &reaching, Plan &plan) {
        for (size_t first = 0, last = 0; first < reaching.size(); first = ++last) {
            while (last + 1 < reaching.size() && reaching[last + 1] - reaching[last] <= lines_each) last++;
            plan[reaching[first]].push_back({number, reaching[last] - reaching[first] + lines_each});
        }
    }

    void try_planned(const Plan &plan) {
        vectors::Lines answered;
        for (size_t at = 0; at < lines.size(); at++) {
            for (const Try &each : plan[at])
                if (!is_seen[each.number]) is_seen[each.number] = sees(each, answered, at);
            answer_of(answered, lines[at].request);
        }
    }

    // Whether one of the lines from `at` on sees the wrong body, in a process of its own; prints which.
    bool sees(const Try &tried, vectors::Lines &answered, size_t at) {
        *progress = {0, 0};
        std::cout.flush();
        const pid_t process = fork();
        if (process < 0) throw std::runtime_error("no process");
        if (process == 0) answer_with(tried, answered, at);
        int status = 0;
        waitpid(process, &status, 0);
        if (WIFEXITED(status) && WEXITSTATUS(status) == 0) return false;
        const bool runs_on = WIFSIGNALED(status) && (WTERMSIG(status) == SIGXCPU || WTERMSIG(status) == SIGKILL);
        std::cout << tried.number << " " << (progress->differs ? progress->differs : progress->line) << " "
                  << (progress->differs ? "differs" : runs_on ? "runs on" : "crashes") << std::endl;
        return true;
    }

    [[noreturn]] void answer_with(const Try &tried, vectors::Lines &answered, size_t at) {
        const rlim_t most = seconds + tried.count / more_lines;
        const rlimit time{most, most + 1}, bytes{memory, memory}, none{0, 0};
        setrlimit(RLIMIT_CPU, &time);
        setrlimit(RLIMIT_AS, &bytes);
        setrlimit(RLIMIT_CORE, &none);
        dup2(open("/dev/null", O_WRONLY), STDERR_FILENO);
        chosen = tried.number;
        bool is_named = false;
        for (const size_t end = std::min(lines.size(), at + tried.count); at < end && !is_named; at++) {
            progress->line = lines[at].number;
            if (answer_of(answered, lines[at].request) == lines[at].answer) continue;
            is_named = lines[at].is_once;
            if (is_named || !progress->differs) progress->differs = lines[at].number;
        }
        _exit(progress->differs != 0);
    }

    std::vector<Line> lines;
    std::vector<bool> is_seen;
    Progress *progress;
};

} // namespace

extern "C" bool hv_is_mutant(uint32_t number) {
    if (number < is_reached.size()) is_reached[number] = true;
    return number == chosen;
}

int main(int count, char **words) {
    if (count < 4 || count > 5) {
        std::cerr << "mutants FILE COUNT KNOWN [MOST]\n";
        return 2;
    }
    Mutants mutants(lines_of(words[1]), static_cast<uint32_t>(std::stoul(words[2])));
    if (!mutants.agrees()) return 1;
    mutants.try_all(words[3], count > 4 ? std::stoul(words[4]) : SIZE_MAX);
}
