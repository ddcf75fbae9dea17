#include "arguments.hpp"
#include "questions.hpp"
#include <algorithm>
#include <getopt.h>

Arguments arguments_of(int count, char **given) {
    static const option known[] = {
        {"column", required_argument, nullptr, 0}, {"to", required_argument, nullptr, 0},
        {"type", required_argument, nullptr, 0},   {"separator", required_argument, nullptr, 0},
        {"rows", required_argument, nullptr, 0},   {"from", required_argument, nullptr, 0},
        {"runs", no_argument, nullptr, 0},         {"where", required_argument, nullptr, 0},
        {"differences", no_argument, nullptr, 0},  {"sort", required_argument, nullptr, 0},
        {"limit", required_argument, nullptr, 0},  {"by", required_argument, nullptr, 0},
        {"count", required_argument, nullptr, 0},  {"sum", required_argument, nullptr, 0},
        {"mean", required_argument, nullptr, 0},   {"min", required_argument, nullptr, 0},
        {"max", required_argument, nullptr, 0},    {"nulls", required_argument, nullptr, 0},
        {"help", no_argument, nullptr, 'h'},       {"version", no_argument, nullptr, 0},
        {nullptr, 0, nullptr, 0}};
    Arguments arguments;
    opterr = 0;
    for (int place = 0;;) {
        const int found = getopt_long(count, given, ":h", known, &place);
        if (found == -1) break;
        if (found == 'h') {
            arguments.options["help"].push_back("");
            continue;
        }
        const bool is_letter = optopt != 0 && optopt != 'h'; // of a word as -xy, which may not be passed yet
        const std::string refused = is_letter ? std::string("-") + static_cast<char>(optopt) : given[optind - 1];
        if (found == ':') throw BadUsage(refused + " needs a value");
        if (found != 0) throw BadUsage(refused + " is not an option");
        arguments.options[known[place].name].push_back(optarg ? optarg : "");
        if (question_of_word(known[place].name)) arguments.asked.push_back({known[place].name, optarg});
    }
    arguments.words.assign(given + optind, given + count);
    if (arguments.words.size() > 1 && arguments.words[1] == "-") arguments.words[1] = "/dev/stdin";
    return arguments;
}

void take(const Arguments &arguments, size_t words, const std::vector<std::string> &options) {
    if (arguments.words.size() != words)
        throw BadUsage(arguments.words[0] + " takes " + std::to_string(words - 1) + " words before its options, not " +
                       std::to_string(arguments.words.size() - 1));
    for (const auto &given : arguments.options)
        if (std::find(options.begin(), options.end(), given.first) == options.end())
            throw BadUsage("--" + given.first + " is not an option of " + arguments.words[0]);
}

size_t count_of(const std::string &text, const std::string &option, const std::string &what) {
    size_t number = 0;
    for (char letter : text) {
        const size_t digit = static_cast<size_t>(letter - '0');
        if (letter < '0' || letter > '9' || number > (SIZE_MAX - digit) / 10)
            throw BadUsage("--" + option + " takes a number of " + what + ", not '" + text + "'");
        number = number * 10 + digit;
    }
    if (text.empty()) throw BadUsage("--" + option + " takes a number of " + what);
    return number;
}

hv::Nulls asked_nulls(const Arguments &arguments) {
    const std::string place = arguments.value("nulls").value_or("first");
    if (place != "first" && place != "last") throw BadUsage("--nulls takes first or last, not '" + place + "'");
    if (arguments.has("nulls") && !arguments.has("sort") && !arguments.has("by"))
        throw BadUsage("--nulls takes --sort too");
    return place == "last" ? hv::Nulls::last : hv::Nulls::first;
}

hv::Limit asked_limit(const Arguments &arguments) {
    const std::optional<std::string> asked = arguments.value("limit");
    return hv::Limit(asked ? count_of(*asked, "limit", "bytes") : HV_TABLE_LIMIT);
}
