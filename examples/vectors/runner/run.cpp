// Answers the lines of a file of vectors (docs/VECTORS.md) by calls of the library, prints each line whose answer
// differs, and last `N agree, N differ, N not served`. What a line expects is read only after it is answered. The
// status is 0 where none differs and one agrees. With `--list` each line that is not served is printed too.
//     sh examples/vectors/run.sh [--list] [FILE]
#include "lines.hpp"
#include <fstream>
#include <iostream>

namespace {

struct Counts {
    size_t agree = 0, differ = 0, not_served = 0;
    std::map<std::string, size_t> kinds; // of lines that are not served
};

class Run {
public:
    explicit Run(bool listed) : is_listed(listed) {}
    void line(size_t number, const std::string &text) {
        const size_t mark = text.find(" => ");
        std::string answer;
        try {
            answer = lines.answer(text.substr(0, mark));
        } catch (const vectors::NotServed &not_served) {
            counts.not_served++;
            counts.kinds[not_served.why]++;
            if (is_listed) std::cout << "line " << number << " is not served: " << not_served.why << "\n";
            return;
        }
        const std::string expected = mark == std::string::npos ? "ok" : text.substr(mark + 4);
        (answer == expected ? counts.agree : counts.differ)++;
        if (answer != expected)
            std::cout << "line " << number << ": expected " << expected << "\n    got " << answer << "\n";
    }
    int end() const {
        for (const auto &[kind, number] : counts.kinds)
            std::cout << number << (number == 1 ? " line is" : " lines are") << " not served: " << kind << "\n";
        std::cout << counts.agree << " agree, " << counts.differ << " differ, " << counts.not_served
                  << " not served" << std::endl;
        return counts.differ != 0 || counts.agree == 0;
    }

private:
    bool is_listed;
    vectors::Lines lines;
    Counts counts;
};

} // namespace

int main(int count, char **words) {
    const bool is_listed = count > 1 && std::string(words[1]) == "--list";
    const char *const path = count > 1 + is_listed ? words[1 + is_listed] : "/dev/stdin";
    std::ifstream file(path);
    if (!file) {
        std::cerr << "no file " << path << "\n";
        return 2;
    }
    Run run(is_listed);
    std::string text;
    for (size_t number = 1; std::getline(file, text); number++)
        if (!text.empty() && text[0] != '#') run.line(number, text);
    return run.end();
}
