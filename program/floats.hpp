// Floats of 16, 32 and 64 bits: as texts, as bits, and as doubles, which have the numbers of all three.
#ifndef HIVEVIGIL_PROGRAM_FLOATS_HPP
#define HIVEVIGIL_PROGRAM_FLOATS_HPP
#include <hivevigil.hpp>
#include <string>

// ---- Texts ----

// The double nearest to the number of a text, an infinity past the finite ones; none where the text is not a number as
// -12.5e-3, NaN or an infinity.
std::optional<double> float_of_text(const std::string &text);
// The bits of the float of this width nearest to the number of a text, at a tie the even one, rounded once; an infinity
// past the finite ones, and none where the text is not a number.
std::optional<uint64_t> nearest_bits(const std::string &text, int width);
// Is the text the number of a double in its shortest digits, so that none is lost, NaN or an infinity?
bool is_shortest_float(const std::string &text);
// The shortest digits that only this double has: "0.1", "1e+300", "-0.0", "nan", "inf".
std::string text_of_float(double number);

// The float of a width that has these bits, as a double.
double float_of_bits(uint64_t bits, int width);

// ---- Comparisons ----

// A comparison of floats with a double.
struct FloatComparison {
    hv::Operator by;
    double number;
};

// One that answers as that with the number of a text, which may lie between two doubles, or past all. Throws a Failure
// where the text is not a number.
FloatComparison float_comparison(hv::Operator by, const std::string &text);

#endif
