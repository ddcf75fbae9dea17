// A column in parts, for threads or processes: a part of hivevigil.hpp, which includes it.
//
//     std::vector<hv::Column> parts = column.split(4, hv::SplitBy::runs);
//     std::for_each(std::execution::par, parts.begin(), parts.end(), [](const hv::Column &part) { use(part.sum()); });
#ifndef HIVEVIGIL_PARTS_HPP
#define HIVEVIGIL_PARTS_HPP
#include "hivevigil.hpp"

namespace hv {

namespace detail {

// Where part `part` of `parts` begins among `count` of rows or runs. The product is one of 128 bits.
inline size_t bound_of(size_t count, size_t part, size_t parts) {
    return static_cast<size_t>(Wide(count) * Wide(part) / Wide(parts));
}

// The row before which the first `shown` runs end.
inline size_t stop_of(const Runs &runs, size_t shown) { return shown ? runs.item(shown - 1).stop : 0; }

} // namespace detail

inline std::vector<Column> Column::split(size_t parts, SplitBy by) const {
    if (parts == 0) throw Error(HV_BAD_NUMBER, {0, 0, 0}, "a column is split into at least one part");
    const bool in_runs = by == SplitBy::runs && form() != Form::constant;
    const Column runs = !in_runs ? Column() : form() == Form::runs ? clone() : encode_rows();
    const Runs shown = runs.runs();
    std::vector<Column> made;
    size_t start = 0;
    for (size_t part = 1; part <= parts; part++) {
        const size_t stop = in_runs ? detail::stop_of(shown, detail::bound_of(shown.size(), part, parts))
                                    : detail::bound_of(size(), part, parts);
        made.push_back(slice(start, stop));
        start = stop;
    }
    return made;
}

} // namespace hv
#endif
