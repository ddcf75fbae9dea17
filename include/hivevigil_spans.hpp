// Columns made of spans and read into spans, where C++20 has them: a part of hivevigil.hpp, which includes it. A span
// of integers, of std::optional of these, or of std::string_view is what Column::of takes like any range.
#ifndef HIVEVIGIL_SPANS_HPP
#define HIVEVIGIL_SPANS_HPP
#include "hivevigil.hpp"

#ifdef __cpp_lib_span
namespace hv {

// As many of the numbers as the span has room for, from row `start` on.
template <detail::OfNumbers Span> void Column::read(size_t start, Span items) const {
    read(start, items.data(), items.size());
}

template <detail::OfBytes Span> Column Column::from_bytes(Span message) {
    return made([&](auto *out, auto *error) {
        return hv_read_column(detail::bytes_of(message), message.size(), out, error);
    });
}

template <detail::OfBytes Span> bool Column::is_message(Span message) {
    uint8_t truth = 0;
    detail::ask([&](auto *error) {
        return hv_is_message(detail::bytes_of(message), message.size(), &truth, error);
    });
    return truth != 0;
}

template <detail::OfBytes Span> size_t Column::to_bytes(Span room) const {
    size_t size = 0;
    auto *const bytes = reinterpret_cast<uint8_t *>(room.data());
    detail::ask([&](auto *error) { return hv_write(&handle, bytes, room.size(), &size, error); });
    return size;
}

template <detail::OfBytes Span>
Column Column::deserialize(hv_kind kind, size_t rows, Span record, const Column &ends, const Column &values) {
    return ends.beside(values, [&](auto *other, auto *out, auto *error) {
        return hv_deserialize(&kind, rows, detail::bytes_of(record), record.size(), &ends.handle, other, out, error);
    });
}

template <class Items, detail::OfFlags Span> Column Column::of(const Items &items, Span valid) {
    return of(items, std::vector<bool>(valid.begin(), valid.end()));
}

} // namespace hv
#endif
#endif
