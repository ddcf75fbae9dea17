// Rows gathered as the makers of columns take them: a part of hivevigil.hpp, which includes it.
#ifndef HIVEVIGIL_MAKING_HPP
#define HIVEVIGIL_MAKING_HPP
#include "hivevigil.hpp"

namespace hv {

// Rows that may be null.
template <class Items> Column Column::of_rows(const Items &rows) {
    using T = detail::Row<Items>;
    using Item = detail::InnerOf<T>;
    using Kept = std::conditional_t<detail::is_text<Item>, std::string_view, Item>;
    std::vector<Kept> items;
    std::vector<bool> valid;
    for (const T &row : rows) {
        const Item *item = detail::Inner<T>::of(row);
        items.push_back(item ? Kept(*item) : Kept{}), valid.push_back(item != nullptr);
    }
    const std::vector<bool> *flags = detail::is_optional<T> ? &valid : nullptr;
    if constexpr (std::is_same_v<Item, bool>) return truths(items, flags);
    else if constexpr (detail::is_text<Item>) return texts(items, flags);
    else return of(items.data(), items.size(), flags);
}

inline Column Column::cut(bool binary, const std::vector<std::string_view> &rows, const std::vector<bool> *valid) {
    std::string all;
    std::vector<int64_t> offsets{0};
    for (std::string_view row : rows) all += row, offsets.push_back(static_cast<int64_t>(all.size()));
    return with_nulls(
        rows.size(), valid,
        [&](auto validity, auto *out, auto *error) {
            return hv_large_texts(binary, offsets.data(), offsets.size(), reinterpret_cast<const uint8_t *>(all.data()),
                                  all.size(), validity, out, error);
        },
        detail::words_of_texts(rows, valid));
}

} // namespace hv
#endif
