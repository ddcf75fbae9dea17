// Rows that come batch by batch, encoded: a part of hivevigil.hpp, which includes it.
//
//     hv::Builder builder({HV_I64, 0, 0, 0});
//     for (const hv::Column &batch : batches) builder.append(batch);
//     builder.append(7, 1000);
//     hv::Column runs = builder.finish();
#ifndef HIVEVIGIL_BUILDER_HPP
#define HIVEVIGIL_BUILDER_HPP
#include "hivevigil.hpp"

namespace hv {

// Holds an end and a value for each run, and nothing for a row. Where a call throws, it has the rows that it had.
class Builder {
public:
    // A builder of rows of this type, which is not one of lists.
    explicit Builder(hv_kind kind) : type(kind) {
        detail::ask([&](auto *error) { return hv_builder_new(&type, &handle, error); });
    }
    // A builder that was moved away has no rows; a call on it is refused as HV_NO_COLUMN.
    Builder(Builder &&other) noexcept : handle(std::exchange(other.handle, hv_builder HV_EMPTY)), type(other.type) {}
    Builder &operator=(Builder &&other) noexcept {
        hv_builder taken = std::exchange(other.handle, hv_builder HV_EMPTY);
        hv_builder_free(&handle);
        handle = taken, type = other.type;
        return *this;
    }
    Builder(const Builder &) = delete;
    Builder &operator=(const Builder &) = delete;
    ~Builder() { hv_builder_free(&handle); }

    // The rows of a column of the builder's type, in any form, after the rows. Refused as HV_TYPE_MISMATCH where the
    // types differ, also where only one of them has null.
    void append(const Column &batch) {
        detail::ask([&](auto *error) { return hv_append(&handle, batch.raw(), error); },
                    detail::words_of_two(batch.kind(), " does not go into a builder of ", type));
    }
    // `count` rows of one value, or of an integer or a text as it is written.
    void append(const Value &value, size_t count = 1) {
        const Value row = detail::fitted(value, type);
        const detail::Passed passed(row);
        detail::ask(
            [&](auto *error) {
                return hv_append_value(&handle, &passed.value, passed.text, passed.size, count, error);
            },
            detail::words_of_value(row, type));
    }
    template <class T, class = std::enable_if_t<detail::is_number<T> || detail::is_text<T>>>
    void append(const T &value, size_t count = 1) {
        append(detail::written(value, type), count);
    }

    hv_kind kind() const { return type; }
    size_t size() const { return hv_builder_rows(&handle); }
    bool empty() const { return size() == 0; }
    // As many as the encoding has.
    size_t runs() const { return hv_builder_runs(&handle); }
    // All rows so far as runs, as few as there can be; the builder keeps its rows.
    Column encoding() const {
        Column out;
        detail::ask([&](auto *error) { return hv_encoding(&handle, out.raw(), error); });
        return out;
    }
    // The same, made of the builder's own memory where that can be; it has no rows after, and takes others.
    Column finish() {
        Column out;
        detail::ask([&](auto *error) { return hv_finish(&handle, out.raw(), error); });
        return out;
    }

private:
    mutable hv_builder handle = HV_EMPTY; // a call that reads takes the builder out and puts it back
    hv_kind type;
};

} // namespace hv
#endif
