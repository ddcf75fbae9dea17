// Tables in and out of Arrow's C data and stream interfaces, over hivevigil_table_arrow.h and hivevigil_arrow.h: a part
// of hivevigil_table.hpp, which includes it.
//
//     ArrowArrayStream stream;
//     table.to_arrow(&stream);                       // the consumer releases it
//     hv::Table again = hv::Table::from_arrow(&stream);
#ifndef HIVEVIGIL_TABLE_ARROW_HPP
#define HIVEVIGIL_TABLE_ARROW_HPP
#include "hivevigil_table.hpp"
#include "hivevigil_table_arrow.h"

namespace hv {

namespace detail {

// Throws what a call of Arrow refused.
template <class Call> void ask_arrow(Call call) {
    hv_error fields{};
    const int32_t answer = call(&fields);
    char text[HV_ERROR_TEXT];
    if (answer) throw TableError(answer, fields, hv_table_error_text(answer, &fields, text));
}

// A schema or a stream of Arrow that is released with its scope.
template <class Struct> struct Released {
    Struct *held;
    ~Released() {
        if (held->release) held->release(held);
    }
};

// How the column of a schema is read: floats by their bits.
struct ArrowChild {
    std::string name, format;
    explicit ArrowChild(const ArrowSchema &schema) : name(schema.name ? schema.name : "") {
        const char *const found = hv_arrow_value_format(&schema);
        if (found && hv_table_is_logical_type(found)) format = found;
    }
    bool is_float() const { return format.size() == 1; }
    NamedColumn of(Column column) const {
        if (is_float())
            ask([&](auto *error) { return hv_table_of_bits(&initial_session(), column.raw(), error); });
        return {name, std::move(column), format};
    }
};

inline std::vector<ArrowChild> children_of(const ArrowSchema &schema) {
    if (!schema.format || std::string(schema.format) != "+s" || schema.n_children < 1)
        throw TableError(HV_UNSUPPORTED, {}, "a table comes from batches that have columns");
    std::vector<ArrowChild> children;
    std::vector<std::string> names;
    for (int64_t child = 0; child < schema.n_children; child++) {
        if (!schema.children || !schema.children[child])
            ask_arrow([](auto *error) { return hv_arrow_invalid(HV_ARROW_NO_POINTER, error); });
        children.emplace_back(*schema.children[child]);
        names.push_back(children.back().name);
    }
    refuse_twice(names);
    return children;
}

} // namespace detail

inline void Table::to_arrow(ArrowArrayStream *stream, size_t chunk_rows) const {
    detail::ask_arrow([&](auto *error) {
        return hv_table_export_stream(&initial_session(), raw(), chunk_rows, stream, error);
    });
}

inline void Table::to_arrow(ArrowSchema *schema, ArrowArray *array) const {
    ArrowArrayStream stream{};
    to_arrow(&stream);
    const detail::Released<ArrowArrayStream> released{&stream};
    if (stream.get_schema(&stream, schema)) throw TableError(HV_OUT_OF_MEMORY, {});
    stream.get_next(&stream, array); // the one chunk, which was made before
}

inline Table Table::from_arrow(ArrowArrayStream *stream) {
    const detail::Released<ArrowArrayStream> of_caller{stream};
    ArrowSchema schema{};
    const detail::Released<ArrowSchema> of_stream{&schema};
    if (const int failed = stream->release ? stream->get_schema(stream, &schema) : EINVAL) {
        const char *const said = stream->release ? stream->get_last_error(stream) : "it was released";
        throw TableError(HV_ARROW_STREAM_FAILED, {static_cast<uint64_t>(failed), 0, 0},
                         std::string("the Arrow stream failed: ") + (said ? said : ""));
    }
    const std::vector<detail::ArrowChild> children = detail::children_of(schema);
    std::vector<Column> columns(children.size());
    std::vector<hv_column> handles(children.size(), hv_column HV_EMPTY);
    Bytes how;
    for (const detail::ArrowChild &child : children)
        how.push_back(child.is_float() ? HV_ARROW_READ_BITS : HV_ARROW_READ);
    char words[256] = "";
    hv_error fields{};
    const int32_t answer = hv_arrow_import_stream(&initial_session(), stream, handles.data(), handles.size(),
                                                  how.data(), words, sizeof words, &fields);
    char text[HV_ERROR_TEXT];
    const std::string sentence = hv_arrow_error_text(answer, &fields, text);
    if (answer) throw TableError(answer, fields, sentence + (words[0] ? ": " : "") + words);
    for (size_t at = 0; at < handles.size(); at++) *columns[at].raw() = handles[at];
    std::vector<NamedColumn> named;
    for (size_t at = 0; at < columns.size(); at++) named.push_back(children[at].of(std::move(columns[at])));
    return Table(std::move(named));
}

inline Table Table::from_arrow(const ArrowSchema *schema, const ArrowArray *array) {
    const std::vector<detail::ArrowChild> children = detail::children_of(*schema);
    std::vector<NamedColumn> named;
    for (size_t at = 0; at < children.size(); at++) {
        const auto call = children[at].is_float() ? hv_arrow_import_child_bits : hv_arrow_import_child;
        const int64_t child = static_cast<int64_t>(at);
        Column column;
        detail::about_column(children[at].name, [&] {
            detail::ask_arrow([&](auto *error) {
                return call(&initial_session(), schema, array, child, column.raw(), error);
            });
        });
        named.push_back(children[at].of(std::move(column)));
    }
    return Table(std::move(named));
}

} // namespace hv
#endif
