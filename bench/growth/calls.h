/* The calls of hivevigil.h that are given columns in runs, or a number of rows: CALL(name, shown, kinds, expression).
 * Rows of the table with the same text are one. No guard: growth.c includes this more than once. */
#define SESSION &in->session
#define COLUMN &in->column
#define TEXT in->text, in->value.kind == HV_TEXT ? (size_t)in->value.as_unsigned : 0
#define ROOM_FOR_TEXT in->bytes, ROOM
#define OUT &in->out, &in->error

CALL(hv_constant, "`hv_constant`", CONSTANTS, hv_constant(&in->type, &in->value, NULL, 0, in->rows, OUT))
CALL(hv_runs, "`hv_runs`", IN_RUNS, hv_runs(&in->ends, &in->values, 0, in->rows, OUT))
CALL(hv_clone, "`hv_clone`, `hv_compact`", ALL, hv_clone(COLUMN, OUT))
CALL(hv_compact, "`hv_clone`, `hv_compact`", ALL, hv_compact(COLUMN, OUT))

CALL(hv_encode, "`hv_encode`", NUMBERS, hv_encode(SESSION, COLUMN, OUT))
CALL(hv_decode, "`hv_decode`", ALL, hv_decode(SESSION, COLUMN, OUT))
CALL(hv_slice, "`hv_slice`", ALL, hv_slice(SESSION, COLUMN, in->rows / 8, in->rows / 2, OUT))
CALL(hv_cast, "`hv_cast`", PLAIN, hv_cast(SESSION, COLUMN, &in->cast_to, OUT))
CALL(hv_take, "`hv_take`, five indices", ALL, hv_take(SESSION, COLUMN, &in->five, OUT))
CALL(hv_take, "`hv_take`, five indices in runs", ALL, hv_take(SESSION, COLUMN, &in->few, OUT))
CALL(hv_take, "`hv_take`, indices in runs, as many as rows", ALL, hv_take(SESSION, COLUMN, &in->places, OUT))
CALL(hv_filter, "`hv_filter`", ALL, hv_filter(SESSION, COLUMN, &in->mask, OUT))
CALL(hv_filter, "`hv_filter`", ALL, hv_filter(SESSION, COLUMN, &in->all, OUT))
CALL(hv_take_from, "`hv_take_from`, codes in runs of five flat rows", IN_RUNS,
     hv_take_from(SESSION, &in->codes, &in->values, OUT))
CALL(hv_take_from, "`hv_take_from`, five codes of a column in runs", ALL, hv_take_from(SESSION, &in->five, COLUMN, OUT))
CALL(hv_take_from, "`hv_take_from`, codes and column in runs", ALL, hv_take_from(SESSION, &in->codes, COLUMN, OUT))
CALL(hv_compare, "`hv_compare`", PLAIN, hv_compare(SESSION, COLUMN, HV_LT, &in->other, OUT))
CALL(hv_compare_scalar, "`hv_compare_scalar`", PLAIN,
     hv_compare_scalar(SESSION, COLUMN, HV_LE, &in->value, TEXT, OUT))
CALL(hv_compare_number, "`hv_compare_number`", NUMBERS | DECIMALS,
     hv_compare_number(COLUMN, HV_LE, &(hv_value){.as_unsigned = 11, .kind = HV_SCALED, .scale = 1}, OUT))
CALL(hv_fill, "`hv_fill`", PLAIN, hv_fill(SESSION, COLUMN, &in->value, TEXT, OUT))
CALL(hv_combine, "`hv_combine`", PLAIN, hv_combine(COLUMN, HV_LT, &in->other, OUT))
CALL(hv_combine, "`hv_combine`", NUMBERS, hv_combine(COLUMN, HV_ADD, &in->other, OUT))
CALL(hv_combine, "`hv_combine`", DECIMALS, hv_combine(COLUMN, HV_MULTIPLY, &in->other, OUT))
CALL(hv_combine, "`hv_combine`", BOOLEANS, hv_combine(COLUMN, HV_AND, &in->other, OUT))
CALL(hv_combine, "`hv_combine`", NUMBERS | DECIMALS, hv_combine(COLUMN, HV_COALESCE, &in->other, OUT))
CALL(hv_not, "`hv_not`", BOOLEANS, hv_not(COLUMN, OUT))
CALL(hv_is_null, "`hv_is_null`, `hv_is_valid`", PLAIN, hv_is_null(COLUMN, OUT))
CALL(hv_is_valid, "`hv_is_null`, `hv_is_valid`", PLAIN, hv_is_valid(COLUMN, OUT))
CALL(hv_if_else, "`hv_if_else`", NUMBERS | DECIMALS | BOOLEANS, hv_if_else(&in->mask, COLUMN, &in->other, OUT))
CALL(hv_equals, "`hv_equals`", PLAIN, hv_equals(COLUMN, &in->other, &in->flag, &in->error))
CALL(hv_hash, "`hv_hash`", PLAIN, hv_hash(COLUMN, &in->number, &in->error))
CALL(hv_fold_by, "`hv_fold_by`", PLAIN,
     hv_fold_by(COLUMN, &in->codes, HV_FOLD_LEAST, &in->out, &in->second, &in->error))
CALL(hv_fold_by, "`hv_fold_by`", NUMBERS, hv_fold_by(&in->mask, COLUMN, HV_FOLD_SUM, &in->out, &in->second, &in->error))
CALL(hv_running_totals, "`hv_running_totals`", NUMBERS, hv_running_totals(COLUMN, &in->second, OUT))
CALL(hv_reverse, "`hv_reverse`, `hv_sort`", PLAIN, hv_reverse(COLUMN, OUT))
CALL(hv_sort, "`hv_reverse`, `hv_sort`", PLAIN, hv_sort(COLUMN, OUT))
CALL(hv_value_counts, "`hv_value_counts`", PLAIN, hv_value_counts(COLUMN, &in->second, OUT))

CALL(hv_sum, "`hv_sum`, `hv_sum_parts`", NUMBERS, hv_sum(SESSION, COLUMN, &in->total, &in->error))
CALL(hv_sum_parts, "`hv_sum`, `hv_sum_parts`", NUMBERS,
     hv_sum_parts(COLUMN, in->pairs, in->pairs + 1, in->pairs + 2, &in->error))
CALL(hv_is_constant, "`hv_is_constant`, `hv_is_sorted`", PLAIN, hv_is_constant(SESSION, COLUMN, &in->flag, &in->error))
CALL(hv_is_sorted, "`hv_is_constant`, `hv_is_sorted`", PLAIN, hv_is_sorted(SESSION, COLUMN, 0, &in->flag, &in->error))
CALL(hv_extreme, "`hv_extreme`, `hv_min_max`", PLAIN,
     hv_extreme(SESSION, COLUMN, 1, &in->least, ROOM_FOR_TEXT, &in->error))
CALL(hv_min_max, "`hv_extreme`, `hv_min_max`", PLAIN,
     hv_min_max(SESSION, COLUMN, &in->least, in->bytes, ROOM / 2,
                &in->greatest, in->bytes + ROOM / 2, ROOM / 2, &in->error))
CALL(hv_at, "`hv_at`", PLAIN, hv_at(COLUMN, in->start, &in->least, ROOM_FOR_TEXT, &in->error))
#define MEANT "`hv_sum`, `hv_min_max`, `hv_at`, by the format of floats and of decimals"
CALL(hv_sum, MEANT, FLOATS | DECIMALS | CONSTANTS, hv_sum(SESSION, &in->typed, &in->total, &in->error))
CALL(hv_min_max, MEANT, FLOATS | DECIMALS | CONSTANTS,
     hv_min_max(SESSION, &in->typed, &in->least, NULL, 0, &in->greatest, NULL, 0, &in->error))
CALL(hv_at, MEANT, FLOATS | DECIMALS | CONSTANTS,
     hv_at(&in->typed, in->start, &in->least, NULL, 0, &in->error))
CALL(hv_null_count, "`hv_null_count`", ALL, (in->size = hv_null_count(COLUMN), 0))
#define SIZES "`hv_length`, `hv_kind_of`, `hv_form`, `hv_offset`, `hv_bytes_used`"
CALL(hv_length, SIZES, ALL, (in->size = hv_length(COLUMN), 0))
CALL(hv_kind_of, SIZES, ALL, (in->flag = hv_kind_of(COLUMN).number, 0))
CALL(hv_form, SIZES, ALL, (in->flag = hv_form(COLUMN), 0))
CALL(hv_offset, SIZES, ALL, (in->size = hv_offset(COLUMN), 0))
CALL(hv_bytes_used, SIZES, ALL, (in->size = hv_bytes_used(COLUMN), 0))

CALL(hv_decimal_cast, "`hv_decimal_cast`, `hv_decimal_to_integers`", NUMBERS | DECIMALS,
     hv_decimal_cast(COLUMN, 20, 4, OUT))
CALL(hv_decimal_to_integers, "`hv_decimal_cast`, `hv_decimal_to_integers`", DECIMALS,
     hv_decimal_to_integers(COLUMN, HV_I32, OUT))
CALL(hv_float_encode, "`hv_float_encode`", INTEGERS, hv_float_encode(&in->bits, 1, OUT))
CALL(hv_float_decode, "`hv_float_decode`", FLOATS | CONSTANTS, hv_float_decode(COLUMN, OUT))
CALL(hv_float_compare, "`hv_float_compare`", FLOATS | CONSTANTS, hv_float_compare(COLUMN, HV_LT, 0, 1, OUT))
#define CONVERSIONS "`hv_float_cast`, `hv_float_of_integers`, `hv_float_to_integers`, `hv_float_combine`"
CALL(hv_float_cast, CONVERSIONS, FLOATS, hv_float_cast(COLUMN, HV_I32, 0, OUT))
CALL(hv_float_of_integers, CONVERSIONS, NUMBERS, hv_float_of_integers(COLUMN, HV_I64, 0, OUT))
CALL(hv_float_to_integers, CONVERSIONS, FLOATS, hv_float_to_integers(COLUMN, HV_I64, OUT))
CALL(hv_float_combine, CONVERSIONS, FLOATS, hv_float_combine(COLUMN, HV_ADD, &in->other, OUT))

#define READS "`hv_read_u8` to `hv_read_i64`, `hv_read_decimals`, five rows"
CALL(hv_read_u8, READS, INTEGERS, READ_AS(u8, HV_U8))
CALL(hv_read_u16, READS, INTEGERS, READ_AS(u16, HV_U16))
CALL(hv_read_u32, READS, INTEGERS, READ_AS(u32, HV_U32))
CALL(hv_read_u64, READS, INTEGERS, READ_AS(u64, HV_U64))
CALL(hv_read_i8, READS, INTEGERS, READ_AS(i8, HV_I8))
CALL(hv_read_i16, READS, INTEGERS, READ_AS(i16, HV_I16))
CALL(hv_read_i32, READS, INTEGERS, READ_AS(i32, HV_I32))
CALL(hv_read_i64, READS, NUMBERS, hv_read_i64(COLUMN, in->start, (int64_t *)in->pairs, RUN_COUNT, &in->error))
CALL(hv_read_decimals, READS, DECIMALS, hv_read_decimals(COLUMN, in->start, in->pairs, RUN_COUNT, &in->error))
CALL(hv_read_bools_from, "`hv_read_bools_from`, `hv_read_validity_from`, five rows", BOOLEANS,
     hv_read_bools_from(COLUMN, in->start, RUN_COUNT, &in->number, 1, &in->error))
CALL(hv_read_validity_from, "`hv_read_bools_from`, `hv_read_validity_from`, five rows", PLAIN,
     hv_read_validity_from(COLUMN, in->start, RUN_COUNT, &in->number, 1, &in->error))
#define TEXT_READS "`hv_read_offsets`, `hv_read_large_offsets`, `hv_read_bytes`, five rows"
CALL(hv_read_offsets, TEXT_READS, TEXTS,
     hv_read_offsets(COLUMN, in->start, (int32_t *)in->pairs, RUN_COUNT + 1, &in->error))
CALL(hv_read_large_offsets, TEXT_READS, TEXTS,
     hv_read_large_offsets(COLUMN, in->start, (int64_t *)in->pairs, RUN_COUNT + 1, &in->error))
CALL(hv_read_bytes, TEXT_READS, TEXTS, hv_read_bytes(COLUMN, in->start, RUN_COUNT, in->bytes,
     2 * RUN_COUNT, &in->error))

CALL(hv_ends, "`hv_ends`, `hv_values`", IN_RUNS, hv_ends(COLUMN, OUT))
CALL(hv_values, "`hv_ends`, `hv_values`", IN_RUNS, hv_values(COLUMN, OUT))
#define OF_RUNS "`hv_run_count`, `hv_run`, `hv_run_of`, `hv_read_ends_u64`"
CALL(hv_run_count, OF_RUNS, RUNS, hv_run_count(COLUMN, &in->size, &in->error))
CALL(hv_run, OF_RUNS, RUNS, hv_run(COLUMN, 2, &in->start_of_run, &in->size, &in->least, ROOM_FOR_TEXT, &in->error))
CALL(hv_run_of, OF_RUNS, RUNS, hv_run_of(COLUMN, in->start, &in->size, &in->error))
CALL(hv_read_ends_u64, OF_RUNS, RUNS, hv_read_ends_u64(COLUMN, 0, (uint64_t *)in->pairs, RUN_COUNT, &in->error))
CALL(hv_serialize, "`hv_serialize`, `hv_deserialize`", RUNS,
     hv_serialize(COLUMN, in->bytes, ROOM, &in->size, &in->error))
CALL(hv_deserialize, "`hv_serialize`, `hv_deserialize`", RUNS, read_record(in))
#define OF_LISTS "`hv_list_elements`, `hv_list_offsets`, `hv_list_sizes`, `hv_list_validity`"
CALL(hv_list_elements, OF_LISTS, DECODED_LISTS, hv_list_elements(COLUMN, OUT))
CALL(hv_list_offsets, OF_LISTS, DECODED_LISTS, hv_list_offsets(COLUMN, OUT))
CALL(hv_list_sizes, OF_LISTS, DECODED_LISTS, hv_list_sizes(COLUMN, OUT))
CALL(hv_list_validity, OF_LISTS, DECODED_LISTS, hv_list_validity(COLUMN, OUT))

CALL(hv_encode_rows, "`hv_encode_rows`", PLAIN, hv_encode_rows(COLUMN, OUT))
#define OF_BUILDERS "`hv_builder_new` to `hv_builder_free`"
CALL(hv_builder_new, OF_BUILDERS, PLAIN, built(in, BY_NOTHING))
CALL(hv_append, OF_BUILDERS, PLAIN, built(in, BY_COLUMN))
CALL(hv_append_value, OF_BUILDERS, PLAIN, built(in, BY_VALUE))
CALL(hv_encoding, OF_BUILDERS, PLAIN, built(in, BY_ENCODING))
CALL(hv_finish, OF_BUILDERS, PLAIN, built(in, BY_COLUMN))
CALL(hv_builder_rows, OF_BUILDERS, PLAIN, built(in, BY_COLUMN))
CALL(hv_builder_runs, OF_BUILDERS, PLAIN, built(in, BY_COLUMN))
CALL(hv_builder_free, OF_BUILDERS, PLAIN, built(in, BY_COLUMN))
#define MESSAGES "`hv_write_size`, `hv_write`, `hv_read_column`, `hv_is_message`"
CALL(hv_write_size, MESSAGES, ALL, hv_write_size(COLUMN, &in->size, &in->error))
CALL(hv_write, MESSAGES, ALL, hv_write(COLUMN, in->bytes, ROOM, &in->size, &in->error))
CALL(hv_read_column, MESSAGES, ALL, hv_read_column(in->message, in->message_size, OUT))
CALL(hv_is_message, MESSAGES, ALL, hv_is_message(in->message, in->message_size, &in->flag, &in->error))
#define TYPED "`hv_write_size`, `hv_write`, `hv_read_column`, `hv_is_message`, under a format"
CALL(hv_write_size, TYPED, ALL, hv_write_size(&in->dates, &in->size, &in->error))
CALL(hv_write, TYPED, ALL, hv_write(&in->dates, in->bytes, ROOM, &in->size, &in->error))
CALL(hv_read_column, TYPED, ALL, hv_read_column(in->dates_message, in->dates_size, OUT))
CALL(hv_is_message, TYPED, ALL, hv_is_message(in->dates_message, in->dates_size, &in->flag, &in->error))
#define FORMATS "`hv_with_type`, `hv_type`"
CALL(hv_with_type, FORMATS, ALL, hv_with_type(COLUMN, (const uint8_t *)"tdD", 3, OUT))
CALL(hv_type, FORMATS, ALL, hv_type(COLUMN, in->bytes, ROOM, &in->size, &in->error))
CALL(hv_free, "`hv_free`", ALL, freed(in))
CALL(hv_compare_value, "`hv_compare_value` (`hivevigil_helpers.h`)", PLAIN,
     hv_compare_value(SESSION, COLUMN, HV_LE, &in->value, TEXT, OUT))

#undef SESSION
#undef COLUMN
#undef TEXT
#undef ROOM_FOR_TEXT
#undef OUT
#undef MEANT
#undef SIZES
#undef CONVERSIONS
#undef READS
#undef TEXT_READS
#undef OF_RUNS
#undef OF_LISTS
#undef OF_BUILDERS
#undef MESSAGES
#undef TYPED
#undef FORMATS
#undef CALL
