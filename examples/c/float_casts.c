/* Floats cast to other formats, and from and to integers, against the machine's own conversions and, for floats of 16
 * bits, against the nearest of all of them; exactly and rounded, with each refusal. */
#include "check.h"

enum { MOST = 40, TRIALS = 60, FORMATS = 3 };

static hv_error error;
static hv_column out = HV_EMPTY;

/* Rows of numbers of 64 bits, patterns of floats or integers, null where the flag is not set. */
typedef struct rows {
    size_t count;
    uint64_t bits[MOST];
    bool valid[MOST];
} rows;

/* A format: how many bits its floats and their fractions have, the type of its keys, and how Arrow names it. */
typedef struct format {
    int width, fraction;
    uint8_t keys, name;
} format;
static const format formats[FORMATS] = {{16, 10, HV_I16, 'e'}, {32, 23, HV_I32, 'f'}, {64, 52, HV_I64, 'g'}};

/* What a number becomes in a format, and whether that is the same number. */
typedef struct cast {
    uint64_t bits;
    bool is_exact;
} cast;

static uint64_t next(void) {
    static uint64_t seed = 7;
    seed = seed * 6364136223846793005u + 1442695040888963407u;
    return seed >> 20;
}
static uint64_t random_bits(void) { return next() << 32 ^ next(); }

static double double_of(uint64_t bits) {
    double number;
    memcpy(&number, &bits, sizeof number);
    return number;
}
static uint64_t bits_of(double number) {
    uint64_t bits;
    memcpy(&bits, &number, sizeof bits);
    return bits;
}
static float single_of(uint64_t bits) {
    const uint32_t narrow = (uint32_t)bits;
    float number;
    memcpy(&number, &narrow, sizeof number);
    return number;
}
static uint64_t bits_of_single(float number) {
    uint32_t bits;
    memcpy(&bits, &number, sizeof bits);
    return bits;
}

static uint64_t infinity_of(const format *it) {
    return ((uint64_t)1 << (it->width - 1)) - ((uint64_t)1 << it->fraction);
}
static uint64_t sign_of(const format *it, uint64_t bits) { return bits >> (it->width - 1) & 1; }
static uint64_t magnitude_of(const format *it, uint64_t bits) { return bits & (((uint64_t)1 << (it->width - 1)) - 1); }
static uint64_t with_sign(const format *it, uint64_t sign, uint64_t magnitude) {
    return sign << (it->width - 1) | magnitude;
}

/* The number of a pattern of 16 bits without its sign; that of infinity is the one after the greatest. */
static double half_number(uint64_t magnitude) {
    const uint64_t exponent = magnitude >> 10, fraction = magnitude & 1023;
    const double unit = double_of((uint64_t)((exponent ? (int)exponent - 1 : 0) - 24 + 1023) << 52);
    return unit * (double)(exponent ? fraction + 1024 : fraction);
}
/* The pattern of 16 bits that is nearest to a number that is not negative, at a tie the even one: all are looked at. */
static uint64_t nearest_half(double number) {
    uint64_t below = 0;
    while (below < 0x7c00 && half_number(below + 1) <= number) below++;
    if (below == 0x7c00) return below;
    const double middle = half_number(below) / 2 + half_number(below + 1) / 2;
    return number > middle || (number == middle && below % 2) ? below + 1 : below;
}

/* A pattern of any format as the double that has the same number; not of a NaN. */
static double number_in(const format *it, uint64_t bits) {
    if (it->width == 64) return double_of(bits);
    if (it->width == 32) return (double)single_of(bits);
    const uint64_t magnitude = magnitude_of(it, bits);
    const double size = magnitude == 0x7c00 ? double_of(0x7ff0000000000000) : half_number(magnitude);
    return sign_of(it, bits) ? -size : size;
}
/* The pattern of a format that is nearest to a number. */
static uint64_t pattern_near(const format *it, double number) {
    if (it->width == 64) return bits_of(number);
    if (it->width == 32) return bits_of_single((float)number);
    const bool is_minus = bits_of(number) >> 63;
    return with_sign(it, is_minus, nearest_half(is_minus ? -number : number));
}

/* A NaN keeps its payload, from the highest bit on, where the format has it; else it is the quiet one. */
static cast nan_cast(const format *from, uint64_t bits, const format *to) {
    const uint64_t payload = magnitude_of(from, bits) - infinity_of(from);
    const int less = from->fraction - to->fraction;
    const uint64_t kept = less > 0 ? payload >> less : payload << -less;
    const bool is_exact = less <= 0 || kept << less == payload;
    const uint64_t quiet = (uint64_t)1 << (to->fraction - 1);
    return (cast){with_sign(to, sign_of(from, bits), infinity_of(to) + (is_exact ? kept : quiet)), is_exact};
}

static cast float_cast(const format *from, uint64_t bits, const format *to) {
    if (magnitude_of(from, bits) > infinity_of(from)) return nan_cast(from, bits, to);
    const double number = number_in(from, bits);
    const uint64_t made = pattern_near(to, number);
    return (cast){made, number_in(to, made) == number};
}

/* The bits of the double that a float is: of a NaN, with its sign, and its payload in front of bits that are 0. */
static uint64_t widened(const format *it, uint64_t bits) {
    if (magnitude_of(it, bits) <= infinity_of(it)) return bits_of(number_in(it, bits));
    const uint64_t payload = magnitude_of(it, bits) - infinity_of(it);
    return sign_of(it, bits) << 63 | UINT64_C(0x7ff) << 52 | payload << (52 - it->fraction);
}

/* Numbers that each format has, and that only some have: small integers, both zeros, ties, subnormals, NaNs. */
static uint64_t some_double(void) {
    static const uint64_t special[] = {
        0, 1, 0x3ff0000000000000, 0x3ff0000010000000, 0x3ff0000030000000, 0x3ff0000020000000, 0x3ff0020000000000,
        0x3ff0060000000000, 0x40effc0000000000, 0x40effe0000000000, 0x40effdffffffffff, 0x47efffffe0000000,
        0x47effffff0000000, 0x47efffffefffffff, 0x7fefffffffffffff, 0x7ff0000000000000, 0x7ff0000000000001,
        0x7ff8000000000000, 0x7ff4000000000000, 0x7ff8000020000000, 0x36a0000000000000, 0x3690000000000000,
        0x3690000000000001, 0x3e60000000000000, 0x3e70000000000000, 0x3e78000000000000, 0x380fffffffffffff,
    };
    const uint64_t sign = next() % 2 << 63;
    switch (next() % 4) {
    case 0: return special[next() % COUNT(special)] | sign;
    case 1: return bits_of((double)(next() % 70000)) | sign;
    case 2: return random_bits();
    default: return ((1023 + next() % 40 - 28) << 52 | next() % 4096 << 40) | sign;
    }
}

static rows random_rows(uint64_t some(void)) {
    rows it = {.count = (size_t)(next() % MOST)};
    for (size_t row = 0; row < it.count; row++) {
        const bool anew = !row || next() % 2;
        it.valid[row] = anew ? next() % 5 > 0 : it.valid[row - 1];
        it.bits[row] = anew ? some() : it.bits[row - 1];
    }
    return it;
}

/* A flat column of the rows, of integers without sign of a width, or of `i64`. */
static hv_column flat_column(const rows *it, int width, bool is_signed) {
    uint8_t flags[MOST / 8 + 1] = {0};
    uint16_t halves[MOST + 1] = {0};
    uint32_t singles[MOST + 1] = {0};
    hv_column flat = HV_EMPTY;
    for (size_t row = 0; row < it->count; row++) {
        flags[row / 8] = (uint8_t)(flags[row / 8] | (it->valid[row] << (row % 8)));
        halves[row] = (uint16_t)it->bits[row], singles[row] = (uint32_t)it->bits[row];
    }
    const hv_validity validity = NULLS_BY(flags, 0);
    if (is_signed) CHECK(!hv_i64((const int64_t *)(const void *)it->bits, it->count, validity, &flat, &error));
    else if (width == 16) CHECK(!hv_u16(halves, it->count, validity, &flat, &error));
    else if (width == 32) CHECK(!hv_u32(singles, it->count, validity, &flat, &error));
    else CHECK(!hv_u64(it->bits, it->count, validity, &flat, &error));
    return flat;
}

/* The floats of a column have these bits, null where the row is, and are the doubles of the same numbers under their
 * format; they are as few runs as possible. */
static void check_floats(const hv_column *floats, const rows *it, const cast *casts, const format *to) {
    size_t runs = 0, found = 0;
    uint64_t wide[MOST + 1];
    uint32_t singles[MOST + 1];
    uint16_t shorts[MOST + 1];
    hv_column typed = HV_EMPTY, read = HV_EMPTY;
    CHECK(!hv_with_type(floats, &to->name, 1, &typed, &error) && !hv_float_decode(floats, &read, &error));
    if (to->width == 64) CHECK(!hv_read_u64(&read, 0, wide, it->count, &error));
    else if (to->width == 32) CHECK(!hv_read_u32(&read, 0, singles, it->count, &error));
    else CHECK(!hv_read_u16(&read, 0, shorts, it->count, &error));
    CHECK(hv_length(floats) == it->count && hv_kind_of(floats).number == to->keys && hv_form(floats) == FORM_RUNS);
    for (size_t row = 0; row < it->count; row++) {
        const bool is_valid = it->valid[row];
        const uint64_t bits = to->width == 64 ? wide[row] : to->width == 32 ? singles[row] : shorts[row];
        hv_value value;
        FILL(value);
        CHECK(!hv_at(&typed, row, &value, NULL, 0, &error) && value.kind == (is_valid ? HV_DOUBLE : HV_NULL));
        CHECK(!is_valid || (bits == casts[row].bits && value.as_unsigned == widened(to, casts[row].bits)));
        runs += !row || it->valid[row] != it->valid[row - 1] || (is_valid && casts[row].bits != casts[row - 1].bits);
    }
    CHECK(!hv_run_count(floats, &found, &error) && found == runs);
    hv_free(&typed), hv_free(&read);
}

/* A cast that rounds, and one that does not: refused exactly where a row is another number. */
static void check_both(int32_t call(const hv_column *, uint8_t, uint8_t, hv_column *, hv_error *),
                       const hv_column *column, const rows *it, const cast *casts, const format *to) {
    bool is_exact = true;
    for (size_t row = 0; row < it->count; row++) is_exact &= !it->valid[row] || casts[row].is_exact;
    CHECK(!call(column, to->keys, 1, &out, &error));
    check_floats(&out, it, casts, to);
    if (!is_exact) {
        CHECK_REFUSED(call(column, to->keys, 0, &out, &error), HV_CAST_OUT_OF_RANGE, 0, 0, 0);
        check_floats(&out, it, casts, to);
        return;
    }
    CHECK(!call(column, to->keys, 0, &out, &error));
    check_floats(&out, it, casts, to);
}

static int32_t cast_floats(const hv_column *column, uint8_t to, uint8_t is_rounded, hv_column *made, hv_error *why) {
    return hv_float_cast(column, to, is_rounded, made, why);
}
static int32_t cast_integers(const hv_column *column, uint8_t to, uint8_t is_rounded, hv_column *made, hv_error *why) {
    return hv_float_of_integers(column, to, is_rounded, made, why);
}

/* From each format, floats that it has, to each. */
static void check_formats(void) {
    for (const format *from = formats; from < formats + FORMATS; from++) {
        rows it = random_rows(some_double);
        for (size_t row = 0; row < it.count; row++)
            it.bits[row] = next() % 3 ? float_cast(&formats[2], it.bits[row], from).bits : random_bits() >> (64 - from->width);
        hv_column bits = flat_column(&it, from->width, false), floats = HV_EMPTY;
        CHECK(!hv_float_encode(&bits, 0, &floats, &error));
        for (const format *to = formats; to < formats + FORMATS; to++) {
            cast casts[MOST];
            for (size_t row = 0; row < it.count; row++) casts[row] = float_cast(from, it.bits[row], to);
            check_both(cast_floats, &floats, &it, casts, to);
        }
        hv_free(&bits);
        hv_free(&floats);
    }
}

static uint64_t some_integer(void) {
    const uint64_t number = random_bits() >> next() % 64;
    return next() % 3 ? number : next() % 2 ? (uint64_t)-(int64_t)(number >> 1) : ((uint64_t)1 << next() % 63) + next() % 3;
}

/* The nearest float of 16 bits to an integer is that to the double that is nearest to it, unless that is a tie: both
 * ends of every tie are below 2^17, and doubles have all integers up to there. */
static cast integer_cast(bool is_signed, uint64_t bits, const format *to) {
    const int64_t number = (int64_t)bits;
    const bool is_minus = is_signed && number < 0;
    const double wide = is_signed ? (double)number : (double)bits;
    const float narrow = is_signed ? (float)number : (float)bits;
    const uint64_t made = to->width == 32 ? bits_of_single(narrow) : pattern_near(to, wide);
    const double found = number_in(to, made), size = is_minus ? -found : found;
    const uint64_t due = is_minus ? 0 - bits : bits;
    return (cast){made, size < 18446744073709551616.0 && (uint64_t)size == due};
}

static void check_integers(void) {
    for (int is_signed = 0; is_signed < 2; is_signed++) {
        const rows it = random_rows(some_integer);
        hv_column integers = flat_column(&it, 64, is_signed);
        for (const format *to = formats; to < formats + FORMATS; to++) {
            cast casts[MOST];
            for (size_t row = 0; row < it.count; row++) casts[row] = integer_cast(is_signed, it.bits[row], to);
            check_both(cast_integers, &integers, &it, casts, to);
        }
        hv_free(&integers);
    }
}

/* Whether a double is an integer from `least` to `greatest`, which doubles have, or one less than such a number. */
static bool is_whole(double number, double least, double past) {
    if (!(number >= least && number < past)) return false;
    return number < 0 ? (double)(int64_t)number == number : (double)(uint64_t)number == number;
}

static uint64_t some_whole(void) { return next() % 40 ? bits_of((double)(int64_t)some_integer()) : some_double(); }

static void check_to_integers(void) {
    const rows it = random_rows(some_whole);
    hv_column bits = flat_column(&it, 64, false), floats = HV_EMPTY;
    bool are_signed = true, are_unsigned = true;
    int64_t signed_numbers[MOST + 1];
    uint64_t numbers[MOST + 1];
    for (size_t row = 0; row < it.count; row++) {
        const double number = double_of(it.bits[row]);
        are_signed &= !it.valid[row] || is_whole(number, -9223372036854775808.0, 9223372036854775808.0);
        are_unsigned &= !it.valid[row] || is_whole(number, 0, 18446744073709551616.0);
    }
    CHECK(!hv_float_encode(&bits, 0, &floats, &error) && !hv_clone(&floats, &out, &error));
    if (!are_signed) CHECK_REFUSED(hv_float_to_integers(&floats, HV_I64, &out, &error), HV_CAST_OUT_OF_RANGE, 0, 0, 0);
    else {
        CHECK(!hv_float_to_integers(&floats, HV_I64, &out, &error) && hv_form(&out) == FORM_RUNS);
        CHECK(!hv_read_i64(&out, 0, signed_numbers, it.count, &error) && hv_kind_of(&out).nullable == 1);
        for (size_t row = 0; row < it.count; row++)
            CHECK(!it.valid[row] || (double)signed_numbers[row] == double_of(it.bits[row]));
    }
    if (!are_unsigned) CHECK_REFUSED(hv_float_to_integers(&floats, HV_U64, &out, &error), HV_CAST_OUT_OF_RANGE, 0, 0, 0);
    else {
        CHECK(!hv_float_to_integers(&floats, HV_U64, &out, &error) && hv_length(&out) == it.count);
        CHECK(!hv_read_u64(&out, 0, numbers, it.count, &error));
        for (size_t row = 0; row < it.count; row++)
            CHECK(!it.valid[row] || (double)numbers[row] == double_of(it.bits[row]));
    }
    hv_free(&bits);
    hv_free(&floats);
}

static void check_small_types(void) {
    const uint64_t words[4] = {bits_of(-0.0), bits_of(127), bits_of(-128), 0};
    const uint8_t flags[1] = {7};
    hv_column bits = HV_EMPTY, floats = HV_EMPTY;
    CHECK(!hv_u64(words, 4, NULLS_BY(flags, 0), &bits, &error) && !hv_float_encode(&bits, 0, &floats, &error));
    CHECK(!hv_float_to_integers(&floats, HV_I8, &out, &error) && hv_kind_of(&out).number == HV_I8);
    CHECK_ROWS(&out, "0 127 -128 null");
    CHECK_REFUSED(hv_float_to_integers(&floats, HV_U8, &out, &error), HV_CAST_OUT_OF_RANGE, 0, 0, 0);
    CHECK_ROWS(&out, "0 127 -128 null");
    hv_free(&bits);
    hv_free(&floats);
}

static void check_refusals(void) {
    const uint8_t bytes[2] = {4, 4}, truths[1] = {1};
    hv_column wrong = HV_EMPTY, none = HV_EMPTY, flags = HV_EMPTY;
    CHECK(!hv_u8(bytes, 2, NOT_NULLABLE, &wrong, &error) && !hv_clone(&wrong, &out, &error));
    CHECK(!hv_bools(truths, 1, 0, 2, NOT_NULLABLE, &flags, &error));
    for (uint8_t is_rounded = 0; is_rounded < 2; is_rounded++) {
        CHECK_REFUSED(hv_float_cast(&wrong, HV_I32, is_rounded, &out, &error), HV_TYPE_MISMATCH, 0, 0, 0);
        CHECK_REFUSED(hv_float_of_integers(&flags, HV_I32, is_rounded, &out, &error), HV_TYPE_MISMATCH, 0, 0, 0);
        for (int to = 0; to < 256; to++) {
            if (to == HV_I16 || to == HV_I32 || to == HV_I64) continue;
            CHECK(hv_float_cast(&none, (uint8_t)to, is_rounded, &out, &error) == HV_BAD_NUMBER);
            CHECK(hv_float_of_integers(&none, (uint8_t)to, is_rounded, &out, &error) == HV_BAD_NUMBER);
        }
        CHECK(hv_float_cast(&none, HV_I16, is_rounded, &out, &error) == HV_NO_COLUMN);
        CHECK(hv_float_of_integers(&none, HV_I16, is_rounded, &out, NULL) == HV_NO_COLUMN);
    }
    CHECK_REFUSED(hv_float_to_integers(&wrong, HV_U8, &out, &error), HV_TYPE_MISMATCH, 0, 0, 0);
    for (int to = HV_BOOL; to < 256; to++) CHECK(hv_float_to_integers(&none, (uint8_t)to, &out, &error) == HV_BAD_NUMBER);
    CHECK(hv_float_to_integers(&none, HV_I64, &out, &error) == HV_NO_COLUMN);
    CHECK_ROWS(&out, "4 4");
    hv_free(&wrong);
    hv_free(&flags);
}

int main(void) {
    for (int i = 0; i < TRIALS; i++) check_formats(), check_integers(), check_to_integers();
    check_small_types();
    check_refusals();
    hv_free(&out);
    printf("%d columns are cast as the machine casts their rows\n", TRIALS);
    return 0;
}
