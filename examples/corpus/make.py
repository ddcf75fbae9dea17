#!/usr/bin/env python3
"""The corpus: messages of every type and form by docs/column.proto, written by Protocol Buffers' own library through
the model of examples/bytes, which shares nothing with the library that reads them.

    /usr/bin/python3 make.py            the lines of messages.txt
    /usr/bin/python3 make.py --typed    those of typed.txt, of columns with a logical type
    /usr/bin/python3 make.py --check    whether both have them

A line has four parts with a tab between them: a name, how the column is made, its rows (at most ten are shown), and the
message in hexadecimal digits. One of typed.txt has five: after its name that of the logical type, and how the column of
integers or texts is made that the message keeps, and its rows. From the release 1.0.0 on no line changes and none is taken
away: what a version 1.x writes or reads today, each later one does too. Needs what model.py needs.
"""

import sys
import warnings
from pathlib import Path

HERE = Path(__file__).resolve().parent
sys.path.insert(0, str(HERE.parent / "bytes"))

import model
from messages import begun, bits, flat_numbers, flat_truths, over, typed as with_type
from model import (
    ALL_NULL, BINARY, BOOL, BY_BITS, BY_RUNS, CONSTANT, DECIMAL, FLAT, LIST, LISTS, NEVER_NULL, NONE_NULL, NULLABLE,
    RUNS, SIZES, UNSIGNED, UTF8, Column,
)

SHOWN = 10
U8, U16, U32, U64, I8, I16, I32, I64 = range(1, 9)
NAMES = {U8: "u8", U16: "u16", U32: "u32", U64: "u64", I8: "i8", I16: "i16", I32: "i32", I64: "i64"}
NAMES |= {BOOL: "bool", UTF8: "utf8", BINARY: "binary"}
VALIDITIES = {NEVER_NULL: "no-null", NONE_NULL: "all-valid", ALL_NULL: "all-null", BY_BITS: "bits"}
ESCAPES = {"\\": "\\\\", '"': '\\"', " ": "\\s", "\t": "\\t", "\n": "\\n"}

# ---- how messages are made


def number_bytes(kind: int, number: int) -> bytes:
    return number.to_bytes(SIZES[kind], "little", signed=kind not in UNSIGNED)


def typed(message, kind: int, decimal: tuple[int, int] | None):
    if kind == DECIMAL:
        message.precision, message.scale = decimal
    return message


def flat(kind: int, rows: list, validity: int = NEVER_NULL, decimal=None, stored: int = 0):
    """Flat rows; `stored` is the number under null."""
    message = typed(begun(kind, FLAT, len(rows)), kind, decimal)
    message.validity = validity
    if validity == BY_BITS:
        message.validity_bits = bits([row is not None for row in rows])
    if kind in (UTF8, BINARY):
        texts = [b"" if row is None else row.encode() if kind == UTF8 else row for row in rows]
        message.text_lengths.extend(map(len, texts))
        message.text_bytes = b"".join(texts)
    elif kind == BOOL:
        message.items = bits([row is True for row in rows])
    else:
        message.items = b"".join(number_bytes(kind, stored if row is None else row) for row in rows)
    return message


def constant(kind: int, value, rows: int, validity: int = NEVER_NULL, decimal=None):
    message = typed(begun(kind, CONSTANT, rows), kind, decimal)
    message.validity = ALL_NULL if value is None else validity
    is_text = kind in (UTF8, BINARY)
    data = value.encode() if isinstance(value, str) else value if is_text else None
    message.items = b"" if value is None else bytes([value]) if kind == BOOL else data or b""
    if value is not None and kind != BOOL and not is_text:
        message.items = number_bytes(kind, value)
    return message


def null_lists(rows: int, kind: int, nullability: int, decimal=None):
    message = begun(LIST, CONSTANT, rows)
    message.validity, message.items = ALL_NULL, b""
    message.element_type, message.element_nullability = kind, nullability
    return typed(message, kind, decimal)


def runs(values, ends: list[int], ends_type: int = U8, offset: int = 0, rows: int | None = None):
    return over(values, (ends[-1] if ends else 0) - offset if rows is None else rows, ends_type, offset, ends)


def nested(levels: int):
    message = flat(I16, [7, None], BY_BITS)
    for _ in range(levels):
        message = runs(message, [1, 2])
    return message


def lists(elements, offsets, sizes, validity=NEVER_NULL, valid=None):
    """Offsets and sizes are numbers, or messages of them; `valid` flags, or a message of them."""
    offsets, sizes = (flat_numbers(part) if isinstance(part, list) else part for part in (offsets, sizes))
    message = begun(LIST, LISTS, offsets.rows)
    message.validity = validity
    if validity == BY_BITS:
        message.validity_bits = bits(valid)
    if validity == BY_RUNS:
        message.validity_runs.CopyFrom(valid)
    for field, part in ("elements", elements), ("offsets", offsets), ("sizes", sizes):
        getattr(message, field).CopyFrom(part)
    return message


# ---- how they are shown


def row_text(message, index: int) -> str:
    """A row in one word, or a list of them in brackets."""
    if message.form == RUNS:
        run = next(run for run, end in enumerate(model.ends_of(message)) if end > message.offset + index)
        return row_text(message.values, run)
    shown = model.row(message, index)
    if shown == "null":
        return shown
    if message.form == LISTS:
        start, count = (int(model.row(part, index)) for part in (message.offsets, message.sizes))
        return f"[{' '.join(row_text(message.elements, place) for place in range(start, start + count))}]"
    if message.type == DECIMAL:
        return str(int.from_bytes(bytes.fromhex(shown), "big", signed=True))
    if message.type == BINARY:
        return f"x{shown[1:]}"
    if message.type == UTF8:
        return '"' + "".join(ESCAPES.get(letter, letter) for letter in bytes.fromhex(shown[1:]).decode()) + '"'
    return shown


def rows_text(message) -> str:
    first = [row_text(message, index) for index in range(min(message.rows, SHOWN))]
    return " ".join([f"{message.rows} rows:", *first])


def type_text(message, kind: int, is_nullable: bool) -> str:
    name = f"decimal({message.precision},{message.scale})" if kind == DECIMAL else NAMES[kind]
    return name + "?" * is_nullable


def flat_text(message) -> str:
    """The rows, of which a null over a number other than 0 has that number after it."""
    words = []
    for index in range(message.rows):
        word = row_text(message, index)
        if word == "null" and message.type in SIZES:
            size = SIZES[message.type]
            stored = int.from_bytes(message.items[index * size : (index + 1) * size], "little")
            word += f":{stored}" * (stored != 0)
        words.append(word)
    kind = type_text(message, message.type, message.validity != NEVER_NULL)
    return " ".join(["flat", kind, VALIDITIES[message.validity], *words])


def form_text(message) -> str:
    """How the column is made."""
    if message.form == RUNS:
        window = [NAMES[message.ends_type], str(message.offset), str(message.rows), *map(str, model.ends_of(message))]
        return " ".join(["runs", *window, "{", form_text(message.values), "}"])
    if message.form == LISTS:
        parts = [f"{{ {form_text(part)} }}" for part in (message.elements, message.offsets, message.sizes)]
        flags = "".join(str(int(model.is_valid(message, index))) for index in range(message.rows))
        by_runs = message.validity == BY_RUNS
        told = [f"runs {{ {form_text(message.validity_runs)} }}"] if by_runs else [VALIDITIES[message.validity]]
        return " ".join(["lists", *parts, *told, *[flags or "-"] * (message.validity == BY_BITS)])
    if message.form == CONSTANT and message.type == LIST:
        kind = type_text(message, message.element_type, message.element_nullability == NULLABLE)
        return f"constant list({kind})? null {message.rows}"
    if message.form == CONSTANT:
        kind = type_text(message, message.type, message.validity != NEVER_NULL)
        return f"constant {kind} {row_text(message, 0) if message.rows else value_text(message)} {message.rows}"
    return flat_text(message)


def value_text(message) -> str:
    """The value of a constant without rows."""
    one = Column()
    one.CopyFrom(message)
    one.rows = 1
    return row_text(one, 0)


# ---- the corpus

FIVE_TWO, GREAT = (5, 2), 10**38 - 1
WORDS = ["", "a", "two words", "Z\u00fcrich", "\U0001f41d", 'a "b" \\']


def of_numbers() -> dict:
    made = {}
    for kind in range(U8, I64 + 1):
        size = 8 * SIZES[kind]
        least, greatest = (0, 2**size - 1) if kind in UNSIGNED else (-(2 ** (size - 1)), 2 ** (size - 1) - 1)
        made[f"flat-{NAMES[kind]}"] = flat(kind, [least, greatest, 0, 1])
    return made | {
        "flat-all-valid": flat(I16, [7, -7], NONE_NULL),
        "flat-bits": flat(I32, [7, None, -7, None, 1, 2, 3, 4, None], BY_BITS),
        "flat-bits-of-valid-rows": flat(U16, [1, 2], BY_BITS),
        "flat-all-null": flat(U8, [None, None], ALL_NULL),
        "flat-stored-under-null": flat(U64, [1, None], BY_BITS, stored=9),
        "flat-no-rows": flat(I64, []),
        "flat-no-rows-by-bits": flat(I64, [], BY_BITS),
        "bool": flat(BOOL, [True, False, True, True, False, False, True, False, True]),
        "bool-bits": flat(BOOL, [True, None, False], BY_BITS),
        "bool-all-valid": flat(BOOL, [False], NONE_NULL),
        "decimal": flat(DECIMAL, [150, -150, 0], decimal=FIVE_TWO),
        "decimal-bits": flat(DECIMAL, [GREAT, None, -GREAT, -1], BY_BITS, (38, 0)),
        "decimal-of-least-type": flat(DECIMAL, [-(2**127)], decimal=(0, -128)),
        "decimal-of-greatest-type": flat(DECIMAL, [2**127 - 1], NONE_NULL, (255, 127)),
    }


def of_texts() -> dict:
    return {
        "text": flat(UTF8, WORDS),
        "text-bits": flat(UTF8, ["ab", None, "", "c"], BY_BITS),
        "text-all-null": flat(UTF8, [None, None, None], ALL_NULL),
        "text-no-rows": flat(UTF8, [], NONE_NULL),
        "text-long": flat(UTF8, ["x" * 200, "y"]),
        "binary": flat(BINARY, [b"", b"\x00\xff", b"abc"]),
        "binary-bits": flat(BINARY, [None, b"\x80"], BY_BITS),
    }


def of_constants() -> dict:
    return {
        "constant-u8": constant(U8, 255, 3),
        "constant-i64": constant(I64, -(2**63), 2, NONE_NULL),
        "constant-bool": constant(BOOL, True, 9),
        "constant-false": constant(BOOL, False, 9, NONE_NULL),
        "constant-decimal": constant(DECIMAL, -50, 2, decimal=FIVE_TWO),
        "constant-text": constant(UTF8, "ab", 2**60),
        "constant-empty-text": constant(UTF8, "", 3),
        "constant-binary": constant(BINARY, b"\x00", 1, NONE_NULL),
        "constant-null": constant(I16, None, 5),
        "constant-null-text": constant(UTF8, None, 5),
        "constant-null-decimal": constant(DECIMAL, None, 3, decimal=FIVE_TWO),
        "constant-no-rows": constant(I32, 7, 0),
        "constant-null-lists": null_lists(2**60, I16, NULLABLE),
        "constant-null-lists-of-decimals": null_lists(1, DECIMAL, model.NON_NULLABLE, FIVE_TWO),
    }


def of_runs() -> dict:
    values = flat(I16, [7, None, 8], BY_BITS)
    return {
        "runs-u8": runs(values, [3, 5, 9]),
        "runs-u16": runs(values, [3, 5, 300], U16),
        "runs-u32": runs(values, [3, 70000, 70001], U32),
        "runs-u64": runs(values, [3, 5, 2**60], U64),
        "runs-window": runs(values, [3, 5, 9], offset=2, rows=4),
        "runs-before-the-window": runs(values, [1, 5, 9], offset=1, rows=3),
        "runs-after-the-window": runs(values, [3, 5, 9], rows=1),
        "runs-no-rows-of-some": runs(values, [3, 5, 9], offset=8, rows=0),
        "runs-first-of-no-rows": runs(values, [0, 5, 9]),
        "runs-none": runs(flat(I64, [], NONE_NULL), []),
        "runs-of-bool": runs(flat(BOOL, [True, False]), [2, 3]),
        "runs-of-decimal": runs(flat(DECIMAL, [150, 151], decimal=FIVE_TWO), [2, 3]),
        "runs-of-text": runs(flat(UTF8, ["ab", None, ""], BY_BITS), [2, 3, 4]),
        "runs-of-binary": runs(flat(BINARY, [b"\x01", b""]), [2, 3]),
        "runs-of-a-constant": runs(constant(U8, 7, 2), [2, 3]),
        "runs-of-runs": runs(runs(values, [1, 2, 3]), [3, 5, 9], U16, 2, 6),
        "runs-16-levels": nested(16),
    }


def of_lists() -> dict:
    elements = flat(U8, [7, 8, 9])
    return {
        "lists": lists(elements, [0, 1, 0], [2, 2, 0]),
        "lists-bits": lists(elements, [0, 1, 0], [2, 2, 0], BY_BITS, [True, True, False]),
        "lists-all-valid": lists(elements, [1], [1], NONE_NULL),
        "lists-all-null": lists(elements, [0, 2**64 - 1], [9, 1], ALL_NULL),
        "lists-none": lists(flat(I8, []), [], []),
        "lists-of-nulls": lists(flat(I16, [7, None], BY_BITS), [0, 1], [2, 1]),
        "lists-of-text": lists(flat(UTF8, ["ab", "", "c d"]), [0, 2], [2, 1]),
        "lists-of-bool": lists(flat(BOOL, [True, False]), [0], [2]),
        "lists-of-decimals": lists(flat(DECIMAL, [150, -150], decimal=FIVE_TWO), [0], [2]),
        "lists-sizes-in-runs": lists(elements, [0, 1, 0], runs(flat_numbers([2, 0]), [2, 3])),
        "lists-all-in-runs": lists(
            elements, runs(flat_numbers([0, 1]), [2, 3]), runs(flat_numbers([1, 2]), [2, 3]), BY_RUNS,
            runs(flat_truths([True, False]), [1, 3]),
        ),
        "runs-of-lists": runs(lists(elements, [0, 1], [2, 2], BY_BITS, [True, False]), [2, 5]),
    }


def of_types() -> dict:
    """Formats with the columns that have them. As keys of floats 0 is 0.0, and -1 is -0.0."""
    zone, names = "tsn:Europe/Berlin", "tsu:" + "Z\u00fcrich/" * 20
    singles = flat(I32, [0x3FC00000, None, -1, 0x7F800000], BY_BITS)
    doubles = flat(I64, [0x3FF8 << 48, 0x7FF8000000000001, -1 - (0x7FF << 52), 0])
    return {
        "date": ("tdD", flat(I32, [20454, None, -719162], BY_BITS)),
        "date-milliseconds": ("tdm", constant(I64, 1767225600000, 3)),
        "time": ("tts", flat(I32, [0, 86399])),
        "time-nanoseconds": ("ttn", runs(flat(I64, [1, 86399999999999], NONE_NULL), [2, 3])),
        "timestamp": ("tsu:", runs(flat(I64, [1767225600000000, None], BY_BITS), [3, 5])),
        "timestamp-utc": ("tss:UTC", flat(I64, [100, 160, None], BY_BITS)),
        "timestamp-zone": (zone, runs(flat(I64, [-1, 0, 1]), [3, 5, 9], U16, 2, 4)),
        "timestamp-long-zone": (names, constant(I64, None, 2)),
        "duration": ("tDm", flat(I64, [-(2**63), 2**63 - 1], NONE_NULL)),
        "float16": ("e", flat(I16, [0x3E00, -1, 0x7C00, 0])),
        "float32": ("f", runs(singles, [2, 3, 5, 9])),
        "float64": ("g", doubles),
        "float64-constant": ("g", constant(I64, 0x4000 << 48, 2**60)),
        # types that are not of these, which are kept and not tested
        "months": ("tiM", flat(I32, [24, -1])),
        "other-storage": ("tdD", flat(UTF8, ["2026-01-01", None], BY_BITS)),
    }


def typed_corpus() -> str:
    lines = []
    for name, (format, stored) in of_types().items():
        message = with_type(format, stored)
        data = model.written(message)
        assert model.typed_column(data) == message, f"{name} is not a column's message"
        lines.append("\t".join([name, format, form_text(stored), rows_text(stored), data.hex()]))
    return "\n".join(lines) + "\n"


def corpus() -> str:
    made = of_numbers() | of_texts() | of_constants() | of_runs() | of_lists()
    lines = []
    for name, message in made.items():
        data = model.written(message)
        assert model.column(data) == message, f"{name} is not a column's message"
        lines.append("\t".join([name, form_text(message), rows_text(message), data.hex()]))
    return "\n".join(lines) + "\n"


def main() -> None:
    warnings.simplefilter("ignore")
    if sys.argv[1:] != ["--check"]:
        print(typed_corpus() if sys.argv[1:] == ["--typed"] else corpus(), end="")
        return
    count = 0
    for name, due in ("messages.txt", corpus()), ("typed.txt", typed_corpus()):
        stored = (HERE / name).read_text(encoding="utf-8")
        if stored != due:
            sys.exit(f"{name} is not what the model writes")
        count += stored.count("\n")
    print(f"{count} messages are what the model writes")


if __name__ == "__main__":
    main()
