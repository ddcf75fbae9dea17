"""A model of tables over plain lists: works out the answer of each case of table_cases.txt, and shares nothing with the
library. The numbers of a condition are fractions, bytes are written as docs/BYTES.md says.

    python3 examples/corpus/table_answers.py             fails where an answer of the file is another
    python3 examples/corpus/table_answers.py --write     writes the answers into the file
"""

import math
import operator
import struct
import sys
from dataclasses import dataclass
from fractions import Fraction
from functools import cmp_to_key
from itertools import groupby
from pathlib import Path

CASES = Path(__file__).parent / "table_cases.txt"
OPERATORS = {
    "==": operator.eq, "!=": operator.ne, "<": operator.lt, "<=": operator.le, ">": operator.gt, ">=": operator.ge,
}
INTEGERS = ["u8", "u16", "u32", "u64", "i8", "i16", "i32", "i64"]
STORED = {"td": {"tdD": "i32", "tdm": "i64"}, "tt": {"tts": "i32", "ttm": "i32", "ttu": "i64", "ttn": "i64"}}
BUILT_IN_TYPES = [*INTEGERS, "bool", "decimal", "utf8", "binary"]  # as docs/column.proto numbers them, from 1
ESCAPES = {"s": " ", "n": "\n", '"': '"', "\\": "\\", "0": "\0"}


class Refused(Exception):
    """A number of a refusal, and its fields."""


# ---- Words ----


def text_of(word):
    """The text of a word in quotes."""
    found, letters = "", iter(word[1:-1])
    for letter in letters:
        found += ESCAPES[next(letters)] if letter == "\\" else letter
    return found


def word_of(text):
    back = {letter: "\\" + short for short, letter in ESCAPES.items()}
    return '"' + "".join(back.get(letter, letter) for letter in text) + '"'


def name_of(word):
    return text_of(word) if word.startswith('"') else word


@dataclass
class Column:
    name: str
    type: str  # without ?
    nullable: bool
    format: str
    rows: list

    @property
    def sort(self):
        """What the rows are: their type, or what their format says of integers of its own type."""
        if self.type in ("f32", "f64"):
            return "float"
        sort, unit = self.format[:2], self.format[2:3]
        is_time = self.type == STORED.get(sort, {}).get(self.format)
        is_stamp = sort == "ts" and unit and unit in "smun" and self.format[3:4] == ":" and self.type == "i64"
        is_duration = sort == "tD" and self.format[2:] in ("s", "m", "u", "n") and self.type == "i64"
        if is_time or is_stamp or is_duration:
            return "duration" if is_duration else "time"
        return "integer" if self.type in INTEGERS else self.type.partition("(")[0]

    def of(self, rows, **changed):
        return Column(**{**vars(self), "rows": rows, **changed})


def value_of(word, type):
    """A row of a type."""
    if word == "null":
        return None
    if type.startswith("list("):
        words = word[1:-1].split(",") if word != "[]" else []
        return [value_of(each, type[5:-1].rstrip("?")) for each in words]
    if type == "utf8":
        return text_of(word)
    if type == "binary":
        return bytes.fromhex(word[1:])
    if type == "bool":
        return word == "true"
    if type in ("f32", "f64"):
        return float(word)
    return Fraction(word)


def shown(value, type):
    """The word of a row."""
    if value is None:
        return "null"
    if type.startswith("list("):
        return "[" + ",".join(shown(each, type[5:-1].rstrip("?")) for each in value) + "]"
    if type == "utf8":
        return word_of(value)
    if type == "binary":
        return "x" + value.hex().upper()
    if type == "bool":
        return "true" if value else "false"
    if type in ("f32", "f64"):
        return ("-" if math.copysign(1, value) < 0 else "") + "nan" if math.isnan(value) else repr(value)
    scale = int(type[:-1].split(",")[1]) if type.startswith("decimal") else 0
    digits = str(abs(int(value * 10**scale))).rjust(scale + 1, "0")
    return "-" * (value < 0) + (digits[:-scale] + "." + digits[-scale:] if scale else digits)


def column_of(words):
    name, (type, _, format), rows = name_of(words[0]), words[1].partition(":"), words[2:]
    nullable, type = type.endswith("?"), type.rstrip("?")
    if rows and rows[0] == "constant":
        return Column(name, type, nullable, format, Repeated(value_of(rows[1], type), int(rows[2])))
    rows = rows[1:] if rows and rows[0] == "runs" else rows
    return Column(name, type, nullable, format, [value_of(word, type) for word in rows])


class Repeated(list):
    """A value in each row, which is kept once where there are many rows."""

    def __init__(self, value, count):
        super().__init__([value] * min(count, 1000))
        self.length = count


class Table:
    def __init__(self, columns, rows):
        self.columns, self.rows = columns, rows

    def at(self, name):
        for place, column in enumerate(self.columns):
            if column.name == name:
                return self.columns[place]
        raise Refused(201)

    def lines(self):
        yield f"table {self.rows}" if not self.columns else "table"
        for column in self.columns:
            type = column.type + "?" * column.nullable + (f":{column.format}" if column.format else "")
            name = column.name if column.name.isidentifier() else word_of(column.name)
            yield " ".join(["column", name, type, *(shown(row, column.type) for row in column.rows)])


def once(names):
    for place, name in enumerate(names):
        if name in names[:place]:
            raise Refused(202, names.index(name), place)
    return names


def table_of(lines):
    first = lines[0].split(" ")
    columns = [column_of(line.split(" ")[1:]) for line in lines[1:]]
    lengths = [getattr(column.rows, "length", len(column.rows)) for column in columns]
    rows = int(first[1]) if first[1:] else lengths[0]
    for length in lengths:
        if length != rows:
            raise Refused(11, rows, length)
    once([column.name for column in columns])
    return Table(columns, rows)


# ---- Orders and conditions ----


def key_of_float(value):
    """The place in the total order."""
    (bits,) = struct.unpack("<q", struct.pack("<d", value))
    return bits if bits >= 0 else bits ^ (2**63 - 1)


def key_of(value):
    """What orders the rows of one column, and is equal where they are."""
    if isinstance(value, float):
        return key_of_float(value)
    return value.encode() if isinstance(value, str) else value


def literal_of(word):
    """What a row is compared with, and its sort."""
    if word == "null":
        return None, "null"
    if word in ("true", "false"):
        return word == "true", "bool"
    if word.startswith('"'):
        return text_of(word), "utf8"
    if word.startswith("x"):
        return bytes.fromhex(word[1:]), "binary"
    if word.endswith("d"):
        return Fraction(word[:-1]), "number"
    if "." in word or "nan" in word or "inf" in word:
        return float(word), "number"
    return Fraction(word), "number"


def exact(number):
    """A number as a fraction, or a float that is none."""
    return Fraction(number) if math.isfinite(number) else float(number)


def condition(column, sign, word):
    """What holds of a row that is not null."""
    literal, sort = literal_of(word)
    if column.type.startswith("list("):
        raise Refused(13)
    if sort == "null":
        return lambda row: False
    is_number = column.sort in ("integer", "decimal", "float", "time", "duration")
    if sort != ("number" if is_number else column.sort):
        raise Refused(12)
    if is_number:
        literal, of = exact(literal), exact
    else:
        of = key_of
        literal = key_of(literal)
    return lambda row: OPERATORS[sign](of(row), literal)


def mask(column, sign, word):
    holds = condition(column, sign, word)
    return [row is not None and holds(row) for row in column.rows]


# ---- Calls ----


def chosen(table, places):
    """The rows at these places; null where there is none."""
    columns = []
    for column in table.columns:
        rows = [None if place is None else column.rows[place] for place in places]
        columns.append(column.of(rows, nullable=column.nullable or None in places))
    return Table(columns, len(places))


def slice_(table, start, stop):
    start, stop = int(start), int(stop)
    if start > stop or stop > table.rows:
        raise Refused(9, start, stop, table.rows)
    return chosen(table, range(start, stop)) if table.columns else Table([], stop - start)


def take(table, type, *words):
    column = column_of(["i", type, *words])
    if column.sort != "integer":
        raise Refused(12)
    for index in column.rows:
        if index is not None and not 0 <= index < table.rows:
            raise Refused(8, index if index > 0 else 2**64 - 1, table.rows)
    made = chosen(table, [None if index is None else int(index) for index in column.rows])
    for column_made in made.columns:
        column_made.nullable |= column.nullable
    return made


def filter_(table, type, *words):
    column = column_of(["m", type, *words])
    if column.type != "bool":
        raise Refused(12)
    if len(column.rows) != table.rows:
        raise Refused(10, len(column.rows), table.rows)
    return chosen(table, [place for place, row in enumerate(column.rows) if row])


def filter_by(table, name, sign, word):
    kept = mask(table.at(name_of(name)), sign, word)
    return chosen(table, [place for place, row in enumerate(kept) if row])


def sort(table, *words):
    keys = [(name_of(name), order == "descending", nulls == "last") for name, order, nulls in zip(*[iter(words)] * 3)]
    if not keys:
        raise Refused(13)
    once([name for name, _, _ in keys])
    columns = [(table.at(name).rows, descending, last) for name, descending, last in keys]
    if any(table.at(name).type.startswith("list(") for name, _, _ in keys):
        raise Refused(13)

    def compare(left, right):
        for rows, descending, last in columns:
            one, other = rows[left], rows[right]
            if (one is None) != (other is None):
                return 1 if (one is None) == last else -1
            if one is not None and key_of(one) != key_of(other):
                return 1 if (key_of(one) > key_of(other)) != descending else -1
        return 0

    return chosen(table, sorted(range(table.rows), key=cmp_to_key(compare)))


def numbers_of(column, rows):
    """The rows that are not null, of floats those that are not NaN."""
    return [row for row in rows if row is not None and not (isinstance(row, float) and math.isnan(row))]


def total(column, rows):
    """The type, the format and the sum of rows, None where none is valid; it is 14 where it does not fit."""
    valid = [row for row in rows if row is not None]
    if column.sort == "float":
        return "f64", "", sum_of_floats(valid) if valid else None
    if column.sort not in ("integer", "decimal", "duration"):
        raise Refused(13)
    if column.sort == "decimal":
        if any(abs(sum(valid[:count])) >= 10 ** (38 - scale_of(column.type)) for count in range(len(valid) + 1)):
            raise Refused(14)
        return f"decimal(38,{scale_of(column.type)})", "", sum(valid) if valid else None
    type = "u64" if column.type.startswith("u") else "i64"
    least, greatest = (0, 2**64) if type == "u64" else (-(2**63), 2**63)
    if not least <= sum(valid) < greatest:
        raise Refused(14)
    return type, column.format if column.sort == "duration" else "", sum(valid) if valid else None


def scale_of(type):
    return int(type[:-1].split(",")[1])


def sum_of_floats(values):
    if any(math.isnan(value) for value in values) or {math.inf, -math.inf} <= set(values):
        return math.nan
    if math.inf in values or -math.inf in values:
        return math.inf if math.inf in values else -math.inf
    found = sum(map(Fraction, values))
    return float(found) if found or any(math.copysign(1, value) > 0 for value in values) else -0.0


def folded(fold, column, groups):
    """The column of a fold over the rows of each group."""
    if fold == "count":
        return "u64", "", [sum(row is not None for row in rows) for rows in groups]
    if fold == "sum":
        answers = []
        for group, rows in enumerate(groups):
            try:
                answers.append(total(column, rows))
            except Refused as refused:
                raise Refused(*refused.args, *[group] * (refused.args[0] == 14)) from None
        type, format, _ = total(column, [])
        return type, format, [answer for _, _, answer in answers]
    if column.type.startswith("list("):
        raise Refused(13)
    by_value = {"least": min, "greatest": max}.get(fold)
    answers = []
    for rows in groups:
        valid = numbers_of(column, rows) if by_value else [row for row in rows if row is not None]
        pick = by_value and (lambda some: by_value(some, key=key_of))
        answers.append((pick(valid) if pick else valid[0 if fold == "first" else -1]) if valid else None)
    return column.type, column.format, answers


def group_by(table, *words):
    keys, *asked = [list(part) for is_bar, part in groupby(words, key="/".__eq__) if not is_bar] or [[]]
    keys = [name_of(key) for key in keys]
    if not keys:
        raise Refused(13)
    once([*keys, *(name_of(name) for name, *_ in asked)])
    columns = [table.at(key) for key in keys]
    if any(column.type.startswith("list(") for column in columns):
        raise Refused(13)
    rows = [[key_of(column.rows[row]) for column in columns] for row in range(table.rows)]
    parts = [list(part) for _, part in groupby(range(table.rows), key=rows.__getitem__)]
    made = chosen(Table(columns, table.rows), [part[0] for part in parts])
    for name, fold, *of in asked:
        if fold == "rows":
            found = "u64", "", [len(part) for part in parts]
        else:
            column = table.at(name_of(of[0]))
            found = folded(fold, column, [[column.rows[row] for row in part] for part in parts])
        made.columns.append(Column(name_of(name), found[0], True, found[1], found[2]))
    return made


def append(table, other):
    if {column.name for column in table.columns} != {column.name for column in other.columns}:
        raise Refused(201)
    made = []
    for column in table.columns:
        second = other.at(column.name)
        type = column.type
        if "decimal" == column.sort == second.sort:
            type = common_decimal(column.type, second.type)
        elif (type, column.format) != (second.type, second.format):
            raise Refused(12)
        for each in (column, second):
            for place, row in enumerate(each.rows):
                if column.sort == "decimal" and row is not None and abs(row) >= 10 ** (38 - scale_of(type)):
                    raise Refused(14, place)
        nullable = column.nullable or second.nullable
        made.append(column.of([*column.rows, *second.rows], type=type, nullable=nullable))
    if table.rows + other.rows >= 2**64:
        raise Refused(5)
    return Table(made, table.rows + other.rows)


def common_decimal(one, other):
    """The digits of both, before the point and after it, of 38 at most."""
    (left, after), (right, behind) = (map(int, type[8:-1].split(",")) for type in (one, other))
    scale = max(after, behind)
    return f"decimal({min(max(left - after, right - behind) + scale, 38)},{scale})"


def select(table, *names):
    names = once([name_of(name) for name in names])
    return Table([table.at(name) for name in names], table.rows)


def drop(table, *names):
    for name in names:
        table.at(name_of(name))
    return Table([column for column in table.columns if column.name not in map(name_of, names)], table.rows)


def rename(table, old, new):
    table.at(name_of(old))
    columns = [column.of(column.rows, name=name_of(new) if column.name == name_of(old) else column.name)
               for column in table.columns]
    once([column.name for column in columns])
    return Table(columns, table.rows)


def put(table, *words):
    added = column_of(words)
    rows = table.rows if table.columns or table.rows else len(added.rows)
    if len(added.rows) != rows:
        raise Refused(11, rows, len(added.rows))
    names = [column.name for column in table.columns]
    columns = [added if column.name == added.name else column for column in table.columns]
    return Table(columns if added.name in names else [*columns, added], rows)


def equals(table, other):
    def shape(one):
        return [(c.name, c.type, c.nullable, c.format, [key_of(row) for row in c.rows]) for c in one.columns]

    return "true" if table.rows == other.rows and shape(table) == shape(other) else "false"


def column_sum(table, name):
    column = table.at(name_of(name))
    type, _, found = total(column, column.rows)
    return shown((0.0 if type == "f64" else 0) if found is None else found, type)


def column_count(table, name):
    return str(sum(row is not None for row in table.at(name_of(name)).rows))


def column_bound(fold):
    def of(table, name):
        column = table.at(name_of(name))
        return shown(folded(fold, column, [column.rows])[2][0], column.type)

    return of


def may_have(table, name, sign, word):
    """Whether a value between the bounds meets the condition: an infinity where the bound on its side is NaN."""
    column = table.at(name_of(name))
    if column.type.startswith("list("):
        return "true"
    holds = condition(column, sign, word)
    valid = sorted((row for row in column.rows if row is not None), key=key_of)
    if not valid:
        return "false"
    least, greatest = valid[0], valid[-1]
    if column.sort != "float" or not any(map(math.isnan, (least, greatest))):
        literal, sort = literal_of(word)
        within = [least, greatest]
        if sort == "number" and math.isfinite(literal):
            within += [row for row in [literal_in(column, literal)] if row is not None and least <= row <= greatest]
        elif sort not in ("null", "number") and key_of(least) <= key_of(literal) <= key_of(greatest):
            within.append(literal)
        return "true" if any(map(holds, within)) else "false"
    numbers = [-math.inf if math.isnan(least) else least, math.inf if math.isnan(greatest) else greatest]
    literal = literal_of(word)[0]
    if sign == "!=" and literal is not None:
        return "true"  # NaN is among the rows
    if math.isnan(least) and math.isnan(greatest) and math.copysign(1, least) == math.copysign(1, greatest):
        return "false"  # and no number
    between = [*numbers, *([float(literal)] if literal is not None and numbers[0] <= literal <= numbers[1] else [])]
    return "true" if any(map(holds, between)) else "false"


def literal_in(column, literal):
    """A number as a row of the column, None where it has none."""
    if column.sort == "float":
        return float(literal) if Fraction(float(literal)) == Fraction(literal) else None
    scale = scale_of(column.type) if column.sort == "decimal" else 0
    return Fraction(literal) if (Fraction(literal) * 10**scale).denominator == 1 else None


# ---- Bytes ----


def varint(number):
    return bytes([number]) if number < 128 else bytes([number & 127 | 128]) + varint(number >> 7)


def number_field(field, number):
    return varint(field * 8) + varint(number)


def sized_field(field, content):
    return varint(field * 8 + 2) + varint(len(content)) + content


def flat_message(column, rows):
    """The message of a flat column of integers, booleans or texts."""
    type = {"f32": "i32", "f64": "i64"}.get(column.type, column.type)
    valid = [row is not None for row in rows]
    found = number_field(1, 1) + number_field(2, BUILT_IN_TYPES.index(type) + 1) + number_field(3, 1)
    found += number_field(4, len(rows)) + number_field(5, 1 if not column.nullable else 2 if all(valid) else 4)
    if not all(valid):
        found += sized_field(6, bits(valid))
    if type == "utf8":
        texts = [(row or "").encode() for row in rows]
        return found + sized_field(12, b"".join(varint(len(text)) for text in texts)) + sized_field(13, b"".join(texts))
    if type == "bool":
        return found + sized_field(7, bits([bool(row) for row in rows]))
    width, is_signed = int(type[1:]) // 8, type[0] == "i"
    items = [0 if row is None else key_of(row) if column.sort == "float" else int(row) for row in rows]
    return found + sized_field(7, b"".join(item.to_bytes(width, "little", signed=is_signed) for item in items))


def bits(truths):
    number = sum(truth << place for place, truth in enumerate(truths))
    return number.to_bytes((len(truths) + 7) // 8, "little")


def differences_of(column, rows):
    """The message of the differences of a flat column without null, where it is shorter: runs of i64."""
    steps = [int(row) - int(before) for row, before in zip(rows, [0, *rows])]
    runs = [(step, len(list(part))) for step, part in groupby(steps)]
    ends = next(width for width in (1, 2, 3, 4) if len(rows) < 2 ** (8 << width - 1))
    found = number_field(1, 1) + number_field(2, INTEGERS.index("i64") + 1) + number_field(3, 2)
    found += number_field(4, len(rows)) + number_field(8, 0) + number_field(9, ends)
    lengths = b"".join(varint(count) for _, count in runs)
    values = flat_message(Column("", "i64", False, "", []), [step for step, _ in runs])
    return found + sized_field(10, lengths) + sized_field(11, values)


def to_bytes(table, differences=""):
    messages, forms = [], []
    for column in table.columns:
        message, form = flat_message(column, column.rows), 0
        if differences and column.type in INTEGERS and not column.nullable:
            kept = differences_of(column, column.rows)
            message, form = (kept, 1) if len(kept) < len(message) else (message, 0)
        messages.append(message)
        forms.append(form)
    found = sized_field(1, b"hivevigil") + number_field(2, 2 if any(forms) else 1)
    footer = number_field(1, table.rows)
    for column, message, form in zip(table.columns, messages, forms):
        found += sized_field(3, message)
        valid = sorted((row for row in column.rows if row is not None), key=key_of)
        said = sized_field(1, column.name.encode()) + sized_field(2, format_of(column)) + number_field(3, len(message))
        said += number_field(4, len(column.rows) - len(valid))
        said += number_field(5, len(list(groupby(map(key_of, column.rows)))))
        said += sized_field(6, flat_message(column, valid[:1] + valid[-1:]))
        footer += sized_field(2, said + (number_field(7, form) if any(forms) else b""))
    return "x" + (found + sized_field(4, footer) + bytes([41]) + len(footer).to_bytes(8, "little")).hex().upper()


def format_of(column):
    return {"f32": "f", "f64": "g"}.get(column.type, column.format).encode()


KNOWN_BYTES = {}  # by their hexadecimal digits, the tables that cases wrote


def from_bytes(word):
    if word not in KNOWN_BYTES:
        raise Refused(17)
    return KNOWN_BYTES[word]


CALLS = {
    "slice": slice_, "take": take, "filter": filter_, "filter_by": filter_by, "sort": sort, "group_by": group_by,
    "append": append, "select": select, "drop": drop, "rename": rename, "put": put, "equals": equals, "sum": column_sum,
    "count": column_count, "min": column_bound("least"), "max": column_bound("greatest"), "may_have": may_have,
    "to_bytes": to_bytes, "from_bytes": from_bytes, "load": select, "table": lambda table: table,
}


# ---- The file ----


def answer_of(lines):
    """The lines of the answer of a case."""
    asked = next(line for line in lines if line.startswith("ask ")).split(" ")[1:]
    blocks = [index for index, line in enumerate(lines) if line.split(" ")[0] == "table"]
    end = next(index for index, line in enumerate(lines) if line.startswith("ask "))
    try:
        tables = [table_of(lines[start:stop]) for start, stop in zip(blocks, [*blocks[1:], end])]
        found = CALLS[asked[0]](*tables, *asked[1:])
    except Refused as refused:
        return ["answer refused " + " ".join(map(str, refused.args))]
    if asked[0] == "to_bytes":
        KNOWN_BYTES[found] = tables[0]
    if isinstance(found, str):
        return ["answer " + found]
    first, *rest = found.lines()
    return ["answer " + first, *rest]


def main():
    paragraphs = CASES.read_text().split("\n\n")
    made, count, wrong = [], 0, []
    for paragraph in paragraphs:
        lines = paragraph.strip("\n").split("\n")
        head = next((place for place, line in enumerate(lines) if line.startswith("case ")), None)
        if head is None:
            made.append("\n".join(lines))
            continue
        end = next(place for place, line in enumerate(lines) if line.startswith("ask ")) + 1
        answer = answer_of(lines[head + 1 : end])
        count += 1
        if lines[end:] != answer:
            wrong.append((lines[head], lines[end:], answer))
        made.append("\n".join([*lines[:end], *answer]))
    if "--write" in sys.argv[1:]:
        CASES.write_text("\n\n".join(made) + "\n")
        wrong = []
    for name, stored, answer in wrong:
        print(f"{name}: stored {stored}, worked out {answer}")
    print(f"{count} cases, {len(wrong)} with another answer")
    return 1 if wrong else 0


if __name__ == "__main__":
    sys.exit(main())
