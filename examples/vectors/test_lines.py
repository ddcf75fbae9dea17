#!/usr/bin/env python3
"""Tests of the models: known answers by hand, other programs' answers where there are some, and the stored lines.

    python3 -B examples/vectors/test_lines.py

`struct` rounds to 16 and 32 bits, `repr` writes the shortest decimal, `hash` of Python is SipHash-1-3, and `decimal`
works with decimals: each by code of its own. Arithmetic of floats is held against NumPy where that is installed.
"""

from __future__ import annotations

import decimal
import random
import struct
import subprocess
import sys
import unittest
import warnings
from fractions import Fraction
from functools import partial
from pathlib import Path

import decimals
import floats
from answers import checked, completed
from columns import layered
from float_columns import any_bits, bits
from float_pairs import partner
from floats import F16, F32, F64, FORMATS, OPERATIONS, Format, NotThere
from groups import folded, running
from lines import GROUPS, STORED, new_lines, stored_lines
from messages import Constant, Flat, Runs, typed
from orders import counted
from pairs import picked, truth
from siphash import hash_of, siphash
from typed_lines import SMALL, changed, damages, format_of
from words import Type, encoded_form, flat_form, order, runs_of, shown, stored, word
from writer import Refusal, Writer

VECTORS = Path(__file__).resolve().parent / "lines.txt"
try:
    import numpy
except ImportError:
    numpy = None
try:
    from google.protobuf import descriptor_pb2, descriptor_pool, message_factory
    from google.protobuf.message import DecodeError
except ImportError:
    descriptor_pb2 = None


class Words(unittest.TestCase):
    def test_rows_have_the_words_of_the_page(self) -> None:
        rows = [None, True, -3, 'a b\n"\\', b"\0\xff", [1, None], ""]
        expected = ["null", "true", "-3", '"a\\sb\\n\\"\\\\"', "x00FF", "[1,null]", '""']
        self.assertEqual([word(row) for row in rows], expected)

    def test_types_have_the_words_of_the_page(self) -> None:
        types = [Type("u8", True), Type((5, -2), False), Type("list(u8)", False)]
        self.assertEqual([str(type) for type in types], ["u8?", "decimal(5,-2)", "list(u8)"])

    def test_forms(self) -> None:
        self.assertEqual(flat_form(Type("u8", True), []), "flat u8? valid")
        self.assertEqual(flat_form(Type("u8", True), [None, 1]), "flat u8? bits null 1")
        self.assertEqual(flat_form(Type("u8", True), [None]), "flat u8? invalid null")
        expected = "runs u8 0 3 2 3 { flat u8 nonnull 7 8 }"
        self.assertEqual(encoded_form(Type("u8", False), [7, 7, 8]), expected)
        self.assertTrue(encoded_form(Type("u8", False), [1] * 256).startswith("runs u16 0 256 256 {"))

    def test_a_boolean_equals_no_integer(self) -> None:
        self.assertEqual(runs_of([1, True, True, None, None]), ([1, 3, 5], [1, True, None]))

    def test_null_comes_first_and_texts_go_by_their_bytes(self) -> None:
        self.assertEqual(sorted(["é", "z", None, ""], key=order), [None, "", "z", "é"])

    def test_zero_is_stored_under_null(self) -> None:
        self.assertEqual(stored(Type("i8", True), [3, None]), "3 0")
        self.assertEqual(stored(Type("bool", True), [None, True]), "false true")


class Hashes(unittest.TestCase):
    def test_no_bytes(self) -> None:
        # What Rust's DefaultHasher answers, which is SipHash-1-3 with keys of 0 too.
        self.assertEqual(siphash(b""), 15130871412783076140)

    @unittest.skipUnless(sys.hash_info.algorithm == "siphash13", "another hash of Python")
    def test_python_hashes_bytes_alike(self) -> None:
        data = [bytes(range(length)) for length in range(1, 40)]
        # With this seed the keys are 0.
        command = [sys.executable, "-c", f"print(*map(hash, {data}))"]
        said = subprocess.run(command, env={"PYTHONHASHSEED": "0"}, capture_output=True, text=True, check=True)
        self.assertEqual([siphash(part) for part in data], [int(number) % 2**64 for number in said.stdout.split()])

    def test_forms_of_the_same_rows_have_one_hash(self) -> None:
        self.assertEqual(hash_of(Type("u8", False), [1, 1]), hash_of(Type("u8", True), [1, 1]))
        self.assertNotEqual(hash_of(Type("u8", False), [1]), hash_of(Type((3, 0), False), [1]))


class Rows(unittest.TestCase):
    def test_null_is_unknown(self) -> None:
        self.assertIs(truth(False, "and", None), False)
        self.assertIsNone(truth(True, "and", None))
        self.assertIs(truth(None, "or", True), True)
        self.assertIsNone(truth(None, "or", False))

    def test_picks(self) -> None:
        self.assertEqual([picked(None, name, 2) for name in ("coalesce", "lesser", "greater")], [2, None, None])
        self.assertEqual([picked(3, name, 2) for name in ("coalesce", "lesser", "greater")], [3, 2, 3])

    def test_folds(self) -> None:
        values, ends = [1, None, 5, None], [3, 4]
        expected = {"sum": [6, None], "rows": [3, 1], "count": [2, 0], "first": [1, None], "last": [5, None]}
        for fold, answers in expected.items():
            self.assertEqual(folded(fold, values, ends, Type("u64", True)), answers)
        self.assertEqual(folded("sum", [1, 2**63 - 1, 1], [1, 3], Type("i64", True)), Refusal("14 1", early=False))

    def test_totals(self) -> None:
        self.assertEqual(running([2, 3, 5], [None, 4, -1], Type("i64", True)), [None, 4, 2])
        self.assertEqual(running([2], [2**63], Type("u64", True)), Refusal("14 0", early=False))

    def test_counts(self) -> None:
        self.assertEqual(counted(["b", None, "a", "b"]), [(None, 1), ("a", 1), ("b", 2)])


def shortest_of_repr(number: float) -> tuple[str, int]:
    """Returns the digits that `repr` writes of a positive float, and how many are before the point."""
    mantissa, _, exponent = repr(number).partition("e")
    whole, _, part = mantissa.partition(".")
    digits = (whole + part).lstrip("0")
    return digits.rstrip("0"), len(whole) + int(exponent or 0) - len(whole + part) + len(digits)


class Floats(unittest.TestCase):
    def setUp(self) -> None:
        self.random = random.Random(7)

    def any_float(self, format: Format) -> int:
        """Returns the bits of a finite float."""
        while format.is_nan(found := any_bits(self.random, format)) or format.is_infinite(found):
            pass
        return found

    def test_each_float_is_the_nearest_to_its_number(self) -> None:
        for format in FORMATS.values():
            for found in [self.any_float(format) for _ in range(1000)]:
                minus = bool(format.sign_of(found))
                self.assertEqual(format.nearest(format.number(found), minus), found)
                self.assertEqual(format.bits_of_key(format.key(found)), found)

    def test_struct_rounds_alike(self) -> None:
        for found in [self.any_float(F64) for _ in range(3000)]:
            number = F64.value(found)
            for format in (F16, F32):
                letter, bits_letter = format.letters
                try:
                    (expected,) = struct.unpack(f"<{bits_letter}", struct.pack(f"<{letter}", number))
                except OverflowError:
                    expected = format.infinity + format.sign * (number < 0)
                self.assertEqual(format.nearest(F64.number(found), bool(F64.sign_of(found))), expected)

    def test_repr_writes_the_same_digits(self) -> None:
        powers = [power << 52 for power in range(1, 2047, 9)]
        for found in powers + [self.any_float(F64) % F64.sign for _ in range(300)]:
            if found:
                self.assertEqual(floats.shortest(F64, found), shortest_of_repr(F64.value(found)))

    def test_words_of_the_page(self) -> None:
        cases = [(F64, "1e16", "1e16"), (F64, "1e15", "1000000000000000.0"), (F32, "1e13", "1e13"), (F64, "-0", "-0.0")]
        cases += [(F64, "0.00001", "0.00001"), (F64, "0.000001", "1e-6"), (F32, "0.1", "0.1")]
        cases += [(F16, "0.1", "0.099975586")]
        cases += [(F32, "0.000001", "0.000001"), (F64, "nan", "0x7ff8000000000000"), (F16, "-inf", "-inf")]
        for format, text, expected in cases:
            self.assertEqual(floats.word(format, floats.read(format, text)), expected)

    def test_casts(self) -> None:
        self.assertEqual(floats.cast(F32, F16, F32.nearest(Fraction(3, 2))), F16.nearest(Fraction(3, 2)))
        self.assertEqual(floats.cast(F32, F64, 0xFFC00001), 0xFFF8000020000000)
        for found in (F32.nearest(65536), F32.nearest(Fraction(1, 3)), 0x7F800001):
            self.assertRaises(NotThere, floats.cast, F32, F16, found)
        self.assertEqual(floats.rounded(F32, F16, 0x7F800001), F16.quiet_nan)
        self.assertEqual(floats.to_integer(F64, "u8", F64.nearest(255)), 255)
        self.assertRaises(NotThere, floats.to_integer, F64, "u8", F64.nearest(256))
        self.assertRaises(NotThere, floats.of_integer, F32, 2**24 + 1)

    def test_sums_are_rounded_once(self) -> None:
        rows = [F64.nearest(number) for number in (2**53, 1, -(2**53))]
        self.assertEqual(floats.total(F64, rows), F64.nearest(1))
        self.assertEqual(floats.total(F32, [F32.sign, None]), F64.sign)
        self.assertEqual(floats.total(F32, []), 0)
        self.assertEqual(floats.total(F32, [F32.infinity, F32.infinity + F32.sign]), F64.quiet_nan)

    def test_arithmetic_of_special_floats(self) -> None:
        one, infinity = F64.nearest(1), F64.infinity
        cases = [(one, "/", 0, infinity), (0, "/", 0, F64.quiet_nan), (infinity, "-", infinity, F64.quiet_nan)]
        cases += [(0, "+", F64.sign, 0), (F64.sign, "-", 0, F64.sign), (one, "/", infinity + F64.sign, F64.sign)]
        for left, operation, right, expected in cases:
            self.assertEqual(floats.arithmetic(F64, operation, left, right), expected)

    @unittest.skipUnless(numpy, "no NumPy")
    def test_numpy_works_alike(self) -> None:
        work = {"+": numpy.add, "-": numpy.subtract, "*": numpy.multiply, "/": numpy.divide}
        for format, kind, kind_of_bits in ((F32, "f4", "u4"), (F64, "f8", "u8")):
            for _ in range(500):
                left, right = any_bits(self.random, format), bits(self.random, format, self.random.random() < 0.3)
                right = partner(self.random, format, left) if self.random.random() < 0.3 else right
                x, y = (numpy.array([row], kind_of_bits).view(kind) for row in (left, right))
                for operation in OPERATIONS:
                    with numpy.errstate(all="ignore"):
                        made = work[operation](x, y)
                    expected = format.quiet_nan if numpy.isnan(made[0]) else int(made.view(kind_of_bits)[0])
                    self.assertEqual(floats.arithmetic(format, operation, left, right), expected)


class Decimals(unittest.TestCase):
    def test_precision_and_scale_of_answers(self) -> None:
        self.assertEqual(decimals.answer_kind("+", (5, 2), (9, 2)), (10, 2))
        self.assertIsNone(decimals.answer_kind("-", (5, 2), (5, 1)))
        self.assertEqual(decimals.answer_kind("*", (5, 2), (3, 1)), (9, 3))
        self.assertEqual(decimals.answer_kind("*", (38, 100), (38, 27)), (38, 127))
        self.assertIsNone(decimals.answer_kind("*", (38, 100), (38, 28)))

    def test_decimal_rescales_alike(self) -> None:
        chance = random.Random(5)
        context = decimal.Context(prec=400, Emin=-999, Emax=999, traps=[])
        for _ in range(1000):
            number = chance.choice([chance.randint(-(10**38), 10**38), chance.randint(-999, 999) * 10**20])
            scale, to, precision = chance.randint(-40, 40), chance.randint(-40, 40), chance.randint(0, 60)
            found = decimals.rescaled([None, number], scale, to, partial(decimals.has_digits, precision))
            context.clear_flags()
            step = decimal.Decimal(1).scaleb(-to, context)
            moved = decimal.Decimal(number).scaleb(-scale, context).quantize(step, context=context)
            if context.flags[decimal.Inexact]:
                self.assertEqual(found, Refusal("14 1 inexact", early=False))
                continue
            whole = int(moved.scaleb(to, context))
            fits = whole == 0 or len(str(abs(whole))) <= min(precision, 38)
            self.assertEqual(found, [None, whole] if fits else Refusal("14 1", early=False))

    def test_sums(self) -> None:
        most = 10**38 - 1
        cases = {((most, 1), (1, 1)): "refused 14 1", ((most, 1), (None, 9), (-1, 1)): str(most - 1)}
        cases |= {((10**37, 20),): "refused 14 9", ((None, 3), (7, 0)): "0 empty", ((-3, 5),): "-15"}
        for runs, expected in cases.items():
            self.assertEqual(decimals.exact_sum(list(runs)), expected)
            rows = [(value, 1) for value, count in runs for _ in range(count)]
            self.assertEqual(decimals.exact_sum(rows), expected)


def class_of(fields: dict[int, tuple[str, str]]) -> type:
    """Returns a class of messages of Protocol Buffers with these fields, each of which may be absent."""
    file = descriptor_pb2.FileDescriptorProto(name="typed.proto", syntax="proto3")
    message = file.message_type.add(name="Typed")
    for place, (number, (name, kind)) in enumerate(fields.items()):
        message.oneof_decl.add(name="_" + name)
        kind = getattr(descriptor_pb2.FieldDescriptorProto, "TYPE_" + kind)
        message.field.add(name=name, number=number, type=kind, label=1, proto3_optional=True, oneof_index=place)
    pool = descriptor_pool.DescriptorPool()
    pool.Add(file)
    found = pool.FindMessageTypeByName("Typed")
    if hasattr(message_factory, "GetMessageClass"):
        return message_factory.GetMessageClass(found)
    return message_factory.MessageFactory(pool).GetPrototype(found)


class Messages(unittest.TestCase):
    def test_columns_have_the_bytes_of_the_page(self) -> None:
        runs = Runs("u8", 0, 5, [3, 5], Flat(Type("i16", True), [7, None]))
        cases = {
            "08011006180220054000480152020302 5a130801100618012002280432010 13a0407000000": runs,
            "0801100b18012004280432010d620402000001 6a03616263": Flat(Type("utf8", True), ["ab", None, "", "c"]),
            "0801100b180320808080808080808010 28013a026162": Constant(Type("utf8", False), "ab", 2**60),
            "0801100a1803200328033a00 70057804": Constant(Type((5, 2), True), None, 3),
            f"0801100a1801200228043201013a20 96{'00' * 31} 70057804": Flat(Type((5, 2), True), [150, None]),
        }
        for expected, column in cases.items():
            self.assertEqual(column.message(), bytes.fromhex(expected.replace(" ", "")))

    def test_a_name_comes_before_the_message_of_the_column(self) -> None:
        self.assertEqual(typed("", b"ab"), b"ab")
        self.assertEqual(typed("e", b"ab"), bytes.fromhex("0802 b2010165 ba01026162"))
        self.assertEqual(len(typed("x" * 128, b"ab")), 2 + 4 + 128 + 3 + 2)

    @unittest.skipUnless(descriptor_pb2, "no Protocol Buffers")
    def test_protocol_buffers_write_the_same_bytes_and_read_no_damaged_ones(self) -> None:
        kept = class_of({1: ("version", "UINT32"), 22: ("format", "BYTES"), 23: ("column", "BYTES")})
        message = SMALL.message()
        for format in ("e", "tsu:Europe/Berlin", "\U0001f41d", "x" * 128):
            made = kept(version=2, format=format.encode(), column=message)
            self.assertEqual(made.SerializeToString(), typed(format, message))
        found = list(damages())
        self.assertGreater(len(found), 60)
        self.assertEqual(len(set(found)), len(found))
        for data in found:
            try:
                with warnings.catch_warnings():
                    warnings.simplefilter("ignore")
                    read = kept.FromString(data)
            except DecodeError:
                continue
            is_name = read.format > b"" and read.format.decode(errors="ignore").encode() == read.format
            fields = (read.version, is_name, read.column, read.SerializeToString())
            self.assertNotEqual(fields, (2, True, message, data))

    def test_a_changed_front_is_read_only_with_another_name(self) -> None:
        chance, message = random.Random(3), SMALL.message()
        names = set()
        for _ in range(3000):
            front = changed(chance, typed("tsu:é", message)[: -len(message)])
            name = format_of(front, len(message))
            names.add(name)
            if name is not None:
                self.assertEqual(typed(name, message), front + message)
        self.assertIn(None, names)
        self.assertGreater(len(names), 100)


class Lines(unittest.TestCase):
    def test_the_stored_lines_of_each_group_are_made_again(self) -> None:
        stored = VECTORS.read_text(encoding="utf-8").split("\n")
        for group in STORED:
            lines = stored_lines(group)
            start = stored.index(lines[0])
            self.assertGreater(len(lines), 400)
            self.assertEqual(stored[start : start + len(lines)], lines)

    def test_a_seed_makes_the_same_lines_again_and_another_makes_others(self) -> None:
        for group in GROUPS:
            lines = new_lines(group, 7, 20, wide=False)
            self.assertEqual(lines, new_lines(group, 7, 20, wide=False))
            self.assertNotEqual(lines, new_lines(group, 8, 20, wide=False))

    def test_layers_of_runs_show_the_rows_that_they_are_made_of(self) -> None:
        rows = [7, 7, None, 3, 3, 3, 9]
        for seed, layers in enumerate([0, 1, 2] * 50):
            writer = Writer(seed)
            layered(writer, "a", Type("u8", True), rows, partial(writer.random.randint, 0, 9), layers)
            self.assertEqual(sum(" / w" in line for line in writer.lines), layers + 1)
            self.assertEqual(list(completed([*writer.lines, "a rows"]))[-1], f"a rows => {shown(rows)}")

    def test_wide_columns_have_hundreds_of_rows(self) -> None:
        longest = max(len(line) for line in new_lines("rows", 7, 40, wide=True))
        self.assertGreater(longest, max(len(line) for line in new_lines("rows", 7, 40, wide=False)))


class Questions(unittest.TestCase):
    def test_a_question_gets_its_answer(self) -> None:
        lines = ["a = flat u8? 100 7 null", "b = constant u8 3 3", "c = a * b", "c = a + b", "c form", "c equals a"]
        form = "c form => runs u8 0 3 1 2 3 { flat u8? bits 103 10 null }"
        expected = [*lines[:2], "c = a * b => refused 14 0", "c = a + b", form, "c equals a => false"]
        self.assertEqual(list(completed(lines)), expected)

    def test_another_answer_is_named(self) -> None:
        lines = ["d = flat decimal(5,2) 150 1225", "d sum_decimals => 1376", "d probe 0 => 150"]
        agree, differ, unknown = checked(lines)
        self.assertEqual((agree, unknown), (1, 1))
        self.assertEqual(differ, ["line 2: d sum_decimals => 1376, and not 1375"])

    def test_what_an_unknown_line_changes_is_not_known(self) -> None:
        lines = ["a = flat u8 1 2", "a run slice 0 1 ; sum => ok ; 1", "a rows => 1", "refuse a rows => 1 none"]
        self.assertEqual(checked(lines), (1, [], 3))

    def test_floats_are_read_as_the_page_says(self) -> None:
        lines = ["v = floats f16? 1.5 null 65519 1e-7 nan", "v floats", "v = floats f64 +1.0 => bad line"]
        lines.append("v float_at 9")
        floats_line = "v floats => 1.5 null 65504.0 1.1920929e-7 0x7e00"
        self.assertEqual(list(completed(lines)), [lines[0], floats_line, lines[2], "v float_at 9 => refused 8 9 5"])

    def test_no_stored_line_is_answered_otherwise(self) -> None:
        stored = VECTORS.read_text(encoding="utf-8").split("\n")
        start = next(place for place, line in enumerate(stored) if line.startswith("# columns from the rows of others"))
        agree, differ, _ = checked(stored[start:])
        self.assertEqual(differ, [])
        self.assertGreater(agree, 19_000)


if __name__ == "__main__":
    unittest.main()
