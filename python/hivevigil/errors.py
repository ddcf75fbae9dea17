"""Refusals of the library as exceptions, one class for each number of hivevigil.h and hivevigil_arrow.h.

Each is a HivevigilError, and the exception of Python that a caller expects: a row that is not there is an IndexError,
a column that was freed a ValueError, a refused request for memory a MemoryError.
"""
from __future__ import annotations

from collections.abc import Iterable
from typing import Any, ClassVar

from ._sentences import SENTENCES

_LETTERS, _BITS = 60, 1024  # of a value in a sentence, and of a number that is written out


def written(number: int) -> str:
    """A number in decimal, or how wide it is, where that is past what Python writes."""
    return f"an integer of {number.bit_length()} bits" if number.bit_length() > _BITS else str(number)


def in_words(value: Any) -> str:
    """A value as Python writes it, or the front of what takes more than a few words; of an object its class."""
    text = (written(value) if type(value) is int else repr(value)).partition("\n")[0]
    if text.startswith("<") and " at 0x" in text:
        return f"an object of class {type(value).__name__}"
    return text if len(text) <= _LETTERS else text[: _LETTERS - 3] + "..."


class HivevigilError(Exception):
    """A refusal: its `number`, its three `fields` (0 where the refusal has fewer), and a sentence by `str`."""

    number: ClassVar[int] = 0
    sentence: ClassVar[str] = "the call was refused"
    call: str = ""  # which one was refused, and "i64 (flat)" for each column that was passed
    columns: tuple[str, ...] = ()
    said: str = ""  # the sentence, where more is known than the number and the fields: a row, a value, a type

    def __init_subclass__(cls) -> None:
        """Gives the class the sentence of its number, unless it has one of its own."""
        cls.sentence = vars(cls).get("sentence", SENTENCES.get(cls.number, cls.sentence))

    def __init__(self, *fields: int) -> None:
        super().__init__(*fields)
        self.fields: tuple[int, ...] = (*fields, 0, 0, 0)[:3]

    def about(self, call: str, *columns: Any) -> HivevigilError:
        """The same refusal, which names the call and the types and forms of its columns."""
        self.call, self.columns = call, tuple(f"{column.type} ({column.form})" for column in columns)
        return self

    def saying(self, sentence: str) -> HivevigilError:
        """The same refusal with this sentence."""
        self.said = sentence
        return self

    def __str__(self) -> str:
        return self.said or self._in_words()

    def _in_words(self) -> str:
        return self.sentence.format(*map(written, self.fields))


class EndsNotUnsigned(HivevigilError, TypeError):
    number = 1


class LengthsDiffer(HivevigilError, ValueError):
    number = 2


class NoRunsWindow(HivevigilError, ValueError):
    number = 3


class EndsNotStrict(HivevigilError, ValueError):
    number = 4


class WindowOverflow(HivevigilError, OverflowError):
    number = 5


class FirstEndBelowOffset(HivevigilError, ValueError):
    number = 6


class LastEndBelowWindow(HivevigilError, ValueError):
    number = 7


class OutOfBounds(HivevigilError, IndexError):
    number = 8

    def _in_words(self) -> str:
        if self.fields[0] == 2**64 - 1:
            return f"a row that is negative, or past 2**64 - 2, is not among {self.fields[1]} rows"
        return super()._in_words()


class BadRange(HivevigilError, IndexError):
    number = 9


class MaskLength(HivevigilError, ValueError):
    number = 10


class ColumnLength(HivevigilError, ValueError):
    number, sentence = 11, "lengths of {0} and {1}, which have to be the same"


class TypeMismatch(HivevigilError, TypeError):
    number = 12

    def _in_words(self) -> str:
        if len(self.columns) < 2:
            return super()._in_words()
        return f"{self.call}: columns of {' and of '.join(self.columns)} do not go together"


class Unsupported(HivevigilError, TypeError):
    number = 13
    # the calls that are refused so only for the levels of runs, and how many there may be
    most_levels = {"from_runs": 64, "from_record": 64, "to_bytes": 16}

    def _in_words(self) -> str:
        if not self.columns:
            return super()._in_words()
        most = self.most_levels.get(self.call)
        limit = f" (at most {most} levels of runs)" if most else ""
        return f"{self.call}{limit} does not serve columns of {' and of '.join(self.columns)}"


class CastOutOfRange(HivevigilError, OverflowError):
    number = 14


class NullNotAllowed(HivevigilError, ValueError):
    number = 15


class NullFill(HivevigilError, ValueError):
    number = 16


class BadMetadata(HivevigilError, ValueError):
    number = 17

    def _in_words(self) -> str:
        what = {"from_bytes": "not what to_bytes writes", "from_record": "not a metadata record"}.get(self.call)
        return f"{self.call}: the bytes are {what}" if what else super()._in_words()


class EndsTypeNumber(HivevigilError, ValueError):
    number = 18


class RunCount(HivevigilError, ValueError):
    number = 19


class OnlyPrimitive(HivevigilError, TypeError):
    number, sentence = 20, "encode() serves only integers; to_runs() serves every type but lists"


class OutOfMemory(HivevigilError, MemoryError):
    number = 21


class NoColumn(HivevigilError, ValueError):
    number, sentence = 22, "the column was freed"


class BadNumber(HivevigilError, ValueError):
    number = 23


class ArrowInvalid(HivevigilError, ValueError):
    number, sentence = 101, "the Arrow array is not valid: {0}"
    reasons = (
        "it is not an array of its format",
        "a struct is missing or was released",
        "a pointer that the format needs is null",
        "it does not have the buffers or children of its format",
        "a length or an offset is negative, or past what there is",
        "null_count is not the number of nulls",
        "an array of runs has a bitmap, or a run end is null",
        "only one of schema and array has a dictionary, or the codes are not integers",
        "the view of row {0} is not within its buffers, or does not begin as they do",
    )

    def _in_words(self) -> str:
        reason = self.reasons[self.fields[0] if self.fields[0] < len(self.reasons) else 0]
        return self.sentence.format(reason.format(self.fields[1]))


class ArrowEndsTooLarge(HivevigilError, OverflowError):
    number, sentence = 102, "a run ends before row {0}, past the greatest end of its width, {1}"


class ArrowStreamFailed(HivevigilError, OSError):
    """The stream's own failure; `words` are what it says about it."""

    number, sentence = 103, "the Arrow stream failed with {0}"

    def __init__(self, *fields: int, words: str = "") -> None:
        super().__init__(*fields)
        self.words = words

    def _in_words(self) -> str:
        return f"{super()._in_words()}: {self.words}" if self.words else super()._in_words()


class OverLimit(HivevigilError, ValueError):
    """A file whose columns kept as differences would take more bytes in memory than the caller lets them."""

    number = 204  # of hivevigil_table_errors.h
    sentence = "the columns kept as differences take {0} bytes in memory, above the limit of {1}"


CLASSES: dict[int, type[HivevigilError]] = {kind.number: kind for kind in HivevigilError.__subclasses__()}


class UnknownRefusal(HivevigilError):
    """A number that this package does not know: the shared object is of another version."""

    sentence = "refusal {0} with fields {1}, {2}"


def refusal(number: int, *fields: int) -> HivevigilError:
    """The exception for a number and the fields that the library wrote."""
    kind = CLASSES.get(number)
    return kind(*fields) if kind else UnknownRefusal(number, *fields[:2])


class NoName(KeyError):
    """No column of a table has a name."""

    def __init__(self, name: str, names: Iterable[str]) -> None:
        super().__init__(name)
        self.names = list(names)

    def __str__(self) -> str:
        return f"no column has the name {in_words(self.args[0])}: {self._there()}"

    def _there(self) -> str:
        if not self.names:
            return "the table has none"
        more = f" and {len(self.names) - 8} more" if len(self.names) > 8 else ""
        return f"the names are {', '.join(map(in_words, self.names[:8]))}{more}"

    def __reduce__(self) -> Any:
        return type(self), (self.args[0], self.names)
