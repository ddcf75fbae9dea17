"""The sentence of each refusal of the library, by its number; `{0}`, `{1}` and `{2}` are its fields."""

# made by tools/declarations.py from hivevigil_errors.h
SENTENCES: dict[int, str] = {
    1: "ends of runs are a flat column of an unsigned type without null",
    2: "there are {0} ends and {1} values: each run has one of both",
    3: "there is no run, yet a window of {1} rows from row {0} on",
    4: "the end of run {0} is not above the end before it",
    5: "offset and length, or all rows together, are 2**64 or more",
    6: "the first run ends before row {0}, below the offset {1}",
    7: "the last run ends before row {0}, the window before row {1}",
    8: "row {0} is not among {1} rows",
    9: "rows {0} to {1} are not among {2} rows",
    10: "a mask of {0} rows over a column of {1} rows",
    11: "a length of {0} next to one of {1}",
    12: "the types do not match",
    13: "the call does not serve columns of this type or form",
    14: "a row does not fit the type",
    15: "a row is null, and the type has no null",
    16: "nulls are filled with a value, and null is not one",
    17: "the bytes are not a metadata record, or not a column",
    18: "{0} is not the number of a type of ends",
    19: "the record says {0} runs, and there are {1}",
    20: "only integers are encoded by this call",
    21: "a request for memory was refused",
    22: "there is no column: it was never made, freed, moved away, or lent twice to one call",
    23: "the number is not that of a type or of an operator",
}
# end of what tools/declarations.py makes
