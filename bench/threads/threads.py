"""Encodes, decodes, sums and filters a column on several threads, each of which works a window of its own. Prints for
each operation and number of threads the least time of some turns; the status is 1 where an answer differs from that of
NumPy over the rows.

    python3 threads.py ROWS TURNS THREADS..
"""
import sys
import time
from concurrent.futures import ThreadPoolExecutor
from pathlib import Path

import numpy

sys.path.insert(0, str(Path(__file__).resolve().parents[2] / "python"))
from hivevigil import Column

THRESHOLD = 40


def rows_of(count):
    """Stretches of 29 equal rows."""
    return numpy.repeat(numpy.arange(count // 29 + 1) * 37 % 101, 29)[:count]


def filtered(part):
    return part.filter(part.ge(THRESHOLD))


def found(parts):
    return sum(part.shape[0] for part in parts), sum(part.sum() for part in parts)


def least_time(parts, call, turns):
    """What a call makes of each part, each part on a thread of its own, and the least time that it took."""
    least = float("inf")
    with ThreadPoolExecutor(len(parts)) as pool:
        for _ in range(turns):
            made = None  # what the turn before made is given back
            begin = time.perf_counter()
            made = list(pool.map(call, parts))
            least = min(least, time.perf_counter() - begin)
    return made, least


def main(count, turns, threads):
    rows = rows_of(count)
    kept = rows[rows >= THRESHOLD]
    all_of_it, some = (len(rows), int(rows.sum())), (len(kept), int(kept.sum()))
    flat = Column.of(rows)
    del rows, kept
    runs = flat.encode()
    operations = (
        ("encode", flat, "rows", Column.encode, found, all_of_it),
        ("decode", runs, "runs", Column.decode, found, all_of_it),
        ("sum", runs, "runs", Column.sum, sum, all_of_it[1]),
        ("sum flat", flat, "rows", Column.sum, sum, all_of_it[1]),
        ("filter", runs, "runs", filtered, found, some), ("filter flat", flat, "rows", filtered, found, some),
    )
    same = True
    for name, column, by, call, joined, due in operations:
        for number in threads:
            made, least = least_time(column.split(number, by=by), call, turns)
            print(f"Python,{name},{number},{least * 1e6:.0f}", flush=True)
            same = same and joined(made) == due
    return 0 if same else 1


if __name__ == "__main__":
    numbers = [int(word) for word in sys.argv[1:]]
    if len(numbers) < 3:
        sys.exit(__doc__)
    sys.exit(main(numbers[0], numbers[1], numbers[2:]))
