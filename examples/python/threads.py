"""One column that several threads of this process work at once: its windows share the buffers of the column, calls over
many rows release the interpreter's lock, and what is known of the windows is joined. Ends with 1 where the answers
differ from those of one thread over the whole column.

    python3 examples/python/threads.py [--rows N] [--threads N]
"""
import argparse
import sys
import time
from array import array
from concurrent.futures import ThreadPoolExecutor
from pathlib import Path

sys.path.insert(0, str(Path(__file__).resolve().parents[2] / "python"))
from hivevigil import Column
from hivevigil.chunks import Partial, joined

THRESHOLD = 40


def rows_of(count):
    """Stretches of 29 equal rows."""
    return array("q", (row // 29 * 37 % 101 for row in range(count)))


def asked(column):
    """What is known of the rows of a column from the threshold on."""
    return Partial.of(column.filter(column.ge(THRESHOLD)))


def timed(call):
    begin = time.perf_counter()
    answer = call()
    return answer, time.perf_counter() - begin


def main():
    parser = argparse.ArgumentParser(description="Works one column on several threads, and joins the answers.")
    parser.add_argument("--rows", type=int, default=5_000_000)
    parser.add_argument("--threads", type=int, default=2)
    chosen = parser.parse_args()
    if min(chosen.rows, chosen.threads) < 1:
        parser.error("--rows and --threads take a number from 1 on")
    column = Column.from_buffer(rows_of(chosen.rows))
    due, alone = timed(lambda: asked(column))
    with ThreadPoolExecutor(chosen.threads) as pool:
        found, together = timed(lambda: joined(pool.map(asked, column.split(chosen.threads))))
    print(f"{chosen.rows:,} rows, sum {found.sum()}, {found.runs:,} runs: "
          f"one thread {alone * 1000:.0f} ms, {chosen.threads} threads {together * 1000:.0f} ms")
    sys.exit(0 if found == due else 1)


if __name__ == "__main__":
    main()
