"""Tests of gate_times.py."""

import unittest

from gate_times import TICKS, Costs, checks_of, clock_on, costs_of, libraries, seconds_of, table

LOW = "/opt/kit/bin/rattle build --crate-name low src/lib.rt"
HIGH = "/opt/kit/bin/rattle check --crate-name high src/lib.rt --test"


class GateTimes(unittest.TestCase):
    def test_seconds_are_those_of_the_process_and_of_the_system(self) -> None:
        fields = ["S"] + ["0"] * 10 + [str(3 * TICKS), str(2 * TICKS)] + ["0"] * 5
        self.assertEqual(seconds_of(f"7 (a name (with) braces) {' '.join(fields)}"), 5)

    def test_a_process_is_told_by_its_command_and_its_folder(self) -> None:
        seen = {
            (1, f"/tree/crates/low {LOW}"): 10.0,
            (2, f"/tree/crates/high {HIGH}"): 20.0,
            (3, f"/tmp/rt-edit-9-x {LOW.replace('build', 'check')}"): 3.0,
            (4, f"/tmp/rt-edit-9-y {LOW.replace('build', 'check')}"): 5.0,
        }
        self.assertEqual(dict(costs_of(seen)), {"low": Costs([10.0], [], [3.0, 5.0]), "high": Costs([], [20.0], [])})

    def test_the_dearest_crate_stands_first(self) -> None:
        lines = table({"low": Costs([10.0], [], [3.0, 5.0]), "high": Costs([], [20.0], [])}, 60, "2026-01-02").split("\n")
        self.assertTrue(lines[0].startswith("2026-01-02, ") and lines[0].endswith("1 processor minutes, 1 minutes by the clock."))
        self.assertEqual(lines[4:], ["| `high` | 0 | 20 | none |  |", "| `low` | 10 | 0 | 2 | 4 |"])

    def test_libraries_are_those_of_the_repository(self) -> None:
        text = "# a line: of words\nlow: thiserror\nffi staticlib: high low\nhigh: low bytes\n"
        self.assertEqual(libraries(text), {"low": [], "ffi": ["high", "low"], "high": ["low"]})

    def test_a_check_waits_for_the_libraries_below_it(self) -> None:
        used = {"low": [], "side": [], "high": ["low"]}
        costs = {"low": Costs([10.0], [], [5.0]), "side": Costs([8.0]), "high": Costs([20.0, 12.0])}
        checks = checks_of(costs, used)
        self.assertEqual(clock_on(1, checks), 55)
        # one does low and high, the other side and, from 10 on, the tests of high and the wrong body
        self.assertEqual(clock_on(2, checks), 30)
        self.assertEqual(clock_on(9, checks), 30)


if __name__ == "__main__":
    unittest.main()
