"""The questions to columns in memory: hivevigil, NumPy and pandas.

    python3 arrays.py TOOL TURNS FOLDER..       as columns.py starts it
"""
import bisect

import numpy

from asked import LIMIT, Tool, main


def pairs(keys, answers):
    """Keys and their answers in turn."""
    return numpy.column_stack((keys, answers)).ravel()


class Hivevigil(Tool):
    """Columns in runs. Running totals are those at the ends of runs, from which that of any row follows."""

    @staticmethod
    def version():
        import hivevigil

        return f"hivevigil {hivevigil.__version__}"

    def __init__(self, rows):
        from hivevigil import Column

        self.level, self.inflow, self.day = (
            Column.of(each).encode() for each in (rows.level, rows.inflow, rows.day)
        )

    def size(self):
        return self.level.nbytes + self.inflow.nbytes + self.day.nbytes

    def add(self):
        return [(self.level + self.inflow).sum()]

    def compare(self):
        mask = self.level < self.inflow
        return [len(mask[mask])]

    def filter(self):
        kept = self.level[self.inflow < LIMIT]
        return [len(kept), kept.sum()]

    def group(self):
        days, sums = self.level.group_by(self.day).sum()
        return pairs(days.to_numpy(), sums.to_numpy())

    def counts(self):
        values, counts = self.level.sort().value_counts()
        return pairs(values.to_numpy(), counts.to_numpy())

    def sort(self):
        return self.level.sort().take(self.places).to_list()

    def running(self):
        ends, totals = self.level.running_totals()
        runs = [bisect.bisect_right(ends, place) for place in self.places]
        return [
            totals[run] - self.level[place] * (ends[run] - 1 - place)
            for run, place in zip(runs, self.places)
        ]


class NumPy(Tool):
    @staticmethod
    def version():
        return f"NumPy {numpy.__version__}"

    def __init__(self, rows):
        self.level, self.inflow, self.day = rows.level.copy(), rows.inflow.copy(), rows.day.copy()

    def size(self):
        return self.level.nbytes + self.inflow.nbytes + self.day.nbytes

    def add(self):
        return [(self.level + self.inflow).sum()]

    def compare(self):
        return [numpy.count_nonzero(self.level < self.inflow)]

    def filter(self):
        kept = self.level[self.inflow < LIMIT]
        return [len(kept), kept.sum()]

    def group(self):
        starts = numpy.flatnonzero(numpy.diff(self.day, prepend=self.day[0] - 1))
        return pairs(self.day[starts], numpy.add.reduceat(self.level, starts))

    def counts(self):
        return pairs(*numpy.unique(self.level, return_counts=True))

    def sort(self):
        return numpy.sort(self.level)[self.places]

    def running(self):
        return numpy.cumsum(self.level)[self.places]


class Pandas(Tool):
    @staticmethod
    def version():
        import pandas

        return f"pandas {pandas.__version__}"

    def __init__(self, rows):
        import pandas

        self.frame = pandas.DataFrame({"level": rows.level, "inflow": rows.inflow, "day": rows.day})

    def size(self):
        return int(self.frame.memory_usage(index=False).sum())

    def add(self):
        return [(self.frame["level"] + self.frame["inflow"]).sum()]

    def compare(self):
        return [(self.frame["level"] < self.frame["inflow"]).sum()]

    def filter(self):
        kept = self.frame["level"][self.frame["inflow"] < LIMIT]
        return [len(kept), kept.sum()]

    def group(self):
        sums = self.frame.groupby("day")["level"].sum()
        return pairs(sums.index, sums)

    def counts(self):
        counts = self.frame["level"].value_counts().sort_index()
        return pairs(counts.index, counts)

    def sort(self):
        return self.frame["level"].sort_values().iloc[self.places]

    def running(self):
        return self.frame["level"].cumsum().iloc[self.places]


if __name__ == "__main__":
    main({"hivevigil": Hivevigil, "NumPy": NumPy, "pandas": Pandas})
