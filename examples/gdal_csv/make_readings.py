"""Writes a CSV of readings of stations by the minute: long runs and short ones, empty fields, commas, and letters that
are not ASCII. The same rows for the same number.

    python3 make_readings.py ROWS > readings.csv
"""
import csv
import random
import sys
from datetime import date, timedelta

STATIONS = ("Aarhus", "Bræstrup", "Çanakkale", "Dakar", "東京", "Oslo", "")
STATUS = ("", 0, 0, 0, 1, 2, 200, 404)
NOTES = ("", "", "ok", "a note, with a comma", 'a "quoted" note', "a long note: " + "again and " * 6 + "again")


def rows_of(count):
    chance = random.Random(7)
    status, level, note = 0, 0, ""
    for row in range(count):
        if row % 37 == 0:
            status = chance.choice(STATUS)
        if row % 11 == 0:
            level = chance.randint(-(10**12), 10**12)
        if row % 501 == 0:
            note = chance.choice(NOTES)
        station = STATIONS[row * len(STATIONS) // count]
        day = date(2024, 1, 1) + timedelta(days=row * 366 // count)
        yield station, day, status, level if row % 5 else "", row // 60, note


def main():
    writer = csv.writer(sys.stdout, lineterminator="\n")
    writer.writerow(("station", "day", "status", "level", "minute", "note"))
    writer.writerows(rows_of(int(sys.argv[1])))


if __name__ == "__main__":
    main()
