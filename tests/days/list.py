#!/usr/bin/env python3
"""Prints every day of 2007 to 2099 in the seven zones, as the tz database has it: tests/days/list.py > tests/days/list

A line is ZONE FIRST LAST START LENGTH: the days of the dates FIRST to LAST follow each other from the key START on, each LENGTH seconds long.
Each date's start and end are asked of zoneinfo one by one; lines only join what is the same.
tests/program/compare.py asks zoneinfo by the same functions.
Status: 0, or 3 where Python's zoneinfo or a zone is not at hand."""
import sys
from datetime import date, datetime, timedelta

ZONES = [
    "America/New_York",
    "America/Chicago",
    "America/Denver",
    "America/Los_Angeles",
    "America/Anchorage",
    "Pacific/Honolulu",
    "America/Phoenix",
]
FIRST, LAST = date(2007, 1, 1), date(2099, 12, 31)


def zones():
    """The seven zones of the tz database. What is not at hand is an exception."""
    from zoneinfo import ZoneInfo

    return [ZoneInfo(name) for name in ZONES]


def midnights(day, zone):
    """The start and the end of a date: its midnight and that of the next."""
    return [int(datetime(d.year, d.month, d.day, tzinfo=zone).timestamp()) for d in (day, day + timedelta(days=1))]


def days(zone):
    """Each date with its start and its end."""
    day = FIRST
    while day <= LAST:
        yield day, *midnights(day, zone)
        day += timedelta(days=1)


def runs(zone):
    """Consecutive days of one length, as first date, last date, start, length."""
    run = None
    for day, start, end in days(zone):
        if run and run[3] == end - start and expected == start:
            run[1] = day
        else:
            if run:
                yield run
            run = [day, day, start, end - start]
        expected = end
    yield run


def main():
    try:
        found = zones()
    except Exception as error:
        print("list.py:", error, file=sys.stderr)
        return 3
    for number, zone in enumerate(found):
        for first, last, start, length in runs(zone):
            print(number, first, last, start, length)
    return 0


if __name__ == "__main__":
    sys.exit(main())
