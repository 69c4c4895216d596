#!/usr/bin/env python3
"""A second maker of what hourledger prints: tests/program/second.py WORDS.. < INPUT

It is written from document 01 and docs/PROGRAM.md, and not from the program: where the two differ, one of them is wrong.
Nothing here is quick: each step is taken as the papers say it."""
import calendar
import os
import re
import struct
import sys
from bisect import bisect_right
from datetime import date

USAGE = b"""hourledger [ranges] < FORM
hourledger day ZONE YEAR MONTH DAY < FORM
hourledger graph ZONE YEAR MONTH DAY [--svg] < FORM
hourledger query START END QUERY FILE_A FILE_B
hourledger make < LINES > FORM
hourledger --help
"""

LEAST, GREATEST = -(2**63), 2**63 - 1
PLACES = 512
LONGEST_FORM = 8 + 17 * PLACES
LONGEST_LINES = 1048576


class Refused(Exception):
    """A number of document 01's table."""


class Usage(Exception):
    """Words that are no command."""


class Said(Exception):
    """A line on standard error, and nothing on standard output."""


# Numbers


def number(word):
    """Decimal, with no sign but -, no leading zero and no -0."""
    return int(word) if re.fullmatch(rb"0|-?[1-9][0-9]*", word) else None


def key(word):
    """A number that is an i64."""
    n = number(word)
    return n if n is not None and LEAST <= n <= GREATEST else None


# Maps: lists of (start, end, value)


def well_formed(ranges):
    if len(ranges) > PLACES or any(start >= end for start, end, _ in ranges):
        return False
    for (_, end, value), (start, _, after) in zip(ranges, ranges[1:]):
        if end > start or (end == start and value == after):
            return False
    return True


def form(ranges):
    return b"RM01" + struct.pack("<I", len(ranges)) + b"".join(struct.pack("<qqB", *r) for r in ranges)


def read_form(content):
    """The map whose form these bytes are. None stands for a reading that failed."""
    if content is None or not 8 <= len(content) <= LONGEST_FORM or content[:4] != b"RM01":
        raise Refused(6)
    (count,) = struct.unpack("<I", content[4:8])
    if count > PLACES or len(content) != 8 + 17 * count:
        raise Refused(6)
    ranges = [struct.unpack("<qqB", content[8 + 17 * i : 25 + 17 * i]) for i in range(count)]
    if not well_formed(ranges):
        raise Refused(6)
    return ranges


def edited(ranges, start, end, value):
    """Every instant of start..end holds the value, or nothing where it is None, and no other instant changes."""
    if start >= end:
        raise Refused(1)
    parts = [(s, min(e, start), v) for s, e, v in ranges if s < start]
    parts += [] if value is None else [(start, end, value)]
    parts += [(max(s, end), e, v) for s, e, v in ranges if e > end]
    joined = []
    for part in parts:
        if joined and joined[-1][1] == part[0] and joined[-1][2] == part[2]:
            joined[-1] = (joined[-1][0], part[1], part[2])
        else:
            joined.append(part)
    if len(joined) > PLACES:
        raise Refused(2)
    return joined


# Days

OFFSETS = [-18000, -21600, -25200, -28800, -32400, -36000, -25200]
CHANGING = [True, True, True, True, True, False, False]


def sunday(year, month, which):
    """The first Sunday of a month is 1, the second 2."""
    first = 1 + (6 - date(year, month, 1).weekday()) % 7
    return date(year, month, first + 7 * (which - 1))


def midnight(zone, ordinal):
    """The key of a date's local midnight; 2100-01-01, which ends the last day, is in standard time."""
    day = date.fromordinal(ordinal)
    daylight = CHANGING[zone] and sunday(day.year, 3, 2) < day <= sunday(day.year, 11, 1)
    return (ordinal - date(1970, 1, 1).toordinal()) * 86400 - (OFFSETS[zone] + (3600 if daylight else 0))


def log_day(zone, year, month, day):
    if not (0 <= zone <= 6 and 2007 <= year <= 2099 and 1 <= month <= 12 and 1 <= day <= calendar.monthrange(year, month)[1]):
        raise Refused(8)
    ordinal = date(year, month, day).toordinal()
    return midnight(zone, ordinal), midnight(zone, ordinal + 1)


def hours_shown(length):
    """The hours of a day as the clock shows them."""
    return {
        82800: [0, 1] + list(range(3, 24)),
        86400: list(range(24)),
        90000: [0, 1, 1] + list(range(2, 24)),
    }[length]


NAMES = ["off duty", "sleeper berth", "driving", "on duty", "unrecorded"]


class Day:
    """A day, and for each of the five rows the parts of the day that are its."""

    def __init__(self, words, content):
        self.start, self.end = log_day(*words)
        met = [r for r in read_form(content) if r[0] < self.end and r[1] > self.start]
        if any(not 1 <= value <= 4 for _, _, value in met):
            raise Refused(10)
        self.length = self.end - self.start
        self.parts = [[] for _ in NAMES]
        at = self.start
        for start, end, value in met:
            start, end = max(start, self.start), min(end, self.end)
            if at < start:
                self.parts[4].append((at, start))
            self.parts[value - 1].append((start, end))
            at = end
        if at < self.end:
            self.parts[4].append((at, self.end))
        self.seconds = [sum(end - start for start, end in row) for row in self.parts]
        self.sum = sum(self.seconds)

    def marks(self, row):
        """Whether each quarter of an hour has a second of the row."""
        quarters = range(self.start, self.end, 900)
        return [any(s < quarter + 900 and e > quarter for s, e in self.parts[row]) for quarter in quarters]


def clock(seconds):
    return "%d:%02d:%02d" % (seconds // 3600, seconds // 60 % 60, seconds % 60)


def hours(seconds):
    """Hours with four decimals, the nearest: there is no tie, since 9 is odd."""
    n = (2 * 25 * seconds + 9) // 18
    return "%d.%04d" % (n // 10000, n % 10000)


def text(lines):
    return "".join(line + "\n" for line in lines).encode()


def report(day):
    yield "%-14s%11d" % ("start", day.start)
    yield "%-14s%11d" % ("end", day.end)
    for name, n in [("length", day.length), *zip(NAMES, day.seconds), ("sum", day.sum)]:
        yield "%-14s%11d s  %8s  %7s h" % (name, n, clock(n), hours(n))


def grid(day):
    yield " " * 14 + "".join("%-4d" % h for h in hours_shown(day.length))
    for row, name in enumerate(NAMES):
        marked, mark = day.marks(row), "?" if name == "unrecorded" else "#"
        shown = "".join(mark if marked[q] else ":" if q % 4 == 0 else "." for q in range(len(marked)))
        yield "%-14s%s  %8s" % (name, shown, clock(day.seconds[row]))
    yield "%-14s%s  %8s" % ("sum", " " * (day.length // 900), clock(day.sum))


def svg(day):
    quarters = day.length // 900
    width = 8 * quarters
    yield (
        f'<svg xmlns="http://www.w3.org/2000/svg" width="{width + 200}" height="180"'
        ' font-family="monospace" font-size="12">'
    )
    yield '<rect width="100%" height="100%" fill="white"/>'
    yield '<path stroke="silver" d="%s"/>' % "".join(f"M{112 + 32 * i} 32v120" for i in range(quarters // 4 + 1))
    yield '<path stroke="gray" d="%s"/>' % "".join(f"M112 {32 + 24 * j}h{width}" for j in range(6))
    for i, hour in enumerate(hours_shown(day.length)):
        yield f'<text x="{114 + 32 * i}" y="26">{hour}</text>'
    for j, name in enumerate(NAMES):
        colour = "red" if name == "unrecorded" else "navy"
        drawn = "".join(f"M{112 + 8 * q} {44 + 24 * j}h8" for q, marked in enumerate(day.marks(j)) if marked)
        yield f'<text x="6" y="{49 + 24 * j}">{name}</text>'
        yield f'<path stroke="{colour}" stroke-width="4" d="{drawn}"/>'
        yield f'<text x="{width + 192}" y="{49 + 24 * j}" text-anchor="end">{clock(day.seconds[j])}</text>'
    yield '<text x="6" y="169">sum</text>'
    yield f'<text x="{width + 192}" y="169" text-anchor="end">{clock(day.sum)}</text>'
    yield "</svg>"


# Queries


class Query:
    """A query as a function of what A and B hold at an instant."""

    def __init__(self, word):
        self.word, self.at, self.open = word, 0, 0
        if not 1 <= len(word) <= 64:
            raise Refused(7)
        self.holds = self.either()
        if self.at != len(word):
            raise Refused(7)

    def next(self):
        return self.word[self.at : self.at + 1]

    def takes(self, byte):
        if self.next() != byte:
            return False
        self.at += 1
        return True

    def opens(self):
        self.open += 1
        if self.open > 16:
            raise Refused(7)

    def either(self):
        parts = [self.both()]
        while self.takes(b"|"):
            parts.append(self.both())
        return lambda values: any(part(values) for part in parts)

    def both(self):
        parts = [self.operand()]
        while self.takes(b"&"):
            parts.append(self.operand())
        return lambda values: all(part(values) for part in parts)

    def operand(self):
        if self.takes(b"!"):
            self.opens()
            inner = self.operand()
            self.open -= 1
            return lambda values: not inner(values)
        if self.takes(b"("):
            self.opens()
            inner = self.either()
            if not self.takes(b")"):
                raise Refused(7)
            self.open -= 1
            return inner
        if self.next() not in (b"A", b"B") or not re.fullmatch(rb"[0-9]", self.word[self.at + 1 : self.at + 2]):
            raise Refused(7)
        which, value = b"AB".index(self.next()), int(self.word[self.at + 1 : self.at + 2])
        self.at += 2
        return lambda values: values[which] == value


def value_at(ranges, starts, instant):
    place = bisect_right(starts, instant) - 1
    return ranges[place][2] if place >= 0 and instant < ranges[place][1] else None


def found(start, end, maps, holds):
    """The true instants of the window, as maximal ranges."""
    cuts = {start} | {k for ranges in maps for s, e, _ in ranges for k in (s, e) if start < k < end}
    cuts = sorted(cuts) + [end]
    starts = [[r[0] for r in ranges] for ranges in maps]
    out = []
    for low, high in zip(cuts, cuts[1:]):
        if holds([value_at(ranges, s, low) for ranges, s in zip(maps, starts)]):
            if out and out[-1][1] == low:
                out[-1][1] = high
            else:
                out.append([low, high])
    return out


# Lines


def edit_of(line):
    """(start, end, value), with None for remove; None where the line is no edit."""
    words = line.split(b" ")
    if len(words) != {b"insert": 4, b"remove": 3}.get(words[0]):
        return None
    start, end = key(words[1]), key(words[2])
    value = number(words[3]) if len(words) == 4 else None
    if start is None or end is None or (len(words) == 4 and (value is None or not 0 <= value <= 255)):
        return None
    return start, end, value


def made(content):
    if len(content) > LONGEST_LINES:
        raise Said(b"too long\n")
    ranges = []
    lines = content.split(b"\n")
    if lines[-1] == b"":
        lines.pop()
    for i, line in enumerate(lines, 1):
        edit = edit_of(line)
        if edit is None:
            raise Said(b"line %d: not an edit\n" % i)
        try:
            ranges = edited(ranges, *edit)
        except Refused as refused:
            raise Said(b"line %d: %d\n" % (i, refused.args[0]))
    return form(ranges)


# The program


def command(words, content, file):
    """What stands on standard output. content() is standard input, file(name) what a file holds."""
    if words == [b"--help"]:
        return USAGE
    if words in ([], [b"ranges"]):
        return text("%d..%d>%d" % r for r in read_form(content()))
    if words == [b"make"]:
        return made(content())
    drawn = len(words) == 6 and words[0] == b"graph" and words[5] == b"--svg"
    if words[0] in (b"day", b"graph") and (len(words) == 5 or drawn):
        numbers = [number(word) for word in words[1:5]]
        if None in numbers:
            raise Usage
        day = Day(numbers, content())
        return text(report(day) if words[0] == b"day" else svg(day) if drawn else grid(day))
    if words[0] == b"query" and len(words) == 6:
        start, end = key(words[1]), key(words[2])
        if start is None or end is None:
            raise Usage
        if start >= end:
            raise Refused(1)
        maps = [read_form(file(name)) for name in words[4:]]
        return text("%d..%d" % (s, e) for s, e in found(start, end, maps, Query(words[3]).holds))
    raise Usage


def answer(words, content, file):
    """What stands on standard output and on standard error."""
    try:
        return command(words, content, file), b""
    except Usage:
        return b"", USAGE
    except Said as said:
        return b"", said.args[0]
    except Refused as refused:
        return b"%d\n" % refused.args[0], b""


def contents(name):
    """What a file holds. None where it can be opened and not read."""
    try:
        handle = os.open(name, os.O_RDONLY)
    except OSError:
        raise Said(b"cannot open " + name + b"\n")
    return whole(handle)


def whole(handle):
    out = b""
    try:
        while piece := os.read(handle, 65536):
            out += piece
    except OSError:
        return None
    return out


if __name__ == "__main__":
    out, err = answer([os.fsencode(word) for word in sys.argv[1:]], lambda: whole(0), contents)
    sys.stdout.buffer.write(out)
    sys.stderr.buffer.write(err)
