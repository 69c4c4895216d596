#!/usr/bin/env python3
"""Runs the program beside second.py on random cases: tests/program/compare.py PROGRAM COUNT [SEED]

The cases are the same for the same seed. Where Python's zoneinfo is at hand, second.py's days and the hours on their clock are held to it.
Status: 0 all the same, 1 not so."""
import os
import random
import struct
import subprocess
import sys
import tempfile
from collections import Counter
from datetime import date, datetime, timedelta

sys.dont_write_bytecode = True  # nothing is left beside the sources
sys.path.append(os.path.join(os.path.dirname(os.path.abspath(__file__)), "../days"))
from list import FIRST, LAST, midnights, zones
from second import GREATEST, LEAST, answer, contents, form, hours_shown, log_day, sunday


def by_zoneinfo():
    """Says how many days of second.py are those of the tz database, or that it is not at hand."""
    try:
        found = zones()
    except Exception as error:
        print("compare.py: days are not held to the tz database:", error)
        return True
    days = [sunday(year, month, which) for year in range(2007, 2100) for month, which in ((3, 2), (11, 1))]
    days += [day + timedelta(days=n) for day in days for n in (-1, 1)] + [FIRST, LAST]
    for day in days:
        for number, zone in enumerate(found):
            start, end = log_day(number, day.year, day.month, day.day)
            clock = [datetime.fromtimestamp(k, zone).hour for k in range(start, end, 3600)]
            if midnights(day, zone) != [start, end] or clock != hours_shown(end - start):
                print("compare.py: second.py is not the tz database:", number, day)
                return False
    print(f"{len(days) * len(found)} days of the second maker are as the tz database has them")
    return True


class Cases:
    """Random words and inputs."""

    def __init__(self, seed):
        self.random = random.Random(seed)

    def ranges(self, count, near, width, values):
        """Up to count ranges whose keys are about near, by steps of about width; some of them touch."""
        r, out, at = self.random, [], near
        for _ in range(count):
            at += r.choice([0, 0, r.randint(1, 2 * width)])
            end = at + r.choice([1, r.randint(1, width), 900 * r.randint(1, 1 + width // 900)])
            value = r.choice(values)
            if not LEAST <= at < end <= GREATEST:
                break
            if not (out and out[-1][1] == at and out[-1][2] == value):
                out.append((at, end, value))
                at = end
        return out

    def spoilt(self, content):
        """Bytes that are mostly no form."""
        r = self.random
        kind = r.randrange(6)
        if kind == 0:
            return content[: r.randrange(len(content) + 1)]
        if kind == 1:
            return content + bytes(r.randrange(256) for _ in range(r.choice([1, 17, 9000])))
        if kind == 2:
            return content[:4] + struct.pack("<I", r.choice([0, 1, 512, 513, 2**32 - 1])) + content[8:]
        if kind == 3 and len(content) >= 42:
            i = r.randrange((len(content) - 8) // 17 - 1)
            parts = [content[8 + 17 * k : 25 + 17 * k] for k in range((len(content) - 8) // 17)]
            parts[i], parts[i + 1] = parts[i + 1], parts[i]
            return content[:8] + b"".join(parts)
        at = r.randrange(len(content))
        return content[:at] + bytes([content[at] ^ (1 << r.randrange(8))]) + content[at + 1 :]

    def form(self, near, width, values):
        r = self.random
        count = r.choice([0, 1, 3, r.randint(0, 12), r.randint(0, 60), 512])
        content = form(self.ranges(count, near, width, values))
        return self.spoilt(content) if r.random() < 0.1 else content

    def keys(self):
        """A key to put ranges about, and a width."""
        r = self.random
        width = r.choice([1, 5, 1000, 10**6, 10**15])
        return r.choice([0, -3, r.randint(-(10**9), 10**9), LEAST, GREATEST - r.randint(0, 6 * width)]), width

    def date(self):
        """Zone, year, month and day; some of them are none."""
        r = self.random
        if r.random() < 0.12:
            odd = [0, 1, 2, 6, 7, 12, 13, 28, 29, 30, 31, 32, -1, 2006, 2007, 2024, 2099, 2100, 256, 2**31, 2**32, 2**63, 2**64, 2**70]
            usual = [r.randint(0, 6), r.randint(2007, 2099), r.randint(1, 12), r.randint(1, 31)]
            return [r.choice(odd) if r.random() < 0.3 else n for n in usual]
        year = r.randint(2007, 2099)
        day = r.choice(
            [
                sunday(year, 3, 2) + timedelta(days=r.choice([-1, 0, 0, 0, 1])),
                sunday(year, 11, 1) + timedelta(days=r.choice([-1, 0, 0, 0, 1])),
                FIRST + timedelta(days=r.randrange((LAST - FIRST).days + 1)),
                r.choice([FIRST, LAST, date(year, 12, 31), date(year, 1, 1), date(year, 2, 28), date(year, 3, 1)]),
            ]
        )
        return [r.randint(0, 6), day.year, day.month, day.day]

    def day(self):
        r, words = self.random, self.date()
        try:
            start = log_day(*words)[0]
        except Exception:
            start = 0
        near = start + r.choice([0, -900, r.randint(-90000, 90000)])
        values = r.choice([[1, 2, 3, 4], [1, 3], [1, 2, 3, 4], [3], [0, 1, 2, 3, 4, 5, 255]])
        return [str(n) for n in words], self.form(near, r.choice([1, 60, 900, 3600, 20000]), values)

    def query(self, depth, spare):
        """A query of at most about spare bytes, with at most depth marks open."""
        r = self.random
        kind = r.random()
        if spare < 6 or depth == 0 or kind < 0.25:
            return r.choice("AB") + r.choice("0123456789" if r.random() < 0.2 else "13")
        if kind < 0.45:
            return "!" + self.query(depth - 1, spare - 1)
        if kind < 0.65:
            return "(" + self.query(depth - 1, spare - 2) + ")"
        half = r.randint(2, spare - 3)
        return self.query(depth, half) + r.choice("&|") + self.query(depth, spare - half - 1)

    def query_word(self):
        r = self.random
        word = self.query(r.choice([3, 16, 18]), r.choice([8, 30, 64, 70]))
        if r.random() < 0.15:
            word = r.choice("!(") * r.randint(10, 17) + word
        if r.random() < 0.15:
            at = r.randrange(len(word) + 1)
            word = word[:at] + r.choice(["", "A", "B1", "!", "(", ")", "&", "|", "3", " ", "C"]) + word[at + r.randrange(2) :]
        return word

    def edits(self):
        r = self.random
        near, width = self.keys()
        low, high = max(LEAST, near - 4 * width), min(GREATEST, near + 40 * width)
        lines = []
        for _ in range(r.choice([0, 1, 5, 40, 700])):
            start = r.randint(low, high)
            end = r.choice([start + 1, start + r.randint(1, width), r.randint(low, high)])
            end = min(GREATEST, end)
            if start >= end and r.random() < 0.97:
                start, end = end, start
            if start == end:
                continue
            line = f"remove {start} {end}" if r.random() < 0.3 else f"insert {start} {end} {r.choice([0, 1, 2, 3, 4, 255])}"
            if r.random() < 0.01:
                line = r.choice([line + " ", line.replace(" ", "  ", 1), line.upper(), "", line + "0", line[:-1], line.replace(" ", " 0", 1)])
            lines.append(line)
        return ("\n".join(lines) + r.choice(["\n", "\n", ""])).encode()

    def other_words(self, words):
        """A word more, one less, or another one in the place of one; the names of files stay."""
        r = self.random
        odd = ["", "0", "-0", "00", "-1", "+1", "1 ", "1.0", "x", "day", "graph", "make", "--svg", "--help", str(2**63), str(LEAST - 1), "9" * 40]
        at = r.randrange(len(words) + 1)
        if words[:1] == ["query"]:
            at = min(at, 3)
        return words[:at] + r.choice([[], [r.choice(odd)], [r.choice(odd)]]) + words[at + r.choice([0, 1, 1, 1]) :]

    def next(self, folder):
        """A case, some of them with other words than a command has."""
        kind, words, content = self.command(folder)
        if self.random.random() < 0.08:
            return "other words", self.other_words(words), content
        return kind, words, content

    def command(self, folder):
        """Words and standard input of a case; its files are put into the folder."""
        r = self.random
        kind = r.choice(["ranges", "day", "graph", "svg", "query", "query", "make"])
        if kind == "ranges":
            return kind, r.choice([[], ["ranges"]]), self.form(*self.keys(), [0, 1, 2, 255])
        if kind == "make":
            return kind, ["make"], self.edits()
        if kind == "query":
            near, width = self.keys()
            for name in "ab":
                with open(os.path.join(folder, name), "wb") as out:
                    out.write(self.form(near, width, r.choice([[1, 3], [0, 1, 2, 3, 9, 10, 255]])))
            start, end = (max(LEAST, min(GREATEST, near + r.randint(-width, 50 * width))) for _ in range(2))
            if r.random() < 0.2:
                start, end = r.choice([(LEAST, end), (start, GREATEST), (LEAST, GREATEST)])
            if start >= end and r.random() < 0.9:
                start, end = (end, start) if start > end else (LEAST, GREATEST)
            return kind, ["query", str(start), str(end), self.query_word(), "a", "b"], b""
        words, content = self.day()
        return kind, [{"svg": "graph"}.get(kind, kind), *words, *(["--svg"] if kind == "svg" else [])], content


def said(out, err):
    """What an answer is counted as: a refusal, or done, or done with nothing to print."""
    if err:
        return "refused"
    if not out:
        return "nothing"
    return out.strip().decode() if len(out) <= 3 else "done"


def main():
    program, count = os.path.abspath(sys.argv[1]), int(sys.argv[2])
    cases = Cases(int(sys.argv[3]) if len(sys.argv) > 3 else 1)
    same = by_zoneinfo()
    answers = Counter()
    with tempfile.TemporaryDirectory() as folder:
        os.chdir(folder)
        for i in range(count):
            kind, words, content = cases.next(folder)
            wanted = answer([word.encode() for word in words], lambda: content, contents)
            ran = subprocess.run([program, *words], input=content, capture_output=True, timeout=20)
            if (ran.returncode, ran.stdout, ran.stderr) != (0, *wanted):
                same = False
                print(f"compare.py: case {i} is not the same: {' '.join(words)}")
                print(f"  program: status {ran.returncode}, {ran.stdout[:300]!r}, {ran.stderr[:100]!r}")
                print(f"  second:  {wanted[0][:300]!r}, {wanted[1][:100]!r}")
                print(f"  standard input: {content[:200].hex()}")
            answers[f"{kind} {said(*wanted)}"] += 1
    print("random cases beside the second maker:", ", ".join(f"{name} {n}" for name, n in sorted(answers.items())))
    print(f"{count} random cases, {'all the same' if same else 'not all the same'}")
    return 0 if same else 1


sys.exit(main())
