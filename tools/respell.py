#!/usr/bin/env python3
"""Brings this repository's own names to the spelling of today's Rattle: definitions, lemmas and fields in snake case.

usage: python3 tools/respell.py      at the top of the repository, once, after port.py

What is renamed is what specs/ and proofs/ declare with a dash or in camel case: `dayReport` becomes `day_report`, `report-sum` becomes `report_sum`.
Types and modules keep their names, and so do functions of src/, exported names, strings, and names of the toolchain's library.
In comments, in documents and in NOTICE only what stands in backticks is renamed; in wrong answers the texts of `old:` and `new:`.
Where two names fall together, OWN says what the second is called: mostly the lemma, which then ends in `_lem`."""
import collections
import pathlib
import re

ROOT = pathlib.Path(__file__).resolve().parents[1]
TOKEN = re.compile(r"[^\s(){}\[\],;.:|`\"«»]+")
TICKED = re.compile(r"`[^`]*`")
DECLARES = re.compile(r"^[ ]*(?:(?:pub|abbrev|unfoldable|data|record|ruleset)\s+)*([^\s:(){}]+)\s*(?:[({][^\n]*)?:\s", re.M)
RULES = re.compile(r"^[ ]*pub ruleset ([^\s:()]+)", re.M)
FIELD = re.compile(r"^ +pub ([^\s:(){}]+)\s*:", re.M)
USES = re.compile(r"^use ([^\s{]+)\.\{([^}]*)\}", re.M)

# the second of two names that fall together
LEMMAS = ("above-least after-events bad-query bytes-number edit-sound first-number found-by how-many if-set in-range is-date is-empty is-zero left-edge "
          "no-day no-query no-set not-formed nothing-at right-edge spans-of text-room value-at well-formed year-day").split()
OWN = {name: name.replace("-", "_") + "_lem" for name in LEMMAS} | {
    "Given-back": "GivenBack",
    "half-open": "half_open_literal",
    "in-front": "in_front_of",
    "key-rank": "key_at_rank",
    "map-in": "lent_map",
    "none-there": "none_there_span",
    "ranges-overlap": "rust_ranges_overlap",
    "ranges-touch": "rust_ranges_touch",
}
# the same by the file: a path begins with the first, and has one of the names
BY_FILE = [
    ("crates/theorems/", {"of_map": "of_map_lem"}),
    ("crates/set_total/", {"too_many": "too_many_keys"}),
]
KINDS = {"half-open": "half_open_lawful"}


def snake(name):
    if name in OWN:
        return OWN[name]
    name = name.replace("getD", "get_or")
    if not name[0].isupper():
        name = re.sub(r"(?<=[a-z0-9_\-])([A-Z]+)", lambda m: "_" + m.group(1).lower(), name)
    return re.sub("_+", "_", name.replace("-", "_"))


def old_spelling(name):
    return "-" in name or re.match(r"[a-z][a-z0-9_]*[A-Z]", name)


logic = sorted(p for p in ROOT.glob("crates/*/*/**/*.antt") if p.relative_to(ROOT).parts[2] in ("specs", "proofs"))
rooms = {p.name for p in (ROOT / "crates").iterdir()}
theirs, declared, fields = set(), set(), set()
for path in logic:
    text = path.read_text()
    for place, names in USES.findall(text):
        room = re.match(r"Rattle\.(\w+)", place)
        if not room or room.group(1) not in rooms or ".specs.declared" in place or ".contracts" in place:
            theirs |= {n.strip() for n in names.split(",")}
    if path.name in ("Answers.antt", "Invariants.antt") and "specs" not in path.parts and path.parent.name != "proofs":
        continue
    declared |= {n for n in DECLARES.findall(text) + RULES.findall(text) if old_spelling(n)}
    fields |= set(FIELD.findall(text))
renamed = {n: snake(n) for n in declared if n not in theirs and re.fullmatch(r"[\w'\-]+", n)}

fallen = collections.defaultdict(set)
for old, new in renamed.items():
    fallen[new].add(old)
for new, olds in fallen.items():
    if len(olds) > 1:
        raise SystemExit(f"respell: {sorted(olds)} would all be {new}")


def turn(text, special, proof=False):
    def one(m):
        name = m.group(0)
        if proof and m.start() and text[m.start() - 1] == "." and name not in fields:
            return name
        return special.get(name) or renamed.get(name) or name

    return TOKEN.sub(one, text)


def turn_source(text, special, mark, proof=False):
    lines = []
    for line in text.split("\n"):
        code, dash, comment = line.partition(mark)
        lines.append(turn(code, special, proof) + dash + TICKED.sub(lambda m: turn(m.group(0), special), comment))
    return "\n".join(lines)


def special_of(path, text):
    where = path.relative_to(ROOT).as_posix()
    special = dict(pair for start, names in BY_FILE if where.startswith(start) for pair in names.items())
    lawful = "key.proofs.Lawful.{" in text or where == "crates/key/proofs/Lawful.antt"
    return special | (KINDS if lawful else {})


for path in sorted([*logic, *ROOT.glob("crates/*/src/**/*.rt"), *ROOT.glob("crates/*/wrong/*.edit"), *ROOT.glob("docs/*.md"), *ROOT.glob("*.md")]):
    text = path.read_text()
    special = special_of(path, text)
    if path.suffix == ".antt":
        new = turn_source(text, special, "--", path.name == "Proof.antt")
    elif path.suffix == ".rt":
        new = turn_source(text, special, "//")
    elif path.suffix == ".edit":
        new = "\n".join(turn(x, special) if x.startswith(("old:", "new:")) else x for x in text.split("\n"))
    else:
        parts = re.split(r"(`[^`\n]+`)", text)
        new = "".join(turn(x, special) if x.startswith("`") else x for x in parts)
    if new != text:
        path.write_text(new)
print(f"respell: {len(renamed)} names")
