#!/usr/bin/env python3
"""Turns what a clause says of a lent reference to today's spelling: `was x` and `becomes x` are `x.now` of a `&`, `x.old` and `x.new` of a `&mut`.

usage: python3 tools/respell_clauses.py [FOLDER]      after port.py and tools/respell.py, at the top of the repository, or of FOLDER, once

With them go the words for a map that is lent field by field: `at_entry count starts ends values` is `stored count.old starts.old ends.old values.old`,
`at_exit ..` the same with `.new`, and `at_entry_with n ..` has a number in the place of the count. Only clauses are rewritten, by their function's parameters."""
import pathlib
import re
import sys

ROOT = pathlib.Path(sys.argv[1] if len(sys.argv) > 1 else __file__).resolve()
ROOT = ROOT if len(sys.argv) > 1 else ROOT.parents[1]
NAME = r"«?[A-Za-z_]\w*»?"
FUNCTION = re.compile(r"\s*(?:pub )?(?:unsafe )?(?:extern \"C\" )?fn (\w+)")
GONE = ("at_entry", "at_exit", "at_entry_with", "lent")
left = []


def value(params, name, exit=False):
    kind = params.get(name)
    return None if kind is None else f"{name}.now" if kind == "&" else f"{name}.new" if exit else f"{name}.old"


def turn(text, params, where):
    def one(m):
        word, name = m.group(1), m.group(2)
        new = value(params, name, word == "becomes")
        if new is None or (word == "becomes" and params[name] == "&"):
            left.append(f"{where}: {m.group(0)}")
            return m.group(0)
        return new

    def four(m):
        word, first, rest = m.group(1), m.group(2), m.groups()[2:]
        exit = word == "at_exit"
        parts = [first if word == "at_entry_with" else value(params, first, exit)] + [value(params, x, exit) for x in rest]
        if None in parts:
            left.append(f"{where}: {m.group(0)}")
            return m.group(0)
        return "stored " + " ".join(parts)

    text = re.sub(rf"\((was|becomes) ({NAME})\)", one, text)
    text = re.sub(rf"(?<![\w.])(was|becomes) ({NAME})", one, text)
    return re.sub(rf"(?<![\w.])(at_entry_with|at_entry|at_exit|lent) ({NAME}|\([^()]*\)|\d+) ({NAME}) ({NAME}) ({NAME})", four, text)


def clauses_turned(text, where):
    out, lines, i = [], text.split("\n"), 0
    while i < len(lines):
        m = FUNCTION.match(lines[i])
        if not m:
            out.append(lines[i])
            i += 1
            continue
        head = [lines[i]]
        while ")" not in "".join(head) or "".join(head).count("(") > "".join(head).count(")"):
            i += 1
            head.append(lines[i])
        i += 1
        taken = " ".join(head)
        params = {}
        for name, kind in re.findall(rf"(?:mut )?({NAME}): (&(?:'\w+ )?(?:mut )?)?", taken[taken.index("("):]):
            if kind:
                params[name] = "&mut" if "mut" in kind else "&"
        if m := re.search(r"&(?:'\w+ )?(mut )?self", taken):
            params["self"] = "&mut" if m.group(1) else "&"
        out += head
        if head[-1].rstrip().endswith("{"):
            continue
        said = []
        while i < len(lines) and not re.match(r"\s*\{$", lines[i]) and not lines[i].rstrip().endswith(";"):
            said.append(lines[i])
            i += 1
        if said:
            out += turn("\n".join(said), params, where).split("\n")
    return "\n".join(out)


def imports_turned(text):
    body = re.sub(r"//[^\n]*", "", "\n".join(x for x in text.split("\n") if not x.startswith("ghost use")))
    lines = []
    for line in text.split("\n"):
        if line.startswith("ghost use Rattle.lent.specs.Moments"):
            continue
        if m := re.match(r"ghost use Rattle\.outcomes\.specs\.Stored\.\{([^}]*)\};", line):
            names = [n.strip() for n in m.group(1).split(",") if n.strip() not in GONE]
            if re.search(r"(?<![\w.])stored ", body) and "stored" not in names:
                names.append("stored")
            line = "ghost use Rattle.outcomes.specs.Stored.{" + ", ".join(names) + "};"
        lines.append(line)
    return "\n".join(lines)


for path in sorted(ROOT.glob("crates/*/src/**/*.rt")):
    text = path.read_text()
    new = clauses_turned(text, path.relative_to(ROOT).as_posix())
    if new != text:
        path.write_text(imports_turned(new))
for line in left:
    print(f"left: {line}")
