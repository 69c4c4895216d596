#!/usr/bin/env python3
"""Makes the files of this folder, by document 01's byte form, and what crates/test_byte_form is given and has to write. Run it in this folder.
The files are kept in the repository; this only tells how they were made."""
import glob
import struct

LEAST, GREATEST = -2**63, 2**63 - 1


def form(ranges, count=None, order="<", mark=b"RM01"):
    n = len(ranges) if count is None else count
    return mark + struct.pack(order + "I", n) + b"".join(struct.pack(order + "qqB", *r) for r in ranges)


def put(name, content):
    with open(name, "wb") as out:
        out.write(content)


put("empty.form", form([]))
put("three.form", form([(0, 2, 1), (2, 4, 2), (4, 8, 1)]))
put("all_keys.form", form([(LEAST, GREATEST, 3)]))
put("ends.form", form([(LEAST, LEAST + 1, 255), (-2, 5, 7), (GREATEST - 1, GREATEST, 0)]))
put("full.form", form([(2 * i, 2 * i + 1, 1) for i in range(512)]))

put("big_endian.no_form", form([(0, 5, 1)], order=">"))
put("count_513.no_form", form([(2 * i, 2 * i + 1, 1) for i in range(513)]))
put("spare_byte.no_form", form([(0, 5, 1)]) + b"\0")
put("touching_equals.no_form", form([(0, 5, 1), (5, 8, 1)]))
put("empty_range.no_form", form([(4, 4, 1)]))
put("overlap.no_form", form([(0, 5, 1), (4, 8, 2)]))
put("other_mark.no_form", form([(0, 5, 1)], mark=b"RM02"))

# Each input of the program has its length before it. Where the reader refuses, the map is still the empty one.
given, wanted = b"", b""
for name in sorted(glob.glob("*form")):
    with open(name, "rb") as file:
        content = file.read()
    given += struct.pack("<H", len(content)) + content
    wanted += (b"0" + content if name.endswith(".form") else b"6" + form([])) + b"\n"
put("../../crates/test_byte_form/stdin", given)
put("../../crates/test_byte_form/stdout", wanted)
