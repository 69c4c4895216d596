#!/usr/bin/env python3
"""Makes the folders of tests/program/cases. They are kept in the repository; this only tells how they were made.

A case has args (a word a line), and its standard input: stdin, or feed, a script that writes it, or closed, where there is none to read.
A stdin that is a folder can be opened and not read. stdout and stderr are what has to be written; one that is missing says that nothing may be.
With one_line it is a line on standard error, whatever it says.
The expected text is second.py's, but for what the papers write out: that stands here, and second.py has to agree."""
import os
import shutil
import sys

sys.dont_write_bytecode = True  # nothing is left beside the sources
from second import GREATEST, LEAST, answer, contents, form, log_day, whole

HERE = os.path.dirname(os.path.abspath(__file__))
CASES, FORMS = os.path.join(HERE, "cases"), os.path.join(HERE, "forms")


def put(name, content, executable=False):
    with open(name, "wb") as out:
        out.write(content)
    if executable:
        os.chmod(name, 0o755)


def case(name, words, stdin=None, feed=None, closed=False, folder=False, stdout=None, stderr=None, one_line=False):
    """Writes a case. stdout and stderr are given where a paper writes them out."""
    os.makedirs(os.path.join(CASES, name))
    os.chdir(os.path.join(CASES, name))
    words = [word.encode() for word in words]
    if words:
        put("args", b"".join(word + b"\n" for word in words))
    given = stdin
    if stdin is not None:
        put("stdin", stdin)
    elif feed is not None:
        put("feed", b"#!/usr/bin/env bash\n" + feed.encode() + b"\n", executable=True)
        pipe = os.popen("./feed")
        given = whole(pipe.fileno())
        pipe.close()
    elif closed:
        put("closed", b"")
    elif folder:
        os.mkdir("stdin")
        put("stdin/a_folder", b"")
    out, err = answer(words, lambda: given, contents)
    for kind, second, paper in [("stdout", out, stdout), ("stderr", err, stderr)]:
        paper = paper.encode() if isinstance(paper, str) else paper
        if paper is not None and paper != second:
            sys.exit(f"{name}: second.py writes {second!r} on {kind}")
        if one_line and kind == "stderr":
            put("one_line", b"")
        elif second:
            put(kind, second)


def at(day, *parts):
    """Ranges of a day, from pairs of hours and statuses."""
    start = log_day(*day)[0]
    return [(start + round(3600 * a), start + round(3600 * b), v) for a, b, v in parts]


for folder in (CASES, FORMS):
    shutil.rmtree(folder, ignore_errors=True)
os.mkdir(FORMS)

NOVEMBER, MARCH, PLAIN = (0, 2024, 11, 3), (0, 2024, 3, 10), (3, 2025, 7, 4)
LEAP, NO_LEAP, FIRST, LAST = (1, 2024, 2, 29), (1, 2023, 2, 29), (4, 2007, 1, 1), (5, 2099, 12, 31)
november = form([(1730606400, 1730628000, 1), (1730628000, 1730653200, 3), (1730653200, 1730696400, 1)])
SAMPLE = "cat ../../../../samples/november."
march = form(at(MARCH, (0, 6, 2), (6, 6.3, 1), (7.9, 12, 3), (12, 14, 4), (14, 14.1, 3), (14.1, 18, 1), (20, 23, 2)))
plain = form(at(PLAIN, (-3, 5.5, 2), (5.5, 6, 4), (6, 10.75, 3), (10.75, 11.25, 1), (11.25, 17, 3), (17, 17.5, 4), (17.5, 30, 1)))
ends = form([(LEAST, LEAST + 1, 255), (-2, 5, 7), (GREATEST - 1, GREATEST, 0)])
everything = form([(LEAST, GREATEST, 3)])
full = [(2 * i, 2 * i + 1, 1) for i in range(512)]


def of(command, date, *more):
    return [command, *(str(n) for n in date), *more]


# Ranges
case("ranges", [], november, stdout="1730606400..1730628000>1\n1730628000..1730653200>3\n1730653200..1730696400>1\n")
case("ranges_by_its_word", ["ranges"], november)
case("ranges_of_an_empty_map", [], form([]))
case("ranges_at_both_ends", [], ends)
case("ranges_512_in_8712_bytes", [], form(full))
case("ranges_8713_bytes", [], form(full) + b"\0", stdout="6\n")
case("ranges_513", [], feed="cat ../../../bytes/count_513.no_form", stdout="6\n")
case("ranges_of_a_million_bytes", [], feed="head -c 1000000 /dev/zero", stdout="6\n")
case("ranges_in_two_pieces", [], feed="form=../../../bytes/three.form\nhead -c 30 $form\nsleep 0.3\ntail -c +31 $form", stdout="0..2>1\n2..4>2\n4..8>1\n")
case("ranges_in_single_bytes", [], feed="exec dd if=../../../bytes/full.form bs=1 status=none")
case("ranges_of_nothing", [], b"", stdout="6\n")
case("ranges_closed_input", [], closed=True, stdout="6\n")
case("ranges_input_is_a_folder", [], folder=True, stdout="6\n")
case("ranges_of_text", [], b"insert 0 5 1\n", stdout="6\n")
for name in ["big_endian", "empty_range", "other_mark", "overlap", "spare_byte", "touching_equals"]:
    case("ranges_" + name, [], feed=f"cat ../../../bytes/{name}.no_form", stdout="6\n")

# Words
case("words_help", ["--help"], stderr="")
for name, words in {
    "help_and_more": ["--help", "day"],
    "no_command": ["show"],
    "h": ["-h"],
    "empty": [""],
    "capital": ["Day", "0", "2024", "11", "3"],
    "ranges_and_more": ["ranges", "0"],
    "day_alone": ["day"],
    "day_short": ["day", "0", "2024", "11"],
    "day_and_more": ["day", "0", "2024", "11", "3", "4"],
    "day_svg": ["day", "0", "2024", "11", "3", "--svg"],
    "day_name": ["day", "Eastern", "2024", "11", "3"],
    "day_empty": ["day", "0", "2024", "11", ""],
    "day_leading_zero": ["day", "0", "2024", "11", "03"],
    "day_two_zeros": ["day", "00", "2024", "11", "3"],
    "day_minus_zero": ["day", "-0", "2024", "11", "3"],
    "day_minus": ["day", "-", "2024", "11", "3"],
    "day_plus": ["day", "0", "+2024", "11", "3"],
    "day_space": ["day", "0", "2024", "11", "3 "],
    "day_hex": ["day", "0", "0x7e8", "11", "3"],
    "day_bad_zone_and_no_number": ["day", "7", "2024", "11", "x"],
    "graph_short": ["graph", "0", "2024", "11"],
    "graph_png": ["graph", "0", "2024", "11", "3", "--png"],
    "graph_svg_first": ["graph", "--svg", "0", "2024", "11", "3"],
    "graph_svg_twice": ["graph", "0", "2024", "11", "3", "--svg", "--svg"],
    "query_short": ["query", "0", "5", "A1", "args"],
    "query_and_more": ["query", "0", "5", "A1", "args", "args", "args"],
    "query_leading_zero": ["query", "0", "05", "A1", "args", "args"],
    "query_no_number": ["query", "now", "5", "A1", "args", "args"],
    "query_key_2_63": ["query", "0", str(2**63), "A1", "args", "args"],
    "query_key_below_all": ["query", str(LEAST - 1), "0", "A1", "args", "args"],
    "make_and_more": ["make", "form"],
}.items():
    case("words_" + name, words, stdout="")

# Days
case(
    "day_november",
    of("day", NOVEMBER),
    feed=SAMPLE + "form",
    stdout="""\
start          1730606400
end            1730696400
length              90000 s  25:00:00  25.0000 h
off duty            64800 s  18:00:00  18.0000 h
sleeper berth           0 s   0:00:00   0.0000 h
driving             25200 s   7:00:00   7.0000 h
on duty                 0 s   0:00:00   0.0000 h
unrecorded              0 s   0:00:00   0.0000 h
sum                 90000 s  25:00:00  25.0000 h
""",
)
case("day_march", of("day", MARCH), march)
case("day_plain", of("day", PLAIN), plain)
case("day_of_an_empty_map", of("day", MARCH), form([]))
case("day_of_all_keys", of("day", PLAIN), everything)
case("day_of_512_ranges", of("day", PLAIN), form(at(PLAIN, *((i / 20, (i + 1) / 20, 1 + i % 4) for i in range(512)))))
case("day_leap", of("day", LEAP), november)
case("day_first", of("day", FIRST), form(at(FIRST, (0, 1, 1))))
case("day_last", of("day", LAST), form(at(LAST, (23, 24, 4))))
case("day_in_november_with_no_change", of("day", (6, 2024, 11, 3)), november)
start, end = log_day(*PLAIN)
case("day_of_odd_seconds", of("day", PLAIN), form([(start + 1, start + 2, 1), (start + 9, start + 14, 2), (start + 100, start + 36099, 3)]))
case("day_other_status_beside_it", of("day", PLAIN), form([(LEAST, start, 9), (start, end, 2), (end, GREATEST, 0)]))
case("day_status_0", of("day", PLAIN), form([(end - 1, end + 1, 0)]), stdout="10\n")
case("day_status_5", of("day", PLAIN), form([(start - 1, start + 1, 5)]), stdout="10\n")
case("day_status_255", of("day", PLAIN), form([(start, start + 10, 3), (start + 10, start + 11, 255)]), stdout="10\n")
case("day_bad_bytes", of("day", PLAIN), form([(start, start + 9, 5), (start, start + 9, 5)]), stdout="6\n")
case("day_closed_input", of("day", PLAIN), closed=True, stdout="6\n")
case("day_bad_date_before_bad_bytes", of("day", NO_LEAP), b"no form", stdout="8\n")
case("day_bad_date_with_closed_input", of("day", NO_LEAP), closed=True, stdout="8\n")
for name, date in {
    "zone_7": (7, 2024, 11, 3),
    "zone_minus": (-1, 2024, 11, 3),
    "zone_256": (256, 2024, 11, 3),
    "zone_2_32": (2**32, 2024, 11, 3),
    "zone_2_64": (2**64, 2024, 11, 3),
    "zone_minus_2_64": (-(2**64), 2024, 11, 3),
    "year_2006": (0, 2006, 12, 31),
    "year_2100": (0, 2100, 1, 1),
    "year_long": (0, 10**30 + 2024, 1, 1),
    "month_0": (0, 2024, 0, 1),
    "month_13": (0, 2024, 13, 1),
    "day_0": (0, 2024, 4, 0),
    "day_31": (0, 2024, 4, 31),
    "29_february": NO_LEAP,
}.items():
    case("day_bad_" + name, of("day", date), november, stdout="8\n")

# Graphs, as text and drawn
for name, date, content in [
    ("november", NOVEMBER, november),
    ("march", MARCH, march),
    ("plain", PLAIN, plain),
    ("of_an_empty_map", MARCH, form([])),
    ("of_single_seconds", PLAIN, form([(start + 899, start + 901, 3), (start + 3599, start + 3600, 2), (end - 1, end, 4)])),
]:
    case("graph_" + name, of("graph", date), content)
    case("svg_" + name, of("graph", date, "--svg"), content)
for name, more in [("graph", []), ("svg", ["--svg"])]:
    case(name + "_bad_zone", of("graph", (7, 2024, 11, 3), *more), b"", stdout="8\n")
    case(name + "_bad_bytes", of("graph", NOVEMBER, *more), november[:-1], stdout="6\n")
    case(name + "_status_9", of("graph", PLAIN, *more), form([(start, end, 9)]), stdout="10\n")

# Queries: the files are those of tests/program/forms
for name, content in {
    "a": form([(0, 10, 3), (10, 20, 1), (30, 40, 3), (40, 45, 0)]),
    "b": form([(5, 8, 1), (8, 12, 2), (15, 35, 1), (35, 50, 3)]),
    "ends": ends,
    "even": form(full),
    "odd": form([(2 * i + 1, 2 * i + 2, 2) for i in range(512)]),
    "spare_byte": form(full) + b"\0",
    "no_form": b"RM",
}.items():
    put(os.path.join(FORMS, name), content)


def query(name, window, word, files="a b", **written):
    case("query_" + name, ["query", str(window[0]), str(window[1]), word, *("../../forms/" + file for file in files.split())], **written)


query("driving_and_not_b_off_duty", (0, 100), "A3&!B1", stdout="0..5\n8..10\n35..40\n")
query("joins_what_touches", (0, 100), "A3|A1", stdout="0..20\n30..40\n")
query("not_in_the_window", (-5, 50), "!(A3|A1)", stdout="-5..0\n20..30\n40..50\n")
query("and_binds_tighter", (0, 100), "A1|A3&B1", stdout="5..8\n10..20\n30..35\n")
query("parentheses", (0, 100), "(A1|A3)&B1", stdout="5..8\n15..20\n30..35\n")
query("not_binds_tightest", (0, 100), "!A3&B1", stdout="15..30\n")
query("cut_by_the_window", (7, 33), "A3|B1", stdout="7..10\n15..33\n")
query("of_nothing", (0, 100), "A3&A1", stdout="")
query("value_0", (0, 100), "A0", stdout="40..45\n")
query("all_keys", (LEAST, GREATEST), "!A7", "ends b")
query("one_file_twice", (0, 100), "A3&!B3|A1", "a a", stdout="10..20\n")
query("of_512_and_512", (0, 1024), "A1|B2", "even odd", stdout="0..1024\n")
query("of_513_ranges", (-1, 2000), "!A1", "even odd")
query("16_not", (0, 50), "!" * 16 + "A3", stdout="0..10\n30..40\n")
query("16_parentheses", (0, 50), "(" * 16 + "A3" + ")" * 16, stdout="0..10\n30..40\n")
query("8_of_each", (0, 50), "!(" * 8 + "A3" + ")" * 8, stdout="0..10\n30..40\n")
query("21_not_one_after_the_other", (0, 50), "|".join(["!!!A3", "!!!A3"] + ["!A3"] * 13), stdout="10..30\n40..50\n")
query("18_parentheses_one_after_the_other", (0, 50), "&".join(["((A3))"] * 9), stdout="0..10\n30..40\n")
query("64_bytes", (0, 50), "A3&" * 20 + "!!A3", stdout="0..10\n30..40\n")
query("empty_window", (5, 5), "A3", stdout="1\n")
query("reversed_window", (6, 5), "A3", stdout="1\n")
query("1_before_6_and_7", (6, 5), "A", "no_form no_form", stdout="1\n")
query("first_is_no_form", (0, 5), "A3", "no_form b", stdout="6\n")
query("second_is_no_form", (0, 5), "A3", "a no_form", stdout="6\n")
query("8713_bytes", (0, 5), "A3", "spare_byte b", stdout="6\n")
query("a_folder", (0, 5), "A3", "a .", stdout="6\n")
query("first_is_missing", (0, 5), "A3", "missing b", stdout="", one_line=True)
query("second_is_missing", (0, 5), "A3", "a missing", stdout="", one_line=True)
query("6_before_7", (0, 5), "A", "a no_form", stdout="6\n")
for name, word in {
    "empty": "",
    "A": "A",
    "A3_and": "A3&",
    "17_not": "!" * 17 + "A3",
    "17_parentheses": "(" * 17 + "A3" + ")" * 17,
    "9_of_each": "!(" * 9 + "A3" + ")" * 9,
    "65_bytes": "A3&" * 20 + "!!!A3",
    "two_digits": "A12",
    "a_space": "A3 & B1",
    "a_small_letter": "a3",
    "C": "C1",
    "two_atoms": "A3B1",
    "unclosed": "(A3",
    "closed_twice": "(A3))",
    "nothing_inside": "()",
    "not_behind": "A3!",
    "two_signs": "A3&&B1",
    "accent": "A3|\u00e91",
}.items():
    query("bad_" + name, (0, 5), word, stdout="7\n")

# Made forms
case("make_november", ["make"], feed=SAMPLE + "lines", stdout=november)
case("make_of_nothing", ["make"], b"")
case("make_with_no_last_newline", ["make"], b"insert 0 5 1\ninsert 5 8 2")
case("make_splits", ["make"], b"insert 0 8 1\ninsert 2 4 2\n")
case("make_joins", ["make"], b"insert 0 5 1\ninsert 5 8 1\n")
case("make_removes", ["make"], b"insert 0 8 1\nremove 3 6\n")
case("make_removes_all", ["make"], b"insert 0 8 1\nremove -5 8\n")
case("make_at_both_ends", ["make"], f"insert {LEAST} {GREATEST} 255\nremove {LEAST + 1} {GREATEST - 1}\n".encode())
FULL = 'for ((i = 0; i < 512; i++)); do echo "insert $((2 * i)) $((2 * i + 1)) 1"; done\n'
case("make_512", ["make"], feed=FULL + ":")
case("make_513", ["make"], feed=FULL + "echo insert 2000 2001 1", stderr="line 513: 2\n")
case("make_511_by_joining", ["make"], feed=FULL + "echo insert 1 2 1")
case("make_in_two_pieces", ["make"], feed='echo -n "insert 0 1"\nsleep 0.3\necho "2 1"')
case("make_1048576_bytes", ["make"], feed="echo remove 0 10\nyes remove 0 1 | head -n 95324")
case("make_1048577_bytes", ["make"], feed="echo remove 0 100\nyes remove 0 1 | head -n 95324", stderr="too long\n")
case("make_empty_range", ["make"], b"insert 0 5 1\ninsert 4 4 1\n", stderr="line 2: 1\n")
case("make_reversed_range", ["make"], b"insert 9 4 1\n", stderr="line 1: 1\n")
case("make_removes_empty_range", ["make"], b"insert 0 5 1\nremove 4 4\n", stderr="line 2: 1\n")
case("make_two_bad_lines", ["make"], b"insert 0 5 1\ninsert 4 4 1\nno edit\n", stderr="line 2: 1\n")
for name, line in {
    "empty": "",
    "two_spaces": "insert 0  5 1",
    "space_before": " insert 0 5 1",
    "space_behind": "insert 0 5 1 ",
    "a_tab": "insert\t0 5 1",
    "carriage_return": "insert 0 5 1\r",
    "capital": "Insert 0 5 1",
    "word_alone": "insert",
    "no_value": "insert 0 5",
    "value_to_remove": "remove 0 5 1",
    "value_256": "insert 0 5 256",
    "value_minus_1": "insert 0 5 -1",
    "leading_zero": "insert 0 05 1",
    "minus_zero": "insert -0 5 1",
    "key_2_63": f"insert 0 {2**63} 1",
    "key_below_all": f"remove {LEAST - 1} 0",
    "as_ranges_prints": "0..5>1",
    "nul": "insert 0 5 1\0",
}.items():
    case("make_no_edit_" + name, ["make"], f"insert 6 7 1\n{line}\ninsert 8 9 1\n".encode(), stderr="line 2: not an edit\n")
