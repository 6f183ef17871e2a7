#!/usr/bin/env python3
"""Requests that rebuild a field from its sheet, `rebuild`, from tests/reference.py and tests/papers.py alone, the same at every run.

    python3 tests/rebuilds.py 100000 [--seed 1] [--program PATH]    sends so many spoilt sheets to the built `refdesk`, or to another build of it; one
                                                                    figure, exit status 1 if it is not 0

A vector is (text, room). A generator of WRONG gives (line, text), and its docstring says in which way the text is no sheet: the line at which it has to be
refused comes from how the text was made, not from tests/reference.py, so that the two check each other. `checked` holds an answer against 02's own
sentence, with the sheets that the reference prints.
"""
import argparse
import functools
import itertools
import random
import sys
from collections import Counter, defaultdict
from subprocess import PIPE

from failures import file_with
from fields import drawn, field_of, full_field, good_field, item_octets, items_alone, limits, ones, zero
from papers import PAPERS
from printed import checked
from reads import subfields_alone
from records import homes
from refdesk import MOST, ROOM, line_of, told
from reference import SENSES, keys, number_lines, read, rebuild, sheet
from sheets import (
    LONGEST, WORKED_TEXT, angles, both_angles, empty_last_parts, every_indicator, full, no_items, numbers_covered, one_part, pressures, widest,
)
from spoilt import pool, spoilt
from started import started

WORKED = [  # by hand from 01's worked sheet and 02, Ask 6: text, room, then the category and the octets, or the refusal and its line
    (WORKED_TEXT, 6, (48, "06 28 06 01 00 00")),
    (WORKED_TEXT, 5, (11, 0)),
    (WORKED_TEXT, 0, (11, 0)),
    (WORKED_TEXT.replace(b"48", b"7"), 300, (7, "06 28 06 01 00 00")),
    (WORKED_TEXT.replace(b"48", b"21"), 300, (18, 3)),
    (WORKED_TEXT.replace(b"len=6", b"len=7"), 300, (18, 2)),
    (WORKED_TEXT.replace(b"len=6", b"len=7"), 0, (18, 2)),
    (WORKED_TEXT.replace(b"len=6", b"len=06"), 300, (18, 2)),
    (WORKED_TEXT.replace(b"len=6", b"len=7").replace(b"M4E=3", b"M4E=4"), 300, (18, 4)),
    (WORKED_TEXT.replace(b"len=6", b"len=1").replace(b"M4E=3", b"M4E=4"), 300, (18, 2)),
    (WORKED_TEXT.replace(b"M4E=3", b"M4E=4"), 0, (18, 4)),
    (WORKED_TEXT.replace(b"65536", b"16777216"), 300, (18, 5)),
    (WORKED_TEXT.replace(b"ok", b"ko"), 300, (18, 6)),
    (WORKED_TEXT[:-1], 300, (18, 6)),
    (WORKED_TEXT + b"\n", 300, (18, 7)),
    (b"", 300, (18, 1)),
    (b"\n", 300, (18, 1)),
    (b"cat=48", 300, (18, 1)),
    (b"cat=48\n", 300, (18, 2)),
    (b"cat=48\nlen=255\nitems=\nend=ok\n", 300, (18, 2)),
    (b"cat=48\nlen=2\nitems=\nend=ok\n", 2, (48, "02 00")),
    (b"cat=21\nlen=3\nitems=MES\nend=ok\n", 3, (21, "03 01 00")),
    (b"cat=7\nlen=4\nitems=M5N\nM5N.chain=2\nend=ok\n", 4, (7, "04 40 01 00")),
    (b"cat=48\nlen=5\nitems=M5N\nM5N.chain=2\nM5N.FOM=31\nend=ok\n", 5, (48, "05 40 01 80 1F")),
    (b"cat=48\nlen=5\nitems=M5N\nM5N.chain=1\nM5N.FOM=31\nend=ok\n", 5, (18, 5)),
    (b"cat=48\nlen=5\nitems=MD5\nMD5.GA.RES=0\nMD5.GA.GA=-40\nend=ok\n", 5, (48, "05 80 10 3F D8")),
    (b"cat=48\nlen=5\nitems=MD5\nMD5.GA.RES=0\nMD5.GA.GA=-41\nend=ok\n", 5, (18, 5)),
    (b"cat=48\nrefused=6\nat=2\n", 300, (18, 2)),
    (b"cat=none\nrefused=2\nat=0\n", 300, (18, 1)),
]
NO_DECIMALS = (  # no sheet has one of these in the place of a number; the last two would be 1 to a reader that keeps 32 or 64 bits and drops the rest
    "", "+1", "01", "00", "-0", "-01", "-", "--1", " 1", "1 ", "1.", "1=1", "=1", "1,1", "0x1", "1e1", "1_0", "x", "\xb2", "\x001", "9" * 400,
    "4294967297", "18446744073709551617",
)


# ---- sheets

def lines_of(cat, field):
    return sheet(bytes([cat]) + field).splitlines()


def text_of(lines):
    return "".join(line + "\n" for line in lines).encode("latin-1")


def replaced(lines, k, *new):
    """The text with these in the place of line k, from 1."""
    return text_of([*lines[:k - 1], *new, *lines[k:]])


def place(lines, key):
    """The number of the line with this key."""
    return 1 + next(k for k, line in enumerate(lines) if line.startswith(key + "="))


def items_named(cat):
    return {item[0]: (i, item) for i, item in enumerate(PAPERS[cat])}


def item_alone(cat, name, count, there, pick):
    """The lines of a field with this item alone, with so many parts and with the subfields that are there."""
    i, item = items_named(cat)[name]
    return lines_of(cat, field_of({i: item_octets(item, count, there, pick)}))


BASES = {  # a short sheet of each category with lines of every kind: {item: (parts, subfields that are there)}
    48: {"MD5": (1, (2, 3, 5)), "M5N": (2, (1, 5, 7)), "M4E": (1, ()), "RPC": (1, (0, 3)), "ERR": (0, ())},
    21: {"BPS": (0, ()), "SGV": (2, ()), "STA": (2, ()), "MES": (1, (2, 4))},
    7: {"TA": (0, ()), "M5N": (2, (2, 7)), "ERR": (0, ())},
}


@functools.cache
def base_field(cat):
    pick = drawn(random.Random(cat))
    return field_of({items_named(cat)[name][0]: item_octets(items_named(cat)[name][1], *form, pick) for name, form in BASES[cat].items()})


@functools.cache
def base(cat):
    return lines_of(cat, base_field(cat))


@functools.cache
def options(cat):
    """The keys of subfields behind a chain with one number: where such a line is missing, the sheet is another field's."""
    return {f"{name}.{sub}" for name, parts, subs in PAPERS[cat] for sub, _, numbers in subs if parts and len(numbers) == 1}


def is_option(cat, line):
    return line.partition("=")[0] in options(cat)


# ---- lines that are wrong in themselves

def other_keys(cat):
    """Each line with another key, and with none."""
    for k, line in enumerate(base(cat), 1):
        key, _, value = line.partition("=")
        other = (key.swapcase(), key[:-1], key + "x", " " + key, key + " ", "=" + key, key + ".")[k % 7]
        yield k, replaced(base(cat), k, f"{other}={value}")
        if k % 4 == 0:
            yield k, replaced(base(cat), k, (key, value, "=" + value, line.replace("=", ":"))[k // 4 % 4])


def other_octets(cat):
    """An octet more before a line feed, of each second line: of another system's ends of lines, no letter, none of ASCII. Such octets in all lines."""
    for k in range(1, len(base(cat)) + 1, 2):
        yield k, replaced(base(cat), k, base(cat)[k - 1] + "\r\0 \t\x80\xff\x0b\x85\xa0"[k % 9])
    yield 1, text_of(base(cat)).replace(b"\n", b"\r\n")
    yield 1, text_of(base(cat)).replace(b"\n", b"\r")
    yield 1, b"\xef\xbb\xbf" + text_of(base(cat))


def beyond_limits(cat):
    """Each number just below and just above what it may be, of flags one of the two by turns, its item alone; what is derived from it is right."""
    names = [key for item in PAPERS[cat] for key in keys(item)]
    for slot, number, field in homes(cat):
        if names[slot]:
            lines, (low, high) = lines_of(cat, field), limits(number)
            k = place(lines, names[slot])
            for z in (low - 1, high + 1) if high > 1 else [(2, -1)[slot % 2]]:
                new = number_lines(names[slot], z)
                yield k, text_of([*lines[:k - 1], *new, *lines[k - 1 + len(new):]])


def no_decimals(cat):
    """Values that are no number: all of them for a plain number, some for a number of every other kind."""
    some = {48: ("MD5.POS.LAT", "MD5.POS.LON", "MD5.GA.GA", "MD5.TOS", "M5N.chain", "ERR", "cat", "len"), 21: ("BPS", "STA.chain"), 7: ("TA.TAmin",)}[cat]
    kept = [("M4E", NO_DECIMALS)] * (cat == 48) + [(key, NO_DECIMALS[i % 6::6]) for i, key in enumerate(some)]
    for key, values in kept:
        k = place(base(cat), key)
        yield from ((k, replaced(base(cat), k, f"{key}={value}")) for value in values)


# ---- lines in the wrong place

def missing(cat):
    """Each line missing, a derived one and a group's first among them. Where it was a whole subfield, only the length is wrong."""
    yield from ((2 if is_option(cat, line) else k, replaced(base(cat), k)) for k, line in enumerate(base(cat), 1))


def doubled(cat):
    """Each line twice."""
    yield from ((k + 1, replaced(base(cat), k, line, line)) for k, line in enumerate(base(cat), 1))


def exchanged(cat):
    """Each line with the next. Where the first was a whole subfield, the second may stand in its place, and the subfield is out of turn behind it."""
    for k, (line, following) in enumerate(zip(base(cat), base(cat)[1:]), 1):
        yield (k + 1 if is_option(cat, line) else k), text_of([*base(cat)[:k - 1], following, line, *base(cat)[k + 1:]])


def inserted(cat):
    """A line that is none before every third line: empty, blank, of another sheet."""
    for k in range(1, len(base(cat)) + 1, 3):
        yield k, text_of([*base(cat)[:k - 1], ("", " ", "=", "refused=9", "x=0")[k % 5], *base(cat)[k - 1:]])


def stopped(cat):
    """The text stops behind each line; within each second line, and right before the line feeds of some."""
    for k, line in enumerate(base(cat), 1):
        front = text_of(base(cat)[:k - 1])
        yield k, front
        if k % 2:
            yield k, front + line[:len(line) if k % 4 == 1 else 1 + k % len(line)].encode()
    yield len(base(cat)), text_of(base(cat))[:-1]


def behind_the_end(cat):
    """Anything behind the last line."""
    for more in (b"\n", b" ", b"\r", b"\0", b"end=ok", b"end=ok\n", text_of(base(cat))):
        yield len(base(cat)) + 1, text_of(base(cat)) + more


# ---- the first three lines

def categories(cat):
    """A category that there is not, or not so written; the sheets of refusals; another category, which has other items."""
    written = str(cat)
    unknown = ("62", "0", "6", "8", "20", "49", "255", "256", "none") if cat == 7 else ()
    for value in (*unknown, str(cat + 256), "0" + written, "+" + written, "-" + written, written + "0", written[:-1]):
        yield 1, replaced(base(cat), 1, f"cat={value}")
    for other in PAPERS:
        if other != cat:
            yield 3, replaced(base(cat), 1, f"cat={other}")
    yield from ((2, sheet(bytes([cat]) + field).encode()) for field in (b"", b"\x01\0", b"\x02\x80"))
    yield from ((1, sheet(given).encode()) for given in (b"", bytes([cat + 1, 2, 0])))


def lengths(cat):
    """Another length: of another form, which comes before what is wrong behind it; of the right form, which comes behind."""
    right = base_field(cat)[0]
    later = [*base(cat)[:-1], "end=no"]
    yield from ((2, replaced(lines, 2, f"len={value}")) for value in ("1", "256", f"0{right}") for lines in (base(cat), later))
    yield from ((2, replaced(base(cat), 2, f"len={value}")) for value in (f"+{right}", f"-{right}", right + 256))
    for value in (2, right + 1, 255):
        yield 2, replaced(base(cat), 2, f"len={value}")
        yield len(later), replaced(later, 2, f"len={value}")


def names_wrong(cat):
    """Line 3: a name unknown, of another category, cut, longer, in small letters, twice, or out of order; another mark than a comma, one too many or too few."""
    names = list(BASES[cat])
    one, *others = names
    last = names[-1]
    other = {48: "TA", 21: "MD5", 7: "MD5"}[cat]
    lists = (
        [*names, "XYZ"], [*names, other], [one, other, *others], [one[:-1], *others], [one + "x", *others], [one.lower(), *others], [one, one, *others],
        [*names, last], [last, *names[1:-1], one], [*others, one], [*names, ""], ["", *names], [one, "", *others], [one, " " + others[0], *others[1:]],
    )
    yield from ((3, replaced(base(cat), 3, "items=" + ",".join(wrong))) for wrong in (lists if cat == 48 else lists[::2]))
    yield from ((3, replaced(base(cat), 3, "items=" + mark.join(names))) for mark in (";", "", " ", "=") if cat == 48)


def off_the_list(cat):
    """A name missing, for each item: its lines are refused where they begin. All names missing."""
    for name in BASES[cat]:
        left = [other for other in BASES[cat] if other != name]
        first = next(k for k, line in enumerate(base(cat), 1) if k > 3 and line.startswith((name + ".", name + "=")))
        yield first, replaced(base(cat), 3, "items=" + ",".join(left))
    yield 4, replaced(base(cat), 3, "items=")


def on_the_list(cat):
    """A name more, for each item: its first line is missed where it should stand. An item of subfields alone may have no line: then only the length is wrong."""
    alone = sheet(bytes([cat, 2, 0])).splitlines()
    for name, parts, subs in PAPERS[cat]:
        yield (2 if len(parts) == 1 and subs else 4), replaced(alone, 3, "items=" + name)


# ---- chains and subfields

def chain_counts(cat):
    """Parts that a chain can't have; the line missing, or of a chain that has no such line."""
    for name, parts, _ in PAPERS[cat]:
        if len(parts) < 2:
            yield 4, text_of([f"cat={cat}", "len=3", f"items={name}", f"{name}.chain={len(parts)}", "end=ok"])
        else:
            lines = item_alone(cat, name, len(parts), (), ones)
            yield 4, replaced(lines, 4)
            yield from ((4, replaced(lines, 4, f"{name}.chain={value}")) for value in (0, len(parts) + 1, 255, f"0{len(parts)}"))


def other_counts(cat):
    """More parts than there are lines for, refused behind the last of them; fewer, refused where the first part too many begins."""
    for name, parts, subs in PAPERS[cat]:
        for count, said in itertools.permutations(range(1, len(parts) + 1), 2) if not subs else []:
            lines = item_alone(cat, name, count, (), ones)
            if said in (1, count - 1, count + 1, len(parts)):
                yield min(len(lines), 5 + sum(len(numbers) for _, numbers in parts[:said])), replaced(lines, 4, f"{name}.chain={said}")


def late_subfields(cat):
    """M5N.FOM, which the second part announces, behind one part; two parts without it, where only the length is wrong."""
    if "M5N" in items_named(cat):
        for there in ((7,), (6, 7), range(8)):
            lines = item_alone(cat, "M5N", 2, there, zero)
            yield place(lines, "M5N.FOM"), replaced(lines, 4, "M5N.chain=1")
            yield 2, replaced(lines, place(lines, "M5N.FOM"))


def subfields_out_of_turn(cat):
    """Two subfields the wrong way round: the second is refused where it begins. A group opened by its second key; one that stops before its last."""
    for name, parts, subs in PAPERS[cat]:
        for a, b in itertools.pairwise(range(len(subs))) if parts else []:
            lines = item_alone(cat, name, len(parts), (a, b), zero)
            head, first, second = 4 + (len(parts) > 1), f"{name}.{subs[a][0]}", f"{name}.{subs[b][0]}"
            one, other = ([line for line in lines if line.startswith((sub + ".", sub + "="))] for sub in (first, second))
            yield head + len(other), text_of([*lines[:head - 1], *other, *one, *lines[-1:]])
            if len(one) > 1:
                yield head, text_of([*lines[:head - 1], *one[1:], *lines[-1:]])
                yield head + len(one) - 1, text_of([*lines[:head - 1], *one[:-1], *other, *lines[-1:]])


# ---- derived lines

def angle_lines(cat):
    """(lines, number of the line of a latitude or longitude) for numbers with halves, and some without."""
    numbers = iter({48: (16384, -16384, 1, -1), 7: (49152, -4194303)}.get(cat, ()))
    for name, number in itertools.product([name for name in ("MD5", "M5N") if name in items_named(cat)], ("LAT", "LON")):
        z = next(numbers)
        lines = item_alone(cat, name, 1, (2,), lambda number: z)
        yield lines, place(lines, f"{name}.POS.{number}")


def angles_wrong(cat):
    """.udeg or .left one off, of the other sign, missing, exchanged, of the number beside it; halves toward zero, where the sum is right."""
    for lines, k in angle_lines(cat):
        key, _, z = lines[k - 1].partition("=")
        udeg, left = (int(line.partition("=")[2]) for line in lines[k:k + 2])
        yield from ((k + 1, replaced(lines, k + 1, f"{key}.udeg={value}")) for value in (udeg + 1, udeg - 1, -udeg))
        yield from ((k + 2, replaced(lines, k + 2, f"{key}.left={value}")) for value in (left + 1, left - 1, -left))
        yield k + 1, replaced(lines, k + 1)
        yield k + 2, replaced(lines, k + 2)
        yield k + 1, text_of([*lines[:k], lines[k + 1], lines[k], *lines[k + 2:]])
        yield k + 1, replaced(lines, k, f"{key}={int(z) + 1}")
        toward = -1 if udeg > 0 else 1
        yield k + 1, text_of([*lines[:k], f"{key}.udeg={udeg + toward}", f"{key}.left={left - 32768 * toward}", *lines[k + 2:]])


def pressures_wrong(cat):
    """BPS.tenths one off, and BPS.sense each other word, in capitals, cut, missing, twice; a number that its derived lines are not of."""
    for n in (0, 1, 4095) if cat == 21 else []:
        lines = item_alone(21, "BPS", 0, (), lambda number: n)
        sense = SENSES.get(n, "equal")
        yield from ((5, replaced(lines, 5, f"BPS.tenths={value}")) for value in (8000 + n - 1, 8000 + n + 1, n, f"0{8000 + n}"))
        others = [word for word in ("atmost", "equal", "atleast") if word != sense]
        yield from ((6, replaced(lines, 6, f"BPS.sense={word}")) for word in (*others, sense.upper(), sense[:-1], sense + "s", ""))
        yield from ((k, replaced(lines, k)) for k in (5, 6))
        yield 7, replaced(lines, 6, lines[5], lines[5])
        yield 5, replaced(lines, 4, f"BPS={n + 1 if n < 4095 else n - 1}")


# ---- long texts

def long_texts(cat):
    """As many octets as a word may have, in one category by turns: behind a sheet, in lines of their own, within a line."""
    lines, text = base(cat), text_of(base(cat))
    if cat == 48:
        yield from ((len(lines) + 1, text.ljust(MOST, filler)) for filler in (b"x", b"\n"))
    elif cat == 21:
        yield 3, b"cat=21\nlen=2\nitems=BPS".ljust(MOST - 1, b",") + b"\n"
        yield 1, b"\n" * MOST
    else:
        yield from ((2, b"cat=7\nlen=".ljust(MOST - 1, digit) + b"\n") for digit in (b"0", b"9"))


WRONG = (
    other_keys, other_octets, beyond_limits, no_decimals, missing, doubled, exchanged, inserted, stopped, behind_the_end, categories, lengths,
    names_wrong, off_the_list, on_the_list, chain_counts, other_counts, late_subfields, subfields_out_of_turn, angles_wrong, pressures_wrong, long_texts,
)


# ---- requests

def good(cat, rng):
    """Sheets of every item and subfield, of every length of a chain, at the ends of numbers; the longest; any."""
    yield from no_items(cat)
    yield from full(cat)
    for kind, step in ((items_alone, 1), (subfields_alone, 2), (every_indicator, 12), (angles, 24), (both_angles, 6), (pressures, 1), (empty_last_parts, 3),
                       (one_part, 4)):
        yield from itertools.islice((field for field in kind(cat) if read(cat, field)[0] == "ok"), 0, None, step)
    yield base_field(cat)
    yield from (good_field(cat, rng) for _ in range(8))


def spoilt_vectors(rng, count, sheets):
    """So many spoilt sheets, in room enough and in less."""
    for _ in range(count):
        text = spoilt(rng, rng.choice(sheets), rng.choice(sheets))[:MOST]
        yield text, rng.choice([ROOM, ROOM, ROOM, rng.randrange(60)])


def wrong_vectors(cat):
    """18 comes before 11: every third in no room."""
    made = (text for kind in WRONG for _, text in kind(cat))
    yield from ((text, 0 if k % 3 == 0 else ROOM) for k, text in enumerate(dict.fromkeys(made)))


def good_vectors(cat, rng):
    """In room that is just enough, every fifth in one octet less, too; the longest in many rooms."""
    for k, field in enumerate(dict.fromkeys(good(cat, rng))):
        text = text_of(lines_of(cat, field))
        yield text, len(field)
        if k % 5 == 0:
            yield text, len(field) - 1
    longest = full_field(cat, widest)
    yield from ((text_of(lines_of(cat, longest)), room) for room in (0, 1, 2, len(longest) - 1, len(longest) + 1, ROOM))


def vectors():
    rng = random.Random(60210487)
    yield from ((text, room) for text, room, _ in WORKED)
    for cat in PAPERS:
        yield from good_vectors(cat, rng)
        yield from wrong_vectors(cat)
    yield from spoilt_vectors(rng, 50, pool(rng, 60))


def requests():
    yield from ((b"rebuild", text, room) for text, room in vectors())


# ---- what the texts reach

def good_covered(cat, texts):
    """Each number stands on an accepted sheet at both its ends, each chain with each number of parts; the longest sheet; no items and all items."""
    said = defaultdict(set)
    for text in texts:
        for line in text.decode().splitlines():
            key, _, value = line.partition("=")
            said[cat, key].add(value)
    numbers_covered(cat, said)
    assert {"", ",".join(items_named(cat))} <= said[cat, "items"] and max(map(len, texts)) == LONGEST[cat], cat


def covered():
    """Each generator makes what it says; every answer by 02's sentence; what accepted sheets hold; every line of a base is refused often."""
    for kind in WRONG:
        made = [(line, text, rebuild(text, ROOM)) for cat in PAPERS for line, text in kind(cat)]
        differing = [row for row in made if row[2] != ("refused", 18, row[0])]
        assert made and not differing, (kind.__name__, differing[:1])
    answers = [(checked(text, room), text) for text, room in dict.fromkeys(vectors())]
    counts = Counter(got[2] for got, _ in answers if got[:2] == ("refused", 18))
    assert all(counts[line] >= 5 for line in range(1, 1 + max(len(base(cat)) for cat in PAPERS))), counts
    for cat in PAPERS:
        good_covered(cat, [text for got, text in answers if got[:2] == ("ok", cat)])
    assert sum(got[:2] == ("refused", 11) for got, _ in answers) >= 50
    assert {0, 1, MOST} <= {len(text) for _, text in answers} and len(answers) <= 1520


# ---- the built program

CHUNK = 5000  # requests that one run of the program is sent


def asked(program, made):
    """The answers of the program, and its exit status."""
    with file_with(b"\n".join(line_of((b"rebuild", *vector)) for vector in made)) as lines, started(program, stdin=lines, stdout=PIPE) as desk:
        return desk.stdout.read().decode("latin-1").removesuffix("\n").split("\n"), desk.wait()


def compared(made, wanted, answers, status):
    """How many answers are not the right ones, an exit status that is not 0 for one; the first of them."""
    differing = [(request, right, got) for request, right, got in itertools.zip_longest(made, wanted, answers) if right != got]
    for request, right, got in differing[:1]:
        print(f"{request} is answered {got} and should be {right}")
    return len(differing) + (status != 0)


def spread(answers):
    """How often each answer is given."""
    counts = Counter("ok" if got[0] == "ok" else got[1:] for got in answers)
    lines = ", ".join(f"{line}: {counts[18, line]}" for line in sorted(line for number, line in counts.keys() - {"ok"} if number == 18))
    return f"ok {counts['ok']}, refused by 11 {counts[11, 0]}, by 18 at line {lines}"


def run(count, seed, ask):
    """So many spoilt sheets, to what `ask` answers; how many answers differ."""
    rng = random.Random(seed)
    sheets, differences, answers = pool(rng, 2000), 0, []
    made = spoilt_vectors(rng, count, sheets)
    while chunk := list(itertools.islice(made, CHUNK)):
        right = [rebuild(text, room) for text, room in chunk]
        differences += compared(chunk, list(map(told, right)), *ask(chunk))
        answers += right
    print(f"{len(answers)} spoilt sheets: {spread(answers)}")
    print(f"rebuilds: {differences} differences")
    return differences


def main():
    given = argparse.ArgumentParser(description="Sends spoilt sheets to refdesk and holds its answers against the tests' own implementation.")
    given.add_argument("count", type=int)
    given.add_argument("--seed", type=int, default=1)
    given.add_argument("--program", default="refdesk", help="refdesk, or the path of another build of it")
    given = given.parse_args()
    sys.exit(run(given.count, given.seed, functools.partial(asked, given.program)) > 0)


if __name__ == "__main__":
    main()
