"""Which texts our program prints: 02's sentence on a sheet that is read back (Ask 6), over the sheets that tests/reference.py prints, to hold its
`rebuild` against, which takes a text line by line.

Here the lines are the front of a sheet exactly if they are the front of one sheet: that of what they tell, each number taken by its key, wherever that
stands. Lines are texts without their line feeds, and all of them had one.
"""
import itertools
import re

from fields import field_of, limits
from papers import PAPERS
from reference import LONGEST_TEXT, keys, lay_item, read, rebuild, sheet


def plain(value):
    """The number that a value writes; 0 if it writes none, and then that is not what is printed."""
    return int(value) if re.fullmatch("-?[0-9]{1,10}", value) else 0


def number_told(number, value):
    low, high = limits(number)
    return plain(value) if low <= plain(value) <= high else 0


def item_told(item, said):
    """The octets of an item: as many parts as the chain's line says, the subfields that a line opens, 0 for each number that no line tells."""
    name, parts, subs = item
    shown = [key for key in keys(item) if key]
    numbers = [number for *_, defined in subs or parts for number in defined]
    first = [shown[k] for k in itertools.accumulate((len(defined) for *_, defined in subs[:-1]), initial=0)] if parts and subs else []
    count = max(1, min(len(parts), plain(said.get(f"{name}.chain", "")))) if parts else 0
    return lay_item(item, count, [int(key in said) for key in first] + [number_told(n, said.get(key, "")) for key, n in zip(shown, numbers)])


def input_told(lines):
    """The category and the field that these lines tell, if they are the first of a sheet."""
    said = dict(line.partition("=")[::2] for line in lines)
    cat = next((cat for cat in PAPERS if said.get("cat") == str(cat)), 48)
    names = said.get("items", "").split(",")
    return bytes([cat]) + field_of({i: item_told(item, said) for i, item in enumerate(PAPERS[cat]) if item[0] in names})


def aside(lines):
    """The lines with the value of `len` set aside, if it has its form."""
    right = lines[1:] and re.fullmatch("len=[1-9][0-9]{0,2}", lines[1]) and 2 <= int(lines[1][4:]) <= 255
    return [lines[0], "len", *lines[2:]] if right else lines


def agrees(lines, k):
    """Whether a printed sheet has the first k lines of these, the value of `len` set aside."""
    given = input_told(lines[:k])
    return k <= len(lines) and read(given[0], given[1:])[0] == "ok" and aside(sheet(given).splitlines()[:k]) == aside(lines[:k])


def split(text):
    """The lines of a text, and what stands behind the last line feed."""
    *lines, rest = text.decode("latin-1").split("\n")
    return lines, rest


def checked(text, room):
    """The answer to a text, after it was held against the sentence."""
    got, (lines, rest) = rebuild(text, room), split(text)
    if len(text) > LONGEST_TEXT:
        assert got == ("refused", 18, 0), got
    elif rest or lines[-1:] != ["end=ok"] or not agrees(lines, len(lines)):
        assert got[:2] == ("refused", 18) and agrees(lines, got[2] - 1) and not agrees(lines, got[2]), (text, got)
    else:
        given = input_told(lines)
        wanted = ("ok", given[0], given[1:]) if given[1] <= room else ("refused", 11, 0)
        assert got == (wanted if sheet(given).encode() == text else ("refused", 18, 2)), (text, room, got)
    return got
