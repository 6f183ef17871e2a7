"""Texts near a sheet, most of them none, drawn for the tests of `rebuild`; from tests/reference.py and tests/papers.py alone.

A way takes the lines of a sheet, without their line feeds, and those of another, and gives lines; there is one at least in each.
"""
import itertools
import re

from fields import drawn, full_field, good_field
from papers import PAPERS
from reference import number_lines, sheet


def a_line(rng, lines):
    return rng.randrange(len(lines))


def drop_line(rng, lines, others):
    k = a_line(rng, lines)
    return lines[:k] + lines[k + 1:]


def double_line(rng, lines, others):
    k = a_line(rng, lines)
    return lines[:k + 1] + lines[k:]


def move_line(rng, lines, others):
    k, rest = a_line(rng, lines), list(lines)
    line = rest.pop(k)
    rest.insert(rng.choice([k + 1, max(0, k - 1), rng.randrange(len(rest) + 1)]), line)
    return rest


def take_line(rng, lines, others):
    """A line of the other sheet, put before a line of this one or in its place."""
    k = a_line(rng, lines)
    return lines[:k] + [rng.choice(others)] + lines[k + rng.randrange(2):]


def go_over(rng, lines, others):
    """The front of this and the rest of the other."""
    return lines[:a_line(rng, lines) + 1] + others[a_line(rng, others):]


def stop(rng, lines, others):
    return lines[:a_line(rng, lines)]


def change_value(rng, lines, others):
    """A number moved or written otherwise, or a letter of another value changed."""
    k = a_line(rng, lines)
    key, sign, value = lines[k].partition(b"=")
    if re.fullmatch(rb"-?[0-9]{1,10}", value):
        n = int(value)
        moved = [b"%d" % z for z in (n + 1, n - 1, -n, n + (1 << rng.randrange(26)), n - (1 << rng.randrange(26)), n + (1 << 32))]
        value = rng.choice(moved + moved[:3] + [b"0" + value, b"+" + value, b"-" + value, b" " + value, value + b" ", value[:-1], b"=" + value])
    elif value:
        at = rng.randrange(len(value))
        value = value[:at] + bytes([rng.choice(b"aekmotMN54,=.")]) + value[at + rng.randrange(2):]
    return lines[:k] + [key + sign + value] + lines[k + 1:]


def tell_another(rng, lines, others):
    """Another number, with what is derived from it: right, if the number may be so."""
    k = rng.choice([k for k, line in enumerate(lines) if re.match(rb"(BPS|.*\.LAT|.*\.LON)=", line)] or [a_line(rng, lines)])
    key, z = lines[k].partition(b"=")[0].decode("latin-1"), rng.choice([0, 1, -1, 4095, rng.randrange(4096), rng.randrange(-(1 << 23), 1 << 23)])
    new = [line.encode("latin-1") for line in number_lines(key, z)]
    return lines[:k] + new + lines[k + len(new):]


def set_length(rng, lines, others):
    return lines[:1] + [b"len=%d" % rng.choice([rng.randrange(2, 60), rng.randrange(300)])] + lines[2:]


def set_names(rng, lines, others):
    """A name less, more or in another place on line 3."""
    names = lines[2].removeprefix(b"items=").split(b",") if lines[2:] else []
    known = [item[0].encode() for item in PAPERS[rng.choice(list(PAPERS))]]
    at = rng.randrange(len(names) + 1)
    names = rng.choice([names[:at] + names[at + 1:], names[:at] + [rng.choice(known)] + names[at:], names[at:] + names[:at]])
    return lines[:2] + [b"items=" + b",".join(names)] + lines[3:]


def hurt_octet(rng, lines, others):
    """An octet of a line changed, lost or more."""
    k = a_line(rng, lines)
    line, at = lines[k], rng.randrange(len(lines[k]) + 1)
    octet = bytes([rng.choice(b"0123456789-=,.\r\0 ") if rng.randrange(4) else rng.randrange(256)])
    line = rng.choice([line[:at] + octet + line[at + 1:], line[:at] + line[at + 1:], line[:at] + octet + line[at:]])
    return lines[:k] + [line] + lines[k + 1:]


WAYS = (drop_line, double_line, move_line, take_line, go_over, stop, change_value, change_value, change_value, tell_another, set_length, set_names,
        hurt_octet, hurt_octet)


def spoilt(rng, text, other):
    """The sheet changed in one way or two, some with lines of another; a few as they are; then a few cut, longer, or with other ends of lines."""
    lines, others = text.split(b"\n")[:-1], other.split(b"\n")[:-1]
    for _ in range(rng.choice([0, 1, 1, 1, 1, 1, 2, 2])):
        lines = rng.choice(WAYS)(rng, lines or [b""], others or [b""])
    made = b"".join(line + b"\n" for line in lines)
    way = rng.randrange(100)
    if way < 3:
        return made[:rng.randrange(len(made) + 1)]
    if way < 6:
        return made + rng.choice([b"\n", b"\0", b"end=ok\n", other])
    return made.replace(b"\n", b"\r\n") if way == 6 else made


def pool(rng, count):
    """So many sheets, of the categories by turns: of drawn fields, and every tenth of a field with all items, parts and subfields."""
    cats = itertools.islice(itertools.cycle(PAPERS), count)
    inputs = (bytes([cat]) + (good_field(cat, rng) if k % 10 else full_field(cat, drawn(rng))) for k, cat in enumerate(cats))
    return [sheet(given).encode() for given in inputs]
