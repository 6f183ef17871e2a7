"""The protocol of `refdesk` for the tests, written from docs/PROTOCOL.md over tests/reference.py; it shares nothing with crates/.

A request's form is data: FORMS has its name, the kinds of its words and the operation that answers it. `answer` takes a line, `answers` all that is
sent. A request is kept as (name, values of its words); `line_of` writes it as a line.
"""
import re
from typing import Callable, NamedTuple

from reference import SLOTS, choose, copy, edit, read, rebuild, sheet, view, write

LONGEST = 16384  # octets of a line, its line feed not counted
MOST = 4096  # octets that one word has at most
ROOM = 300  # octets that an output has at most


# ---- the kinds of words

class Kind(NamedTuple):
    value: Callable  # of a word; a ValueError says that the word is not of this kind
    word: Callable  # of a value


def matching(pattern, word):
    if not re.fullmatch(pattern, word):
        raise ValueError(word)
    return word


def decimal(most):
    def value(word):
        number = int(matching(rb"0|[1-9][0-9]{0,9}", word))
        if number > most:
            raise ValueError(word)
        return number
    return Kind(value, lambda number: b"%d" % number)


def signed(word):
    number = int(matching(rb"0|-?[1-9][0-9]{0,9}", word))
    if not -2147483648 <= number <= 2147483647:
        raise ValueError(word)
    return number


def octets(word):
    return b"" if word == b"-" else bytes.fromhex(matching(rb"([0-9A-Fa-f]{2}){1,%d}" % MOST, word).decode())


def hexed(field):
    return field.hex().upper() or "-"


OCTET = decimal(255)
SPACE = decimal(ROOM)
NUMBER = Kind(signed, lambda number: b"%d" % number)
OCTETS = Kind(octets, lambda field: hexed(field).encode())
LIST = Kind(lambda word: int(matching(rb"[0-9A-Fa-f]{2}", word), 16), lambda listed: b"%02X" % listed)


# ---- the requests: what each answers, its first word and then numbers and octets

def read_answer(cat, field):
    got = read(cat, field)
    if got[0] != "ok":
        return got
    cat, items, parts, numbers = got[2]
    return ("ok", got[1], cat, items, *parts, *numbers)


def write_answer(room, cat, items, *rest):
    return write((cat, items, list(rest[:8]), list(rest[8:])), room)


def sheet_answer(cat, field):
    got = read(cat, field)
    return ("ok", *sheet(bytes([cat]) + field).splitlines()) if got[0] == "ok" else got


def remove_answer(cat, field, listed, item, room):
    return edit(cat, field, listed, item, None, room)


FORMS = {
    b"read": ((OCTET, OCTETS), read_answer),
    b"write": ((SPACE, OCTET, OCTET) + (OCTET,) * 8 + (NUMBER,) * SLOTS, write_answer),
    b"sheet": ((OCTET, OCTETS), sheet_answer),
    b"view": ((OCTET, OCTETS, OCTET), view),
    b"choose": ((OCTET, OCTETS, OCTETS, OCTET), choose),
    b"remove": ((OCTET, OCTETS, LIST, OCTET, SPACE), remove_answer),
    b"replace": ((OCTET, OCTETS, LIST, OCTET, OCTETS, SPACE), edit),
    b"copy": ((OCTET, OCTETS, LIST, SPACE), copy),
    b"rebuild": ((OCTETS, SPACE), rebuild),
}


# ---- lines

class BadRequest(Exception):
    def __init__(self, number):
        super().__init__(number)
        self.number = number


def told(got):
    return " ".join(hexed(x) if isinstance(x, bytes) else str(x) for x in got)


def values_of(kinds, words):
    """The words' values; the first word that is wrong is not of its kind, missing, or one too many. The name is word 1."""
    values = []
    for kind, word in zip(kinds, words):
        try:
            values.append(kind.value(word))
        except ValueError:
            raise BadRequest(len(values) + 2) from None
    if len(words) != len(kinds):
        raise BadRequest(len(values) + 2)
    return values


def answer(line):
    name, *words = line.split(b" ")
    try:
        if len(line) > LONGEST:
            raise BadRequest(0)
        if name not in FORMS:
            raise BadRequest(1)
        kinds, operation = FORMS[name]
        return told(operation(*values_of(kinds, words)))
    except BadRequest as bad:
        return f"bad-request {bad.number}"


def answers(asked):
    """One to each line, and to what the end of the input cuts off, unless that is nothing."""
    *lines, last = asked.split(b"\n")
    return "".join(answer(line) + "\n" for line in lines + [last] * (last != b""))


def line_of(request):
    name, *values = request
    kinds, _ = FORMS[name]
    assert len(values) == len(kinds), request
    return b" ".join([name] + [kind.word(value) for kind, value in zip(kinds, values)])
