"""Lines for `refdesk`: one right request of each form, and lines that are no request, each with the number of its first word that is wrong.

A generator of WRONG gives (number, line); its first line says in which way the lines are wrong. The number comes from how the line was made, not from
tests/refdesk.py, so that the two check each other.
"""
from refdesk import FORMS, LIST, LONGEST, MOST, NUMBER, OCTET, OCTETS, SPACE
from sheets import WORKED_TEXT

SHEET = WORKED_TEXT.hex().upper().encode()  # 01's worked one, as a word
EXAMPLES = [  # a request of each form that is accepted
    b"read 48 062806010000",
    b"write 300 48 0" + b" 0" * 85,
    b"sheet 48 062806010000",
    b"view 48 062806010000 5",
    b"choose 48 062806010000 0200 5",
    b"remove 48 062806010000 FF 3 300",
    b"replace 48 062806010000 FF 4 8007 300",
    b"copy 48 062806010000 20 300",
    b"rebuild " + SHEET + b" 300",
]
WORKED = [  # 01's worked octets, and lines by hand, with their answers
    (b"view 48 062806010000 5", "ok 3 3 010000"),
    (b"view 48 062806010000 4", "refused 15 0"),
    (b"remove 48 062806010000 FF 3 300", "ok 0508010000"),
    (b"replace 48 062806010000 ff 4 8007 300", "ok 0838068007010000"),
    (b"replace 48 062806010000 30 5 020000 300", "refused 13 0"),
    (b"replace 48 062806010000 08 5 020000 6", "ok 062806020000"),
    (b"replace 48 062806010000 08 5 020000 5", "refused 11 0"),
    (b"replace 48 062806010000 10 5 020000 300", "refused 13 0"),  # the list of RPC, which a decimal 10 would not be
    (b"choose 48 062806010000 0200 5", "ok 1 3 3 010000"),
    (b"choose 48 062806010000 0280 5", "refused 5 2 2"),
    (b"copy 48 062806010000 20 300", "ok 0508010000"),
    (b"copy 48 062806010000 20 5", "ok 0508010000"),
    (b"copy 48 062806010000 20 4", "refused 11 0"),
    (b"copy 48 062806010000 ff 2", "ok 0200"),
    (b"copy 48 062806010000 07 6", "ok 062806010000"),
    (b"copy 48 03200F FF 0", "refused 6 2"),
    (b"read 48 03200f", "refused 6 2"),
    (b"read 48 -", "refused 2 0"),
    (b"choose 6 - - 0", "refused 1 0 0"),
    (b"remove 48 0580103FD7 FF 1 300", "refused 8 3"),
    (b"sheet 48 062806010000", "ok cat=48 len=6 items=M4E,ERR M4E=3 ERR=65536 end=ok"),
    (b"sheet 48 0200", "ok cat=48 len=2 items= end=ok"),
    (b"sheet 48 03200F", "refused 6 2"),
    (b"sheet 49 0200", "refused 1 0"),
    (b"sheet 48 -", "refused 2 0"),
    (b"rebuild " + SHEET + b" 6", "ok 48 062806010000"),
    (b"rebuild " + SHEET.lower() + b" 300", "ok 48 062806010000"),
    (b"rebuild " + SHEET + b" 5", "refused 11 0"),
    (b"rebuild " + SHEET[:-2] + b" 300", "refused 18 6"),
    (b"rebuild " + SHEET + b"0A 300", "refused 18 7"),
    (b"rebuild - 300", "refused 18 1"),
    (b"", "bad-request 1"),
    (b"read", "bad-request 2"),
    (b"read ", "bad-request 2"),
    (b"read 48", "bad-request 3"),
    (b"read 48 ", "bad-request 3"),
    (b"read 048 0200 0", "bad-request 2"),
    (b"read 48 0200 0", "bad-request 4"),
    (b"view 48 5", "bad-request 3"),
    (b"view 48 0200", "bad-request 4"),
    (b"remove 48 062806010000 255 3 300", "bad-request 4"),
    (b"remove 48 062806010000 8 3 300", "bad-request 4"),
    (b"remove 48 062806010000 3 300", "bad-request 4"),
    (b"replace 48 062806010000 FF 4 300", "bad-request 6"),
    (b"copy 48 062806010000 300", "bad-request 4"),
    (b"copy 48 062806010000 8 300", "bad-request 4"),
    (b"copy 48 062806010000 08", "bad-request 5"),
    (b"rebuild 48 " + SHEET + b" 300", "bad-request 3"),  # the text says its category
    (b"rebuild cat=48 300", "bad-request 2"),
    (b"rebuild " + SHEET, "bad-request 3"),
    (b"rebuild " + SHEET + b"00" * (MOST - len(SHEET) // 2) + b" 300", "refused 18 7"),
    (b"rebuild " + SHEET + b"00" * (MOST + 1 - len(SHEET) // 2) + b" 300", "bad-request 2"),
    (b"write 300 48 0" + b" 0" * 84, "bad-request 89"),
    (b"write 300 48 0" + b" 0" * 86, "bad-request 90"),
]
PLAIN = [  # no plain decimal, or far past every limit of one
    b"65536", b"4294967295", b"4294967296", b"4294967344", b"18446744073709551616", b"18446744073709551664", b"9" * 40,
    b"-1", b"-0", b"00", b"05", b"+5", b"5.", b"0x5", b"5a", b"a", b"", b"-", b"\xb2", b"5\x00", b"1e1", b"1_0", b"--1",
]
BEYOND = {  # for each kind words that are not of it
    OCTET: PLAIN + [b"256", b"300", b"1000"],
    SPACE: PLAIN + [b"301", b"1000"],
    NUMBER: [b"2147483648", b"-2147483649", b"4294967296", b"-4294967296", b"9" * 30, b"-" + b"9" * 30,
             b"-0", b"-00", b"-01", b"01", b"-", b"--1", b"+1", b"1-", b"", b"1.", b"0x1"],
    LIST: [b"", b"F", b"8", b"0", b"255", b"0FF", b"F8F8", b"-", b"--", b"-8", b"+8", b"0x", b"g0", b"0G", b"@0", b"0`", b":0", b"0/", b"F\xb2", b"\x0008"],
    OCTETS: [b"", b"0", b"6", b"06280", b"0g", b"G0", b"0x06", b"--", b"-06", b"06-", b"@0", b"0`", b":0", b"0/", b"\x0006", b"06\xff"],
}
SHOWN = 13  # of the words of `write` so many stand for all


def with_word(line, number, word):
    words = line.split(b" ")
    return b" ".join(words[:number - 1] + [word] + words[number:])


def kinds_of(line):
    """(number, kind) of each word behind the name; of many of one kind the first and the last."""
    found = list(enumerate(FORMS[line.split(b" ")[0]][0], 2))
    return found[:SHOWN] + found[SHOWN:][-1:]


# ---- lines that are no request

def other_names(rng):
    """A name that there is not."""
    for line in EXAMPLES:
        name, rest = line.split(b" ", 1)
        for other in (b"", name.upper(), name.title(), name[:-1], name + b"s", name + b"\x00", b"-", b"0", b"\x00", b"\xff" + name):
            yield 1, other + b" " + rest
        yield from ((1, other) for other in (name[:-1], name + b"\r", b"\t" + line, b"bad-request"))


def words_missing(rng):
    """The line ends behind each of its words, or behind the space there."""
    for line in EXAMPLES:
        words = line.split(b" ")
        for count in (*range(1, min(len(words), SHOWN)), len(words) - 1):
            yield count + 1, b" ".join(words[:count])
            yield count + 1, b" ".join(words[:count]) + b" "


def words_too_many(rng):
    """A word more behind the last, of any kind, or an empty one; and more of them."""
    for line in EXAMPLES:
        count = len(line.split(b" "))
        yield from ((count + 1, line + more) for more in (b" 0", b" -", b" 00", b" x", b" \x00", b" ", b"  ", b" 0 0", b" " + line))


def wrong_words(rng):
    """Each word by one that is not of its kind; behind it the others, or nothing, or one more that is wrong."""
    for line in EXAMPLES:
        for number, kind in kinds_of(line):
            yield from ((number, with_word(line, number, word)) for word in BEYOND[kind])
            yield number, with_word(line, number, b"x") + b" x"
            yield number, b" ".join(line.split(b" ")[:number - 1] + [b"x"])


def spaces(rng):
    """A space in front, or two in a row; another octet instead of one, so that two words are one."""
    for line in EXAMPLES:
        yield from ((1, b" " + line), (1, b"  " + line))
        for number, _ in kinds_of(line):
            at = len(b" ".join(line.split(b" ")[:number - 1]))
            yield number, line[:at] + b" " + line[at:]
            yield from ((number - 1, line[:at] + other + line[at + 1:]) for other in (b"\t", b"\x00", b",", b"\xa0", b"\r"))


def ends_of_lines(rng):
    """A carriage return, a NUL or a high octet behind the last word."""
    yield from ((len(line.split(b" ")), line + end) for line in EXAMPLES for end in (b"\r", b"\x00", b"\x80", b"\xff", b"\xc3\xa9"))


def long_words(rng):
    """One octet more than a word may have, an odd number of digits, and a long decimal."""
    for line in EXAMPLES:
        for number, kind in kinds_of(line):
            if kind is OCTETS:
                yield number, with_word(line, number, b"0200" + b"EE" * (MOST - 1))
    yield from ((3, b"read 48 " + b"0" * (2 * MOST + more)) for more in (-1, 1))
    yield from ((2, b"read " + digit * 5000 + b" 0200") for digit in (b"0", b"9"))


def long_lines(rng):
    """Lines as long as a line may be, and longer: 0 for those beyond."""
    for number, front, filler in ((1, b"", b"x"), (1, b"", b" "), (4, EXAMPLES[0], b" "), (3, b"read 48 ", b"0")):
        yield number, front.ljust(LONGEST, filler)
        yield 0, front.ljust(LONGEST + 1, filler)
    yield 0, b"x" * (3 * LONGEST)
    yield 0, b"choose 48 " + b"00" * MOST + b" " + b"00" * MOST + b" 5"  # each word by itself is right


WRONG = (other_names, words_missing, words_too_many, wrong_words, spaces, ends_of_lines, long_words, long_lines)


# ---- lines at their limits, and any others

def at_the_limits(rng):
    """Requests: as many octets as a word may have, numbers at the ends of their range, hex digits in either case."""
    for line in EXAMPLES:
        for number, kind in kinds_of(line):
            words = {OCTETS: [b"0200" + b"ee" * (MOST - 2), b"-", b"fF"], OCTET: [b"0", b"255"], SPACE: [b"0", b"300"], LIST: [b"00", b"aF", b"9a"],
                     NUMBER: [b"2147483647", b"-2147483648", b"-1"]}[kind]
            yield from (with_word(line, number, word) for word in words)
    front, end = b"choose 7 0200".ljust(9 + 2 * MOST, b"0") + b" ", b" 5"
    yield front + b"0200".ljust(LONGEST - len(front) - len(end), b"0") + end


def noise(rng):
    """Any octets, and requests with an octet changed, lost or more."""
    for _ in range(150):
        yield rng.randbytes(rng.randrange(1, 80)).replace(b"\n", b"")
    for line in EXAMPLES * 30:
        k, o = rng.randrange(len(line)), rng.choice(b" -0159aAfFgG\x00\xff\r")
        yield rng.choice([line[:k] + bytes([o]) + line[k + 1:], line[:k] + line[k + 1:], line[:k] + bytes([o]) + line[k:]])


def either_case(line, rng):
    """Hex digits in either case: words of small letters stay as they are, since no name has a capital."""
    name, *words = line.split(b" ")
    return b" ".join([name] + [bytes(rng.choice([o, o | 32]) if 65 <= o <= 70 else o for o in word) for word in words])
