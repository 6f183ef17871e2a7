#!/usr/bin/env python3
"""What other languages take over of the papers' data (tests/slots.py) and of docs/PROTOCOL.md: python/paltinoma.json, and the made part of
include/refdesk.h.

    python3 tests/ways.py          says which of the two is not as its sources have it
    python3 tests/ways.py write    makes both
"""
import json
import re
import sys

import spares
from protocol import PAGE, table
from slots import CATEGORIES, ENDS, NO_COUNTS, OCTAL, REMARKS, ROOT, Number, indicator, lines, paper, rows

DATA = ROOT / "python/paltinoma.json"
HEADER = ROOT / "include/refdesk.h"
WIDTH = 120  # of the header
LONG = 180  # of a line of the data


def refusals():
    """Number, words and advice of each, as docs/PROTOCOL.md has them."""
    return [(int(number), words, advice) for number, words, advice in table(PAGE, "no. | given when | what to do")]


# ---- python/paltinoma.json

def titles():
    """What each item is called, by its category and name: the page's tables have the categories in their order, each item in its turn."""
    named = [(cat, entry.name) for cat in CATEGORIES for entry in paper(cat)]
    found = list(table(PAGE, "item | name | list | what it is"))
    if [name for _, name in named] != [name for _, name, _, _ in found]:
        raise ValueError("docs/PROTOCOL.md has other items than the papers")
    return dict(zip(named, (title for *_, title in found)))


def sections(cat):
    """Where its paper prints each item, and the indicator."""
    return {line.item: line.sections[CATEGORIES[cat][1]] for line in spares.lines()[cat]}


def number_data(cat, row):
    """What is said of a number beyond its bits and its slot; what is absent is 0, false or none."""
    n, known = row.number, (cat, row.key)
    if row.key is None:
        return {"key": row.name, "flag": True}
    said = {
        "key": row.key,
        "signed": n.signed,
        "limits": list(n.limits or ()),
        "lsb": list(map(int, n.lsb or ())),
        "unit": n.unit,
        "start": n.start,
        "ends": known in ENDS,
        "code": known in NO_COUNTS,
        "octal": known in OCTAL,
        "note": REMARKS.get(known, ""),
    }
    return {name: value for name, value in said.items() if value}


def run_data(cat, run, found):
    """A run of bits: a number with its slot, or spare bits. `found` has the rows of the category that are left."""
    data = {"hi": run.hi, "lo": run.lo}
    if isinstance(run, Number):
        row = next(found)
        data.update(slot=row.slot, **number_data(cat, row))
    return data


def category_data(cat):
    entries, found = paper(cat), iter(rows(paper(cat)))
    edition, document = CATEGORIES[cat]
    items = [item_data(cat, number, entry, found) for number, entry in enumerate(entries, 1)]
    longest = 2 + sum(line["octets"] for item in items for line in item["lines"])
    spare = [{"hi": run.hi, "lo": run.lo} for run in indicator(cat).runs if not isinstance(run, Number)]
    return {"number": cat, "edition": edition, "document": document, "section": sections(cat)["indicator"], "longest": longest, "spare": spare, "items": items}


def item_data(cat, number, entry, found):
    structures = zip(lines(entry), entry.parts + entry.subs)
    made = [line_data(cat, line, structure, k < len(entry.parts), found) for k, (line, structure) in enumerate(structures)]
    return {"number": number, "name": entry.name, "title": titles()[cat, entry.name], "section": sections(cat)[entry.name], "lines": made}


def line_data(cat, line, structure, chain, found):
    """A part or subfield; `below` is how many bits of later parts the paper numbers below it, where it does so."""
    below = {run.below for run in structure.runs}
    if len(below) != 1:
        raise ValueError(f"category {cat}: the bits of {line.label} are numbered in several ways")
    data = {"name": line.label, "octets": line.octets, "chain": chain, "below": below.pop(), "runs": [run_data(cat, run, found) for run in structure.runs]}
    return {name: value for name, value in data.items() if value}


def laid(value, inner=""):
    """JSON as text: what has no rows in it stands in one line, if that is not too long."""
    whole = json.dumps(value, ensure_ascii=False)
    if not isinstance(value, (dict, list)) or len(inner) + len(whole) <= LONG and not has_rows(value):
        return whole
    deeper = inner + " "
    if isinstance(value, list):
        return "[\n" + ",\n".join(deeper + laid(one, deeper) for one in value) + f"\n{inner}]"
    return "{\n" + ",\n".join(f"{deeper}{json.dumps(name)}: {laid(one, deeper)}" for name, one in value.items()) + f"\n{inner}}}"


def has_rows(value):
    """Whether a list of objects stands in it."""
    if isinstance(value, dict):
        return any(map(has_rows, value.values()))
    return isinstance(value, list) and any(isinstance(one, dict) for one in value)


def data():
    made = {
        "made": "by python3 tests/ways.py write from crates/papers/specs and docs/PROTOCOL.md, not by hand",
        "slots": int(re.search(r"const SLOTS: usize = (\d+);", spares.source("layout"))[1]),
        "refusals": [{"number": number, "words": words, "advice": advice} for number, words, advice in refusals()],
        "categories": [category_data(cat) for cat in CATEGORIES],
    }
    return laid(made) + "\n"


# ---- the made part of include/refdesk.h

BEGIN = "/* ---- items, slots and words: made by `python3 tests/ways.py write`, not by hand */\n"
END = "/* ---- end of what is made */\n"
ITEMS = """
/* The number of each item of a category. REF_LISTED gives its bit in a list. */
"""
SLOTS = """
/*
 * The slot of each number in a record of a category. Its index in the record's array is REF_RECORD_NUMBERS + slot. A name
 * with HAS is that of a presence flag, 1 if the subfield is there. docs/NUMBERS.md has bits, sign, limits, LSB and unit.
 */
"""
WORDS = """
/*
 * What an answer's REF_NUMBER says, in words: "accepted" for 0, and "no such refusal" for a number that is none. It is the one
 * function that stands here and not in the archive, and nothing is proved of it: the words are those of docs/PROTOCOL.md.
 */
static inline const char *ref_words(unsigned number)
{
    switch (number) {
    case 0: return "accepted";
%s    default: return "no such refusal";
    }
}
"""


def c_name(*words):
    name = re.sub("[.#]", "_", "_".join(("REF", *words))).upper()
    if not name.isidentifier():
        raise ValueError(f"no name in C: {name}")
    return name


def slot_name(cat, row):
    return c_name(f"{cat:03}", *([] if row.key else ["HAS"]), row.name)


def enum(name, groups):
    """Groups of (name, number); each begins on a line of its own."""
    out, last = [], groups[-1][-1]
    for group in groups:
        for k, (constant, number) in enumerate(group):
            word = f"{constant} = {number}" + ("," if (constant, number) != last else "")
            if k and len(out[-1]) + 1 + len(word) <= WIDTH:
                out[-1] += f" {word}"
            else:
                out.append(f"    {word}")
    return "\n".join([f"enum {name} {{", *out, "};\n"])


def item_groups(cat):
    return [[(c_name("ITEM", f"{cat:03}", entry.name), number) for number, entry in enumerate(paper(cat), 1)]]


def slot_groups(cat):
    """A chain part or subfield is a group."""
    groups, before = [], None
    for row in rows(paper(cat)):
        if row.line is not before:
            groups.append([])
        groups[-1].append((slot_name(cat, row), row.slot))
        before = row.line
    return groups


def enums(kind, groups_of):
    return "\n".join(enum(f"ref_{kind}_{cat:03}", groups_of(cat)) for cat in CATEGORIES)


def twice():
    """Names of C that two constants would have."""
    names = [name for groups_of in (item_groups, slot_groups) for cat in CATEGORIES for group in groups_of(cat) for name, _ in group]
    return {name for name in names if names.count(name) > 1}


def declared():
    if twice():
        raise ValueError(f"two constants of one name: {twice()}")
    cases = "".join(f"    case {number}: return {json.dumps(words)};\n" for number, words, _ in refusals())
    return ITEMS + enums("item", item_groups) + SLOTS + enums("slot", slot_groups) + WORDS % cases + "\n"


def header(text):
    before, begin, rest = text.partition(BEGIN)
    _, end, behind = rest.partition(END)
    if not begin or not end:
        raise ValueError(f"{HEADER} is without the two lines between which the made part stands")
    return before + BEGIN + declared() + END + behind


# ---- the command

def made():
    return {DATA: data(), HEADER: header(HEADER.read_text(encoding="utf-8"))}


def differing():
    return [path for path, text in made().items() if not path.exists() or path.read_text(encoding="utf-8") != text]


def main(arguments):
    if arguments not in ([], ["write"]):
        sys.exit(__doc__)
    if arguments:
        for path, text in made().items():
            path.write_text(text, encoding="utf-8")
    wrong = [str(path.relative_to(ROOT)) for path in differing()]
    for path in wrong:
        print(f"{path} is not as its sources have it: python3 tests/ways.py write")
    return 1 if wrong else 0


if __name__ == "__main__":
    sys.exit(main(sys.argv[1:]))
