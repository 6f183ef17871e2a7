#!/usr/bin/env python3
"""Brings this repository's own names to today's spelling: run it once, at the top, behind port.py.

port.py respells the names of the library. This does the same for ours, in every text below crates/ that is Rattle's or antt's,
and in the must-fail edits:

- a definition is in snake case (itemsOf: items_of), and so is the part of a lemma's name that names it;
- a label and a constructor are Rust identifiers (octets-are: octets_are);
- the proof of a function f is f_spec;
- in a lemma's name a dash joins two names (length-numbers), and a plain word is added with _ (slot-there: slot_there); one that
  would have its function's name gets _lem (up-to: up_to_lem).

Types, modules, what Rattle makes of the source's names, functions, strings and prose stay as they are. With --check it only says
where two names would fall together.
"""

import pathlib
import re
import sys

ROOT = pathlib.Path("crates")
DEFINED = re.compile(r"^\s*(?:(?:pub|abbrev|unfoldable) )*([^\s():{}.,;]+) : ", re.M)
HEAD = re.compile(r"^\s*(?:(?:pub|abbrev|unfoldable) )*(record|data)\b.*\bwhere$")
TOKEN = re.compile(r'"(?:[^"\\]|\\.)*"|[^\s(){};,."]+|.', re.S)
# names of the library that lemmas are about
LIBRARY = {"length", "take", "drop", "append", "map", "get_or", "set", "replicate", "reverse", "pos", "eqb", "leb", "ltb", "cond", "and", "sum"}
# what would fall together with another name of its file, or says something else
BY_HAND = {
    "are-octets": "are_all_octets",
    "is-item": "is_an_item",
    "flags-under": "flags_are_under",
    "eqZ": "eq_int",
    "eqZ-same": "eq_int-same",
    "getD-sets-at": "get_or-sets_at",
    "getD-sets-over": "get_or-sets_over",
    "getD-sets-under": "get_or-sets_under",
}
# steps of a function's proof that port.py gave a lemma's name
STEPS = {"spot_of_lem": "spot_of", "step_of_lem": "step_of"}
# lemmas that port.py gave the name that their function has now
LEMMAS = {it: it + "_lem" for it in ("is_one", "fine_names", "same_text", "lines_ok", "nums_at", "top_right")}


def snake(name):
    return re.sub(r"(?<=[a-z0-9])([A-Z]+)", lambda it: "_" + it[1].lower(), name)


def members(text):
    """The labels and constructors that a file declares."""
    inside, indent = False, 0
    for line in text.split("\n"):
        head = HEAD.match(line)
        if head:
            inside, indent = True, len(line) - len(line.lstrip())
        elif inside and line.strip() and len(line) - len(line.lstrip()) <= indent:
            inside = False
        elif inside:
            found = re.match(r"\s+(?:pub )?([^\s:(){}]+(?: [^\s:(){}]+)*) : ", line)
            if found:
                yield from (it for it in found[1].split() if it != "pub")


def names(texts):
    """Returns the new spelling of each definition, and of each label and constructor."""
    fields = {it for text in texts for it in members(text)}
    defined = {it for text in texts for it in DEFINED.findall(text)} | fields
    functions = {p.stem if p.stem != "Proof" else p.parent.name for p in ROOT.glob("*/proofs/*/Proof.antt")}
    own = {snake(it) for it in defined if "-" not in it and it not in fields and it not in LEMMAS}
    known, new = own | LIBRARY, {}
    for it in sorted(defined):
        if not it[0].islower() or it.startswith(("Need", "Inv", "the-")):
            continue
        if it in BY_HAND | LEMMAS:
            new[it] = (BY_HAND | LEMMAS)[it]
        elif it in fields:
            new[it] = snake(it).replace("-", "_")
        elif it.endswith("-spec"):
            new[it] = it.replace("-", "_")
        else:
            parts = snake(it).split("-")
            name = parts[0]
            for left, right in zip(parts, parts[1:]):
                joins = left in known and right in known
                name += ("-" if joins else "_") + right
            new[it] = name + ("_lem" if "-" in it and name in own else "")
    return {a: b for a, b in (new | STEPS).items() if a != b}, fields | STEPS.keys()


def turned(text, new, fields, prose, aliases, is_code):
    """Returns the text with the names that it cites respelled: in prose only those that are no words."""
    out, before = [], ["", ""]
    for token in TOKEN.findall(text):
        it = token
        if it in new and not it.startswith('"') and not (it in LEMMAS and is_code):
            behind_dot = before[-1] == "." and re.search(r"[\w)'}\]]$", before[-2] or " ")
            is_module = before[-2] in aliases or before[-2][:1].isupper() or before[-2] == "}"
            if prose:
                it = new[it] if re.search(r"[a-z][A-Z]", it) else it
            elif not behind_dot or it in fields or is_module:
                it = new[it]
        out.append(it)
        before = [before[-1], token]
    return "".join(out)


def respelled(path, text, new, fields):
    mark = "//" if path.suffix == ".rt" else "--" if path.suffix == ".antt" else "#"
    aliases = set(re.findall(r"^use Rattle\.\w+\.(?:specs|proofs\.[A-Z])\S* as (\S+)$", text, re.M))
    lines, is_code = [], path.suffix != ".antt"
    for line in text.split("\n"):
        at = re.search(rf"(?:^|\s){re.escape(mark)}(?:\s|$)", line) if '"' not in line or line.lstrip().startswith(mark) else None
        code, said = (line[: at.start()], line[at.start() :]) if at else (line, "")
        said = re.sub(r"`[^`]*`", lambda it: turned(it[0], new, fields, False, aliases, is_code), said)
        lines.append(turned(code, new, fields, False, aliases, is_code) + turned(said, new, fields, True, aliases, is_code))
    return "\n".join(lines)


def words(text):
    """The names that a text cites, without the parts of paths."""
    found = set()
    for line in text.split("\n"):
        before = ""
        for token in TOKEN.findall(re.sub(r"^use [\w.+]*", "", line.split(" -- ")[0])):
            if before != "." and len(token) > 1 and token[0] != '"':
                found.add(token)
            before = token
    return found


def main():
    paths = [p for p in sorted(ROOT.rglob("*")) if p.suffix in (".antt", ".rt", ".edit") and "out" not in p.parts]
    texts = {p: p.read_text() for p in paths}
    new, fields = names([t for p, t in texts.items() if p.suffix == ".antt"])
    for path, text in texts.items():
        if path.suffix == ".antt":
            there = words(text)
            for old in sorted(there & new.keys()):
                others = {it for it in there if it != old and new.get(it, it) == new[old]}
                if others:
                    print(f"{path}: {old} would be {new[old]}, as {', '.join(sorted(others))}")
    if "--check" in sys.argv[1:]:
        print(len(new), "names")
        return
    for path, text in texts.items():
        turn = respelled(path, text, new, fields)
        if turn != text:
            path.write_text(turn)


if __name__ == "__main__":
    main()
