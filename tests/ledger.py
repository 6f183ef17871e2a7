#!/usr/bin/env python3
"""Makes docs/WRONG_PROGRAMS.md from the must-fail edits, from what a run of `rt ci` or `rt must-fail` said of each, and from
what they take (target/edit-seconds.json, where they were measured):

    rt must-fail >target/edits.out && python3 tests/ledger.py target/edits.out >target/page && mv target/page docs/WRONG_PROGRAMS.md
    python3 tests/ledger.py --times

`--times` has each crate that has edits proved, and each of them tried, from nothing, and keeps the CPU seconds; with crates
behind it, only these.
"""
import json
import os
import re
import resource
import subprocess
import sys
from collections import namedtuple
from functools import cache
from pathlib import Path

ROOT = Path(__file__).resolve().parent.parent
SECONDS = ROOT / "target" / "edit-seconds.json"

# the crates in the order of the layers, and what each of them promises
PROMISES = [
    ("codec", "the definitions of the format: laws of codecs, chains, frames and edits"),
    ("leaves", "`wide`, `wide64`, `octet`, `octet64`, `less`, `less64`, `front`"),
    ("flags", "`index`, `present`, `with_item`, `without_item`, `is_one`"),
    ("papers", "the papers as data: whole, alike where two papers are, and reading the specimens"),
    ("layout", "`is_known`, `items_of`, `spare_of`, `longest_of`, `is_item`, `number_at`; the number of a reason and of a field of a choice, `at`"),
    ("scope", "01's operations, the visitors' copy, the pressure and the exact angle as definitions: the edge octets and sheets computed from them"),
    ("outputs", "`deliver`"),
    ("lengths", "`format_of`"),
    ("shapes", "`shape_at`"),
    ("spots", "`spot_at`, `spot_of`"),
    ("reader", "`read`, `read_into`, `survey`, `is_item`"),
    ("views", "`view_answer`, `view`, `choose_answer`, `choose`"),
    ("angle", "`exact`"),
    ("writer", "`write`"),
    ("desk", "`remove`, `replace`"),
    ("visitors", "`copy`"),
    ("text", "`new`, `as_slice`, `octet`, `word`, `decimal`, `signed`, `octets`, `line_end`, `pair`, and `type_into` of each `Word`"),
    ("position", "`lines`"),
    ("pressure", "`lines`"),
    ("longest", "the longest sheet"),
    ("sheet", "`sheet`, `listed`"),
    ("words", "`word_at`, `number`, `signed`, `small`, `room`, `whole`"),
    ("guess", "reading the sheet back as a definition, that its answer is the right one and the only one, and texts computed from it"),
    ("demands", "the three demands, what 02 asks of each request that has landed, and that the program which `scope` and `guess` define meets them"),
    ("walk", "`past`, `line`, `next`, `skip`, `word`, `value`, `bounded`, `ranged`"),
    ("compare", "`opens`, `first_wrong`"),
    ("taken", "`record`"),
    ("rebuild", "`rebuild`"),
    ("hex_words", "`is_octets`, `octets`, `is_list`, `list`"),
    ("protocol", "`parse`, `record_at`"),
    ("replies", "`bad_request`, `refusal`, `left`, `rebuilt_text`, `view_text`, `choice_text`, `reading_text`, `sheet_text`; a refusal as it is told"),
    ("requests", "`answer`, `reply`"),
    ("lines", "`join`"),
    ("interface", "what crosses to C as definitions, and that a word tells its answer"),
    ("arrays", "`read_array`, `write_array`"),
    ("exports", "`ref_read`, `ref_write`, `ref_view`, `ref_choose`, `ref_remove`, `ref_replace`, `ref_copy`, `ref_sheet`, `ref_rebuild`"),
    ("exports_c", "the nine of `exports`, by the names that C links"),
    ("promises", "the code computes the program of the demands, each promise allows one result, and runs are as 02 asks by their contracts alone"),
    ("inputs", "`read_in`"),
    ("listing", "the private function behind `main`: what is written is the sheet of what was read"),
    ("unlisting", "the private functions behind `main`: what is written is the category and the field of the text that was read, or its refusal"),
    ("refdesk", "the private functions behind `main`: between two reads what is left of the input's last line is held"),
]

# what was measured before the kit did so
OLDER = "With the older kit rattle-kit-5b-plain each edit proved its crate again, and the 192 of then took 1,546 CPU seconds."

# 01, 'How firm each promise is': "These must be unable to meet it"
FIVE = [
    ("a reader or desk that refuses everything", "`reader/refuses_all`, `desk/refuses_all`"),
    ("a reader with one fixed record", "`reader/fixed_record`"),
    ("a sheet with one fixed angle", "`position/fixed_angle`, `angle/fixed`"),
    ("a desk that copies the field through and edits nothing",
     "`desk/copies_field`; as a theorem `copied-through` (demands: `Edited`)"),
    ("a writer that writes nothing", "`writer/writes_nothing`"),
]


def lines_of(edit):
    """rt passes over every line without one of the four marks, so an old or a new text of several lines would leave the
    crate as it is."""
    lines = edit.read_text().splitlines()
    passed = [line for line in lines if line and not re.match(r"# |file: |old: |new:", line)]
    assert not passed, (edit, passed)
    return lines


def changes(edit):
    """(file, old line, new line) of each pair."""
    lines, file, old, found = lines_of(edit), None, None, []
    for line in lines:
        if line.startswith("file: "):
            file = line[6:].strip()
        elif line.startswith("old: "):
            old = line[5:]
        elif line.startswith("new:"):
            found.append((file, old, line[4:].removeprefix(" ")))
            old = None
    assert len(found) == sum(line.startswith("old: ") for line in lines) and all(None not in change for change in found), edit
    return found


def fact(edit):
    """The sentence above an edit."""
    return " ".join(line[1:].strip() for line in lines_of(edit) if line.startswith("#"))


def changed(old, new, most):
    """What differs, with a word or two around it, so many characters of it."""
    a, b = old.split(), new.split()
    start = 0
    while start < min(len(a), len(b)) and a[start] == b[start]:
        start += 1
    end = 0
    while end < min(len(a), len(b)) - start and a[-1 - end] == b[-1 - end]:
        end += 1
    first = max(0, start - 1)
    cut = lambda words: " ".join(words[first : len(words) - end + (1 if end else 0)])[:most]
    return f"{code(cut(a))} → {code(cut(b))}"


def code(text):
    text = text.replace("|", "\\|")
    return f"`` {text} ``" if "`" in text else f"`{text}`"


@cache
def refusals(log):
    """What rt said of each edit that it refused, by crate and name."""
    found = re.findall(r"^rt: must-fail (\w+)/(\S+)\.edit: refused, as it must be(?: \([^)]*\))?(?:: (.*))?$", log, re.M)
    return {(crate, name): said for crate, name, said in found}


def refused_in(crate, name, log):
    """Where the check first fails: the file, in a source file the function, and the goal or the declaration that does not hold."""
    said = refusals(log)[crate, name]
    found = re.match(r"(?:note: )?(?:\./)?(\S+?):(\d+):\d+: (.*)", said)
    if not found:
        return ""
    file, line = found[1], int(found[2])
    inside = [item.name for item in items_of(crate) if file == f"src/{item.module}.rt" and item.at < line][-1:]
    goal = re.match(r"error: `([^`]+)`", found[3]) or re.search(r"\(`([^`]+)`\)", found[3])
    named = [re.sub(r"/(Answers|Invariants|Proof)\.antt$", "", file), *inside, *(goal.groups() if goal else ())]
    return ", ".join(f"`{it}`" for it in named)


def edits_of_crates():
    """The edits of each crate, and that no crate with edits is left out."""
    edits = {crate: sorted((ROOT / "crates" / crate / "must-fail").glob("*.edit")) for crate, _ in PROMISES}
    missing = set(ROOT.glob("crates/*/must-fail/*.edit")) - {path for found in edits.values() for path in found}
    assert not missing, missing
    return {crate: found for crate, found in edits.items() if found}


# ---- which of them each public function has: those whose changed line it runs or looks up

# the functions for C hand their arguments on, and one wrong program is enough for each
DOORS = {"exports", "exports_c"}

ITEM = re.compile(r" *(pub )?(?:extern \"C\" )?(?:fn|const|static) (\w+)")

# the head of a block of items: the trait, and the type that has them
BLOCK = re.compile(r"(?:pub )?trait (\w+)|impl(?:<[^>]*>)? (?:(?:\w+::)*(\w+)(?:<.*?>)? for )?[^\w]*(?:\w+::)*(\w+)")

# a function, constant or method: its module, its type and trait where it has them, its name, whether it is a public function
# of the root, its first line, which is that of its attribute where it has one, and its text
Item = namedtuple("Item", "module type trait name public at text")


def items_of(crate):
    """The functions and constants of a crate's source."""
    found = []
    for file in sorted((ROOT / "crates" / crate / "src").rglob("*.rt")):
        lines = file.read_text().splitlines()
        heads = [(at, ITEM.match(line)) for at, line in enumerate(lines)]
        heads = [(at - lines[at - 1].lstrip().startswith("#["), head) for at, head in heads if head] + [(len(lines), None)]
        for (at, head), (end, _) in zip(heads, heads[1:]):
            public = bool(head[1]) and "fn " in head[0] and file.name == "lib.rt"
            found.append(Item(file.stem, *block_of(lines[: at + 1]), head[2], public, at, "\n".join(lines[at:end])))
    return found


def block_of(lines):
    """The type and the trait of the block that the last of these lines stands in."""
    for line in reversed(lines if lines[-1].startswith(" ") else []):
        if line == "}":
            break
        if block := BLOCK.match(line):
            return block[3], block[1] or block[2]
    return None, None


def structs_of(crate):
    """The text of each struct of a crate's source."""
    sources = [file.read_text() for file in (ROOT / "crates" / crate / "src").rglob("*.rt")]
    return {name: text for source in sources for text, name in re.findall(r"^((?:pub )?struct (\w+)[^;{]*(?:;|\{.*?^\}))", source, re.M | re.S)}


def wrong_programs(crate, edits):
    """Each public function of a crate, and the edits of the items that it comes to by calls and constants, itself
    among them."""
    items, structs = items_of(crate), structs_of(crate)
    named = {item: names_in(item, items, structs) for item in items}
    touched = {}
    for edit in edits:
        for file, line in changed_lines(crate, edit):
            inside = [item for item in items if item.module == file.stem and item.at <= line]
            touched.setdefault(inside[-1], []).append(edit.stem)
    order = lambda it: (it.module, it.name, it.at)
    return {item.name: list(dict.fromkeys(edit for it in sorted(reached(item, named), key=order) for edit in touched.get(it, [])))
            for item in items if item.public}


def changed_lines(crate, edit):
    """The file and the line, from 0, of each change to the crate's source. As rt reads an edit, a pair applies to what those
    before it made, and its old text stands there once."""
    texts, found = {}, []
    for path, old, new in changes(edit):
        if not path.startswith("src/"):
            continue
        file = ROOT / "crates" / crate / path
        text = texts.get(file) or file.read_text()
        assert text.count(old) == 1, (edit, "an old text stands there once")
        texts[file] = text.replace(old, new)
        found.append((file, text.partition(old)[0].count("\n")))
    return found


def names_in(item, items, structs):
    """The items of the crate that one of them calls or looks up. A path says whose each is; without one a function is of
    the item's own module, and a constant of any. A method is of each type that the receiver may have: the item's own
    for `self`, else one that the item, the struct whose method it is, or the result of what it calls names, itself or by
    its trait."""
    code = re.sub(r"//.*", "", item.text)
    modules = {other.module for other in items}
    calls = re.findall(r"(?<![\w:])(?<![^.]\.)(?<!fn )((?:\w+::)*)(\w+)(?=\()", code)
    constants = re.findall(r"(?<![\w:])(?<![^.]\.)((?:\w+::)*)([A-Z][A-Z_0-9]+)\b", code)
    found = set()
    for path, name in calls + constants:
        place = path.split("::")[-2] if path else None
        named = {it for it in items if it.name == name}
        if place in modules:
            found |= {it for it in named if it.module == place and not it.type and not it.trait}
        elif place:
            found |= {it for it in named if (item.type if place == "Self" else place) in (it.type, it.trait)}
        else:
            found |= {it for it in named if not it.type and not it.trait and (name.isupper() or it.module == item.module)}
    words = set(re.findall(r"\w+", code + structs.get(item.type, "")))
    receivers = re.findall(r"(?:(?<![\w.])(self))?\.(\w+)(?=\()", code)
    while True:
        words |= {word for it in found for word in re.findall(r"\w+", result_of(it))}
        more = found | {it for receiver, name in receivers for it in methods_of(item, receiver, name, items, words)}
        if more == found:
            return found
        found = more


def methods_of(item, receiver, name, items, words):
    """The methods of a name that a receiver in an item may have, and where that is `self` and its type has one, that."""
    methods = {it for it in items if it.name == name and (it.type or it.trait)}
    own = {it for it in methods if receiver and it.type == item.type}
    return own or {it for it in methods if {it.type, it.trait} & words}


def result_of(item):
    """The type that a function returns."""
    head = re.search(r"\bfn .*?\)(?: -> (.*?))?(?: \{)?$", item.text, re.M)
    return head and head[1] or ""


def reached(item, named):
    seen, new = set(), {item}
    while new:
        seen |= new
        new = {other for one in new for other in named[one]} - seen
    return seen


def wanting():
    """The public functions, of whatever crate, with fewer wrong programs than they must have."""
    edits = edits_of_crates()
    crates = sorted(path.parent.parent.name for path in ROOT.glob("crates/*/src/lib.rt"))
    return [f"{crate}::{name}" for crate in crates for name, found in wrong_programs(crate, edits.get(crate, [])).items()
            if len(found) < (1 if crate in DOORS else 2)]


# ---- what the edits take


def ran(folder, *command):
    """Runs a command in a folder; its CPU seconds."""
    before = resource.getrusage(resource.RUSAGE_CHILDREN)
    said = subprocess.run(command, cwd=folder, env={**os.environ, "RT_JOBS": "1"}, capture_output=True, text=True)
    if said.returncode:
        sys.exit(said.stdout + said.stderr)
    after = resource.getrusage(resource.RUSAGE_CHILDREN)
    return after.ru_utime + after.ru_stime - before.ru_utime - before.ru_stime


def measure(crates):
    """Keeps the CPU seconds of the edits of each crate: the crate is proved from nothing, and each of them tried over that.
    What it stands on is built before."""
    took = kept_seconds()
    for crate in crates:
        ran(ROOT / "crates" / crate, "rt", "check")
        took[crate] = round(ran(ROOT, "rt", "must-fail", "--anew", crate), 1)
        SECONDS.parent.mkdir(exist_ok=True)
        SECONDS.write_text(json.dumps(took, indent=1, sort_keys=True) + "\n")
        print(f"{crate}: {took[crate]} s", flush=True)


def kept_seconds():
    return json.loads(SECONDS.read_text()) if SECONDS.exists() else {}


def cost(edits):
    """The lines of the page that say what the edits of each crate take, and their sum."""
    took = {crate: seconds for crate, seconds in kept_seconds().items() if crate in edits}
    lines = ["`rt` proves a crate that has edits once, and tries each of them over that: what an edit does not touch is not proved again.\n"]
    if took:
        lines += ["| crate | edits | CPU seconds of all |", "|---|---|---|"]
        lines += [f"| `{crate}` | {len(found)} | {took[crate]:.1f} |" for crate, found in edits.items() if crate in took]
        lines += [f"\nSum: {sum(took.values()):,.0f} CPU seconds, of the machine that this page was made on."]
    unknown = [crate for crate in edits if crate not in took]
    if unknown:
        lines += [f"Not measured with this kit (`python3 tests/ledger.py --times` measures): {', '.join(unknown) if took else 'any of them'}.", OLDER]
    return lines


# ---- the page


def section(crate, promise, edits, log):
    print(f"\n## {crate}: {promise}\n")
    print("| edit | changed | the fact | refused in |\n|---|---|---|---|")
    for edit in edits[crate]:
        shown = [(old, new) for _, old, new in changes(edit) if not old.startswith(("use ", "ghost use "))]
        what = "; ".join(changed(old, new, 30 if len(shown) == 1 else 19) for old, new in shown)
        print(f"| `{edit.stem}` | {what} | {fact(edit)} | {refused_in(crate, edit.stem, log)} |")
    functions = wrong_programs(crate, edits.get(crate, []))
    if functions:
        print("\n| public function | its wrong programs, and those of what it calls |\n|---|---|")
    for name, found in functions.items():
        print(f"| `{name}` | {', '.join(f'`{edit}`' for edit in found)} |")


def page(edits, log):
    unknown = [f"{crate}/{edit.stem}" for crate, found in edits.items() for edit in found if (crate, edit.stem) not in refusals(log)]
    if unknown:
        sys.exit(f"that run of rt says of these edits no refusal: {', '.join(unknown)}")
    print("# Wrong programs\n")
    count = sum(len(found) for found in edits.values())
    print(f"{count} wrong programs, tried by `rt ci` at every run: each is the program with one or two lines changed "
          "to the same shape with another operand,\nor a call of std that has no such operand to what does the same but for the fact. Each is refused.")
    print("The table says what was changed, the fact that no longer holds, and where the check first fails. "
          "`python3 tests/ledger.py` makes this page from the edits and from what a run of `rt` said of them.")
    print("A wrong line counts for every public function that runs it or looks it up: each of them has two or more, a "
          "function for C, which only hands on, one or more (`tests/selftest.py` counts).\n")
    print("The five of 01, 'How firm each promise is':\n")
    print("| must be unable to meet the promise | refused as |\n|---|---|")
    for what, where in FIVE:
        print(f"| {what} | {where} |")
    print("\n## What they take\n")
    print("\n".join(cost(edits)))
    for crate, promise in PROMISES:
        if crate in edits:
            section(crate, promise, edits, log)


def main(words):
    edits = edits_of_crates()
    if words[:1] == ["--times"]:
        measure(words[1:] or list(edits))
        print("\n".join(cost(edits)))
    elif len(words) == 1 and not words[0].startswith("-"):
        page(edits, Path(words[0]).read_text(errors="replace"))
    else:
        sys.exit(__doc__)


if __name__ == "__main__":
    main(sys.argv[1:])
