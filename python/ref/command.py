"""The command line of `ref`: its words, its exit status, and what goes to which output."""
from __future__ import annotations

import argparse
import io
import json
import os
import sys
import textwrap
from collections.abc import Callable, Iterator
from contextlib import suppress
from typing import Any, NamedTuple, NoReturn

from paltinoma import CATEGORIES, Desk, DeskFailed, UnknownName, slot

from ref import answers
from ref.answers import Answer, Session
from ref.lines import Asked, Usage, is_many, lines, texts
from ref.octets import counted
from ref.page import FOOT, HEAD, page
from ref.progress import Progress

ACCEPTED, REFUSED, UNASKED = 0, 1, 2  # exit statuses
INTERRUPTED, UNREAD = 130, 141  # as shells tell of the signals SIGINT and SIGPIPE
COLOURS = {"head": "1", "flag": "36", "spare": "2", "wrong": "1;31", "unread": "31", "behind": "2"}


# ---- the words


class Command(NamedTuple):
    """What a command does, examples of it, and what it takes; an option with ! must be given."""

    does: str
    examples: list[str]
    answer: Callable[[Session, Asked], Answer] | None  # None is for texts
    options: str = ""
    words: str = "CATEGORY OCTETS"
    apart: bool = False  # of many answers, a blank line stands between two
    headed: bool = False  # of many answers, each has a heading


COMMANDS = {
    "sheet": Command(
        "the sheet: a key=value line for each number",
        ["ref sheet 48 062806010000", "ref sheet 48 06 28 06 01 00 00", "ref sheet day.txt"],
        answers.sheet,
        apart=True,
    ),
    "read": Command(
        "the numbers with their units",
        ["ref read 48 062806010000", "ref read --json day.txt"],
        answers.read,
        apart=True,
        headed=True,
    ),
    "map": Command(
        "each octet beside the item, the subfield and the number that it is",
        ["ref map 48 062806010000", "ref map 21 04800FFF"],
        answers.map_of,
        apart=True,
        headed=True,
    ),
    "why": Command(
        "a refusal in words, and what would be right there",
        ["ref why 48 03200F", "ref why --slot RPC,ERR --item ERR --to 0200 48 062806010000"],
        answers.why_of,
        options="slot item to remove",
        apart=True,
        headed=True,
    ),
    "page": Command(
        "the sheet and the map as one HTML file",
        ["ref page --out field.html 48 062806010000", "ref page day.txt > day.html"],
        page,
        options="out",
    ),
    "view": Command(
        "an item's own octets",
        ["ref view --item ERR 48 062806010000"],
        answers.view,
        options="item!",
    ),
    "choose": Command(
        "an item of a correction, or else of its base",
        ["ref choose --item M4E 48 062806010000 032004"],
        answers.choose,
        options="item!",
        words="CATEGORY BASE CORRECTION",
    ),
    "edit": Command(
        "the field with one item replaced, added or removed, by a slot",
        [
            "ref edit --slot RPC,ERR --item ERR --to 020000 48 062806010000",
            "ref edit --slot M4E --item M4E --remove 48 062806010000",
        ],
        answers.edit,
        options="slot! item! to remove",
    ),
    "copy": Command(
        "the field without the items that are withheld",
        ["ref copy --withhold MD5 48 062806010000", "ref copy --withhold 48=MD5,M5N --withhold 21=MES day.txt"],
        answers.copy,
        options="withhold!",
    ),
    "write": Command(
        "the field of numbers, by their keys on the sheet",
        ["ref write 48 M4E=3 ERR=65536", "ref write 48 M5N.chain=2 M5N.FOM=31"],
        answers.write,
        words="CATEGORY KEY=NUMBER",
    ),
    "rebuild": Command(
        "the field whose sheet a text is",
        ["ref rebuild sheet.txt", "ref sheet day.txt | ref rebuild"],
        None,
        words="FILE",
    ),
}
LISTED = "by the names of their papers, as RPC,ERR; 48=RPC,ERR is for category 48 alone"
OPTIONS: dict[str, dict[str, Any]] = {
    "slot": {"metavar": "ITEMS", "action": "append", "help": f"what the slot was booked for, {LISTED}"},
    "item": {"metavar": "ITEM", "help": "the item, by its name"},
    "to": {"metavar": "OCTETS", "help": "what the item is to be, its chain first"},
    "remove": {"action": "store_true", "help": "the item is to go"},
    "withhold": {"metavar": "ITEMS", "action": "append", "help": f"what visitors don't get, {LISTED}"},
    "out": {"metavar": "FILE", "help": "where the page goes, if not to standard output"},
}
ABOUT = {
    "CATEGORY OCTETS": "OCTETS are hex, with or without spaces",
    "CATEGORY BASE CORRECTION": "BASE and CORRECTION are hex, each one word",
    "CATEGORY KEY=NUMBER": "a KEY is that of the sheet, its NUMBER decimal",
}
ABOUT_LINES = (
    "CATEGORY is one of {categories}; {words}. Or there stand the names of files that have many such lines; '-', or "
    "nothing, is standard input. Behind a category a file's lines are without it. Blank lines and those that begin "
    "with # are passed over."
)
ABOUT_TEXTS = """\
A file is a sheet, or many with a blank line before each but the first; '-', or nothing, is
standard input.
"""
ABOUT_STATUS = "exit status: 0 all was accepted, 1 something was refused, 2 something could not be asked so"


class Parser(argparse.ArgumentParser):
    """Says in one line what is wrong."""

    def error(self, message: str) -> NoReturn:
        raise Usage(f"{message} ({self.prog} --help says more)")


def about(command: Command) -> str:
    """What its words are."""
    if command.answer is None:
        return ABOUT_TEXTS
    text = ABOUT_LINES.format(categories=", ".join(map(str, CATEGORIES)), words=ABOUT[command.words])
    return textwrap.fill(text, 98) + "\n"


def told_in_help(description: str, text: str, examples: list[str]) -> dict[str, Any]:
    shown = textwrap.indent("\n".join(examples), "  ")
    return {
        "description": description,
        "epilog": f"{text}\nexamples:\n{shown}\n\n{ABOUT_STATUS}",
        "formatter_class": argparse.RawDescriptionHelpFormatter,
        "allow_abbrev": False,
    }


def top_parser() -> Parser:
    """It knows the commands by their names, for the help."""
    program = f"Reserved Expansion Fields of ASTERIX categories {', '.join(f'{cat:03}' for cat in CATEGORIES)}."
    examples = [command.examples[0] for command in COMMANDS.values()]
    top = Parser(prog="ref", **told_in_help(program, about(COMMANDS["sheet"]), examples))
    every = top.add_subparsers(dest="command", metavar="COMMAND", required=True)
    for name, command in COMMANDS.items():
        every.add_parser(name, help=command.does)
    return top


def command_parser(name: str) -> Parser:
    """Its words and options."""
    command = COMMANDS[name]
    one = Parser(prog=f"ref {name}", **told_in_help(command.does, about(command), command.examples))
    one.add_argument("words", nargs="*", metavar=command.words, help="what is asked about")
    one.add_argument("--json", action="store_true", help="an object of JSON for each, in a line")
    one.add_argument("--program", metavar="PATH", help="refdesk, if not the one that was built or installed with this")
    for option in command.options.split():
        one.add_argument(f"--{option.rstrip('!')}", required=option.endswith("!"), **OPTIONS[option.rstrip("!")])
    return one


def parsed(arguments: list[str]) -> argparse.Namespace:
    """The options and the words of a command, in any order."""
    if arguments[:1] and arguments[0] in COMMANDS:
        given = command_parser(arguments[0]).parse_intermixed_args(arguments[1:])
        given.command = arguments[0]
        return given
    return top_parser().parse_args(arguments[:1])


# ---- the answers


def painted(coloured: bool) -> Callable[[str, str], str]:
    """How a text of a kind is coloured."""

    def paint(kind: str, text: str) -> str:
        return f"\033[{COLOURS[kind]}m{text}\033[0m" if coloured and kind in COLOURS else text

    return paint


class Told(NamedTuple):
    """An answer, where its question stands, and what it was."""

    where: str
    asked: str
    answer: Answer


def unasked(wrong: object) -> Answer:
    """The answer to what can't be asked so."""
    return Answer(False, {"accepted": False, "error": str(wrong)}, complaint=str(wrong), asked=False)


def told(session: Session, command: Command, words: list[str]) -> Iterator[Told]:
    """The answers to what the words ask about."""
    if command.answer is None:
        yield from rebuilt(session, words)
        return
    for asked in lines(words):
        try:
            answer = command.answer(session, asked)
        except (Usage, UnknownName) as wrong:
            answer = unasked(wrong)
        yield Told(asked.where, " ".join(asked.words), answer)


def rebuilt(session: Session, words: list[str]) -> Iterator[Told]:
    """The answers to texts; a refused one is where its wrong line is."""
    for name, at, text in texts(words):
        answer = answers.rebuild(session, text)
        place = 1 if answer.accepted else max(1, answer.data["refused"]["place"])
        yield Told(f"{name}, line {at + place - 1}", "", answer)


class Output:
    """Where the answers go. A file is written when all is answered: beside the one of its name, whose place it takes."""

    def __init__(self, given: argparse.Namespace) -> None:
        name = getattr(given, "out", None)
        self.name: str | None = None if name == "-" else name
        self.terminal = self.name is None and sys.stdout is not None and sys.stdout.isatty()
        self.page = given.command == "page" and not given.json
        self.begun, self.held = False, io.StringIO()

    def put(self, text: str) -> None:
        """A text behind those before it."""
        if self.name is None and sys.stdout is None:
            raise Usage("there is no standard output")
        to = self.held if self.name else sys.stdout
        to.write(text if self.begun or not self.page else HEAD + text)
        to.flush()  # what is asked next may wait for it
        self.begun = True

    def end(self) -> None:
        """All is answered."""
        if self.page:
            self.put(FOOT)
        if self.name:
            try:
                self.replace(self.name)
            except OSError as error:
                raise Usage(f"{self.name} can't be written: {error.strerror}") from None

    def replace(self, name: str) -> None:
        """Writes the file. What is no file, as /dev/full, is written as it is."""
        if os.path.exists(name) and not os.path.isfile(name):
            self.write(name)
            return
        try:
            self.write(f"{name}.part")
            os.replace(f"{name}.part", name)
        except BaseException:
            with suppress(OSError):
                os.unlink(f"{name}.part")
            raise

    def write(self, name: str) -> None:
        with open(name, "w", encoding="utf-8", errors="backslashreplace") as file:
            file.write(self.held.getvalue())


class Run:
    """The answers of a command, put where they belong: their texts to the output, complaints to standard error."""

    def __init__(self, given: argparse.Namespace) -> None:
        self.given, self.command, self.many = given, COMMANDS[given.command], is_many(given.words)
        self.out, self.status = Output(given), ACCEPTED
        self.behind: list[int] = []  # octets behind LEN, which the map alone shows
        self.progress = Progress(sys.stderr, self.out.terminal)

    def take(self, one: Told) -> None:
        """Puts one answer, and counts it."""
        answer = one.answer
        if answer.complaint and not (self.given.json and answer.asked):
            self.say(f"{one.where}: {answer.complaint}" if one.where else answer.complaint)
        if self.given.json and (self.many or answer.asked):
            self.out.put(json.dumps({"where": one.where, **answer.data} if one.where else answer.data) + "\n")
        elif answer.text and not self.given.json:
            self.out.put(self.gap() + self.heading(one) + answer.text)
        self.behind += [answer.data["behind"]] if "behind" in answer.data and "lines" not in answer.data else []
        self.status = max(self.status, ACCEPTED if answer.accepted else REFUSED if answer.asked else UNASKED)
        self.progress.step(answer.accepted)

    def gap(self) -> str:
        return "\n" if self.many and self.command.apart and self.out.begun else ""

    def heading(self, one: Told) -> str:
        return f"{one.where}: {one.asked}\n" if self.many and self.command.headed else ""

    def say(self, text: str) -> None:
        """A line of its own on standard error."""
        self.progress.clear()
        print(f"ref: {text}", file=sys.stderr)

    def end(self) -> int:
        """What is told when all is answered; the exit status."""
        if self.out.begun or self.status != UNASKED:
            self.out.end()
        if self.behind and not self.given.json:
            fields = f", of {counted(len(self.behind), 'field')}" if self.many else ""
            self.say(f"{counted(sum(self.behind))} behind LEN{fields}, not looked at")
        self.progress.end()
        return self.status


def check(given: argparse.Namespace) -> None:
    """What is wrong for every line. An edit is whole; or, where `why` is asked about a field alone, nothing of it is
    there."""
    lists = [*(getattr(given, "slot", None) or []), *(getattr(given, "withhold", None) or [])]
    slot(*(name.strip() for text in lists for name in text.rpartition("=")[2].split(",") if name.strip()))
    if getattr(given, "item", None) is not None:
        slot(given.item)
    if "slot" in given:
        has = [given.slot is not None, given.item is not None, given.to is not None or given.remove]
        if given.to is not None and given.remove or not all(has) and (any(has) or given.command == "edit"):
            raise Usage("an edit has --slot, --item, and one of --to and --remove")


def run(given: argparse.Namespace) -> int:
    """The answers, one by one; the exit status."""
    check(given)
    ran = Run(given)
    coloured = ran.out.terminal and "NO_COLOR" not in os.environ and os.environ.get("TERM") != "dumb"
    with Desk(given.program) as desk:
        for one in told(Session(desk, given, painted(coloured)), ran.command, given.words):
            ran.take(one)
    return ran.end()


def main(arguments: list[str]) -> int:
    """The exit status."""
    sys.stderr = sys.stderr or open(os.devnull, "w")
    for stream in (sys.stdout, sys.stderr):
        if isinstance(stream, io.TextIOWrapper):
            stream.reconfigure(errors="backslashreplace")  # names of files may be no text
    try:
        return run(parsed(arguments))
    except (Usage, UnknownName, DeskFailed) as error:
        print(f"ref: {error}", file=sys.stderr)
        return UNASKED
    except KeyboardInterrupt:
        return INTERRUPTED
    except OSError as error:
        os.dup2(os.open(os.devnull, os.O_WRONLY), 1)  # what is left in the buffer has no reader
        if isinstance(error, BrokenPipeError):
            return UNREAD
        print(f"ref: the answers can't be written: {error.strerror}", file=sys.stderr)
        return UNASKED
