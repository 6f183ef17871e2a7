#!/usr/bin/env python3
"""Drives the built programs `refdesk`, `listing` and `unlisting` through bin/run and holds each answer against tests/refdesk.py and tests/reference.py.

    python3 tests/drive.py [--seed 1] [--count 5000]           requests in three ways, sheets, and what must fail; one figure, exit status 1 if it is not 0
    python3 tests/drive.py --speed [--program A --program B]   requests a second of each program, by turns

A program is its name, or the path of another build. Most requests are those of tests/vectors.py with words exchanged between them and octets
damaged; some lines are damaged as texts or are no request. They go in one input, in pieces that end anywhere, and one at a time, each answer awaited.
`listing` takes one input a run: the category and the field of every hundredth request; `unlisting` takes its sheet. tests/failures.py has what must fail.
"""
import argparse
import os
import random
import statistics
import sys
import threading
import time
from fcntl import ioctl
from itertools import islice
from subprocess import DEVNULL, PIPE
from termios import FIONREAD

from failures import failures, file_with
from fields import good_field
from lines import EXAMPLES, WRONG, either_case
from reads import BAD_FIELDS
from refdesk import FORMS, LIST, MOST, OCTETS, answer
from reference import sheet
from started import started
from unlisting import wanted
from vectors import requests

LISTED = 100  # one request of so many is listed
SHOWN = 5  # differences that are printed in full
ROUNDS = 5  # of a measurement


# ---- lines

def damaged(rng, field):
    octets = bytearray(field)
    for _ in range(rng.choice([1, 1, 1, 2, 3])):
        way, at = rng.random(), rng.randrange(len(octets) + 1)
        if way < 0.15:
            octets.insert(at, rng.randrange(256))
        elif at < len(octets) and way < 0.3:
            del octets[at]
        elif at < len(octets):
            octets[at] = rng.randrange(256) if way < 0.5 else octets[at] ^ 1 << rng.randrange(8)
    if octets and rng.random() < 0.6:
        octets[0] = min(255, len(octets))
    return bytes(octets)


def some_field(rng, cat):
    """Right, damaged, or bad by hand."""
    field = good_field(cat, rng)
    return rng.choice([field, field, damaged(rng, field), bytes.fromhex(rng.choice(BAD_FIELDS[cat]))])


def exchanged(rng, line, known):
    """Some words of the line by those of another request of its form."""
    words, others = line.split(b" "), rng.choice(known[line.split(b" ")[0]]).split(b" ")
    for k in rng.sample(range(1, len(words)), min(len(words) - 1, rng.choice([0, 0, 1, 1, 2]))):
        words[k] = others[k]
    return b" ".join(words)


def hurt(rng, line):
    """Octets damaged, a list changed by a place, or a number moved."""
    name, *words = line.split(b" ")
    k = rng.randrange(len(words))
    kind = FORMS[name][0][k]
    value = kind.value(words[k])
    if kind is OCTETS:
        field = bytes.fromhex(rng.choice(BAD_FIELDS[rng.choice([7, 21, 48])])) if rng.random() < 0.1 else value
        value = damaged(rng, field)[:MOST]
    elif kind is LIST:
        value ^= 1 << rng.randrange(8)
    else:
        value += rng.choice([-1, 1, 1, -(1 << rng.randrange(9)), 1 << rng.randrange(9)])
    return b" ".join([name] + words[:k] + [kind.word(value)] + words[k + 1:])


def torn(rng, line):
    """An octet changed, lost or more."""
    k, o = rng.randrange(len(line) + 1), bytes([rng.choice(b" -0159aAfFgG\x00\xff\r") if rng.random() < 0.7 else rng.randrange(256)])
    return rng.choice([line[:k] + o + line[k + 1:], line[:k] + line[k + 1:], line[:k] + o + line[k:]]).replace(b"\n", b"")


def by_form():
    """The requests of tests/vectors.py, {name: lines}."""
    known = {name: [] for name in FORMS}
    for line in requests():
        known[line.split(b" ")[0]].append(line)
    return known


def lines(rng):
    """Lines without an end to them."""
    known, wrong = by_form(), [line for kind in WRONG for _, line in kind(rng)]
    while True:
        way = rng.random()
        line = exchanged(rng, rng.choice(known[rng.choice(list(FORMS))]), known)
        if way < 0.5:
            line = hurt(rng, line)
        if rng.random() < 0.5:
            line = either_case(line, rng)
        if way > 0.95:
            line = rng.choice(wrong)
        elif way > 0.85:
            line = torn(rng, line)
        yield line


# ---- the ways of sending: each gives what is told, and the exit status

def one_input(program, rng, made):
    """All lines as a file."""
    with file_with(b"\n".join(made)) as asked, started(program, stdin=asked, stdout=PIPE) as desk:
        return desk.stdout.read(), desk.wait()


def fed(desk, rng, asked):
    """Pieces that end anywhere, each sent when the one before it was taken, so that the program's reads end there too."""
    at = 0
    while at < len(asked):
        size = int(2 ** rng.uniform(0, 13)) if rng.randrange(50) else 70000
        desk.stdin.write(asked[at:at + size])
        desk.stdin.flush()
        at += size
        while ioctl(desk.stdin, FIONREAD, bytes(4)) != bytes(4) and desk.poll() is None:
            time.sleep(0.0001)
    desk.stdin.close()


def in_pieces(program, rng, made):
    with started(program, stdin=PIPE, stdout=PIPE) as desk:
        feeder = threading.Thread(target=fed, args=(desk, rng, b"\n".join(made)))
        feeder.start()
        told = desk.stdout.read()
        feeder.join()
        return told, desk.wait()


def one_at_a_time(program, rng, made):
    """Each answer before the next request; the last line has no end, and is answered at the end of the input."""
    with started(program, stdin=PIPE, stdout=PIPE) as desk:
        told = []
        for line in made[:-1]:
            desk.stdin.write(line + b"\n")
            desk.stdin.flush()
            told.append(desk.stdout.readline())
        desk.stdin.write(made[-1])
        desk.stdin.close()
        return b"".join(told) + desk.stdout.read(), desk.wait()


def differences(way, program, rng, made, wanted):
    """How many answers are not the right ones, and whether it ended well."""
    (told, status), named = way(program, rng, made), way.__name__.replace("_", " ")
    said = told.removesuffix(b"\n").split(b"\n")
    differing = [(line, got, right) for line, got, right in zip(made, said, wanted) if got != right]
    for line, got, right in differing[:SHOWN]:
        print(f"{named}: {line[:200]} is answered {got[:200]} and should be {right[:200]}")
    count = len(differing) + abs(len(said) - len(wanted)) + (status != 0)
    print(f"{program}, {named}: {len(made)} requests, {len(said)} answers, exit status {status}, {count} differences")
    return count


# ---- listing, and back

def listed(line):
    """The category and the field of a request, where it has them; the line's own octets where it is no such request."""
    words = line.split(b" ")
    try:
        return bytes([int(words[1])]) + OCTETS.value(words[2])
    except (IndexError, ValueError):
        return line


def given_by(program, octets):
    """What it writes, and its exit status."""
    with file_with(octets) as asked, started(program, stdin=asked, stdout=PIPE, stderr=DEVNULL) as desk:
        return desk.stdout.read(), desk.wait()


def sheet_differences(listing, unlisting, made):
    """The sheets, and what is rebuilt from them: the category and the field where it is accepted, nothing where it is refused."""
    count = 0
    for given in map(listed, made):
        text = sheet(given).encode()
        back, _, status = wanted(text)
        for program, octets, right in ((listing, given, (text, 0)), (unlisting, text, (back, status))):
            told = given_by(program, octets)
            if told != right:
                count += 1
                print(f"{program}: {octets[:200]} gives {told} and should {right}")
    print(f"{listing} and {unlisting}: {len(made)} sheets, {count} differences")
    return count


# ---- speed

def known_to_both(rng, count):
    """Requests that are the same text in every form of the protocol."""
    known = by_form()
    return [rng.choice(known[rng.choice([b"read", b"view", b"write"])]) for _ in range(count)]


def seconds(program, made, pipelined):
    """From the first request to the last answer; the program has answered one before."""
    with started(program, stdin=PIPE, stdout=PIPE) as desk:
        asked, told = desk.stdin.fileno(), desk.stdout.fileno()
        os.write(asked, EXAMPLES[3] + b"\n")
        os.read(told, 65536)
        begun = time.perf_counter()
        if pipelined:
            feeder = threading.Thread(target=desk.stdin.write, args=(b"".join(line + b"\n" for line in made),))
            feeder.start()
            left = len(made)
            while left > 0:
                left -= os.read(told, 65536).count(b"\n")
            feeder.join()
        else:
            for line in made:
                os.write(asked, line + b"\n")
                while not os.read(told, 65536).endswith(b"\n"):
                    pass
        return time.perf_counter() - begun


def speed(programs, rng, count):
    made = known_to_both(rng, count)
    for pipelined in (False, True):
        rates = {program: [] for program in programs}
        for _ in range(ROUNDS):
            for program in programs:
                rates[program].append(count / seconds(program, made, pipelined))
        for program, rate in rates.items():
            way = "pipelined" if pipelined else "one at a time"
            print(f"{program}, {way}: {statistics.median(rate):,.0f} requests a second ({min(rate):,.0f} to {max(rate):,.0f}, {ROUNDS} rounds of {count})")


# ---- the command

def options():
    given = argparse.ArgumentParser(description="Drives refdesk, listing and unlisting against the tests' own implementation.")
    given.add_argument("--seed", type=int, default=1)
    given.add_argument("--count", type=int, default=5000)
    given.add_argument("--program", action="append", help="refdesk, or the path of another build of it")
    given.add_argument("--listing", default="listing", help="listing, or the path of another build of it")
    given.add_argument("--unlisting", default="unlisting", help="unlisting, or the path of another build of it")
    given.add_argument("--speed", action="store_true")
    return given.parse_args()


def main():
    given = options()
    rng, programs = random.Random(given.seed), given.program or ["refdesk"]
    if given.speed:
        return speed(programs, rng, given.count)
    made = list(islice(lines(rng), given.count - len(EXAMPLES))) + EXAMPLES
    wanted = [answer(line).encode() for line in made]
    count = 0
    for program in programs:
        count += sum(differences(way, program, rng, made, wanted) for way in (one_input, in_pieces, one_at_a_time))
        count += failures(program, given.listing, given.unlisting)
    count += sheet_differences(given.listing, given.unlisting, made[::LISTED])
    print(f"drive: {count} differences")
    sys.exit(count > 0)


if __name__ == "__main__":
    main()
