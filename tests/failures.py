"""What must fail: reads and writes of `refdesk`, `listing` and `unlisting` that the system refuses. tests/drive.py runs these.

A program whose read or write fails ends by itself, with one line on standard error and, through bin/run, an exit status that is not 0. What it
told until then is the front of what it should have told, so that no answer can be taken for another request's.
"""
import os
import tempfile
import time
from contextlib import contextmanager
from fcntl import ioctl
from subprocess import PIPE
from termios import FIONREAD

from refdesk import answers
from reference import sheet
from sheets import WORKED
from started import started

REQUEST = b"read 48 062806010000\n"
MANY = (REQUEST + b"view 48 062806010000 5\n") * 2000  # no pipe holds the answers
CUT = b"remove 48 062806010000 FF 3 30"  # an octet later this might be another request
SETTLED = 2  # seconds in which a full pipe gets nothing more


# ---- files

@contextmanager
def pipe(octets=b"", ends=True, waits=True):
    """The end to read of a pipe with these octets. Where it does not end, its writer is there as long as this is; then a read may wait or fail."""
    out, into = os.pipe()
    os.set_blocking(out, waits)
    os.write(into, octets)
    if ends:
        os.close(into)
    yield out
    os.close(out)
    if not ends:
        os.close(into)


@contextmanager
def file_with(octets):
    with tempfile.TemporaryFile() as file:
        file.write(octets)
        file.seek(0)
        yield file


@contextmanager
def opened(path, flags):
    file = os.open(path, flags)
    yield file
    os.close(file)


@contextmanager
def unread_pipe():
    """The end to write of a pipe that nobody reads any more."""
    out, into = os.pipe()
    os.close(out)
    yield into
    os.close(into)


@contextmanager
def full_pipe():
    """The end to write of a pipe that is full, and where a write does not wait."""
    out, into = os.pipe()
    os.set_blocking(into, False)
    size = 65536
    while size:
        try:
            os.write(into, bytes(size))
        except BlockingIOError:
            size //= 2
    yield into
    os.close(into)
    os.close(out)


# ---- how a program ends

def judged(why, process, told=b"", wanted=b""):
    """1 unless it told what was wanted and ended with one line and a status that is not 0."""
    said, status = process.stderr.read(), process.wait()
    right = told == wanted and status != 0 and said.count(b"\n") == 1 and said.endswith(b"\n") and len(said) > 1
    print(f"{why}: {len(told)} octets told, exit status {status}, on standard error {said.decode(errors='replace')!r}" + ("" if right else ": WRONG"))
    return not right


def write_fails(why, program, stdin, stdout):
    with stdin as asked, stdout as told, started(program, stdin=asked, stdout=told, stderr=PIPE, restore_signals=False) as process:
        return judged(f"{program}, {why}", process)


def read_fails(why, program, stdin, wanted=b""):
    with stdin as asked, started(program, stdin=asked, stdout=PIPE, stderr=PIPE) as process:
        return judged(f"{program}, {why}", process, process.stdout.read(), wanted)


# ---- a pipe that gets full

def settle(out, process):
    """Waits until the program has ended, or else has put nothing more into the pipe for some time."""
    before, since = 0, time.monotonic()
    while process.poll() is None and (before == 0 or time.monotonic() - since < SETTLED):
        waiting = int.from_bytes(ioctl(out, FIONREAD, bytes(4)), "little")
        if waiting != before:
            before, since = waiting, time.monotonic()
        time.sleep(0.01)


def drained(out):
    told = b""
    while octets := os.read(out, 65536):
        told += octets
    return told


def pipe_gets_full(program):
    """Nobody reads until the pipe is full; then somebody does, and a program that goes on would tell later answers behind the lost ones."""
    out, into = os.pipe()
    os.set_blocking(into, False)
    with file_with(MANY) as asked, started(program, stdin=asked, stdout=into, stderr=PIPE) as process:
        os.close(into)
        settle(out, process)
        told = drained(out)
        os.close(out)
        right = answers(MANY).encode()
        front = right[:len(told)] if len(told) < len(right) else b""
        return judged(f"{program}, a pipe that gets full and does not wait", process, told, front)


WRITES = (
    ("a full pipe that does not wait", full_pipe),
    ("a pipe that nobody reads", unread_pipe),
    ("a full device", lambda: opened("/dev/full", os.O_WRONLY)),
)
READS = (
    ("a directory to read", lambda: opened("/", os.O_RDONLY)),
    ("a file that is not open to read", lambda: opened("/dev/null", os.O_WRONLY)),
)


def failures(refdesk, listing, unlisting):
    """How many of the cases go wrong."""
    text = sheet(WORKED).encode()
    wrong = pipe_gets_full(refdesk)
    for program, octets, ends in ((refdesk, REQUEST, False), (listing, WORKED, True), (unlisting, text, True)):
        wrong += sum(write_fails(why, program, pipe(octets, ends), stdout()) for why, stdout in WRITES)
        wrong += sum(read_fails(why, program, stdin()) for why, stdin in READS)
    ten = 10 * REQUEST
    wrong += read_fails("a read that fails behind ten requests and a part", refdesk, pipe(ten + CUT, ends=False, waits=False), answers(ten).encode())
    for program, octets in ((listing, WORKED[:4]), (unlisting, text)):
        wrong += read_fails("a read that fails behind a part of the input", program, pipe(octets, ends=False, waits=False))
    return wrong
