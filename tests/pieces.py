"""A program that takes all of its input before it answers, fed in pieces, for the tests of `listing` and `unlisting`.

A piece is written a moment after the one before it, so that most reads of the program get less than they ask for. From `most` octets on the pipe
stays open: the program has what it looks at, and must not wait for the end.
"""
import os
import threading
import time
from subprocess import PIPE

from started import started

MOMENT = 0.02  # seconds between two pieces


def in_pieces(octets, size):
    return [octets[k:k + size] for k in range(0, len(octets), size)]


def feed(program, pieces, most):
    try:
        for k, piece in enumerate(pieces):
            time.sleep(MOMENT if k else 0)
            os.write(program.stdin.fileno(), piece)
    except BrokenPipeError:
        pass  # the program has what it looks at, and is gone
    if sum(map(len, pieces)) >= most:
        program.wait()
    program.stdin.close()


def told(name, pieces, most):
    """What the program writes, what it says on standard error, and its exit status."""
    with started(name, stdin=PIPE, stdout=PIPE, stderr=PIPE) as program:
        feeder = threading.Thread(target=feed, args=(program, pieces, most))
        feeder.start()
        written, said = program.stdout.read(), program.stderr.read()
        feeder.join()
        return written, said, program.wait()
