"""A program through bin/run, for the tests."""
import os
import signal
import subprocess
import threading
from contextlib import contextmanager
from pathlib import Path

RUN = Path(__file__).resolve().parent.parent / "bin" / "run"
WAIT = 60  # seconds after which a program that hangs is ended


@contextmanager
def started(program, **files):
    """Its name or the path of another build. It has a process group of its own, so that the guard ends the program and not bin/run alone."""
    process = subprocess.Popen([str(RUN), program], start_new_session=True, **files)
    guard = threading.Timer(WAIT, os.killpg, (process.pid, signal.SIGKILL))
    guard.start()
    try:
        with process:
            yield process
    finally:
        guard.cancel()
