"""The programs that bench/run built for x86-64 and how they are started: natively there, else by the kit's emulator."""
import pathlib
import platform
import shutil
import subprocess

WORK = pathlib.Path(__file__).resolve().parent.parent / "target" / "bench"
GUIDE = subprocess.run(["rt", "doc"], check=True, capture_output=True, text=True).stdout.strip()
KIT = pathlib.Path(GUIDE).parent
LIB = KIT / "toolchain" / "lib"
NATIVE = platform.machine() == "x86_64"
EMULATOR = shutil.which("qemu-x86_64") if NATIVE else KIT / "on" / platform.machine() / "toolchain" / "bin" / "qemu-x86_64"
OPERATIONS = ("read", "write", "view", "edit", "sheet")
SIDES = ("plain", "ours")


def driver(side, operation, corpus, *more):
    """A side's program on the file of a corpus, by the kit's own loader and C library."""
    return [LIB / "ld-linux-x86-64.so.2", "--library-path", LIB, WORK / side, operation, corpus, *map(str, more)]


def emulated(command, *options):
    """A command for x86-64 by the emulator, with options of its own."""
    return list(map(str, [EMULATOR, *options, *command]))


def started(command):
    """A command for x86-64 as this machine runs it."""
    return list(map(str, command)) if NATIVE else emulated(command)


def told(command):
    """The words that it prints."""
    return subprocess.run(started(command), check=True, capture_output=True, text=True).stdout.split()
