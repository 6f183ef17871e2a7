"""Runs the programs that bench/run built on its corpora and prints the tables of docs/BENCH.md.

Instructions are x86-64 ones. An emulator logs each that it executes: the kit's, or on x86-64 the qemu-x86_64 of Debian's
qemu-user; without one, `perf stat` counts them there.
"""
import bisect
import os
import re
import shutil
import statistics
import subprocess
import sys

import programs
from programs import NATIVE, OPERATIONS, SIDES, WORK

ROUNDS = int(os.environ.get("BENCH_ROUNDS", "7"))
MS = int(os.environ.get("BENCH_MS", "60"))
COUNTED = 128  # requests of a corpus whose instructions are counted
LENGTHS = (2, 8, 16, 32, 52)
COUNTS = (32, 256, 2048)
FIELDS = {"mixed": "mixed", "cat048": "category 048", "cat021": "category 021", "cat007": "category 007"}
REFUSED = {"refused": "refused fields"}
CORPORA = {"read": {**FIELDS, **REFUSED}, "write": {**FIELDS, "bad-records": "refused records"},
           "view": {**FIELDS, **REFUSED}, "edit": {**FIELDS, **REFUSED, "bad-edits": "refused edits"},
           "sheet": {**FIELDS, **REFUSED}}
TARGET = {"read": 1.4, "edit": 1.6, "view": 1.8}  # times the instructions of plain C on mixed fields, at most
CATEGORY = 2.0  # and for these in each category
REP = 31  # instructions of rep.s
SLACK = 0 if programs.EMULATOR else 16  # a processor's counter may count an instruction again that met a page fault
STEP_BY_STEP = "-singlestep" if NATIVE else "-one-insn-per-tb"  # the same option of qemu 7.2 and of the kit's 8.2


def run(side, operation, corpus, *more):
    return programs.driver(side, operation, WORK / "corpora" / f"{corpus}.bin", *more)


def agree(operation, corpus):
    """Ends the run where the answers and outputs of the two sides have not the same checksums."""
    plain, ours = (programs.told(run(side, operation, corpus)) for side in SIDES)
    if plain != ours:
        raise SystemExit(f"bench: the two sides differ in {operation} on {corpus}")


# ---- instructions: each counter gives {address: how often the instruction there was executed}

def count_emulated(command):
    """A repeated string instruction is logged at each step; no other follows itself, so a run of one counts once."""
    logged = programs.emulated(command, STEP_BY_STEP, "-d", "exec,nochain")
    log = subprocess.Popen(logged, stdout=subprocess.DEVNULL, stderr=subprocess.PIPE)
    counting = "/^Trace/ { if ($2 != last) n[$2]++; last = $2 } END { for (k in n) print k, n[k] }"
    told = subprocess.run(["awk", "-F/", counting], stdin=log.stderr, check=True, capture_output=True, text=True).stdout
    if log.wait():
        raise SystemExit("bench: the emulator failed")
    return {int(a, 16): int(n) for a, n in (line.split() for line in told.splitlines())}


def count_by_perf(command):
    counting = ["perf", "stat", "-x,", "-e", "instructions:u", *programs.started(command)]
    told = subprocess.run(counting, check=True, capture_output=True, text=True).stderr
    return {0: int(told.split(",")[0])}


def chosen_counter():
    if programs.EMULATOR:
        return count_emulated
    if shutil.which("perf"):
        trial = subprocess.run(["perf", "stat", "-x,", "-e", "instructions:u", "true"], capture_output=True, text=True)
        if trial.returncode == 0 and re.match(r"\d+,", trial.stderr):
            return count_by_perf
    raise SystemExit("bench: no qemu-x86_64 and no perf that counts instructions on this machine")


def tried_counter():
    """A counter that counts rep.s right."""
    counter = chosen_counter()
    found = sum(counter([WORK / "rep"]).values())
    if not REP <= found <= REP + SLACK:
        raise SystemExit(f"bench: {counter.__name__} counts {found} instructions in rep.s, which executes {REP}")
    print(f"rep.s: {found} instructions counted, {REP} executed")
    return counter


class Instructions:
    def __init__(self, counter):
        self.counter, self.loops = counter, {}

    def one_pass(self, side, operation, corpus):
        """The instructions of one pass, by address: what a run with one takes more than a run with none."""
        one, none = (self.counter(run(side, operation, corpus, repeat, COUNTED)) for repeat in (1, 0))
        return {a: n - none.get(a, 0) for a, n in one.items() if n != none.get(a, 0)}

    def of(self, side, operation, corpus):
        """Instructions a request without the loop around the calls, and by address for all of the pass."""
        if side not in self.loops:
            self.loops[side] = sum(self.one_pass(side, "none", "mixed").values())
        counts = self.one_pass(side, operation, corpus)
        return (sum(counts.values()) - self.loops[side]) / COUNTED, counts


def functions(side):
    """(address, name) of the program's functions, in order."""
    listing = ["nm", "-n", "--defined-only", str(WORK / side)]
    told = subprocess.run(listing, check=True, capture_output=True, text=True).stdout
    return [(int(line.split()[0], 16), line.split()[2]) for line in told.splitlines() if line.split()[1] in "tT"]


def by_function(side, counts):
    """Instructions a request by function, most first; what is in no function of a side is the C library's."""
    known, total = functions(side), {}
    for address, n in counts.items():
        at = bisect.bisect_right(known, (address, "~")) - 1
        name = known[at][1] if at >= 0 and address < known[-1][0] else "_"
        name = "the C library" if name.startswith("_") else name
        total[name] = total.get(name, 0) + n
    return sorted(((n / COUNTED, name) for name, n in total.items()), reverse=True)


# ---- times

def timed(side, operation, corpus, repeat, count):
    """The sum of the answers, the nanoseconds of all passes, and the requests in a pass."""
    answers, ns, requests = programs.told(run(side, operation, corpus, repeat, count))
    return answers, int(ns), int(requests)


def compared(operation, corpus, count=0):
    """Each round runs one side and then the other: {side: [ns a request]}. Both must give the same answers."""
    repeat = max(1, int(MS * 2e6 / timed("plain", operation, corpus, 2, count)[1]))  # plain C takes about MS
    times, sums = {side: [] for side in SIDES}, set()
    for k in range(ROUNDS):
        for side in SIDES[::1 if k % 2 else -1]:
            answers, ns, requests = timed(side, operation, corpus, repeat, count)
            times[side].append(ns / (repeat * requests))
            sums.add(answers)
    if len(sums) > 1:
        raise SystemExit(f"bench: the two sides answer otherwise in {operation} on {corpus}")
    return times


# ---- tables

def row(*cells):
    print("| " + " | ".join(cells) + " |", flush=True)


def header(*cells):
    row(*cells)
    print("|" + "---|" * len(cells))


def time_ratio(times):
    """The median of the rounds' ratios, and from least to most."""
    ratios = [ours / plain for plain, ours in zip(times["plain"], times["ours"])]
    return f"{statistics.median(ratios):.2f} ({min(ratios):.2f} to {max(ratios):.2f})"


def operation_table(instructions):
    """Every operation on its corpora; gives {(operation, corpus, side): instructions a request, and by address}."""
    print("\n## Instructions a request\n")
    header("operation", "corpus", "plain C", "ours", "ratio", f"{'' if NATIVE else 'emulated '}time, ratio (spread)")
    found = {}
    for operation in OPERATIONS:
        for corpus, label in CORPORA[operation].items():
            agree(operation, corpus)
            found.update({(operation, corpus, side): instructions.of(side, operation, corpus) for side in SIDES})
            plain, ours = (found[operation, corpus, side][0] for side in SIDES)
            ratio = f"**{ours / plain:.2f}**" if corpus == "mixed" else f"{ours / plain:.2f}"
            row(operation, label, f"{plain:,.0f}", f"{ours:,.0f}", ratio, time_ratio(compared(operation, corpus)))
    return found


def slope(points):
    """What one more costs, by least squares."""
    mean_x, mean_y = (statistics.mean(p[k] for p in points) for k in (0, 1))
    return sum((x - mean_x) * (y - mean_y) for x, y in points) / sum((x - mean_x) ** 2 for x, _ in points)


def length_table(instructions):
    print("\n## Growth with the length of a field, category 048: our instructions (ratio)\n")
    header("operation", *(f"LEN {n}" for n in LENGTHS), "an octet more, plain C", "an octet more, ours")
    for operation in OPERATIONS:
        found = [[instructions.of(side, operation, f"len{n:02}")[0] for side in SIDES] for n in LENGTHS]
        more = [f"{slope(list(zip(LENGTHS, side))):.1f}" for side in zip(*found)]
        row(operation, *(f"{ours:,.0f} ({ours / plain:.2f})" for plain, ours in found), *more)


def count_table():
    print("\n## Growth with the number of fields, mixed: our nanoseconds a request, and time ratio (spread)\n")
    header("operation", *(f"{n:,} fields" for n in COUNTS))
    for operation in OPERATIONS:
        found = [compared(operation, "mixed", n) for n in COUNTS]
        row(operation, *(f"{statistics.median(times['ours']):,.0f}, {time_ratio(times)}" for times in found))


def verdict(found):
    print()
    for operation, most in TARGET.items():
        for corpus, label in FIELDS.items():
            plain, ours = (found[operation, corpus, side][0] for side in SIDES)
            limit = most if corpus == "mixed" else CATEGORY
            met = "met" if ours <= limit * plain else "MISSED"
            print(f"{operation}, {label}: {ours / plain:.3f} times plain C, at most {limit} is the target: {met}")


def function_list(found):
    print("\nWhere the instructions of a request go, by function of the linked program\n")
    for (operation, corpus, side), (_, counts) in found.items():
        if corpus in FIELDS:
            most = by_function(side, counts)[:8]
            print(f"{operation}, {FIELDS[corpus]}, {side}: " + ", ".join(f"{name} {n:,.0f}" for n, name in most))


def main():
    print(f"Both sides run {'natively' if NATIVE else 'by the emulator'}; {ROUNDS} rounds, the two sides by turns")
    instructions = Instructions(tried_counter())
    found = operation_table(instructions)
    length_table(instructions)
    count_table()
    verdict(found)
    if programs.EMULATOR:
        function_list(found)


if __name__ == "__main__":
    sys.exit(main())
