"""Runs the programs of scripts/speed in turn, and prints tables of how their times and their memory stand to this library's.
    measure.py WORKLOADS COUNTER PROGRAM..
WORKLOADS are names joined by commas. COUNTER is the library that counts memory. The first PROGRAM is this library's; a
program's name tells which it is.
"""
import os
import struct
import subprocess
import sys
import tempfile

from workloads import LOOPS, SET, WORKLOADS, made

ROUNDS = 10

# How long the library has to be at work in a round, in nanoseconds.
LEAST = 200_000_000

# How many bytes of messages are read where memory is told as a mean.
MEAN_OF = 1_000_000

# The C library keeps what is handed back to it, as it does in a process that has run for a while: else a program that once
# handed back a large block runs large texts up to four times as fast as one that did not.
ENVIRONMENT = {**os.environ, "MALLOC_MMAP_THRESHOLD_": "33554432", "MALLOC_TRIM_THRESHOLD_": "1073741824"}

TITLES = {"plain_rust": "plain Rust", "dynamic_message": "C++ `DynamicMessage`", "dynamicpb": "Go `dynamicpb`"}

# What the peer's time is to be at least, by the library's: for reading and for writing, and in a loop.
GOALS = {
    "plain_rust": ({}, {}, 0.95),
    "dynamic_message": (
        {"packed": 0.35, "negative": 0.35, "loose": 0.5, "fixed": 0.06, "text_map": 0.7, "item_map": 0.7, "ascii": 0.4},
        {"fixed": 0.4, "ascii": 0.8},
        1,
    ),
    "dynamicpb": ({"groups": 0.6}, {"groups": 0.3}, 1),
}

# What a message's memory is to be at most, by that in C++.
MEMORY_GOALS = {
    **dict.fromkeys(("items", "deep", "small", "unknown", "texts"), 1),
    **dict.fromkeys(("packed", "negative", "loose", "fixed"), 3),
}


def run(program, workload, runs, steps, more={}):
    """The nanoseconds of all turns, for each sort of them, and how many bytes were written last, with a sum of what was seen."""
    parts = SET, steps.encode(), workload.type_name.encode(), workload.message
    whole = struct.pack("<I", runs) + b"".join(struct.pack("<I", len(part)) + part for part in parts) + workload.part
    done = subprocess.run([program], input=whole, capture_output=True, env={**ENVIRONMENT, **more})
    words = done.stdout.split()
    if done.returncode != 0 or len(words) < 3 or not all(word.isdigit() for word in words):
        sys.exit("%s: %s %s" % (program, done.stdout.decode(), done.stderr.decode()))
    *times, size, total = [int(word) for word in words]
    return times, (size, total)


def measured(programs, name):
    """The least nanoseconds of each sort of turn by each program, and how many bytes the message has."""
    workload = made(name)
    runs = 1
    while sum(run(programs[0], workload, runs, workload.steps)[0]) < LEAST:
        runs *= 4
    times, seen = {program: [] for program in programs}, {program: set() for program in programs}
    for _ in range(ROUNDS):
        for program in programs:
            taken, found = run(program, workload, runs, workload.steps)
            times[program].append(taken)
            seen[program].add(found)
    if len(set.union(*seen.values())) != 1:
        sys.exit("%s: the programs write different bytes: %s" % (name, seen))
    return [[min(row) / runs for row in zip(*times[program])] for program in programs], len(workload.message)


def memory(program, workload, counter):
    """How many bytes a message that was read takes, and how many it took at most while it was read; in Go the mean of many."""
    runs = max(1, MEAN_OF // len(workload.message)) if os.path.basename(program) == "dynamicpb" else 1
    with tempfile.NamedTemporaryFile() as counted:
        _, seen = run(program, workload, runs, "memory", {"COUNTED": counted.name, "LD_PRELOAD": counter})
        (before, _), (behind, most) = [map(int, line.split()) for line in counted.read().splitlines()]
    return ((behind - before) / runs, (most - before) / runs), seen


def compared(ratio, sign, goal):
    """The ratio and its goal, at least (`≥`) or at most (`≤`) which it is to be."""
    reached = round(ratio, 2) >= goal if sign == "≥" else round(ratio, 2) <= goal
    return "%.2f %s %g" % (ratio, sign if reached else {"≥": "<", "≤": ">"}[sign], goal)


def is_missed(cell):
    return " < " in cell or " > " in cell


def load():
    with open("/proc/loadavg") as averages:
        return averages.read().split()[0]


def begun(titles):
    print("\n| %s |\n|%s" % (" | ".join(titles), "---|" * len(titles)), flush=True)


def row_of(*cells):
    print("| %s |" % " | ".join(cells), flush=True)
    return sum(is_missed(cell) for cell in cells)


def read_and_written(programs, names):
    """Prints a row for each message that is read and written, and gives how many goals are missed."""
    peers = [os.path.basename(program) for program in programs[1:]]
    begun(["Workload", "Bytes", "Reads, MB/s", "Writes, MB/s"]
          + ["%s, to %s" % (way, TITLES[peer]) for peer in peers for way in ("reads", "writes")])
    missed = 0
    for name in names:
        (here, *others), size = measured(programs, name)
        ratios = [compared(times[way] / here[way], "≥", GOALS[peer][way].get(name, GOALS[peer][2]))
                  for peer, times in zip(peers, others) for way in (0, 1)]
        missed += row_of(name, "{:,}".format(size), *["%.0f" % (size * 1000 / time) for time in here], *ratios)
    return missed


def looped(programs, names):
    """Prints a row for each loop, and gives how many goals are missed."""
    peers = [os.path.basename(program) for program in programs[1:]]
    begun(["Loop", "Bytes", "Microseconds"] + ["to %s" % TITLES[peer] for peer in peers])
    missed = 0
    for name in names:
        ((here,), *others), size = measured(programs, name)
        ratios = [compared(time / here, "≥", GOALS[peer][2]) for peer, (time,) in zip(peers, others)]
        missed += row_of(name, "{:,}".format(size), "%.1f" % (here / 1000), *ratios)
    return missed


def kept(programs, names, counter):
    """Prints a row for each message in memory, and gives how many goals are missed."""
    kinds = [os.path.basename(program) for program in programs]
    compares = "dynamic_message" in kinds
    titles = ["%s, %s" % (way, TITLES.get(kind, "this library")) for kind in kinds for way in ("stays", "at most")]
    begun(["Workload", "Bytes"] + titles + ["%s, to C++" % way for way in ("stays", "at most") if compares])
    missed = 0
    for name in names:
        workload = made(name)
        size = len(workload.message)
        taken, seen = zip(*[memory(program, workload, counter) for program in programs])
        if len(set(seen)) != 1:
            sys.exit("%s: the programs read different messages: %s" % (name, dict(zip(kinds, seen))))
        cells = ["%.1f" % (value / size) for pair in taken for value in pair]
        for own, other in zip(taken[0], taken[kinds.index("dynamic_message")]) if compares else ():
            ratio = own / other
            cells.append(compared(ratio, "≤", MEMORY_GOALS[name]) if name in MEMORY_GOALS else "%.2f" % ratio)
        missed += row_of(name, "{:,}".format(size), *cells)
    return missed


names, counter, *programs = sys.argv[1:]
names = names.split(",")
print("Load before: %s, on %d processors" % (load(), os.cpu_count()))
missed = 0
for table, workloads in ((read_and_written, WORKLOADS), (looped, LOOPS)):
    chosen = [name for name in names if name in workloads]
    if chosen:
        missed += table(programs, chosen)
print("\nLoad behind: %s" % load())
missed += kept(programs, names, counter)
print("\nGoals that are missed: %d" % missed)
