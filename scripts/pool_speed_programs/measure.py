"""Runs the programs over sets of one file and of many, five times each in turns, and prints the least of what each answers.

    measure.py COUNTS FILES PROGRAM [NAME=PEER..]

COUNTS are the sizes of the sets of one file, and FILES those of the sets of many files, parted by blanks. A peer reads a set
and adds its files one by one, and prints the microseconds for both, the kilobytes of memory at most where it tells them, the
microseconds to add one more file, and the nanoseconds of its look-ups.
"""

import os
import subprocess
import sys

HERE = os.path.dirname(os.path.abspath(__file__))
LOOKUPS = ("a message type by its full name", "a field by its number", "a field by its name")


def made(shape, count):
    words = [sys.executable, os.path.join(HERE, "set.py"), shape, str(count)]
    return subprocess.run(words, stdout=subprocess.PIPE, check=True).stdout


def answer(program, bytes):
    """The numbers that the program prints of a set, or none where it is refused."""
    ended = subprocess.run([program], input=bytes, stdout=subprocess.PIPE, stderr=subprocess.DEVNULL)
    words = ended.stdout.decode().split()
    return [float(word) for word in words] if words and "refused" not in words else None


def least(programs, bytes):
    """The least of five answers of each program, number by number; a program that refuses the set has none."""
    rows = {name: [] for name in programs}
    for _ in range(5):
        for name, program in programs.items():
            rows[name].append(answer(program, bytes))
    return {name: [min(column) for column in zip(*found)] for name, found in rows.items() if None not in found}


def lookups(numbers):
    return ", ".join("%s %.0f ns" % it for it in zip(LOOKUPS, numbers))


def one_file(programs, shape, count):
    bytes = made(shape, count)
    found = least(programs, bytes)
    if "own" not in found:
        sys.exit("refused: %d %s" % (count, shape))
    read, pool, most, added, *times = found.pop("own")
    print("%d %s, %d bytes: read %.1f ms, made %.1f ms, added to in %.0f us, %.1f times the bytes at most"
          % (count, shape, len(bytes), read / 1000, pool / 1000, added, most * 1024 / len(bytes)))
    if shape == "messages":
        print("  found: %s" % lookups(times))
    for name, (both, *most, added, full_name, number, own_name) in found.items():
        line = "  %s: read and made %.1f ms, added to in %.0f us" % (name, both / 1000, added)
        line += "".join(", %.1f times the bytes at most" % (it * 1024 / len(bytes)) for it in most)
        print(line + ("; found: %s" % lookups((full_name, number, own_name)) if shape == "messages" else ""))


def many_files(programs, count):
    bytes = made("files", count)
    found = least(programs, bytes)
    if "own" not in found or min(found["own"]) == 0:
        sys.exit("refused: %d files" % count)
    print("%d files of ten messages, %d bytes: at once %.1f ms, one by one %.1f ms, with a descriptor held of each %.1f ms"
          % (count, len(bytes), *(it / 1000 for it in found.pop("own"))))
    for name, (both, *_) in found.items():
        print("  %s: read, and one by one %.1f ms" % (name, both / 1000))


def main():
    counts, files, program, *peers = sys.argv[1:]
    programs = {"own": program, **dict(it.split("=", 1) for it in peers)}
    for shape in ("messages", "ranges", "options"):
        for count in counts.split():
            one_file(programs, shape, int(count))
    for count in files.split():
        many_files(programs, int(count))


main()
