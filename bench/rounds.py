#!/usr/bin/env python3
"""Runs programs in turn on the same files, and prints the best of all rounds and how it compares.

    rounds.py N REPEATS ROUNDS NAME=COMMAND.. -- FILE..
    rounds.py --only lookup,walk ..         the work whose name has one of these words

Each command is run with FILE, N and REPEATS. In turn means that all of them meet the same neighbours on a
shared machine: a single figure varies there, the ratio of the best of many rounds much less. A ratio is of the
first program to the other, above 1 where the first is faster. A `!` marks sums that differ, so work that is not
the same.
"""
import argparse
import os
import shlex
import subprocess
import sys


def figures(command, file, count, repeats):
    """The lines that a program prints: by name the best, its unit and the sum."""
    words = [*shlex.split(command), file, count, repeats]
    ran = subprocess.run(words, capture_output=True, text=True)
    if ran.returncode:
        sys.exit(f"{shlex.join(words)}: status {ran.returncode}: {ran.stderr.strip()}")
    lines = (line.split("\t") for line in ran.stdout.splitlines() if line[0] != "#")
    return {name: (float(best), unit, total) for name, best, _, unit, total in lines}


def better(one, other):
    """The better of two lines of the same work by the same program."""
    if one is None:
        return other
    if one[2] != other[2]:
        sys.exit(f"the same work has the sums {one[2]} and {other[2]}")
    choose = max if one[1] == "/s" else min
    return (choose(one[0], other[0]), *one[1:])


def best_of(programs, file, options):
    """By name of program and of work, the best line of all rounds."""
    best = {name: {} for name in programs}
    for _ in range(options.rounds):
        for name, command in programs.items():
            made = figures(command, file, options.count, options.repeats)
            for work, line in made.items():
                best[name][work] = better(best[name].get(work), line)
    return best


def shown(line):
    """A figure as text."""
    value, unit, _ = line
    return f"{value:,.0f} /s" if unit == "/s" else f"{value:.3f} ms"


def cell(first, line):
    """A figure, and the ratio of the first program's to it."""
    if line is None:
        return "-"
    if first is None or first is line:
        return shown(line)
    ratio = first[0] / line[0] if line[1] == "/s" else line[0] / first[0]
    mark = "" if first[2] == line[2] else "!"
    return f"{shown(line)} ({ratio:.2f}x{mark})"


def line_of(lines, work):
    """A program's line of some work, or of the same work done one by one."""
    return lines.get(work) or lines.get(work.removesuffix("_many"))


def table(best, words):
    """The lines of a table, one for each work."""
    names = list(best)
    yield "| work | " + " | ".join(names) + " |"
    yield "|---" * (len(names) + 1) + "|"
    for work in dict.fromkeys(work for lines in best.values() for work in lines):
        if any(word in work for word in words):
            first = best[names[0]].get(work)
            cells = (cell(first, line_of(best[name], work)) for name in names)
            yield f"| `{work}` | " + " | ".join(cells) + " |"


def main():
    parser = argparse.ArgumentParser(usage=__doc__)
    parser.add_argument("--only", default="")
    parser.add_argument("count")
    parser.add_argument("repeats")
    parser.add_argument("rounds", type=int)
    parser.add_argument("programs", nargs="+")
    cut = sys.argv.index("--") if "--" in sys.argv else len(sys.argv)
    options = parser.parse_args(sys.argv[1:cut])
    programs = dict(program.split("=", 1) for program in options.programs)
    for file in sys.argv[cut + 1 :]:
        print(f"\n{os.path.basename(file)}\n")
        for line in table(best_of(programs, file, options), options.only.split(",")):
            print(line)


if __name__ == "__main__":
    main()
