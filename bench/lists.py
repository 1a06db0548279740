#!/usr/bin/env python3
"""Runs two programs that list a file's networks in turn, and prints the best of all rounds.

    lists.py ROUNDS OURS OTHER -- FILE..

Each is a command, to which FILE and the range `::/0` are added, and then `--empty`; its lines go to nothing, and
to a file. In turn means that both meet the same neighbours on a shared machine. The lines must be the same bytes.
"""
import argparse
import filecmp
import os
import shlex
import subprocess
import sys
import tempfile
import time


def seconds(command, words, to):
    """How long a command takes, with its lines written to a file."""
    with open(to, "wb") as out:
        start = time.perf_counter()
        subprocess.run([*shlex.split(command), *words], stdout=out, check=True)
        return time.perf_counter() - start


def best(commands, words, targets, rounds):
    """The best time of each command, run in turn."""
    times = [min(column) for column in zip(*(
        [seconds(command, words, to) for command, to in zip(commands, targets)]
        for _ in range(rounds)
    ))]
    return times


def main():
    parser = argparse.ArgumentParser(usage=__doc__)
    parser.add_argument("rounds", type=int)
    parser.add_argument("ours")
    parser.add_argument("other")
    parser.add_argument("files", nargs="+")
    options = parser.parse_args()
    commands = [options.ours, options.other]
    print("| file | lines | ours | other | |\n|---|---|---|---|---|")
    with tempfile.TemporaryDirectory() as folder:
        files = [f"{folder}/ours", f"{folder}/other"]
        for file in options.files:
            for extra in ([], ["--empty"]):
                words = [file, "::/0", *extra]
                for targets, name in (([os.devnull] * 2, "to nothing"), (files, "to a file")):
                    ours, other = best(commands, words, targets, options.rounds)
                    what = " ".join([os.path.basename(file), *extra])
                    print(f"| {what} | {name} | {ours * 1e3:.0f} ms | {other * 1e3:.0f} ms | {other / ours:.2f}x |")
                if not filecmp.cmp(*files, shallow=False):
                    sys.exit(f"{shlex.join(words)}: the lines differ")


main()
