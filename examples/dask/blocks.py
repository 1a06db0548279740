"""Pieces of work for `mmdb` that many processes or machines can share.

Each piece is one run of the program, whose output goes to a file of its own that gets its name when it is whole. So a piece
that was begun by a worker that died is done again, and nothing is lost or doubled.
"""
import os
import subprocess
import tempfile

BLOCK = 8 << 20


def blocks_of(log, block=BLOCK):
    """The blocks of a log, as (start, end): about `block` bytes each, up to a line break."""
    size = os.path.getsize(log)
    with open(log, "rb") as file:
        start = 0
        while start < size:
            file.seek(min(start + block, size))
            file.readline()
            yield start, file.tell()
            start = file.tell()


def ranges():
    """The 256 ranges of IPv4 that an export is cut into."""
    return [f"{first}.0.0.0/8" for first in range(256)]


def run(command, target, data=None):
    """Runs a command on what it should read, and keeps what it writes in a file, which is whole or not there."""
    folder = os.path.dirname(os.path.abspath(target))
    with tempfile.NamedTemporaryFile(dir=folder, delete=False) as out:
        done = subprocess.run(command, input=data, stdin=None if data is not None else subprocess.DEVNULL, stdout=out, check=False)
    if done.returncode != 0:
        os.unlink(out.name)
        raise RuntimeError(f"{command[0]} ended with status {done.returncode}")
    os.replace(out.name, target)
    return target


def enrich_block(command, log, start, end, target):
    """Enriches one block of a log."""
    with open(log, "rb") as file:
        file.seek(start)
        return run(command, target, file.read(end - start))


def export_range(command, network, target):
    """Exports one range."""
    return run([*command, network], target)


def join(parts, out):
    """Writes the parts one after the other. A network that is wider than a range stands in each range that it holds,
    and is written once."""
    last = None
    with open(out, "wb") as joined:
        for part in parts:
            with open(part, "rb") as lines:
                for line in lines:
                    if line != last:
                        joined.write(line)
                    last = line
