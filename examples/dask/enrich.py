#!/usr/bin/python3
"""Enriches a log by several processes: dask's scheduler hands out blocks that end at line breaks.

    examples/dask/enrich.py LOG OUT mmdb enrich FILE --field PATH ..

The bytes and their order are those of one process. For several machines give `Client` the address of a scheduler in
place of the local cluster, and keep LOG, OUT and FILE where all of them see them. Debian: python3-distributed.
"""
import os
import sys
import tempfile

import blocks
from distributed import Client, LocalCluster


def enrich(client, log, out, command, block=blocks.BLOCK):
    """Enriches a log into a file, by the workers of a cluster."""
    with tempfile.TemporaryDirectory(dir=os.path.dirname(os.path.abspath(out))) as folder:
        tasks = [
            client.submit(blocks.enrich_block, command, os.path.abspath(log), start, end, f"{folder}/{number}", pure=False)
            for number, (start, end) in enumerate(blocks.blocks_of(log, block))
        ]
        with open(out, "wb") as joined:
            for task in tasks:
                with open(task.result(), "rb") as part:
                    joined.write(part.read())


def main():
    log, out, *command = sys.argv[1:]
    with LocalCluster(n_workers=2, threads_per_worker=1, dashboard_address=None) as cluster, Client(cluster) as client:
        enrich(client, log, out, command)


if __name__ == "__main__":
    main()
