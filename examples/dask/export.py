#!/usr/bin/python3
"""Exports the IPv4 networks of a file by several processes: dask's scheduler hands out the 256 ranges of /8.

    examples/dask/export.py OUT mmdb export FILE --field PATH ..

What is written is what `mmdb export FILE 0.0.0.0/0 ..` writes, line by line as JSON. Debian: python3-distributed.
"""
import os
import sys
import tempfile

import blocks
from distributed import Client, LocalCluster


def export(client, out, command):
    """Exports the IPv4 networks of a file, by the workers of a cluster."""
    with tempfile.TemporaryDirectory(dir=os.path.dirname(os.path.abspath(out))) as folder:
        tasks = [
            client.submit(blocks.export_range, command, network, f"{folder}/{number}", pure=False)
            for number, network in enumerate(blocks.ranges())
        ]
        blocks.join([task.result() for task in tasks], out)


def main():
    out, *command = sys.argv[1:]
    with LocalCluster(n_workers=2, threads_per_worker=1, dashboard_address=None) as cluster, Client(cluster) as client:
        export(client, out, command)


if __name__ == "__main__":
    main()
