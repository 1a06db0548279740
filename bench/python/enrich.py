#!/usr/bin/env python3
"""What `mmdb enrich` does with tabs, over Debian's python3-maxminddb: the country's code behind each line of
standard input.

    enrich.py FILE < lines > lines"""
import sys

import maxminddb


def code_of(reader, address):
    """The text of the field, or none."""
    try:
        record = reader.get(address)
    except ValueError:
        return ""
    return ((record or {}).get("country") or {}).get("iso_code") or ""


def main():
    with maxminddb.open_database(sys.argv[1], maxminddb.MODE_MMAP_EXT) as reader:
        for line in sys.stdin:
            text = line.rstrip("\r\n")
            sys.stdout.write(text + "\t" + code_of(reader, text.split("\t", 1)[0]) + line[len(text) :])


main()
