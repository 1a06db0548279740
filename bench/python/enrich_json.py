#!/usr/bin/env python3
"""What `mmdb enrich --json client.ip --field country.iso_code` does, over Python's json and Debian's
python3-maxminddb: the country's code in a member of each object of standard input.

    enrich_json.py FILE < lines > lines"""
import json
import sys

import maxminddb


def code_of(record):
    """The text of the field, or none."""
    return (record.get("country") or {}).get("iso_code")


def member_of(reader, text):
    """What is added before the last brace of a line: nothing where it is no object, or its address has no record."""
    try:
        row = json.loads(text)
        record = reader.get(row["client"]["ip"])
    except (ValueError, KeyError, TypeError):
        return ""
    if record is None:
        return ""
    return "," + json.dumps({"geo": {"iso_code": code_of(record)}}, ensure_ascii=False, separators=(",", ":"))[1:-1]


def main():
    with maxminddb.open_database(sys.argv[1], maxminddb.MODE_MMAP_EXT) as reader:
        for line in sys.stdin:
            last = line.rfind("}")
            sys.stdout.write(line[:last] + member_of(reader, line) + line[last:] if last >= 0 else line)


main()
