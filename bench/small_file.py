#!/usr/bin/env python3
"""Writes the small database that the gate runs the benchmark on.

    small_file.py >crates/mmdb_bench/data/small.mmdb

An IPv6 database of City records: one for 0.0.0.0/1, another for 128.0.0.0/1 and for 2000::/3, none elsewhere.
"""
import struct
import sys

RECORD_SIZE = 24
# The nodes of the way of 96 zero bits, and the one where IPv4 begins.
NODE_COUNT = 97


def header(kind, size):
    """The control byte of a small value, and the byte that extends its type."""
    assert size < 29
    return bytes([kind << 5 | size]) if kind < 8 else bytes([size, kind - 7])


def number(kind, value):
    digits = value.to_bytes((value.bit_length() + 7) // 8, "big")
    return header(kind, len(digits)) + digits


def uint16(value):
    return number(5, value)


def uint32(value):
    return number(6, value)


def uint64(value):
    return number(9, value)


def boolean(value):
    return header(14, int(value))


def double(value):
    return header(3, 8) + struct.pack(">d", value)


def text(value):
    return header(2, len(value.encode())) + value.encode()


def array(*values):
    return header(11, len(values)) + b"".join(values)


def table(**pairs):
    return header(7, len(pairs)) + b"".join(text(key) + value for key, value in pairs.items())


def pointer(place):
    assert place < 2048
    return bytes([0x20 | place >> 8, place & 255])


def names(english, **others):
    return table(en=text(english), **{language: text(name) for language, name in others.items()})


def data_section():
    """The two records, and their offsets."""
    country = table(
        geoname_id=uint32(2635167),
        is_in_european_union=boolean(False),
        iso_code=text("GB"),
        names=names("United Kingdom", de="Vereinigtes Königreich", ja="イギリス"),
    )
    whole = table(
        city=table(geoname_id=uint32(2643743), names=names("London", fr="Londres", ru="Лондон")),
        continent=table(code=text("EU"), geoname_id=uint32(6255148), names=names("Europe")),
        country=pointer(0),
        location=table(
            accuracy_radius=uint16(100),
            latitude=double(51.5142),
            longitude=double(-0.0931),
            time_zone=text("Europe/London"),
        ),
        postal=table(code=text("EC1A")),
        registered_country=pointer(0),
        subdivisions=array(table(geoname_id=uint32(6269131), iso_code=text("ENG"), names=names("England"))),
        traits=table(is_anycast=boolean(True), user_count=uint32(0)),
    )
    poor = table(country=table(iso_code=text("US")))
    return country + whole + poor, len(country), len(country) + len(whole)


def tree(whole, poor):
    def child(target):
        return target.to_bytes(RECORD_SIZE // 8, "big")

    nothing = child(NODE_COUNT)
    at_whole = child(NODE_COUNT + 16 + whole)
    at_poor = child(NODE_COUNT + 16 + poor)
    way = b"".join(child(depth + 1) + (at_poor if depth == 2 else nothing) for depth in range(NODE_COUNT - 1))
    return way + at_whole + at_poor


def metadata():
    return table(
        binary_format_major_version=uint16(2),
        binary_format_minor_version=uint16(0),
        build_epoch=uint64(1),
        database_type=text("Small-City"),
        description=table(en=text("A small database")),
        ip_version=uint16(6),
        languages=array(text("en")),
        node_count=uint32(NODE_COUNT),
        record_size=uint16(RECORD_SIZE),
    )


def main():
    section, whole, poor = data_section()
    file = tree(whole, poor) + bytes(16) + section + b"\xab\xcd\xefMaxMind.com" + metadata()
    sys.stdout.buffer.write(file)


if __name__ == "__main__":
    main()
