#!/usr/bin/env python3
"""What `MMDB_open`, `mmdb_verify` and `mmdb_verify_records` say of changed files, by the codes of libmaxminddb's header.

    statuses.py LIBRARY FOLDER

LIBRARY is libmaxminddb.so.0, and FOLDER is where the files are written. Each is the smallest database with something changed:
two networks of IPv4, of which the upper one has the text "x". The last line counts the files; the status is 1 where a code
is another one.
"""
import ctypes
import errno
import sys

FINE, CORRUPT_TREE, INVALID_METADATA, IO_ERROR, UNKNOWN_FORMAT, INVALID_DATA = 0, 2, 3, 4, 6, 7
NODE, SEPARATOR, DATA, MARKER = b"\x00\x00\x01\x00\x00\x11", bytes(16), b"\x41x", b"\xab\xcd\xefMaxMind.com"
METADATA = {
    b"binary_format_major_version": b"\xa1\x02",
    b"binary_format_minor_version": b"\xa0",
    b"build_epoch": b"\x01\x02\x01",
    b"database_type": b"\x41T",
    b"description": b"\xe1\x42en\x41d",
    b"ip_version": b"\xa1\x04",
    b"languages": b"\x00\x04",
    b"node_count": b"\xc1\x01",
    b"record_size": b"\xa1\x18",
}


def metadata_of(**changes):
    fields = {**METADATA, **{name.encode(): value for name, value in changes.items()}}
    fields = {name: value for name, value in fields.items() if value is not None}
    pairs = [bytes([0x40 | len(it)]) + it if len(it) < 29 else bytes([0x5D, len(it) - 29]) + it for it in fields]
    return bytes([0xE0 | len(fields)]) + b"".join(name + value for name, value in zip(pairs, fields.values()))


def file_of(node=NODE, separator=SEPARATOR, data=DATA, marker=MARKER, **changes):
    return node + separator + data + marker + metadata_of(**changes)


# Nodes of which both records lead to the next one: four have 16 leaves, where 12 are allowed.
LADDER = b"".join(bytes([0, 0, it + 1]) * 2 for it in range(4))

# What is changed, the file, and the codes of opening and of verifying it.
ROWS = [
    ("nothing", file_of(), FINE, FINE),
    ("the marker", file_of(marker=b"MaxMind"), INVALID_METADATA, INVALID_METADATA),
    ("all metadata", file_of()[:-161], INVALID_METADATA, INVALID_METADATA),
    ("the end of the metadata", file_of()[:-1], INVALID_METADATA, INVALID_METADATA),
    ("a field of the metadata", file_of(node_count=None), INVALID_METADATA, INVALID_METADATA),
    ("a text of the metadata that is not UTF-8", file_of(database_type=b"\x41\xff"), INVALID_METADATA, INVALID_METADATA),
    ("a description that is not UTF-8", file_of(description=b"\xe1\x42en\x41\xff"), INVALID_METADATA, INVALID_METADATA),
    ("a field's type", file_of(node_count=b"\x41x"), INVALID_METADATA, INVALID_METADATA),
    ("the format's version", file_of(binary_format_major_version=b"\xa1\x03"), UNKNOWN_FORMAT, UNKNOWN_FORMAT),
    ("the version and the size of records", file_of(binary_format_major_version=b"\xa0", record_size=b"\xa1\x10"), UNKNOWN_FORMAT, UNKNOWN_FORMAT),
    ("the version of IP", file_of(ip_version=b"\xa1\x05"), INVALID_METADATA, INVALID_METADATA),
    ("the version of IP and the size of records", file_of(ip_version=b"\xa0", record_size=b"\xa1\x19"), INVALID_METADATA, INVALID_METADATA),
    ("the count of nodes", file_of(node_count=b"\xc0"), INVALID_METADATA, INVALID_METADATA),
    ("too many nodes", file_of(node_count=b"\xc1\x02"), INVALID_METADATA, INVALID_METADATA),
    ("the time", file_of(build_epoch=b"\x08\x02\x80" + bytes(7)), INVALID_METADATA, INVALID_METADATA),
    ("the time and the size of records", file_of(build_epoch=b"\x08\x02\x80" + bytes(7), record_size=b"\xa1\x19"), INVALID_METADATA, INVALID_METADATA),
    ("the size of records", file_of(record_size=b"\xa1\x19"), UNKNOWN_FORMAT, UNKNOWN_FORMAT),
    ("the type's name", file_of(database_type=b"\x40"), FINE, INVALID_METADATA),
    ("the description", file_of(description=b"\xe0"), FINE, INVALID_METADATA),
    ("a leaf inside the separator", file_of(node=b"\x00\x00\x10\x00\x00\x11"), FINE, CORRUPT_TREE),
    ("a node below itself", file_of(node=b"\x00\x00\x00\x00\x00\x11"), FINE, CORRUPT_TREE),
    ("a tree with too many leaves", file_of(node=LADDER, node_count=b"\xc1\x04"), FINE, CORRUPT_TREE),
    ("the separator", file_of(separator=bytes(15) + b"\x01"), FINE, INVALID_DATA),
    ("a text", file_of(data=b"\x41\xff"), FINE, INVALID_DATA),
    ("a pointer to itself", file_of(data=b"\x20\x00"), FINE, INVALID_DATA),
    # whole, with a record that can't be read: the last status is that of mmdb_verify_records, else it is that of mmdb_verify
    ("a key that is a number", file_of(data=b"\xE1\xA1\x07\x41y"), FINE, FINE, INVALID_DATA),
]


def main():
    library, folder = ctypes.CDLL(sys.argv[1], use_errno=True), sys.argv[2]
    wrong = 0
    for what, content, *wanted in ROWS:
        name = f"{folder}/changed.mmdb".encode()
        with open(name, "wb") as file:
            file.write(content)
        # more than an MMDB_s needs
        database = ctypes.create_string_buffer(4096)
        opened = library.MMDB_open(name, 0, database)
        if opened == FINE:
            library.MMDB_close(database)
        got = [opened, library.mmdb_verify(name), library.mmdb_verify_records(name)]
        if got != [*wanted, wanted[-1]][:3]:
            print(f"{what}: {got} instead of {wanted}")
            wrong += 1
    # a file that is too large, by its length alone
    with open(name, "wb") as file:
        file.truncate(1 << 32)
    got = [library.MMDB_open(name, 0, database), ctypes.get_errno(), library.mmdb_verify(name)]
    if got != [IO_ERROR, errno.EFBIG, IO_ERROR]:
        print(f"a file of 4 GiB: {got}")
        wrong += 1
    library.mmdb_lib_version.restype = ctypes.c_char_p
    if library.mmdb_lib_version() != b"0.1.0":
        print("another version")
        wrong += 1
    print(f"{len(ROWS) + 1} files, {wrong} wrong")
    return 1 if wrong else 0


if __name__ == "__main__":
    sys.exit(main())
