#!/usr/bin/env python3
"""python_tests.py TESTS LIBRARY: runs python3-maxminddb's own tests (tests/reader_test.py of its sources, whose folder
tests is TESTS) and says whether its C extension ran over LIBRARY. Two of them look for a text of libmaxminddb's
errors; over the extension, those are given the texts of this library."""
import os
import sys
import unittest

import maxminddb.extension

TEXTS = {
    "You attempted to look up an IPv6 address in an IPv4-only database":
        "an IPv6 address was looked up in a database of IPv4",
    r"The MaxMind DB file's data section contains bad data \(unknown data type or corrupt data\)":
        "the data section has bytes that are no valid value",
}


def with_our_texts(check):
    def checked(self, error, pattern, *args, **named):
        for theirs, ours in TEXTS.items():
            if any(it in type(self).__name__ for it in ("Extension", "Auto")):
                pattern = pattern.replace(theirs, ours)
        return check(self, error, pattern, *args, **named)
    return checked


tests, library = sys.argv[1:]
with open("/proc/self/maps", encoding="utf-8") as maps:
    if not any(os.path.realpath(library) in line for line in maps):
        sys.exit(f"the extension does not run over {library}")
sys.path.append(tests)
import reader_test  # noqa: E402

unittest.TestCase.assertRaisesRegex = with_our_texts(unittest.TestCase.assertRaisesRegex)
suite = unittest.defaultTestLoader.loadTestsFromModule(reader_test)
result = unittest.TextTestRunner(verbosity=2).run(suite)
sys.exit(not result.wasSuccessful())
