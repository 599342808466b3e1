#!/usr/bin/env python3
"""Opens journals of many entries with built programs, and prints how long that takes and how much memory is held.

usage: bench/opening.py PROGRAM FOLDER [--items N] [--copy] [ENTRIES..]    100,000, 1,000,000 and 4,000,000 entries if none
                                                                          are given, and one item

The journals are written to the folder, by the rules of docs/FORMATS.md: values of ten bytes for one item after the other, in
groups of 250 and in groups of one. Beside each opening stands how long Python takes to read the same bytes of the file. With
--copy each journal is then copied to its state, and the copy opened.
"""

import argparse
import json
import os
import struct
import sys
import tempfile
import time


def configuration_of(items):
    """The document of so many items on hosts of ten, each with a trigger."""
    hosts = []
    for first in range(0, items, 10):
        name, keys = f"h{first}", [f"k{key}" for key in range(first, min(first + 10, items))]
        triggers = [{"name": f"t {key}", "expression": f"last(/{name}/{key})>9999999999", "severity": 3} for key in keys]
        hosts.append({"name": name, "items": [{"key": key} for key in keys], "triggers": triggers})
    return json.dumps({"hosts": hosts}).encode()


def group(entries):
    bytes_ = b"".join(entries)
    return struct.pack("<II", len(bytes_), len(entries)) + bytes_


def write_journal(path, entries, a_group, items=1):
    configuration, values = configuration_of(items), [struct.pack("<BIIIIII", 2, 100, 0, item, 100, 0, 10) + b"1234567890" for item in range(1, items + 1)]
    left, at = entries - 2, 0
    with open(path, "wb") as it:
        it.write(b"ZTSJRN01\1" + group([struct.pack("<BIII", 1, 0, 0, len(configuration)) + configuration]))
        it.write(b"\1" + group([struct.pack("<BII", 3, 100, 0)]))
        whole = {}
        while left > 0:
            size = min(a_group, left)
            if (at, size) not in whole:
                whole[at, size] = b"\1" + group([values[(at + place) % items] for place in range(size)])
            it.write(whole[at, size])
            left, at = left - size, (at + size) % items
        it.write(b"\0")


def timed(words):
    """Runs a program, and gives its seconds, those of its processors, the MB that it held, and its exit status."""
    begin = time.time()
    pid = os.posix_spawn(words[0], words, os.environ)
    _, status, usage = os.wait4(pid, 0)
    return time.time() - begin, usage.ru_utime + usage.ru_stime, usage.ru_maxrss / 1024, os.waitstatus_to_exitcode(status)


def measure(program, folder, entries, a_group, items, copies):
    journal = f"{folder}/journal"
    write_journal(journal, entries, a_group, items)
    begin = time.time()
    with open(journal, "rb") as it:
        while it.read(65536):
            pass
    read = time.time() - begin
    words = [program, "--mode", "feed", "--config", f"{folder}/configuration", "--script", f"{folder}/script", "--outbox", f"{folder}/outbox", "--journal"]
    calls = [("opening", [*words, journal])]
    if copies:
        calls.append(("copy", [program, "--mode", "checkpoint", "--journal", journal, "--into", f"{folder}/copy"]))
        calls.append(("behind it", [*words, f"{folder}/copy"]))
    for name, call in calls:
        took, used, held, status = timed(call)
        print(f"{name:>10} {entries:10,} {a_group:8} {took:8.2f} {used:8.2f} {read:8.2f} {held:8.0f}  exit {status}", flush=True)


def main():
    parser = argparse.ArgumentParser(usage="bench/opening.py PROGRAM FOLDER [--items N] [--copy] [ENTRIES..]")
    parser.add_argument("program")
    parser.add_argument("folder")
    parser.add_argument("--items", type=int, default=1)
    parser.add_argument("--copy", action="store_true")
    parser.add_argument("entries", type=int, nargs="*", default=[100_000, 1_000_000, 4_000_000])
    words = parser.parse_intermixed_args()
    print(f"{'':10} {'entries':>10} {'a group':>8} {'seconds':>8} {'CPU':>8} {'read':>8} {'MB held':>8}", flush=True)
    for entries in words.entries:
        for a_group in (250, 1):
            with tempfile.TemporaryDirectory(dir=words.folder) as folder:
                with open(f"{folder}/configuration", "wb") as it:
                    it.write(configuration_of(words.items))
                open(f"{folder}/script", "w").close()
                measure(os.path.realpath(words.program), folder, entries, a_group, words.items, words.copy)
    return 0


if __name__ == "__main__":
    sys.exit(main())
