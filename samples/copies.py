#!/usr/bin/env python3
"""Copies journals, and goes on with the copies.

usage: samples/copies.py PROGRAM    prints a line for each case that comes to something else, and how many cases there are; exit
                                    status 0 where none differs

A copy has the state of its journal in place of its entries. What a run makes on it, with the outbox that the journal filled, is
what it makes on the journal: so each case of samples/reloads.py is run with a copy in the journal's place between its runs.
"""

import json
import os
import sys
import tempfile

import reloads
import runs
from runs import LINE, ONE_PROBLEM, Differs, feed, held, put, run, same

COPIED = b"status: Ok; number: 3; lines: 34\n"
ENDED = b"R|3-1|4|100.000000000|e\n"
MAGIC = b"ZTSJRN02"


def copy(program, journal="journal", into="copy"):
    return run(program, "--mode", "checkpoint", "--journal", journal, "--into", into)


def first_copy(program):
    """The journal of the first example, its outbox, and its copy."""
    put("outbox", b"")
    same("the first run", feed(program, "--journal", "journal", "--outbox", "outbox"), (0, ONE_PROBLEM))
    before = held("journal")
    same("the copy", copy(program), (0, COPIED))
    same("the journal", held("journal"), before)


def goes_on(program, syncers):
    """A run on the copy and the journal's outbox goes on behind both."""
    first_copy(program)
    body = json.dumps({"request": "sender data", "data": [{"host": "h", "key": "k", "value": "1"}]})
    put("script", f"100.000000000 open 1\n100.000000000 frame 1 {body}\n".encode())
    words = ["--journal", "copy", "--outbox", "outbox", "--syncers", syncers]
    ended = b"status: Ok; entries: 1; problems: 0; recoveries: 1; messages: 0; outbox bytes: 58\n"
    same("the run", feed(program, *words), (0, ended))
    same("the outbox", held("outbox"), LINE + ENDED)
    put("script", b"100.000000000 closed\n")
    same("a run that adds nothing", feed(program, *words), (0, ended))
    same("its outbox", held("outbox"), LINE + ENDED)


def is_behind(program):
    """An outbox that lacks some of the lines before the copy is refused."""
    first_copy(program)
    put("outbox", LINE[:33])
    behind = (18, b"status: OutboxBehind; held: 33; base: 34\n")
    same("the run", feed(program, "--journal", "copy", "--outbox", "outbox"), behind)
    same("the outbox", held("outbox"), LINE[:33])


def cut_short(program):
    """What a stop at one of the six calls of the disk may leave isn't taken for a journal with fewer entries."""
    first_copy(program)
    whole = held("copy")
    same("the beginning", whole[:9], MAGIC + b"\x01")
    closed = MAGIC + b"\x00" + whole[9:]
    put("script", b"100.000000000 closed\n")
    for size in (10, 13, 20, len(whole) - 1, len(whole)):
        put("copy", closed[:size])
        unfinished = (19, b"status: Unfinished\n")
        same(f"{size} bytes behind a closed gate", feed(program, "--journal", "copy", "--outbox", "outbox"), unfinished)
        same("the same as a journal to be copied", copy(program, "copy", "other"), unfinished)
        same("what is left", held("copy"), closed[:size])
    for size in range(10, len(whole)):
        put("copy", whole[:size])
        damaged = (7, b"status: Damaged; at: 8\n")
        same(f"{size} bytes behind an open gate", feed(program, "--journal", "copy", "--outbox", "outbox"), damaged)
    for size in range(10):
        put("copy", closed[:size])
        same(f"{size} bytes", copy(program, "copy", "other"), (21, b"status: NoEntries\n"))


def again(program):
    """The copy of a copy has the same bytes."""
    first_copy(program)
    same("the copy of the copy", copy(program, "copy", "third"), (0, COPIED))
    same("its bytes", held("third"), held("copy"))


def refused(program):
    """Why nothing is copied."""
    first_copy(program)
    first = held("copy")
    same("a file that holds bytes", copy(program), (20, b"status: NotEmpty; bytes: %d\n" % len(first)))
    same("what it holds", held("copy"), first)
    same("no journal", copy(program, "nothing", "new"), (21, b"status: NoEntries\n"))
    put("empty", b"ZTSJRN01\x00\x00")
    same("a journal of no entries", copy(program, "empty", "new"), (21, b"status: NoEntries\n"))
    put("other", b"x" * 20)
    same("another file", copy(program, "other", "new"), (6, b"status: NotOurs\n"))
    put("damaged", b"ZTSJRN01\x01\x00")
    same("a damaged journal", copy(program, "damaged", "new"), (7, b"status: Damaged; at: 8\n"))
    same("one file twice", copy(program, "journal", "journal"), (10, b"status: DiskFault\n"))
    same("no place for the copy", copy(program, "journal", "no/such/folder"), (10, b"status: DiskFault\n"))
    for words in (["--journal", "journal"], ["--into", "new"], []):
        same(f"words {words}", run(program, "--mode", "checkpoint", *words), (2, b"status: Usage\n"))


def between(program, steps, syncers):
    """The runs of a case of changed configurations, with a copy in the journal's place behind each of them."""
    put("outbox", b"")
    words = ["--journal", "journal", "--outbox", "outbox", "--syncers", syncers]
    for place, (document, events, lines) in enumerate(steps):
        put("config.json", (document if isinstance(document, str) else json.dumps(document)).encode())
        put("script", "".join(f"{event}\n" for event in events).encode())
        status, printed = feed(program, *words)
        wanted = "".join(f"{line}\n" for line in lines).encode()
        same(f"the exit of run {place + 1}", (status, printed[:11]), (0, b"status: Ok;"))
        same(f"the outbox of run {place + 1}", held("outbox"), wanted)
        status, printed = copy(program)
        same(f"the exit of copy {place + 1}", status, 0)
        if not printed.endswith(b"; lines: %d\n" % len(wanted)):
            raise Differs(f"what copy {place + 1} printed: {printed!r}")
        os.rename("copy", "journal")


CASES = [
    ("the first example goes on", goes_on, "4"),
    ("the first example goes on, on one thread", goes_on, "0"),
    ("an outbox that is behind", is_behind),
    ("copies that are cut short", cut_short),
    ("a copy of a copy", again),
    ("what isn't copied", refused),
]
CASES += [
    (f"copies between runs: {name}, beside {syncers} syncers", between, steps, syncers)
    for name, steps in reloads.CASES.items()
    for syncers in ("4", "0")
]


def main():
    if len(sys.argv) != 2:
        sys.exit("usage: samples/copies.py PROGRAM")
    program = os.path.abspath(sys.argv[1])
    differing = 0
    for name, case, *arguments in CASES:
        with tempfile.TemporaryDirectory() as folder:
            os.chdir(folder)
            try:
                for file in ("config.json", "script"):
                    put(file, runs.data_of(file))
                case(program, *arguments)
            except (Differs, OSError) as error:
                differing += 1
                print(f"{name}: {error}")
            finally:
                os.chdir("/")
    print(f"{len(CASES)} copies, {differing} differ")
    sys.exit(1 if differing else 0)


if __name__ == "__main__":
    main()
