#!/usr/bin/env python3
"""Runs a program again and again over one journal and one outbox, with a configuration that changes in between.

usage: samples/reloads.py PROGRAM    prints a line for each case that comes to something else, and how many runs there are; exit
                                     status 0 where none differs

Each case is a list of runs: the document, the events, and all lines that the outbox has behind the run. What is expected is
written out here. Each case is run beside four syncers and on one thread.

Each sample that is fed is opened again, too: with one space more behind its document, with its hosts in the other order, and
with its own document again. None of that makes a line: what is open goes on.
"""

import json
import os
import re
import struct
import subprocess
import sys
import tempfile

import runs
from runs import Differs, feed, held, put, same


def item(key="k", **more):
    return {"key": key, **more}


def trigger(name="hot", expression="last(/h/k)>5", **more):
    return {"name": name, "expression": expression, "severity": 3, **more}


def host(name="h", items=None, triggers=None):
    return {"name": name, "groups": ["g"], "items": items or [item()], "triggers": [trigger()] if triggers is None else triggers}


def of(*hosts, **more):
    return {"hosts": list(hosts), **more}


def spaced(document, count):
    """The document's text with so many spaces behind it."""
    return json.dumps(document) + " " * count


def values(second, *sent):
    """The events of a connection that brings values at a second, as pairs of host/key and value."""
    asked = [{"host": name.split("/")[0], "key": name.split("/")[1], "value": value} for name, value in sent]
    body = json.dumps({"request": "sender data", "data": asked})
    return [f"{second}.000000000 open {second}", f"{second}.000000000 frame {second} {body}"]


def quiet(second):
    return [f"{second}.000000000 quiet"]


def closed(second):
    return [f"{second}.000000000 closed"]


HOT = "P|3-1|100.000000000|3|0|h|hot|hot"
HOT_AT_100 = values(100, ("h/k", "10"))


def tagged(*names):
    return host(triggers=[trigger(tags=[{"tag": name, "value": "v"} for name in names])])


def tags_of(line, *names):
    return line + "".join(f"|{name}|v" for name in names)


def action(name, **more):
    return {
        "name": name,
        "step_duration": "60s",
        "operations": [{"from": 1, "to": 3, "recipients": ["ops"], "subject": "{EVENT.NAME}", "body": "b"}],
        "recovery": [{"recipients": ["ops"], "subject": "{EVENT.NAME}", "body": "ok"}],
        **more,
    }


PAIR = {"name": "pair", "conditions": [{"kind": "tag_pair", "old": "s", "new": "s"}], "close": ["old"]}


def linked(*names):
    """Triggers over items of their own, with one tag each."""
    return host(
        items=[item(name) for name in names],
        triggers=[trigger(name, f"last(/h/{name})>5", tags=[{"tag": "s", "value": "x"}]) for name in names],
    )


CASES = {
    "one more space": [
        (spaced(of(host()), 0), HOT_AT_100, [HOT]),
        (spaced(of(host()), 1), closed(100), [HOT]),
        (spaced(of(host()), 1), values(200, ("h/k", "1")), [HOT, "R|3-1|6|200.000000000|e"]),
    ],
    "a trigger that is gone": [
        (of(host()), HOT_AT_100, [HOT]),
        (of(host(triggers=[])), closed(100), [HOT, "R|3-1|4|100.000000000|r"]),
    ],
    "a trigger that is gone comes back": [
        (of(host()), HOT_AT_100, [HOT]),
        (of(host(triggers=[])), closed(100), [HOT, "R|3-1|4|100.000000000|r"]),
        (of(host()), values(100, ("h/k", "11")), [HOT, "R|3-1|4|100.000000000|r", "P|6-1|100.000000000|3|0|h|hot|hot"]),
    ],
    "what the old rule keeps": [
        (of(host()), values(100, ("h/k", "4"), ("h/k", "3")), []),
        (
            of(host(triggers=[trigger(expression="sum(/h/k,#3)>6")])),
            values(100, ("h/k", "2"), ("h/k", "2")),
            ["P|7-1|100.000000000|3|0|h|hot|hot"],
        ),
    ],
    "hosts in another order": [
        (of(host(), host("i", triggers=[trigger("hot", "last(/i/k)>5")])), HOT_AT_100, [HOT]),
        (
            of(host("i", triggers=[trigger("hot", "last(/i/k)>5")]), host()),
            values(200, ("i/k", "10"), ("h/k", "1")),
            [HOT, "P|6-1|200.000000000|3|0|i|hot|hot", "R|3-1|7|200.000000000|e"],
        ),
    ],
    "an item with another type": [
        (of(host()), values(100, ("h/k", "4")), []),
        (of(host(items=[item(value_type="text")], triggers=[trigger(expression='find(/h/k,#2,"like","4")=1')])), values(100, ("h/k", "a")), []),
    ],
    "other names of tags": [
        (of(tagged("a")), HOT_AT_100, [tags_of(HOT, "a")]),
        (of(tagged("b")), closed(100), [tags_of(HOT, "a"), "R|3-1|4|100.000000000|r"]),
    ],
    "tags in another order": [
        (of(tagged("a", "b")), HOT_AT_100, [tags_of(HOT, "a", "b")]),
        (of(tagged("b", "a")), closed(100), [tags_of(HOT, "a", "b"), "R|3-1|4|100.000000000|r"]),
    ],
    "another value of a tag": [
        (of(tagged("a")), HOT_AT_100, [tags_of(HOT, "a")]),
        (
            of(host(triggers=[trigger(tags=[{"tag": "a", "value": "w"}])])),
            values(200, ("h/k", "1")),
            [tags_of(HOT, "a"), "R|3-1|6|200.000000000|e"],
        ),
    ],
    "what a step remembers, over two changes": [
        (spaced(of(host(items=[item(steps=[{"kind": "simple_change"}])])), 0), values(100, ("h/k", "5")), []),
        (spaced(of(host(items=[item(steps=[{"kind": "simple_change"}])])), 1), closed(100), []),
        (
            spaced(of(host(items=[item(steps=[{"kind": "simple_change"}])])), 2),
            values(100, ("h/k", "11")),
            ["P|6-1|100.000000000|3|0|h|hot|hot"],
        ),
    ],
    "what a step behind a changed one remembered": [
        (of(host(items=[item(steps=[{"kind": "multiplier", "params": ["1"]}, {"kind": "simple_change"}])])), values(100, ("h/k", "5")), []),
        (
            of(host(items=[item(steps=[{"kind": "multiplier", "params": ["2"]}, {"kind": "simple_change"}])])),
            values(100, ("h/k", "11"), ("h/k", "14")),
            ["P|6-1|100.000000000|3|0|h|hot|hot"],
        ),
    ],
    "problems that are gone, in the order of making": [
        (
            of(host(triggers=[trigger("late", depends=[{"trigger": "never"}]), trigger("early"), trigger("never", "last(/h/k)<0")])),
            HOT_AT_100,
            ["P|3-2|100.000000000|3|0|h|early|early", "P|3-1|100.000000000|3|0|h|late|late"],
        ),
        (
            of(host(triggers=[])),
            closed(100),
            [
                "P|3-2|100.000000000|3|0|h|early|early",
                "P|3-1|100.000000000|3|0|h|late|late",
                "R|3-2|4|100.000000000|r",
                "R|3-1|4|100.000000000|r",
            ],
        ),
    ],
    "a rule of correlation over a change": [
        (of(linked("a", "b"), correlations=[PAIR]), values(100, ("h/a", "10")), ["P|3-1|100.000000000|3|0|h|a|a|s|x"]),
        (
            of(linked("b", "a"), correlations=[PAIR]),
            values(100, ("h/b", "10")),
            ["P|3-1|100.000000000|3|0|h|a|a|s|x", "P|5-1|100.000000000|3|0|h|b|b|s|x", "R|3-1|5|100.000000000|c"],
        ),
    ],
    "an action by another name, and by its old one again": [
        (
            of(host(), actions=[action("act")]),
            [*values(120, ("h/k", "10")), *closed(120)],
            ["P|3-1|120.000000000|3|0|h|hot|hot", "S|3-1|act|1|120.000000000", "M|3-1|act|1|ops|hot|b"],
        ),
        (
            of(host(), actions=[action("other")]),
            closed(120),
            ["P|3-1|120.000000000|3|0|h|hot|hot", "S|3-1|act|1|120.000000000", "M|3-1|act|1|ops|hot|b"],
        ),
        (
            of(host(), actions=[action("act")]),
            [*quiet(180), *closed(180)],
            [
                "P|3-1|120.000000000|3|0|h|hot|hot",
                "S|3-1|act|1|120.000000000",
                "M|3-1|act|1|ops|hot|b",
                "S|3-1|act|2|180.000000000",
                "M|3-1|act|2|ops|hot|b",
            ],
        ),
    ],
    "a removed problem has no messages": [
        (
            of(host(), actions=[action("act")]),
            [*values(120, ("h/k", "10")), *closed(120)],
            ["P|3-1|120.000000000|3|0|h|hot|hot", "S|3-1|act|1|120.000000000", "M|3-1|act|1|ops|hot|b"],
        ),
        (
            of(host(triggers=[]), actions=[action("act")]),
            closed(120),
            ["P|3-1|120.000000000|3|0|h|hot|hot", "S|3-1|act|1|120.000000000", "M|3-1|act|1|ops|hot|b", "R|3-1|4|120.000000000|r"],
        ),
    ],
}


def one_case(program, steps, syncers, cut):
    """The runs of a case; with a cut, the outbox has so few bytes in front of the last run."""
    put("outbox", b"")
    words = ["--journal", "journal", "--outbox", "outbox", "--syncers", syncers]
    for place, (document, events, lines) in enumerate(steps):
        put("config.json", (document if isinstance(document, str) else json.dumps(document)).encode())
        put("script", "".join(f"{event}\n" for event in events).encode())
        if cut is not None and place == len(steps) - 1:
            put("outbox", held("outbox")[:cut])
        status, printed = feed(program, *words)
        wanted = "".join(f"{line}\n" for line in lines).encode()
        same(f"the outbox of run {place + 1}", held("outbox"), wanted)
        same(f"the exit of run {place + 1}", status, 0)
        if not printed.startswith(b"status: Ok; ") or not printed.endswith(b"; outbox bytes: %d\n" % len(wanted)):
            raise Differs(f"what run {place + 1} printed: {printed!r}")


def group(*entries):
    data = b"".join(entries)
    return struct.pack("<II", len(data), len(entries)) + data


def config_entry(text, seconds=0):
    return b"\x01" + struct.pack("<III", seconds, 0, len(text)) + text


def refused(program, syncers):
    """A changed configuration over a journal that is full, and journals whose Configs aren't accepted."""
    words = ["--journal", "journal", "--outbox", "outbox", "--syncers", syncers]
    put("outbox", b"")
    same("the first run", feed(program, *words)[0], 0)
    first = held("journal"), held("outbox")
    changed = runs.data_of("config.json").rstrip(b"\n") + b"  "
    put("config.json", changed)
    size = len(first[0]) + len(config_entry(changed)) + 9
    full = (14, b"status: Full; entries: 4; bytes: %d\n" % size)
    same("at three entries", feed(program, *words, "--max-entries", "3"), full)
    same("what it left", (held("journal"), held("outbox")), first)
    text = runs.data_of("config.json")
    for name, second, wanted in (
        ("a text that isn't accepted", b"x", (7, b"status: Damaged; at: %d\n" % (8 + 1 + 8 + len(config_entry(text))))),
        ("a Config of an earlier moment", None, (7, b"status: Damaged; at: %d\n" % (8 + 1 + 8 + len(config_entry(text))))),
    ):
        groups = [group(config_entry(text)), group(config_entry(second))] if second else [group(config_entry(text)), group(b"\x03" + struct.pack("<II", 9, 0), config_entry(text, 8))]
        put("journal", b"ZTSJRN01" + b"".join(b"\x01" + one for one in groups) + b"\x00")
        same(name, feed(program, *words), wanted)


PLAIN = ["--mode", "feed", "--config", "config.json", "--script", "script"]


def fed():
    """The samples that are fed with no other word and end well."""
    for name in sorted(os.listdir(runs.SAMPLES)):
        folder = f"{runs.SAMPLES}/{name}"
        if os.path.isfile(f"{folder}/words") and not os.path.exists(f"{folder}/status"):
            with open(f"{folder}/words", encoding="utf-8") as file:
                if file.read().split() == PLAIN:
                    yield name


def entries_in(printed):
    return int(re.search(rb"; entries: (\d+);", printed)[1])


def opened_again(program, name, syncers):
    """The run of a sample, and three more over its journal that begin with other documents of the same meaning."""
    folder = f"{runs.SAMPLES}/{name}"
    text = held(f"{folder}/config.json")
    put("script", subprocess.run(["python3", f"{folder}/script.py"], stdout=subprocess.PIPE, check=True).stdout if os.path.exists(f"{folder}/script.py") else held(f"{folder}/script"))
    lines = b"".join(held(f"{folder}/output").splitlines(True)[:-1])
    words = ["--journal", "journal", "--outbox", "outbox", "--syncers", syncers]
    put("config.json", text)
    status, printed = feed(program, *words)
    same("the first run", (status, held("outbox")), (0, lines))
    events = held("script").split(b"\n")
    put("script", (events[-2].split()[0] if events[1:] else b"0.000000000") + b" closed\n")
    document = json.loads(text)
    turned = json.dumps({**document, "hosts": document["hosts"][::-1]}).encode()
    for place, changed in enumerate((text + b" ", turned, text)):
        put("config.json", changed)
        status, again = feed(program, *words)
        same(f"the run with document {place + 2}", (status, held("outbox"), entries_in(again)), (0, lines, entries_in(printed) + place + 1))


def main():
    if len(sys.argv) != 2:
        sys.exit("usage: samples/reloads.py PROGRAM")
    program = os.path.abspath(sys.argv[1])
    differing = count = 0
    cases = [(name, one_case, (steps, syncers, cut)) for name, steps in CASES.items() for syncers, cut in (("4", None), ("0", None), ("0", 0), ("4", 10))]
    cases += [(f"the sample {name}", opened_again, (name, syncers)) for name in fed() for syncers in ("4", "0")]
    for name, case, arguments in [*cases, ("journals that are full or damaged", refused, ("4",)), ("the same on one thread", refused, ("0",))]:
        count += 1
        with tempfile.TemporaryDirectory() as folder:
            os.chdir(folder)
            try:
                for file in ("config.json", "script"):
                    put(file, runs.data_of(file))
                case(program, *arguments)
            except (Differs, OSError) as error:
                differing += 1
                print(f"{name}: {error}")
            finally:
                os.chdir("/")
    print(f"{count} changes of a configuration, {differing} differ")
    sys.exit(1 if differing else 0)


if __name__ == "__main__":
    main()
