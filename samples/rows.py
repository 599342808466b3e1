#!/usr/bin/env python3
"""Runs a built program on rows of text, and compares what comes of each row with what the row says.

usage: samples/rows.py PROGRAM

The files of samples/rows have a row a line, with tabs between its parts; their first lines say what the parts are. All rows of
a file go into one configuration, each with a host of its own, and into one script, and the program runs once on these. A value
that says which row is next goes before the values of each, so that the lines between two such values are those of one row. What
an item keeps is shown by the name of a problem, which has the value in it; what a function or an expression comes to by
triggers that compare it.
"""

import json
import os
import re
import subprocess
import sys
import tempfile
from concurrent.futures import ThreadPoolExecutor

FOLDER = f"{os.path.dirname(os.path.abspath(__file__))}/rows"


class Differs(Exception):
    """A run that doesn't end as all of these end."""


def rows_of(name):
    """The rows of a file: where each stands, and its parts."""
    with open(f"{FOLDER}/{name}", newline="\n") as it:
        for number, line in enumerate(it, 1):
            if line.strip() and not line.startswith("#"):
                yield f"{name}:{number}", line.rstrip("\n").split("\t")


def fields(line):
    """The fields of a line of an outbox."""
    found = re.findall(r"(?:[^\\|]|\\.)*(?:\||$)", line)
    return [re.sub(r"\\(.)", lambda it: {"n": "\n", "r": "\r"}.get(it[1], it[1]), field.removesuffix("|")) for field in found]


def shower(host, key):
    """A trigger that has a problem for each value that the item keeps; the problem's name ends in it."""
    return {"name": key + " {ITEM.VALUE1}", "expression": f"count(/{host}/{key},#1)>0", "multiple": True}


class Run:
    """A configuration and a script that grow by rows, and one run on them."""

    def __init__(self, offset=0):
        mark = {"name": "rows", "items": [{"key": "mark", "value_type": "text"}], "triggers": [shower("rows", "mark")]}
        self.document = {"utc_offset": offset, "templates": [{"name": "h"}], "hosts": [mark]}
        self.script = []
        self.frames = 0

    def host(self, name, items, triggers):
        """Adds a host. Its calls may name it as `h`, which is its template."""
        self.document["hosts"].append({"name": name, "templates": ["h"], "items": items, "triggers": triggers})

    def take(self, moment, row, values):
        """Brings values in one frame, behind one that says which row is next."""
        self.frames += 1
        text = json.dumps({"request": "sender data", "data": [{"host": "rows", "key": "mark", "value": row}, *values]})
        self.script += [f"{moment} open {self.frames}", f"{moment} frame {self.frames} {text}"]

    def lines(self, program):
        """The failures and problems that come behind the mark of each row, as lists of fields."""
        with tempfile.TemporaryDirectory() as folder:
            for name, text in ("config", json.dumps(self.document)), ("script", "\n".join(self.script) + "\n"):
                with open(f"{folder}/{name}", "w") as it:
                    it.write(text)
            words = [program, "--mode", "feed", "--config", f"{folder}/config", "--script", f"{folder}/script"]
            ran = subprocess.run(words, stdin=subprocess.DEVNULL, capture_output=True, text=True, timeout=600)
        *lines, last = ran.stdout.removesuffix("\n").split("\n")
        if ran.returncode != 0 or not last.startswith("status: Ok;"):
            path = re.search(r"path: (.*); cause", last)
            raise Differs(f"{last}, exit {ran.returncode}{' at ' + told(self.document, path[1]) if path else ''}")
        by_row, row = {}, ""
        for line in map(fields, lines):
            if line[0] == "P" and line[5] == "rows":
                row = line[7].removeprefix("mark ")
            elif line[0] in "FP":
                by_row.setdefault(row, []).append(line)
        return by_row


def told(document, pointer):
    """What stands at a pointer of a document."""
    for part in pointer.split("/")[1:]:
        if isinstance(document, list):
            document = document[int(part)]
        else:
            document = document.get(part)
    return json.dumps(document)[:200]


def time_of(text):
    """The members of a value that has this time: seconds, with a fraction or without."""
    seconds, _, fraction = str(text).partition(".")
    return {"clock": int(seconds), "ns": int(fraction.ljust(9, "0"))}


# ---- values that items keep


def lengths():
    """A result of a step has 65,535 bytes at most."""
    for length in 32_767, 32_768:
        for kind, params, comes in (
            ("replace", ["a", "bb"], "=" + "b" * 2 * length),
            ("regex", ["a*", "\\0\\0"], "=" + "a" * 2 * length),
            ("regex_error", ["a*", "\\0\\0"], "!" + "a" * 2 * length),
        ):
            yield f"{kind} of {length} letters", [[kind, *params]], ["a" * length], [comes if length == 32_767 else "!too long"]


def single_steps():
    """The rows of steps.txt: steps of one item of texts, its values, and what comes of each."""
    rows = [(place, *map(json.loads, parts)) for place, parts in rows_of("steps.txt")]
    for place, steps, values, comes in [*rows, *lengths()]:
        item = {"key": "k", "value_type": "text", "steps": [{"kind": kind, "params": params} for kind, *params in steps]}
        values = [["k", *(value if isinstance(value, list) else [value])] for value in values]
        yield place, [item], values, [[] if it == "-" else ["k" + re.sub("^!", "!step 1: ", it)] for it in comes]


def chains():
    """The rows of chains.txt: items, values of some of them, and what comes of each."""
    for place, parts in rows_of("chains.txt"):
        yield place, *map(json.loads, parts)


def came_of(lines, host):
    """What came of a value at the items of a host: `KEY!WHY` for each that failed, `KEY=VALUE` for each that kept one."""
    came = []
    for line in lines:
        if line[0] == "F" and line[2] == host:
            came.append(f"{line[3]}!{line[4]}")
        elif line[0] == "P" and line[5] == host:
            came.append(line[7].replace(" ", "=", 1))
    return came


def is_as_told(came, told):
    """Whether this came. Of a value that a problem's name shows, which has 2,048 bytes at most, the front may have come."""
    if len(came) != len(told):
        return False
    return all(one == other or ("=" in one[:9] and len(one.encode()) >= 2045 and other.startswith(one)) for one, other in zip(came, told))


def check_kept(program, rows):
    rows, run = list(rows), Run()
    for number, (_, items, values, _) in enumerate(rows):
        run.host(f"r{number}", items, [shower(f"r{number}", item["key"]) for item in items])
        for place, (key, value, *time) in enumerate(values):
            given = {"host": f"r{number}", "key": key, "value": value, **time_of(time[0] if time else 0)}
            run.take("5000.000000000", f"{number} {place}", [given])
    by_mark = run.lines(program)
    for number, (place, _, values, comes) in enumerate(rows):
        came = [came_of(by_mark.get(f"{number} {value}", []), f"r{number}") for value in range(len(values))]
        is_right = len(came) == len(comes) and all(map(is_as_told, came, comes))
        yield place, "" if is_right else f"came {json.dumps(came, ensure_ascii=False)[:500]}"


# ---- values of functions and expressions


def values_of(text):
    """The values of a row: each with its time, which is 100 where none is told."""
    if ".." in text:
        first, last = map(int, text.split(".."))
        return [(str(number), number) for number in range(first, last + 1)]
    return [(value, time or 100) for value, _, time in (part.partition("@") for part in text.split("|"))] if text else []


def comparisons(expression, value):
    """Triggers that tell whether the expression has this value, or, where it is to have none, whether it has one, and whether it
    was looked at."""
    if value != "?":
        yield "is", f"last(/h/go)=1 and ({expression})=({value})"
    else:
        yield "known", f"last(/h/go)=1 and ({expression})=({expression})"
        yield "met", f"last(/h/go)=1 or ({expression})=1"


def thousand():
    """The squares of the numbers below 1,000: each but the first comes to two and a half times what it is greater by."""
    steps = [{"kind": "simple_change", "params": []}, {"kind": "multiplier", "params": ["2.5"]}]
    rows = [("squares", "last(/h/k,#1)", "4992.5"), ("squares", "last(/h/k,#2)", "4987.5")]
    return 2000, [(str(n * n), n) for n in range(1000)], rows, steps


def windows(parts):
    """The expressions that tell a window, and their values: the number of its values, and each of them by its place, or, of a
    period, how often each is there, and which is the first."""
    values, moment, window, comes = parts
    window, _, shift = window.partition(":")
    shift, comes = f":{shift}" if shift else "", comes.split()
    yield [values, f"count(/h/k,{window}{shift})", str(len(comes)), moment]
    if window.startswith("#"):
        for place, value in enumerate(reversed(comes), 1):
            yield ['"', f"first(/h/k,#{place}{shift})", value, moment]
    else:
        for value in sorted(set(comes)):
            yield ['"', f'count(/h/k,{window}{shift},"eq","{value}")', str(comes.count(value)), moment]
        yield ['"', f"first(/h/k,{window}{shift})", comes[0] if comes else "?", moment]


def functions():
    """The rows of functions.txt and windows.txt, of which those come together that are over the same values."""
    rows = list(rows_of("functions.txt"))
    rows += [(place, part) for place, parts in rows_of("windows.txt") for part in windows(parts)]
    groups = []
    for place, (values, expression, value, *moment) in rows:
        if values != '"':
            groups.append((float(moment[0]) if moment else 360, values_of(values), [], []))
        groups[-1][2].append((place, expression, value))
    return sorted([*groups, thousand()], key=lambda group: group[0])


def check_functions(program):
    """Values are taken at the moment of a row, behind the first Tick at 60 seconds, and compared at a value of `go`."""
    groups, run = functions(), Run()
    run.script.append("60.000000000 quiet")
    for number, (moment, values, rows, steps) in enumerate(groups):
        is_text = any(value.startswith("'") for value, _ in values)
        items = [{"key": "k", "value_type": "text" if is_text else "number", "steps": steps}, {"key": "go"}, {"key": "x"}]
        triggers = [{"name": f"{place} {name}", "expression": text} for place, row in enumerate(rows) for name, text in comparisons(*row[1:])]
        run.host(f"r{number}", items, triggers)
        given = [{"host": f"r{number}", "key": "k", "value": value.removeprefix("'"), **time_of(time)} for value, time in values]
        run.take(f"{moment:.9f}", str(number), [*given, {"host": f"r{number}", "key": "go", "value": "1"}])
    by_row = run.lines(program)
    for number, (moment, _, rows, _) in enumerate(groups):
        # a Tick may come before the next row's mark: what it brings has a later moment
        problems = [line for line in by_row.get(str(number), []) if line[0] == "P" and line[5] == f"r{number}"]
        names = [line[6].split() for line in problems if line[2] == f"{moment:.9f}"]
        failures = [line[4] for line in by_row.get(str(number), []) if line[0] == "F"]
        for place, (where, expression, value) in enumerate(rows):
            came = {name for at, name in names if at == str(place)}
            is_right = came == ({"met"} if value == "?" else {"is"}) and not failures
            yield where, "" if is_right else f"{expression} isn't {value} {failures[:1] or ''}"


def clocks():
    """The rows of clocks.txt by their offsets."""
    offsets = {}
    for place, parts in rows_of("clocks.txt"):
        offsets.setdefault(int(parts[1]), []).append((int(parts[0]), place, parts[2:]))
    return offsets.items()


def check_clocks(program):
    """All functions of date and time in the last nanosecond of a second, in one run for each offset."""
    calls = "time()", "date()", "dayofweek()", "dayofmonth()", "now()"
    for offset, rows in clocks():
        run, triggers = Run(offset), []
        for second, place, wanted in sorted(rows):
            for call, value in zip(calls, [*wanted, str(second)]):
                triggers.append({"name": f"{place} {call}", "expression": f"last(/h/k)={len(triggers) // len(calls) + 1} and {call}={value}"})
            given = [str(len(triggers) // len(calls)), "0"]
            run.take(f"{second}.999999999", place, [{"host": "clock", "key": "k", "value": value} for value in given])
        run.host("clock", [{"key": "k"}], triggers)
        by_row = run.lines(program)
        for _, place, _ in rows:
            names = [line[6] for line in by_row.get(place, []) if line[0] == "P"]
            other = [call for call in calls if f"{place} {call}" not in names]
            yield place, f"{', '.join(other)} came to another value" if other else ""


# ---- words


def check_words(program):
    """The rows of words.txt: words, the exit status, and what is printed."""

    def flaw(row):
        place, (words, status, printed) = row
        with tempfile.TemporaryDirectory() as folder:
            ran = subprocess.run([program, *words.split()], cwd=folder, stdin=subprocess.DEVNULL, capture_output=True, text=True, timeout=60)
        is_right = ran.stdout == printed + "\n" and ran.returncode == int(status) and not ran.stderr
        return place, "" if is_right else f"exit {ran.returncode}, {ran.stdout.strip()}"

    with ThreadPoolExecutor(os.cpu_count()) as pool:
        yield from pool.map(flaw, rows_of("words.txt"))


def main():
    if len(sys.argv) != 2:
        print("usage: samples/rows.py PROGRAM", file=sys.stderr)
        return 2
    program = os.path.realpath(sys.argv[1])
    count = differing = 0
    for name, check in (
        ("steps.txt", lambda it: check_kept(it, single_steps())),
        ("chains.txt", lambda it: check_kept(it, chains())),
        ("functions.txt", check_functions),
        ("clocks.txt", check_clocks),
        ("words.txt", check_words),
    ):
        flaws = {}
        try:
            for place, flaw in check(program):
                flaws[place] = flaws.get(place) or flaw
        except Differs as it:
            flaws[name] = str(it)
        for place, flaw in flaws.items():
            if flaw:
                print(f"{place}: {flaw}")
        count += len(flaws)
        differing += sum(1 for flaw in flaws.values() if flaw)
    print(f"{count} rows, {differing} differ")
    return 1 if differing else 0


if __name__ == "__main__":
    sys.exit(main())
