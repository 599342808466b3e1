#!/usr/bin/env python3
"""Runs a built program on rows about events, and compares the lines that come of them with what the rows say.

usage: samples/events.py PROGRAM

The rows stand in files of samples/rows/, each in a line with tabs between its columns; a line that begins with # says what the
rows behind it show. Of each file one configuration and one script are made, in which every row has a host, a trigger or an
action of its own; of periods.txt one for each offset from UTC, which a configuration has once.
"""

import json
import os
import subprocess
import sys
import tempfile

SECOND = 1_000_000_000


def listed(name):
    with open(f"{os.path.dirname(os.path.abspath(__file__))}/rows/{name}.txt") as it:
        return [line.rstrip("\n").split("\t") for line in it if line.strip() and not line.startswith("#")]


class Script:
    """The lines of a script, which stand in the order of their moments, in nanoseconds."""

    def __init__(self):
        self.lines, self.connections = [], 0

    def quiet(self, moment):
        self.lines.append((moment, ["quiet"]))

    def values(self, moment, *values):
        """A frame of values, each of a host, a key and a text."""
        self.connections += 1
        data = [{"host": host, "key": key, "value": value} for host, key, value in values]
        body = json.dumps({"request": "sender data", "data": data}, ensure_ascii=False)
        self.lines.append((moment, [f"open {self.connections}", f"frame {self.connections} {body}"]))

    def text(self):
        lines = [(moment, line) for moment, lines in sorted(self.lines, key=lambda it: it[0]) for line in lines]
        return "".join(f"{moment // SECOND}.{moment % SECOND:09} {line}\n" for moment, line in lines)


def fields(line):
    """The fields of a line of the outbox."""
    made, rest = [""], iter(line)
    for letter in rest:
        if letter == "|":
            made.append("")
        else:
            made[-1] += {"n": "\n", "r": "\r"}.get(escaped := next(rest), escaped) if letter == "\\" else letter
    return made


def records(program, configuration, script):
    """What a run writes: the fields of each line, by the letter that it begins with."""
    with tempfile.TemporaryDirectory() as folder:
        for name, text in (("config", json.dumps(configuration, ensure_ascii=False)), ("script", script.text())):
            with open(f"{folder}/{name}", "w") as it:
                it.write(text)
        words = [program, "--mode", "feed", "--config", f"{folder}/config", "--script", f"{folder}/script", "--syncers", "0"]
        ran = subprocess.run(words, stdin=subprocess.DEVNULL, capture_output=True, timeout=60)
    *lines, last = ran.stdout.decode().splitlines() or [""]
    if ran.returncode != 0 or not last.startswith("status: Ok;"):
        print(f"a run ends with exit {ran.returncode}, {last}")
    made = {letter: [] for letter in "FPRSM"}
    for line in lines:
        made.setdefault(line[:1], []).append(fields(line))
    return made


def trigger_of(record):
    """The place of a record's trigger in the configuration."""
    return int(record[1].split("-")[1]) - 1


def moment_of(text):
    seconds, nanoseconds = text.split(".")
    return int(seconds) * SECOND + int(nanoseconds)


# ---- for each file its rows, each with what it says and what comes


def titles(program, rows):
    """A text, and what it becomes as the name of a problem and as a tag's value. The items of the trigger's calls have the
    values 1.5, none, `ERR disk ä` and `{HOST.NAME}`."""
    expression = "last(/h1/a)>1 or last(/h1/b)>1 or count(/h1/c,#1)>1 or count(/h1/d,#1)>1"
    items = [{"key": "a"}, {"key": "b"}, {"key": "c", "value_type": "text"}, {"key": "d", "value_type": "text"}]
    triggers = [{"name": text, "expression": expression, "tags": [{"tag": "{HOST.NAME}", "value": text}]} for text, _ in rows]
    script = Script()
    script.values(100 * SECOND, ("h1", "c", "ERR disk ä"), ("h1", "d", "{HOST.NAME}"), ("h1", "a", "1.5"))
    made = records(program, {"hosts": [{"name": "h1", "items": items, "triggers": triggers}]}, script)
    came = {trigger_of(problem): problem[7:] for problem in made["P"]}
    for place, (_, wanted) in enumerate(rows):
        yield rows[place], [wanted, "{HOST.NAME}", wanted], came.get(place)


def cuts(program, rows):
    """A text, a unit, how often that follows it, and how many bytes are left of both as the name of a problem and as a tag's
    value: once where a macro of the user has the units, and once where an item's value has them."""
    hosts, script = [], Script()
    for number, (first, unit, times, _, _) in enumerate(rows, 1):
        units = unit * int(times)
        triggers = [
            {"name": text, "expression": f"count(/h{number}/k,#1)=1", "tags": [{"tag": "t", "value": text}]}
            for text in (first + "{$M}", first + "{ITEM.VALUE}")
        ]
        item = {"key": "k", "value_type": "text"}
        hosts.append({"name": f"h{number}", "macros": [{"name": "{$M}", "value": units}], "items": [item], "triggers": triggers})
        script.values(100 * SECOND, (f"h{number}", "k", units))
    made = records(program, {"hosts": hosts}, script)
    came = {trigger_of(problem): [len(problem[place].encode()) for place in (7, 9)] for problem in made["P"]}
    for place, row in enumerate(rows):
        wanted = [int(count) for count in row[3:]]
        yield row, [wanted, wanted], [came.get(2 * place), came.get(2 * place + 1)]


def messages(program, rows):
    """A severity, a body, and what it becomes when the problem opens and when it ends."""
    hosts, actions, script = [], [], Script()
    for place, (severity, body, _, _) in enumerate(rows):
        host = f"h{place or ''}"
        trigger = {"name": "hot {ITEM.VALUE}", "expression": f'find(/{host}/k,#1,"like","HOST")=1', "severity": int(severity)}
        trigger["tags"] = [{"tag": "svc", "value": "a"}, {"tag": "flag"}]
        hosts.append({"name": host, "items": [{"key": "k", "value_type": "text"}], "triggers": [trigger]})
        sending = {"recipients": ["ops"], "subject": "", "body": body}
        action = {"name": str(place), "conditions": [{"kind": "host", "host": host}], "operations": [sending], "recovery": [sending]}
        actions.append(action)
        script.values(1_700_000_000 * SECOND + 5, (host, "k", "{HOST.NAME}"))
        script.values(1_700_073_400 * SECOND + 5, (host, "k", "ok"))
    made = records(program, {"utc_offset": 19_800, "hosts": hosts, "actions": actions}, script)
    came = {(message[2], message[3]): message[6] for message in made["M"]}
    for place, (_, _, begun, ended) in enumerate(rows):
        yield rows[place], [begun, ended], [came.get((str(place), "1")), came.get((str(place), "0"))]


def conditions(program, rows):
    """How the conditions of an action are joined, the conditions, and of which problem it is told: one of `disk full` of host
    h with severity 3 and the tag app with the value web, or the same one in a maintenance."""
    trigger = {"name": "disk full", "expression": "last(/h/k)>5", "severity": 3, "tags": [{"tag": "app", "value": "web"}]}
    host = {"name": "h", "groups": ["linux", "g"], "items": [{"key": "k"}], "triggers": [trigger]}
    maintenance = {"name": "m", "since": 0, "till": 9000, "hosts": ["h"], "periods": [{"kind": "once", "start": 900, "length": "300"}]}
    operation = {"recipients": ["ops"], "subject": "", "body": ""}
    actions = [
        {"name": f"{place} {match}", "match": match, "conditions": json.loads(given), "pause_suppressed": False, "operations": [operation]}
        for place, (joined, given, _, _) in enumerate(rows)
        for match in joined.split()
    ]
    script = Script()
    for moment in (100, 1000):
        script.values(moment * SECOND, ("h", "k", "9"), ("h", "k", "1"))
    made = records(program, {"hosts": [host, {"name": "H"}], "maintenances": [maintenance], "actions": actions}, script)
    events = {problem[4]: problem[1] for problem in made["P"]}
    told = {(step[1], step[2]) for step in made["S"] if step[3] == "1"}
    for place, (joined, _, suppressed, wanted) in enumerate(rows):
        event = events.get("1" if suppressed == "suppressed" else "0")
        matches = joined.split()
        came = ["yes" if (event, f"{place} {match}") in told else "no" for match in matches]
        yield rows[place], [wanted] * len(matches), came


def operations(text):
    """Operations, as `1-2`, without end as `3-`, with a duration in seconds as `1-3/90`."""
    for word in text.split():
        steps, _, duration = word.partition("/")
        first, _, last = steps.partition("-")
        made = {"from": int(first), "to": int(last or 0), "duration": duration or "0"}
        yield {**made, "recipients": ["ops"], "subject": "", "body": ""}


def escalation_steps(program, rows):
    """The operations of an action whose steps take a minute, the step that ran last, how many seconds behind it a Tick comes,
    and the step that runs then. Each step before runs a thousand seconds before the next. Step 0 is the end of a maintenance
    in which the problem opened and the action paused."""
    hosts, actions, maintenances, script = [], [], [], Script()
    asked = []
    for place, (given, last, behind, _) in enumerate(rows):
        host, last = f"h{place}", int(last)
        ran = 100_000 * (place + 1) * SECOND + 500
        trigger = {"name": "hot", "expression": f"last(/{host}/k)>5"}
        hosts.append({"name": host, "items": [{"key": "k"}], "triggers": [trigger]})
        condition = {"kind": "host", "host": host}
        of = [*operations("" if given == "-" else given)]
        actions.append({"name": str(place), "conditions": [condition], "step_duration": "60", "operations": of})
        if last == 0:
            period = {"kind": "once", "start": ran // SECOND - 300, "length": "300"}
            maintenances.append({"name": str(place), "since": 0, "till": 4_000_000_000, "hosts": [host], "periods": [period]})
        script.values(ran - (100 if last == 0 else 1000 * (last - 1)) * SECOND, (host, "k", "9"))
        for before in range(last - 1):
            script.quiet(ran - 1000 * before * SECOND)
        asked.append((ran, ran + round(float(behind) * SECOND)))
        script.quiet(asked[-1][1])
        script.values(ran + 50_000 * SECOND, (host, "k", "1"))
    made = records(program, {"hosts": hosts, "maintenances": maintenances, "actions": actions}, script)
    came = {(step[2], moment_of(step[4])): step[3] for step in made["S"]}
    for place, (_, last, _, wanted) in enumerate(rows):
        ran, moment = asked[place]
        before = last if last == "0" else came.get((str(place), ran))
        yield rows[place], [last, wanted], [before, came.get((str(place), moment), "0")]


def periods(program, rows):
    """The offset from UTC, since when and till when a maintenance is, its period, and seconds in which it is in force and in
    which it isn't: problems that open at their beginnings and ends are suppressed, or not."""
    for offset in sorted({row[0] for row in rows}):
        some = [row for row in rows if row[0] == offset]
        hosts, maintenances, script = [], [], Script()
        for place, (_, since, till, period, *seconds) in enumerate(some):
            host = f"h{place}"
            trigger = {"name": "hot", "expression": f"last(/{host}/k)>5"}
            hosts.append({"name": host, "groups": [f"g{place}"], "items": [{"key": "k"}], "triggers": [trigger]})
            maintenance = {"name": str(place), "since": int(since), "till": int(till), "groups": [f"g{place}"]}
            maintenances.append({**maintenance, "periods": [json.loads(period)]})
            for second in " ".join(seconds).split():
                for moment in (int(second) * SECOND, int(second) * SECOND + SECOND - 1):
                    script.values(moment, (host, "k", "9"), (host, "k", "1"))
        made = records(program, {"utc_offset": int(offset), "hosts": hosts, "maintenances": maintenances}, script)
        came = {(trigger_of(problem), moment_of(problem[2])): problem[4] for problem in made["P"]}
        for place, (*_, within, outside) in enumerate(some):
            for seconds, wanted in ((within, "1"), (outside, "0")):
                for second in seconds.split():
                    both = (int(second) * SECOND, int(second) * SECOND + SECOND - 1)
                    yield some[place], [second, wanted, wanted], [second, *(came.get((place, moment)) for moment in both)]


FILES = (titles, cuts, messages, conditions, escalation_steps, periods)


def main():
    if len(sys.argv) != 2:
        print("usage: samples/events.py PROGRAM", file=sys.stderr)
        return 2
    program = os.path.realpath(sys.argv[1])
    count = differing = 0
    for of_file in FILES:
        for row, wanted, came in of_file(program, listed(of_file.__name__)):
            count += 1
            if wanted != came:
                differing += 1
                print(f"{of_file.__name__}.txt: {' | '.join(row)}: {came} in place of {wanted}")
    print(f"{count} rows, {differing} differ")
    return 1 if differing or not count else 0


if __name__ == "__main__":
    sys.exit(main())
