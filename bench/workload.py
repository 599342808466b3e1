#!/usr/bin/env python3
"""Runs built programs on the workload: values of 50 hosts with ten items each, whose triggers average five values.

usage: bench/workload.py PROGRAM.. [--values N] [--number N] [--without-actions] [--journal FOLDER] [--triggers N]
       [--window RANGE] [--syncers LIST] [--runs N]

200,000 values and the number 7 if none are given. With a list such as 0,1,2,4,8 each program is run with each of these
numbers of syncers in turn, so often as --runs says, and must leave the same outbox each time; the middle run and the best
one are printed.
With more triggers than one, each item has so many, whose averages have other bounds. The configuration and the values follow from the number alone: a
template with the items k0 to k9 and a trigger over each, `avg(/w/kj,#5)>80` with the recovery expression
`avg(/w/kj,#5)<60`, or with another range than #5, such as #1000, of which the second depends on the first; 50 hosts; an action for the triggers of severity 4 and 5.
Each frame has 250 values and a connection of its own, a second after the one before. Printed are the values a second and
the processor time a value, the opening and the reading of the script with them, and the program's line. Last the last
program runs in mode workload, which has the same configuration and values without a file, and must print the same line;
that mode has at most 1,000,000 values.
"""

import json
import os
import sys
import tempfile
import time


def configuration(with_actions, count, window="#5"):
    triggers = [
        {
            "name": f"t{j}" + f".{at}" * (at > 0),
            "expression": f"avg(/w/k{j},{window})>{80 + at}",
            "recovery": "recovery_expression",
            "recovery_expression": f"avg(/w/k{j},{window})<{60 + at}",
            "severity": j % 6,
        }
        for at in range(count)
        for j in range(10)
    ]
    triggers[1]["depends"] = [{"host": "", "trigger": "t0"}]
    action = {
        "name": "act",
        "conditions": [{"kind": "severity", "op": "ge", "value": 4}],
        "step_duration": "60s",
        "operations": [{"from": 1, "to": 0, "recipients": ["ops"], "subject": "{EVENT.NAME}", "body": ""}],
        "recovery": [{"recipients": ["ops"], "subject": "{EVENT.NAME}", "body": ""}],
    }
    return {
        "templates": [{"name": "w", "items": [{"key": f"k{j}"} for j in range(10)], "triggers": triggers}],
        "hosts": [{"name": f"h{i}", "groups": ["g"], "templates": ["w"]} for i in range(50)],
        "actions": [action] if with_actions else [],
    }


def frames(number, values):
    state = number

    def draw():
        nonlocal state
        state = (state * 6364136223846793005 + 1442695040888963407) % 2**64
        return state // 2**33

    while values > 0:
        count = min(values, 250)
        data = [{"host": f"h{draw() % 50}", "key": f"k{draw() % 10}", "value": f"{draw() % 100}"} for _ in range(count)]
        yield json.dumps({"request": "sender data", "data": data}, separators=(",", ":"))
        values -= count


def write_script(path, number, values):
    with open(path, "w") as it:
        for at, text in enumerate(frames(number, values)):
            moment = f"{1_000_000 + at}.000000000"
            it.write(f"{moment} open {at + 1}\n{moment} frame {at + 1} {text}\n")


def run(program, words):
    begin = time.time()
    read, write = os.pipe()
    actions = [(os.POSIX_SPAWN_DUP2, write, 1), (os.POSIX_SPAWN_CLOSE, read)]
    pid = os.posix_spawn(program, [program, *words], os.environ, file_actions=actions)
    os.close(write)
    with os.fdopen(read) as it:
        said = it.read()
    _, _, usage = os.wait4(pid, 0)
    return time.time() - begin, usage.ru_utime + usage.ru_stime, usage.ru_maxrss / 1024, said.strip()


def once(program, words, folder):
    """A run, and the outbox that it leaves."""
    found = run(program, [*words, "--outbox", f"{folder}/outbox"])
    with open(f"{folder}/outbox", "rb") as it:
        outbox = it.read()
    for name in ("journal", "outbox"):
        if os.path.exists(f"{folder}/{name}"):
            os.unlink(f"{folder}/{name}")
    return found, outbox


def main():
    words, named = sys.argv[1:], {"--values": "200000", "--number": "7", "--journal": "", "--triggers": "1", "--window": "#5", "--syncers": "", "--runs": "1"}
    with_actions = "--without-actions" not in words
    words = [word for word in words if word != "--without-actions"]
    for name in named:
        if name in words:
            at = words.index(name)
            named[name] = words[at + 1]
            del words[at : at + 2]
    if not words:
        print("usage: bench/workload.py PROGRAM.. [--values N] [--number N] [--without-actions] [--journal FOLDER]\n       [--triggers N] [--window RANGE] [--syncers LIST] [--runs N]", file=sys.stderr)
        return 2
    values, triggers = int(named["--values"]), int(named["--triggers"])
    with tempfile.TemporaryDirectory(dir=named["--journal"] or None) as folder:
        with open(f"{folder}/configuration", "w") as it:
            json.dump(configuration(with_actions, triggers, named["--window"]), it)
        write_script(f"{folder}/script", int(named["--number"]), values)
        for program in words:
            print(program)
            numbers = named["--syncers"].split(",")
            found, same = {syncers: [] for syncers in numbers}, set()
            for _ in range(int(named["--runs"])):
                for syncers in numbers:
                    options = ["--mode", "feed", "--config", f"{folder}/configuration", "--script", f"{folder}/script"]
                    if named["--journal"]:
                        options += ["--journal", f"{folder}/journal"]
                    if syncers:
                        options += ["--syncers", syncers]
                    (took, spent, held, said), outbox = once(os.path.realpath(program), options, folder)
                    found[syncers].append((took, spent, held))
                    same.add((said, outbox))
            for syncers, runs in found.items():
                beside = f", {syncers} syncers" if syncers else ""
                took, spent, held = sorted(runs)[len(runs) // 2]
                least = f", {values / min(runs)[0]:,.0f} at best" if len(runs) > 1 else ""
                print(f"{values / took:12,.0f} values a second{least}, {1e6 * spent / values:.2f} us of processor time a value, {held:.0f} MB held{beside}", flush=True)
            print(sorted(same)[0][0])
            if len(same) > 1:
                print("the runs left different outboxes", file=sys.stderr)
                return 1
        if with_actions and triggers == 1 and named["--window"] == "#5" and values <= 1_000_000:
            options = ["--mode", "workload", "--number", named["--number"], "--values", named["--values"]]
            again = run(os.path.realpath(words[-1]), [*options, "--outbox", f"{folder}/outbox"])[3]
            if again != said:
                print(f"mode workload: {again}", file=sys.stderr)
                return 1
    return 0


if __name__ == "__main__":
    sys.exit(main())
