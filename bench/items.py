#!/usr/bin/env python3
"""Runs built programs on configurations of 500, 5,000 and 100,000 items, and prints the processor time of a value.

usage: bench/items.py PROGRAM.. [--values N]    N, 1,000,000 if not given, is how many values a script has.

Each configuration has 10, 100 or 1,000 hosts. Values come in frames of 250, over the items in turn or at random, and none
makes a problem. Each program is run in turn, five times, on items of which half have a trigger `last(..)>5000`, and on
items without triggers. What counts is the least time, less the least time of an opening without values. The last column
is what evaluating one trigger costs: the difference of the two, for half of the values.
"""

import itertools
import json
import os
import random
import subprocess
import sys
import tempfile

SIZES = [(500, 10), (5_000, 100), (100_000, 1_000)]
FRAME = 250
RUNS = 5
MOMENT = "100.000000000"


def host(number, items, triggers):
    """A host with items, and a trigger over every second of them."""
    name = f"host{number:05}"
    return {
        "name": name,
        "groups": ["g"],
        "items": [{"key": f"key[{item},x]"} for item in range(items)],
        "triggers": [
            {"name": f"hot {item}", "expression": f"last(/{name}/key[{item},x])>5000", "severity": 3}
            for item in range(0, items, 2)
            if triggers
        ],
    }


def configure(path, items, hosts, triggers):
    with open(path, "w", encoding="ascii") as file:
        json.dump({"hosts": [host(number, items // hosts, triggers) for number in range(hosts)]}, file)


def places(order, items, values, source):
    """The places of the items that the values are of."""
    for value in range(values):
        yield value % items if order == "in turn" else source.randrange(items)


def write(path, order, items, hosts, values):
    """A script with a connection a frame."""
    source = random.Random(7)
    share = items // hosts
    named = [
        f'{{"host":"host{place // share:05}","key":"key[{place % share},x]","value":"{source.randrange(1000)}"}}'
        for place in places(order, items, values, source)
    ]
    with open(path, "w", encoding="ascii") as file:
        for connection, first in enumerate(range(0, values, FRAME), start=1):
            data = ",".join(named[first : first + FRAME])
            file.write(f"{MOMENT} open {connection}\n")
            file.write(f'{MOMENT} frame {connection} {{"request":"sender data","data":[{data}]}}\n')
            file.write(f"{MOMENT} end {connection}\n")
        file.write(f"{MOMENT} closed\n")


def seconds(program, config, script):
    """The processor time of one run, without the system's."""
    before = os.times().children_user
    command = [program, "--mode", "feed", "--config", config, "--script", script]
    run = subprocess.run(command, stdin=subprocess.DEVNULL, stdout=subprocess.PIPE, check=False)
    last = run.stdout.decode().strip().splitlines()[-1]
    if not last.startswith("status: Ok; "):
        sys.exit(f"{program}: {last}")
    return os.times().children_user - before


def measure(programs, values, order, items, hosts):
    """For each program the times of a value with triggers and without, in microseconds, each from the least of its runs."""
    write("script", order, items, hosts, values)
    write("empty", order, items, hosts, 0)
    configure("half", items, hosts, True)
    configure("none", items, hosts, False)
    least = {}
    for _ in range(RUNS):
        for key in itertools.product(programs, ("half", "none"), ("script", "empty")):
            spent = seconds(*key)
            least[key] = min(least.get(key, spent), spent)
    return {program: [cost(least, values, program, config) for config in ("half", "none")] for program in programs}


def cost(least, values, program, config):
    return (least[program, config, "script"] - least[program, config, "empty"]) / values * 1e6


def main():
    words = sys.argv[1:]
    values = 1_000_000
    if "--values" in words:
        at = words.index("--values")
        values = int(words[at + 1])
        del words[at : at + 2]
    programs = [os.path.realpath(word) for word in words]
    with tempfile.TemporaryDirectory() as folder:
        os.chdir(folder)
        print(f"{'order':9} {'items':>7} {'with triggers':>13} {'without':>8} {'trigger':>8}   microseconds, program")
        for order in ("in turn", "at random"):
            for items, hosts in SIZES:
                for program, (half, none) in measure(programs, values, order, items, hosts).items():
                    print(f"{order:9} {items:7} {half:13.2f} {none:8.2f} {(half - none) * 2:8.2f}   {program}", flush=True)


main()
