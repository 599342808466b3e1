#!/usr/bin/env python3
"""Tells where the threads of a built program spend the time of a run over the workload: on a processor, ready and without
one, or asleep, which is where they wait for each other.

usage: bench/waits.py PROGRAM [--values N] [--number N] [--triggers N] [--syncers LIST] [--runs N]

1,000,000 values of the number 7, one trigger an item, and 0, 1, 2, 4 and 8 syncers in turn, three runs each, if nothing else
is said. The configuration and the values are those of bench/workload.py. The kernel's own account of each thread is read
every few milliseconds until the run ends, so that what is told of a thread may lack its last moment. Of each number of
syncers the middle run is printed: the thread that takes values, and then all syncers together, without the thread that starts them
and waits.
"""

import json
import os
import sys
import tempfile
import time

from workload import configuration, write_script


def account(pid, found):
    """Notes what each thread of a process has had: nanoseconds on a processor and ready without one, how often it slept, and when it was seen."""
    try:
        threads = os.listdir(f"/proc/{pid}/task")
    except OSError:
        return
    for thread in threads:
        try:
            with open(f"/proc/{pid}/task/{thread}/schedstat") as it:
                ran, ready, _ = (int(word) for word in it.read().split())
            with open(f"/proc/{pid}/task/{thread}/status") as it:
                slept = next(int(line.split()[1]) for line in it if line.startswith("voluntary"))
        except (OSError, StopIteration, ValueError):
            continue
        now = time.monotonic()
        first = found[thread][3] if thread in found else now
        found[thread] = (ran, ready, slept, first, now)


def run(program, words):
    """A run's seconds, and the account of each of its threads."""
    found, begin = {}, time.monotonic()
    null = os.open(os.devnull, os.O_RDWR)
    pid = os.posix_spawn(program, [program, *words], os.environ, file_actions=[(os.POSIX_SPAWN_DUP2, null, 1)])
    os.close(null)
    while True:
        account(pid, found)
        ended, status = os.waitpid(pid, os.WNOHANG)
        if ended:
            break
        time.sleep(0.004)
    took = time.monotonic() - begin
    if status:
        raise SystemExit(f"waits: the program ended with status {os.waitstatus_to_exitcode(status)}")
    main = found.pop(str(pid))
    return took, main, list(found.values())


def told(name, lived, ran, ready, slept, values):
    asleep = max(lived - ran - ready, 0)
    parts = ", ".join(f"{100 * part / lived:3.0f} % {what}" for part, what in ((ran, "on a processor"), (ready, "ready"), (asleep, "asleep")))
    print(f"    {name:24}{parts}; {1e6 * ran / values:.2f} us a value, asleep {1000 * slept / values:.1f} times in 1,000 values")


def main():
    words, named = sys.argv[1:], {"--values": "1000000", "--number": "7", "--triggers": "1", "--syncers": "0,1,2,4,8", "--runs": "3"}
    for name in named:
        if name in words:
            at = words.index(name)
            named[name] = words[at + 1]
            del words[at : at + 2]
    if len(words) != 1:
        print("usage: bench/waits.py PROGRAM [--values N] [--number N] [--triggers N] [--syncers LIST] [--runs N]", file=sys.stderr)
        return 2
    program, values = os.path.realpath(words[0]), int(named["--values"])
    with tempfile.TemporaryDirectory() as folder:
        with open(f"{folder}/configuration", "w") as it:
            json.dump(configuration(True, int(named["--triggers"])), it)
        write_script(f"{folder}/script", int(named["--number"]), values)
        numbers = named["--syncers"].split(",")
        found = {syncers: [] for syncers in numbers}
        for _ in range(int(named["--runs"])):
            for syncers in numbers:
                options = ["--mode", "feed", "--config", f"{folder}/configuration", "--script", f"{folder}/script", "--syncers", syncers]
                found[syncers].append(run(program, [*options, "--outbox", f"{folder}/outbox"]))
                os.unlink(f"{folder}/outbox")
        for syncers, runs in found.items():
            took, (ran, ready, slept, first, last), others = sorted(runs)[len(runs) // 2]
            print(f"{syncers} syncers: {values / took:,.0f} values a second")
            told("takes values", last - first, ran / 1e9, ready / 1e9, slept, values)
            others = sorted(others)[1:]
            if others:
                lived = sum(last - first for _, _, _, first, last in others)
                ran, ready, slept = (sum(it[at] for it in others) for at in range(3))
                told("syncers, all together", lived, ran / 1e9, ready / 1e9, slept, values)
    return 0


if __name__ == "__main__":
    sys.exit(main())
