#!/usr/bin/env python3
"""Counts the instructions that built programs take for a value, by valgrind's callgrind: the same at any load of the machine.

usage: bench/instructions.py PROGRAM.. [--cases WORD,..]

The cases: `workload`, the values of mode workload without syncers and with four, all threads together; `last`, 500 hosts with an
item and a trigger each, in frames of 250; `triggers`, the configuration of bench/workload.py with ten triggers an item;
`serve`, 32 clients with one value a connection (bench/clients.c, which needs cc) and a journal; `opening`, the entries of a
journal in groups of 250 and of one. Each figure is a difference of two runs, so that the opening is left out; where the values
come from a script, what its reading takes is left out too: its bytes times what a byte behind a frame's request costs.
"""

import json
import os
import re
import signal
import subprocess
import sys
import tempfile
import time

sys.path.insert(0, os.path.dirname(os.path.abspath(__file__)))
import opening
import serve
import workload

VALUES = 10_000


def counted(words, meanwhile=None):
    """The instructions of a run, and what was done meanwhile came to, behind which the run is told to end."""
    with tempfile.TemporaryDirectory() as folder:
        call = ["valgrind", "--tool=callgrind", f"--callgrind-out-file={folder}/out", *words]
        ran = subprocess.Popen(call, stdout=subprocess.DEVNULL, stderr=subprocess.PIPE, text=True)
        came = meanwhile() if meanwhile else None
        if meanwhile:
            ran.send_signal(signal.SIGTERM)
        said = ran.communicate()[1]
    found = re.search(r"Collected : (\d+)", said)
    if not found:
        sys.exit(f"valgrind counted nothing: {said[-400:]}")
    return int(found[1]), came


def frame(hosts, key, values, first):
    data = [{"host": f"h{(first + at) % hosts}", "key": key, "value": str(at % 100)} for at in range(values)]
    return json.dumps({"request": "sender data", "data": data}, separators=(",", ":"))


def fed(program, folder, document, texts):
    """The instructions of a run over these frames, and the bytes of its script."""
    with open(f"{folder}/configuration", "w") as it:
        json.dump(document, it)
    with open(f"{folder}/script", "w") as it:
        for at, text in enumerate(texts):
            it.write(f"{1_000_000 + at}.000000000 open {at + 1}\n{1_000_000 + at}.000000000 frame {at + 1} {text}\n")
    words = ["--mode", "feed", "--config", f"{folder}/configuration", "--script", f"{folder}/script", "--outbox", f"{folder}/outbox", "--syncers", "0"]
    count, _ = counted([program, *words])
    os.unlink(f"{folder}/outbox")
    return count, os.path.getsize(f"{folder}/script")


def by_script(program, document, texts):
    """The instructions of a value of these frames, each of 250, and those of a byte of the script."""
    with tempfile.TemporaryDirectory() as folder:
        few, short = fed(program, folder, document, texts[:4])
        padded, longer = fed(program, folder, document, [text + " " * 1000 for text in texts[:4]])
        all_, long = fed(program, folder, document, texts)
    a_byte = (padded - few) / (longer - short)
    return (all_ - few - a_byte * (long - short)) / (250 * (len(texts) - 4)), a_byte


def of_workload(program):
    for syncers in (0, 4):
        words = [program, "--mode", "workload", "--syncers", str(syncers), "--number", "1", "--outbox", "/dev/null", "--values"]
        few, many = (counted([*words, str(values)])[0] for values in (1_001, 1_001 + VALUES))
        print(f"workload, {syncers} syncers: {(many - few) / VALUES:,.0f} a value", flush=True)


def of_last(program):
    hosts = [{"name": f"h{at}", "items": [{"key": "k"}], "triggers": [{"name": "t", "expression": f"last(/h{at}/k)>1000", "severity": 3}]} for at in range(500)]
    value, a_byte = by_script(program, {"hosts": hosts}, [frame(500, "k", 250, 250 * at) for at in range(4 + VALUES // 250)])
    print(f"500 hosts, last, frames of 250: {value:,.0f} a value, beside {a_byte:,.0f} for a byte of the script", flush=True)


def of_triggers(program):
    value, a_byte = by_script(program, workload.configuration(True, 10), list(workload.frames(7, 1_000 + VALUES)))
    print(f"ten triggers an item: {value:,.0f} a value, beside {a_byte:,.0f} for a byte of the script", flush=True)


def of_serve(program):
    with tempfile.TemporaryDirectory() as folder:
        clients = serve.clients_program(folder)
        with open(f"{folder}/configuration", "w") as it:
            json.dump(serve.configuration(1), it)
        found = []
        for seconds in (0, 4):
            port = serve.free_port()
            words = ["--mode", "serve", "--config", f"{folder}/configuration", "--listen", f"127.0.0.1:{port}", "--syncers", "0"]
            words += ["--journal", f"{folder}/journal{seconds}", "--outbox", f"{folder}/outbox{seconds}"]

            def send():
                time.sleep(5)
                said = subprocess.run([clients, str(port), "32", "1", str(seconds)], check=True, capture_output=True, text=True) if seconds else None
                return int(said.stdout) if said else 0

            found.append(counted([program, *words], send))
    (idle, _), (busy, values) = found
    print(f"serve, 32 clients, one value a connection: {(busy - idle) / max(values, 1):,.0f} a value ({values} values)", flush=True)


def of_opening(program):
    for a_group in (250, 1):
        counts = []
        for entries in (VALUES, 2 * VALUES):
            with tempfile.TemporaryDirectory() as folder:
                with open(f"{folder}/configuration", "wb") as it:
                    it.write(opening.configuration_of(1))
                open(f"{folder}/script", "w").close()
                opening.write_journal(f"{folder}/journal", entries, a_group)
                words = ["--mode", "feed", "--config", f"{folder}/configuration", "--script", f"{folder}/script", "--outbox", f"{folder}/outbox", "--journal", f"{folder}/journal"]
                counts.append(counted([program, *words])[0])
        print(f"opening, in groups of {a_group}: {(counts[1] - counts[0]) / VALUES:,.0f} an entry", flush=True)


CASES = {"workload": of_workload, "last": of_last, "triggers": of_triggers, "serve": of_serve, "opening": of_opening}


def main():
    words, cases = sys.argv[1:], list(CASES)
    if "--cases" in words:
        at = words.index("--cases")
        cases = words[at + 1].split(",")
        del words[at : at + 2]
    if not words or any(it not in CASES for it in cases):
        print(f"usage: bench/instructions.py PROGRAM.. [--cases {','.join(CASES)}]", file=sys.stderr)
        return 2
    for program in words:
        print(program)
        for it in cases:
            CASES[it](os.path.realpath(program))
    return 0


if __name__ == "__main__":
    sys.exit(main())
