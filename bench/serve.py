#!/usr/bin/env python3
"""Lets clients send values to built programs over the loopback, and prints how many values a second they take, and the
processor time of a value.

usage: bench/serve.py PROGRAM.. [--seconds N] [--journal FOLDER] [--triggers N] [--syncers LIST]

N, 3 if not given, is how long each case lasts. Each item has as many triggers as --triggers says, one if nothing does. With a
list such as 0,1,2,4,8 each case is run with each of these numbers of syncers in turn, and else with as many as the program
takes by itself. With a folder the program keeps a journal in it, and the bare disk is measured
beside each case: how many frames a second one process of Python writes and syncs there, twice each, as a journal does.

The cases are one client and 32 clients, with one value and with 250 values a connection, as senders send them. The clients
are small processes (bench/clients.c, which needs cc) that share the processors with the program: what they reach is what one
machine does with both. Beside each stands the most memory that the program held.
"""

import json
import os
import socket
import subprocess
import sys
import tempfile
import time

def configuration(triggers):
    return {
        "hosts": [
            {
                "name": "h",
                "items": [{"key": f"k{item}"} for item in range(32)],
                "triggers": [
                    {"name": f"t{item}" + f".{at}" * (at > 0), "expression": f"last(/h/k{item})>{1000000 + at}", "severity": 3}
                    for item in range(32)
                    for at in range(triggers)
                ],
            }
        ]
    }


def free_port():
    with socket.socket() as it:
        it.bind(("127.0.0.1", 0))
        return it.getsockname()[1]


def clients_program(folder):
    """The clients, compiled into the folder."""
    source = os.path.join(os.path.dirname(os.path.abspath(__file__)), "clients.c")
    subprocess.run(["cc", "-D_GNU_SOURCE", "-O2", "-o", f"{folder}/clients", source], check=True)
    return f"{folder}/clients"


def processor_time(pid):
    with open(f"/proc/{pid}/stat") as file:
        fields = file.read().rsplit(")", 1)[1].split()
    return (int(fields[11]) + int(fields[12])) / os.sysconf("SC_CLK_TCK")


def most_memory(pid):
    with open(f"/proc/{pid}/status") as file:
        return next(int(line.split()[1]) for line in file if line.startswith("VmHWM")) / 1024


def bare_disk(folder, count, seconds):
    """Frames a second that are written and synced twice: the group behind a closed gate, and then the gate."""
    group, frames, at, end = b"v" * (8 + count * 30), 0, 9, time.time() + seconds
    file = os.open(f"{folder}/bare", os.O_RDWR | os.O_CREAT | os.O_TRUNC)
    while time.time() < end:
        os.pwrite(file, group + b"\0", at)
        os.fdatasync(file)
        os.pwrite(file, b"\1", at - 1)
        os.fdatasync(file)
        at += len(group) + 1
        frames += 1
    os.close(file)
    os.unlink(f"{folder}/bare")
    return frames / seconds


def measure(program, seconds, journal, triggers, syncers, clients, count):
    """One case, over a program of its own, since a run takes 4,000,000 entries at most."""
    with tempfile.TemporaryDirectory(dir=journal) as folder:
        with open(f"{folder}/configuration", "w") as file:
            json.dump(configuration(triggers), file)
        port, program_of_clients = free_port(), clients_program(folder)
        words = [program, "--mode", "serve", "--config", f"{folder}/configuration", "--listen", f"127.0.0.1:{port}"]
        if journal:
            words += ["--journal", f"{folder}/journal"]
        if syncers:
            words += ["--syncers", syncers]
        server = subprocess.Popen([*words, "--outbox", f"{folder}/outbox"], stdout=subprocess.DEVNULL)
        time.sleep(1)
        begin = processor_time(server.pid)
        sent = subprocess.run([program_of_clients, str(port), str(clients), str(count), str(seconds)], check=True, capture_output=True, text=True)
        spent, values, held = processor_time(server.pid) - begin, int(sent.stdout), most_memory(server.pid)
        bare = f" {count * bare_disk(folder, count, 1):16,.0f}" if journal else ""
        print(f"{clients:7} {count:13} {syncers or '':>7} {values / seconds:16,.0f} {1e6 * spent / max(values, 1):10.2f} {held:8.0f}{bare}", flush=True)
        server.terminate()
        server.wait()


def taken(words, name, otherwise):
    """The word behind this one, which are both taken out, or what is given where it isn't there."""
    if name not in words:
        return otherwise
    at = words.index(name)
    found = words[at + 1]
    del words[at : at + 2]
    return found


def main():
    words = sys.argv[1:]
    seconds, journal = int(taken(words, "--seconds", "2")), taken(words, "--journal", None)
    triggers, numbers = int(taken(words, "--triggers", "1")), taken(words, "--syncers", "").split(",")
    if not words:
        print("usage: bench/serve.py PROGRAM.. [--seconds N] [--journal FOLDER] [--triggers N] [--syncers LIST]", file=sys.stderr)
        return 2
    for program in words:
        bare = f" {'bare disk':>16}" if journal else ""
        print(f"{program}\n{'clients':>7} {'values a conn':>13} {'syncers':>7} {'values a second':>16} {'us a value':>10} {'MB held':>8}{bare}")
        for clients in (1, 32):
            for count in (1, 250):
                for syncers in numbers:
                    measure(os.path.realpath(program), seconds, journal, triggers, syncers, clients, count)
    return 0


if __name__ == "__main__":
    sys.exit(main())
