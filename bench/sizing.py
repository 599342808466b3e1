#!/usr/bin/env python3
"""Measures what a value, a frame, a Tick and a problem take in journal, outbox and memory, and prints the tables of docs/SIZING.md.

usage: bench/sizing.py PROGRAM [--bytes]    with --bytes the tables of bytes alone, which are the same on each machine

The bytes are those of the files that runs of a few values leave, so they are exact. The memory is the difference of the most
that was held between two openings, of journals of 200,000 and of 1,200,000 entries in groups of 250, and what is resident more
behind each of 8,000 values that a program took which serves; it hangs on the machine.
"""

import os
import socket
import subprocess
import sys
import tempfile
import time

TOP = os.path.dirname(os.path.dirname(os.path.abspath(__file__)))
sys.dont_write_bytecode = True
sys.path.insert(0, f"{TOP}/tools")
import opening  # noqa: E402
import served  # noqa: E402

FIRST = f"{TOP}/contrib/first.json"
MOST_ENTRIES, MOST_BYTES = 4_000_000, 1_073_741_824  # as docs/FORMATS.md has them
VALUE = "12.345"
# of which item the values are, the value of each number, and what it makes
KEPT = [
    (1, lambda number: number % 100, "a value that makes no problem"),
    (1, lambda number: 1000 * (number % 2), "a value of which each second one makes a problem, and the next its recovery"),
    (0, lambda number: 1000 + number, "a value that makes a problem which stays open, of one trigger"),
]
RATES = [(10, 1), (1_000, 1), (1_000, 250), (100_000, 250)]


def frame(moment, number, values):
    data = ",".join('{"host":"web01","key":"load","value":"%s"}' % value for value in values)
    return f'{moment}.000000000 open {number}\n{moment}.000000000 frame {number} {{"request":"sender data","data":[{data}]}}\n'


def left(program, script):
    """The bytes of journal and outbox that a run of the first configuration document on this script leaves."""
    with tempfile.TemporaryDirectory() as folder:
        with open(f"{folder}/script", "w") as file:
            file.write(script)
        words = ["--mode", "feed", "--config", FIRST, "--script", "script", "--journal", "journal", "--outbox", "outbox"]
        said = subprocess.run([program, *words], cwd=folder, capture_output=True, text=True).stdout
        if not said.startswith("status: Ok;"):
            raise SystemExit(f"sizing: the run ended with {said}")
        return os.path.getsize(f"{folder}/journal"), os.path.getsize(f"{folder}/outbox")


def bytes_of(program):
    """Bytes in the journal of a byte of a value, of a value without its bytes, of a frame and of a Tick; in the outbox of a problem."""

    def journal(*frames, more=""):
        return left(program, "".join(frame(100, number, values) for number, values in enumerate(frames, 1)) + more)[0]

    one = journal(["1"])
    of_byte = journal(["12"]) - one
    of_value = journal(["1", "1"]) - one - of_byte
    of_frame = journal(["1"], ["1"]) - one - of_value - of_byte
    of_tick = journal(["1"], more="130.000000000 quiet\n") - one
    outbox = left(program, frame(100, 1, ["10"]) + frame(101, 2, ["1"]))[1]
    return of_byte, of_value, of_frame, of_tick, outbox


def spelled(seconds):
    for unit, size in (("days", 86_400), ("hours", 3_600), ("minutes", 60)):
        if seconds >= 2 * size:
            return f"{seconds / size:.1f} {unit}"
    return f"{seconds:.0f} seconds"


def size_of(bytes_):
    for unit, size in (("GB", 10**9), ("MB", 10**6), ("kB", 10**3)):
        if bytes_ >= size:
            return f"{bytes_ / size:.1f} {unit}"
    return f"{bytes_:.0f} bytes"


def tables(of_byte, of_value, of_frame, of_tick, outbox):
    yield "| what | bytes |"
    yield "|---|---|"
    yield f"| a value in the journal, beside its text | {of_value} |"
    yield f"| its text, for each byte | {of_byte} |"
    yield f"| a frame in the journal, beside its values | {of_frame} |"
    yield f"| a Tick in the journal, one in each half minute | {of_tick} |"
    yield f"| a problem of the first configuration in the outbox, with its recovery and both messages | {outbox} |"
    yield ""
    yield "| values a second | values a frame | journal a second | a day | full after | frames a second, of two syncs each at most |"
    yield "|---|---|---|---|---|---|"
    for rate, a_frame in RATES:
        a_second = rate * (of_value + of_byte * len(VALUE)) + rate / a_frame * of_frame + of_tick / 30
        full = min(MOST_ENTRIES / (rate + 1 / 30), MOST_BYTES / a_second)
        yield f"| {rate:,} | {a_frame} | {size_of(a_second)} | {size_of(a_second * 86_400)} | {spelled(full)} | {rate // a_frame:,} |"


def held(program, entries):
    with tempfile.TemporaryDirectory() as folder:
        opening.write_journal(f"{folder}/journal", entries, 250)
        with open(f"{folder}/configuration", "wb") as file:
            file.write(opening.configuration_of(1))
        open(f"{folder}/script", "w").close()
        words = ["--mode", "feed", "--config", f"{folder}/configuration", "--script", f"{folder}/script", "--journal", f"{folder}/journal"]
        out = os.open(os.devnull, os.O_WRONLY)
        pid = os.posix_spawn(program, [program, *words], os.environ, file_actions=[(os.POSIX_SPAWN_DUP2, out, 1)])
        os.close(out)
        _, status, usage = os.wait4(pid, 0)
        if os.waitstatus_to_exitcode(status):
            raise SystemExit(f"sizing: an opening ended with exit {os.waitstatus_to_exitcode(status)}")
        return usage.ru_maxrss * 1024


def asked(port, bytes_):
    """Sends some bytes over a connection of its own, and waits until it is ended. Answers whether it was taken."""
    try:
        with socket.create_connection(("127.0.0.1", port)) as connection:
            connection.sendall(bytes_)
            while connection.recv(4096):
                pass
    except OSError:
        return False
    return True


def resident(process):
    with open(f"/proc/{process.pid}/status") as it:
        return next(int(line.split()[1]) for line in it if line.startswith("VmRSS")) * 1024


def kept(program, item, value):
    """How many bytes more are resident behind each of 8,000 values, one a frame, behind 2,000 others."""
    with tempfile.TemporaryDirectory() as path:
        process, port = served.Folder(program, path).serve()
        try:
            while not asked(port, served.frame(item, [value(0)])):
                time.sleep(0.1)
            for number in range(1, 10_000):
                if number == 2_000:
                    time.sleep(1)
                    before = resident(process)
                asked(port, served.frame(item, [value(number)]))
            time.sleep(1)
            return (resident(process) - before) / 8_000
        finally:
            process.kill()
            process.wait()
            process.stdout.close()


def main(words):
    if not words or words[1:] not in ([], ["--bytes"]):
        print(__doc__.strip(), file=sys.stderr)
        return 2
    program = os.path.realpath(words[0])
    print("\n".join(tables(*bytes_of(program))))
    if not words[1:]:
        print()
        for item, value, what in KEPT:
            print(f"{kept(program, item, value):.0f} bytes of memory {what}")
        few, many = held(program, 200_000), held(program, 1_200_000)
        print(f"{(many - few) / 1_000_000:.0f} bytes of memory an entry of ten bytes, and {size_of(few - (many - few) / 5)} beside them")
    return 0


if __name__ == "__main__":
    sys.exit(main(sys.argv[1:]))
