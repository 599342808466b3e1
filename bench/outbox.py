#!/usr/bin/env python3
"""Makes an outbox and measures how long contrib/problems takes over it.

usage: bench/outbox.py [BYTES [FOLDER]]    1,000,000,000 bytes in the system's folder for temporary files, if none are given

Each problem has two tags, a step and a message; 2,000 are open at a time, and each that ends is any one of them, with a
message. So there are five lines a problem, of about 90 bytes. The file is written first and synced, and so is in the system's
cache where that has room. Printed are the seconds of three runs, and the processor time of all their processes.
"""

import os
import random
import subprocess
import sys
import tempfile
import time

TOP = os.path.dirname(os.path.dirname(os.path.abspath(__file__)))
OPEN = 2000


def write(path, size):
    """The events that are open at the end."""
    chance, entry, at, written, open_ = random.Random(1), 3, 1_700_000_000, 0, []
    with open(path, "wb") as file:
        while written < size:
            lines = []
            for _ in range(1000):
                entry, at = entry + 5, at + 1
                trigger = chance.randrange(1, 5000)
                event, host = f"{entry}-{trigger}", f"web{trigger % 1000:04}"
                lines.append(f"P|{event}|{at}.000000000|{trigger % 6}|0|{host}|Load on {{HOST.NAME}}|Load on {host}|scope|load|service|shop")
                lines.append(f"S|{event}|Tell the team|1|{at}.000000000")
                lines.append(f"M|{event}|Tell the team|1|ops|Load on {host}|Problem began at 12:00:00 on {host}, and nobody knows why")
                open_.append(event)
                if len(open_) > OPEN:
                    place = chance.randrange(len(open_))
                    open_[place], open_[-1] = open_[-1], open_[place]
                    ended = open_.pop()
                    lines.append(f"R|{ended}|{entry + 1}|{at}.000000000|e")
                    lines.append(f"M|{ended}|Tell the team|0|ops|Over: the load of a host|It was as it was, and is over")
            text = "\n".join(lines).encode() + b"\n"
            written += file.write(text)
        file.flush()
        os.fsync(file.fileno())
    return open_


def main(words):
    size = int(words[0]) if words else 1_000_000_000
    with tempfile.TemporaryDirectory(dir=words[1] if words[1:] else None) as folder:
        open_ = write(f"{folder}/outbox", size)
        print(f"{os.path.getsize(f'{folder}/outbox'):,} bytes, {len(open_):,} problems open", flush=True)
        for _ in range(3):
            begin, before = time.time(), os.times()
            said = subprocess.run([f"{TOP}/contrib/problems", f"{folder}/outbox"], capture_output=True, text=True)
            took, after = time.time() - begin, os.times()
            spent = after.children_user + after.children_system - before.children_user - before.children_system
            if said.returncode or said.stdout.splitlines()[-1] != f"{len(open_)} open":
                print(f"outbox: it says {said.stdout.splitlines()[-1:]} {said.stderr}", file=sys.stderr)
                return 1
            busy = f", at a load of {os.getloadavg()[0]:.1f}"
            print(f"{took:5.1f} seconds, {spent:.1f} seconds of processor time{busy}", flush=True)
    return 0


if __name__ == "__main__":
    sys.exit(main(sys.argv[1:]))
