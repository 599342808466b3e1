#!/usr/bin/env python3
"""Prints the most memory and descriptors that a built program takes where peers or its journal are at their limits.

usage: bench/memory.py PROGRAM FOLDER [--only WORDS] [--mib N]

The program serves at a free port of the loopback, each time anew, with its journal and outbox in a folder of its own below
FOLDER, which needs 3 GB. The cases, of which WORDS, with commas between them, names some:

  idle      nobody is there
  silent    128 connections that send nothing
  halves    128 connections that each bring all but the last byte of a frame of 16 MiB (--mib N: of N)
  zeros, objects, texts, good, long
            one frame of 16 MiB: its elements are 0, {}, "", values of one digit, or values of 65,000 digits
  entries   a journal of 4,000,000 entries with values of ten bytes
  bytes     a journal of 1 GiB with values of 60,000 bytes

Beside the frames stands how long another sender waits for its reply meanwhile at most, and beside the journals how long it takes
until the first one is answered. Memory is the most that was resident; what the kernel counts of files isn't in it.
"""

import argparse
import json
import os
import socket
import struct
import subprocess
import sys
import tempfile
import threading
import time

TOP = os.path.dirname(os.path.dirname(os.path.realpath(__file__)))
sys.dont_write_bytecode = True
sys.path.insert(0, f"{TOP}/tools")
from served import framed, free_port, held, journal_of, program_at

HEAD, TAIL = b'{"request":"sender data","data":[', b"]}"
ELEMENTS = {
    "zeros": b"0",
    "objects": b"{}",
    "texts": b'""',
    "good": b'{"host":"h","key":"k","value":"1"}',
    "long": b'{"host":"h","key":"k","value":"' + b"9" * 65000 + b'"}',
}
MOST = 16 << 20
CONFIGURATION = held(f"{TOP}/samples/one_frame/config.json")


class Server:
    def __init__(self, program, folder):
        self.port = free_port()
        words = [program, "--mode", "serve", "--config", f"{TOP}/samples/one_frame/config.json", "--listen", f"127.0.0.1:{self.port}"]
        words += ["--journal", f"{folder}/journal", "--outbox", f"{folder}/outbox"]
        self.begun = time.time()
        self.process = subprocess.Popen(words, stdout=subprocess.PIPE)
        while not self.asked(framed(HEAD + ELEMENTS["good"] + TAIL)):
            if self.process.poll() is not None:
                raise SystemExit(f"the program ended: {self.process.communicate()[0]}")
            time.sleep(0.02)
        self.opened = time.time() - self.begun

    def connect(self):
        return socket.create_connection(("127.0.0.1", self.port), timeout=600)

    def asked(self, bytes_):
        """What is answered to some bytes, or nothing."""
        try:
            with self.connect() as connection:
                connection.sendall(bytes_)
                reply = b""
                while piece := connection.recv(65536):
                    reply += piece
        except OSError:
            return b""
        return reply

    def most(self):
        """The most MiB that were resident so far."""
        with open(f"/proc/{self.process.pid}/status") as it:
            return next(int(line.split()[1]) for line in it if line.startswith("VmHWM")) / 1024

    def settle(self):
        """Waits until what was sent is taken: until memory hasn't grown for some seconds."""
        before = 0
        while self.most() > before:
            before = self.most()
            time.sleep(8)

    def end(self):
        """The most MiB that were resident, and the descriptors that there are. Then the program is ended."""
        memory = self.most()
        descriptors = len(os.listdir(f"/proc/{self.process.pid}/fd"))
        self.process.kill()
        self.process.communicate()
        return f"{memory:7,.0f} MiB, {descriptors} descriptors"


def frame_of(element, size):
    count = (size - len(HEAD) - len(TAIL)) // (len(element) + 1)
    return HEAD + b",".join([element] * count) + TAIL


def silent(server, size):
    peers = [server.connect() for _ in range(128)]
    time.sleep(2)
    yield server.end()
    for it in peers:
        it.close()


def halves(server, size):
    bytes_ = b"ZBXD\x01" + struct.pack("<II", size, 0) + frame_of(ELEMENTS["zeros"], size).ljust(size - 1)[: size - 1]
    peers = []
    for _ in range(128):
        peers.append(server.connect())
        peers[-1].sendall(bytes_)
    server.settle()
    yield server.end()
    for it in peers:
        it.close()


def one_frame(element):
    def case(server, size):
        whole, done = framed(frame_of(element, size)), []
        sender = threading.Thread(target=lambda: done.append(server.asked(whole)))
        sender.start()
        waits = []
        while sender.is_alive():
            begun = time.time()
            server.asked(framed(HEAD + ELEMENTS["good"] + TAIL))
            waits.append(time.time() - begun)
            time.sleep(0.02)
        time.sleep(3)
        told = json.loads(done[0][13:])["info"].rsplit(";", 1)[0] if done[0] else "no reply"
        yield f"{server.end()}; {told}; another waited {max(waits):.1f} s"

    return case


CASES = {"idle": lambda server, size: iter([server.end()]), "silent": silent, "halves": halves}
CASES |= {name: one_frame(element) for name, element in ELEMENTS.items()}


def value(length):
    return struct.pack("<BIIIIII", 2, 100, 0, 1, 100, 0, length) + b"7" * 9 + b"0" * (length - 9)


def entries_journal(path):
    group, whole = (250, value(10) * 250), 3_999_000 // 250
    write_journal(path, group, whole)


def bytes_journal(path):
    group = (250, value(60_000) * 250)
    write_journal(path, group, ((1 << 30) - (1 << 24)) // len(group[1]))


def write_journal(path, group, count):
    first = (1, struct.pack("<BIII", 1, 0, 0, len(CONFIGURATION)) + CONFIGURATION)
    tick = (1, struct.pack("<BII", 3, 100, 0))
    with open(path, "wb") as it:
        it.write(journal_of([first, tick])[:-1])
        more = journal_of([group])[8:-1]
        for _ in range(count):
            it.write(more)
        it.write(b"\0")


JOURNALS = {"entries": entries_journal, "bytes": bytes_journal}


def main():
    parser = argparse.ArgumentParser(usage="bench/memory.py PROGRAM FOLDER [--only WORDS] [--mib N]")
    parser.add_argument("program")
    parser.add_argument("folder")
    parser.add_argument("--only", default=",".join([*CASES, *JOURNALS]))
    parser.add_argument("--mib", type=int, default=16)
    words = parser.parse_args()
    program = program_at(words.program)
    for name in words.only.split(","):
        with tempfile.TemporaryDirectory(dir=words.folder) as folder:
            if name in JOURNALS:
                JOURNALS[name](f"{folder}/journal")
                server = Server(program, folder)
                size = os.path.getsize(f"{folder}/journal") / (1 << 20)
                print(f"{name:8} {server.end()}; {size:,.0f} MiB of journal, opened in {server.opened:.1f} s", flush=True)
                continue
            for told in CASES[name](Server(program, folder), min(MOST, words.mib << 20)):
                print(f"{name:8} {told}", flush=True)
    return 0


if __name__ == "__main__":
    sys.exit(main())
