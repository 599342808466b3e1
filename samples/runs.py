#!/usr/bin/env python3
"""Runs a program as no folder of samples can say it: again over what an earlier run left, beside more and fewer syncers, on
files that take nothing, and over sockets.

usage: samples/runs.py PROGRAM    prints a line for each case that comes to something else, and how many cases there are; exit
                                  status 0 where none differs

What is expected is written out here, or is what another run printed.
"""

import json
import os
import re
import socket
import struct
import subprocess
import sys
import tempfile
import time

SAMPLES = os.path.dirname(os.path.abspath(__file__))

LINE = b"P|3-1|100.000000000|3|0|h|hot|hot\n"
ONE_PROBLEM = b"status: Ok; entries: 3; problems: 1; recoveries: 0; messages: 0; outbox bytes: 34\n"


class Differs(Exception):
    """Something that isn't as expected."""


def same(what, came, wanted):
    if came != wanted:
        raise Differs(f"{what}: {came!r} in place of {wanted!r}")


def data_of(name):
    with open(f"{SAMPLES}/one_frame/{name}", "rb") as file:
        return file.read()


def put(name, data):
    with open(name, "wb") as file:
        file.write(data)


def held(name):
    with open(name, "rb") as file:
        return file.read()


def run(program, *words):
    """The exit status and the standard output of a run in the current folder."""
    ran = subprocess.run([program, *words], stdin=subprocess.DEVNULL, capture_output=True, timeout=120)
    same("standard error", ran.stderr, b"")
    return ran.returncode, ran.stdout


def feed(program, *words):
    return run(program, "--mode", "feed", "--config", "config.json", "--script", "script", *words)


# ---- cases: each runs in a folder with the configuration and the script of the first example


def restart(program, kept):
    """A run over the journal of an earlier one, whose outbox kept so many bytes, writes the lines that are missing."""
    put("outbox", b"")
    same("the first run", feed(program, "--journal", "journal", "--outbox", "outbox"), (0, ONE_PROBLEM))
    same("its outbox", held("outbox"), LINE)
    put("outbox", LINE[:kept])
    put("script", b"100.000000000 closed\n")
    same("the second run", feed(program, "--journal", "journal", "--outbox", "outbox"), (0, ONE_PROBLEM))
    same("its outbox", held("outbox"), LINE)


def spoilt_outbox(program, syncers):
    """A run cuts its outbox where a power cut left zero bytes, and leaves one alone that holds anything else."""
    words = ["--journal", "journal", "--outbox", "outbox", "--syncers", syncers]
    same("the first run", feed(program, *words), (0, ONE_PROBLEM))
    put("script", b"100.000000000 closed\n")
    for kept, zeros in ((34, 0), (10, 24), (10, 1), (0, 34), (33, 1)):
        put("outbox", LINE[:kept] + bytes(zeros))
        same(f"{kept} bytes and {zeros} zeros", (feed(program, *words), held("outbox")), ((0, ONE_PROBLEM), LINE))
    for at, other in ((10, LINE[:10] + b"x"), (0, b"x" * 34), (33, LINE[:33] + b"\r"), (5, LINE[:5] + b"1" + bytes(9))):
        put("outbox", other)
        refused = (27, b"status: OutboxDiffers; at: %d\n" % at)
        same(f"another byte at {at}", (feed(program, *words), held("outbox")), (refused, other))
    longer = LINE + bytes(1)
    put("outbox", longer)
    refused = (9, b"status: OutboxAhead; held: 35; lines: 34\n")
    same("a zero byte too many", (feed(program, *words), held("outbox")), (refused, longer))


def restarts_keep_the_file(program):
    """Each run over a journal reads what the one before added, and one that adds nothing leaves the file as it was."""
    feed(program, "--journal", "journal")
    first = held("journal")
    put("script", b"100.000000000 closed\n")
    same("a run without values", feed(program, "--journal", "journal"), (0, LINE + ONE_PROBLEM))
    same("the journal", held("journal"), first)


def workload(program, number, values, entries):
    """A workload has the same lines beside any number of syncers, and each of its values is an entry."""
    words = ["--mode", "workload", "--number", str(number), "--values", str(values)]
    status, alone = run(program, *words, "--syncers", "0")
    same("exit", status, 0)
    last = alone.splitlines()[-1]
    if not last.startswith(b"status: Ok; entries: %d; " % entries):
        raise Differs(f"the last line: {last!r}")
    same("problem lines", alone.count(b"\nP|") + alone.startswith(b"P|"), int(re.search(rb"problems: (\d+)", last)[1]))
    for syncers in ("1", "4", "8"):
        if run(program, *words, "--syncers", syncers) != (0, alone):
            raise Differs(f"beside {syncers} syncers: other output than on one thread")


def full_outbox(program, syncers):
    """Where the outbox takes nothing the run ends with OutboxFault."""
    same("the run", feed(program, "--outbox", "/dev/full", "--syncers", syncers), (11, b"status: OutboxFault\n"))


def frame(data):
    return b"ZBXD\x01" + struct.pack("<II", len(data), 0) + data


def asked(*values):
    pairs = ",".join('{"host":"h","key":"k","value":%s}' % value for value in values)
    return frame(b'{"request":"sender data","data":[%s]}' % pairs.encode())


class Server:
    """A program that listens at a free port of this machine, until it is stopped."""

    def __init__(self, program, *words):
        for _ in range(20):
            with socket.socket() as free:
                free.bind(("127.0.0.1", 0))
                self.port = free.getsockname()[1]
            address = f"127.0.0.1:{self.port}"
            self.program = subprocess.Popen(
                [program, "--mode", "serve", "--config", "config.json", "--listen", address, *words],
                stdin=subprocess.DEVNULL,
                stdout=subprocess.PIPE,
                stderr=subprocess.STDOUT,
            )
            if self.is_there():
                return
            self.stop()
        raise Differs("no port could be listened at")

    def is_there(self):
        for _ in range(600):
            if self.program.poll() is not None:
                return False
            try:
                self.connect().close()
                return True
            except ConnectionRefusedError:
                time.sleep(0.1)
        return False

    def connect(self):
        made = socket.create_connection(("127.0.0.1", self.port), timeout=60)
        return made

    def stop(self):
        self.program.kill()
        self.program.wait()
        self.program.stdout.close()

    def __enter__(self):
        return self

    def __exit__(self, *_):
        self.stop()


def rest(conn):
    """What comes on a connection up to its end."""
    got = b""
    while True:
        try:
            piece = conn.recv(65536)
        except ConnectionResetError:
            return got
        if not piece:
            return got
        got += piece


def same_reply(conn, processed, failed):
    got = rest(conn)
    wanted = rb'\{"response":"success","info":"processed: %d; failed: %d; total: %d; seconds spent: \d+\.\d{6}"\}'
    if got != frame(got[13:]) or not re.fullmatch(wanted % (processed, failed, processed + failed), got[13:]):
        raise Differs(f"the reply {got!r} for {processed} and {failed} values")


def replies(program, syncers):
    """Over sockets each connection gets its reply and is closed; one that brings no frame is closed without; a later run over
    the journal has what was answered."""
    with Server(program, "--journal", "journal", "--outbox", "outbox", "--syncers", syncers) as server:
        first, second = server.connect(), server.connect()
        data = asked('"1"')
        first.sendall(data[:20])
        second.sendall(asked('"10"'))
        same_reply(second, 1, 0)
        first.sendall(data[20:])
        same_reply(first, 1, 0)
        for sent, wanted in (
            (asked(), None),
            (frame(b"[1"), b'{"response":"failed","info":"not JSON"}'),
            (frame(b"{}"), b'{"response":"failed","info":"unsupported request"}'),
            (b"ZBXD\x03", b""),
            (b"ZBXD\x01\x01\x00\x00\x01", b""),
        ):
            with server.connect() as conn:
                conn.sendall(sent)
                if wanted is None:
                    same_reply(conn, 0, 0)
                else:
                    same(f"the reply to {sent!r}", rest(conn), wanted and frame(wanted))
        with server.connect() as conn:
            conn.sendall(asked('"10"', "1.5"))
            conn.shutdown(socket.SHUT_WR)
            same_reply(conn, 1, 1)
        first.close()
        second.close()
    put("outbox", b"")
    put("script", b"0.000000000 closed\n")
    status, printed = feed(program, "--journal", "journal", "--outbox", "outbox")
    same("exit of the run over the journal", status, 0)
    same("its lines", [line.split(b"|")[0] for line in held("outbox").splitlines()], [b"P", b"R", b"P"])
    if not printed.endswith(b"problems: 2; recoveries: 1; messages: 0; outbox bytes: %d\n" % len(held("outbox"))):
        raise Differs(f"the printed line: {printed!r}")


ITEMS = (
    b'{"key":"k","kind":"active","delay":"30s"},{"key":"t"},{"key":"n","kind":"active","delay":"1d","enabled":false},'
    b'{"key":"d","kind":"dependent","master":"k"},{"key":"q[\\"a b\\",\\u0001]","kind":"active"}'
)
TRIGGER = b'{"name":"hot","expression":"last(/h/k)>5","severity":3}'
AGENTS = b'{"hosts":[{"name":"g","items":[{"key":"k","kind":"active"}]},{"name":"h","items":[%s],"triggers":[%s]},{"name":"off","enabled":false}]}'


def checks_of(host):
    return frame(b'{"request":"active checks","host":%s,"version":"6.0"}' % host)


def refusal(info):
    return frame(b'{"response":"failed","info":"%s"}' % info)


def agents(program, syncers):
    """An agent is told the active items of its host that are enabled, and no others; its values are taken for these alone, and
    a text about an item that it doesn't support is counted as failed."""
    put("config.json", AGENTS % (ITEMS, TRIGGER))
    told = (
        b'{"key":"k","delay":30,"lastlogsize":0,"mtime":0},'
        b'{"key":"q[\\"a b\\",\\u0001]","delay":60,"lastlogsize":0,"mtime":0}'
    )
    element = b'{"host":"h","key":"%s","value":"%s","id":1,"clock":90,"ns":0%s}'
    with Server(program, "--journal", "journal", "--outbox", "outbox", "--syncers", syncers) as server:

        def answer(sent):
            with server.connect() as conn:
                conn.sendall(sent)
                return rest(conn)

        def counted(sent, processed, failed):
            with server.connect() as conn:
                conn.sendall(sent)
                same_reply(conn, processed, failed)

        for host, wanted in (
            (b'"h"', frame(b'{"response":"success","data":[%s]}' % told)),
            (b'"x"', refusal(b"unknown host")),
            (b"1", refusal(b"unknown host")),
            (b'"off"', refusal(b"host not monitored")),
        ):
            same(f"what the agent of {host!r} is told", answer(checks_of(host)), wanted)
        same("what no agent is told", answer(frame(b'{"request":"agent data","data":{}}')), refusal(b"unsupported request"))
        both = element % (b"k", b"10", b""), element % (b"k", b"no such file", b',"state":1')
        counted(frame(b'{"data":[%s],"session":"s","request":"agent data"}' % b",".join(both)), 1, 1)
        for key, failed in ((b"t", 1), (b"n", 1), (b"d", 1), (b"k", 0)):
            counted(frame(b'{"request":"agent data","data":[%s]}' % (element % (key, b"10", b',"state":"1"'))), 1 - failed, failed)
        counted(asked('"1"'), 0, 1)
    put("outbox", b"")
    put("script", b"0.000000000 closed\n")
    status, _ = feed(program, "--journal", "journal", "--outbox", "outbox")
    same("exit of the run over the journal", status, 0)
    same("its lines", [line.split(b"|")[0] for line in held("outbox").splitlines()], [b"P"])


def real_agent(program, syncers):
    """Each frame that a real agent sent is answered: a host that is there is told all its items, one that isn't gets a refusal,
    and of values exactly those that the agent doesn't support are counted as failed."""
    with open(f"{SAMPLES}/real_agent/config.json", "rb") as file:
        put("config.json", file.read())
    with open(f"{SAMPLES}/real_agent/script", encoding="utf-8") as file:
        bodies = [line.split(" ", 3)[3].rstrip("\n") for line in file if line.split(" ")[1] == "frame"]
    same("frames that it sent", len(bodies), 24)
    told = ",".join(
        '{"key":"%s","delay":%d,"lastlogsize":0,"mtime":0}' % one
        for one in (
            ("system.uptime", 10),
            ("vfs.fs.size[/,pused]", 15),
            ("agent.ping", 5),
            ('no.such.key[a,\\"b c\\"]', 10),
            ("vfs.file.exists[/tmp/gifteldu-flag]", 5),
        )
    )
    lists = {"web01": frame(b'{"response":"success","data":[%s]}' % told.encode()), "elsewhere": refusal(b"unknown host")}
    with Server(program, "--syncers", syncers) as server:
        for body in bodies:
            asks = json.loads(body)
            with server.connect() as conn:
                conn.sendall(frame(body.encode()))
                if asks["request"] == "active checks":
                    same("what the agent is told", rest(conn), lists[asks["host"]])
                else:
                    failed = sum(value.get("state") == 1 for value in asks["data"])
                    same_reply(conn, len(asks["data"]) - failed, failed)


def longest_list():
    """A configuration of which the list of the host `h` fills the data of a frame to the last byte, and that of the host `more` is a
    byte longer; and the first of both lists."""
    head, tail, count = b'{"response":"success","data":[', b"]}", 8060
    item = b'{"key":"%s","delay":60,"lastlogsize":0,"mtime":0}'
    room = (1 << 24) - len(head + tail) - count * len(item % b"") - (count - 1)
    prefix = b"k" * (room // count - 6)
    ends = [b"%06d%s" % (at, b"-" if at < room % count else b"") for at in range(count)]
    items = [b",".join(b'{"key":"{$L}%s","kind":"active"}' % end for end in (ends, [*ends[:-1], ends[-1] + b"-"])[more]) for more in (0, 1)]
    hosts = b",".join(b'{"name":"%s","items":[%s]}' % pair for pair in zip((b"h", b"more"), items))
    told = head + b",".join(item % (prefix + end) for end in ends) + tail
    same("bytes of the longest list", len(told), 1 << 24)
    return b'{"macros":[{"name":"{$L}","value":"%s"}],"hosts":[%s]}' % (prefix, hosts), told


def the_most_items(program):
    """A list that fills the data of a frame to the last byte is told; with one byte more there are too many items."""
    config, told = longest_list()
    put("config.json", config)
    with Server(program) as server:
        for host, wanted in ((b'"h"', frame(told)), (b'"more"', refusal(b"too many items"))):
            with server.connect() as conn:
                conn.sendall(checks_of(host))
                if rest(conn) != wanted:
                    raise Differs(f"another list for the agent of {host!r}")


def late_reader(program):
    """While an agent doesn't read its long list others are answered; and then it reads all of it."""
    config, told = longest_list()
    put("config.json", config)
    with Server(program) as server, socket.socket() as late:
        late.settimeout(60)
        late.setsockopt(socket.SOL_SOCKET, socket.SO_RCVBUF, 65536)
        late.connect(("127.0.0.1", server.port))
        late.sendall(checks_of(b'"h"'))
        late.recv(1, socket.MSG_PEEK)
        asked_at = time.monotonic()
        with server.connect() as conn:
            conn.sendall(asked('"10"'))
            same_reply(conn, 0, 1)
        waited = time.monotonic() - asked_at
        if waited > 5:
            raise Differs(f"another was answered after {waited:.1f} seconds")
        if rest(late) != frame(told):
            raise Differs("another list for an agent that reads late")


def reset(program):
    """A connection that is reset in the midst of a frame comes to nothing, and others go on."""
    with Server(program) as server:
        lost = server.connect()
        lost.sendall(asked('"10"')[:30])
        lost.setsockopt(socket.SOL_SOCKET, socket.SO_LINGER, struct.pack("ii", 1, 0))
        lost.close()
        with server.connect() as conn:
            conn.sendall(asked('"1"'))
            same_reply(conn, 1, 0)


def taken_port(program):
    """Where the address can't be had the run ends with WireFault."""
    with socket.socket() as other:
        other.bind(("127.0.0.1", 0))
        other.listen()
        address = "127.0.0.1:%d" % other.getsockname()[1]
        ran = run(program, "--mode", "serve", "--config", "config.json", "--listen", address)
    same("the run", ran, (13, b"status: WireFault\n"))


MESSAGES = LINE + b"M|3-1|act|1|ops|hot|a\\nb\nS|3-1|act|1|100.000000000\nM|3-1|act|1|boss|h\\|t|\nM|4-1|act|1|late"


def alerts(program, outbox, *words):
    put("lines", outbox)
    return run(program, "--mode", "alerts", "--outbox", "lines", "--progress", "progress", *words)


def marks(letters):
    """A progress with these marks of the messages in order."""
    return b"ZTSALR01\x012\x01" + b"\x01".join(struct.pack("<I", at) + letter.encode() for at, letter in enumerate(letters, 1)) + b"\0"


def sent(program):
    """A program that ends well takes each message, and a second call finds nothing to do."""
    for _ in range(2):
        same("the call", alerts(program, MESSAGES, "--command", "echo"), (0, b"status: Ok; messages: 2; done: 2; failed: 0\n"))
        same("the progress", held("progress"), marks("dd"))


def unsent(program):
    """With a program that isn't there each message fails; by the media they are tried again at once. Of two recipients whose
    messages sessions try beside each other either one's mark may come first."""
    entry = b'{"recipient":"%s","command":"/there/is/no/such/program","attempts":2,"interval":"0s"}'
    put("media.json", b'{"media":[%s]}' % b",".join(entry % name for name in (b"ops", b"boss")))
    second_first = b"ZTSALR01\x012\x01\x02\0\0\0f\x01\x01\0\0\0f\0"
    for sessions in ("1", "4"):
        put("progress", b"")
        words = ["--command", "true", "--media", "media.json", "--sessions", sessions]
        same("the call", alerts(program, MESSAGES, *words), (0, b"status: Ok; messages: 2; done: 0; failed: 2\n"))
        progress = held("progress")
        same("the progress", progress, second_first if sessions == "4" and progress == second_first else marks("ff"))


def by_media(program):
    """Each recipient's messages go to its own program, and a try that failed is made again behind its interval."""
    put("media.json", b'{"media":[{"recipient":"ops","command":"false","attempts":2,"interval":"1s"}]}')
    began = time.monotonic()
    same("the call", alerts(program, MESSAGES, "--command", "true", "--media", "media.json"), (0, b"status: Ok; messages: 2; done: 1; failed: 1\n"))
    if time.monotonic() - began < 1:
        raise Differs("a try came before its interval")
    same("the progress", held("progress"), b"ZTSALR01\x012\x01\x02\0\0\0d\x01\x01\0\0\0f\0")


def refused_alerts(program):
    """Lines, progresses and words that alerts refuse."""
    bad = b"M|3-1|act|1|ops|hot\n"
    same("a bad line", alerts(program, LINE + bad, "--command", "echo"), (22, b"status: BadLine; at: 34\n"))
    put("progress", b"ZTSALR01\x01d\0")
    same("marks ahead", alerts(program, LINE, "--command", "echo"), (23, b"status: MarksAhead; marks: 1; messages: 0\n"))
    put("progress", marks("d"))
    same("a mark ahead", alerts(program, LINE, "--command", "echo"), (23, b"status: MarksAhead; marks: 1; messages: 0\n"))
    put("media.json", b'{"media":[{"recipient":"ops","command":"a"},{"recipient":"ops","command":"b"}]}')
    same("media", alerts(program, LINE, "--command", "echo", "--media", "media.json"), (25, b"status: MediaRefused; path: /media/1/recipient\n"))
    same("media that aren't there", alerts(program, LINE, "--command", "echo", "--media", "none"), (5, b"status: SourceFault\n"))
    put("progress", b"ZTSALR01\x01x\0")
    same("damage", alerts(program, LINE, "--command", "echo"), (7, b"status: Damaged; at: 8\n"))
    put("progress", bytes(10))
    same("another file", alerts(program, LINE, "--command", "echo"), (6, b"status: NotOurs\n"))
    same("no command", alerts(program, LINE), (2, b"status: Usage\n"))
    words = ["--mode", "alerts", "--progress", "progress", "--command", "echo"]
    same("no outbox", run(program, *words), (2, b"status: Usage\n"))
    same("an outbox that isn't there", run(program, *words, "--outbox", "none"), (5, b"status: SourceFault\n"))


CASES = [
    ("a restart behind no line", restart, 0),
    ("a restart behind a third of a line", restart, 10),
    ("a restart behind all lines", restart, 34),
    ("outboxes with other bytes", spoilt_outbox, "4"),
    ("outboxes with other bytes, on one thread", spoilt_outbox, "0"),
    ("a restart that adds nothing", restarts_keep_the_file),
    ("a workload of 2,000 values", workload, 7, 2000, 2002),
    ("a workload of 250 values", workload, 1, 250, 252),
    ("an outbox that is full", full_outbox, "4"),
    ("an outbox that is full, on one thread", full_outbox, "0"),
    ("replies over sockets", replies, "4"),
    ("replies over sockets, on one thread", replies, "0"),
    ("an agent", agents, "4"),
    ("an agent, on one thread", agents, "0"),
    ("what a real agent sent", real_agent, "4"),
    ("what a real agent sent, on one thread", real_agent, "0"),
    ("an agent with as many items as a frame has room for", the_most_items),
    ("an agent that reads late", late_reader),
    ("a connection that is reset", reset),
    ("an address that is taken", taken_port),
    ("alerts that are sent", sent),
    ("alerts that fail", unsent),
    ("alerts by media", by_media),
    ("alerts that are refused", refused_alerts),
]


def flaw(program, case, arguments):
    """What isn't as expected in a case, or nothing."""
    with tempfile.TemporaryDirectory() as folder:
        os.chdir(folder)
        try:
            for name in ("config.json", "script"):
                put(name, data_of(name))
            case(program, *arguments)
        except (Differs, OSError, subprocess.TimeoutExpired) as error:
            return str(error)
        finally:
            os.chdir("/")
    return None


def main():
    if len(sys.argv) != 2:
        sys.exit("usage: samples/runs.py PROGRAM")
    program = os.path.abspath(sys.argv[1])
    differing = 0
    for name, case, *arguments in CASES:
        what = flaw(program, case, arguments)
        if what is not None:
            differing += 1
            print(f"{name}: {what}")
    print(f"{len(CASES)} runs, {differing} differ")
    sys.exit(1 if differing else 0)


if __name__ == "__main__":
    main()
