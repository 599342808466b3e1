"""What the tools share that let a program serve and then look at what it left: frames, journals, senders, and a folder with its
program."""

import json
import os
import signal
import socket
import struct
import subprocess
import threading
import time

SENDERS = 6
CONFIGURATION = {
    "hosts": [
        {
            "name": "h",
            "items": [{"key": f"k{sender}"} for sender in range(SENDERS)],
            "triggers": [
                {"name": f"t{sender}", "expression": f"last(/h/k{sender})>100", "multiple": sender % 2 == 0, "severity": 3}
                for sender in range(SENDERS)
            ],
        }
    ]
}


def program_at(path):
    """The whole path of a program; where none is there, that is told, and nothing is tried."""
    found = os.path.realpath(path)
    if not os.path.isfile(found) or not os.access(found, os.X_OK):
        raise SystemExit(f"there is no program {path}")
    return found


def framed(data):
    """The frame of these bytes."""
    return b"ZBXD\x01" + struct.pack("<II", len(data), 0) + data


def frame(sender, numbers):
    """The frame of a request that brings these numbers as values of a sender's item."""
    values = [{"host": "h", "key": f"k{sender}", "value": str(number)} for number in numbers]
    body = json.dumps({"request": "sender data", "data": values}).encode()
    return framed(body)


def free_port():
    """A port of the loopback at which nothing listens."""
    with socket.socket() as it:
        it.bind(("127.0.0.1", 0))
        return it.getsockname()[1]


def keys_of(text):
    """The keys of a document's items, in the order of their ids."""
    return [item["key"] for host in json.loads(text)["hosts"] for item in host.get("items", [])]


def entries_in(bytes_, count, keys):
    """The values of a group, as pairs of key and text, where these are the keys in force; a Config brings others."""
    found, at = [], 0
    for _ in range(count):
        kind = bytes_[at]
        at += 9
        if kind == 1:
            length = struct.unpack_from("<I", bytes_, at)[0]
            keys[:] = keys_of(bytes_[at + 4 : at + 4 + length])
            at += 4 + length
        elif kind == 2:
            item, _, _, length = struct.unpack_from("<IIII", bytes_, at)
            found.append((keys[item - 1] if item <= len(keys) else item, bytes_[at + 16 : at + 16 + length].decode()))
            at += 16 + length
        elif kind != 3:
            raise SystemExit(f"an entry of kind {kind}")
    if at != len(bytes_):
        raise SystemExit("a group whose entries don't fill it")
    return found


def base_in(bytes_):
    """The base of a journal, or nothing where it has none."""
    if bytes_[:8] != b"ZTSJRN02":
        return b""
    if bytes_[8] != 1:
        raise SystemExit("the journal is an unfinished copy")
    return bytes_[13 : 13 + struct.unpack_from("<I", bytes_, 9)[0]]


def lines_before(base):
    """How many bytes the lines before a base have."""
    return struct.unpack_from("<Q", base, 33)[0] if base else 0


def text_before(base):
    """The configuration document of a base."""
    return base[45 : 45 + struct.unpack_from("<I", base, 41)[0]]


def kept_in(bytes_):
    """The kept groups of a journal, behind its base if it has one: how many entries each has, and their bytes."""
    if len(bytes_) <= 9:
        return []
    base = base_in(bytes_)
    if not base and bytes_[:8] != b"ZTSJRN01":
        raise SystemExit("the journal has lost its first bytes")
    at, groups = 13 + len(base) if base else 8, []
    while at < len(bytes_) and bytes_[at] == 1:
        size, count = struct.unpack_from("<II", bytes_, at + 1)
        if at + 9 + size >= len(bytes_):
            raise SystemExit(f"no group behind the open gate at {at}")
        groups.append((count, bytes_[at + 9 : at + 9 + size]))
        at += 9 + size
    return groups


def journal_of(groups):
    """The journal that keeps these groups and no others."""
    return b"ZTSJRN01" + b"".join(b"\1" + struct.pack("<II", len(bytes_), count) + bytes_ for count, bytes_ in groups) + b"\0"


def values_of(groups, keys):
    """These kept groups, each as its values, where these keys are in force before them."""
    return [entries_in(bytes_, count, keys) for count, bytes_ in groups]


def groups_of(path):
    """The kept groups of a journal, each as its values."""
    bytes_ = held(path)
    base = base_in(bytes_)
    return values_of(kept_in(bytes_), keys_of(text_before(base)) if base else [])


def held(path):
    with open(path, "rb") as it:
        return it.read()


def check_values(groups, sent):
    """What is wrong with the values of a journal, beside the frames that each sender sent, if something is."""
    for number in range(SENDERS):
        kept = [[int(text) for _, text in group] for group in groups if group and group[0][0] == f"k{number}"]
        frames = [(list(numbers), answered) for numbers, answered in sent[number]]
        at = 0
        for group in kept:
            while at < len(frames) and frames[at][0] != group:
                if frames[at][1]:
                    return f"sender {number}: the answered values {frames[at][0][:3]}.. aren't where they belong"
                at += 1
            if at == len(frames):
                return f"sender {number}: the group {group[:3]}.. is none of its frames, or stands twice or in another order"
            at += 1
        lost = [numbers for numbers, answered in frames[at:] if answered]
        if lost:
            return f"sender {number}: the answered values {lost[0][:3]}.. are lost"
    return None


class Sender(threading.Thread):
    """Sends frames of one item over new connections until it is told to stop. It remembers what was answered."""

    def __init__(self, port, number, begin, chance):
        super().__init__(daemon=True)
        self.port, self.number, self.next, self.chance = port, number, begin, chance
        self.frames, self.stopped = [], threading.Event()

    def run(self):
        while not self.stopped.is_set():
            count = self.chance.choice((1, 1, 2, 10, 250))
            numbers = range(self.next, self.next + count)
            self.next += count
            self.frames.append([numbers, self.send(numbers)])

    def send(self, numbers):
        """Whether the frame was answered with all of its values processed."""
        try:
            with socket.create_connection(("127.0.0.1", self.port), timeout=5) as connection:
                connection.sendall(frame(self.number, numbers))
                reply = b""
                while piece := connection.recv(4096):
                    reply += piece
        except OSError:
            time.sleep(0.002)
            return False
        return len(reply) > 13 and f"processed: {len(numbers)}; failed: 0; total: {len(numbers)};".encode() in reply


class Folder:
    """The folder of a run, with its program."""

    def __init__(self, program, path):
        self.program, self.path, self.journal, self.outbox = program, path, f"{path}/journal", f"{path}/outbox"
        self.sent = [[] for _ in range(SENDERS)]
        self.config = f"{path}/configuration"
        # the groups in whose place a copy stands in the journal
        self.before, self.copies = [], 0
        with open(self.config, "w") as it:
            json.dump(CONFIGURATION, it)
        open(f"{path}/script", "w").close()

    def change(self, chance):
        """Writes the same hosts, items and triggers as another document: in another order, with other spaces."""
        host = CONFIGURATION["hosts"][0]
        items, triggers = (chance.sample(host[part], len(host[part])) for part in ("items", "triggers"))
        with open(self.config, "w") as it:
            json.dump({"hosts": [{**host, "items": items, "triggers": triggers}]}, it)
            it.write(" " * chance.randrange(3))

    def serve(self, *words):
        port = free_port()
        words = ["--mode", "serve", "--config", self.config, "--listen", f"127.0.0.1:{port}", "--journal", self.journal, *words]
        return subprocess.Popen([self.program, *words, "--outbox", self.outbox], stdout=subprocess.PIPE), port

    def restart(self, ended, patience=None, above=0):
        """Does what the service does between a run that ended so and the next one. With patience, what it does before that is
        killed behind so many seconds. Tells what is wrong then, if something is."""
        script = os.path.join(os.path.dirname(os.path.dirname(os.path.abspath(__file__))), "contrib", "checkpoint")
        made = {**os.environ, "EXIT_STATUS": ended, "GIFTELDU_COPY_ABOVE": str(above)}
        subprocess.run([script, "--stopped", self.journal, self.outbox], env=made, check=True)
        if not os.path.exists(self.journal):
            return None
        old = held(self.journal)
        words = [script, self.program, self.journal, self.outbox]
        started = subprocess.Popen(words, env=made, stdout=subprocess.DEVNULL, start_new_session=True)
        try:
            started.wait(patience)
        except subprocess.TimeoutExpired:
            os.killpg(started.pid, signal.SIGKILL)
            started.wait()
        new = held(self.journal)
        if new == old:
            return None
        if held(f"{self.journal}.old") != old:
            return "the journal that was copied isn't kept"
        if kept_in(new) or lines_before(base_in(new)) != len(held(self.outbox)):
            return "the copy has entries, or counts other lines than the outbox has"
        self.before += kept_in(old)
        self.copies += 1
        return None

    def whole(self):
        """All groups that were kept, those in whose place a copy stands among them."""
        return self.before + kept_in(held(self.journal))

    def values(self):
        """The values of all these groups."""
        return values_of(self.whole(), [])

    def replay_whole(self):
        """Opens a journal of all groups with an empty outbox, and gives the printed line and what the outbox has then."""
        with open(f"{self.path}/copy", "wb") as it:
            it.write(journal_of(self.whole()))
        with open(f"{self.path}/again", "wb"):
            pass
        return self.replay(f"{self.path}/copy", f"{self.path}/again")

    def replay(self, journal, outbox):
        """Opens a journal with no event to come, and gives the printed line and what the outbox has then."""
        words = ["--mode", "feed", "--config", self.config, "--script", f"{self.path}/script", "--journal", journal]
        said = subprocess.run([self.program, *words, "--outbox", outbox], stdout=subprocess.PIPE, check=False).stdout.decode()
        return said, held(outbox)

    def check(self):
        """What is wrong after a kill, if something is."""
        if not os.path.exists(self.journal):
            return "answered values, and no journal" if any(answered for frames in self.sent for _, answered in frames) else None
        wrong = check_values(self.values(), self.sent)
        if wrong:
            return wrong
        said, whole = self.replay_whole()
        if not said.startswith("status: Ok"):
            return f"the copy of the journal isn't replayed: {said}"
        left = held(self.outbox) if os.path.exists(self.outbox) else b""
        return None if whole.startswith(left) else "the outbox isn't a front of the replay's lines"

    def end(self):
        """What is wrong once the folder is opened for the last time, if something is."""
        said, lines = self.replay(self.journal, self.outbox)
        again, whole = self.replay_whole()
        if not said.startswith("status: Ok") or (said != again and not self.copies):
            return f"the last opening: {said}, and {again}"
        return None if lines == whole else "the outbox isn't the replay's lines, each once"
