"""contrib/problems: what it calls open is what the records say, however a file is cut into pieces and parts."""

import glob
import json
import os
import random
import signal
import subprocess
import tempfile
import time
import unittest

from common import CONTRIB, TOP, call, held, script

problems = script("problems")
OUTPUTS = sorted(glob.glob(f"{TOP}/samples/*/output"))
SHOP = f"{TOP}/samples/web_shop/output"


def fields_of(line):
    """The fields of a record, one character after the other."""
    fields, at, plain = [""], 0, {"n": "\n", "r": "\r", "|": "|", "\\": "\\"}
    while at < len(line):
        if line[at] == "\\":
            fields[-1] += plain[line[at + 1]]
            at += 1
        elif line[at] == "|":
            fields.append("")
        else:
            fields[-1] += line[at]
        at += 1
    return fields


def replayed(text):
    """What the records say, read one after the other: all problems with their ends and steps, in the order of making."""
    found = {}
    for kind, event, *rest in (fields_of(line) for line in text.split("\n")[:-1] if not line.startswith("status: ")):
        if kind == "P":
            tags = [{"tag": tag, "value": value} for tag, value in zip(rest[6::2], rest[7::2])]
            names = {"severity": int(rest[1]), "suppressed": rest[2] == "1", "host": rest[3], "trigger": rest[4], "name": rest[5]}
            found[event] = {"event": event, "since": rest[0], **names, "tags": tags, "steps": {}}
        elif kind == "R":
            found[event].update(ended=rest[1], ended_by_entry=int(rest[0]), cause={"e": "expression", "c": "correlation", "r": "removed"}[rest[2]])
        elif kind == "S":
            found[event]["steps"][rest[0]] = (int(rest[1]), rest[2])
    return list(found.values())


def called(text, *words):
    """Exit status, standard output and standard error of the script on an outbox with this text."""
    with tempfile.NamedTemporaryFile() as file:
        file.write(text if isinstance(text, bytes) else text.encode())
        file.flush()
        return call("problems", file.name, *words)


def told(text, *words):
    status, out, errors = called(text, "--json", *words)
    return status, [json.loads(line) for line in out.splitlines()], errors


def comparable(problem):
    problem = dict(problem, steps={one["action"]: (one["step"], one["at"]) for one in problem["steps"]})
    problem.pop("lasted", None)
    return problem


def made_up(seed, count):
    """An outbox of so many problems with steps, messages, failures and recoveries; texts have bars, backslashes and line feeds."""
    chance, open_, lines, entry = random.Random(seed), [], [], 3
    texts = ["plain", "a\\|b", "c\\\\", "\\n", "é ü", "R\\|3-1\\|4", "x\\nP\\|9-9"]
    for number in range(count):
        entry += chance.randrange(1, 4)
        event, moment = f"{entry}-{number}", f"{1000 + entry}.{chance.randrange(10**9):09}"
        tags = "".join(f"|{chance.choice(texts)}|{chance.choice(texts)}" for _ in range(chance.randrange(3)))
        lines.append(f"P|{event}|{moment}|{number % 6}|{number % 2}|h{number % 7}|t|{chance.choice(texts)}{tags}")
        open_.append((event, [1, 1]))
        for event, steps in chance.sample(open_, min(len(open_), 2)):
            action = chance.randrange(2)
            lines.append(f"S|{event}|{texts[action + 1]}|{steps[action]}|{moment}")
            lines.append(f"M|{event}|{texts[action + 1]}|{steps[action]}|ops|{chance.choice(texts)}|{chance.choice(texts)}")
            steps[action] += 1
        if chance.random() < 0.2:
            lines.append(f"F|{entry}|h|k|{chance.choice(texts)}")
        while open_ and chance.random() < 0.47:
            event, _ = open_.pop(chance.randrange(len(open_)))
            lines.append(f"R|{event}|{entry}|{moment}|{chance.choice('ecr')}")
    return "\n".join(lines) + "\n"


class WorkedRows(unittest.TestCase):
    def test_open_problems_are_as_many_as_the_program_counts(self):
        looked = 0
        for path in OUTPUTS:
            text = held(path)
            printed = text.splitlines()[-1]
            status, found, errors = told(text, "--check")
            self.assertEqual((status, errors), (0, ""), path)
            if printed.startswith("status: Ok; "):
                counts = dict(one.split(": ") for one in printed.split("; "))
                self.assertEqual(len(found), int(counts["problems"]) - int(counts["recoveries"]), path)
                looked += int(counts["problems"])
        self.assertGreater(looked, 100)

    def test_it_says_what_the_records_say(self):
        for path in OUTPUTS:
            wanted = replayed(held(path))[::-1]
            found = [comparable(one) for one in told(held(path), "--all")[1]]
            self.assertEqual(found, wanted, path)
            found = [comparable(one) for one in told(held(path))[1]]
            self.assertEqual(found, [one for one in wanted if "ended" not in one], path)


class Here:
    """A pool that does what it is given at once."""

    def submit(self, look, *words):
        done = look(*words)
        return type("Done", (), {"result": lambda _: done})()


class Pieces(unittest.TestCase):
    def look(self, path, count, piece):
        """The open problems, with the file cut into so many parts, and these into pieces of so many bytes."""
        before = problems.PIECE, problems.SMALL
        problems.PIECE, problems.SMALL = piece, 0
        try:
            found = problems.looked_at(Here(), count, path, problems.last_end(path, os.path.getsize(path)), False, False)
        finally:
            problems.PIECE, problems.SMALL = before
        return [comparable(one) for one in problems.problems_of(found, -1)]

    def test_pieces_and_parts_of_any_size_come_to_the_same(self):
        for seed in range(4):
            text = made_up(seed, 30)
            wanted = [one for one in replayed(text)[::-1] if "ended" not in one]
            self.assertGreater(len(wanted), 0)
            with tempfile.TemporaryDirectory() as room:
                path = f"{room}/outbox"
                with open(path, "wb") as file:
                    file.write(text.encode() + b"P|9999-1|1.000000000|3|0|h|t|half")
                for count in (1, 2, 3, 7):
                    for piece in (7, 64, 1000, 1 << 20):
                        self.assertEqual(self.look(path, count, piece), wanted, f"seed {seed}, {count} parts, pieces of {piece}")

    def test_a_large_file_is_read_by_several_processes(self):
        text = made_up(99, 1000)
        wanted = [one for one in replayed(text)[::-1] if "ended" not in one]
        small = problems.SMALL
        problems.SMALL = 1000
        try:
            with tempfile.TemporaryDirectory() as room:
                with open(f"{room}/outbox", "w", encoding="utf-8", newline="\n") as file:
                    file.write(text)
                found = problems.look_at_all(f"{room}/outbox", len(text.encode()), False, True)
        finally:
            problems.SMALL = small
        self.assertEqual([comparable(one) for one in problems.problems_of(found, -1)], wanted)
        self.assertEqual(found.bad, 0)


class Shown(unittest.TestCase):
    def table(self, text, *words):
        return called(text, "--utc", *words)[1]

    def test_a_table_of_open_problems(self):
        text = (
            "P|3-1|120.000000000|3|0|h|hot|hot\nP|4-2|93784.500000000|5|1|db|t|down\\|x|svc|a|b|\n"
            "S|3-1|act|1|120.000000000\nM|3-1|act|1|ops|s|b\nS|3-1|act|2|180.000000000\nS|3-1|on|7|190.000000000\nF|5|h|k|e\n"
        )
        wanted = [
            "since                severity  host  name    tags      suppressed  steps",
            "1970-01-02 02:03:04  Disaster  db    down|x  svc:a, b  yes",
            "1970-01-01 00:02:00  Average   h     hot               no          act 2, on 7",
            "2 open",
        ]
        self.assertEqual(self.table(text).splitlines(), wanted)
        newest = self.table(text, "--limit", "1").splitlines()
        self.assertEqual((newest[1], newest[2]), (wanted[1], "1 open"))

    def test_how_long_the_others_lasted(self):
        text = "P|3-1|120.000000000|3|0|h|hot|hot\nR|3-1|9|93784.500000000|c\nP|10-1|93785.000000000|3|0|h|hot|hot\n"
        lines = self.table(text, "--all").splitlines()
        self.assertTrue(lines[1].endswith("open"), lines)
        self.assertTrue(lines[2].endswith("1970-01-02 02:03:04  correlation  1 d 02:01:04"), lines)
        self.assertEqual(lines[3], "2 problems")
        status, found, errors = told(text, "--all")
        self.assertEqual(found[1]["lasted"], "93664.500000000")

    def test_an_empty_outbox(self):
        self.assertEqual(self.table("").splitlines()[-1], "0 open")
        self.assertEqual(told("P|3-1|120.0000")[:2], (0, []))

    def test_texts_of_senders_steer_no_terminal(self):
        text = "P|3-1|120.000000000|3|0|h|t|\x1b[2Jhot \x07\u009b\n"
        self.assertIn("\\x1b[2Jhot \\x07\\x9b", self.table(text))
        self.assertNotIn("\x1b", self.table(text))


class Flaws(unittest.TestCase):
    LINES = b"P|3-1|120.000000000|3|0|h|hot|hot\n"

    def test_zero_bytes_are_told(self):
        self.assertEqual(told(self.LINES.replace(b"120.0", b"120."))[2], "problems: 1 lines are no records\n")
        status, found, errors = told(self.LINES + b"\0" * 40 + b"\n" + b"R|3-1|4|130.000000000|e\n")
        self.assertEqual((status, found), (1, []))
        self.assertEqual(errors, "problems: 1 lines are no records, the first at byte 34\n")

    def test_zero_bytes_behind_the_last_line_are_told(self):
        status, found, errors = told(self.LINES + b"R|3-1|4|13" + b"\0" * 40)
        self.assertEqual((status, len(found)), (1, 1))
        self.assertEqual(errors, "problems: 1 lines are no records, the first at byte 34\n")
        self.assertEqual(told(self.LINES + b"R|3-1|4|13")[::2], (0, ""))

    def test_each_line_is_looked_at_where_that_is_asked(self):
        for line in (b"hello", b"P|4-1|1.0|3|0|h|t|n", b"P|4-1|1.000000000|6|0|h|t|n", b"R|3-1|4|130.000000000|x", b"S|3-1|a|x|1.000000000", b"P|4-1|1.000000000|3|0|h|t|n|tag", b"M|3-1|a|1|r|s|b\\x"):
            status, found, errors = told(self.LINES + line + b"\n" + self.LINES.replace(b"3-1", b"9-1"), "--check")
            self.assertEqual((status, errors), (1, "problems: 1 lines are no records, the first at byte 34\n"), line)
            ends = [] if line.startswith(b"R") else ["3-1"]
            self.assertEqual([one["event"] for one in found], ["9-1", *ends], line)

    def test_a_file_that_is_not_there(self):
        self.assertEqual(call("problems", "/nowhere/outbox")[0], 2)


class Following(unittest.TestCase):
    def setUp(self):
        self.shown = None

        def give_up(*_):
            self.shown.kill()
            raise AssertionError("nothing more is shown")

        signal.signal(signal.SIGALRM, give_up)
        signal.alarm(20)

    def tearDown(self):
        signal.alarm(0)

    def test_what_comes_is_shown_as_its_lines_come(self):
        text = held(SHOP)
        lines = text.splitlines(keepends=True)[:-1]
        cut = len("".join(lines[:10])) + 5
        with tempfile.TemporaryDirectory() as room:
            path = f"{room}/outbox"
            with open(path, "w", encoding="utf-8", newline="\n") as file:
                file.write("".join(lines)[:cut])
                file.flush()
                with subprocess.Popen([f"{CONTRIB}/problems", path, "--follow", "--json"], stdout=subprocess.PIPE, text=True) as shown:
                    self.shown = shown
                    begun = replayed("".join(lines[:10]))
                    found = [json.loads(shown.stdout.readline()) for one in begun if "ended" not in one]
                    self.assertEqual([one["event"] for one in found], [one["event"] for one in begun if "ended" not in one][::-1])
                    whole, at, happened = "".join(lines), cut, []
                    wanted = [line for line in lines[10:] if line[0] in "PRS"]
                    for step in (1, 30, 1, 500, len(whole)):
                        file.write(whole[at : at + step])
                        file.flush()
                        at += step
                        time.sleep(0.02)
                    while len(happened) < len(wanted):
                        happened.append(json.loads(shown.stdout.readline()))
                    # The outbox is moved away, and another one begins.
                    os.rename(path, f"{path}.old")
                    with open(path, "w", encoding="utf-8", newline="\n") as another:
                        another.write(whole + whole)
                    again = json.loads(shown.stdout.readline())
                    shown.terminate()
        kinds = {"P": "problem", "R": "recovery", "S": "step"}
        self.assertEqual([(one["kind"], one["event"]) for one in happened], [(kinds[line[0]], line.split("|")[1]) for line in wanted])
        ended = [one for one in happened if one["kind"] == "recovery"]
        lasted = {one["event"]: one["lasted"] for one in told(text, "--all")[1] if "ended" in one}
        self.assertEqual({one["event"]: one["lasted"] for one in ended}, {one["event"]: lasted[one["event"]] for one in ended})
        self.assertTrue(all(one["host"] and one["name"] for one in happened))
        self.assertEqual((again["kind"], again["event"]), ("problem", lines[1].split("|")[1]))
