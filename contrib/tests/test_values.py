"""contrib/values: lines of a sender's file become a script whose run is that of the values."""

import json
import re
import tempfile
import unittest

from common import call, feed, script

PLAIN = {
    "hosts": [
        {
            "name": "h",
            "items": [{"key": "k"}, {"key": "k[1,2]"}, {"key": "w", "value_type": "text"}],
            "triggers": [
                {"name": "hot", "expression": "last(/h/k)>5", "severity": 3},
                {"name": "silent", "expression": "nodata(/h/k,1m)=1", "severity": 2},
                {"name": "text", "expression": 'find(/h/w,#1,"eq","a \\"b\\" \\c")=1', "severity": 1},
            ],
        },
        {"name": "a host", "items": [{"key": "k"}]},
    ],
    "actions": [{"name": "act", "step_duration": "60s", "operations": [{"from": 1, "to": 0, "recipients": ["r"], "subject": "s", "body": "b"}]}],
}


def values(text, *words):
    status, out, told = call("values", "-", *words, given=text if isinstance(text, bytes) else text.encode())
    return status, out, told.splitlines()


def elements(text):
    """The values of all frames with the moments at which they come."""
    found = []
    for line in text.splitlines():
        moment, kind, *rest = line.split(" ", 3)
        if kind == "frame":
            found += [(moment, one) for one in json.loads(rest[1])["data"]]
    return found


class Lines(unittest.TestCase):
    def test_words_and_quotes(self):
        for line, wanted in (
            ("h k 1", ("h", "k", "1")),
            ("  h\tk   1", ("h", "k", "1")),
            ('"a host" "k[1,2]" "a \\"b\\" \\\\c\\nd"', ("a host", "k[1,2]", 'a "b" \\c\nd')),
            ('h k ""', ("h", "k", "")),
            ("- k 1", ("given", "k", "1")),
            ('h k a\\b"c"', ("h", "k", 'a\\b"c"')),
            ("h k é  ", ("h", "k", "é")),
        ):
            status, out, told = values(line + "\n", "--host", "given", "--start", "100")
            self.assertEqual((status, told), (0, ["values: 1 values, 0 lines left out"]), line)
            ((moment, one),) = elements(out)
            self.assertEqual((one["host"], one["key"], one["value"]), wanted, line)
            self.assertEqual((moment, set(one)), ("100.000000000", {"host", "key", "value"}), line)

    def test_what_is_no_line_is_told_and_left_out(self):
        for line, words, reason in (
            ("", [], "it has no host"),
            ("h", [], "it has no key"),
            ("h k", [], "it has no value"),
            ('"" k 1', [], "it has no host"),
            ("- k 1", [], "its host is -, and --host isn't given"),
            ("h k 1 2", [], "more stands behind its value; a value with blanks stands in quotes"),
            ('h "k 1', [], "the quote of its key isn't closed"),
            ('h "k"1 1', [], "something stands right behind the quote of its key"),
            ("h k 1", ["-T"], "it has no value"),
            ("h k x 1", ["-T"], "its time stamp x isn't a whole number up to 4294967295"),
            ("h k 4294967296 1", ["-T"], "its time stamp 4294967296 isn't a whole number up to 4294967295"),
            ("h k 5 1000000000 1", ["-N"], "its number of nanoseconds 1000000000 isn't a whole number up to 999999999"),
            (b"h k \xff", [], "it isn't UTF-8, which would fail all values of its frame"),
        ):
            good = {"-T": b"h k 7 1\n", "-N": b"h k 7 0 1\n"}.get("".join(words), b"h k 1\n")
            text = good + (line if isinstance(line, bytes) else line.encode()) + b"\n" + good
            status, out, told = values(text, *words)
            self.assertEqual(status, 0)
            self.assertEqual(told, [f"values: line 2: {reason}", "values: 2 values, 1 lines left out"])
            self.assertEqual(len(elements(out)), 2)
            self.assertEqual(values(text, *words, "--strict")[:2], (1, ""))

    def test_a_file_that_is_not_there(self):
        self.assertEqual(call("values", "/nowhere/values")[0], 2)


class Moments(unittest.TestCase):
    def test_without_time_stamps_250_come_in_each_second(self):
        status, out, told = values("".join(f"h k {at}\n" for at in range(501)), "--start", "1000")
        found = elements(out)
        self.assertEqual([one["value"] for _, one in found], [str(at) for at in range(501)])
        self.assertEqual([found[at][0] for at in (0, 249, 250, 500)], ["1000.000000000"] * 2 + ["1001.000000000", "1002.000000000"])
        self.assertEqual(out.count(" frame "), 3)
        self.assertEqual(out.splitlines()[-1], "1002.000000000 closed")

    def test_of_one_moment_250_are_a_frame(self):
        out = values("".join(f"h k 70 {at}\n" for at in range(510)), "-T")[1]
        counts = [line.count('"host"') for line in out.splitlines() if " frame " in line]
        self.assertEqual((counts, [one["value"] for _, one in elements(out)]), ([250, 250, 10], [str(at) for at in range(510)]))

    def test_with_time_stamps_each_comes_at_its_time(self):
        text = "h k 130 5 1\nh k 100 0 2\nh k 100 0 3\nh k 100 7 4\n"
        found = elements(values(text, "-N")[1])
        self.assertEqual([(moment, one["value"]) for moment, one in found], [("100.000000000", "2"), ("100.000000000", "3"), ("100.000000007", "4"), ("130.000000005", "1")])
        self.assertEqual([(one["clock"], one["ns"]) for _, one in found], [(100, 0), (100, 0), (100, 7), (130, 5)])
        kept = elements(values(text, "-N", "--keep-order")[1])
        self.assertEqual([(moment, one["value"]) for moment, one in kept], [("130.000000005", value) for value in "1234"])
        self.assertEqual([one["clock"] for _, one in kept], [130, 100, 100, 100])

    def test_each_half_minute_between_has_a_quiet_line(self):
        lines = values("h k 29 1\nh k 95 1\nh k 120 1\n", "-T", "--then", "1m")[1]
        self.assertEqual([line for line in lines.splitlines() if line.endswith("quiet")], [f"{at}.000000000 quiet" for at in (30, 60, 90, 150, 180)])
        self.assertEqual(lines.splitlines()[-1], "180.000000000 closed")
        moments = [tuple(map(int, line.split(" ")[0].split("."))) for line in lines.splitlines()]
        self.assertEqual(moments, sorted(moments))

    def test_a_frame_is_within_its_size(self):
        module = script("values")
        self.assertEqual(module.LARGEST, 16_777_216)
        module.LARGEST = 10_000
        try:
            out = values("".join(f'h w "{"é" * size}"\n' for size in range(1, 261)), "--start", "100")[1]
        finally:
            module.LARGEST = 16_777_216
        sizes = [len(line.split(" ", 3)[3].encode()) for line in out.splitlines() if " frame " in line]
        self.assertEqual(len(elements(out)), 260)
        self.assertTrue(9_000 < max(sizes) <= 10_000, sizes)


class Replayed(unittest.TestCase):
    def test_the_problems_that_would_come(self):
        text = 'h k 1000 1\nh k 1010 7\nh k 1020 2\nh w 1030 "a \\"b\\" \\\\c"\n"a host" k 1031 1\nh "k[1,2]" 1032 3\nnobody k 1033 1\n'
        with tempfile.TemporaryDirectory() as room:
            lines, printed = feed(room, PLAIN, values(text, "-T", "--then", "2m")[1])
        self.assertTrue(printed.startswith("status: Ok; entries: 13; problems: 3; recoveries: 1; "), printed)
        opened = [line.split("|")[2:] for line in lines if line.startswith("P|")]
        self.assertEqual([(one[0], one[-1]) for one in opened], [("1010.000000000", "hot"), ("1030.000000000", "text"), ("1080.000000000", "silent")])
        self.assertEqual([line.split("|")[3] for line in lines if line.startswith("R|")], ["1020.000000000"])
        steps = [line.split("|")[4] for line in lines if line.startswith("S|") and "-3|" in line]
        self.assertEqual(steps, ["1030.000000000", "1110.000000000"])

    def test_without_quiet_lines_nothing_would_be_silent(self):
        without = re.sub(".* quiet\n", "", values("h k 1000 1\nh w 1200 x\n", "-T")[1])
        with tempfile.TemporaryDirectory() as room:
            later = feed(room, PLAIN, without)[0]
            there = feed(room, PLAIN, values("h k 1000 1\nh w 1200 x\n", "-T")[1])[0]
        self.assertEqual([line.split("|")[2] for line in later if line.startswith("P|")], ["1200.000000000"])
        self.assertEqual([line.split("|")[2] for line in there if line.startswith("P|")], ["1080.000000000"])
