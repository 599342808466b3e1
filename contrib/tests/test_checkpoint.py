"""Tests of contrib/checkpoint, with a program that stands for the real one: what it copies, when, and what it leaves."""

import os
import subprocess
import tempfile
import unittest

CHECKPOINT = os.path.join(os.path.dirname(os.path.dirname(os.path.abspath(__file__))), "checkpoint")

# It copies into the file behind --into, prints PRINTED and exits with STATUS.
PROGRAM = """#!/bin/sh
printf copied > "$6"
echo "$PRINTED"
exit "$STATUS"
"""


class Checkpoint(unittest.TestCase):
    def setUp(self):
        self.folder = tempfile.TemporaryDirectory()
        self.put("program", PROGRAM)
        os.chmod(self.at("program"), 0o755)
        self.put("journal", "entries")
        self.put("outbox", "lines")

    def tearDown(self):
        self.folder.cleanup()

    def at(self, name):
        return os.path.join(self.folder.name, name)

    def put(self, name, text):
        with open(self.at(name), "w", encoding="utf-8") as file:
            file.write(text)

    def held(self, name):
        with open(self.at(name), encoding="utf-8") as file:
            return file.read()

    def call(self, *words, **variables):
        made = {**os.environ, "PRINTED": "status: Ok; number: 3; lines: 5", "STATUS": "0", **variables}
        ran = subprocess.run([CHECKPOINT, *words], env=made, capture_output=True, text=True, check=True)
        return ran.stdout

    def stop(self, status):
        self.call("--stopped", self.at("journal"), self.at("outbox"), EXIT_STATUS=status)

    def start(self, **variables):
        return self.call(self.at("program"), self.at("journal"), self.at("outbox"), **variables)

    def test_a_full_journal_is_copied_once(self):
        self.stop("14")
        self.assertIn("begins with its state", self.start())
        self.assertEqual(self.held("journal"), "copied")
        self.assertEqual(self.held("journal.old"), "entries")
        self.put("journal", "entries")
        self.stop("0")
        self.assertEqual(self.start(), "")
        self.assertEqual(self.held("journal"), "entries")

    def test_a_large_journal_is_copied(self):
        self.stop("TERM")
        self.assertIn("begins with its state", self.start(GIFTELDU_COPY_ABOVE="6"))
        self.stop("TERM")
        self.assertEqual(self.start(GIFTELDU_COPY_ABOVE="6"), "")

    def test_nothing_is_copied_behind_a_stop_that_was_not_seen(self):
        self.stop("14")
        self.assertIn("as it was", self.start(STATUS="16", PRINTED="status: OutOfMemory"))
        self.assertEqual(self.start(), "")
        self.assertEqual(self.held("journal"), "entries")
        self.stop("0")
        self.assertIn("begins with its state", self.start())

    def test_an_outbox_without_all_lines_keeps_the_journal(self):
        self.stop("14")
        self.put("outbox", "line")
        self.assertIn("4 bytes in place of 5", self.start())
        self.assertEqual(self.held("journal"), "entries")
        self.assertFalse(os.path.exists(self.at("journal.copy")))

    def test_what_was_cut_off_is_taken_away(self):
        self.put("journal.copy", "some")
        self.assertEqual(self.start(), "")
        self.assertFalse(os.path.exists(self.at("journal.copy")))

    def test_other_words(self):
        ran = subprocess.run([CHECKPOINT, "journal"], capture_output=True, text=True, check=False)
        self.assertEqual((ran.returncode, ran.stdout), (2, ""))
        self.assertIn("GIFTELDU_COPY_ABOVE", self.call("--help"))


if __name__ == "__main__":
    unittest.main()
