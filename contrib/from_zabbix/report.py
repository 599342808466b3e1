"""What can't be carried: a line each with its place and the reason, and their number."""

import sys


class Report:
    def __init__(self, program, out=None):
        self.program, self.out, self.count, self.seen = program, out or sys.stderr, 0, set()

    def lost(self, place, reason):
        """Something isn't in the document, or does something else there."""
        if (place, reason) not in self.seen:
            self.seen.add((place, reason))
            self.count += 1
            print(f"{self.program}: {one_line(place)}: {one_line(reason)}", file=self.out)

    def note(self, place, text):
        """Something is left out that did nothing."""
        print(f"{self.program}: note: {one_line(place)}: {one_line(text)}", file=self.out)

    def end(self):
        print(f"{self.program}: {self.count} not carried", file=self.out)


def one_line(text):
    return text.replace("\\", "\\\\").replace("\r", "\\r").replace("\n", "\\n") if "\n" in text or "\r" in text else text
