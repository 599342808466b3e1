"""Paths into JSON texts, by the grammar of docs/FORMATS.md: whether a text is one.

path = "$" { seg } [ "." fn "()" ]
seg  = "." name | ".*" | ".." name | "..*" | [ ".." ] "[" sel "]"
sel  = quoted { "," quoted } | int { "," int } | [int] ":" [int] | "*" | "?(" cond ")"
cond = "@" { "." name | "[" quoted "]" } op literal
"""

import re

FUNCTIONS = ("length", "first", "min", "max", "sum", "avg")
NAME = r"[A-Za-z0-9_\-\x80-\U0010ffff]+"
QUOTED = r"'(?:[^'\\]|\\.)*'|\"(?:[^\"\\]|\\.)*\""
INT = r"-?[0-9]+"
JSON_NUMBER = r"-?(?:0|[1-9][0-9]*)(?:\.[0-9]+)?(?:[eE][+-]?[0-9]+)?"
CONDITION = rf"\?\( *@(?: *(?:\. *(?:{NAME})|\[ *(?:{QUOTED}) *\]))* *(?:==|!=|<=|>=|<|>) *(?:{QUOTED}|{JSON_NUMBER}) *\)"
SELECTOR = rf"(?:{QUOTED})(?: *, *(?:{QUOTED}))*|{INT}(?: *, *{INT})*|(?:{INT})? *: *(?:{INT})?|\*|{CONDITION}"
SEGMENT = re.compile(rf"\.\.(?:{NAME}|\*)|\.(?:{NAME}(?!\(\))|\*)|(?:\.\.)?\[ *(?:{SELECTOR}) *\]", re.S)
FUNCTION = re.compile(rf"\.({'|'.join(FUNCTIONS)})\(\)\Z")


def end(path):
    """How many characters from the front on are segments, behind the dollar; a last function counts."""
    if not path.startswith("$"):
        return 0
    at = 1
    while True:
        if FUNCTION.match(path, at):
            return len(path)
        segment = SEGMENT.match(path, at)
        if not segment or not is_within(segment[0]):
            return at
        at = segment.end()


def is_within(segment):
    """The whole numbers of a segment have 64 bits."""
    bare = "" if "?(" in segment else re.sub(QUOTED, "", segment[segment.find("[") :], flags=re.S) if "[" in segment else ""
    return all(-(2**63) <= int(number) < 2**63 for number in re.findall(INT, bare))


def flaw(path):
    """Why a text is no path, or None."""
    at = end(path)
    return None if path and at == len(path) else f"the JSONPath goes on at {path[at:]!r} with what isn't here"
