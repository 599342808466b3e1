"""Texts of a configuration: numbers, periods, names, keys, user macros and patterns, by the rules of docs/FORMATS.md."""

import re

BLANKS = " \t\r\n"
MILLION = 10**6
GREATEST = 10**30  # in millionths
SECONDS = {"": 1, "s": 1, "m": 60, "h": 3600, "d": 86400, "w": 604800}
FACTORS = {**SECONDS, "K": 1024, "M": 1024**2, "G": 1024**3, "T": 1024**4}

NUMBER = re.compile(r"([+-]?)([0-9]*)(?:(\.)([0-9]*))?(?:[eE]([+-]?[0-9]{1,3}))?\Z", re.A)
PERIOD = re.compile(r"([0-9]+)([smhdw]?)\Z", re.A)
HOST = re.compile(r"[A-Za-z0-9 _.-]{1,128}\Z", re.A)
MACRO_NAME = re.compile(r"\{\$[A-Z0-9_.]+\}\Z", re.A)
REFERENCE = re.compile(r"\{\$([A-Z0-9_.]+)\}", re.A)
CONTEXT = re.compile(r"\{\$[A-Z0-9_.]+:[^}]*\}", re.A)

# What a pattern of PCRE may have and one of the program's may not.
FOREIGN = [
    (re.compile(r"\(\?(?:=|!|<=|<!)"), "looks ahead or behind"),
    (re.compile(r"\(\?>|[*+?}]\+"), "holds on to what it matched"),
    (re.compile(r"\\[0-9]|\\g|\\k|\(\?P=|\(\?R\)|\(\?[0-9]|\(\?&"), "refers back to a group"),
    (re.compile(r"\(\?\||\(\?#|\(\?\(|\(\*"), "has a form of PCRE alone"),
    (re.compile(r"\\[GKRXZCNhHVQE]"), "has an escape of PCRE alone"),
]


def number(text):
    """The millionths that a number text stands for, or None."""
    match = NUMBER.match(text)
    if not match or not (match[2] or match[4]):
        return None
    digits, point = match[2] + (match[4] or ""), len(match[4] or "")
    shift = int(match[5] or 0) - point + 6
    raw = int(digits) * 10**shift if shift >= 0 else int(digits) // 10**-shift
    return None if raw > GREATEST else -raw if match[1] == "-" else raw


def suffixed(text):
    """The millionths of a number text behind which a suffix may stand, or None."""
    factor = FACTORS.get(text[-1:], 1) if text[-1:].isalpha() else 1
    raw = number(text[:-1] if factor > 1 or text[-1:] == "s" else text)
    return None if raw is None or abs(raw * factor) > GREATEST else raw * factor


def period(text):
    """The seconds of a period text, or None."""
    match = PERIOD.match(text)
    return int(match[1]) * SECONDS[match[2]] if match else None


def is_name(text):
    return 1 <= len(text.encode()) <= 255


def key_end(text, at=0):
    """Where the longest key ends that begins there, or `at` where none does. Text is bytes."""
    end = at
    while end < len(text) and text[end : end + 1] in NAME_BYTES:
        end += 1
    if end == at or text[end : end + 1] != b"[":
        return min(end, at + 2048)
    behind = parameters_end(text, end + 1, 0)
    return behind if behind is not None and behind - at <= 2048 else min(end, at + 2048)


NAME_BYTES = {bytes([byte]) for byte in b"abcdefghijklmnopqrstuvwxyzABCDEFGHIJKLMNOPQRSTUVWXYZ0123456789_-."}


def parameters_end(text, at, depth):
    """Where the list of parameters ends whose opening bracket stands before `at`, or None."""
    while True:
        while text[at : at + 1] == b" ":
            at += 1
        first = text[at : at + 1]
        if first == b'"':
            at += 1
            while at < len(text) and (text[at : at + 1] != b'"' or text[at - 1 : at] == b"\\"):
                at += 1
            if at >= len(text):
                return None
            at += 1
            while text[at : at + 1] == b" ":
                at += 1
        elif first == b"[":
            at = None if depth else parameters_end(text, at + 1, 1)
            if at is None:
                return None
        else:
            while at < len(text) and text[at : at + 1] not in (b",", b"]"):
                at += 1
        end = text[at : at + 1]
        if end == b"]":
            return at + 1
        if end != b",":
            return None
        at += 1


def is_key(text):
    bytes_ = text.encode()
    return 0 < len(bytes_) and key_end(bytes_) == len(bytes_)


def expanded(text, macros):
    """The text with each reference to a macro replaced that has a value; a value isn't looked through again."""
    return REFERENCE.sub(lambda match: macros.get(match[0], match[0]), text) if "{$" in text else text


def macro_flaw(text):
    """Why a text's user macros can't be carried, or None."""
    context = CONTEXT.search(text)
    return f"the macro {context[0]} has a context" if context else None


COUNT = re.compile(r"\{[0-9]+(?:,[0-9]*)?\}", re.A)
POSIX = re.compile(r"\[:\^?[a-z]+:\]")


def mark_flaw(text):
    """What stands for itself with PCRE, and not in the program's patterns: a brace that counts nothing, and in a class a bracket or a
    sign twice."""
    at, in_class = 0, False
    while at < len(text):
        if text[at] == "\\":
            at += 1
            if in_class and text[at : at + 1] == "b":
                return "has a backspace in a class"
            if text[at : at + 2] in ("p{", "P{", "x{"):
                at = max(at, text.find("}", at))
        elif in_class and POSIX.match(text, at):
            at = POSIX.match(text, at).end() - 1
        elif in_class and (text[at] == "[" or text[at : at + 2] in ("&&", "--", "~~")):
            return f"has {text[at]} in a class, which is written with a backslash here"
        elif text[at] == "[":
            in_class = True
            at += text[at + 1 : at + 2] == "^"
            at += text[at + 1 : at + 2] == "]"
        elif text[at] == "]":
            in_class = False
        elif not in_class and text[at] == "{" and not COUNT.match(text, at):
            return "has a brace that counts nothing, which is written with a backslash here"
        at += 1
    return None


def pattern_flaw(text, ahead=0):
    """Why a text is no pattern for the program, or None, as far as can be seen. So many bytes more stand before it."""
    if not 1 <= len(text.encode()) + ahead <= 255:
        return "a pattern has 1 to 255 bytes"
    if text.startswith("@"):
        return f"the global regular expression {text} isn't here: write its pattern"
    plain = re.sub(r"\\[\\\[\](){}*+?.|^$/-]", "\\\\.", text)
    for form, reason in FOREIGN:
        if form.search(plain):
            return f"the pattern {text} {reason}, which the program's patterns can't"
    if mark_flaw(text):
        return f"the pattern {text} {mark_flaw(text)}"
    try:
        re.compile(re.sub(r"\\([pP])(\{[^}]*\}|\w)|\\z|\[\[:\^?\w+:\]", ".", re.sub(r"\(\?<(\w)", r"(?P<\1", text)))
    except (re.error, OverflowError) as error:
        if "flags" not in str(error) and "multiple repeat" not in str(error):
            return f"the pattern {text} isn't one: {error}"
    return None
