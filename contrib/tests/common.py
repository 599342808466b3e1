"""What the tests of contrib share: the program, the scripts, and what a run of either leaves."""

import contextlib
import importlib.machinery
import importlib.util
import io
import json
import os
import subprocess
import sys

TESTS = os.path.dirname(os.path.abspath(__file__))
CONTRIB = os.path.dirname(TESTS)
TOP = os.path.dirname(CONTRIB)
PROGRAM = os.environ.get("OPERATORS_PROGRAM", "")

sys.path.insert(0, CONTRIB)


def script(name):
    """A script of contrib as a module, the same each time."""
    loader = importlib.machinery.SourceFileLoader(name.replace("-", "_") + "_script", f"{CONTRIB}/{name}")
    if loader.name in sys.modules:
        return sys.modules[loader.name]
    module = importlib.util.module_from_spec(importlib.util.spec_from_loader(loader.name, loader))
    sys.modules[loader.name] = module
    loader.exec_module(module)
    return module


def call(name, *words, folder=None, given=b"", environment=None):
    """Exit status, standard output and standard error of a script of contrib, in this process, since a new one takes its time."""
    module = script(name)
    out, errors = io.TextIOWrapper(io.BytesIO(), "utf-8", newline="\n"), io.StringIO()
    before = os.getcwd(), sys.stdin, dict(os.environ)
    os.chdir(folder or before[0])
    sys.stdin = io.TextIOWrapper(io.BytesIO(given), "utf-8")
    os.environ.update(environment or {}, TZ="UTC")
    try:
        with contextlib.redirect_stdout(out), contextlib.redirect_stderr(errors):
            status = module.main([str(word) for word in words])
    except SystemExit as end:
        status = end.code
    finally:
        os.chdir(before[0])
        sys.stdin = before[1]
        os.environ.clear()
        os.environ.update(before[2])
    out.flush()
    return status, out.buffer.getvalue().decode(), errors.getvalue()


def feed(folder, document, script_):
    """The lines of the outbox of a run on this document, and its printed line."""
    with open(f"{folder}/config.json", "w", encoding="utf-8") as file:
        file.write(document if isinstance(document, str) else json.dumps(document))
    with open(f"{folder}/script", "w", encoding="utf-8", newline="\n") as file:
        file.write(script_)
    words = ["--mode", "feed", "--config", "config.json", "--script", "script", "--syncers", "0"]
    ran = subprocess.run([PROGRAM, *words], stdin=subprocess.DEVNULL, capture_output=True, cwd=folder, timeout=60)
    *lines, printed = ran.stdout.decode().splitlines()
    return lines, printed


def held(path):
    with open(path, encoding="utf-8") as file:
        return file.read()
