"""The pages for operators: their commands do what they say, and their numbers are what scripts print."""

import os
import re
import shutil
import socket
import stat
import subprocess
import tempfile
import unittest

from common import PROGRAM, TESTS, TOP, held

STAND_IN = f"""#!/bin/sh
exec python3 {TESTS}/sender.py "$@"
"""


WAITS = [
    "set -e",
    "listens() { for _ in $(seq 400); do (: < /dev/tcp/127.0.0.1/$1) 2> /dev/null && return; sleep 0.05; done; }",
    "lines() { for _ in $(seq 400); do [ $(wc -l < outbox) -ge $1 ] && return; sleep 0.05; done; }",
]


def blocks_of(page):
    """The blocks of a page: their language with what stands behind it, and their text."""
    return re.findall(r"^```(\w*)[^\n]*\n(.*?)^```$", page, re.S | re.M)


def free_port():
    with socket.socket() as it:
        it.bind(("127.0.0.1", 0))
        return it.getsockname()[1]


def without_times(text):
    text = re.sub(r"\d{4}([-.])\d\d\1\d\d \d\d:\d\d:\d\d", "TIME", text)
    text = re.sub(r'(?m)^.*"(processed: \d+; failed: \d+); (total: \d+); seconds.*$', r"\1; \2", text)
    return re.sub(r"(?m)^(sent: .*|Response.*)\n", "", text)


class FirstDay(unittest.TestCase):
    """All commands of the page, in one shell and in an empty home, with a sender that is made here where the real one isn't."""

    def test_each_block_prints_what_stands_under_it(self):
        blocks = blocks_of(held(f"{TOP}/docs/FIRST_DAY.md"))
        script, wanted = [], []
        for place, (language, text) in enumerate(blocks):
            if language != "sh":
                continue
            follows = blocks[place + 1] if place + 1 < len(blocks) else ("", "")
            shown = follows[1] if follows[0] == "text" and not follows[1].startswith("contrib/install") else ""
            wanted.append(shown)
            script.append(text + f'echo "@@@ {len(wanted)}"')
        self.assertGreater(len([one for one in wanted if one]), 5)
        with tempfile.TemporaryDirectory() as room:
            home, bin_ = f"{room}/home", f"{room}/bin"
            os.mkdir(home)
            os.mkdir(bin_)
            if not shutil.which("zabbix_sender"):
                with open(f"{bin_}/zabbix_sender", "w", encoding="utf-8") as file:
                    file.write(STAND_IN)
                os.chmod(f"{bin_}/zabbix_sender", stat.S_IRWXU)
            port = str(free_port())
            text = "\n".join(WAITS + script).replace("PROGRAM", PROGRAM).replace("10051", port).replace("> installed", f"> {room}/installed")
            # What a reader waits for by the clock is waited for by itself.
            self.assertEqual((text.count("\nsleep 2\n"), text.count("\nsleep 1\n")), (2, 2))
            text = text.replace("\nsleep 2\n", f"\nlistens {port}\n").replace("\nsleep 1\n", "\nlines 3\n", 1).replace("\nsleep 1\n", "\nlines 5\n", 1)
            environment = {**os.environ, "HOME": home, "PATH": f"{bin_}:{os.environ['PATH']}", "TZ": "UTC", "PYTHONDONTWRITEBYTECODE": "1"}
            ran = subprocess.run(["bash", "-c", text], cwd=TOP, env=environment, capture_output=True, text=True, timeout=100)
            self.assertEqual((ran.returncode, ran.stderr), (0, ""), ran.stdout)
            found = re.split(r"@@@ \d+\n", ran.stdout)[:-1]
            for place, (printed, shown) in enumerate(zip(found, wanted), 1):
                self.assertEqual(without_times(printed), without_times(shown), f"block {place}")
            self.assertEqual(len(found), len(wanted))


class Numbers(unittest.TestCase):
    def test_the_tables_of_bytes_are_those_that_are_printed(self):
        printed = subprocess.run([f"{TOP}/bench/sizing.py", PROGRAM, "--bytes"], capture_output=True, text=True, timeout=60).stdout
        tables = printed.strip().split("\n\n")
        self.assertEqual(len(tables), 2)
        page = held(f"{TOP}/docs/SIZING.md")
        for table in tables:
            self.assertIn("\n\n" + table + "\n\n", page)


class Exits(unittest.TestCase):
    def test_the_page_for_operators_has_each_exit_of_the_formats(self):
        def numbers(page, heading):
            table = held(f"{TOP}/docs/{page}").split(heading)[1].split("\n\n")[0]
            return re.findall(r"(?m)^\| (\d+) \|", table)

        formats = numbers("FORMATS.md", "| exit | printed line | comes |")
        self.assertGreater(len(formats), 15)
        self.assertEqual(numbers("OPERATING.md", "| exit | status | what to do | restart |"), formats)

    def test_the_unit_starts_again_after_those_exits_alone_that_a_restart_may_mend(self):
        table = held(f"{TOP}/docs/OPERATING.md").split("| exit | status | what to do | restart |")[1].split("\n\n")[0]
        rows = [[cell.strip() for cell in line.strip("|").split("|")] for line in table.strip().split("\n")[1:]]
        listed = re.search(r"RestartPreventExitStatus=(.*)", held(f"{TOP}/contrib/gifteldu.service"))[1].split()
        for number, status, what, restart in rows:
            if what.startswith(("alerts: ", "checkpoint: ")):
                self.assertNotIn(number, listed, f"{number} {status}")
            elif number not in ("0", "12"):
                self.assertEqual(restart == "no", number in listed, f"{number} {status}")


class Limits(unittest.TestCase):
    def test_the_limits_of_the_unit_are_those_that_the_page_gives_figures_for(self):
        unit, page = held(f"{TOP}/contrib/gifteldu.service"), held(f"{TOP}/docs/SIZING.md")
        for name in ("LimitNOFILE", "MemoryMax"):
            value = re.search(rf"(?m)^{name}=(\S+)$", unit)[1]
            self.assertIn(f"`{name}={value}`", page)
