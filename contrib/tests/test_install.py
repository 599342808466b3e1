"""contrib/install: what it puts down, that it works there, and that it can be taken away again."""

import json
import os
import shutil
import stat
import subprocess
import tempfile
import unittest

from common import CONTRIB, PROGRAM, TESTS, TOP, call, held


def tree(folder):
    """All below a folder, with modes and contents."""
    found = {}
    for at, folders, files in os.walk(folder):
        for name in folders + files:
            path = os.path.join(at, name)
            mode = os.lstat(path).st_mode
            content = os.readlink(path) if stat.S_ISLNK(mode) else "" if stat.S_ISDIR(mode) else open(path, "rb").read()
            found[os.path.relpath(path, folder)] = (mode, content)
    return found


class Installing(unittest.TestCase):
    def setUp(self):
        self.room = tempfile.TemporaryDirectory()
        self.program = f"{self.room.name}/built"
        shutil.copy(shutil.which("true"), self.program)
        self.prefix = f"{self.room.name}/opt/gifteldu"

    def tearDown(self):
        self.room.cleanup()

    def install(self, *words):
        return call("install", *words, "--prefix", self.prefix)

    def test_what_is_there_and_that_it_goes_again(self):
        before = tree(self.room.name)
        status, out, told = self.install(self.program)
        self.assertEqual((status, told), (0, ""))
        made = [line[len("install: made ") :] for line in out.splitlines() if line.startswith("install: made ")]
        there = {f"{self.room.name}/{path}" for path, (mode, _) in tree(self.room.name).items() if not stat.S_ISDIR(mode)} - {self.program}
        record = f"{self.prefix}/lib/gifteldu/installed.json"
        self.assertEqual(set(made), there - {record} | {f"{self.prefix}/var/lib/gifteldu"})
        self.assertEqual(stat.S_IMODE(os.stat(f"{self.prefix}/var/lib/gifteldu").st_mode), 0o700)
        self.assertEqual(open(f"{self.prefix}/bin/gifteldu", "rb").read(), open(self.program, "rb").read())
        self.assertTrue(os.access(f"{self.prefix}/bin/gifteldu", os.X_OK))
        status, out, told = self.install("--remove")
        self.assertEqual((status, told), (0, ""))
        self.assertEqual(tree(self.room.name), before)

    def test_nothing_has_a_name_of_the_real_server(self):
        self.install(self.program)
        names = os.listdir(f"{self.prefix}/bin")
        self.assertEqual(len(names), 6)
        self.assertTrue(all(name.startswith("gifteldu") for name in names), names)

    def test_the_tools_work_where_they_are(self):
        self.install(self.program)
        export = f"{TESTS}/export/case-00/export.json"
        ran = subprocess.run([f"{self.prefix}/bin/gifteldu-from-zabbix", export, "--strict"], capture_output=True, text=True)
        self.assertEqual((ran.returncode, json.loads(ran.stdout)["hosts"][0]["name"]), (0, "h"))
        ran = subprocess.run([f"{self.prefix}/bin/gifteldu-values", "-"], input="h k 1\n", capture_output=True, text=True)
        self.assertEqual((ran.returncode, "frame 1" in ran.stdout), (0, True))
        ran = subprocess.run([f"{self.prefix}/bin/gifteldu-problems", f"{TOP}/samples/one_frame/output"], capture_output=True, text=True)
        self.assertEqual((ran.returncode, ran.stdout.splitlines()[-1]), (0, "1 open"))
        self.assertEqual(subprocess.run([f"{self.prefix}/bin/gifteldu-ask-zabbix"], capture_output=True).returncode, 2)

    def test_again_and_what_stays(self):
        self.install(self.program)
        configuration, journal = f"{self.prefix}/etc/gifteldu/config.json", f"{self.prefix}/var/lib/gifteldu/journal"
        for path, text in ((configuration, "{}"), (journal, "kept"), (self.program, "#!/bin/sh\n")):
            with open(path, "w", encoding="utf-8") as file:
                file.write(text)
        status, out, told = self.install(self.program)
        self.assertEqual((status, told), (0, ""))
        self.assertIn(f"install: left {configuration}", out)
        self.assertIn(f"install: left {self.prefix}/var/lib/gifteldu", out)
        self.assertEqual((held(configuration), held(journal), held(f"{self.prefix}/bin/gifteldu")), ("{}", "kept", "#!/bin/sh\n"))
        out = self.install("--remove")[1]
        self.assertIn(f"install: left, since it was changed, {configuration}", out)
        self.assertIn(f"install: left {self.prefix}/var/lib/gifteldu", out)
        files = sorted(path for path, (mode, _) in tree(self.prefix).items() if not stat.S_ISDIR(mode))
        self.assertEqual(files, ["etc/gifteldu/config.json", "var/lib/gifteldu/journal"])
        self.install(self.program)
        os.unlink(configuration)
        self.install("--remove", "--with-state")
        self.assertFalse(os.path.exists(journal))

    def test_what_others_put_there_is_not_overwritten(self):
        os.makedirs(f"{self.prefix}/bin")
        with open(f"{self.prefix}/bin/gifteldu-values", "w", encoding="utf-8") as file:
            file.write("another one's")
        before = tree(self.room.name)
        status, out, told = self.install(self.program)
        self.assertEqual((status, out), (1, ""))
        self.assertEqual(told, f"install: {self.prefix}/bin/gifteldu-values is there, and no installation made it; nothing was done\n")
        self.assertEqual(tree(self.room.name), before)
        self.assertEqual(self.install("--remove")[0], 1)
        self.assertEqual(self.install(f"{self.room.name}/nothing")[0], 1)
        self.assertEqual(self.install()[0], 2)

    def test_below_another_root_the_units_name_the_real_places(self):
        status, out, told = call("install", self.program, "--root", f"{self.room.name}/package")
        self.assertEqual((status, told), (0, ""))
        unit = held(f"{self.room.name}/package/usr/local/lib/systemd/system/gifteldu.service")
        self.assertEqual(unit, held(f"{CONTRIB}/gifteldu.service"))
        for path in ("/usr/local/bin/gifteldu", "/etc/gifteldu/config.json", "/var/lib/gifteldu"):
            self.assertTrue(os.path.exists(f"{self.room.name}/package{path}"), path)
            self.assertIn(path, unit)
        call("install", "--remove", "--root", f"{self.room.name}/package")
        self.assertFalse(os.path.exists(f"{self.room.name}/package"))

    def test_units_are_right(self):
        if not shutil.which("systemd-analyze"):
            self.skipTest("systemd-analyze isn't here")
        self.install(self.program)
        units = f"{self.prefix}/lib/systemd/system"
        for name in os.listdir(units):
            ran = subprocess.run(["systemd-analyze", "verify", f"{units}/{name}"], capture_output=True, text=True)
            self.assertEqual((ran.returncode, ran.stderr), (0, ""), name)
        with open(f"{units}/gifteldu.service", "a", encoding="utf-8") as file:
            file.write("[Service]\nExecStart=/nowhere/gifteldu\n")
        ran = subprocess.run(["systemd-analyze", "verify", f"{units}/gifteldu.service"], capture_output=True, text=True)
        self.assertNotEqual((ran.returncode, ran.stderr), (0, ""))

    def test_the_first_configuration_is_taken(self):
        with tempfile.TemporaryDirectory() as room:
            open(f"{room}/script", "w").close()
            words = ["--mode", "feed", "--config", f"{CONTRIB}/first.json", "--script", f"{room}/script"]
            ran = subprocess.run([PROGRAM, *words], capture_output=True, text=True, cwd=room)
        self.assertEqual((ran.returncode, ran.stdout[:10]), (0, "status: Ok"))
