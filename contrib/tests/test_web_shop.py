"""The worked configuration uses each member of a document, and its page shows what its files hold."""

import json
import re
import unittest

from common import TOP, call, held

SHOP = f"{TOP}/samples/web_shop"


def members_of_formats():
    """The members that docs/FORMATS.md names, by object."""
    text = held(f"{TOP}/docs/FORMATS.md")
    found, name = {}, ""
    table = text[text.index("| object | member |") : text.index("| kind of a step |")]
    for line in table.split("\n")[2:]:
        if not line.startswith("|"):
            continue
        first, member = [cell.strip() for cell in line.split("|")[1:3]]
        name = first or name
        for one in re.findall(r"`(\w+)`", member):
            found.setdefault(name, set()).add(one)
    for kind in ("correlation", "action"):
        table = text[text.index(f"| kind of a condition of {'a correlation' if kind == 'correlation' else 'an action'} |") :].split("\n\n")[0]
        found[f"condition of {kind}s"] = set(re.findall(r"`(\w+)`", " ".join(row.split("|")[2] for row in table.split("\n")[2:]))) - {"ge", "le", "eq"} | {"kind"}
    return found


def used(document):
    """The members that a document uses, by object as docs/FORMATS.md calls it."""
    names = {
        "macros": "macro", "templates": "template", "hosts": "host", "items": "item", "steps": "step", "triggers": "trigger", "depends": "dependency",
        "correlations": "correlation", "maintenances": "maintenance", "periods": "period", "actions": "action", "operations": "operation",
        "recovery": "recovery operation",
    }  # fmt: skip
    found = {}

    def look(thing, kind):
        found.setdefault(kind, set()).update(thing)
        for member, value in thing.items():
            for one in value if isinstance(value, list) else ():
                if isinstance(one, dict):
                    inner = names.get(member)
                    if member == "tags":
                        inner = "tag" if kind == "trigger" else "test of a tag"
                    if member == "conditions":
                        inner = f"condition of {kind}s"
                    look(one, inner)

    look(document, "document")
    return found


class Members(unittest.TestCase):
    def test_each_is_used(self):
        document = json.loads(held(f"{SHOP}/config.json"))
        named, there = members_of_formats(), used(document)
        self.assertEqual(len(named), 18)
        self.assertGreater(sum(map(len, named.values())), 80)
        template_and_host = there["template"] | there["host"]
        self.assertEqual(named["template"] - there["template"], set())
        self.assertEqual(named["host"] - template_and_host, set())
        for name in named.keys() - {"template", "host"}:
            self.assertEqual(named[name] - there.get(name, set()), set(), name)

    def test_ten_hosts_and_two_templates(self):
        document = json.loads(held(f"{SHOP}/config.json"))
        self.assertEqual((len(document["hosts"]), len(document["templates"])), (10, 2))

    def test_the_script_is_that_of_the_values(self):
        status, out, told = call("values", f"{SHOP}/values.txt", "-T", "--strict")
        self.assertEqual((status, out), (0, held(f"{SHOP}/script")))


class Page(unittest.TestCase):
    def test_what_it_quotes_is_in_the_files(self):
        page = held(f"{TOP}/docs/WEB_SHOP.md")
        texts = {"config": held(f"{SHOP}/config.json"), "values": held(f"{SHOP}/values.txt"), "lines": held(f"{SHOP}/output")}
        texts = {name: [line.strip() for line in text.split("\n")] for name, text in texts.items()}
        quoted = {name: 0 for name in texts}
        shown = set()
        for kind, block in re.findall(r"```(config|values|lines)\n(.*?)```", page, re.S):
            for line in block.strip().split("\n"):
                self.assertIn(line.strip(), texts[kind], f"{kind}: {line}")
                quoted[kind] += 1
                shown.add((kind, line.strip()))
        for line in held(f"{SHOP}/output").splitlines():
            self.assertIn(("lines", line), shown)
        for line in held(f"{SHOP}/values.txt").splitlines():
            self.assertIn(("values", line), shown)
        self.assertGreater(min(quoted.values()), 20)
