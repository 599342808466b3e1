"""contrib/from-zabbix: what is exported of a document is that document again, and what can't be carried is told."""

import copy
import glob
import json
import os
import re
import sys
import tempfile
import unittest

from common import PROGRAM, TESTS, TOP, call, feed, held

from from_zabbix import checks, expressions, paths, texts

sys.path.insert(0, f"{TOP}/samples")
import documents  # noqa: E402

EXPORTS = sorted(glob.glob(f"{TESTS}/export/*/"))
# Each real server has this macro from the beginning; no document had it.
OF_EACH_SERVER = {"name": "{$SNMP_COMMUNITY}", "value": "public"}
DEFAULTS = {
    "item": {"kind": "trapper", "value_type": "number", "enabled": True, "steps": [], "master": ""},
    "step": {"on_fail": "empty", "text": "", "params": []},
    "trigger": {
        "recovery": "expression", "recovery_expression": "", "multiple": False, "close_tag": "", "severity": 0, "tags": [], "depends": [],
        "enabled": True,
    },
    "tag": {"value": ""},
    "depend": {"host": ""},
    "owner": {"templates": [], "macros": [], "items": [], "triggers": [], "groups": [], "enabled": True},
    "rule": {"match": "and"},
    "action": {"match": "and", "conditions": [], "step_duration": "1h", "pause_suppressed": True, "operations": [], "recovery": []},
    "operation": {"from": 1, "to": 1, "duration": "0"},
    "document": {"utc_offset": 0, "macros": [], "templates": [], "hosts": [], "correlations": [], "maintenances": [], "actions": []},
}  # fmt: skip
KIND_OF = {
    "templates": "owner", "hosts": "owner", "items": "item", "steps": "step", "triggers": "trigger", "tags": "tag", "depends": "depend",
    "correlations": "rule", "actions": "action", "operations": "operation",
}  # fmt: skip
IN_ORDER = {"steps", "params", "templates", "operations", "recovery", "correlations", "actions", "recipients"}


def whole(thing, kind, member=""):
    """A document with all defaults, and each list in whose order nothing lies sorted."""
    if isinstance(thing, list):
        found = [whole(one, KIND_OF.get(member, ""), "") for one in thing]
        is_links = member == "templates" and all(isinstance(one, str) for one in thing)
        return found if member in IN_ORDER and (is_links or member != "templates") else sorted(found, key=json.dumps)
    if not isinstance(thing, dict):
        return thing
    filled = {**DEFAULTS.get(kind, {}), **thing}
    return {name: whole(filled[name], "", name) for name in sorted(filled)}


def values_of(document, seed):
    """A script of values for all trapper items of a document, some of which open and close its problems."""
    elements = []
    for host in document["hosts"]:
        sources, at = [host], 0
        while at < len(sources):
            sources += [one for one in document.get("templates", []) if one["name"] in sources[at].get("templates", []) and one not in sources]
            at += 1
        for item in (one for source in sources for one in source.get("items", []) if one.get("kind") != "dependent"):
            elements.append((host["name"], item["key"]))
    elements.sort()
    shown = ['{"load":90,"name":"ERR 1"}', '{"load":10,"name":"fine"}', "10", "1", "0", "85", "50", "9", "v=5 x", "on", "{"]
    lines, state = [], seed
    for frame in range(60):
        state = (state * 6364136223846793005 + 1442695040888963407) % 2**64
        host, key = elements[(state >> 33) % len(elements)]
        value = shown[(state >> 20) % len(shown)]
        body = json.dumps({"request": "sender data", "data": [{"host": host, "key": key, "value": value}]})
        moment = 1_000_000 + frame * 7
        lines.append(f"{moment}.000000000 open {frame + 1}\n{moment}.000000000 frame {frame + 1} {body}\n")
    return "".join(lines) + "1000900.000000000 quiet\n1001000.000000000 closed\n"


def arranged(document, like):
    """A document with hosts, templates, items and triggers in the order that they have in another: an export has an order of its own,
    and the order decides which of two problems of one entry is made first."""
    def sorted_as(things, others, name):
        order = [one[name] for one in others]
        return sorted(things, key=lambda one: order.index(one[name]))

    found = dict(document)
    for kind in ("templates", "hosts"):
        found[kind] = sorted_as(document.get(kind, []), like.get(kind, []), "name")
        for owner, other in zip(found[kind], like.get(kind, [])):
            owner["items"] = sorted_as(owner.get("items", []), other.get("items", []), "key")
            owner["triggers"] = sorted_as(owner.get("triggers", []), other.get("triggers", []), "name")
    return found


class Fixtures(unittest.TestCase):
    def converted(self, folder, ending):
        status, out, told = call("from-zabbix", f"{folder}export.{ending}", "--api", f"{folder}api.json", "--strict")
        self.assertEqual((status, told.splitlines()[-1]), (0, "from-zabbix: 0 not carried"), f"{folder}: {told}")
        return json.loads(out)

    def test_the_document_of_an_export_is_the_original(self):
        self.assertEqual(len(EXPORTS), 7)
        for folder in EXPORTS:
            found, wanted = self.converted(folder, "json"), json.loads(held(f"{folder}document.json"))
            self.assertEqual(found["macros"].count(OF_EACH_SERVER), 1)
            found["macros"].remove(OF_EACH_SERVER)
            self.assertEqual(whole(found, "document"), whole(wanted, "document"), folder)

    def test_yaml_gives_what_json_gives(self):
        try:
            import yaml  # noqa: F401
        except ImportError:
            self.skipTest("PyYAML isn't here")
        for folder in EXPORTS:
            self.assertEqual(self.converted(folder, "yaml"), self.converted(folder, "json"), folder)

    def test_the_program_does_with_it_what_it_does_with_the_original(self):
        problems = 0
        for folder in EXPORTS:
            found, wanted = self.converted(folder, "json"), json.loads(held(f"{folder}document.json"))
            with tempfile.TemporaryDirectory() as room:
                values = values_of(wanted, 7)
                ours, printed = feed(room, found, values)
                theirs, wanted_printed = feed(room, arranged(wanted, found), values)
            self.assertTrue(printed.startswith("status: Ok; "), printed)
            self.assertEqual((printed, ours), (wanted_printed, theirs), folder)
            problems += sum(line.startswith("P|") for line in ours)
        self.assertGreater(problems, 20)

    def test_a_changed_document_is_told_apart(self):
        document = json.loads(held(f"{TESTS}/export/rich/document.json"))
        other = copy.deepcopy(document)
        other["templates"][0]["items"][1]["steps"].reverse()
        self.assertNotEqual(whole(document, "document"), whole(other, "document"))


class Losses(unittest.TestCase):
    """contrib/tests/losses.json is an export, and losses.api.json an answer of the API, of all that can't be carried."""

    def convert(self, *words):
        with tempfile.TemporaryDirectory() as room:
            for name in ("losses.json", "losses.api.json"):
                with open(f"{room}/{name}", "w", encoding="utf-8") as file:
                    file.write(held(f"{TESTS}/{name}"))
            return call("from-zabbix", "losses.json", "--api", "losses.api.json", *words, folder=room)

    def test_each_is_told_with_its_place_and_the_reason(self):
        status, out, told = self.convert()
        self.assertEqual(status, 0)
        self.assertEqual(told, held(f"{TESTS}/losses.txt"))
        lines = [line for line in told.splitlines()[:-1] if not line.startswith("from-zabbix: note:")]
        self.assertEqual(told.splitlines()[-1], f"from-zabbix: {len(lines)} not carried")
        self.assertEqual(len(set(lines)), len(lines))

    def test_what_is_left_is_taken_by_the_program(self):
        for words in ([], ["--as-trapper"], ["--default-message", "s", "b", "--default-recovery", "s", "b"]):
            status, out, told = self.convert(*words)
            with tempfile.TemporaryDirectory() as room:
                self.assertTrue(feed(room, out, "")[1].startswith("status: Ok; "), words)

    def test_strict_fails_and_writes_nothing(self):
        status, out, told = self.convert("--strict")
        self.assertEqual((status, out), (1, ""))
        self.assertEqual(told, held(f"{TESTS}/losses.txt"))

    def test_what_is_left_is_the_whole_rest(self):
        document = json.loads(self.convert()[1])
        self.assertEqual(document, json.loads(held(f"{TESTS}/losses.document.json")))

    def test_items_of_other_types_as_trapper_items(self):
        status, out, told = self.convert("--as-trapper")
        host = next(one for one in json.loads(out)["hosts"] if one["name"] == "web01")
        keys = {item["key"]: item for item in host["items"]}
        self.assertEqual(keys["agent.ping"], {"key": "agent.ping"})
        self.assertEqual(keys["log[/var/log/syslog]"], {"key": "log[/var/log/syslog]", "value_type": "text"})
        self.assertNotIn("items of the type", told)
        self.assertNotIn("its script", keys)

    def test_items_of_active_agents(self):
        status, out, told = self.convert("--active")
        host = next(one for one in json.loads(out)["hosts"] if one["name"] == "web01")
        self.assertIn({"key": "system.uptime", "kind": "active", "delay": "30s"}, host["items"])
        self.assertIn("item often: the interval 1m;10s/1-5 isn't a period of 1 second to 1 day", told)

    def test_messages_that_the_media_type_has(self):
        status, out, told = self.convert("--default-message", "S", "B", "--default-recovery", "RS", "RB")
        action = next(one for one in json.loads(out)["actions"] if one["name"] == "Default message")
        self.assertEqual(action["operations"][0], {"from": 1, "to": 1, "recipients": ["Admin"], "subject": "S", "body": "B"})
        self.assertEqual(action["recovery"], [{"recipients": ["Admin"], "subject": "RS", "body": "RB"}])

    def test_the_offset_from_utc(self):
        for given, wanted in (("3600", 3600), ("+02:30", 9000), ("-01:00", -3600)):
            status, out, told = self.convert(f"--utc-offset={given}")
            self.assertEqual(json.loads(out)["utc_offset"], wanted)
        self.assertEqual(self.convert("--utc-offset", "50401")[0], 2)

    def test_the_document_goes_to_a_file(self):
        with tempfile.TemporaryDirectory() as room:
            folder = f"{TESTS}/export/case-00"
            status, out, told = call("from-zabbix", f"{folder}/export.json", "--output", "there.json", folder=room)
            self.assertEqual((status, out), (0, ""))
            self.assertEqual(json.loads(held(f"{room}/there.json"))["hosts"][0]["name"], "h")


STEPS = """\
REGEX ["a(b)", "\\\\1"] regex ["a(b)", "\\\\1"]
STR_REPLACE ["a\\\\n", ""] replace ["a\\n", ""]
TRIM [" "] trim [" "]
LTRIM [" "] ltrim [" "]
RTRIM [" "] rtrim [" "]
JSONPATH ["$.a"] jsonpath ["$.a"]
MULTIPLIER ["{$M}"] multiplier ["{$M}"]
SIMPLE_CHANGE [""] simple_change []
CHANGE_PER_SECOND [""] change_per_second []
BOOL_TO_DECIMAL [""] bool_to_decimal []
OCTAL_TO_DECIMAL [""] octal_to_decimal []
HEX_TO_DECIMAL [""] hex_to_decimal []
IN_RANGE ["", "5"] in_range ["", "5"]
MATCHES_REGEX ["a"] matches ["a"]
NOT_MATCHES_REGEX ["a"] not_matches ["a"]
CHECK_JSON_ERROR ["$.e"] json_error ["$.e"]
CHECK_REGEX_ERROR ["e", "out"] regex_error ["e", "out"]
DISCARD_UNCHANGED [""] throttle []
DISCARD_UNCHANGED_HEARTBEAT ["1h"] throttle_heartbeat ["1h"]
"""
HANDLERS = {
    "ORIGINAL_ERROR": {},
    "DISCARD_VALUE": {"on_fail": "discard"},
    "CUSTOM_VALUE": {"on_fail": "value", "text": "t"},
    "CUSTOM_ERROR": {"on_fail": "error", "text": "t"},
}


def exported(items=(), triggers=(), **host):
    """An export of a host with these items and triggers."""
    host = {"host": "h", "name": "h", "groups": [{"name": "g"}], "items": list(items), "macros": [{"macro": "{$M}", "value": "2"}], **host}
    return {"zabbix_export": {"version": "6.0", "hosts": [host], "triggers": list(triggers)}}


def convert(export, *words):
    """The only host of the document of an export, and what was told."""
    with tempfile.TemporaryDirectory() as room:
        with open(f"{room}/it.json", "w", encoding="utf-8") as file:
            json.dump(export, file)
        status, out, told = call("from-zabbix", "it.json", *words, folder=room)
    return json.loads(out)["hosts"][0], told.splitlines()


def item(key, **more):
    return {"type": "TRAP", "key": key, "value_type": "TEXT", **more}


class Carried(unittest.TestCase):
    def test_each_kind_of_step(self):
        rows = [re.fullmatch(r"(\w+) (\[.*\]) (\w+) (\[.*\])", line) for line in STEPS.splitlines()]
        items = [item(row[3], preprocessing=[{"type": row[1], "parameters": json.loads(row[2])}]) for row in rows]
        host, told = convert(exported(items))
        self.assertEqual(told, ["from-zabbix: 0 not carried"])
        for row, found in zip(rows, host["items"]):
            wanted = {"kind": row[3], "params": json.loads(row[4])} if row[4] != "[]" else {"kind": row[3]}
            self.assertEqual(found["steps"], [wanted])
        formats = held(f"{TOP}/docs/FORMATS.md")
        table = formats[formats.index("| kind of a step |") : formats.index("| kind of a condition of a correlation |")]
        kinds = {name for line in table.split("\n")[2:] if line.startswith("|") for name in re.findall(r"`(\w+)`", line.split("|")[1])}
        self.assertEqual({row[3] for row in rows}, kinds)

    def test_what_a_step_does_where_it_fails(self):
        steps = [{"type": "TRIM", "parameters": ["x"], "error_handler": name, "error_handler_params": "t"} for name in HANDLERS]
        host, told = convert(exported([item("k", preprocessing=steps)]))
        self.assertEqual(host["items"][0]["steps"], [{"kind": "trim", "params": ["x"], **wanted} for wanted in HANDLERS.values()])

    def test_types_of_values_and_what_is_disabled(self):
        types = {"FLOAT": {}, "UNSIGNED": {}, "CHAR": {"value_type": "text"}, "TEXT": {"value_type": "text"}}
        items = [{"type": "TRAP", "key": name, "value_type": name} for name in types] + [{"type": "TRAP", "key": "none", "status": "DISABLED"}]
        host, told = convert(exported(items, status="DISABLED"))
        wanted = [{"key": name, **more} for name, more in types.items()] + [{"key": "none", "enabled": False}]
        self.assertEqual((host["items"], host["enabled"], told), (wanted, False, ["from-zabbix: 0 not carried"]))

    def test_triggers(self):
        severities = ("NOT_CLASSIFIED", "INFO", "WARNING", "AVERAGE", "HIGH", "DISASTER")
        triggers = [{"name": name, "expression": "nodata(/h/k,5m)=1", "priority": name} for name in severities]
        more = {"type": "MULTIPLE", "correlation_mode": "TAG_VALUE", "correlation_tag": "t", "status": "DISABLED", "tags": [{"tag": "t", "value": "v"}]}
        triggers.append({"name": "more", "expression": "change(/h/k)=1", "recovery_mode": "NONE", **more})
        modes = {"recovery_mode": "RECOVERY_EXPRESSION", "recovery_expression": " change( /h/k )=0"}
        triggers.append({"name": "recovers", "expression": "change(/h/k)=1", **modes, "dependencies": [{"name": "more", "expression": "change(/h/k)=1"}]})
        host, told = convert(exported([item("k")], triggers))
        self.assertEqual(told, ["from-zabbix: 0 not carried"])
        found = {one["name"]: one for one in host["triggers"]}
        self.assertEqual([found[name].get("severity", 0) for name in severities], [0, 1, 2, 3, 4, 5])
        wanted = {"multiple": True, "close_tag": "t", "enabled": False, "recovery": "none", "tags": [{"tag": "t", "value": "v"}]}
        self.assertEqual(found["more"], {"name": "more", "expression": "change(/h/k)=1", **wanted})
        recovers = {"recovery": "recovery_expression", "recovery_expression": "change(/h/k)=0", "depends": [{"trigger": "more"}]}
        self.assertEqual(found["recovers"], {"name": "recovers", "expression": "change(/h/k)=1", **recovers})

    def test_macros_of_the_host_stand_before_those_of_its_templates_and_these_before_the_global_ones(self):
        export = exported([item("k", value_type="FLOAT")], [{"name": "t", "expression": "last(/h/k)>{$L}"}], templates=[{"name": "T"}])
        export["zabbix_export"]["templates"] = [{"template": "T", "macros": [{"macro": "{$L}", "value": "of T"}], "templates": [{"name": "U"}]}]
        export["zabbix_export"]["templates"].append({"template": "U", "macros": [{"macro": "{$L}", "value": "5"}]})
        self.assertNotIn("triggers", convert(export)[0])
        export["zabbix_export"]["hosts"][0]["macros"].append({"macro": "{$L}", "value": "5"})
        self.assertEqual(len(convert(export)[0]["triggers"]), 1)
        export["zabbix_export"]["hosts"][0]["macros"].pop()
        export["zabbix_export"]["templates"][0]["macros"] = []
        self.assertEqual(len(convert(export)[0]["triggers"]), 1)

    def test_rules_are_in_the_order_of_their_making(self):
        rule = {"status": "0", "filter": {"conditions": [{"type": "0", "tag": "a"}]}, "operations": [{"type": "0"}]}
        with tempfile.TemporaryDirectory() as room:
            with open(f"{room}/api", "w", encoding="utf-8") as file:
                json.dump({"correlation.get": [{"correlationid": number, "name": number, **rule} for number in ("10", "9", "2")]}, file)
            out = call("from-zabbix", f"{TESTS}/export/case-00/export.json", "--api", f"{room}/api", "--strict")[1]
        self.assertEqual([one["name"] for one in json.loads(out)["correlations"]], ["2", "9", "10"])

    def test_as_many_as_a_document_takes(self):
        under = [{"type": "DEPENDENT", "key": f"d{at}", "master_item": {"key": "k"}} for at in range(1001)]
        host, told = convert(exported([item("k", value_type="FLOAT"), *under]))
        self.assertEqual((len(host["items"]), told[-1]), (1001, "from-zabbix: 1 not carried"))
        self.assertIn("item d1000: its master has 1,000 dependent items already", told[0])
        export = exported()
        export["zabbix_export"]["hosts"] = [{"host": f"h{at}", "name": f"h{at}"} for at in range(1002)]
        self.assertEqual([line.split(": ", 2)[2] for line in convert(export)[1][:2]], [f"host h{at}: a document has 1,000 hosts at most" for at in (1000, 1001)])
        export = exported()
        export["zabbix_export"]["templates"] = [{"template": f"T{at}"} for at in range(1001)]
        self.assertEqual([line.split(": ", 2)[2] for line in convert(export)[1][:1]], ["template T1000: a document has 1,000 templates at most"])
        texts_ = [item(f"k{at}", preprocessing=[{"type": "REGEX", "parameters": [f"a{at}", ""]}]) for at in range(130)]
        self.assertEqual(convert(exported(texts_))[1][-1], "from-zabbix: 2 not carried")


class Unreadable(unittest.TestCase):
    def test_files_that_are_no_exports(self):
        for text, reason in (
            ("{", "Expecting property name"),
            ("[]", "it has no zabbix_export"),
            ('{"a":1}', "it has no zabbix_export"),
            ('{"zabbix_export":{"version":"5.0"}}', "it is an export of version 5.0; those of 6.0 are read"),
            ("zabbix_export: [", "while parsing"),
            ('{"zabbix_export":{"version":"6.0","hosts":[5]}}', "hosts isn't a list of objects"),
            ('{"zabbix_export":{"version":"6.0","hosts":{}, "templates":"x"}}', "templates isn't a list of objects"),
        ):
            with tempfile.TemporaryDirectory() as room:
                with open(f"{room}/it", "w", encoding="utf-8") as file:
                    file.write(text)
                status, out, told = call("from-zabbix", "it", folder=room)
            self.assertEqual((status, out), (2, ""))
            self.assertTrue(reason in told or "PyYAML" in told, told)
        self.assertEqual(call("from-zabbix", "/nowhere")[0], 2)
        with tempfile.TemporaryDirectory() as room:
            with open(f"{room}/api", "w", encoding="utf-8") as file:
                file.write('{"maintenance.get":[{"maintenanceid":"1","name":"m","active_since":"1"}]}')
            told = call("from-zabbix", f"{TESTS}/export/case-00/export.json", "--api", f"{room}/api")[2]
        self.assertIn("maintenance m: it isn't whole: 'active_till'", told)
        folder = f"{TESTS}/export/case-00"
        self.assertEqual(call("from-zabbix", f"{folder}/export.json", "--api", f"{folder}/export.json")[0], 2)


class Grammars(unittest.TestCase):
    """The checks take what the program takes, of all documents that samples/documents.py opens it on."""

    def test_expressions(self):
        host = {"name": "h", "_is_template": False, "templates": ["T"], "_place": "h", "macros": [], "triggers": []}
        host["items"] = [
            {"key": key, "steps": [], "_place": key, **({"value_type": "text"} if key == "w" else {})} for key in ("k", "w", "k[é]")
        ]
        owners = {"h": host}
        for name in ("T", "U"):
            owners[name] = {"name": name, "_is_template": True, "templates": [], "_place": name, "macros": [], "triggers": [], "items": []}
        looked = checks.Checks(owners, [], None)
        looked.lay_out()
        looked.items()
        rows = [line.split("\t") for line in documents.EXPRESSIONS.splitlines()]
        self.assertGreater(len(rows), 90)
        for cause, text in rows:
            flaw = looked.expression_flaw(looked.hosts["h"], text)
            self.assertEqual(flaw is None, cause == "-", f"{text}: {flaw}")

    def test_keys(self):
        cases = list(documents.keys())
        for line in held(f"{TOP}/samples/documents.txt").splitlines():
            if line.startswith("BadKey"):
                cases.append(line.split("\t"))
        self.assertGreater(len(cases), 10)
        for cause, pointer, document in cases:
            keys = [item["key"] for kind in ("hosts", "templates") for one in json.loads(document).get(kind, []) for item in one.get("items", [])]
            if any("{$" in key for key in keys):
                continue
            self.assertEqual(all(texts.is_key(key) for key in keys), cause == "-", document[:100])

    def test_paths(self):
        rows = []
        for line in held(f"{TOP}/samples/documents.txt").splitlines():
            if line.startswith("BadPath"):
                rows += [step["params"][0] for host in json.loads(line.split("\t")[2])["hosts"] for step in steps_of(host)]
        for path in [one for one in rows if "{$" not in one]:
            self.assertIsNotNone(paths.flaw(path), path)
        taken = ["$", "$.a", "$.a.b", "$['a']", '$["a b"].c', "$[0]", "$[-1]", "$[1:2]", "$[:2]", "$[*]", "$.*", "$..a", "$..*", "$..[0]"]
        taken += ["$[?(@.a=='x')]", "$.a[?(@.b>1.5)].c.sum()", "$.length()", "$['a', 'b']", "$[ 0 , 1 ]", '$[?(@["a"] != "x y")].b']
        for path in taken:
            self.assertIsNone(paths.flaw(path), path)
        for path in ("", "a", "$.", "$a", "$[", "$[]", "$['a]", "$[?(@.a=~'x')]", "$[?(@.a=='x' && @.b==1)]", "$.a.size()", "$.a..", "$[1,'a']", "$.a b"):
            self.assertIsNotNone(paths.flaw(path), path)

    def test_patterns(self):
        for pattern in ("a", "^ERR( |$)", "([0-9]+)%", r"\d{2}\s\w+", "(?i)error", "[[:alpha:]]+", "(?P<n>x)", "(?<n>x)", r"\p{L}", r"a\+\+", r"\\1", "a{2}b{1,}c{1,3}", r"\{x\}", "[{}]", "[^]a]", "a}", r"[\[a]", "a**", r"^\/dev", "[a&b-]"):
            self.assertIsNone(texts.pattern_flaw(pattern), pattern)
        for pattern in ("", "x" * 256, "a(?=b)", "(?<!a)b", r"(a)\1", "a++", "(?>a)", "@global", "(", "[", r"\Ka", "(?|a|b)", "a{,3}", "{a}", "a{x", "[[a]", "[a&&b]", "*a", r"\012"):
            self.assertIsNotNone(texts.pattern_flaw(pattern), pattern)

    def test_blanks_that_the_real_server_passes(self):
        self.assertEqual(expressions.tidied(" last( /h/k )>1\r\n"), "last(/h/k)>1")
        self.assertEqual(expressions.tidied("avg(/h/k , 5m ) > 1 and\n count(/h/w, #3 ,\"like\", \"a b\" )=1"), "avg(/h/k, 5m) > 1 and\n count(/h/w, #3,\"like\", \"a b\")=1")
        self.assertEqual(expressions.tidied("last(/h/k)>"), "last(/h/k)>")


def steps_of(host):
    return [step for item in host.get("items", []) for step in item.get("steps", []) if step["kind"] in ("jsonpath", "json_error")]


assert PROGRAM and os.path.exists(PROGRAM)
