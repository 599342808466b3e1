"""Exports of Zabbix 6.0 (`configuration.export`), turned into templates and hosts of a document.

What is made here has the document's members, and beside them some that begin with an underscore, which are taken off at the end:
`_place` says where the object stands in its export, and is what a refusal names.
"""

import json
import re

from . import expressions, texts

TRAPPER, DEPENDENT, ACTIVE = "TRAP", "DEPENDENT", "ZABBIX_ACTIVE"
SEVERITIES = ("NOT_CLASSIFIED", "INFO", "WARNING", "AVERAGE", "HIGH", "DISASTER")
ON_FAIL = {"ORIGINAL_ERROR": "empty", "DISCARD_VALUE": "discard", "CUSTOM_VALUE": "value", "CUSTOM_ERROR": "error"}
# Kinds of steps, and how many parameters each has.
STEPS = {
    "REGEX": ("regex", 2),
    "STR_REPLACE": ("replace", 2),
    "TRIM": ("trim", 1),
    "LTRIM": ("ltrim", 1),
    "RTRIM": ("rtrim", 1),
    "JSONPATH": ("jsonpath", 1),
    "MULTIPLIER": ("multiplier", 1),
    "SIMPLE_CHANGE": ("simple_change", 0),
    "CHANGE_PER_SECOND": ("change_per_second", 0),
    "BOOL_TO_DECIMAL": ("bool_to_decimal", 0),
    "OCTAL_TO_DECIMAL": ("octal_to_decimal", 0),
    "HEX_TO_DECIMAL": ("hex_to_decimal", 0),
    "IN_RANGE": ("in_range", 2),
    "MATCHES_REGEX": ("matches", 1),
    "NOT_MATCHES_REGEX": ("not_matches", 1),
    "CHECK_JSON_ERROR": ("json_error", 1),
    "CHECK_REGEX_ERROR": ("regex_error", 2),
    "DISCARD_UNCHANGED": ("throttle", 0),
    "DISCARD_UNCHANGED_HEARTBEAT": ("throttle_heartbeat", 1),
}
ESCAPES = {"\\n": "\n", "\\r": "\r", "\\t": "\t", "\\s": " "}
# Members that change nothing of what is evaluated, or are read here.
KNOWN = {
    "top": "version date groups host_groups template_groups templates hosts triggers graphs value_maps",
    "owner": "uuid host template name description status groups templates items macros tags discovery_rules httptests dashboards "
    "valuemaps interfaces inventory inventory_mode proxy ipmi_authtype ipmi_privilege ipmi_username ipmi_password tls_connect tls_accept "
    "tls_issuer tls_subject tls_psk_identity tls_psk vendor",
    "item": "uuid name type key delay history trends status value_type units params description inventory_link valuemap logtimefmt "
    "preprocessing interface_ref master_item triggers tags allowed_hosts snmp_oid authtype username password publickey privatekey "
    "ipmi_sensor jmx_endpoint timeout url query_fields posts status_codes follow_redirects post_type http_proxy headers retrieve_mode "
    "request_method output_format ssl_cert_file ssl_key_file ssl_key_password verify_peer verify_host allow_traps parameters application_prototypes",
    "trigger": "uuid expression recovery_mode recovery_expression name event_name opdata correlation_mode correlation_tag url status "
    "priority description type manual_close dependencies tags",
    "step": "type parameters error_handler error_handler_params",
}
KNOWN = {kind: set(names.split()) for kind, names in KNOWN.items()}
IN_EVENTS = re.compile(r"\{(?:HOST\.NAME|ITEM\.(?:LAST)?VALUE[1-9]?)\}")
REGSUB = re.compile(r'\{\{ITEM\.(?:LAST)?VALUE[1-9]?\}\.regsub\(\s*("(?:[^"\\]|\\.)*"|[^,]*),\s*(?:"(?:[^"\\]|\\.)*"|.*?)\)\}', re.S)
MACRO = re.compile(r"\{\{[A-Z][A-Z0-9_.]*\}\.\w+\([^)]*\)\}|\{[A-Z][A-Z0-9_.]*\}|\{\?[^}]*\}")


class Unreadable(Exception):
    """A file that isn't what it should be."""


def load(path):
    """The object `zabbix_export` of a file in JSON or YAML, with all scalars as texts."""
    try:
        with open(path, encoding="utf-8") as file:
            text = file.read()
    except (OSError, UnicodeDecodeError) as error:
        raise Unreadable(f"{path}: {error}") from None
    tree = from_json(path, text) if text.lstrip()[:1] in ("{", "[") else from_yaml(path, text)
    export = tree.get("zabbix_export") if isinstance(tree, dict) else None
    if not isinstance(export, dict):
        raise Unreadable(f"{path}: it has no zabbix_export")
    export = as_texts(export)
    if export.get("version") != "6.0":
        raise Unreadable(f"{path}: it is an export of version {export.get('version')}; those of 6.0 are read")
    return export


def as_texts(tree):
    """The tree with all scalars as texts, as exports and answers have them anyway."""
    if isinstance(tree, dict):
        return {name: as_texts(value) for name, value in tree.items()}
    if isinstance(tree, list):
        return [as_texts(one) for one in tree]
    return tree if isinstance(tree, str) else "" if tree is None else str(tree)


def from_json(path, text):
    try:
        return json.loads(text)
    except ValueError as error:
        raise Unreadable(f"{path}: {error}") from None


def from_yaml(path, text):
    try:
        import yaml
    except ImportError:
        raise Unreadable(f"{path}: PyYAML isn't here; export it as JSON") from None
    try:
        return yaml.load(text, Loader=getattr(yaml, "CBaseLoader", yaml.BaseLoader))
    except yaml.YAMLError as error:
        raise Unreadable(f"{path}: {' '.join(str(error).split())}") from None


class Reading:
    """The templates and hosts of all exports, by name, with what is asked of the conversion."""

    def __init__(self, report, as_trapper=False, active=False):
        self.report, self.as_trapper, self.active = report, as_trapper, active
        self.owners, self.loose = {}, []

    def take(self, path):
        export = load(path)
        self.unknown(path, export, "top")
        for kind, name in (("template", "templates"), ("host", "hosts")):
            for raw in listed(export, name):
                self.take_owner(path, raw, kind)
        self.loose += [(path, raw) for raw in listed(export, "triggers")]

    def unknown(self, place, raw, kind):
        for name in sorted(set(raw) - KNOWN[kind]):
            self.report.lost(place, f"{name} is left out")

    # ---- templates and hosts

    def take_owner(self, path, raw, kind):
        name = raw.get(kind, "")
        place = f"{path}: {kind} {name}"
        if not texts.HOST.match(name):
            return self.report.lost(place, "a name has 1 to 128 letters, digits, spaces, _, - and .")
        if name in self.owners:
            return self.report.lost(place, f"the name is taken by {self.owners[name]['_place']}")
        self.unknown(place, raw, "owner")
        owner = {"name": name, "_place": place, "_is_template": kind == "template"}
        if kind == "host":
            owner["groups"] = [group["name"] for group in listed(raw, "groups")]
            if raw.get("status") == "DISABLED":
                owner["enabled"] = False
            if raw.get("name", name) != name:
                self.report.lost(place, f"its visible name {raw['name']} isn't there: {{HOST.NAME}} is {name}")
        owner["templates"] = [link["name"] for link in listed(raw, "templates")]
        owner["macros"] = self.macros(place, listed(raw, "macros"))
        self.owners[name] = owner
        self.left_out(place, raw)
        owner["items"], owner["triggers"] = [], []
        for item in listed(raw, "items"):
            self.take_item(owner, item)

    def left_out(self, place, raw):
        for rule in listed(raw, "discovery_rules"):
            self.report.lost(f"{place}: discovery rule {rule.get('key', '')}", "low-level discovery isn't here")
        for test in listed(raw, "httptests"):
            self.report.lost(f"{place}: web scenario {test.get('name', '')}", "web scenarios aren't here")
        self.tags_left(place, raw)
        if raw.get("proxy"):
            self.report.lost(place, "proxies aren't here: its values come by the sender protocol")

    def tags_left(self, place, raw):
        if listed(raw, "tags"):
            self.report.lost(place, "its tags aren't put on events: " + ", ".join(tag.get("tag", "") for tag in raw["tags"]))

    def macros(self, place, raws):
        found = []
        for raw in raws:
            name, at = raw.get("macro", ""), f"{place}: macro {raw.get('macro', '')}"
            if raw.get("type", "TEXT") not in ("TEXT", "0"):
                self.report.lost(at, "its value is secret, and not in the export")
            elif texts.macro_flaw(name):
                self.report.lost(at, "macros with a context aren't here")
            elif not texts.MACRO_NAME.match(name) or len(name) > 255:
                self.report.lost(at, "a macro's name is of A to Z, 0 to 9, _ and .")
            else:
                found.append({"name": name, "value": raw.get("value", "")})
        return found

    # ---- items

    def take_item(self, owner, raw):
        place = f"{owner['_place']}: item {raw.get('key', '')}"
        self.unknown(place, raw, "item")
        item = self.item_of(place, raw)
        if item:
            owner["items"].append(item)
            self.tags_left(place, raw)
            if raw.get("allowed_hosts"):
                self.report.lost(place, f"values of it are taken from everybody, not from {raw['allowed_hosts']} alone")
        for trigger in listed(raw, "triggers"):
            self.take_trigger(owner, trigger)

    def item_of(self, place, raw):
        kind, value_type = raw.get("type", "ZABBIX_PASSIVE"), raw.get("value_type", "UNSIGNED")
        item = {"key": raw.get("key", ""), "_place": place}
        if kind == DEPENDENT:
            item.update(kind="dependent", master=raw.get("master_item", {}).get("key", ""))
        elif kind == ACTIVE and self.active and not self.as_trapper:
            seconds = texts.period(raw.get("delay", "1m"))
            if seconds is None or not 1 <= seconds <= 86400:
                return self.report.lost(place, f"the interval {raw.get('delay')} isn't a period of 1 second to 1 day")
            item.update(kind="active", delay=raw.get("delay", "1m"))
        elif kind != TRAPPER and not self.as_trapper:
            return self.report.lost(place, f"items of the type {kind} aren't here; --as-trapper makes them trapper items")
        if value_type not in ("FLOAT", "UNSIGNED", "CHAR", "TEXT") and not (value_type == "LOG" and self.as_trapper):
            return self.report.lost(place, f"values of the type {value_type} aren't here")
        if value_type in ("CHAR", "TEXT", "LOG"):
            item["value_type"] = "text"
        if raw.get("status") == "DISABLED":
            item["enabled"] = False
        item["steps"] = [self.step_of(f"{place}: step {at}", step) for at, step in enumerate(listed(raw, "preprocessing"), 1)]
        return None if None in item["steps"] else item

    def step_of(self, place, raw):
        self.unknown(place, raw, "step")
        kind, count = STEPS.get(raw.get("type"), (None, 0))
        if kind is None:
            return self.report.lost(place, f"steps of the kind {raw.get('type')} aren't here, so neither is the item")
        params = listed(raw, "parameters")[:count]
        step = {"kind": kind, "params": params + [""] * (count - len(params))}
        if kind in ("trim", "ltrim", "rtrim", "replace"):
            step["params"] = [self.without_escapes(place, text) for text in step["params"]]
        on_fail = ON_FAIL.get(raw.get("error_handler", "ORIGINAL_ERROR"))
        if on_fail is None:
            return self.report.lost(place, f"what it does on an error, {raw['error_handler']}, isn't here")
        if on_fail != "empty":
            step["on_fail"] = on_fail
        if on_fail in ("value", "error"):
            step["text"] = raw.get("error_handler_params", "")
        return step

    def without_escapes(self, place, text):
        """The parameter with what its escape sequences stand for."""
        plain = re.sub(r"\\[nrts]", lambda match: ESCAPES[match[0]], text)
        if "\\" in plain:
            self.report.lost(place, f"a backslash in {text} stands for itself")
        return plain

    # ---- triggers

    def take_trigger(self, owner, raw):
        name = raw.get("name", "")
        place = f"{owner['_place']}: trigger {name}"
        self.unknown(place, raw, "trigger")
        trigger = {"name": self.in_events(place, name), "expression": expressions.tidied(raw.get("expression", "")), "_place": place}
        trigger["_asked"] = (name, raw.get("expression", ""), raw.get("recovery_expression", ""))
        mode = raw.get("recovery_mode", "EXPRESSION")
        if mode != "EXPRESSION":
            trigger["recovery"] = {"RECOVERY_EXPRESSION": "recovery_expression"}.get(mode, "none")
        if mode == "RECOVERY_EXPRESSION":
            trigger["recovery_expression"] = expressions.tidied(raw.get("recovery_expression", ""))
        if raw.get("type") == "MULTIPLE":
            trigger["multiple"] = True
        if raw.get("correlation_mode") == "TAG_VALUE":
            trigger["close_tag"] = raw.get("correlation_tag", "")
        severity = raw.get("priority", "NOT_CLASSIFIED")
        trigger["severity"] = SEVERITIES.index(severity) if severity in SEVERITIES else 0
        trigger["tags"] = [
            {"tag": tag.get("tag", ""), "value": self.in_events(place, tag.get("value", ""))} for tag in listed(raw, "tags")
        ]
        trigger["_depends"] = [
            (asked.get("name", ""), asked.get("expression", ""), asked.get("recovery_expression", "")) for asked in listed(raw, "dependencies")
        ]
        if raw.get("status") == "DISABLED":
            trigger["enabled"] = False
        if raw.get("event_name", name) not in ("", name):
            self.report.lost(place, f"its event name isn't there, and events have its name: {raw['event_name']}")
        if mode == "NONE" and raw.get("manual_close") == "YES":
            self.report.lost(place, "its problems can't be closed by hand, and nothing else closes them but a rule of correlation")
        owner["triggers"].append(trigger)

    def in_events(self, place, text):
        """The text of an event's name or tag, in which the technical name of the host has one macro; others are told."""
        text = text.replace("{HOST.HOST}", "{HOST.NAME}")
        for macro in MACRO.findall(REGSUB.sub("", text)):
            if not IN_EVENTS.fullmatch(macro):
                self.report.lost(place, f"{macro} isn't replaced in names and tags of events")
        return text

    def place_loose(self):
        """Triggers over several items, which the export keeps apart, go to the first host or template that they name."""
        for path, raw in self.loose:
            named = expressions.hosts_of(raw.get("expression", ""))
            if named and named[0] in self.owners:
                self.take_trigger(self.owners[named[0]], raw)
            else:
                host = named[0] if named else "none"
                self.report.lost(f"{path}: trigger {raw.get('name', '')}", f"its first host, {host}, isn't in the exports")
        self.loose = []


def listed(raw, name):
    """The objects of a list, or the texts of parameters; a list that isn't there is empty."""
    found = raw.get(name) or []
    if not isinstance(found, list) or not all(isinstance(one, str if name == "parameters" else dict) for one in found):
        raise Unreadable(f"{name} isn't a list of {'texts' if name == 'parameters' else 'objects'}")
    return found
