"""What the program would refuse of a document is taken out of it and told, until nothing is left that it would refuse.

A host is laid out as the program does it: the host, then its templates level by level, each once. A template that no host has is
laid out by itself. What is wrong in one host is taken out where it is written, so it is gone for all of them.
"""

from functools import lru_cache

from . import expressions, paths, texts
from .export import REGSUB

MOST = {"templates": 1000, "hosts": 1000, "steps": 32, "tags": 16, "items": 100_000, "triggers": 50_000, "dependents": 1000, "patterns": 128}
DEEPEST_LEVEL = 3
LONGEST_PARAMETER = 65_535


class Layout:
    """A host, or a template by itself: its sources in order, and the macros that hold in it."""

    def __init__(self, owner, owners, macros):
        self.owner, self.sources, at = owner, [owner], 0
        while at < len(self.sources):
            for name in self.sources[at]["templates"]:
                if owners[name] not in self.sources:
                    self.sources.append(owners[name])
            at += 1
        self.names = {source["name"] for source in self.sources}
        self.macros = dict(macros)
        for source in reversed(self.sources):
            self.macros.update({macro["name"]: macro["value"] for macro in reversed(source["macros"])})
        self.items = {}

    def each(self, kind):
        for source in self.sources:
            for thing in list(source[kind]):
                yield source, thing

    def expanded(self, text):
        return texts.expanded(text, self.macros)


class Checks:
    def __init__(self, owners, macros, report):
        self.owners, self.report = owners, report
        self.macros = {macro["name"]: macro["value"] for macro in reversed(macros)}
        self.patterns, self.gone = set(), set()

    def all(self):
        self.numbers()
        self.links()
        self.lay_out()
        while self.items():
            pass
        for layout in self.layouts:
            self.triggers(layout)
        self.patterns_within_limit()
        self.depends()

    def drop(self, source, kind, thing, reason, layout=None):
        """Takes something out of what it stands in, and says why, and of which host where it is inherited."""
        if id(thing) in self.gone:
            return
        self.gone.add(id(thing))
        source[kind] = [one for one in source[kind] if one is not thing]
        of = f" (on {layout.owner['name']})" if layout and layout.owner is not source else ""
        self.report.lost(thing["_place"], reason + of)

    # ---- templates and hosts

    def numbers(self):
        for is_template, kind in ((True, "templates"), (False, "hosts")):
            for owner in [one for one in self.owners.values() if one["_is_template"] == is_template][MOST[kind] :]:
                self.report.lost(owner["_place"], f"a document has {MOST[kind]:,} {kind} at most")
                del self.owners[owner["name"]]

    def links(self):
        for owner in self.owners.values():
            there, owner["templates"] = owner["templates"], []
            for name in there:
                if name not in self.owners or not self.owners[name]["_is_template"]:
                    self.report.lost(owner["_place"], f"its template {name} isn't in the exports")
                elif name not in owner["templates"]:
                    owner["templates"].append(name)
        for owner in self.owners.values():
            for name in list(owner["templates"]):
                if owner["_is_template"] and owner["name"] in self.reached(name):
                    owner["templates"].remove(name)
                    self.report.lost(owner["_place"], f"its template {name} leads back to it")

    def reached(self, name):
        found, ahead = set(), [name]
        while ahead:
            name = ahead.pop()
            if name not in found:
                found.add(name)
                ahead += self.owners[name]["templates"]
        return found

    def lay_out(self):
        hosts = [Layout(owner, self.owners, self.macros) for owner in self.owners.values() if not owner["_is_template"]]
        used = {name for layout in hosts for name in layout.names}
        self.hosts = {layout.owner["name"]: layout for layout in hosts}
        alone = [owner for owner in self.owners.values() if owner["_is_template"] and owner["name"] not in used]
        self.layouts = hosts + [Layout(owner, self.owners, self.macros) for owner in alone]

    # ---- items

    def items(self):
        """One pass over the items of all hosts; whether one was taken out."""
        before = len(self.gone)
        for layout in self.layouts:
            layout.items = {}
            for source, item in layout.each("items"):
                key, reason = layout.expanded(item["key"]), self.item_flaw(layout, item)
                taken = layout.items.get(key)
                if reason:
                    self.drop(source, "items", item, reason, layout)
                elif taken is None:
                    layout.items[key] = item
                elif any(one is taken for one in layout.owner["items"]) and source is not layout.owner:
                    self.drop(layout.owner, "items", taken, f"the key {key} is taken by {item['_place']}")
                    layout.items[key] = item
                else:
                    self.drop(source, "items", item, f"the key {key} is taken by {taken['_place']}", layout)
        for layout in self.layouts:
            self.masters(layout)
        total = 0
        for layout in self.hosts.values():
            for source, item in layout.each("items"):
                total += 1
                if total > MOST["items"]:
                    self.drop(source, "items", item, f"hosts have {MOST['items']:,} items at most", layout)
        return len(self.gone) > before

    def item_flaw(self, layout, item):
        for text in [item["key"], item.get("master", "")] + [text for step in item["steps"] for text in step["params"] + [step.get("text", "")]]:
            if texts.macro_flaw(text):
                return texts.macro_flaw(text)
        if not texts.is_key(layout.expanded(item["key"])):
            return "it isn't a key of 1 to 2,048 bytes"
        if len(item["steps"]) > MOST["steps"]:
            return f"an item has {MOST['steps']} steps at most"
        if sum(step["kind"].startswith("throttle") for step in item["steps"]) > 1:
            return "an item has one step that throttles at most"
        for at, step in enumerate(item["steps"], 1):
            reason = step_flaw(step["kind"], tuple(layout.expanded(text) for text in step["params"]), layout.expanded(step.get("text", "")))
            if reason:
                return f"step {at}: {reason}"
        return None

    def masters(self, layout):
        dependents = {}
        for source, item in layout.each("items"):
            if item.get("kind") != "dependent":
                continue
            master = layout.expanded(item["master"])
            dependents[master] = dependents.get(master, 0) + 1
            if master not in layout.items:
                self.drop(source, "items", item, f"its master item {item['master']} isn't there", layout)
            elif self.level(layout, item) > DEEPEST_LEVEL:
                self.drop(source, "items", item, "it is more than 3 levels below an item that takes values", layout)
            elif dependents[master] > MOST["dependents"]:
                self.drop(source, "items", item, f"its master has {MOST['dependents']:,} dependent items already", layout)

    def level(self, layout, item):
        level = 0
        while item is not None and item.get("kind") == "dependent" and level <= DEEPEST_LEVEL:
            item, level = layout.items.get(layout.expanded(item["master"])), level + 1
        return level

    # ---- triggers

    def triggers(self, layout):
        names, total = {}, 0
        for source, trigger in layout.each("triggers"):
            total += 1
            reason = self.trigger_flaw(layout, trigger)
            if not reason and trigger["name"] in names:
                reason = f"the name is taken by {names[trigger['name']]['_place']}"
            if reason:
                self.drop(source, "triggers", trigger, reason, layout)
            elif id(trigger) not in self.gone:
                names[trigger["name"]] = trigger
            if total > MOST["triggers"]:
                self.drop(source, "triggers", trigger, f"hosts have {MOST['triggers']:,} triggers at most", layout)

    def trigger_flaw(self, layout, trigger):
        if not texts.is_name(trigger["name"]):
            return "a trigger's name has 1 to 255 bytes"
        if len(trigger["tags"]) > MOST["tags"]:
            return f"a trigger has {MOST['tags']} tags at most"
        shown = [trigger["name"]] + [tag["value"] for tag in trigger["tags"]]
        for text in shown + [tag["tag"] for tag in trigger["tags"]]:
            if texts.macro_flaw(text):
                return texts.macro_flaw(text)
        for kind in ("expression", "recovery_expression"):
            if kind in trigger:
                reason = self.expression_flaw(layout, trigger[kind])
                if reason:
                    return f"{kind.replace('_', ' ')}: {reason}"
        return next(filter(None, (texts.pattern_flaw(pattern) for text in shown for pattern in regsubs(layout.expanded(text)))), None)

    def expression_flaw(self, layout, text):
        calls, fault = calls_of(layout.expanded(text))
        if fault:
            return fault
        for call in calls:
            of = layout if call.host in layout.names else self.hosts.get(call.host)
            if of is None:
                return f"the host {call.host} isn't there"
            if call.key not in of.items:
                return f"the item {call.key} of {call.host} isn't there"
            reason = expressions.call_flaw(call, of.items[call.key].get("value_type") != "text")
            if reason:
                return reason
        return None

    # ---- patterns

    def patterns_within_limit(self):
        """The patterns of the hosts in the order in which the program counts them, steps first."""
        for kind in ("items", "triggers"):
            for layout in self.hosts.values():
                for source, thing in layout.each(kind):
                    used = patterns_of_item(layout, thing) if kind == "items" else patterns_of_trigger(layout, thing)
                    if len(self.patterns | used) > MOST["patterns"]:
                        self.drop(source, kind, thing, f"a document has {MOST['patterns']} patterns at most", layout)
                    else:
                        self.patterns |= used
            while kind == "items" and self.items():
                pass
            for layout in self.layouts if kind == "items" else ():
                self.triggers(layout)

    # ---- dependencies

    def depends(self):
        """Which trigger each dependency means: those of exports name a trigger and its expressions."""
        for owner in self.owners.values():
            for trigger in owner["triggers"]:
                trigger["depends"] = []
                for asked in trigger["_depends"]:
                    found, reason = self.meant(owner, asked)
                    if reason:
                        self.report.lost(f"{trigger['_place']}: dependency on {asked[0]}", reason)
                    elif found not in trigger["depends"]:
                        trigger["depends"].append(found)

    def meant(self, owner, asked):
        """The dependency as a document has it, and why there is none."""
        hosts = expressions.hosts_of(asked[1])
        if not hosts or hosts[0] not in self.owners:
            return None, f"its host {hosts[0] if hosts else ''} isn't in the exports"
        host = self.owners[hosts[0]]
        trigger = next((one for source in self.sources(host) for one in source["triggers"] if same(one, asked, source, host)), None)
        if trigger is None:
            return None, "there is no such trigger"
        if not host["_is_template"]:
            return {"trigger": trigger["name"], **({} if host is owner else {"host": host["name"]})}, None
        inheriting = [layout for layout in self.layouts if owner in layout.sources]
        lacking = [layout.owner["name"] for layout in inheriting if host not in layout.sources]
        return {"trigger": trigger["name"]}, f"{lacking[0]} hasn't its template {host['name']}" if lacking else None

    def sources(self, owner):
        return Layout(owner, self.owners, {}).sources


def same(trigger, asked, source, host):
    """The trigger is the one asked for: as it is written, or as the host has it from the template."""
    name, *wanted = asked
    given = [text.replace(f"/{source['name']}/", f"/{host['name']}/") for text in trigger["_asked"][1:]]
    return trigger["_asked"][0] == name and given[0] == wanted[0] and (not wanted[1] or given[1] == wanted[1])


@lru_cache(maxsize=100_000)
def calls_of(text):
    """The calls of an expression, or why it is none. Hosts of one template have the same one mostly."""
    try:
        return expressions.read(text)[0], None
    except expressions.Fault as fault:
        return [], why(fault, text)


def why(fault, text):
    """A fault in words; what can't be read because of a macro is said so."""
    if texts.macro_flaw(text):
        return texts.macro_flaw(text)
    rest = text.encode()[fault.at :].decode(errors="replace")
    macro = texts.REFERENCE.match(rest)
    if macro:
        return f"the macro {macro[0]} has no value"
    return fault.why or f"no expression goes on at {rest[:40]!r}"


def regsubs(text):
    """The patterns of `regsub` in a text."""
    return [unquoted(match[1].strip()) for match in REGSUB.finditer(text)]


def unquoted(text):
    return text[1:-1].replace('\\"', '"') if text[:1] == '"' else text


def patterns_of_item(layout, item):
    kinds = ("regex", "matches", "not_matches", "regex_error")
    return {layout.expanded(step["params"][0]) for step in item["steps"] if step["kind"] in kinds}


def patterns_of_trigger(layout, trigger):
    found = {pattern for text in [trigger["name"]] + [tag["value"] for tag in trigger["tags"]] for pattern in regsubs(layout.expanded(text))}
    for kind in ("expression", "recovery_expression"):
        for call in calls_of(layout.expanded(trigger[kind]))[0] if kind in trigger else ():
            if call.operator in ("regexp", "iregexp"):
                found.add("(?i)" * (call.operator == "iregexp") + call.argument)
    return found


@lru_cache(maxsize=100_000)
def step_flaw(kind, params, text):
    """Why the program doesn't take a step with these parameters, or None."""
    if any(len(one.encode()) > LONGEST_PARAMETER for one in (*params, text)):
        return "a parameter has 65,535 bytes at most"
    if kind in ("regex", "matches", "not_matches", "regex_error"):
        return texts.pattern_flaw(params[0])
    if kind in ("jsonpath", "json_error"):
        return paths.flaw(params[0])
    if kind == "replace" and not params[0]:
        return "there is nothing to replace"
    if kind == "multiplier" and texts.number(params[0]) is None:
        return f"{params[0]} is no number"
    if kind == "in_range":
        bounds = [texts.number(one) for one in params]
        if params == ("", "") or any(one and bound is None for one, bound in zip(params, bounds)):
            return "its bounds are no numbers"
        if None not in bounds and bounds[0] > bounds[1]:
            return "its least number is above its greatest"
    if kind == "throttle_heartbeat" and not 1 <= (texts.period(params[0]) or 0) <= 365 * 86400:
        return f"{params[0]} isn't a period of 1 second to 365 days"
    return None
