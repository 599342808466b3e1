"""What the API tells beside exports, turned into a document's macros, maintenances, actions and correlations.

The file has the answers under the names of the calls, as contrib/ask-zabbix writes it.
"""

import json
import re

from . import texts
from .export import Unreadable, as_texts, listed

MESSAGE_MACROS = {
    "{EVENT.ID}", "{EVENT.NAME}", "{EVENT.SEVERITY}", "{EVENT.DATE}", "{EVENT.TIME}", "{EVENT.TAGS}", "{HOST.NAME}", "{TRIGGER.NAME}",
}  # fmt: skip
RECOVERY_MACROS = MESSAGE_MACROS | {"{EVENT.RECOVERY.DATE}", "{EVENT.RECOVERY.TIME}"}
SAME_MACROS = {"{HOST.HOST}": "{HOST.NAME}", "{TRIGGER.SEVERITY}": "{EVENT.SEVERITY}"}
MACRO = re.compile(r"\{\$?[A-Z][A-Z0-9_.]*[1-9]?(?::[^}]*)?\}|\{\{[A-Z][^}]*\}[^}]*\}|\{\?[^}]*\}")
TAG_OPERATORS = {"0": "equals", "1": "not_equals", "2": "contains", "3": "not_contains"}
SEVERITY_OPERATORS = {"0": "eq", "5": "ge", "6": "le"}
MOST = {"correlations": 32, "maintenances": 256, "actions": 64, "conditions": 16, "periods": 16, "recipients": 16}


class Left(Exception):
    """Why something can't be carried."""


def load(path):
    try:
        with open(path, encoding="utf-8") as file:
            answers = json.load(file)
    except (OSError, ValueError) as error:
        raise Unreadable(f"{path}: {error}") from None
    if not isinstance(answers, dict) or not all(isinstance(value, list) for value in answers.values()):
        raise Unreadable(f"{path}: it isn't what contrib/ask-zabbix writes")
    return as_texts(answers)


class Rules:
    def __init__(self, path, answers, hosts, report, default_message=None, default_recovery=None):
        self.path, self.answers, self.hosts, self.report = path, answers, hosts, report
        self.defaults = {False: default_message, True: default_recovery}
        self.users = {user["userid"]: user.get("username") or user.get("alias", "") for user in listed(answers, "user.get")}
        self.user_groups = {group["usrgrpid"]: group for group in listed(answers, "usergroup.get")}
        self.groups = {group["groupid"]: group["name"] for group in listed(answers, "hostgroup.get")}
        self.host_names = {host["hostid"]: host["host"] for host in listed(answers, "host.get")}
        self.knows = {
            "usermacro.get", "maintenance.get", "action.get", "correlation.get", "user.get", "usergroup.get", "hostgroup.get", "host.get",
        }  # fmt: skip
        for call in sorted(set(answers) - self.knows):
            report.lost(f"{path}: {call}", "what this call tells isn't read")

    def macros(self):
        found, names = [], set()
        for raw in listed(self.answers, "usermacro.get"):
            name, place = raw.get("macro", ""), f"{self.path}: global macro {raw.get('macro', '')}"
            if raw.get("type", "0") != "0":
                self.report.lost(place, "its value is secret")
            elif texts.macro_flaw(name):
                self.report.lost(place, "macros with a context aren't here")
            elif not texts.MACRO_NAME.match(name) or len(name) > 255 or name in names:
                self.report.lost(place, "a macro's name is of A to Z, 0 to 9, _ and ., and stands once")
            else:
                names.add(name)
                found.append({"name": name, "value": raw.get("value", "")})
        return found

    def each(self, call, word, number, most, make):
        """The objects of a call in the order of their making, of which those that can't be carried are told."""
        found, names = [], set()
        for raw in sorted(listed(self.answers, call), key=lambda one: int(one.get(number, "0"))):
            name = raw.get("name", "")
            place = f"{self.path}: {word} {name}"
            if raw.get("status", "0") != "0":
                self.report.note(place, "it is disabled, so it is left out")
                continue
            try:
                if not texts.is_name(name) or name in names:
                    raise Left("a name has 1 to 255 bytes, and stands once")
                if len(found) == most:
                    raise Left(f"a document has {most} at most")
                made = make(place, raw)
            except Left as left:
                self.report.lost(place, str(left))
                continue
            except (KeyError, ValueError) as error:
                self.report.lost(place, f"it isn't whole: {error}")
                continue
            names.add(name)
            found.append({"name": name, **made})
        return found

    # ---- conditions

    def conditions(self, filter_, one_condition):
        """The conditions of a filter, and whether all or any must hold; what mixes both can't be carried."""
        raws = listed(filter_, "conditions")
        if not raws:
            return {}
        found, match = [one_condition(raw) for raw in raws], self.match(filter_, raws)
        if any(len(one) > 1 for one in found) and len(found) > 1 and match != "or":
            raise Left("a host group of its conditions has groups below it, and the other conditions must hold too")
        match = "or" if any(len(one) > 1 for one in found) else match
        found = [one for some in found for one in some]
        if len(found) > MOST["conditions"]:
            raise Left(f"it has more than {MOST['conditions']} conditions")
        return {"match": match, "conditions": found} if match == "or" else {"conditions": found}

    def match(self, filter_, raws):
        """`and` or `or`, of what the API calls the evaluated formula, or of the way in which conditions are joined."""
        words = re.findall(r"\w+|[()]", filter_.get("eval_formula") or filter_.get("formula") or "")
        joined = {word for word in words if word in ("and", "or", "not")}
        if "not" in joined or joined == {"and", "or"} or len(set(words) - {"(", ")", "and", "or"}) < len(raws) > 1 and words:
            raise Left(f"its formula isn't all of its conditions or any of them: {filter_.get('eval_formula')}")
        if joined:
            return joined.pop()
        kinds = {raw.get("conditiontype", raw.get("type")) for raw in raws}
        way = filter_.get("evaltype", "0")
        if way == "0" and 1 < len(kinds) < len(raws):
            raise Left("some of its conditions are joined by or and others by and")
        return "or" if way == "2" or way == "0" and len(kinds) == 1 and len(raws) > 1 else "and"

    def below(self, group_id):
        """A host group's name and those of the groups below it, which the real server means with it."""
        if group_id not in self.groups:
            raise Left(f"there is no host group {group_id} in the file")
        name = self.groups[group_id]
        return [name] + sorted(one for one in self.groups.values() if one.startswith(f"{name}/"))

    def action_condition(self, raw):
        kind, operator, value = raw["conditiontype"], raw.get("operator", "0"), raw.get("value", "")
        if kind == "4" and operator in SEVERITY_OPERATORS:
            return [{"kind": "severity", "op": SEVERITY_OPERATORS[operator], "value": int(value)}]
        if kind == "1" and operator == "0":
            return [{"kind": "host", "host": self.host(value)}]
        if kind == "0" and operator == "0":
            return [{"kind": "group", "group": name} for name in self.below(value)]
        if kind == "3" and operator == "2":
            return [{"kind": "trigger_name", "text": value}]
        if kind == "25" and operator == "0":
            return [{"kind": "tag", "tag": value}]
        if kind == "26" and operator in TAG_OPERATORS:
            return [{"kind": "tag_value", "tag": raw.get("value2", ""), "op": TAG_OPERATORS[operator], "value": value}]
        if kind == "16" and operator in ("10", "11"):
            return [{"kind": "suppressed" if operator == "10" else "not_suppressed"}]
        raise Left(f"its condition of the type {kind} with the operator {operator} isn't here")

    def rule_condition(self, raw):
        kind, operator = raw["type"], raw.get("operator", "0")
        if kind in ("0", "1"):
            return [{"kind": ("old_tag", "new_tag")[int(kind)], "tag": raw.get("tag", "")}]
        if kind == "2" and operator == "0":
            return [{"kind": "new_group", "group": name} for name in self.below(raw.get("groupid", ""))]
        if kind == "3":
            return [{"kind": "tag_pair", "old": raw.get("oldtag", ""), "new": raw.get("newtag", "")}]
        if kind in ("4", "5") and operator in TAG_OPERATORS:
            name = "old_tag_value" if kind == "4" else "new_tag_value"
            return [{"kind": name, "tag": raw.get("tag", ""), "op": TAG_OPERATORS[operator], "value": raw.get("value", "")}]
        raise Left(f"its condition of the type {kind} with the operator {operator} isn't here")

    def host(self, host_id):
        name = self.host_names.get(host_id)
        if name not in self.hosts:
            raise Left(f"its host {name or host_id} isn't in the document")
        return name

    # ---- correlations

    def correlations(self):
        return self.each("correlation.get", "correlation", "correlationid", MOST["correlations"], self.correlation)

    def correlation(self, place, raw):
        made = self.conditions(raw.get("filter", {}), self.rule_condition)
        if not made:
            raise Left("it has no conditions")
        close = [word for word, kind in (("old", "0"), ("new", "1")) if any(one["type"] == kind for one in listed(raw, "operations"))]
        if not close:
            raise Left("it closes nothing")
        return {**made, "close": close}

    # ---- maintenances

    def maintenances(self):
        return self.each("maintenance.get", "maintenance", "maintenanceid", MOST["maintenances"], self.maintenance)

    def maintenance(self, place, raw):
        since, till = int(raw["active_since"]), int(raw["active_till"])
        made = {"since": since, "till": till}
        if since >= till:
            raise Left("it ends before it begins")
        if raw.get("maintenance_type", "0") == "1":
            made["collect"] = False
        hosts = []
        for host in listed(raw, "hosts"):
            name = host.get("host") or self.host_names.get(host.get("hostid"), host.get("hostid", ""))
            if name in self.hosts:
                hosts.append(name)
            else:
                self.report.lost(place, f"its host {name} isn't in the document")
        groups = [name for group in listed(raw, "groups") for name in self.below(group["groupid"])]
        if not hosts and not groups:
            raise Left("it has no hosts and no groups")
        made.update({name: value for name, value in (("hosts", hosts), ("groups", sorted(set(groups)))) if value})
        if listed(raw, "tags") and "collect" not in made:
            made.update(self.maintenance_tags(raw))
        made["periods"] = [self.period(one) for one in listed(raw, "timeperiods")]
        if not 1 <= len(made["periods"]) <= MOST["periods"]:
            raise Left(f"a maintenance has 1 to {MOST['periods']} periods")
        return made

    def maintenance_tags(self, raw):
        tags = [{"tag": one["tag"], "op": TAG_OPERATORS[one.get("operator", "2")], "value": one.get("value", "")} for one in raw["tags"]]
        names = {one["tag"] for one in tags}
        is_or = raw.get("tags_evaltype", "0") == "2" or len(names) == 1 < len(tags)
        if not is_or and len(names) < len(tags):
            raise Left("some of its tags are joined by or and others by and")
        return {"match": "or", "tags": tags} if is_or else {"tags": tags}

    def period(self, raw):
        length, kind = int(raw["period"]), raw["timeperiod_type"]
        if not 300 <= length <= 31 * 86400:
            raise Left(f"a period has 300 seconds to 31 days, and one of its has {length} seconds")
        if kind == "0":
            return {"kind": "once", "start": int(raw["start_date"]), "length": f"{length}s"}
        found, every = {"at": int(raw["start_time"]), "length": f"{length}s"}, int(raw.get("every", "1"))
        if kind == "2" and 1 <= every <= 365:
            return {"kind": "daily", "every": every, **found}
        if kind == "3" and 1 <= every <= 52:
            return {"kind": "weekly", "every": every, "days": bits(raw["dayofweek"], 7), **found}
        if kind == "4" and int(raw.get("dayofweek", "0")):
            raise Left("monthly periods by days of the week aren't here")
        if kind == "4" and 1 <= int(raw["day"]) <= 31:
            return {"kind": "monthly", "months": bits(raw["month"], 12), "day": int(raw["day"]), **found}
        raise Left(f"a period of the type {kind} with these numbers isn't here")

    # ---- actions

    def actions(self):
        return self.each("action.get", "action", "actionid", MOST["actions"], self.action)

    def action(self, place, raw):
        if raw.get("eventsource", "0") != "0":
            raise Left("only events of triggers are here, and it is for others")
        made = self.conditions(raw.get("filter", {}), self.action_condition)
        made["step_duration"] = self.duration(raw.get("esc_period", "1h"), 60)
        if raw.get("pause_suppressed", "1") == "0":
            made["pause_suppressed"] = False
        made["operations"] = self.kept(place, "operation", listed(raw, "operations"), self.operation)
        first = {name for one in made["operations"] if one["from"] == 1 for name in one["recipients"]}
        told = {name for one in made["operations"] for name in one["recipients"]}
        made["recovery"] = self.kept(
            place, "recovery operation", listed(raw, "recovery_operations"), lambda at, one: self.recovery(at, one, first, told)
        )
        for one in listed(raw, "update_operations"):
            self.report.lost(f"{place}: update operation {one.get('operationid', '')}", "problems aren't acknowledged or changed here")
        if not made["operations"]:
            raise Left("it has no operations that can be carried")
        return made

    def kept(self, place, word, raws, make):
        found = []
        for number, raw in enumerate(raws, 1):
            at = f"{place}: {word} {number}"
            try:
                found.append(make(at, raw))
            except Left as left:
                self.report.lost(at, str(left))
        return found

    def duration(self, text, least):
        seconds = texts.period(text)
        if seconds is None or not (seconds == 0 and least == 0 or 60 <= seconds <= 7 * 86400):
            raise Left(f"the duration {text} isn't a period of 60 seconds to 7 days")
        return text

    def operation(self, place, raw):
        if raw.get("operationtype", "0") != "0":
            raise Left("it sends no message, and nothing else is done here")
        if listed(raw, "opconditions"):
            raise Left("it hangs on whether the problem is acknowledged, which isn't here")
        begin, end = int(raw.get("esc_step_from", "1")), int(raw.get("esc_step_to", "1"))
        made = {"from": begin, "to": end}
        duration = self.duration(raw.get("esc_period", "0"), 0)
        if texts.period(duration):
            made["duration"] = duration
        if end and end < begin or not 1 <= begin <= 1_000_000:
            raise Left(f"steps {begin} to {end} aren't steps")
        return {**made, "recipients": self.recipients(place, raw), **self.message(place, raw, False)}

    def recovery(self, place, raw, first, told):
        kind = raw.get("operationtype", "0")
        if kind == "11":
            if first != told:
                raise Left("it tells all who were told, and those of later steps may not have been")
            return {"recipients": sorted(told), **self.message(place, raw, True)} if told else self.nobody()
        if kind != "0":
            raise Left("it sends no message, and nothing else is done here")
        return {"recipients": self.recipients(place, raw), **self.message(place, raw, True)}

    def nobody(self):
        raise Left("it tells nobody")

    def recipients(self, place, raw):
        names = [self.users.get(one["userid"]) for one in listed(raw, "opmessage_usr")]
        if None in names:
            raise Left("a user of its isn't in the file")
        for one in listed(raw, "opmessage_grp"):
            group = self.user_groups.get(one["usrgrpid"])
            if group is None:
                raise Left(f"the user group {one['usrgrpid']} isn't in the file")
            names += [self.users.get(user["userid"], user.get("username", "")) for user in listed(group, "users")]
        names = list(dict.fromkeys(names))
        if not 1 <= len(names) <= MOST["recipients"]:
            raise Left(f"a message has 1 to {MOST['recipients']} recipients, and this one {len(names)}")
        return names

    def message(self, place, raw, is_recovery):
        message = raw.get("opmessage", {})
        subject, body = message.get("subject", ""), message.get("message", "")
        if message.get("default_msg", "1") == "1":
            if not self.defaults[is_recovery]:
                option = "--default-recovery" if is_recovery else "--default-message"
                raise Left(f"its message is that of the media type, which isn't here: {option} gives one")
            subject, body = self.defaults[is_recovery]
        if message.get("mediatypeid", "0") != "0":
            self.report.lost(place, "its message is for one media type, and goes to the recipient whatever takes it")
        return {"subject": self.with_macros(place, subject, is_recovery), "body": self.with_macros(place, body, is_recovery)}

    def with_macros(self, place, text, is_recovery):
        for name, other in SAME_MACROS.items():
            text = text.replace(name, other)
        for macro in MACRO.findall(text):
            if macro not in (RECOVERY_MACROS if is_recovery else MESSAGE_MACROS):
                self.report.lost(place, f"{macro} isn't replaced in messages")
        return text


def bits(number, most):
    found = [at + 1 for at in range(most) if int(number) >> at & 1]
    if not found:
        raise Left("a period of it has no days or no months")
    return found
