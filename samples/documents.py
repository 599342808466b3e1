#!/usr/bin/env python3
"""Opens a built program on many documents of a configuration, and compares what is refused, where and why with what is expected.

usage: samples/documents.py PROGRAM

The documents are those of samples/documents.txt, and others that are made here: at a limit and one above it, with long keys and
macros, and with an expression or a pattern each.
"""

import json
import os
import subprocess
import sys
import tempfile
from concurrent.futures import ThreadPoolExecutor

TAKEN = "-"


def listed(path):
    with open(path) as it:
        for line in it:
            if not line.startswith("#"):
                yield line.rstrip("\n").split("\t")


def lists():
    """The most elements of a list: as many zeros are refused at the first, and one more at the list."""
    for most, cause, pointer, front, back in (
        (1000, "TooMany", "/templates", '{"templates":[', "]}"),
        (1000, "TooMany", "/hosts", '{"hosts":[', "]}"),
        (32, "TooMany", "/hosts/0/items/0/steps", '{"hosts":[{"name":"h","items":[{"key":"k","steps":[', "]}]}]}"),
        (16, "TooMany", "/hosts/0/triggers/0/tags", '{"hosts":[{"name":"h","triggers":[{"name":"t","expression":"e","tags":[', "]}]}]}"),
        (32, "TooMany", "/correlations", '{"correlations":[', "]}"),
        (16, "BadMember", "/correlations/0/conditions", '{"correlations":[{"name":"r","conditions":[', "]}]}"),
        (256, "TooMany", "/maintenances", '{"maintenances":[', "]}"),
        (16, "BadMember", "/maintenances/0/periods", '{"maintenances":[{"name":"m","since":1,"till":2,"periods":[', "]}]}"),
        (64, "TooMany", "/actions", '{"actions":[', "]}"),
        (16, "BadMember", "/actions/0/conditions", '{"actions":[{"name":"a","conditions":[', "]}]}"),
        (16, "BadMember", "/actions/0/operations/0/recipients", '{"actions":[{"name":"a","operations":[{"recipients":[', "]}]}]}"),
        (16, "BadMember", "/actions/0/recovery/0/recipients", '{"actions":[{"name":"a","recovery":[{"recipients":[', "]}]}]}"),
    ):
        yield "BadMember", f"{pointer}/0", front + ",".join("0" * most) + back
        yield cause, pointer, front + ",".join("0" * (most + 1)) + back


def dependents():
    """An item may have 1,000 dependent items."""
    for count, cause, pointer in ((1000, TAKEN, TAKEN), (1001, "TooMany", "/hosts/0/items/1001/master")):
        items = [{"key": "k"}, *({"key": f"d{place}", "kind": "dependent", "master": "k"} for place in range(count))]
        yield cause, pointer, json.dumps({"hosts": [{"name": "h", "items": items}]})


def steps():
    """A parameter or a text of a step has 65,535 bytes at most, behind its macros."""
    parameter = {"kind": "trim", "params": ["{$M}"]}
    text = {"kind": "multiplier", "params": ["1"], "on_fail": "value", "text": "{$M}"}
    for size, step, cause, pointer in (
        (65_535, parameter, TAKEN, TAKEN),
        (65_536, parameter, "BadMember", "/hosts/0/items/0/steps/0/params/0"),
        (65_535, text, TAKEN, TAKEN),
        (65_536, text, "BadMember", "/hosts/0/items/0/steps/0/text"),
    ):
        macros = [{"name": "{$M}", "value": "m" * size}]
        yield cause, pointer, json.dumps({"macros": macros, "hosts": [{"name": "h", "items": [{"key": "k", "steps": [step]}]}]})


def keys():
    """A key has 2,048 bytes at most, and what stands behind the longest front that is one is at fault."""
    for key, cause in (
        ("k" * 2048, TAKEN),
        ("k" * 2049, "BadKey at 2048"),
        (f"k[{'k' * 2045}]", TAKEN),
        (f"k[{'k' * 2045}]k", "BadKey at 2048"),
        (f"k[{'k' * 2046}]", "BadKey at 1"),
    ):
        yield cause, TAKEN if cause == TAKEN else "/hosts/0/items/0/key", json.dumps({"hosts": [{"name": "h", "items": [{"key": key}]}]})


def long_macros():
    """A key has 2,048 bytes at most and an expression 4,096, behind their macros, and what is wrong before the limit is told."""
    key, expression = "/hosts/0/items/0/key", "/hosts/0/triggers/0/expression"
    for size, text, asks, cause, pointer in (
        (2048, "{$M}", "last(/h/{$M})>1", TAKEN, TAKEN),
        (2049, "{$M}", "last(/h/{$M})>1", "BadKey at 2048", key),
        (2000, "{$M}[{$M}]", "last(/h/{$M})>1", "BadKey at 2000", key),
        (4083, "k", "last(/h/k)>1.{$M}", TAKEN, TAKEN),
        (4084, "k", "last(/h/k)>1.{$M}", "BadExpression at 4096", expression),
        (4085, "k", "last(/h/k)>1{$M}.5", "BadExpression at 35", expression),
        (4084, "k", "last(/h/k)>0{$M}.5", "BadExpression at 36", expression),
        (5000, "k", "last(/h/k)>1.{$M}x", "BadExpression at 4096", expression),
        (5000, "k", "last(/h/k)>x{$M}", "BadExpression at 11", expression),
        (1_000_000, "{$M}" * 5000, "e", "BadKey at 2048", key),
    ):
        host = {"name": "h", "items": [{"key": text}], "triggers": [{"name": "t", "expression": asks}]}
        yield cause, pointer, json.dumps({"macros": [{"name": "{$M}", "value": "1" * size}], "hosts": [host]})


EXPRESSIONS = """\
BadExpression at 0	 last(/h/k)
BadExpression at 4	last (/h/k)
BadExpression at 9	last(/h/k )
BadExpression at 4	now( )>last(/h/k)
-	last(/h/k)or 1
BadExpression at 1	1or last(/h/k)
BadExpression at 4	1 or2
BadExpression at 4	1 or
BadExpression at 3	1 ox
BadExpression at 4	1+not last(/h/k)
-	1+ not last(/h/k)
BadExpression at 6	not not last(/h/k)
-	not -last(/h/k)
BadExpression at 3	not-last(/h/k)
BadExpression at 1	--last(/h/k)
BadExpression at 4	- not last(/h/k)
BadExpression at 12	last(/h/k)< =1
-	last(/h/k)<=1
BadExpression at 11	last(/h/k)=>1
BadExpression at 12	last(/h/k)>2)
BadExpression at 0	now()>0
BadExpression at 0	now()>1
BadExpression at 0	1
BadExpression at 11	last(/h/k)>
BadExpression at 12	last(/h/k)>1e3
-	last(/h/k,#10000)
BadExpression at 15	last(/h/k,#10001)
BadExpression at 12	last(/h/k,#0)
-	last(/h/k,#01)
BadExpression at 10	last(/h/k,5m)
-	avg(/h/k,31d)
BadExpression at 11	avg(/h/k,32d)
BadExpression at 10	avg(/h/k,0)
BadExpression at 10	avg(/h/k,0m)
-	avg(/h/k,5m:now-0)
BadExpression at 18	avg(/h/k,5m:now-32d)
BadExpression at 15	avg(/h/k,5m:now)
BadExpression at 8	avg(/h/k)
BadExpression at 8	avg(/h/k)>1
BadExpression at 9	avg(/h/k,)
BadExpression at 14	nodata(/h/k,29)
-	nodata(/h/k,30s)
BadExpression at 14	nodata(/h/k,29s)
BadExpression at 14	nodata(/h/k,1m:now-1h)
BadExpression at 12	nodata(/h/k,#1)
BadExpression at 13	last(/h/k)>1.
-	last(/h/k)>1.5K
BadExpression at 13	last(/h/k)>1KK
-	last(/h/k)>1000000000000000000000000
BadExpression at 35	last(/h/k)>1000000000000000000000001
BadExpression at 33	last(/h/k)>1000000000000000000000T
-	last(/h/k,)
-	last(/h/k, #2)
BadExpression at 10	last(/h/k,,)
BadExpression at 11	change(/h/k,)
BadExpression at 18	count(/h/k,5m,"likx")
-	count(/h/w,5m,"","a")
BadExpression at 14	count(/h/k,5m,eq)
-	count(/h/k,5m,"gt",5K)
BadExpression at 25	count(/h/k,5m,"gt","a\\\\")
-	percentile(/h/k,5m,95)
-	percentile(/h/k,5m,"1m")
BadExpression at 21	percentile(/h/k,5m,101)
BadExpression at 20	percentile(/h/k,5m,"")
BadExpression at 18	percentile(/h/k,5m)
-	monoinc(/h/k,5m,"strict")
BadExpression at 17	monoinc(/h/k,5m,"all")
-	changecount(/h/k,5m,"dec")
BadExpression at 13	last(/h/k["a"x
BadExpression at 6	last(//k)
BadExpression at 8	last(/h/)
BadExpression at 6	last(/é/k)
-	last(/h/k[é])
-	nodata(/h/k,3m)=1
-	avg(/h/k,1h)/avg(/h/k,1h:now-1d)>2
-	count(/h/w,#10,"eq","a\\"b\\c")=-1
BadExpression at 0	count(/h/k,5m,"eq","x")>0
BadExpression at 0	count(/h/k,5m,"le")>0
BadExpression at 0	find(/h/k,,,"x")
BadExpression at 0	find(/h/k,,,"1000000000000000000000001")
-	find(/h/k,,,"1000000000000000000000000")
-	count(/h/k,5m,"ge","-2.5K")>0
BadExpression at 0	last(/g/k)>count(/T/k,5m,"gt","x")
UnknownName	last(/g/k)>count(/T/w,5m,"gt","x")
UnknownName	last(/U/k)>0
UnknownName	last(/h/m)+last(/h/w)>0
WrongValueType	last(/h/w)+last(/h/m)>0
WrongValueType	first(/h/w,5m)
WrongValueType	min(/h/w,5m)
WrongValueType	max(/h/w,5m)
WrongValueType	avg(/h/w,5m)
WrongValueType	sum(/h/w,5m)
WrongValueType	percentile(/h/w,5m,95)
WrongValueType	monoinc(/h/w,5m)
WrongValueType	monodec(/h/w,5m)
WrongValueType	count(/h/w,5m,"gt","1")
WrongValueType	count(/h/w,5m,"ge","1")
WrongValueType	find(/h/w,5m,"lt","1")
WrongValueType	find(/h/w,5m,"le","1")
WrongValueType	find(/h/k,5m,"like","1")
-	change(/h/w)+count(/h/w,5m,"ne","a")+find(/h/w,5m,"like","b")+find(/h/w,5m,,"c")+nodata(/h/w,30s)+changecount(/h/w,5m)
-	count(/h/k,5m)+find(/h/k,5m,"regexp","1")+monoinc(/h/k,5m,"strict")+percentile(/h/k,5m,95)
"""


def with_triggers(triggers):
    items = [{"key": "k"}, {"key": "w", "value_type": "text"}, {"key": "k[é]"}]
    host = {"name": "h", "templates": ["T"], "items": items, "triggers": triggers}
    return json.dumps({"templates": [{"name": "T"}, {"name": "U"}], "hosts": [host]})


def expressions():
    """Over the numbers k and the texts w of the host h, which has the template T and not U; and 32 calls, which are the most."""
    pointer = "/hosts/0/triggers/0/expression"
    cases = [line.split("\t") for line in EXPRESSIONS.splitlines()]
    cases += [[TAKEN, "+".join(["last(/h/k)"] * 32)], ["BadExpression at 352", "+".join(["last(/h/k)"] * 33)]]
    cases += [["BadExpression at 0", ""], ["BadExpression at 11", "last(/h/k) "]]
    for cause, text in cases:
        yield cause, TAKEN if cause == TAKEN else pointer, with_triggers([{"name": "t", "expression": text}])


def limits_of_expressions():
    """An expression has 32 open parentheses and 32 calls at most, a host 128 bytes and a key 2,048."""

    def nested(depth):
        return "(" * depth + "last(/h/k)" + ")" * depth

    def call(host, key):
        """A call with a host and a key of that many bytes, in which the key has a bracket that isn't closed."""
        return "last(/" + "h" * host + "/k[" + "x" * (key - 2)

    for cause, text in (
        (TAKEN, nested(32)),
        ("BadExpression at 32", nested(33)),
        (TAKEN, "1" + "+last(/h/k)" * 32),
        ("BadExpression at 354", "1" + "+last(/h/k)" * 33),
        ("BadExpression at 144", call(128, 9)),
        ("BadExpression at 134", call(129, 9)),
        ("BadExpression at 2056", call(1, 2048)),
        ("BadExpression at 2056", call(1, 2050)),
        ("BadExpression at 4096", call(1, 2047) + "])+" + call(1, 2050)),
    ):
        pointer = TAKEN if cause == TAKEN else "/hosts/0/triggers/0/expression"
        yield cause, pointer, with_triggers([{"name": "t", "expression": text}])


def patterns():
    """A pattern has 255 bytes at most, with what stands before it where letters of both cases are alike; a document has 128."""

    def trigger(name, op, text):
        return {"name": name, "expression": f'find(/h/w,,"{op}","{text}")'}

    for op, size, cause in (("regexp", 255, TAKEN), ("regexp", 256, "BadMember"), ("iregexp", 251, TAKEN), ("iregexp", 252, "BadMember"), ("like", 4000, TAKEN)):
        yield cause, TAKEN if cause == TAKEN else "/hosts/0/triggers/0/expression", with_triggers([trigger("t", op, "a" * size)])
    for count, last, cause, pointer in ((127, "new", TAKEN, TAKEN), (128, "p7", TAKEN, TAKEN), (128, "new", "TooMany", "/hosts/0/triggers/128/expression")):
        yield cause, pointer, with_triggers([*(trigger(f"t{place}", "regexp", f"p{place}") for place in range(count)), trigger("last", "regexp", last)])


def flaw(program, folder, number, cause, pointer, document):
    """What is said of a document that isn't as expected, or nothing."""
    with open(f"{folder}/{number}", "w") as it:
        it.write(document)
    words = [program, "--mode", "feed", "--config", f"{folder}/{number}", "--script", f"{folder}/script", "--syncers", "0"]
    ran = subprocess.run(words, stdin=subprocess.DEVNULL, capture_output=True, text=True, timeout=60)
    os.unlink(f"{folder}/{number}")
    if cause == TAKEN:
        is_right = ran.stdout.startswith("status: Ok;") and ran.returncode == 0
    else:
        is_right = ran.stdout == f"status: ConfigRefused; path: {pointer}; cause: {cause}\n" and ran.returncode == 3
    return "" if is_right else f"{cause} {pointer} {document[:200]}: exit {ran.returncode}, {ran.stdout.strip()[:200]}"


def main():
    if len(sys.argv) != 2:
        print("usage: samples/documents.py PROGRAM", file=sys.stderr)
        return 2
    program = os.path.realpath(sys.argv[1])
    cases = [*listed(f"{os.path.dirname(os.path.abspath(__file__))}/documents.txt")]
    for made in (lists, dependents, steps, keys, long_macros, expressions, limits_of_expressions, patterns):
        cases += made()
    with tempfile.TemporaryDirectory() as folder, ThreadPoolExecutor(os.cpu_count()) as pool:
        open(f"{folder}/script", "w").close()
        found = pool.map(lambda it: flaw(program, folder, it[0], *it[1]), enumerate(cases))
        flaws = [it for it in found if it]
    for it in flaws:
        print(it)
    print(f"{len(cases)} documents, {len(flaws)} differ")
    return 1 if flaws else 0


if __name__ == "__main__":
    sys.exit(main())
