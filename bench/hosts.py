"""Prints a configuration: one template with 100 items and 10 triggers, and so many hosts that are linked to it. With the
word `calls` behind the number of hosts the template has 50 triggers, each with ten calls, four tags and a dependency."""

import json
import sys

ITEMS = [{"key": f"net.if.in[eth{number},{{$MODE}}]"} for number in range(100)]
TRIGGERS = [
    {"name": f"high {number} on {{$MODE}}", "expression": f"last(/T/net.if.in[eth{number},{{$MODE}}])>{{$MAX}}"}
    for number in range(10)
]
KEYS = [item["key"] for item in ITEMS]
CALLS = [
    {
        "name": f"many {number} on {{$MODE}}",
        "expression": " and ".join(f"avg(/T/{KEYS[(number + call) % 100]},5m)>{{$MAX}}" for call in range(10)),
        "tags": [{"tag": f"tag {tag}", "value": "{$MODE} {ITEM.VALUE}"} for tag in range(4)],
        "depends": [{"trigger": f"many {number - 1} on {{$MODE}}"}] if number else [],
    }
    for number in range(50)
]
MACROS = [{"name": "{$MAX}", "value": "100"}, {"name": "{$MODE}", "value": "bytes"}]


def host(number):
    """A host with a macro of its own."""
    return {
        "name": f"host {number:04}",
        "templates": ["T"],
        "macros": [{"name": "{$MAX}", "value": str(number)}],
        "groups": ["g"],
    }


print(
    json.dumps(
        {
            "templates": [{"name": "T", "macros": MACROS, "items": ITEMS, "triggers": CALLS if sys.argv[2:] == ["calls"] else TRIGGERS}],
            "hosts": [host(number) for number in range(int(sys.argv[1]))],
        }
    )
)
