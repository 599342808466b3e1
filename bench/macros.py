"""Prints a configuration with many global macros, of which each host, each item or one key names the last.

usage: macros.py hosts MACROS HOSTS    hosts with one item each
       macros.py items MACROS ITEMS    a template of 100 items, and as many hosts of it as make so many items
       macros.py key REFERENCES BYTES  a key of so many references to a macro of so many bytes
"""

import json
import sys


def macros(count):
    """Global macros, each with a value of its own."""
    return [{"name": f"{{$M{number}}}", "value": f"v{number}"} for number in range(count)]


def of_hosts(count, hosts):
    """Hosts whose one item names the last macro."""
    key = f"k[{{$M{count - 1}}}]"
    return {
        "macros": macros(count),
        "hosts": [{"name": f"host {number:04}", "items": [{"key": key}]} for number in range(hosts)],
    }


def of_items(count, items):
    """Items that each name the last macro, 100 a host."""
    keys = [{"key": f"k{number}[{{$M{count - 1}}}]"} for number in range(100)]
    return {
        "macros": macros(count),
        "templates": [{"name": "T", "items": keys}],
        "hosts": [{"name": f"host {number:04}", "templates": ["T"]} for number in range(items // 100)],
    }


def of_key(references, size):
    """A key that would be as long as all of its references together."""
    return {
        "macros": [{"name": "{$M}", "value": "m" * size}],
        "hosts": [{"name": "host", "items": [{"key": "{$M}" * references}]}],
    }


KINDS = {"hosts": of_hosts, "items": of_items, "key": of_key}
print(json.dumps(KINDS[sys.argv[1]](int(sys.argv[2]), int(sys.argv[3]))))
