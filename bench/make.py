"""Makes the scripts of the benchmark in a folder, and a table of them in its file `workloads`."""

import os
import struct
import sys

FOLDER = sys.argv[1]
PART = int(sys.argv[2])

LONGEST = 16_777_216 // PART
FRAMES = max(1, 1_000 // PART)
VALUES = 250

HEAD = '{"request":"sender data","data":['
TAIL = "]}"
MOMENT = "100.000000000"


def host(name):
    """A host with one item and one trigger over it."""
    return (
        f'{{"name":"{name}","groups":["g"],"items":[{{"key":"k"}}],'
        f'"triggers":[{{"name":"hot","expression":"last(/{name}/k)>5","severity":3}}]}}'
    )


def config(hosts):
    """The text of a configuration with hosts of these names."""
    return '{"hosts":[' + ",".join(map(host, hosts)) + "]}\n"


def value(name):
    return f'{{"host":"{name}","key":"k","value":"1"}}'


def request(hosts):
    """The text of a request with a value for each host that is named."""
    return HEAD + ",".join(map(value, hosts)) + TAIL


def fitting(length):
    """How many values of the host h a request of at most this many bytes has."""
    return (length - len(HEAD) - len(TAIL) + 1) // (len(value("h")) + 1)


def frame(text):
    data = text.encode()
    return b"ZBXD\x01" + struct.pack("<II", len(data), 0) + data


def write(name, lines):
    with open(os.path.join(FOLDER, name), "w", encoding="ascii") as script:
        for line in lines:
            script.write(f"{MOMENT} {line}\n")


def pieces(bytes_, size):
    """The lines of one connection that brings the bytes in pieces of this size."""
    yield "open 1"
    for at in range(0, len(bytes_), size):
        yield f"piece 1 {bytes_[at:at + size].hex()}"
    yield "end 1"
    yield "closed"


def frames(texts):
    """The lines of connections that bring a frame of one of the texts each."""
    for connection, text in enumerate(texts, start=1):
        yield f"open {connection}"
        yield f"frame {connection} {text}"
        yield f"end {connection}"
    yield "closed"


def spread(hosts):
    """The texts of requests whose values go over the hosts in turn."""
    for first in range(0, FRAMES * VALUES, VALUES):
        yield request(hosts[at % len(hosts)] for at in range(first, first + VALUES))


def configure(name, hosts):
    with open(os.path.join(FOLDER, f"{name}.json"), "w", encoding="ascii") as file:
        file.write(config(hosts))


def main():
    rows = []
    configure("one", ["h"])
    values = fitting(LONGEST)
    whole = frame(request(["h"] * values))
    for size in [1, 1_000, 65_536]:
        name = f"pieces-{size}"
        write(name, pieces(whole, size))
        rows.append((name, "one", values, len(whole), f"one frame in pieces of {size}"))
    for count in [1, 100, 1_000]:
        name = f"hosts-{count}"
        hosts = [f"h{number:04}" for number in range(count)]
        configure(name, hosts)
        texts = list(spread(hosts))
        write(name, frames(texts))
        title = f"{FRAMES} frames of {VALUES} values, hosts: {count}"
        rows.append((name, name, VALUES * FRAMES, sum(map(len, map(frame, texts))), title))
    with open(os.path.join(FOLDER, "workloads"), "w", encoding="ascii") as table:
        for row in rows:
            table.write("\t".join(map(str, row)) + "\n")


main()
