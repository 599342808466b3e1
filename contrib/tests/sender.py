"""A stand-in for the real sender's words of one value: -z ADDRESS -p PORT -s HOST -k KEY -o VALUE."""

import json
import re
import socket
import struct
import sys

asked = dict(zip(sys.argv[1::2], sys.argv[2::2]))
body = json.dumps({"request": "sender data", "data": [{"host": asked["-s"], "key": asked["-k"], "value": asked["-o"]}]}).encode()
with socket.create_connection((asked["-z"], int(asked["-p"])), timeout=10) as connection:
    connection.sendall(b"ZBXD\x01" + struct.pack("<II", len(body), 0) + body)
    reply = b""
    while piece := connection.recv(4096):
        reply += piece
info = json.loads(reply[13:])["info"]
print(f'Response from "{asked["-z"]}:{asked["-p"]}": "{info}"')
print("sent: 1; skipped: 0; total: 1")
sys.exit(0 if re.search("failed: 0;", info) else 2)
