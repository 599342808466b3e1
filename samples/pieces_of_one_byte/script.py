"""Prints a script: one frame of 249 values 3 and a value 6, in pieces of one byte, the last one 2.5 milliseconds after the others."""


def value(number):
    return '{"host":"h","key":"k","value":"%s"}' % number


VALUES = ",".join([value(3)] * 249 + [value(6)])
DATA = ('{"request":"sender data","data":[' + VALUES + "]}").encode()
FRAME = b"ZBXD\x01" + len(DATA).to_bytes(4, "little") + bytes(4) + DATA

print("100.000000000 open 1")
for byte in FRAME[:-1]:
    print("100.000000000 piece 1 %02x" % byte)
print("100.002500000 piece 1 %02x" % FRAME[-1])
