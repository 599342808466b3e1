"""Prints a script: one frame with an unknown host, an unknown key, a dependent item, a clock past its range, a value of 65,536 bytes, and a value that is taken."""

VALUES = [
    '{"host":"x","key":"k","value":"9"}',
    '{"host":"h","key":"x","value":"9"}',
    '{"host":"h","key":"d","value":"9"}',
    '{"host":"h","key":"k","value":"1","clock":4294967296}',
    '{"host":"h","key":"k","value":"' + "9" * 65_536 + '"}',
    '{"host":"h","key":"k","value":"1"}',
]

print("100.000000000 open 1")
print('100.000000000 frame 1 {"request":"sender data","data":[' + ",".join(VALUES) + "]}")
