"""Answers the requests of standard input, in the form of bindings/c/tests/requests.c, and compares the answers."""
import struct
import sys

import tevondimby

data, at, count, wrong = sys.stdin.buffer.read(), 0, 0, 0
while at < len(data):
    size, wanted, status = struct.unpack_from("<IIB", data, at)
    at += 9
    answer = tevondimby.run(data[at : at + size])
    wrong += answer != (data[at + size : at + size + wanted], status)
    count, at = count + 1, at + size + wanted
print(f"{count} requests, {wrong} answers differ")
sys.exit(wrong > 0)
