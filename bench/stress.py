"""Writes the files of a crowd: `stress.py FOLDER`.

There are sixteen clients with 4,096 messages each. Client 1 relates all sinks to its own and is the root. Every client submits four
small frames; its other messages are Await, DidNotProduce and Reclaim in turn.
"""

import os
import struct
import sys

CLIENTS, MESSAGES = 16, 4096
SIZE = (64, 48)
FRAMES = 4


def local(number):
    return struct.pack("<II", 1, number) + (1).to_bytes(16, "little")


def rectangle(w, h):
    return struct.pack("<iiii", 0, 0, w, h)


def frame(token, client):
    shown = rectangle(*SIZE)
    quad = struct.pack("<ii", 0, 0) + shown + shown + bytes([0, 255, 0]) + b"\1" + bytes([client, token % 256, 9, 255])
    passes = struct.pack("<I", 1) + shown + shown + struct.pack("<H", 1) + quad
    return struct.pack("<II", token, 0) + bytes([255, 0, 0, 0, 1]) + passes


def messages(client):
    sink = struct.pack("<II", client, 1)
    yield b"\2" + local(1) + frame(1, client)
    if client == 1:
        yield b"\5" + local(1)
        for child in range(2, CLIENTS + 1):
            yield b"\6" + sink + struct.pack("<II", child, 1)
    for token in range(2, FRAMES + 1):
        yield b"\7"
        yield b"\2" + local(1) + frame(token, client)
    number = 0
    while True:
        number += 1
        yield (b"\7", b"\3" + struct.pack("<I", number % 256), b"\4", b"\4")[number % 16 if number % 16 < 3 else 3]


def main():
    folder = sys.argv[1]
    for client in range(1, CLIENTS + 1):
        stream = messages(client)
        body = b"".join(next(stream) for _ in range(MESSAGES))
        header = b"VIZC" + struct.pack("<H", 2) + struct.pack("<II", client, 1) + struct.pack("<I", MESSAGES)
        with open(os.path.join(folder, "c%d.viz" % client), "wb") as file:
            file.write(header + body)


main()
