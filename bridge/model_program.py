#!/usr/bin/env python3
"""A plain model of the program's `session`, in memory alone, for the plugin's tests.

It also answers the line `K SEQ`, by which history is given up from its old end, so that `full=roll` can be tried.
"""

import sys


def main():
    if sys.argv[1:] != ["session"]:
        return 2
    with open("log.trap", "rb") as file:
        header = file.read(64)
    members = header[13]
    size = int.from_bytes(header[15:17], "big")
    volume = int.from_bytes(header[17:21], "big") * (members - 1)
    entries = int.from_bytes(header[23:27], "big")
    base = [bytes(size)] * volume
    now = list(base)
    first, base_time, history = 0, 0, []

    def image(seq):
        blocks = list(base)
        for _, block, data in history[: seq - first]:
            blocks[block] = data
        return blocks

    for line in sys.stdin.buffer:
        word, *fields = line[:-1].split(b" ")
        last = first + len(history)
        last_time = history[-1][0] if history else base_time
        numbers = [int(field) for field in fields[:2]]
        if word == b"Q":
            return 0
        if word == b"I":
            reply = b"is %d %d %d %d" % (first, last, base_time, last_time)
        elif word == b"R":
            reply = b"is " + now[numbers[0]].hex().encode()
        elif word == b"W":
            if numbers[0] < last_time:
                reply = b"no time %d" % last_time
            elif len(history) == entries:
                reply = b"no full"
            else:
                data = bytes.fromhex(fields[2].decode())
                history.append((numbers[0], numbers[1], data))
                now[numbers[1]] = data
                reply = b"ok %d" % (last + 1)
        elif word == b"A":
            if numbers[0] < first:
                reply = b"no kept %d" % first
            elif numbers[0] > last:
                reply = b"no ahead %d" % last
            else:
                reply = b"at " + image(numbers[0])[numbers[1]].hex().encode()
        elif word == b"T":
            if numbers[0] < base_time:
                reply = b"no kept %d" % base_time
            else:
                count = sum(1 for time, _, _ in history if time <= numbers[0])
                reply = b"at " + image(first + count)[numbers[1]].hex().encode()
        elif word == b"K":
            if numbers[0] < first:
                reply = b"no kept %d" % first
            elif numbers[0] > last:
                reply = b"no ahead %d" % last
            else:
                base = image(numbers[0])
                if numbers[0] > first:
                    base_time = history[numbers[0] - first - 1][0]
                del history[: numbers[0] - first]
                first = numbers[0]
                reply = b"ok %d" % numbers[0]
        else:
            reply = b"no line"
        sys.stdout.buffer.write(reply + b"\n")
        sys.stdout.buffer.flush()
    return 0


sys.exit(main())
