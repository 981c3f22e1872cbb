#!/usr/bin/env python3
"""Replies of real servers as lines of a script that judge them (docs/SCRIPT.md, `compare`).

    vectors/servers/compare.py FILES... >examples/compare.script

Each reply of the files stands below a comment that gives its key, its time and the MAC of its request. The request is put together again from these and from the
reply's ID, opcode, RD bit and question; the table has that key, ten seconds old at the server's time. The reply goes in without its TSIG.
"""

import re
import sys

COMMENT = re.compile(r"# (\S+): .*; key (\S+) secret .*; time signed (\d+) fudge (\d+) MAC .*; request MAC ([0-9a-f]+);")
SUFFIX = b"\x01a\x07example\0"
TSIG = 250


def name_end(message, at):
    """The place behind the name at a place."""
    while message[at] not in (0,) and message[at] < 192:
        at += 1 + message[at]
    return at + (1 if message[at] == 0 else 2)


def u16(octets, at):
    return int.from_bytes(octets[at : at + 2], "big")


def parted(reply):
    """The question, and the last record's place and data: its TSIG's."""
    at = question = name_end(reply, 12) + 4
    for _ in range(sum(u16(reply, place) for place in (6, 8, 10))):
        last, data = at, name_end(reply, at) + 10
        at = data + u16(reply, data - 2)
    assert u16(reply, data - 10) == TSIG and at == len(reply)
    return reply[12:question], last, reply[data:]


def request(reply, question, algorithm, signed, fudge, mac):
    flags = (u16(reply, 2) & 0x7900).to_bytes(2, "big")
    data = algorithm + signed.to_bytes(6, "big") + fudge.to_bytes(2, "big") + len(mac).to_bytes(2, "big") + mac + reply[:2] + bytes(4)
    tsig = b"\x011" + SUFFIX + TSIG.to_bytes(2, "big") + b"\0\xff" + bytes(4) + len(data).to_bytes(2, "big") + data
    return reply[:2] + flags + b"\0\1" + bytes(4) + b"\0\1" + question + tsig


def line(comment, reply):
    _, _, signed, fudge, mac = COMMENT.match(comment).groups()
    question, last, data = parted(reply)
    end = name_end(data, 0)
    algorithm, other = data[:end], data[end + 10 + u16(data, end + 8) + 6 :]
    # beside BADTIME the server's time is the other data
    time = int.from_bytes(other, "big") or int(signed)
    asked = request(reply, question, algorithm, int(signed), int(fudge), bytes.fromhex(mac))
    made = time - 10
    listing = f"clock\t{made}\t1\npair\t{SUFFIX.hex()}\t2\t600\t400\nkey\tadopted\t1\t{algorithm[1:-1].decode()}\t{made}\t{made + 400}\t{made + 600}\n"
    bare = reply[:10] + (u16(reply, 10) - 1).to_bytes(2, "big") + reply[12:last]
    return f"compare {listing.encode().hex()} {time} good - {asked.hex()} bad - {bare.hex()}"


def main():
    for path in sys.argv[1:]:
        lines = open(path).read().splitlines()
        for comment, reply in zip(lines[::2], lines[1::2]):
            print(line(comment, bytes.fromhex(reply)))


main()
