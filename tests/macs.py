#!/usr/bin/env python3
"""The MACs of real clients and servers, over the octets that a replay program puts under them.

    tests/macs.py PROGRAM FILES...

Each message of the files stands below a comment that gives its key's secret in hexadecimal and, if it is a reply, the MAC of its request. The program reads
the TSIG back, removes it and writes the digest of the message without it; the MAC over that digest must be the one that was sent. The finished message must be
the one that was sent again. The digest of a reply to each client is compared with RFC 8945's section 4.3 as it is put together here.
"""

import copy
import hashlib
import hmac
import re
import subprocess
import sys

HASHES = {b"\x0bhmac-sha256\0": hashlib.sha256, b"\x0bhmac-sha384\0": hashlib.sha384, b"\x0bhmac-sha512\0": hashlib.sha512}
REPLY = re.compile(r".*; request MAC ([0-9a-f]+);")
COMMENT = re.compile(r"# (\S+): .*; key (\S+) secret ([0-9a-f]+) \(hex\).*; time signed (\d+) fudge (\d+) MAC (\d+) octets")
ROOM = 65535


class Wrong(Exception):
    """What is wrong with a message, or with what was printed for it."""


class Vector:
    """A message of a client or a server, and what its comment says; `asked` is the MAC of the request, None where the message is one."""

    def __init__(self, comment, message):
        said = COMMENT.match(comment)
        if not said:
            raise Wrong(f"a comment does not read: {comment[:60]}")
        self.title, key, secret, signed, fudge, size = said.groups()
        self.message = bytes.fromhex(message)
        self.secret = bytes.fromhex(secret)
        self.said = (wire_name(key), int(signed), int(fudge), int(size))
        asked = REPLY.match(comment)
        self.asked = bytes.fromhex(asked.group(1)) if asked else None


class Tsig:
    """The fields of a TSIG as `read-back` prints them."""

    def __init__(self, words):
        name, algorithm, signed, fudge, mac, original, error, other = words
        self.name, self.algorithm, self.mac, self.other = (unhex(word) for word in (name, algorithm, mac, other))
        self.signed, self.fudge, self.original, self.error = (int(word) for word in (signed, fudge, original, error))

    def words(self):
        """NAME ALGORITHM SIGNED FUDGE ID ERROR OTHER."""
        numbers = f"{self.signed} {self.fudge} {self.original} {self.error}"
        return f"{to_hex(self.name)} {to_hex(self.algorithm)} {numbers} {to_hex(self.other)}"


def wire_name(text):
    labels = [label.encode() for label in text.split(".") if label]
    return b"".join(bytes([len(label)]) + label for label in labels) + b"\0"


def to_hex(octets):
    return octets.hex() or "-"


def unhex(word):
    return b"" if word == "-" else bytes.fromhex(word)


def two(number):
    return number.to_bytes(2, "big")


def read(paths):
    """All messages, each with the comment above it."""
    vectors = []
    for path in paths:
        with open(path, encoding="ascii") as file:
            lines = [line.strip() for line in file if line.strip()]
        comments, messages = lines[::2], lines[1::2]
        in_turn = all(line.startswith("#") for line in comments) and not any(line.startswith("#") for line in messages)
        if len(comments) != len(messages) or not in_turn:
            raise Wrong(f"{path}: not one message below each comment")
        vectors += [Vector(*both) for both in zip(comments, messages)]
    if not vectors:
        raise Wrong("there are no messages")
    return vectors


class Program:
    """A replay program. A line is asked for when it is needed, so each run has one."""

    def __init__(self, path):
        self.path = path

    def words(self, line, count):
        """The words of a result after its number, which must be 0."""
        done = subprocess.run([self.path], input=line.encode() + b"\n", stdout=subprocess.PIPE, check=False)
        words = done.stdout.decode().rstrip("\n").split(" ")
        if done.returncode != 0 or len(words) != count or words[0] != "0":
            raise Wrong(f"{line.split(' ')[0]} printed {' '.join(words)[:60]!r}")
        return words[1:]

    def octets(self, line):
        length, octets = self.words(line, 3)
        octets = unhex(octets)
        if len(octets) != int(length):
            raise Wrong(f"{line.split(' ')[0]} printed another length than that of its octets")
        return octets

    def read_back(self, message):
        return Tsig(self.words(f"read-back {message.hex()}", 9))

    def remove(self, message):
        return self.octets(f"remove {message.hex()} {ROOM}")

    def digest_request(self, message, tsig):
        return self.octets(f"digest-request {message.hex()} {tsig.words()} {ROOM}")

    def digest_reply(self, message, tsig, request_mac):
        return self.octets(f"digest-reply {message.hex()} {tsig.words()} {ROOM} {to_hex(request_mac)}")

    def finish(self, message, tsig):
        return self.octets(f"finish {message.hex()} {tsig.words()} {ROOM} {to_hex(tsig.mac)}")


def check_fields(vector, tsig):
    """The fields are those that the comment says."""
    seen = (tsig.name, tsig.signed, tsig.fudge, len(tsig.mac))
    if seen != vector.said:
        raise Wrong(f"read-back gives {seen}, and the comment says {vector.said}")


def check_removed(vector, removed):
    """The front of the message, one record fewer in its additional section."""
    message = vector.message
    count = int.from_bytes(message[10:12], "big") - 1
    if removed != message[:10] + two(count) + message[12:len(removed)]:
        raise Wrong("remove changed more than the count")


def check_mac(vector, tsig, digest):
    """A MAC may be cut, to half the hash and to 10 octets at the least (RFC 8945 section 5.2.2.1)."""
    made_with = HASHES.get(tsig.algorithm.lower())
    if made_with is None:
        raise Wrong("its algorithm is none of the three")
    mac = hmac.new(vector.secret, digest, made_with).digest()
    if len(tsig.mac) < max(10, len(mac) // 2):
        raise Wrong("its MAC is too short to say anything")
    if mac[:len(tsig.mac)] != tsig.mac:
        raise Wrong(f"its MAC is {tsig.mac.hex()}, and over our digest it is {mac.hex()}")


def check_finished(program, vector, tsig, removed):
    """The message that was sent again, or one with the same fields where that one has its TSIG's owner compressed."""
    finished = program.finish(removed, tsig)
    if vector.message[len(removed):].startswith(tsig.name):
        if finished != vector.message:
            raise Wrong("finish does not give the message that was sent")
        return
    again = program.read_back(finished)
    if vars(again) != vars(tsig) or program.remove(finished) != removed:
        raise Wrong("what finish wrote does not read back as the message that was sent")


def reply_digest(message, tsig, request_mac):
    """RFC 8945 section 4.3: the request's MAC with its length (4.3.1), the reply with its original ID (4.3.2), the TSIG variables (4.3.3)."""
    digest = two(len(request_mac)) + request_mac
    digest += two(tsig.original) + message[2:]
    digest += tsig.name.lower() + b"\x00\xff" + b"\x00\x00\x00\x00" + tsig.algorithm.lower()
    digest += tsig.signed.to_bytes(6, "big") + two(tsig.fudge) + two(tsig.error)
    return digest + two(len(tsig.other)) + tsig.other


def check_reply(program, tsig, removed):
    """A reply to the client: QR set, an ID that was changed on the way, names in capitals; and one with BADTIME, which has our time as other data."""
    reply = two(tsig.original ^ 0xFFFF) + bytes([removed[2] | 0x80]) + removed[3:]
    ours = copy.copy(tsig)
    ours.name, ours.algorithm = tsig.name.upper(), tsig.algorithm.upper()
    for error, other in ((0, b""), (18, (tsig.signed + 301).to_bytes(6, "big"))):
        ours.error, ours.other = error, other
        for mac in (tsig.mac, b""):
            if program.digest_reply(reply, ours, mac) != reply_digest(reply, ours, mac):
                raise Wrong(f"digest-reply with error {error} and a MAC of {len(mac)} octets is not RFC 8945's")


def check(program, vector):
    tsig = program.read_back(vector.message)
    check_fields(vector, tsig)
    removed = program.remove(vector.message)
    check_removed(vector, removed)
    if vector.asked is None:
        check_mac(vector, tsig, program.digest_request(removed, tsig))
        check_reply(program, tsig, removed)
    else:
        check_mac(vector, tsig, program.digest_reply(removed, tsig, vector.asked))
    check_finished(program, vector, tsig, removed)


def main(path, *files):
    program = Program(path)
    try:
        vectors = read(files)
    except Wrong as wrong:
        print(wrong)
        return 1
    right = 0
    for vector in vectors:
        try:
            check(program, vector)
            right += 1
        except Wrong as wrong:
            print(f"{vector.title}: {wrong}")
    print(f"{right} of {len(vectors)} MACs right")
    return 0 if right == len(vectors) else 1


if __name__ == "__main__":
    if len(sys.argv) < 3:
        sys.exit("usage: tests/macs.py PROGRAM FILES...")
    sys.exit(main(*sys.argv[1:]))
