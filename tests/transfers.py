#!/usr/bin/env python3
"""The MACs of real servers' zone transfers, over the octets that the library puts under them.

    tests/transfers.py PROGRAM FILES...

PROGRAM is bindings/c/digests.c. Each transfer of the files is a comment, which gives the key's secret and the request's MAC, and below it its messages in order
(vectors/transfers/collect.py). The first is a reply to the request; a later one goes over the MAC of the one before it that has a TSIG, and over those between
which have none (RFC 8945, 5.3.1). The MAC over each digest must be the one that was sent, and with one octet more between the two it must not.
"""

import hashlib
import hmac
import re
import subprocess
import sys

HASHES = {"hmac-sha256": hashlib.sha256, "hmac-sha384": hashlib.sha384, "hmac-sha512": hashlib.sha512}
COMMENT = re.compile(r"# (\S+): transfer of a zone, (\S+); .* secret ([0-9a-f]+) \(hex\).*; (\d+) messages, (\d+) of them signed; request MAC ([0-9a-f]+);")


class Wrong(Exception):
    """What is wrong with a transfer."""


def read(path):
    """The transfers of a file: what the comment says, and the messages."""
    transfers = []
    with open(path, encoding="ascii") as file:
        for line in file:
            if line.startswith("#"):
                said = COMMENT.match(line)
                if not said:
                    raise Wrong(f"{path}: a comment does not read: {line[:60]}")
                transfers.append((said.groups(), []))
            else:
                transfers[-1][1].append(line.strip())
    return transfers


def digest(program, line):
    """The digest and the MAC that was sent; None where the message has no TSIG."""
    done = subprocess.run([program], input=line + "\n", stdout=subprocess.PIPE, text=True, check=True)
    words = done.stdout.split()
    return None if words == ["-"] else [bytes.fromhex(word) for word in words]


def is_right(secret, algorithm, found):
    octets, mac = found
    return hmac.compare_digest(hmac.new(secret, octets, HASHES[algorithm]).digest(), mac)


def check(program, said, messages):
    title, algorithm, secret, count, signed, prior = said
    secret, before, right = bytes.fromhex(secret), "", 0
    if len(messages) != int(count):
        raise Wrong(f"{title}: it has {len(messages)} messages, and the comment says {count}")
    for place, message in enumerate(messages):
        line = f"later {prior} {before or '-'} {message}" if place else f"reply {prior} {message}"
        found = digest(program, line)
        if not found:
            before += message
            continue
        if not is_right(secret, algorithm, found):
            raise Wrong(f"{title}: message {place + 1} has another MAC than over our digest")
        if place and is_right(secret, algorithm, digest(program, f"later {prior} {before}00 {message}")):
            raise Wrong(f"{title}: message {place + 1} has its MAC whatever stands before it")
        prior, before, right = found[1].hex(), "", right + 1
    if right != int(signed) or before:
        raise Wrong(f"{title}: {right} messages are signed, and the comment says {signed}")
    return right


def main(program, *files):
    right, wrong = 0, 0
    for path in files:
        for said, messages in read(path):
            try:
                right += check(program, said, messages)
            except Wrong as error:
                print(error)
                wrong += 1
    print(f"{right} MACs right")
    return 0 if right and not wrong else 1


if __name__ == "__main__":
    if len(sys.argv) < 3:
        sys.exit("usage: tests/transfers.py PROGRAM FILES...")
    sys.exit(main(*sys.argv[1:]))
