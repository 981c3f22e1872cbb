#!/usr/bin/env python3
"""Collects signed zone transfers of real name servers: BIND's named, Knot's knotd and NSD, each asked by dig for all of a zone over a relay that keeps every
message.

    vectors/transfers/collect.py    (as root, on Debian: it installs the three servers and dig, and writes NAME.hex beside itself)

named is told to send one record in each message; knotd and NSD fill messages of some 16,000 octets. All three sign every message. The times are those of the
day, so each run gives other octets. tests/transfers.py reads the files; what is in the repository was collected once.
"""

import pathlib
import shutil
import socket
import subprocess
import sys
import tempfile
import threading
import time

HERE = pathlib.Path(__file__).resolve().parent
sys.path.insert(0, str(HERE.parent / "servers"))
from collect import ALGORITHMS, ENCODED, KEY, PACKAGES, RELAY, SECRET, SERVERS, ZONE, tsig_of, version_of  # noqa: E402

# Texts that fill three messages of those servers which fill them.
LONG = "".join(f'text{number:03} TXT "{"abcdefgh" * 31}"\n' for number in range(160))

# Each server: the zone, the algorithms of its key, and what its configuration gets besides.
ASKED = {
    "named": (ZONE, ALGORITHMS, "recursion no; transfer-format one-answer;"),
    "knotd": (ZONE + LONG, ALGORITHMS[:1], None),
    "nsd": (ZONE + LONG, ALGORITHMS[:1], None),
}


def octets_from(stream, count):
    octets = b""
    while len(octets) < count:
        more = stream.recv(count - len(octets))
        if not more:
            return None
        octets += more
    return octets


def message_from(stream):
    """The next message, without its length (RFC 1035, 4.2.2); None where the stream ends."""
    size = octets_from(stream, 2)
    return size and octets_from(stream, int.from_bytes(size, "big"))


def framed(message):
    return len(message).to_bytes(2, "big") + message


class Relay:
    """Hands one request on to the server and its messages back, until the client has enough, and keeps them all."""

    def __init__(self, port):
        self.port = port
        self.socket = socket.create_server(("127.0.0.1", RELAY))
        self.kept = []

    def take(self):
        client, _ = self.socket.accept()
        server = socket.create_connection(("127.0.0.1", self.port))
        server.settimeout(2)
        with client, server:
            request = message_from(client)
            self.kept.append(request)
            server.sendall(framed(request))
            try:
                while message := message_from(server):
                    self.kept.append(message)
                    client.sendall(framed(message))
            except (TimeoutError, ConnectionError):
                pass  # the transfer is over, and the server waits for another question


def has_tsig(message):
    try:
        return bool(tsig_of(message)[2])
    except (ValueError, IndexError):
        return False


def entry(title, version, algorithm, port):
    """The transfer as dig got it; dig verifies every MAC and says so by its status."""
    relay = Relay(port)
    thread = threading.Thread(target=relay.take)
    thread.start()
    command = ["dig", "-y", f"{algorithm}:{KEY}:{ENCODED}", "@127.0.0.1", "-p", str(RELAY), "+tries=1", "z.example.", "AXFR"]
    subprocess.run(command, stdout=subprocess.DEVNULL, check=True)
    thread.join()
    relay.socket.close()
    request, *messages = relay.kept
    signed = sum(has_tsig(message) for message in messages)
    comment = (
        f"# {title}: transfer of a zone, {algorithm}; {version}; tcp; key {KEY} secret {SECRET.hex()} (hex) = {ENCODED} (base64); "
        f"{len(messages)} messages, {signed} of them signed; request MAC {tsig_of(request)[2].hex()}; command: {' '.join(command)}"
    )
    return "".join(f"{line}\n" for line in (comment, *(message.hex() for message in messages)))


def collect(name, version, start, port):
    """One server, started anew for each algorithm."""
    zone, algorithms, options = ASKED[name]
    text = ""
    for number, algorithm in enumerate(algorithms, 1):
        folder = pathlib.Path(tempfile.mkdtemp())
        folder.chmod(0o777)
        (folder / "zone").write_text(zone)
        command = start(folder, port, algorithm)
        if options:
            written = folder / "named.conf"
            written.write_text(written.read_text().replace("recursion no;", options))
        server = subprocess.Popen(command, stdout=subprocess.DEVNULL, stderr=subprocess.DEVNULL)
        time.sleep(3)
        text += entry(f"{name}-{number:02}", version, algorithm, port)
        server.terminate()
        server.wait()
        shutil.rmtree(folder)
    return text


def main():
    subprocess.run(["apt-get", "update", "-q"], check=True)
    subprocess.run(["apt-get", "install", "-y", "-q", "--no-install-recommends", *PACKAGES], check=True)
    for number, (name, version, start) in enumerate(SERVERS):
        text = collect(name, version_of(version), start, 15520 + number)
        (HERE / f"{name}.hex").write_text(text)
        print(f"{name}: {text.count('#')} transfers, {len(text.splitlines()) - text.count('#')} messages")


if __name__ == "__main__":
    main()
