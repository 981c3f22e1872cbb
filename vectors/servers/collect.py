#!/usr/bin/env python3
"""Collects signed replies of real name servers: BIND's named, Knot's knotd and NSD, each asked by dig over a relay that keeps both messages.

    vectors/servers/collect.py      (as root, on Debian: it installs the three servers and dig, and writes NAME.hex beside itself)

The times are those of the day, so each run gives other octets. tests/macs.py reads the files; what is in the repository was collected once.
"""

import base64
import pathlib
import shutil
import socket
import subprocess
import tempfile
import threading
import time

HERE = pathlib.Path(__file__).resolve().parent
PACKAGES = ["bind9", "bind9-dnsutils", "knot", "nsd"]
KEY = "1.a.example."
SECRET = b"0123456789abcdef0123456789abcdef"
ENCODED = base64.b64encode(SECRET).decode()
ALGORITHMS = ["hmac-sha256", "hmac-sha384", "hmac-sha512"]
RELAY = 15501

ZONE = """$ORIGIN z.example.
$TTL 300
@ SOA ns hostmaster 1 3600 600 86400 300
@ NS ns
ns A 192.0.2.1
www A 192.0.2.2
www A 192.0.2.3
text TXT "a text" "and another"
"""

# What is asked, and the words for dig.
ASKED = [
    ("SOA", "z.example. SOA"),
    ("two addresses", "www.z.example. A"),
    ("a name that is not there", "none.z.example. A"),
    ("names in capitals", "WWW.Z.EXAMPLE. A"),
    ("no EDNS", "+noedns text.z.example. TXT"),
]

# A request signed an hour ago: BADTIME, signed, with the server's time as other data.
LATE = ("BADTIME", "z.example. SOA")


def two(octets, at):
    return int.from_bytes(octets[at:at + 2], "big")


def name_end(octets, at):
    """The place after the name at `at`."""
    while octets[at]:
        if octets[at] >= 192:
            return at + 2
        at += octets[at] + 1
    return at + 1


def tsig_of(octets):
    """The time signed, fudge, MAC, error and other data of a message's last record, which is a TSIG."""
    at = 12
    for _ in range(two(octets, 4)):
        at = name_end(octets, at) + 4
    for _ in range(two(octets, 6) + two(octets, 8) + two(octets, 10) - 1):
        at = name_end(octets, at) + 10
        at += two(octets, at - 2)
    at = name_end(octets, at)
    if two(octets, at) != 250 or at + 10 + two(octets, at + 8) != len(octets):
        raise ValueError("no TSIG stands last")
    at = name_end(octets, at + 10)
    size = two(octets, at + 8)
    mac = octets[at + 10:at + 10 + size]
    behind = at + 10 + size
    return int.from_bytes(octets[at:at + 6], "big"), two(octets, at + 6), mac, two(octets, behind + 2), octets[behind + 6:]


class Relay:
    """Hands one datagram on to the server and its answer back, and keeps both."""

    def __init__(self, port):
        self.port = port
        self.socket = socket.socket(socket.AF_INET, socket.SOCK_DGRAM)
        self.socket.bind(("127.0.0.1", RELAY))
        self.socket.settimeout(5)

    def take(self, kept):
        request, client = self.socket.recvfrom(65535)
        with socket.socket(socket.AF_INET, socket.SOCK_DGRAM) as out:
            out.settimeout(5)
            out.sendto(request, ("127.0.0.1", self.port))
            reply = out.recv(65535)
        self.socket.sendto(reply, client)
        kept += [request, reply]


def dig(relay, algorithm, words, fuzz=None):
    """The command, and the request and the reply that dig sent and got."""
    command = ["dig", "-y", f"{algorithm}:{KEY}:{ENCODED}", "@127.0.0.1", "-p", str(RELAY), "+tries=1", "+time=3", *words.split()]
    if fuzz is not None:
        command.insert(1, f"+fuzztime={fuzz}")
    kept = []
    thread = threading.Thread(target=relay.take, args=(kept,))
    thread.start()
    subprocess.run(command, stdout=subprocess.DEVNULL, check=False)
    thread.join()
    request, reply = kept
    return " ".join(command), request, reply


def entry(title, what, version, algorithm, relay, words, fuzz=None):
    command, request, reply = dig(relay, algorithm, words, fuzz)
    signed, fudge, mac, error, other = tsig_of(reply)
    if not mac:
        raise ValueError("its TSIG has no MAC")
    asked = tsig_of(request)[2]
    comment = (
        f"# {title}: reply, {what}, {algorithm}; {version}; udp; key {KEY} secret {SECRET.hex()} (hex) = {ENCODED} (base64); "
        f"time signed {signed} fudge {fudge} MAC {len(mac)} octets; error {error}, other data of {len(other)} octets; {len(reply)} octets; "
        f"request MAC {asked.hex()}; command: {command}"
    )
    return f"{comment}\n{reply.hex()}\n"


def named(folder, port, algorithm):
    (folder / "named.conf").write_text(
        f"""options {{ directory "{folder}"; listen-on port {port} {{ 127.0.0.1; }}; listen-on-v6 {{ none; }}; pid-file none; recursion no; }};
controls {{ }};
key "{KEY}" {{ algorithm {algorithm}; secret "{ENCODED}"; }};
zone "z.example" {{ type primary; file "{folder}/zone"; }};
"""
    )
    return ["named", "-g", "-c", str(folder / "named.conf")]


def knotd(folder, port, algorithm):
    (folder / "knot.conf").write_text(
        f"""server:
    listen: 127.0.0.1@{port}
    rundir: "{folder}"
database:
    storage: "{folder}"
key:
  - id: "{KEY}"
    algorithm: {algorithm}
    secret: {ENCODED}
acl:
  - id: all
    key: "{KEY}"
    action: [transfer, update]
zone:
  - domain: z.example
    file: "{folder}/zone"
    acl: all
"""
    )
    return ["knotd", "-c", str(folder / "knot.conf")]


def nsd(folder, port, algorithm):
    (folder / "nsd.conf").write_text(
        f"""server:
    ip-address: 127.0.0.1
    port: {port}
    username: ""
    zonesdir: "{folder}"
    pidfile: "{folder}/nsd.pid"
    xfrdfile: "{folder}/xfrd.state"
    xfrdir: "{folder}"
    database: ""
    zonelistfile: "{folder}/zone.list"
remote-control:
    control-enable: no
key:
    name: "{KEY}"
    algorithm: {algorithm}
    secret: "{ENCODED}"
zone:
    name: z.example
    zonefile: zone
    provide-xfr: 127.0.0.1 {KEY}
"""
    )
    return ["nsd", "-d", "-c", str(folder / "nsd.conf")]


# Each server, the command that tells its version, and the one that starts it with one key.
SERVERS = [
    ("named", ["named", "-v"], named),
    ("knotd", ["knotd", "--version"], knotd),
    ("nsd", ["nsd", "-v"], nsd),
]


def version_of(command):
    done = subprocess.run(command, capture_output=True, text=True, check=False)
    return (done.stdout + done.stderr).splitlines()[0].split(" <")[0].strip()


def ask_all(name, version, algorithm, relay, first):
    """What one server, with one key, replies: lines of text. A reply without a MAC is left out."""
    text = ""
    asked = [(what, words, None) for what, words in ASKED] + [(*LATE, int(time.time()) - 3600)]
    for number, (what, words, fuzz) in enumerate(asked, first):
        try:
            text += entry(f"{name}-{number:02}", what, version, algorithm, relay, words, fuzz)
        except ValueError as none:
            print(f"{name}, {what}, {algorithm}: {none}")
    return text


def collect(name, version, start, port):
    """One server, started anew for each algorithm."""
    text = ""
    for number, algorithm in enumerate(ALGORITHMS):
        folder = pathlib.Path(tempfile.mkdtemp())
        folder.chmod(0o777)
        (folder / "zone").write_text(ZONE)
        server = subprocess.Popen(start(folder, port, algorithm), stdout=subprocess.DEVNULL, stderr=subprocess.DEVNULL)
        time.sleep(3)
        relay = Relay(port)
        text += ask_all(name, version, algorithm, relay, 1 + number * (len(ASKED) + 1))
        relay.socket.close()
        server.terminate()
        server.wait()
        shutil.rmtree(folder)
    return text


def main():
    subprocess.run(["apt-get", "update", "-q"], check=True)
    subprocess.run(["apt-get", "install", "-y", "-q", "--no-install-recommends", *PACKAGES], check=True)
    for number, (name, version, start) in enumerate(SERVERS):
        text = collect(name, version_of(version), start, 15510 + number)
        (HERE / f"{name}.hex").write_text(text)
        print(f"{name}: {text.count(chr(10)) // 2} replies")


if __name__ == "__main__":
    main()
