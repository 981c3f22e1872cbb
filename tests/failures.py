#!/usr/bin/env python3
"""failures.py REPLAY CASE FOLDER: the replay program stops at the first failure of reading or writing and says on standard error what failed.

Nothing is printed after a failed write, and a line that a failed read cut off is not done.
"""
import os
import signal
import subprocess
import sys

SCRIPT = b"new 5\n" + b"list\n" * 20_000
FIRST = b"0 0 0 0 0 0 - 0\n"
WHOLE = FIRST + b"clock\t5\t1\n" * 20_000


def run(replay, source, target, **more):
    """Its standard output where it is a pipe of ours, its standard error, and its status."""
    done = subprocess.run([replay], stdin=source, stdout=target, stderr=subprocess.PIPE, timeout=60, **more)
    return done.stdout, done.stderr, done.returncode


def script_file(work):
    path = os.path.join(work, "failing.script")
    with open(path, "wb") as f:
        f.write(SCRIPT)
    return open(path, "rb")


def says(error, what, why):
    want = b"replay: " + what + b": " + why + b"\n"
    assert error == want, f"standard error is {error!r} and not {want!r}"


def full_device(replay, work):
    with open("/dev/full", "wb") as full:
        _, error, _ = run(replay, script_file(work), full)
    says(error, b"writing standard output", b"No space left on device")


def closed_pipe(replay, work):
    """The reader is gone: the failed write ends the program, which ignores the signal, whether or not it was ignored before."""
    for ignored in (False, True):
        reading, writing = os.pipe()
        os.close(reading)
        prepare = (lambda: signal.signal(signal.SIGPIPE, signal.SIG_IGN)) if ignored else None
        _, error, status = run(replay, script_file(work), writing, preexec_fn=prepare)
        os.close(writing)
        says(error, b"writing standard output", b"Broken pipe")
        assert status == 0, f"status {status}"


def full_pipe(replay, work):
    """What went into the pipe before it was full is the front of the whole, and nothing else went in."""
    reading, writing = os.pipe()
    os.set_blocking(writing, False)
    _, error, _ = run(replay, script_file(work), writing)
    os.close(writing)
    with open(reading, "rb") as pipe:
        got = pipe.read()
    says(error, b"writing standard output", b"Resource temporarily unavailable")
    assert 0 < len(got) < len(WHOLE), f"{len(got)} octets"
    assert WHOLE.startswith(got), "what was printed is not the front of what should be"


def folder(replay, work):
    source = os.open(work, os.O_RDONLY)
    out, error, _ = run(replay, source, subprocess.PIPE)
    os.close(source)
    says(error, b"reading standard input", b"Is a directory")
    assert out == b"", f"printed {out!r}"


def cut_line(replay, work):
    """The read behind `new 17` fails: the line may have been `new 1700000000`."""
    reading, writing = os.pipe()
    os.set_blocking(reading, False)
    os.write(writing, b"new 5\nnew 17")
    out, error, _ = run(replay, reading, subprocess.PIPE)
    os.close(reading)
    os.close(writing)
    says(error, b"reading standard input", b"Resource temporarily unavailable")
    assert out == FIRST, f"printed {out!r}"


CASES = {
    "full-device": full_device,
    "closed-pipe": closed_pipe,
    "full-pipe": full_pipe,
    "folder": folder,
    "cut-line": cut_line,
}

if __name__ == "__main__":
    replay, case, work = sys.argv[1:]
    try:
        CASES[case](replay, work)
    except AssertionError as e:
        sys.exit(str(e))
