#!/usr/bin/env python3
"""apart.py PROGRAM SCRIPT: what PROGRAM prints for each batch of a script (02, CR 4) is what it prints for the batch's items called one by one, each lent the
room that is left, and so is the table afterwards. The script is replayed with a listing behind each batch; then again with every batch's items as message lines in
its place, and both are held against each other. Which batches read, and which are refused whole, is told from their lines."""
import re, subprocess, sys

# Lines that print as many lines as they like, and leave the table as it is.
OTHERS = b'hold renewal adoption deletion note reply keys digest-request digest-reply finish read-back remove'.split()
LISTED = (b'clock\t', b'pair\t', b'key\t')
WORD = rb'[0-9]+'
BATCH = re.compile(rb'batch %s (-|([0-9a-fA-F]{2})+)( %s (good|bad)( %s){4} (good|bad)( %s){2})*' % (WORD, WORD, WORD, WORD))
ITEM = 9


def replayed(program, lines):
    run = subprocess.run([program], input=b''.join(line + b'\n' for line in lines), stdout=subprocess.PIPE, check=True)
    return run.stdout.split(b'\n')[:-1]


def number(word):
    """A word may have very many leading zeros, or be too long for a number that reads."""
    word = word.lstrip(b'0') or b'0'
    return int(word) if len(word) < 21 else 2**64


def part(octets, start, size, most):
    """Octets of the line's hexadecimal. Past `most` a message or an offer is refused, and a record is none, whatever they are, and a line has no room for them."""
    return octets[2 * start:2 * (start + min(size, most))] or b'-'


def apart(line, ends):
    """The message lines of a batch that ended so."""
    _, room, octets, *words = line.split(b' ')
    octets = b'' if octets == b'-' else octets
    left = min(number(room), 100000)
    for item, end in zip(zip(*[iter(words)] * ITEM), ends):
        time, verdict, fits = item[0], item[1], item[6]
        start, size, offered, count, lent, length = spans(item)
        message, offer, record = part(octets, start, size, 65536), part(octets, offered, count, 1025), part(octets, lent, length, 65801)
        yield b' '.join([b'message', time, verdict, offer, b'%d' % left, message, fits, record])
        left -= int(end.split(b' ')[1])


def spans(item):
    """First place and size of an item's message, offer and record."""
    return [number(word) for word in item[2:6] + item[7:]]


def reads(line):
    """Whether a line reads as a batch."""
    return len(line) <= 200000 and BATCH.fullmatch(line) and all(number(w) < 2**64 for w in line.split(b' ')[3:] if w.isdigit()) and number(line.split(b' ')[1]) < 2**64


def told(line):
    """The number and the count that a batch begins with."""
    _, _, octets, *words = line.split(b' ')
    held = 0 if octets == b'-' else len(octets) // 2
    items = [spans(words[at:at + ITEM]) for at in range(0, len(words), ITEM)]
    fit = len(items) <= 64 and all(first + size <= held for item in items for first, size in zip(item[::2], item[1::2]))
    return (b'0', len(items)) if fit else (b'17', 0)


def main(program, script):
    lines = []
    for line in open(script, 'rb').read().split(b'\n')[:-1]:
        if line.split(b' ')[0] not in OTHERS:
            lines += [line, b'list'] if line.startswith(b'batch ') else [line]
    printed, at = replayed(program, lines), 0
    script, expected, batches, items = [], [], 0, 0
    for line in lines:
        first, at = printed[at], at + 1
        if line.startswith(b'batch '):
            assert bool(reads(line)) != first.startswith(b'bad '), (line[:200], first)
        if first.startswith(LISTED[0]):
            listing = [first]
            while at < len(printed) and printed[at].startswith(LISTED[1:]):
                listing.append(printed[at])
                at += 1
            script.append(line)
            expected += listing
        elif first.startswith(b'bad '):
            continue
        elif line.startswith(b'mend '):
            dropped = int(first.split(b' ')[2])
            script.append(line)
            expected += [first] + printed[at:at + dropped]
            at += dropped
        elif line.startswith(b'batch '):
            refusal, count = first.split(b' ')
            assert (refusal, int(count)) == told(line), (line[:200], first)
            ends, at = printed[at:at + int(count)], at + int(count)
            script += apart(line, ends)
            expected += ends
            batches, items = batches + 1, items + int(count)
        else:
            script.append(line)
            expected.append(first)
    assert at == len(printed), 'lines were printed that no line of the script has'
    found = replayed(program, script)
    for line, (ours, theirs) in enumerate(zip(found, expected)):
        if ours != theirs:
            sys.exit('line %d of what is printed: one by one %r, in a batch %r' % (line + 1, ours[:200], theirs[:200]))
    if len(found) != len(expected) or not items:
        sys.exit('%d lines printed, %d expected, %d items' % (len(found), len(expected), items))
    print('%d batches, %d items: as one by one' % (batches, items))


main(*sys.argv[1:])
