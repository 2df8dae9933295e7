#!/usr/bin/env python3
"""Random scripts through the station over the deck and the baseline's, line by line, and a few with stored lines.

    tests/scripts.py OURS [BASELINE [SEED [COUNT]]]

OURS is the program of crates/deckstation, BASELINE that of bench/ (bin station). Without BASELINE only the stored scripts are run.
A script on which the two differ is left in the file differs.script of the folder for temporary files. `--store BASELINE` prints the stored scripts anew.
Command 07 is left out, since the station has no survey yet.
"""
import binascii
import collections
import itertools
import os
import random
import subprocess
import sys
import tempfile
import textwrap

LIMIT = 4_096
CAPACITY = 480_000
LONG, ELONGATED, CLOSING, COPY = 15_000, 3_500, 3_495, 5_315
NORMAL = 120

# the five cells of each nibble
NIBBLES = [int(c, 2) for c in "11001 11011 10010 10011 11101 10101 10110 10111 11010 01001 01010 01011 11110 01101 01110 01111".split()]

BEGIN, STOP, REPLAY, MARK = b"\x03", b"\x04", b"\x05", b"\x02"


def write(block):
    return b"\x01" + block


def flaw(place, length=1, track=0):
    return b"\x06" + bytes([track]) + (place % (1 << 32)).to_bytes(4, "big") + min(length, 65_535).to_bytes(2, "big")


def block(rng):
    return rng.choice([
        lambda: rng.randbytes(512),
        lambda: b"\xff" * 512,
        lambda: b"\x00" * 512,
        lambda: bytes([rng.randrange(256)]) * 512,
        lambda: bytes(rng.choice((0x00, 0xFF, 0x3C, 0xFC)) for _ in range(512)),
    ])()


def item(rng, blocks):
    return write(block(rng)) if rng.random() < blocks else MARK


def falsified(place, number, data):
    """Flaws of one cell that make a copy, whose data begins at place, a sound one of another number; or none."""
    address = number.to_bytes(4, "big")
    check = binascii.crc_hqx(data + address, 0xFFFF)
    for low in range(16):
        change = low ^ number & 15
        delta = binascii.crc_hqx(bytes([change]), 0)
        old = [number & 15] + [check >> s & 15 for s in (12, 8, 4, 0)]
        new = [low] + [(check ^ delta) >> s & 15 for s in (12, 8, 4, 0)]
        if change and all(NIBBLES[o] & NIBBLES[n] == NIBBLES[n] for o, n in zip(old, new)):
            first = [place + 10 * 515 + 5] + [place + 10 * 516 + 5 * i for i in range(4)]
            yield low, [p + j for p, o, n in zip(first, old, new) for j in range(5) if (NIBBLES[o] ^ NIBBLES[n]) >> 4 - j & 1]


class Draft:
    """A script, with a guess of how long the track is: as if nothing were ever written again."""

    def __init__(self, rng):
        self.rng, self.script, self.length, self.fresh, self.unflawed, self.flaws = rng, b"", 0, True, 0, 0

    def add(self, command):
        if command == BEGIN:
            self.fresh = True
        elif command == STOP:
            self.length += 0 if self.fresh else COPY + CLOSING
            self.fresh = True
        elif command == MARK or command[:1] == b"\x01":
            self.length += COPY - NORMAL + (NORMAL if not self.fresh else ELONGATED if self.length else LONG)
            self.fresh = False
        self.script += command

    def spoil(self, place, length=1):
        """A flaw, moved behind the last one."""
        if self.rng.random() < 0.97:
            place = max(place, self.unflawed)
        if self.flaws < 64 or self.rng.random() < 0.1:
            self.unflawed = max(self.unflawed, place + length)
            self.flaws += 1
            self.script += flaw(place, length)

    def spoil_copies(self, count, length):
        """Flaws around the next copies."""
        rng = self.rng
        base = self.length or LONG
        for k in sorted(rng.randrange(12) for _ in range(count)):
            inside = rng.choice((0, rng.randrange(-20, 20), rng.randrange(COPY), 10 + rng.randrange(5_180), 130 + 5_120 + rng.randrange(60)))
            self.spoil(base + k * COPY + inside, length())


def mixed(rng):
    """Recordings with flaws before and within them."""
    d = Draft(rng)
    lengths = rng.choice([lambda: 1, lambda: rng.randrange(1, 20), lambda: rng.randrange(1, 6_000), lambda: rng.choice((1, 5, 400, 5_315, 65_535))])
    blocks = rng.choice((0.0, 0.1, 0.5))
    d.spoil_copies(rng.randrange(12), lengths)
    for _ in range(rng.randrange(1, 5)):
        d.add(BEGIN)
        for _ in range(rng.choice((0, 1, 2, rng.randrange(10)))):
            if rng.random() < 0.15:
                d.spoil_copies(rng.randrange(4), lengths)
            d.add(item(rng, blocks))
            if rng.random() < 0.05:
                d.script += rng.choice((BEGIN, REPLAY, flaw(rng.randrange(1 << 20), rng.randrange(3), rng.randrange(3))))
        if rng.random() < 0.9:
            d.add(STOP)
        if rng.random() < 0.6:
            d.script += REPLAY
        if rng.random() < 0.1:
            d.script += rng.choice((STOP, MARK, write(block(rng))))
    return d.script + rng.choice((REPLAY, STOP + REPLAY, b""))


def long_runs(rng):
    """Marks up to the media's end."""
    d = Draft(rng)
    for _ in range(rng.randrange(4)):
        d.spoil(rng.randrange(LONG, CAPACITY), rng.choice((1, rng.randrange(1, 3_000), 65_535)))
    while len(d.script) < 400 and rng.random() < 0.97:
        d.add(BEGIN)
        for _ in range(rng.choice((1, 5, 40))):
            d.add(item(rng, 0.02))
        d.add(STOP)
        if rng.random() < 0.2:
            d.script += REPLAY
    return d.script + BEGIN + MARK * rng.randrange(4) + STOP + REPLAY


def unwritable(rng):
    """Flaws that spoil many writings, of the first item or of a later one."""
    d = Draft(rng)
    before = rng.randrange(4)
    base = LONG + before * COPY
    paired = rng.random() < 0.6
    for k in range(rng.choice((15, 16, 16, 17, rng.randrange(30)))):
        step = 2 if paired else 1
        d.spoil(base + step * k * COPY + rng.choice((0, 1, 9, 10 + rng.randrange(5_180))) * (rng.random() < 0.98), rng.choice((1, 1, 3, 900)))
    d.add(BEGIN)
    for _ in range(before + rng.randrange(4)):
        d.add(item(rng, 0.3))
    d.add(STOP)
    for _ in range(rng.randrange(3)):
        d.script += rng.choice((b"", REPLAY))
        d.add(BEGIN)
        for _ in range(rng.randrange(5)):
            d.add(item(rng, 0.2))
        d.add(STOP)
    return d.script + REPLAY


def solid(rng):
    """Long flaws end to end."""
    d = Draft(rng)
    at = rng.choice((0, LONG - 1, LONG, LONG + 12, LONG + COPY, rng.randrange(CAPACITY)))
    for _ in range(rng.randrange(1, 6)):
        length = rng.choice((65_535, 40_000, 5_315))
        d.spoil(at, min(length, max(1, CAPACITY - at)))
        at += length
    for _ in range(rng.randrange(1, 4)):
        d.add(BEGIN)
        for _ in range(rng.randrange(6)):
            d.add(item(rng, 0.3))
        d.add(rng.choice((STOP, STOP + REPLAY)))
    return d.script + REPLAY


def false_copies(rng):
    """One copy that reads as a sound one of another number."""
    while True:
        before = rng.randrange(6)
        data = rng.choice((None, rng.randbytes(512), bytes([rng.randrange(256)]) * 512))
        found = list(falsified(LONG + 10 + before * COPY, before + 1, b"\xff" * 512 if data is None else data))
        if found:
            break
    _, places = rng.choice(found)
    d = Draft(rng)
    for p in places:
        d.spoil(p)
    d.add(BEGIN)
    for _ in range(before):
        d.add(MARK)
    d.add(MARK if data is None else write(data))
    for _ in range(rng.randrange(4)):
        d.add(item(rng, 0.3))
    d.add(STOP)
    d.script += REPLAY + rng.choice((BEGIN, BEGIN + MARK + STOP, b"")) + rng.choice((b"", REPLAY))
    return d.script


def full_sheet(rng):
    """As many flaws as a sheet holds, or more, on the first copies."""
    places = sorted(rng.sample(range(LONG - 50, LONG + rng.choice((1, 5, 12)) * COPY), rng.randrange(60, 70)))
    script = b"".join(flaw(p) for p in places) + BEGIN
    for _ in range(rng.randrange(5)):
        script += item(rng, 0.3)
    return script + STOP + REPLAY


def commands(rng):
    """Commands in any order."""
    kinds = [lambda: BEGIN, lambda: STOP, lambda: REPLAY, lambda: MARK, lambda: write(block(rng)),
             lambda: flaw(rng.randrange(LONG, 60_000), rng.randrange(1, 30))]
    weights = [rng.random() for _ in kinds]
    script = b""
    for _ in range(rng.randrange(60)):
        script += rng.choices(kinds, weights)[0]()
    return script


def random_bytes(rng):
    script = bytes(rng.choice((rng.randrange(1, 7), rng.randrange(2, 6), rng.randrange(256))) for _ in range(rng.choice((5, 50, 700, 5_000))))
    return bytes(b for b in script if b != 7)


KINDS = [mixed, mixed, mixed, long_runs, unwritable, unwritable, solid, false_copies, full_sheet, commands, random_bytes]


def random_script(rng):
    kind = rng.choice(KINDS)
    script = kind(rng)
    end = rng.random()
    if end < 0.08:
        script = script[:rng.randrange(len(script) + 1)]
    elif end < 0.14:
        at = rng.randrange(len(script) + 1)
        script = script[:at] + bytes([rng.choice((0, 8, 0xFF))]) + script[at:]
    return kind.__name__, script


def has_survey(script):
    """Whether reading comes to a command 07."""
    at = 0
    script = script[:LIMIT]
    while at < len(script) and 1 <= script[at] <= 6:
        at += {1: 513, 6: 8}.get(script[at], 1)
    return at < len(script) and script[at] == 7


def keep(script):
    path = os.path.join(tempfile.gettempdir(), "differs.script")
    with open(path, "wb") as out:
        out.write(script)
    return f"{path} ({len(script)} bytes)"


def lines(station, script):
    done = subprocess.run([station], input=script, capture_output=True)
    if done.returncode != 0:
        sys.exit(f"{station}: status {done.returncode} on {keep(script)}: {done.stderr[:200]!r}")
    return done.stdout.decode().splitlines()


def first_difference(a, b):
    return next((i for i in range(max(len(a), len(b))) if a[i:i + 1] != b[i:i + 1]), None)


def differ(what, script, ours, theirs):
    at = first_difference(ours, theirs)
    sys.exit(f"{what}: {keep(script)}, line {at}: ours {ours[at:at + 3]}, expected {theirs[at:at + 3]}")


def told(words):
    """Words in a row, with a count after one that comes more than twice: 03 02*40 04."""
    runs = [(word, len(list(run))) for word, run in itertools.groupby(words)]
    return [text for word, n in runs for text in ([word] * n if n < 3 else [f"{word}*{n}"])]


def words(texts):
    return [word for text in texts for word, _, n in [text.partition("*")] for _ in range(int(n or 1))]


def to_store(baseline, seed=24, count=15):
    """Short scripts of several kinds, each with a line that its kind is there for."""
    rng = random.Random(seed)
    kinds = [(mixed, "stop"), (unwritable, "refused 14"), (solid, "refused 14"), (false_copies, "refused 17"), (long_runs, "refused 12")]
    found = []
    while len(found) < count:
        kind, wanted = kinds[len(found) % len(kinds)]
        script = kind(rng)
        if len(told(script.hex(" ").split())) <= 250 and any(line.startswith(wanted) for line in lines(baseline, script)):
            found.append(script)
    return found


def folded(text, indent):
    return ("\n" + indent).join(f'"{line}"' for line in textwrap.wrap(text, 120, drop_whitespace=False))


def print_stored(baseline):
    for script in to_store(baseline):
        print("    (" + folded(" ".join(told(script.hex(" ").split())), "     ") + ",")
        print("     " + folded(",".join(told(lines(baseline, script))).replace(",", ", "), "     ") + "),")


# script and lines
STORED = [
    ("06 00*3 4f 49 00 01 06 00*3 4f 4a 00 01 06 00*3 69 1e 00 01 06 00*3 69 1f 00 01 06 00*3 64 1a 00 01 06 00*3 8e 56 00 01 "
     "06 00*3 b7 2a 00 01 06 00*3 cb fe 00 01 06 00*3 e0 99 00 01 06 00*3 f5 73 00 01 03 02 04 03 02 02 04 05 03 02 02 05 02 "
     "06 00 00 01 7d bd 00 01 06 00 00 01 d0 9e 00 01 02*4 04 05 01 ff*512 04 05",
     "flaw*4, refused 5, flaw*5, begin 1, mark 1, stop 1, begin 2, mark 2, mark 3, stop 2, replay mark 1, replay mark 2, "
     "replay mark 3, replay end 3, begin 4, mark 4, mark 5, refused 16, mark 6, flaw, flaw, mark 7, mark 8, mark 9, mark 10, "
     "stop 7, replay mark 1, replay mark 2, replay mark 3, replay mark 4, replay mark 5, replay mark 6, replay mark 7, replay "
     "mark 8, replay mark 9, replay mark 10, replay end 10, refused 15, refused 15, replay mark 1, replay mark 2, replay mark "
     "3, replay mark 4, replay mark 5, replay mark 6, replay mark 7, replay mark 8, replay mark 9, replay mark 10, replay end "
     "10"),
    ("06 00*3 52 e1 00 03 06 00*3 64 27 00 01 06 00*3 78 e2 00 01 06 00*3 8d a4 00 03 06 00*3 a2 68 03 84 06 00*3 c3 cb 03 84 "
     "06 00*3 cb ed 00 01 06 00*3 e0 b1 00 03 06 00*3 f5 74 03 84 06 00 00 01 16 e3 00 03 06 00 00 01 1e fa 00 01 06 00 00 01 "
     "33 bc 00 03 06 00 00 01 48 80 00 01 06 00 00 01 6d ca 00 01 06 00 00 01 72 0e 00 01 06 00 00 01 86 c9 00 03 03 02 02 04 "
     "05",
     "flaw*16, begin 1, mark 1, mark 2, refused 14 2, replay mark 1, replay end 1"),
    ("06 00*3 3a a4 ff ff 06 00 00 01 3a a3 9c 40 06 00 00 01 d6 e3 9c 40 06 00 00 02 73 23 ff ff 03 02 04 03 02*4 04 05",
     "flaw*4, begin 1, mark 1, refused 14 1, begin 1, mark 1, mark 2, refused 12, refused 12, stop 2, replay mark 1, replay "
     "mark 2, replay end 2"),
    ("06 00*3 4e c6 00 01 06 00*3 4e cd 00 01 06 00*3 4e d6 00 01 06 00*3 4e d9 00 01 03 01 8f*512 02 04 05",
     "flaw*4, begin 1, block 1, mark 2, stop 2, refused 17 1"),
    ("06 00 00 03 94 66 ff ff 06 00*3 d1 5f 04 1b 06 00 00 04 94 65 00 01 03 02 04 03 02 04 03 02 04 03 02*31 01 ff*512 02*8 "
     "04 03 02 02 04 05",
     "flaw, refused 5, flaw, begin 1, mark 1, stop 1, begin 2, mark 2, stop 1, begin 3, mark 3, stop 1, begin 4, mark 4, mark "
     "5, mark 6, mark 7, mark 8, mark 9, mark 10, mark 11, mark 12, mark 13, mark 14, mark 15, mark 16, mark 17, mark 18, mark"
     " 19, mark 20, mark 21, mark 22, mark 23, mark 24, mark 25, mark 26, mark 27, mark 28, refused 12*15, stop 25, begin 29, "
     "refused 12, refused 12, stop 0, replay mark 1, replay mark 2, replay mark 3, replay mark 4, replay mark 5, replay mark "
     "6, replay mark 7, replay mark 8, replay mark 9, replay mark 10, replay mark 11, replay mark 12, replay mark 13, replay "
     "mark 14, replay mark 15, replay mark 16, replay mark 17, replay mark 18, replay mark 19, replay mark 20, replay mark 21,"
     " replay mark 22, replay mark 23, replay mark 24, replay mark 25, replay mark 26, replay mark 27, replay mark 28, replay "
     "end 28"),
    ("06 00*3 7a 15 00 0f 06 00*3 a2 74 00 10 06 00*3 a2 84 00 0a 06 00*3 b8 73 00 0e 06 00*3 fb 34 00 02 06 00 00 01 17 38 00"
     " 04 03 02 04 03 06 00 00 01 17 3c 00 05 02 04 03 02 04 05 04 05",
     "flaw*6, begin 1, mark 1, stop 1, begin 2, flaw, mark 2, stop 1, begin 3, mark 3, stop 1, replay mark 1, replay mark 2, "
     "replay mark 3, replay end 3, refused 15, replay mark 1, replay mark 2, replay mark 3, replay end 3"),
    ("06 00*3 80 52 00 01 06 00*3 8d ad 00 03 06 00*3 a9 58 00 01 06 00*3 b7 2a 00 03 06 00*3 cb ee 03 84 06 00*3 e0 b9 03 84 "
     "06 00 00 01 01 21 00 03 06 00 00 01 0a 37 00 01 06 00 00 01 1e fa 00 01 06 00 00 01 33 bc 03 84 06 00 00 01 48 7f 00 03 "
     "06 00 00 01 5d 4b 00 01 06 00 00 01 72 05 00 03 06 00 00 01 86 d1 00 03 06 00 00 01 9b 94 00 03 06 00 00 01 b0 57 03 84 "
     "06 00 00 01 c5 12 00 01 03 02 02 01 eb*512 02 01 ac*512 04 05 03 01 00*512 04 03 02 02 04 05",
     "flaw*17, begin 1, mark 1, mark 2, block 3, mark 4, block 5, refused 14 5, replay mark 1, replay mark 2, replay block 3 "
     "EB, replay mark 4, replay end 4, begin 5, block 5, stop 1, begin 6, mark 6, mark 7, stop 2, replay mark 1, replay mark "
     "2, replay block 3 EB, replay mark 4, replay block 5 00, replay mark 6, replay mark 7, replay end 7"),
    ("06 00*3 3a a4 ff ff 06 00 00 01 3a a3 9c 40 06 00 00 01 d6 e3 ff ff 06 00 00 02 d6 e2 9c 40 06 00 00 03 73 22 14 c3 03 "
     "02 02 01 ff*512 02 04 03 01 00*512 02 02 04 05 03 01 ff*512 02 01 ff*512 01 ff*512 04 05",
     "flaw*5, begin 1, mark 1, refused 14 1*3, stop 0, begin 1, block 1, mark 2, refused 12, stop 2, replay block 1 00, replay"
     " mark 2, replay end 2, begin 3, refused 12*4, stop 0, replay block 1 00, replay mark 2, replay end 2"),
    ("06 00*3 4e c6 00 01 06 00*3 4e cd 00 01 06 00*3 4e d6 00 01 06 00*3 4e d9 00 01 03 01 8f*512 02 02 04 05 05",
     "flaw*4, begin 1, block 1, mark 2, mark 3, stop 3, refused 17 1, refused 17 1"),
    ("06 00 00 06 d2 15 00 01 06 00 00 06 d2 16 ff ff 03 02*5 04 05 03 02 04 03 02*5 04 03 02*40 04 03 02*5 04 03 02*5 04 03 "
     "02*3 01 ff*512 02 04 03 02 02 04 05",
     "flaw, refused 4, begin 1, mark 1, mark 2, mark 3, mark 4, mark 5, stop 5, replay mark 1, replay mark 2, replay mark 3, "
     "replay mark 4, replay mark 5, replay end 5, begin 6, mark 6, stop 1, begin 7, mark 7, mark 8, mark 9, mark 10, mark 11, "
     "stop 5, begin 12, mark 12, mark 13, mark 14, mark 15, mark 16, mark 17, mark 18, mark 19, mark 20, mark 21, mark 22, "
     "mark 23, mark 24, mark 25, mark 26, mark 27, mark 28, refused 12*23, stop 17, begin 29, refused 12*5, stop 0, begin 29, "
     "refused 12*5, stop 0, begin 29, refused 12*5, stop 0, begin 29, refused 12, refused 12, stop 0, replay mark 1, replay "
     "mark 2, replay mark 3, replay mark 4, replay mark 5, replay mark 6, replay mark 7, replay mark 8, replay mark 9, replay "
     "mark 10, replay mark 11, replay mark 12, replay mark 13, replay mark 14, replay mark 15, replay mark 16, replay mark 17,"
     " replay mark 18, replay mark 19, replay mark 20, replay mark 21, replay mark 22, replay mark 23, replay mark 24, replay "
     "mark 25, replay mark 26, replay mark 27, replay mark 28, replay end 28"),
    ("06 00*3 8d 6b 00 12 06 00*3 e0 aa 00 0c 03 06 00*3 e0 b6 00 01 01 ff*512 04 05 03 04 03 01 ff*512 02 04 04",
     "flaw, flaw, begin 1, flaw, block 1, stop 1, replay block 1 FF, replay end 1, begin 2, stop 0, begin 2, block 2, mark 3, "
     "stop 2, refused 15"),
    ("06 00*3 5f af 03 84 06 00*3 7d a1 03 84 06 00*3 a2 67 00 03 06 00*3 d4 60 00 03 06 00*3 f5 7c 03 84 06 00 00 01 1e f9 00"
     " 01 06 00 00 01 48 7f 03 84 06 00 00 01 7f 67 03 84 06 00 00 01 9b 8b 03 84 06 00 00 01 c5 11 00 01 06 00 00 01 f4 8e 00"
     " 01 06 00 00 02 18 26 00 03 06 00 00 02 41 a4 00 01 06 00 00 02 6b 32 03 84 06 00 00 02 94 b8 00 03 06 00 00 02 be 35 03"
     " 84 03 01 ff*512 02 02 04 03 04 03 04 05",
     "flaw*16, begin 1, block 1, mark 2, refused 14 2, stop 1, begin 2, stop 0, begin 2, stop 0, replay block 1 FF, replay end"
     " 1"),
    ("06 00*3 4f 5b ff ff 06 00 00 01 4f 5a 9c 40 06 00 00 01 eb 9a 9c 40 06 00 00 02 87 da 9c 40 03 02 04 03 02 02 04 05",
     "flaw*4, begin 1, mark 1, stop 1, begin 2, mark 2, refused 14 2, stop 0, replay mark 1, replay end 1"),
    ("06 00*3 8d 0e 00 01 06 00*3 8d 13 00 01 06 00*3 8d 1c 00 01 06 00*3 8d 20 00 01 06 00*3 8d 22 00 01 03 02*3 01 89*512 01"
     " 00*512 02 02 04 05",
     "flaw*5, begin 1, mark 1, mark 2, mark 3, block 4, block 5, mark 6, mark 7, stop 7, replay mark 1, replay mark 2, replay "
     "mark 3, refused 17 4"),
    ("06 00 00 01 33 8f ff ff 06 00 00 04 2e 53 ff ff 06 00 00 05 2e 52 07 b0 03 02*5 04 03 02*5 04 05 03 02*40 04 05 03 02*5 "
     "04 03 02 04 03 02*40 04 03 02*40 04 03 02*40 04 03 02*40 04 05 03 02*5 04 03 02 04 03 02*5 04 05 03 04 05",
     "flaw*3, begin 1, mark 1, mark 2, mark 3, mark 4, mark 5, stop 5, begin 6, mark 6, mark 7, mark 8, mark 9, mark 10, stop "
     "5, replay mark 1, replay mark 2, replay mark 3, replay mark 4, replay mark 5, replay mark 6, replay mark 7, replay mark "
     "8, replay mark 9, replay mark 10, replay end 10, begin 11, mark 11, mark 12, mark 13, mark 14, mark 15, mark 16, mark "
     "17, refused 12*33, stop 7, replay mark 1, replay mark 2, replay mark 3, replay mark 4, replay mark 5, replay mark 6, "
     "replay mark 7, replay mark 8, replay mark 9, replay mark 10, replay mark 11, replay mark 12, replay mark 13, replay mark"
     " 14, replay mark 15, replay mark 16, replay mark 17, replay end 17, begin 18, refused 12*5, stop 0, begin 18, refused "
     "12, stop 0, begin 18, refused 12*40, stop 0, begin 18, refused 12*40, stop 0, begin 18, refused 12*40, stop 0, begin 18,"
     " refused 12*40, stop 0, replay mark 1, replay mark 2, replay mark 3, replay mark 4, replay mark 5, replay mark 6, replay"
     " mark 7, replay mark 8, replay mark 9, replay mark 10, replay mark 11, replay mark 12, replay mark 13, replay mark 14, "
     "replay mark 15, replay mark 16, replay mark 17, replay end 17, begin 18, refused 12*5, stop 0, begin 18, refused 12, "
     "stop 0, begin 18, refused 12*5, stop 0, replay mark 1, replay mark 2, replay mark 3, replay mark 4, replay mark 5, "
     "replay mark 6, replay mark 7, replay mark 8, replay mark 9, replay mark 10, replay mark 11, replay mark 12, replay mark "
     "13, replay mark 14, replay mark 15, replay mark 16, replay mark 17, replay end 17, begin 18, stop 0, replay mark 1, "
     "replay mark 2, replay mark 3, replay mark 4, replay mark 5, replay mark 6, replay mark 7, replay mark 8, replay mark 9, "
     "replay mark 10, replay mark 11, replay mark 12, replay mark 13, replay mark 14, replay mark 15, replay mark 16, replay "
     "mark 17, replay end 17"),
]


def check_stored(station):
    for i, (script, expected) in enumerate(STORED):
        script, expected = bytes.fromhex("".join(words(script.split()))), words(expected.split(", "))
        got = lines(station, script)
        if got != expected:
            differ(f"stored script {i}", script, got, expected)
    print(f"scripts: {len(STORED)} with stored lines")


def check_random(station, baseline, seed, count):
    rng = random.Random(seed)
    kinds, answers = collections.Counter(), collections.Counter()
    while kinds.total() < count:
        kind, script = random_script(rng)
        if has_survey(script):
            continue
        ours, theirs = lines(station, script), lines(baseline, script)
        if ours != theirs:
            differ(f"seed {seed}, script {kinds.total()} ({kind})", script, ours, theirs)
        kinds[kind] += 1
        for line in ours:
            name = line.split()
            answers[" ".join(name[:2] if name[0] in ("refused", "replay") else name[:1])] += 1
    for what, counts in (f"seed {seed}, {count} scripts alike", kinds), ("their lines", answers):
        print(f"scripts: {what}: " + ", ".join(f"{name} {counts[name]}" for name in sorted(counts)))


def main():
    if sys.argv[1] == "--store":
        return print_stored(sys.argv[2])
    check_stored(sys.argv[1])
    if len(sys.argv) > 2:
        seed = int(sys.argv[3]) if len(sys.argv) > 3 else random.randrange(1 << 32)
        check_random(sys.argv[1], sys.argv[2], seed, int(sys.argv[4]) if len(sys.argv) > 4 else 400)


main()
