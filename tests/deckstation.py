#!/usr/bin/env python3
"""The station over the deck on scripts with stored lines, and on bytes that are no script:  tests/deckstation.py DECKSTATION"""
import sys

from station import WRITE, run

# the first cell of the first copy's marker on an empty track, and from there to the next copy's
FIRST = 15_000
COPY = 5_315


def flaw(place, length=1, track=0):
    return b"\x06" + bytes([track]) + place.to_bytes(4, "big") + length.to_bytes(2, "big")


def flaws(places):
    return b"".join(flaw(p) for p in places)


def replayed(count):
    return [f"replay mark {n}" for n in range(1, count + 1)] + [f"replay end {count}"]


# A flaw on each of the first sixteen, or fifteen, writings of the first mark: by stop they follow one another, and before
# a second mark they alternate with that mark's.
ALONE = [FIRST + COPY * k for k in range(16)]
PAIRS = [FIRST + 2 * COPY * k for k in range(16)]

# Five cells that make the first copy of a fourth item, a block of bytes 56, a sound copy of number 13: they change the
# number's last nibble from 4 to D and the check's nibbles with it.
FALSE = flaws([36_110, 36_115, 36_121, 36_128, 36_134])
FOUR = b"\x03\x02\x02\x02\x01" + b"\x56" * 512

SCRIPTS = [
    # (script, lines)
    (b"", []),
    (b"\x03\x02\x04\x05", ["begin 1", "mark 1", "stop 1", "replay mark 1", "replay end 1"]),
    (b"\x03" + WRITE + b"\x02\x04\x05", ["begin 1", "block 1", "mark 2", "stop 2", "replay block 1 3C", "replay mark 2", "replay end 2"]),
    # refusals 15 and 16, and a second recording
    (b"\x02\x04" + WRITE + b"\x03\x03\x05\x02\x04\x03\x02\x04\x05",
     ["refused 15", "refused 15", "refused 15", "begin 1", "refused 16", "refused 16", "mark 1", "stop 1", "begin 2", "mark 2", "stop 1",
      "replay mark 1", "replay mark 2", "replay end 2"]),
    # 2 and 3 end the script, whose end stops what is open
    (b"\x03\x02\x08\x02", ["begin 1", "mark 1", "refused 2", "stop 1"]),
    (b"\x03\x02" + WRITE[:-1], ["begin 1", "mark 1", "refused 3", "stop 1"]),
    (b"\x03\x02", ["begin 1", "mark 1", "stop 1"]),
    (b"\x00", ["refused 2"]),
    (b"\x06\x00\x00\x00\x00\x00\x01", ["refused 3"]),
    # a survey prints no line yet
    (b"\x07\x03\x07\x02\x04\x07\x05", ["begin 1", "mark 1", "stop 1", "replay mark 1", "replay end 1"]),
    # flaws: off the cartridge, of length 0, past the capacity; before the end of the last; and one too many
    (flaw(0, track=1) + flaw(0, 0) + flaw(479_999, 2) + flaw(479_999), ["refused 4"] * 3 + ["flaw"]),
    (flaw(FIRST) + flaw(FIRST) + flaw(FIRST + 1), ["flaw", "refused 5", "flaw"]),
    (flaws(range(0, 195, 3)), ["flaw"] * 64 + ["refused 19"]),
    # the first copy is spoiled, so that both marks are written again
    (flaw(FIRST) + b"\x03\x02\x02\x04\x05", ["flaw", "begin 1", "mark 1", "mark 2", "stop 2"] + replayed(2)),
    # the media's end: before the 35th mark 195,590 cells stand, and after it fewer than 280,000 are left
    (b"\x03" + b"\x02" * 40 + b"\x04\x05", ["begin 1"] + [f"mark {n}" for n in range(1, 36)] + ["refused 12"] * 5 + ["stop 35"] + replayed(35)),
    # two copies more for the spoiled one, so two marks fewer
    (flaw(FIRST) + b"\x03" + b"\x02" * 40 + b"\x04\x05",
     ["flaw", "begin 1"] + [f"mark {n}" for n in range(1, 34)] + ["refused 12"] * 7 + ["stop 33"] + replayed(33)),
    # a mark and a stop take 29,005 cells of an empty track and 17,505 after that
    (b"\x03\x02\x04" * 12 + b"\x05",
     [line for n in range(1, 12) for line in (f"begin {n}", f"mark {n}", "stop 1")] + ["begin 12", "refused 12", "stop 0"] + replayed(11)),
    # sixteen writings spoiled: the mark can't be written, and its number is given again
    (flaws(ALONE) + b"\x03\x02\x04\x05\x03\x02\x04\x05", ["flaw"] * 16 + ["begin 1", "mark 1", "refused 14 1", "replay end 0", "begin 1", "mark 1", "stop 1"] + replayed(1)),
    (flaws(PAIRS) + b"\x03\x02\x02" + WRITE + b"\x02\x03\x05\x04\x05\x03\x02\x04\x05",
     ["flaw"] * 16 + ["begin 1", "mark 1", "refused 14 1", "refused 14 1", "refused 14 1", "refused 16", "refused 16", "stop 0", "replay end 0", "begin 1", "mark 1", "stop 1"] + replayed(1)),
    # fifteen spoiled: the sixteenth writing is good
    (flaws(ALONE[:15]) + b"\x03\x02\x04\x05", ["flaw"] * 15 + ["begin 1", "mark 1", "stop 1"] + replayed(1)),
    (flaws(PAIRS[:15]) + b"\x03\x02\x02\x04\x05", ["flaw"] * 15 + ["begin 1", "mark 1", "mark 2", "stop 2"] + replayed(2)),
    # the stop at the script's end is refused, by itself and after 2 and 3; and after an item that can't be written it is not
    (flaws(ALONE) + b"\x03\x02", ["flaw"] * 16 + ["begin 1", "mark 1", "refused 14 1"]),
    (flaws(ALONE) + b"\x03\x02\x08", ["flaw"] * 16 + ["begin 1", "mark 1", "refused 2", "refused 14 1"]),
    (flaws(ALONE) + b"\x03\x02\x01\x01", ["flaw"] * 16 + ["begin 1", "mark 1", "refused 3", "refused 14 1"]),
    (flaws(PAIRS) + b"\x03\x02\x02\xff", ["flaw"] * 16 + ["begin 1", "mark 1", "refused 14 1", "refused 2", "stop 0"]),
    # a false copy of number 13 stands where 4 is expected: the replay ends there, and no recording begins
    (FALSE + FOUR + b"\x04\x05\x03\x02\x04\x05",
     ["flaw"] * 5 + ["begin 1", "mark 1", "mark 2", "mark 3", "block 4", "stop 4"] + replayed(3)[:3] + ["refused 17 4", "refused 17 4", "refused 15", "refused 15"]
     + replayed(3)[:3] + ["refused 17 4"]),
    # without one of the five cells it is not sound
    (FALSE[:-8] + FOUR + b"\x04\x05", ["flaw"] * 4 + ["begin 1", "mark 1", "mark 2", "mark 3", "block 4", "stop 4"] + replayed(3)[:3] + ["replay block 4 56", "replay end 4"]),
    # the script is cut at 4,096 bytes
    (b"\x03" + b"\x04\x03" * 2_047 + b"\x02\x02", ["begin 1"] + ["stop 0", "begin 1"] * 2_047 + ["mark 1", "stop 1"]),
    (b"\x05" * 4_095 + WRITE, ["replay end 0"] * 4_095 + ["refused 3"]),
    (b"\x05" * 4_096 + b"\x05", ["replay end 0"] * 4_096),
]

run("deckstation", sys.argv[1], SCRIPTS)
