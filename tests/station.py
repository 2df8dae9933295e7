#!/usr/bin/env python3
"""The station on scripts with stored lines, and on bytes that are no script:  tests/station.py STATION"""
import random
import subprocess
import sys

BLOCK = bytes([0x3C]) + bytes(range(256)) * 2
WRITE = b"\x01" + BLOCK[:512]

SCRIPTS = [
    # (script, lines)
    (b"", []),
    (b"\x03\x02\x04\x05", ["begin 1", "mark 1", "stop 1", "replay mark 1", "replay end 1"]),
    (b"\x03" + WRITE + b"\x02\x04\x05", ["begin 1", "block 1", "mark 2", "stop 2", "replay block 1 3C", "replay mark 2", "replay end 2"]),
    # refusals 15 and 16, and a second recording
    (b"\x02\x04" + WRITE + b"\x03\x03\x05\x02\x04\x03\x02\x04\x05",
     ["refused 15", "refused 15", "refused 15", "begin 1", "refused 16", "refused 16", "mark 1", "stop 1", "begin 2", "mark 2", "stop 1",
      "replay mark 1", "replay mark 2", "replay end 2"]),
    # 2 and 3 end the script, whose end stops what is open
    (b"\x03\x02\x08\x02", ["begin 1", "mark 1", "refused 2", "stop 1"]),
    (b"\x03\x02" + WRITE[:-1], ["begin 1", "mark 1", "refused 3", "stop 1"]),
    (b"\x03\x02", ["begin 1", "mark 1", "stop 1"]),
    (b"\x00", ["refused 2"]),
    (b"\x06\x00\x00\x00\x00\x00\x01", ["refused 3"]),
    # flaws: off the cartridge, of length 0, past the capacity, before the end of the last; one that spoils the first marker
    (b"\x06\x01\x00\x00\x00\x00\x00\x01" b"\x06\x00\x00\x00\x00\x00\x00\x00" b"\x06\x00\x00\x07\x52\xff\x00\x02", ["refused 4"] * 3),
    (b"\x06\x00\x00\x00\x3a\x98\x00\x01" b"\x06\x00\x00\x00\x3a\x98\x00\x01" b"\x06\x00\x00\x00\x3a\x99\x00\x01" b"\x03\x02\x02\x04\x05",
     ["flaw", "refused 5", "flaw", "begin 1", "mark 1", "mark 2", "stop 2", "replay mark 2", "replay end 1"]),
    (b"".join(b"\x06\x00" + (3 * i).to_bytes(4, "big") + b"\x00\x01" for i in range(65)), ["flaw"] * 64 + ["refused 19"]),
    # the media's end: 200,000 cells take 35 marks and then fewer than 280,000 are left
    (b"\x03" + b"\x02" * 40 + b"\x04", ["begin 1"] + [f"mark {n}" for n in range(1, 36)] + ["refused 12"] * 5 + ["stop 35"]),
    # the script is cut at 4,096 bytes
    (b"\x03" + b"\x04\x03" * 2_047 + b"\x02\x02", ["begin 1"] + ["stop 0", "begin 1"] * 2_047 + ["mark 1", "stop 1"]),
    (b"\x05" * 4_095 + WRITE, ["replay end 0"] * 4_095 + ["refused 3"]),
]


def lines(station, script):
    done = subprocess.run([station], input=script, capture_output=True)
    if done.returncode != 0:
        sys.exit(f"status {done.returncode} on {script[:40].hex()}..")
    return done.stdout.decode().splitlines()


def run(name, station, scripts):
    """Scripts with the lines that they must print, and then bytes at random, on which the program must only end well."""
    for i, (script, expected) in enumerate(scripts):
        got = lines(station, script)
        if got != expected:
            sys.exit(f"script {i}: {got[:12]}.. for {expected[:12]}..")
    rng = random.Random(1)
    for _ in range(300):
        lines(station, bytes(rng.choice((rng.randrange(9), rng.randrange(256))) for _ in range(rng.randrange(700))))
    print(f"{name}: {len(scripts)} scripts with their lines, 300 of random bytes")


if __name__ == "__main__":
    run("station", sys.argv[1], SCRIPTS)
