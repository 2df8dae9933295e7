#!/usr/bin/env python3
"""The format, the cartridges and the deck against other software, on random records.

    tests/outside.py OURS BASELINE [SEED [COUNT]]

    tests/outside.py --decks OURS BASELINE SEED COUNT

OURS is the program of crates/compare, BASELINE that of bench/ (bin compare). Each reads the same records; the CRC lines are
also held to binascii.crc_hqx(data, 0xffff), and copies, encoded and decoded, to an encoder written here.
`--records SEED COUNT` prints the records alone, and `--decks` compares the deck alone on COUNT cartridges.
"""
import binascii
import random
import subprocess
import sys

NIBBLES = "11001 11011 10010 10011 11101 10101 10110 10111 11010 01001 01010 01011 11110 01101 01110 01111".split()
CELLS = [bytes(int(c) for c in NIBBLES[b >> 4] + NIBBLES[b & 15]) for b in range(256)]
MARK = bytes(int(c) for c in "0010100101")


def body(track, number, block):
    """The 5,180 cells of an item; block is None for a mark."""
    data = b"\xff" * 512 if block is None else block
    address = bytes([track]) + number.to_bytes(3, "big")
    check = binascii.crc_hqx(data + address, 0xFFFF).to_bytes(2, "big")
    head = MARK * 512 if block is None else b"".join(CELLS[b] for b in block)
    return head + b"".join(CELLS[b] for b in address + check)


def hash_of(data):
    """FNV-1a of 64 bits."""
    h = 0xCBF29CE484222325
    for b in data:
        h = (h ^ b) * 0x100000001B3 & 0xFFFFFFFFFFFFFFFF
    return h


def copy_line(ones, track, number, block):
    if not 1 <= number <= 1_048_575:
        return "no item"
    cells = b"\x01" * ones + bytes([1, 1, 1, 1, 1, 0, 0, 1, 1, 1]) + body(track, number, block) + b"\x01" * 5
    return "copy %d %016x" % (len(cells), hash_of(cells))


def item_line(number, block):
    return "mark %d" % number if block is None else "block %d %016x" % (number, hash_of(block))


def blocks(rng):
    return rng.choice([
        lambda: rng.randbytes(512),
        lambda: bytes([rng.randrange(256)]) * 512,
        lambda: bytes(rng.choice((0x00, 0xFF, 0x3C, 0xFC)) for _ in range(512)),
        lambda: bytes(i & 0xFF for i in range(rng.randrange(256), rng.randrange(256) + 512))[:512].ljust(512, b"\0"),
    ])()


def number(rng):
    return rng.choice((1, 2, 70_000, 1_048_575, rng.randrange(1, 1_048_576)))


def sized(data):
    return len(data).to_bytes(2, "big") + data


def damaged(rng, cells, track):
    """Cells that are spoiled in one of several ways."""
    cells = bytearray(cells)
    way = rng.randrange(8)
    if way == 0:
        cells = cells[: rng.randrange(5_180)]
    elif way == 1:
        for _ in range(rng.randrange(1, 4)):
            at = rng.randrange(5_180)
            cells[at] ^= 1
    elif way == 2:
        group = rng.randrange(518)
        cells[10 * group : 10 * group + 10] = MARK
    elif way == 3:
        group = rng.randrange(518)
        cells[10 * group : 10 * group + 10] = CELLS[rng.randrange(256)]
    elif way == 4:
        at = rng.randrange(5_180)
        size = rng.randrange(1, 400)
        cells[at : at + size] = bytes(len(cells[at : at + size]))
    elif way == 5:
        address = bytes([track, rng.randrange(256), rng.randrange(256), rng.randrange(256)])
        data = bytes(512)
        check = binascii.crc_hqx(data + address, 0xFFFF).to_bytes(2, "big")
        cells = bytearray(b"".join(CELLS[b] for b in data + address + check))
    elif way == 6:
        cells = bytearray(body(track, 0, None))
    else:
        cells = bytearray(rng.randrange(3) for _ in range(5_180))
    return bytes(cells)


def records(seed, count):
    """A list of (record, expected line or None)."""
    rng = random.Random(seed)
    out = []
    for i in range(count):
        data = rng.choice((blocks(rng), rng.randbytes(rng.randrange(600)), bytes(rng.randrange(20))))
        out.append((b"C" + sized(data), "crc %04X" % binascii.crc_hqx(data, 0xFFFF)))
        if i % 10 == 0:
            track, n = rng.randrange(256), rng.choice((number(rng), number(rng), 0, 1_048_576))
            block = rng.choice((None, blocks(rng)))
            held = b"\x01" if block is None else b"\x00" + block
            kind = rng.randrange(3)
            expected = copy_line((120, 3_500, 15_000)[kind], track, n, block)
            out.append((b"E" + bytes([kind, track]) + n.to_bytes(4, "big") + held, expected))
        if i % 10 == 5:
            track, n, block = rng.randrange(256), number(rng), rng.choice((None, blocks(rng)))
            cells = body(track, n, block)
            out.append((b"D" + bytes([track]) + sized(cells), item_line(n, block)))
            out.append((b"D" + bytes([rng.randrange(256)]) + sized(cells), None))
            out.append((b"D" + bytes([track]) + sized(damaged(rng, cells, track)), None))
        if i % 10 == 7:
            runs = b"".join(bytes([1] * rng.randrange(12) + [0, 0, 1, 1, 1] + [rng.randrange(3)] * rng.randrange(3)) for _ in range(40))
            out.append((b"O" + rng.randrange(len(runs) + 20).to_bytes(4, "big") + sized(runs), None))
    return out


SIZES = (0, 1, 2, 7, 8, 9, 15, 16, 17, 63, 255, 256, 300)


def cells_of(rng, size):
    return rng.choice((
        lambda: bytes(size),
        lambda: bytes([1]) * size,
        lambda: bytes(rng.choice((0, 0, 0, 1)) for _ in range(size)),
        lambda: bytes(rng.choice((0, 1, 2, 255)) for _ in range(size)),
    ))()


def store_records(rng):
    """One store, by turns packed and interval over the same records, with appends, reads and flaws at the edges."""
    tracks = rng.choice((0, 1, 1, 2, 9, 10))
    capacity = rng.choice((0, 1, 7, 8, 9, 64, 255, 256, 300, 2_000, 2_001))
    need = (tracks * ((capacity + 7) // 8), tracks * capacity)
    short = rng.choice((0, 0, 0, 1))
    out = []
    used = [0] * 16
    for _ in range(rng.randrange(12)):
        place = rng.choice((0, 1, max(capacity, 1) - 1, rng.randrange(capacity + 2)))
        out.append((b"F" + bytes([rng.randrange(tracks + 1)]) + place.to_bytes(4, "big") + rng.choice((0, 1, 2, 8, 9, 40)).to_bytes(2, "big"), 1))
    for _ in range(rng.randrange(40)):
        track = rng.randrange(tracks + 1)
        left = max(capacity - used[track], 0)
        size = rng.choice(SIZES + (left, left + 1, max(left, 1) - 1))
        if rng.randrange(2):
            out.append((b"A" + bytes([track]) + sized(cells_of(rng, size)), 1))
            if track < tracks and size <= left:
                used[track] += size
        else:
            place = rng.choice((0, used[track], used[track] + 1, max(used[track] - size, 0), rng.randrange(used[track] + 1)))
            out.append((b"R" + bytes([track]) + place.to_bytes(4, "big") + size.to_bytes(2, "big"), 2))
            out.append((b"L" + bytes([track]), 1))
    made = []
    for kind in (0, 1):
        memory = max(need[kind] - short, 0)
        made.append((b"S" + bytes([kind, tracks]) + capacity.to_bytes(4, "big") + memory.to_bytes(4, "big"), 2))
        made += out
    return made, 2 + sum(n for _, n in out)


def full_sheet():
    """64 flaws that touch, and a 65th."""
    head = b"S" + bytes([0, 1]) + (200).to_bytes(4, "big") + (25).to_bytes(4, "big")
    flaws = b"".join(b"F" + bytes([0]) + (3 * i).to_bytes(4, "big") + (3).to_bytes(2, "big") for i in range(65))
    return head + flaws + b"A" + bytes([0]) + sized(bytes([1]) * 200) + b"R" + bytes([0]) + bytes(4) + (200).to_bytes(2, "big")


LONG, ELONGATED, NORMAL, CLOSING, RESERVE = 20_195, 8_695, 5_315, 3_495, 280_000


class Flaws:
    """Flaws in the order in which a sheet takes them: each where the copies of a track may come to stand."""

    def __init__(self, rng, tracks, capacity):
        self.rng, self.tracks, self.capacity = rng, tracks, capacity
        self.track, self.place = 0, rng.choice((0, 14_990, 15_000, 20_195, 20_300, 25_510))

    def next(self):
        """A short flaw around the start of a copy or inside it, or one over the markers of several writings."""
        rng = self.rng
        if rng.randrange(12) == 0 and self.track + 1 < self.tracks:
            self.track, self.place = self.track + 1, 0
        copies = rng.choice((0, 0, 0, 1, 1, 2, 3, 13, 14, 15, 16, 28, 29, 30))
        start = LONG + NORMAL * max(0, -(-(self.place - LONG) // NORMAL))
        if self.place <= 15_009 and rng.randrange(2):
            place = max(self.place, 15_000 + rng.randrange(-9, 12))
        else:
            place = start + rng.choice((119, 120, 124, 125, 129, 130, 5_309, 5_310, 5_314, rng.randrange(NORMAL)))
        length = copies * NORMAL + rng.choice((1, 1, 2, 9, 10, 121, rng.randrange(1, 300)))
        if place + length > self.capacity and rng.randrange(8):
            return b""
        self.place = place + length + rng.choice((0, 1, rng.randrange(3 * NORMAL)))
        return b"f" + bytes([self.track]) + place.to_bytes(4, "big") + length.to_bytes(4, "big")


def block_call(rng):
    return b"w" + rng.randrange(1 << 16).to_bytes(4, "big") + rng.choice((512,) * 12 + (511, 513, 0)).to_bytes(2, "big")


def next_call(rng):
    return b"n" + rng.choice((512,) * 12 + (600, 511, 0)).to_bytes(2, "big")


def laid(rng):
    """Marks laid by hand, in most cartridges none: numbers that no recording leaves, and copies that are cut off."""
    count = rng.choice((0,) * 12 + (1, 2, 3, 5))
    marks = [(rng.choice((1, 1, 2, 2, 3, 4, 0)), rng.choice((NORMAL, NORMAL, rng.randrange(NORMAL)))) for _ in range(count)]
    return bytes([count]) + b"".join(n.to_bytes(2, "big") + m.to_bytes(2, "big") for n, m in marks)


def deck_calls(rng):
    """The calls of one cartridge: recordings with flaws between the items, and a replay after each."""
    tracks = rng.choice((1, 2, 2, 3, 4))
    near = RESERVE + LONG + NORMAL * rng.randrange(12) + rng.choice((0, 0, CLOSING, ELONGATED))
    capacity = rng.choice((RESERVE - rng.randrange(2), near - 1, near, near + 1, rng.randrange(RESERVE, 700_000), rng.randrange(RESERVE, 400_000)))
    flaws, out = Flaws(rng, tracks, capacity), []
    often = rng.choice((0, 1, 3, 8))
    for _ in range(rng.choice((1, 1, 2, 3))):
        if rng.randrange(4):
            out += [flaws.next() for _ in range(rng.randrange(often + 1))]
        out.append(b"b")
        for _ in range(rng.choice((0, 1, 2, 5, 12, 40, 90))):
            out.append(rng.choice((b"m", b"m", b"m", block_call(rng), block_call(rng))))
            if rng.randrange(12) < often:
                out.append(flaws.next())
            if rng.randrange(30) == 0:
                out.append(rng.choice((b"b", b"r", next_call(rng))))
        out.append(b"z")
        out += [next_call(rng) for _ in range(rng.choice((0, 1, 20)))]
        if rng.randrange(3) == 0:
            out.append(rng.choice((b"r", b"m", b"z", b"r" + next_call(rng))))
    out += [b"r"] + [b"n" + (512).to_bytes(2, "big")] * rng.choice((5, 40, 100))
    return bytes([tracks]) + capacity.to_bytes(4, "big") + laid(rng) + b"".join(out)


def decks(ours, baseline, seed, count):
    """Random recordings and replays: ours like the baseline's, and both of our stores alike."""
    rng = random.Random(seed)
    kinds, lines = {}, 0
    for first in range(0, count, 20):
        calls = [deck_calls(rng) for _ in range(min(20, count - first))]
        by_store = []
        for kind in (b"K\0", b"K\1"):
            data = b"".join(kind + c for c in calls)
            a, b = run(ours, data), run(baseline, data)
            if a != b:
                at = next(k for k in range(max(len(a), len(b))) if a[k:k + 1] != b[k:k + 1])
                sys.exit(f"seed {seed}, decks from {first}: line {at} differs: ours {a[at:at + 1]}, baseline {b[at:at + 1]}")
            by_store.append(a)
            lines += len(a)
        if by_store[0] != by_store[1]:
            sys.exit(f"seed {seed}, decks from {first}: the packed and the interval store differ")
        for line in by_store[0]:
            words = line.split()
            name = " ".join(words[:2]) if words[0] in ("refused", "next") else words[0]
            kinds[name] = kinds.get(name, 0) + 1
    print(f"outside: seed {seed}, decks of {count} cartridges alike on both stores, {lines} lines; " + ", ".join(f"{k} {n}" for k, n in sorted(kinds.items())))


def run(program, data):
    return subprocess.run([program], input=data, capture_output=True, check=True).stdout.decode().splitlines()


def stores(ours, baseline, seed, count):
    """Random cartridges: ours like the baseline's, and both of our stores alike where the memory of each suffices."""
    rng = random.Random(seed)
    for i in range(count):
        made, size = store_records(rng)
        data = b"".join(r for r, _ in made)
        a, b = run(ours, data), run(baseline, data)
        if a != b:
            sys.exit(f"seed {seed}, store {i}: line {next(k for k in range(len(a)) if a[k:k + 1] != b[k:k + 1])} differs")
        if len(a) != 2 * size or a[0] == a[size] and a[:size] != a[size:]:
            sys.exit(f"seed {seed}, store {i}: the packed and the interval store differ")
    if run(ours, full_sheet()) != run(baseline, full_sheet()):
        sys.exit("a full sheet differs")
    print(f"outside: seed {seed}, {count} cartridges alike, packed, interval and baseline")


def main():
    if sys.argv[1] == "--records":
        sys.stdout.buffer.write(b"".join(r for r, _ in records(int(sys.argv[2]), int(sys.argv[3]))))
        return
    if sys.argv[1] == "--decks":
        decks(sys.argv[2], sys.argv[3], int(sys.argv[4]), int(sys.argv[5]))
        return
    program, baseline = sys.argv[1:3]
    seed = int(sys.argv[3]) if len(sys.argv) > 3 else random.randrange(1 << 32)
    count = int(sys.argv[4]) if len(sys.argv) > 4 else 4_000
    made = records(seed, count)
    data = b"".join(r for r, _ in made)
    ours, theirs = run(program, data), run(baseline, data)
    if len(ours) != len(made) or len(theirs) != len(made):
        sys.exit(f"seed {seed}: {len(made)} records, {len(ours)} lines of ours, {len(theirs)} of the baseline's")
    for i, (_, expected) in enumerate(made):
        if ours[i] != theirs[i] or expected not in (None, ours[i]):
            sys.exit(f"seed {seed}, record {i}: ours '{ours[i]}', baseline '{theirs[i]}', expected {expected!r}")
    kinds = {}
    for line in ours:
        kinds[line.split()[0]] = kinds.get(line.split()[0], 0) + 1
    print(f"outside: seed {seed}, {len(made)} records alike; " + ", ".join(f"{k} {n}" for k, n in sorted(kinds.items())))
    stores(program, baseline, seed, count // 10)
    decks(program, baseline, seed, count // 10)


main()
