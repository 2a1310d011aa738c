#!/usr/bin/env python3
"""A second answer to recordings, to hold the proved one against.

  python3 crates/replay_trial/model.py    writes what `replay_trial` has to print (stdout) of what it is asked (stdin)

It was written from the papers, not from the proved code, and goes another way where there is one: an image is a string of 0 and 1, the value
of a net is found by recursion, and each power-up state is moved by itself, so that states which meet are told apart until the end.
"""
from functools import lru_cache
from pathlib import Path

HERE = Path(__file__).resolve().parent
PART, MOST_PARTS = 16384, 1 << 49
GATES = [lambda a, b: a, lambda a, b: 1 - a, lambda a, b: a & b, lambda a, b: a | b, lambda a, b: a ^ b,
         lambda a, b: 1 - (a & b), lambda a, b: 1 - (a | b), lambda a, b: 1 - (a ^ b)]


def number(bits):
    return int("0" + "".join(map(str, bits)), 2)


def read(data):
    """The lowest fault of the image at the front, or 0; and its sizes, its clock, and its length."""
    bits = "".join(f"{byte:08b}" for byte in data[:708])
    take = lambda at, width: int(bits[at:at + width], 2)
    if len(data) < 4:
        return 1, None
    version, i, l, o, g = take(0, 4), take(4, 4), take(8, 4), take(12, 4), take(16, 9)
    if version not in (1, 2):
        return 2, None
    if i > 6 or l > 7 or o > 8 or g > 256:
        return 3, None
    tail = 25 + 21 * g
    end = tail + 9 * (l * (2 * version - 1) + o)
    size = (end + 7) // 8
    if len(data) < size:
        return 4, None
    cells = [(take(at, 3), take(at + 3, 9), take(at + 12, 9)) for at in range(25, tail, 21)]
    nets = [take(at, 9) for at in range(tail, end, 9)]
    latches = [nets[k:k + 3] for k in range(0, 3 * l, 3)] if version == 2 else [[net, 1, 0] for net in nets[:l]]
    base = 2 + i + l
    reads = lambda net: [] if net < base else cells[net - base][1:2 + (cells[net - base][0] > 1)]

    def behind(start):
        """The nets that a path leads from to one of these."""
        found, open_nets = set(), list(start)
        while open_nets:
            net = open_nets.pop()
            found.add(net)
            open_nets += [n for n in reads(net) if n not in found]
        return found

    if any(net >= base + g for net in nets + [net for cell in cells for net in cell[1:]]):
        return 5, None
    if any(kind < 2 and second for kind, _, second in cells):
        return 6, None
    if "1" in bits[end:8 * size]:
        return 7, None
    if any(net in behind(reads(net)) for net in behind(nets) if net >= base):
        return 9, None
    if version == 2 and all(latch[1:] == [1, 0] for latch in latches):
        return 19, None

    @lru_cache(None)
    def clock(state, vector):
        known = dict(enumerate([0, 1] + [int(b) for b in f"{vector:0{i}b}"[:i] + f"{state:0{l}b}"[:l]]))

        def value(net):
            if net not in known:
                kind, a, b = cells[net - base]
                known[net] = GATES[kind](value(a), value(b) if kind > 1 else 0)
            return known[net]

        step = lambda k: 0 if value(latches[k][2]) else value(latches[k][0]) if value(latches[k][1]) else value(2 + i + k)
        return number(step(k) for k in range(l)), number(value(net) for net in nets[len(nets) - o:])

    return 0, (i, l, o, clock, size)


def answer(data):
    fault, design = read(data)
    if fault:
        return f"REFUSED {fault}\n"
    i, l, o, clock, size = design
    recording = data[size:]
    if len(recording) % 2:
        return "REFUSED 22\n"
    records = [(high >> 2, (high & 3) << 6 | low >> 2, low & 3) for high, low in zip(recording[::2], recording[1::2])]
    if any(v >> i or out >> o or zeros for v, out, zeros in records):
        return "REFUSED 23\n"
    runs = list(range(1 << l))
    for r, (v, out, _) in enumerate(records, 1):
        runs = [clock(s, v)[0] for s in runs if clock(s, v)[1] == out]
        if not runs:
            return f"UNEXPLAINED {r}\n"
    ends = sorted(set(runs))
    return f"STATES {len(ends)} OF {1 << l}\n" + "".join(f"{s}\n" for s in ends)


def told(reads):
    """The stream and the text: the parts are joined until one does not fill the room."""
    data, parts = b"", 0
    for read in reads.split(","):
        mark = read[-1] if len(read) % 2 else ""
        if mark == "!":
            return "2 replay: standard input cannot be read\n"
        if parts >= MOST_PARTS:
            return "2 replay: the recording is too long\n"
        part = bytes.fromhex(read[:len(read) - len(mark)])
        if mark:
            part = (part + part[-2:] * PART)[:PART]
        data += part
        parts = {"<": MOST_PARTS - 1, ">": MOST_PARTS}.get(mark, parts + 1)
        if len(part) < PART:
            break
    return "1 " + answer(data)


lines = (HERE / "stdin").read_text().splitlines()
(HERE / "stdout").write_text("".join(f"{name}\n{told(reads)}" for name, reads in (line.split(":") for line in lines)))
