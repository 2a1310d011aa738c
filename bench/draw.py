#!/usr/bin/env python3
"""Draws three of the designs that `bench/run` compares: writes their images beside this file.

  python3 bench/draw.py

`synchroniser` is Černý's machine of 128 states: some pair of them takes 8,128 steps to come together. `ring_128` and `ring_127` count in
rings of 128 and of 127 states, the second with one state in front of its ring: from state 0 of both, the outputs first differ in step 255.
"""
from pathlib import Path

HERE = Path(__file__).resolve().parent
KINDS = ["buf", "not", "and", "or", "xor", "nand", "nor", "xnor"]


class Drawing:
    """A design under way: inputs and flip-flops are nets from the start, cells are added, then data and outputs are named."""

    def __init__(self, inputs, latches):
        self.inputs = [2 + k for k in range(inputs)]
        self.latches = [2 + inputs + k for k in range(latches)]
        self.cells = []

    def cell(self, kind, first, second=0):
        self.cells.append((KINDS.index(kind), first, second))
        return 1 + len(self.inputs) + len(self.latches) + len(self.cells)

    def all_of(self, nets):
        """The AND of the nets."""
        net = nets[0]
        for other in nets[1:]:
            net = self.cell("and", net, other)
        return net

    def image(self, data, shown):
        fields = [(1, 4), (len(self.inputs), 4), (len(data), 4), (len(shown), 4), (len(self.cells), 9)]
        for kind, first, second in self.cells:
            fields += [(kind, 3), (first, 9), (second, 9)]
        fields += [(net, 9) for net in data + shown]
        bits = "".join(f"{value:0{width}b}" for value, width in fields)
        bits += "0" * (-len(bits) % 8)
        return int(bits, 2).to_bytes(len(bits) // 8, "big")


def counting(drawing, count):
    """The nets of the flip-flops' number plus the value of the net `count`."""
    carry, data = count, []
    for latch in reversed(drawing.latches):
        data.append(drawing.cell("xor", latch, carry))
        carry = drawing.cell("and", latch, carry)
    return data[::-1]


def synchroniser(inputs):
    """Counts while its last input is 0, and at 127 always; every flip-flop is shown."""
    d = Drawing(inputs, 7)
    full = d.all_of(d.latches)
    count = d.cell("or", d.cell("not", d.inputs[-1]), full)
    return d.image(counting(d, count), d.latches)


def ring(inputs, first):
    """Counts whatever the inputs are, and shows whether it is at 127; behind 127 comes `first`, which is 0 or 1."""
    d = Drawing(inputs, 7)
    full = d.all_of(d.latches)
    data = counting(d, 1)
    if first == 1:
        data[-1] = d.cell("or", data[-1], full)
    return d.image(data, [full])


if __name__ == "__main__":
    for name, image in {
        "synchroniser": synchroniser(1),
        "ring_128": ring(6, 0),
        "ring_127": ring(6, 1),
    }.items():
        (HERE / f"{name}.img").write_bytes(image)
