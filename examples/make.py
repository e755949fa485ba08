#!/usr/bin/env python3
"""Writes the example forms and papers beside this file, as four-byte numbers, the low byte first."""
import os
import struct

HERE = os.path.dirname(os.path.abspath(__file__))


def number(low, high):
    return [0, low, high]


def list_of(kind, least, most):
    return [1, kind, least, most]


def record(*places):
    return [2, len(places), 0, 0] + [n for place in places for n in place]


def form(*kinds):
    """A form's 197 numbers: how many kinds, and for each of four 49 numbers: how many ways, and three times 16."""
    row = [len(kinds)]
    for ways in list(kinds) + [[]] * (4 - len(kinds)):
        row.append(len(ways))
        for way in list(ways) + [[]] * (3 - len(ways)):
            row += way + [0] * (16 - len(way))
    return row


def write(name, row):
    with open(os.path.join(HERE, name), "wb") as file:
        file.write(struct.pack("<%dI" % len(row), *row))


MUST, MAY = 1, 0
PARCELS, GOODS, LICENCE, WEIGHT = 1, 2, 3, 1

load = record((PARCELS, 1, MUST), (GOODS, 2, MUST), (LICENCE, 1, MAY))
count = number(0, 99)
item = record((WEIGHT, 1, MUST))

old = form([load], [count], [list_of(3, 0, 3)], [item])
write("old.bin", old)
write("a.bin", form([load], [count], [list_of(3, 1, 3)], [item]))
write("b.bin", form([record((PARCELS, 1, MUST), (GOODS, 2, MUST), (LICENCE, 2, MAY))], [count], [list_of(3, 0, 3)], [item]))
write("c.bin", form([load, record((PARCELS, 1, MUST), (GOODS, 2, MUST), (LICENCE, 3, MUST))], [count], [list_of(3, 0, 3)], [item]))

# The old form with kind 2 a list of up to 17, which is one too many: no form.
write("damaged.bin", form([load], [count], [list_of(3, 0, 17)], [item]))

taken = [2, 2, 1, 0, 0, 2, 1, 0]  # {1: 0, 2: []}
not_taken = [
    [2, 2, 1, 0, 100, 2, 1, 0],  # {1: 100, 2: []}: too many parcels
    [2, 2, 1, 0, 0, 2, 1, 4] + [2, 1, 1, 0, 5] * 4,  # {1: 0, 2: [{1: 5}, {1: 5}, {1: 5}, {1: 5}]}: too many goods
    [2, 1, 1, 0, 0],  # {1: 0}: no goods
    [2, 3, 1, 0, 0, 2, 1, 0, 4, 0, 0],  # {1: 0, 2: [], 4: 0}: an unknown name
]
deeper = [2, 3, 1, 0, 2, 2, 1, 2] + [2, 1, 1, 0, 5] + [2, 1, 1, 0, 99] + [3, 0, 42]  # {1: 2, 2: [{1: 5}, {1: 99}], 3: 42}
damaged = [
    [],  # nothing at all
    [3],  # an unknown start
    [0],  # cut short
    [2, 2, 1, 0, 0, 1, 1, 0],  # a name twice
    [0, 7, 0],  # something behind the paper
    [1, 1] * 256 + [0, 5],  # 257 deep
]


def stream(rows):
    return [n for row in rows for n in [len(row)] + row]


write("papers.bin", stream([taken] + not_taken + [deeper] + damaged + [taken]))
