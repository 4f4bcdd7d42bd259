#!/usr/bin/env python3
"""Writes the example board files, and serves as a module that builds others.

A board file is a row of records. Each record is

    bytes  what
    2      length of the body
    2      kind
    ...    body

and every number has its lowest byte first. The bodies, with the bytes of each field:

    kind  record  body
    1     layer   kind 1 (1 signal, 2 plane), delay rate 2, price rate 2
    2     span    layer 1, layer 1 (the lower first), delay 4, price 4
    3     close   (empty)
    4     point   x 2, y 2, layer 1
    5     track   point 2, point 2, gap 2
    6     via     point 2, point 2, gap 2
    7     block   link 2
    8     free    link 2
    9     search  source point 2, bound 4, tolerance in thousandths 2

Kinds 1 to 3 stand before the close and 4 to 9 after it. Layers, points and links
have numbers from 0 in the order they are added.

Run it as `python3 make_boards.py [FOLDER]`; without a folder the files are written
beside this script.
"""

import pathlib
import struct
import sys

SIGNAL = 1
PLANE = 2


def record(kind, body=b""):
    """A whole record around the bytes of its body."""
    return struct.pack("<HH", len(body), kind) + body


def layer(kind, delay_rate, price_rate):
    return record(1, struct.pack("<BHH", kind, delay_rate, price_rate))


def span(low, high, delay, price):
    return record(2, struct.pack("<BBII", low, high, delay, price))


def close():
    return record(3)


def point(x, y, on):
    return record(4, struct.pack("<HHB", x, y, on))


def track(start, end, gap):
    return record(5, struct.pack("<HHH", start, end, gap))


def via(start, end, gap):
    return record(6, struct.pack("<HHH", start, end, gap))


def block(link):
    return record(7, struct.pack("<H", link))


def free(link):
    return record(8, struct.pack("<H", link))


def search(source, bound, tolerance):
    return record(9, struct.pack("<HIH", source, bound, tolerance))


def sample_stackup():
    """Two signal layers about a plane, with one span between them; not yet closed."""
    return b"".join([
        layer(SIGNAL, 60, 1),
        layer(PLANE, 1, 0),
        layer(SIGNAL, 40, 2),
        span(0, 2, 5, 3),
    ])


def sample_board():
    """Two points on each signal layer, with a track on each and a via at each end."""
    return b"".join([
        sample_stackup(),
        close(),
        point(0, 0, 0),
        point(10, 0, 0),
        point(0, 0, 2),
        point(10, 0, 2),
        track(0, 1, 4),
        via(0, 2, 6),
        track(2, 3, 9),
        via(3, 1, 6),
    ])


def sample():
    return sample_board() + search(0, 599, 10)


def detour():
    """The direct track is blocked for one search, and freed for the next."""
    return b"".join([
        sample_board(),
        block(0),
        search(0, 599, 10),
        free(0),
        search(0, 300, 1000),
    ])


def refusals():
    """Calls that are refused, among a few that are not, and a cut record at the end."""
    return b"".join([
        sample_stackup(),
        layer(3, 10, 1),  # no such layer kind
        span(2, 0, 5, 3),  # named in reverse
        close(),
        point(0, 0, 0),
        point(10, 5, 0),
        point(4, 4, 1),  # on the plane
        point(0, 0, 0),  # a second time
        track(0, 1, 4),  # the two share neither x nor y
        track(0, 7, 4),  # no such point
        block(0),  # no such link
        search(0, 50_000_001, 10),  # the bound is out of range
        search(9, 599, 10),  # no such point
        search(0, 599, 10)[:7],  # cut
    ])


BOARDS = {
    "sample.board": sample,
    "detour.board": detour,
    "refusals.board": refusals,
}


def main(folder):
    for name, board in BOARDS.items():
        (folder / name).write_bytes(board())


if __name__ == "__main__":
    main(pathlib.Path(sys.argv[1]) if len(sys.argv) > 1 else pathlib.Path(__file__).resolve().parent)
