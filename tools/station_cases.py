#!/usr/bin/env python3
"""Writes the worked runs of the station in front of the other cases of crates/station_cases.

A case is the station's input in hexadecimal and the lines that it has to answer, which were
worked out by hand from the rules. The cases behind these came from an independent program
and are kept as they are.
"""

from pathlib import Path

from assembler import FINISH, cell, entry, joined, loop, party, proc, set_
from example_packages import SMALL

# So many cases came from the independent program.
KNOWN = 95

RIGHTS, LEVELS = 0, 1
WALKING, BROAD = 0, 1


def post(who, place, value):
    return bytes([0x10, who, place]) + value.to_bytes(4, "big")


CYCLE = bytes([0x11])


def read(place, right):
    return bytes([0x12, place, right])


def show(device):
    return bytes([0x13, device])


def station(package, *calls, kind=RIGHTS, oracle=WALKING):
    return bytes([kind, oracle]) + len(package).to_bytes(2, "big") + package + b"".join(calls)


def changed(package, offset, octet):
    return package[:offset] + bytes([octet]) + package[offset + 1:]


def loops(sets):
    """A loop of 255 turns in another, over so many SETs."""
    body = loop(0, 255, loop(0, 255, set_(1, 1) * sets))
    return joined([party(1), cell(1, 1), cell(0, 1), proc(0, body), entry(0), FINISH]).octets


P = SMALL.octets
BARE = FINISH.octets

WORKED = [
    # Party 1's figure moves nothing, whether it is posted or not.
    (station(P, CYCLE, show(0), post(1, 1, 1), CYCLE, show(0), read(2, 1), read(2, 0)),
     ["load 0 74", "cycle 3 1", "show 0 0 0", "post 0", "cycle 4 1", "show 0 0 0", "read 0 7 2", "read 32"]),
    # By the levels kind frame 2 is trusted for the right that is needed.
    (station(P, CYCLE, show(0), kind=LEVELS), ["load 0 74", "cycle 3 0", "show 0 0 1"]),
    # The condition is party 0's own.
    (station(changed(P, 57, 0), CYCLE, show(0)), ["load 0 74", "cycle 4 0", "show 0 7 1"]),
    # The broad oracle names place 0 as well.
    (station(P, CYCLE, read(0, 0)), ["load 0 74", "cycle 3 1", "read 0 4 3"]),
    (station(P, CYCLE, read(0, 0), oracle=BROAD), ["load 0 74", "cycle 3 1", "read 32"]),
    # Packages that are short, cut short, too long, or give an input a value.
    (station(BARE), ["load 0 1"]),
    (station(b""), ["load 2 0"]),
    (station(P[:-1]), ["load 2 73"]),
    (station(P + b"\x00"), ["load 11 74"]),
    (station(changed(P, 63, 1)), ["load 7 62"]),
    # As many steps as a cycle may take, nearly, and too many.
    (station(loops(14), CYCLE, read(1, 0)), [f"load 0 {len(loops(14))}", "cycle 975887 0", "read 0 1 1"]),
    (station(loops(15), CYCLE), [f"load 10 {len(party(1)) + 2 * len(cell(1, 1))}"]),
    # A refused package ends the run.
    (station(b"", CYCLE, b"\xFF"), ["load 2 0"]),
    # A controller without parties, places and devices.
    (station(BARE, CYCLE, post(0, 0, 1), read(0, 0), show(0), CYCLE),
     ["load 0 1", "cycle 0 0", "post 20", "read 21", "show 33", "cycle 0 0"]),
    # Inputs that end early.
    (b"", ["stop 2"]),
    (bytes([0]), ["stop 2"]),
    (bytes([1, 1]), ["stop 2"]),
    (bytes([0, 0, 0]), ["stop 2"]),
    (station(P)[:-1], ["stop 2"]),
    (station(P, CYCLE, post(0, 0, 9)[:-1]), ["load 0 74", "cycle 3 1", "stop 2"]),
    (station(P, show(0), read(0, 0)[:-1]), ["load 0 74", "show 0 0 0", "stop 2"]),
    (station(P, show(0)[:-1]), ["load 0 74", "stop 2"]),
    # Bytes that name nothing.
    (bytes([2]), ["stop 3"]),
    (bytes([0, 2]), ["stop 3"]),
    (bytes([2, 2, 0, 1, 0x88]), ["stop 3"]),
    (station(P, show(0), b"\x14", CYCLE), ["load 0 74", "show 0 0 0", "stop 3"]),
    (station(BARE, b"\x00"), ["load 0 1", "stop 3"]),
    # As long as an input may be, and longer by one byte.
    (station(BARE, b"\xFF" * 32763), ["load 0 1", "stop 3"]),
    (station(BARE, b"\xFF" * 32764), ["stop 1"]),
    (b"\x02" * 32769, ["stop 1"]),
]


def text(case):
    octets, lines = case
    return "\n".join([f"in {octets.hex()}"] + [f"out {line}" for line in lines])


if __name__ == "__main__":
    folder = Path(__file__).resolve().parent.parent / "crates" / "station_cases"
    cases = (folder / "stdin").read_text().removesuffix("\n\n").split("\n\n")
    written = [text(case) for case in WORKED] + cases[-KNOWN:]
    (folder / "stdin").write_text("\n\n".join(written) + "\n\n")
    (folder / "stdout").write_text(f"{len(written)} inputs are answered as they should be\n")
