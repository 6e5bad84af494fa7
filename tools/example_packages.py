#!/usr/bin/env python3
"""Writes the example packages and the example input of the folder examples/."""

from pathlib import Path

from assembler import (
    FINISH,
    NOTHING,
    add,
    bits,
    call,
    cell,
    copy,
    device,
    drive,
    entry,
    grant,
    input_,
    joined,
    less,
    loop,
    party,
    pick,
    proc,
    put,
    same,
    set_,
    sub,
    table,
    try_,
    when,
)

# Two parties, one rule: where party 1's input is not 0, cell 2 gets 7; device 0 is driven with cell 2.
SMALL = joined([
    party(3),
    party(2),
    input_(0, 4),
    input_(1, 0),
    cell(0, 3),
    device(1),
    proc(0, when(1, set_(2, 7), NOTHING) + drive(0, 2)),
    entry(0),
    FINISH,
])

# The station's input of the small package by rights and the walking oracle: two cycles, each with a show behind it, a
# post of party 1 between them, and two reads.
CYCLE, SHOW = bytes([0x11]), bytes([0x13, 0])
STATION = (
    bytes([0, 0]) + len(SMALL).to_bytes(2, "big") + SMALL.octets
    + CYCLE + SHOW + bytes([0x10, 1, 1, 0, 0, 0, 1]) + CYCLE + SHOW
    + bytes([0x12, 2, 1]) + bytes([0x12, 2, 0])
)

# A hall of four parties, with every command.
AIRPORT, AIRLINE, HANDLER, CUSTOMS = 0, 1, 2, 3
BAGS, HOLD, OPEN = 0, 1, 2
LEFT, BELT, FLAG, FIRST, SECOND, THIRD = 3, 4, 5, 6, 7, 8
ROW = 0
DIVERTER, PUSHER = 0, 1
COUNT, CHOOSE, SORT = 0, 1, 2

HALL = joined([
    party(0xF), party(0x3), party(0x5), party(0x9),
    input_(HANDLER, 12), input_(CUSTOMS, 0), input_(AIRLINE, 1),
    cell(12, 0xF), cell(0, 0xF), cell(0, 0xF), cell(1, 0xF), cell(2, 0xF), cell(3, 0xF),
    table(FIRST, 3),
    device(0x1), device(0x3),
    proc(HANDLER, copy(LEFT, BAGS) + loop(LEFT, 3, sub(LEFT, LEFT, FIRST) + put(ROW, FIRST, LEFT))),
    proc(AIRLINE, less(FLAG, BELT, SECOND) + same(FLAG, FLAG, OPEN) + bits(FLAG, FLAG, OPEN) + add(BELT, BELT, FLAG) + pick(BELT, ROW, BELT)),
    proc(AIRPORT, call(COUNT) + call(CHOOSE)
         + when(HOLD, set_(BELT, 0), try_(0x3, BELT, drive(PUSHER, BELT), NOTHING))
         + grant(0x1, drive(DIVERTER, BELT))),
    entry(SORT),
    FINISH,
])

# Three rules of the airline for one diverter, of which the airport's plan chooses one: the first copies the handler's
# figure, the second the airline's own, the third sends the own figure only where the handler does not hold.
PORT, LINE, HANDLING = 0, 1, 2
PLAN, CHUTE, FIGURE, HOLDS = 0, 1, 2, 3
ONE, TWO, THREE, CHOSEN, COPIED, OWN, ASKED = 4, 5, 6, 7, 8, 9, 10


def planned(number, rule):
    """The airport's rule calls this rule where the plan has this number."""
    return same(CHOSEN, PLAN, number) + when(CHOSEN, call(rule), NOTHING)


DIVERTED = joined([
    party(0b111), party(0b011), party(0b101),
    input_(PORT, 0), input_(LINE, 4), input_(HANDLING, 9), input_(HANDLING, 0),
    cell(1, 0b111), cell(2, 0b111), cell(3, 0b111), cell(0, 0b111), cell(0, 0b111), cell(0, 0b111), cell(0, 0b111),
    device(0b010),
    proc(LINE, copy(COPIED, FIGURE) + drive(0, COPIED)),
    proc(LINE, copy(OWN, CHUTE) + drive(0, OWN)),
    proc(LINE, copy(ASKED, CHUTE) + when(HOLDS, NOTHING, drive(0, ASKED))),
    proc(PORT, planned(ONE, 0) + planned(TWO, 1) + planned(THREE, 2)),
    entry(3),
    FINISH,
])

if __name__ == "__main__":
    folder = Path(__file__).resolve().parent.parent / "examples"
    folder.mkdir(exist_ok=True)
    (folder / "small.package").write_bytes(SMALL.octets)
    (folder / "hall.package").write_bytes(HALL.octets)
    (folder / "diverter.package").write_bytes(DIVERTED.octets)
    (folder / "small.station").write_bytes(STATION)
    # One operand of the small package made an input: SET then gives input 1 a value.
    refused = bytearray(SMALL.octets)
    refused[63] = 1
    (folder / "refused.package").write_bytes(bytes(refused))
