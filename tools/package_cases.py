#!/usr/bin/env python3
"""Writes the standard input of the program package_cases.

A case is a package, right or wrong, and the answer that loading it has to give:
its length where it is accepted, else the number and the offset of the refusal.
Every answer is written here by hand. `here` marks the declaration or the command
at which a fault stands, and the offset is the length of all that comes before.
"""

from pathlib import Path

from assembler import (
    FINISH,
    NOTHING,
    Part,
    add,
    bits,
    call,
    cell,
    copy,
    device,
    drive,
    entry,
    grant,
    grant_head,
    here,
    input_,
    joined,
    less,
    loop,
    loop_head,
    number,
    party,
    pick,
    proc,
    proc_head,
    put,
    same,
    set_,
    sub,
    table,
    try_,
    try_head,
    when,
    when_head,
)


# Refusals.

TOO_LONG = 1
ENDS_EARLY = 2
NO_SUCH_BYTE = 3
BYTE_FALLS = 4
OVER_LIMIT = 5
NOT_DECLARED = 6
INPUT_AS_TARGET = 7
PAST_END = 8
TOO_DEEP = 9
TOO_MANY_STEPS = 10
AFTER_FINISH = 11


# Cases.

CASES = []


def case(name, package, answer, figure):
    CASES.append((name, package.octets, answer, figure))


def accepted(name, *parts):
    package = joined(parts)
    assert package.fault is None, name
    case(name, package, 0, len(package))


def refused(name, refusal, *parts):
    package = joined(parts)
    assert package.fault is not None, name
    case(name, package, refusal, package.fault)


def ends_early(name, *parts):
    """A refusal at the length of the bytes."""
    package = joined(parts)
    assert package.fault is None, name
    case(name, package, ENDS_EARLY, len(package))


# What most packages declare: one party, place 0 an input, place 1 a cell,
# table 0 of this cell, device 0, and procedure 0, of no commands.

INPUT, CELL, NO_PLACE = 0, 1, 2
TABLE, NO_TABLE = 0, 1
DEVICE, NO_DEVICE = 0, 1
LOWER, ITSELF, LATER = 0, 1, 2

INPUTS = party() + input_(0, 4)
PLACES = INPUTS + cell()
TABLES = PLACES + table(CELL, 1)
DEVICES = TABLES + device()
PROCS = DEVICES + proc(0, NOTHING)
ENTRIES = PROCS + entry(0)

# A command of one step.
STEP = copy(CELL, INPUT)


def with_body(*commands):
    """All of these, and procedure 1, of these commands, with an entry of it."""
    return PROCS + proc(0, joined(commands)) + entry(1) + FINISH


# Each sort of declaration: what may stand before it, and one of it.
SORTS = [
    ("PARTY", NOTHING, party()),
    ("INPUT", party(), input_(0, 4)),
    ("CELL", INPUTS, cell()),
    ("TABLE", PLACES, table(CELL, 1)),
    ("DEVICE", TABLES, device()),
    ("PROC", DEVICES, proc(0, set_(CELL, 7) + STEP)),
    ("ENTRY", PROCS, entry(0)),
]

# Each command: a function of its numbers, numbers that are declared, others that are not,
# and what each of them is.
COMMANDS = [
    ("SET", lambda x: set_(x, 7), (CELL,), (NO_PLACE,), ("target",)),
    ("COPY", copy, (CELL, INPUT), (NO_PLACE, NO_PLACE), ("target", "source")),
]
COMMANDS += [
    (word, command, (CELL, INPUT, CELL), (NO_PLACE,) * 3, ("target", "left", "right"))
    for word, command in [
        ("ADD", add),
        ("SUB", sub),
        ("LESS", less),
        ("SAME", same),
        ("BITS", bits),
    ]
]
COMMANDS += [
    (
        "PICK",
        pick,
        (CELL, TABLE, INPUT),
        (NO_PLACE, NO_TABLE, NO_PLACE),
        ("target", "table", "index"),
    ),
    (
        "PUT",
        put,
        (TABLE, INPUT, CELL),
        (NO_TABLE, NO_PLACE, NO_PLACE),
        ("table", "index", "source"),
    ),
    ("DRIVE", drive, (DEVICE, INPUT), (NO_DEVICE, NO_PLACE), ("device", "source")),
    ("WHEN", lambda a: when(a, STEP, STEP), (INPUT,), (NO_PLACE,), ("place",)),
    ("LOOP", lambda a: loop(a, 2, STEP), (INPUT,), (NO_PLACE,), ("place",)),
    ("GRANT", lambda: grant(3, STEP), (), (), ()),
    ("CALL", call, (LOWER,), (ITSELF,), ("procedure",)),
    ("TRY", lambda a: try_(3, a, STEP, STEP), (INPUT,), (NO_PLACE,), ("place",)),
]

# The first ten, each one step.
PLAIN = COMMANDS[:10]

# The commands with blocks, around a block of theirs.
AROUND = [
    ("WHEN, first block", lambda block: when(CELL, block, NOTHING)),
    ("WHEN, second block", lambda block: when(CELL, NOTHING, block)),
    ("LOOP", lambda block: loop(CELL, 1, block)),
    ("GRANT", lambda block: grant(3, block)),
    ("TRY, first block", lambda block: try_(3, CELL, block, NOTHING)),
    ("TRY, second block", lambda block: try_(3, CELL, NOTHING, block)),
]

# The commands with two blocks.
CHOICES = [
    ("WHEN", lambda first, second: when(CELL, first, second)),
    ("TRY", lambda first, second: try_(3, CELL, first, second)),
]


def nested(around, depth, inmost=NOTHING):
    """So many commands, each in a block of the one before."""
    for _ in range(depth):
        inmost = around(inmost)
    return inmost


# Whole packages.

P = Part(
    bytes.fromhex(
        "81 0000000000000003 81 0000000000000002"
        "82 00 00000004 82 01 00000000"
        "83 00000000 0000000000000003"
        "85 0000000000000001"
        "86 00 000F 0B 01 0006 0000 01 02 00000007 0A 00 02"
        "87 00 88"
    )
)

# The same, put together.
P_OF_PARTS = joined(
    [
        party(3),
        party(2),
        input_(0, 4),
        input_(1, 0),
        cell(0, 3),
        device(1),
        proc(0, when(1, set_(2, 7), NOTHING) + drive(0, 2)),
        entry(0),
        FINISH,
    ]
)


def replaced(package, offset, value):
    return package.first(offset) + number(value) + package.rest(offset + 1)


def whole_packages():
    assert len(P) == 74 and P.octets == P_OF_PARTS.octets
    accepted("FINISH alone", FINISH)
    ends_early("no bytes")
    accepted("two parties and a WHEN", P)
    ends_early("two parties and a WHEN, less the last byte", P.first(73))
    refused("two parties and a WHEN, and a byte", AFTER_FINISH, P, here(number(0)))
    accepted("two parties and a WHEN on the other input", replaced(P, 57, 0))
    sets_an_input = replaced(P, 63, 1)
    case("two parties and a WHEN that sets an input", sets_an_input, INPUT_AS_TARGET, 62)
    for word, before, declaration in SORTS:
        accepted(f"all sorts up to {word}", before, declaration, FINISH)
    accepted("parties alone", party(0), party(2**64 - 1), FINISH)
    accepted("cells alone", cell(2**32 - 1, 2**64 - 1), cell(), FINISH)
    accepted("a table of cells alone", cell(), table(0, 1), FINISH)
    accepted("devices alone", device(0), device(2**64 - 1), FINISH)
    accepted("a procedure alone", party(), proc(0, NOTHING), FINISH)
    places = party() * 2 + input_(0, 0) + input_(1, 1) + cell() * 2
    others = table(2, 2) + table(3, 1) + device() * 2
    run = proc(1, NOTHING) + proc(0, call(0)) + entry(1) + entry(0)
    accepted("two of every sort", places, others, run, FINISH)


def every_command():
    for word, command, right, _, _ in COMMANDS:
        accepted(word, with_body(command(*right)))
    every = joined([command(*right) for _, command, right, _, _ in COMMANDS])
    accepted("every command in a row", with_body(every))
    accepted("every command in a block", with_body(grant(3, every) + every))
    accepted("operands that are inputs", with_body(add(CELL, INPUT, INPUT)))
    accepted("a target that is an operand", with_body(add(CELL, CELL, CELL)))
    accepted("PUT of its own index", with_body(put(TABLE, INPUT, INPUT)))
    accepted("LOOP of 255 turns", with_body(loop(INPUT, 255, STEP)))
    accepted("a body of 258 bytes", with_body(STEP * 86))
    for word, around in AROUND:
        accepted(f"an empty block: {word}", with_body(around(NOTHING)))
        accepted(f"a block of 258 bytes: {word}", with_body(around(STEP * 86)))
    uneven = when(INPUT, STEP, STEP * 2) + try_(3, INPUT, STEP * 3, STEP)
    accepted("two blocks of different lengths", with_body(uneven + STEP))


# Bytes that end early.


def short_declarations():
    for word, before, declaration in SORTS:
        ends_early(f"nothing behind {word}", before, declaration)
        for length in range(1, len(declaration)):
            short = declaration.first(length)
            ends_early(f"{word} cut to {length}", before, short)
    ends_early("a body of 65,535 bytes that has none", DEVICES, proc_head(0, 65535))
    in_block = proc_head(0, 8) + loop_head(CELL, 1, 3) + STEP.first(1)
    ends_early("a body cut short in a block", DEVICES, in_block)
    ends_early("a body that takes FINISH in", DEVICES, proc(0, set_(CELL, 0x88)))


# Bytes that are no declaration, or no command.


def wrong_bytes():
    for byte in (0x00, 0x01, 0x0F, 0x7F, 0x80, 0x89, 0xFF):
        wrong = here(number(byte))
        refused(f"byte {byte:02X} first", NO_SUCH_BYTE, wrong, FINISH)
        refused(f"byte {byte:02X} behind a party", NO_SUCH_BYTE, party(), wrong, FINISH)
    refused("byte 08 behind the entries", NO_SUCH_BYTE, ENTRIES, here(number(8)), FINISH)
    for byte in (0x00, 0x10, 0x7F, 0x80, 0x81, 0x88, 0xFF):
        wrong = here(number(byte))
        refused(f"command {byte:02X}", NO_SUCH_BYTE, with_body(wrong + STEP))
        behind = with_body(STEP + wrong + STEP * 4)
        refused(f"command {byte:02X} behind another", NO_SUCH_BYTE, behind)
    for word, around in AROUND:
        block = around(STEP + here(number(0)) + STEP)
        refused(f"command 00 in a block: {word}", NO_SUCH_BYTE, with_body(STEP + block + STEP))


def falling_bytes():
    for high, (above, before, declaration) in enumerate(SORTS):
        for below, _, wrong in SORTS[:high]:
            name = f"{below} behind {above}"
            refused(name, BYTE_FALLS, before, declaration, here(wrong), FINISH)
    refused("PARTY behind a device alone", BYTE_FALLS, device(), here(party()), FINISH)


# One above a limit.

ONE = input_(0, 0)

# What is declared to a limit, and one declaration more.
LIMITS = [
    ("PARTY", party() * 16, party()),
    ("INPUT", party() + ONE * 128, ONE),
    ("CELL", party() + ONE * 127 + cell(), cell()),
    ("TABLE", PLACES + table(CELL, 1) * 16, table(CELL, 1)),
    ("DEVICE", party() + device() * 32, device()),
    ("PROC", party() + proc(0, NOTHING) * 32, proc(0, NOTHING)),
    ("ENTRY", PROCS + entry(0) * 32, entry(0)),
]


def limits():
    for word, most, one in LIMITS:
        accepted(f"as many as the limit: {word}", most, FINISH)
        refused(f"one above the limit: {word}", OVER_LIMIT, most, here(one), FINISH)
    accepted("128 cells, in a table", cell() * 128, table(0, 128), table(127, 1), FINISH)
    refused("129 cells", OVER_LIMIT, cell() * 128, here(cell()), FINISH)
    refused("128 inputs and a cell", OVER_LIMIT, party(), ONE * 128, here(cell()), FINISH)


def highest_numbers():
    """The last number that a limit allows, and the one above it."""
    places = party() + ONE * 127 + cell()
    accepted("place 127", places, proc(0, copy(127, 126)), FINISH)
    refused("place 128, set", NOT_DECLARED, places, proc(0, here(set_(128, 0))), FINISH)
    refused("place 128, read", NOT_DECLARED, places, proc(0, here(copy(127, 128))), FINISH)
    refused("input 126, set", INPUT_AS_TARGET, places, proc(0, here(set_(126, 0))), FINISH)
    parties = party() * 16
    accepted("party 15", parties, input_(15, 0), proc(15, NOTHING), FINISH)
    refused("an input of party 16", NOT_DECLARED, parties, here(input_(16, 0)), FINISH)
    refused("a procedure of party 16", NOT_DECLARED, parties, here(proc(16, NOTHING)), FINISH)
    held = PLACES + table(CELL, 1) * 16
    accepted("table 15", held, proc(0, pick(CELL, 15, CELL)), FINISH)
    refused("table 16", NOT_DECLARED, held, proc(0, here(pick(CELL, 16, CELL))), FINISH)
    driven = PLACES + device() * 32
    accepted("device 31", driven, proc(0, drive(31, CELL)), FINISH)
    refused("device 32", NOT_DECLARED, driven, proc(0, here(drive(32, CELL))), FINISH)
    called = party() + proc(0, NOTHING) * 31
    accepted("procedures 30 and 31", called, proc(0, call(30)), entry(31), FINISH)
    refused("procedure 31 in itself", NOT_DECLARED, called, proc(0, here(call(31))), FINISH)
    refused("an entry of 32", NOT_DECLARED, called, proc(0, NOTHING), here(entry(32)), FINISH)


def lengths():
    # 28 bytes of places, 4 before the body, 2 for an entry and 1 for FINISH.
    longest = joined([PLACES, proc(0, STEP * 2719), entry(0), FINISH])
    longer = joined([PLACES, proc(0, STEP * 2720), FINISH])
    assert len(longest) == 8192 and len(longer) == 8193
    accepted("8,192 bytes", longest)
    refused("8,193 bytes", TOO_LONG, here(longer))
    refused("8,193 bytes, wrong from the first on", TOO_LONG, here(number(0) * 8193))


# Blocks.

PAIR = when(CELL, NOTHING, NOTHING)
SINGLE = loop(CELL, 1, NOTHING)


def blocks(count):
    """Commands with so many blocks."""
    return PAIR * (count // 2) + SINGLE * (count % 2)


def counted(count, *commands):
    """Commands before which so many blocks are counted, their body one of them."""
    return PLACES + proc(0, blocks(count - 1) + joined(commands)) + FINISH


def block_limit():
    for word, command, most in [
        ("WHEN", PAIR, 254),
        ("LOOP", SINGLE, 255),
        ("GRANT", grant(3, NOTHING), 255),
        ("TRY", try_(3, CELL, NOTHING, NOTHING), 254),
    ]:
        accepted(f"256 blocks, the last of {word}", counted(most, command))
        refused(f"257 blocks, the last of {word}", OVER_LIMIT, counted(most + 1, here(command)))
    eight = proc(0, blocks(7))
    accepted("256 blocks in 32 bodies", PLACES, eight * 32, FINISH)
    nine = proc(0, blocks(7) + here(SINGLE))
    refused("257 blocks in 32 bodies", OVER_LIMIT, PLACES, eight * 31, nine, FINISH)
    most = PLACES + proc(0, blocks(254))
    accepted("a body as block 256", most, proc(0, call(0) * 2), FINISH)
    behind = proc(0, STEP + here(SINGLE))
    refused("LOOP in a body that is block 256", OVER_LIMIT, most, behind, FINISH)
    full = PLACES + proc(0, blocks(255))
    refused("a body as block 257", OVER_LIMIT, full, here(proc(0, STEP)), FINISH)


def blocks_counted_early():
    """Blocks count before they are entered, also while they wait behind an inner command."""
    inner = here(SINGLE)
    accepted("LOOP as block 256 in WHEN", counted(253, when(CELL, SINGLE, NOTHING)))
    for name, package in [
        ("in the first block of WHEN", counted(254, when(CELL, inner, NOTHING))),
        ("in the second block of WHEN", counted(254, when(CELL, NOTHING, inner))),
        ("behind one in the first block", counted(253, when(CELL, SINGLE, inner))),
        ("in the first block of TRY", counted(254, try_(3, CELL, STEP + inner, NOTHING))),
        ("in GRANT", counted(255, grant(3, inner))),
    ]:
        refused(f"LOOP as block 257 {name}", OVER_LIMIT, package)
    for word, around in AROUND[:2]:
        name = f"by eight nested commands: {word}"
        accepted(f"256 blocks {name}", counted(240, nested(around, 8)))
        refused(f"257 blocks {name}", OVER_LIMIT, counted(241, nested(around, 7, here(PAIR))))
    behind = counted(240, nested(AROUND[0][1], 8), inner)
    refused("257 blocks behind eight nested commands", OVER_LIMIT, behind)


# Numbers that are not declared.


def undeclared_operands():
    for word, command, right, wrong, names in COMMANDS:
        for at, name in enumerate(names):
            for value in (wrong[at], 255):
                numbers = right[:at] + (value,) + right[at + 1 :]
                package = with_body(STEP + here(command(*numbers)) + STEP)
                refused(f"{word} with {name} {value} not declared", NOT_DECLARED, package)
        if names:
            alone = proc(0, here(command(*right)))
            refused(f"{word} with nothing declared", NOT_DECLARED, party(), alone, FINISH)
    later = proc(0, here(call(LATER))) + proc(0, STEP)
    refused("CALL of a later procedure", NOT_DECLARED, PROCS, later, FINISH)
    for word, around in AROUND:
        block = around(STEP + here(copy(CELL, NO_PLACE)))
        refused(f"a place not declared, in a block: {word}", NOT_DECLARED, with_body(block))


def undeclared_in_declarations():
    refused("an input of party 1 of 1", NOT_DECLARED, party(), here(input_(1, 0)), FINISH)
    refused("an input of party 255", NOT_DECLARED, party(), here(input_(255, 0)), FINISH)
    refused("an input of no party", NOT_DECLARED, here(input_(0, 0)), FINISH)
    refused("a procedure of party 1 of 1", NOT_DECLARED, party(), here(proc(1, NOTHING)), FINISH)
    refused("a procedure of no party", NOT_DECLARED, here(proc(0, NOTHING)), FINISH)
    refused("an entry of procedure 1 of 1", NOT_DECLARED, PROCS, here(entry(1)), FINISH)
    refused("an entry of procedure 255", NOT_DECLARED, PROCS, here(entry(255)), FINISH)
    refused("an entry of no procedure", NOT_DECLARED, here(entry(0)), FINISH)


def tables():
    """Tables over an input at place 0 and cells at places 1 and 2."""
    places = INPUTS + cell() * 2
    whole, last = table(1, 2), table(2, 1)
    accepted("a table of the last cell", places, last, FINISH)
    accepted("tables that share cells", places, whole, last, table(1, 1), whole, FINISH)
    for name, first, length in [
        ("of an input", 0, 1),
        ("from an input to the last cell", 0, 3),
        ("from the first cell past the last", 1, 3),
        ("from the last cell past it", 2, 2),
        ("behind the last place", 3, 1),
        ("of place 255", 255, 1),
        ("of 255 places", 1, 255),
        ("of length 0 at an input", 0, 0),
        ("of length 0 behind the last place", 3, 0),
    ]:
        refused(f"a table {name}", NOT_DECLARED, places, here(table(first, length)), FINISH)
    refused("a table of inputs alone", NOT_DECLARED, INPUTS, here(table(0, 1)), FINISH)
    refused("a table of no places", NOT_DECLARED, here(table(0, 1)), FINISH)
    refused("a table of length 0 of no places", NOT_DECLARED, here(table(0, 0)), FINISH)
    refused("a table of length 0 at a cell", PAST_END, places, here(table(1, 0)), FINISH)
    wrong = here(table(2, 0))
    refused("a table of length 0 at the last cell", PAST_END, places, whole, wrong, FINISH)


def inputs_as_targets():
    for word, command, right, _, names in COMMANDS:
        if "target" in names:
            wrong = here(command(INPUT, *right[1:]))
            refused(f"{word} of an input", INPUT_AS_TARGET, with_body(wrong))
            block = when(CELL, STEP, STEP + wrong + STEP)
            refused(f"{word} of an input in a block", INPUT_AS_TARGET, with_body(block))


# Operands and blocks past the end.


def short_commands():
    for word, command, right, _, _ in COMMANDS:
        whole = command(*right)
        for length in range(1, len(whole)):
            short = here(whole.first(length))
            refused(f"{word} cut to {length} by its body", PAST_END, with_body(STEP + short))
        for length in sorted({1, len(whole) - 1}):
            # Behind the block the command goes on.
            cut = grant(3, here(whole.first(length))) + whole.rest(length)
            refused(f"{word} cut to {length} by a block", PAST_END, with_body(cut))


def blocks_past_the_end():
    for name, head in [
        ("WHEN, its first block one too long", when_head(CELL, 4, 0)),
        ("WHEN, its second block one too long", when_head(CELL, 0, 4)),
        ("WHEN, its blocks one too long together", when_head(CELL, 3, 1)),
        ("WHEN, its blocks of 65,536 bytes together", when_head(CELL, 32768, 32768)),
        ("WHEN, its blocks of 65,535 bytes each", when_head(CELL, 65535, 65535)),
        ("LOOP, its block one too long", loop_head(CELL, 1, 4)),
        ("LOOP, its block of 65,535 bytes", loop_head(CELL, 1, 65535)),
        ("GRANT, its block one too long", grant_head(3, 4)),
        ("GRANT, its block of 65,535 bytes", grant_head(3, 65535)),
        ("TRY, its first block one too long", try_head(3, CELL, 4, 0)),
        ("TRY, its second block one too long", try_head(3, CELL, 0, 4)),
        ("TRY, its blocks one too long together", try_head(3, CELL, 1, 3)),
        ("TRY, its blocks of 65,536 bytes together", try_head(3, CELL, 65535, 1)),
    ]:
        refused(name, PAST_END, with_body(STEP + here(head) + STEP))
        block = loop(CELL, 1, here(head) + STEP) + STEP * 3
        refused(f"{name}, in a block", PAST_END, with_body(block))
    refused("LOOP with k 0", PAST_END, with_body(here(loop(CELL, 0, STEP))))
    refused("LOOP with k 0 and an empty block", PAST_END, with_body(here(loop(CELL, 0, NOTHING))))


def ends_behind_blocks():
    """However a block is left, the end of the one around it applies again."""
    cut, rest = here(STEP.first(2)), STEP.rest(2)
    for word, around in AROUND:
        no_turns = around(STEP + here(loop(INPUT, 0, STEP)))
        refused(f"LOOP with k 0 in a block: {word}", PAST_END, with_body(no_turns))
        behind = grant(3, around(STEP) + STEP) + STEP
        accepted(f"commands behind an inner block: {word}", with_body(behind))
        refused(f"COPY cut short behind a block: {word}", PAST_END, with_body(around(STEP) + cut))
        inner = grant(3, around(STEP) + cut) + rest
        refused(f"COPY cut short behind an inner block: {word}", PAST_END, with_body(inner))
    for word, choice in CHOICES:
        split = choice(STEP + cut, rest + STEP)
        refused(f"COPY across both blocks: {word}", PAST_END, with_body(split))


# Depth and height.


def depths():
    for word, around in AROUND:
        accepted(f"nested 8 deep: {word}", with_body(nested(around, 8)))
        deeper = nested(around, 8, here(around(NOTHING)))
        refused(f"nested 9 deep: {word}", TOO_DEEP, with_body(deeper))
        deeper = nested(around, 8, STEP + here(around(STEP)) + STEP) + STEP
        refused(f"nested 9 deep behind a command: {word}", TOO_DEEP, with_body(deeper))
        seven = nested(around, 7, STEP)
        twice = when(CELL, seven, seven) + when(CELL, seven, seven)
        accepted(f"nested 8 deep again and again: {word}", with_body(twice))
        deeper = try_(3, CELL, seven, nested(around, 7, here(around(STEP))))
        refused(f"nested 9 deep in a second block: {word}", TOO_DEEP, with_body(deeper))
    mixed, deeper = NOTHING, here(PAIR)
    for _, around in AROUND + AROUND[2:4]:
        mixed, deeper = around(mixed), around(deeper)
    accepted("nested 8 deep by every command", with_body(mixed))
    refused("nested 9 deep by every command", TOO_DEEP, with_body(deeper))
    calling = nested(AROUND[3][1], 8, call(0))
    accepted("a call 8 deep of a body 8 deep", PLACES, proc(0, mixed), proc(0, calling), FINISH)


def chain(count):
    """Procedures 0 to count - 1, of the heights 1 to count: each calls the one before."""
    calls = [proc(0, call(p)) for p in range(count - 1)]
    return PLACES + proc(0, STEP) + joined(calls)


def heights():
    ninth = here(call(7))
    accepted("height 8", chain(8), entry(7), FINISH)
    refused("height 9", TOO_DEEP, chain(8), proc(0, ninth), FINISH)
    refused("height 9 among commands", TOO_DEEP, chain(8), proc(0, STEP + ninth + STEP), FINISH)
    accepted("height 8 twice", chain(8), proc(0, call(6)), FINISH)
    second = proc(0, call(6)) + proc(0, here(call(8)))
    refused("height 9 by the second of height 8", TOO_DEEP, chain(8), second, FINISH)
    accepted("heights 2 and 3 behind 8", chain(8), proc(0, call(0)), proc(0, call(8)), FINISH)
    for name, body in [
        ("a high call and a low one", call(6) + call(0)),
        ("a low call and a high one", call(0) + call(6)),
        ("a high call among commands", STEP + call(6) + SINGLE + STEP),
    ]:
        accepted(f"height 8 by {name}", chain(7), proc(0, body), FINISH)
        refused(f"height 9 above {name}", TOO_DEEP, chain(7), proc(0, body), proc(0, ninth), FINISH)
    for word, around in AROUND:
        eighth = proc(0, STEP + around(call(6) + call(1)) + call(0))
        accepted(f"height 8 by a call in a block: {word}", chain(7), eighth, FINISH)
        name = f"height 9 above a call in a block: {word}"
        refused(name, TOO_DEEP, chain(7), eighth, proc(0, ninth), FINISH)
        name = f"height 9 by a call in a block: {word}"
        refused(name, TOO_DEEP, chain(8), proc(0, around(STEP + ninth)), FINISH)
    flat = proc(0, NOTHING) + proc(0, call(0)) * 31
    accepted("31 calls of the first procedure", party(), flat, FINISH)


# Steps.

# 1 + 249 x (1 + 1 + 250 x (1 + 15)) is 996,499, and 1 + 249 x (1 + 13) is 3,487.
NEARLY = loop(CELL, 249, loop(CELL, 250, STEP * 15)) + loop(CELL, 249, STEP * 13)


def steps(count):
    """Commands of so many steps, from 996,499 + 3,487 on."""
    assert count >= 999_986
    return NEARLY + STEP * (count - 999_986)


# 1 + 249 x (1 + 1 + 125 x (1 + 15)) is 498,499, and 1 + 107 x (1 + 13) is 1,499.
# With one step more that makes 499,999.
HALF = loop(CELL, 249, loop(CELL, 125, STEP * 15)) + loop(CELL, 107, STEP * 13) + STEP

# 1 + 249 x (1 + 1 + 7 x (1 + 15)) is 28,387, and 1 + 204 x (1 + 13) is 2,857.
# With five steps more that makes 31,249.
SHARE = loop(CELL, 249, loop(CELL, 7, STEP * 15)) + loop(CELL, 204, STEP * 13) + STEP * 5


def most_steps(name, body):
    """A body of 1,000,000 steps, and one step above."""
    accepted(f"{name}: 1,000,000 steps", DEVICES, proc(0, body), FINISH)
    above = here(proc(0, body + STEP))
    refused(f"{name}: 1,000,001 steps", TOO_MANY_STEPS, DEVICES, above, FINISH)


def steps_of_bodies():
    most_steps("plain commands and LOOPs", steps(1_000_000))
    plain = joined([command(*right) for _, command, right, _, _ in PLAIN])
    most_steps("every plain command", plain + steps(999_990))
    most_steps("GRANT", grant(3, steps(999_999)))
    most_steps("LOOP of one turn", loop(CELL, 1, steps(999_998)))
    # 1 + 10 is 11.
    most_steps("LOOP over nothing", loop(CELL, 10, NOTHING) + steps(999_989))
    most, more = steps(999_999), steps(1_000_000)
    for word, choice in CHOICES:
        most_steps(f"{word}, both blocks the same", choice(most, most))
        most_steps(f"{word}, its second block empty", choice(most, NOTHING))
        most_steps(f"{word}, its first block empty", choice(NOTHING, most))
        for name, blocks_of in [("first", (more, most)), ("second", (most, more))]:
            above = here(proc(0, choice(*blocks_of)))
            name = f"{word}, its {name} block of 1,000,000 steps"
            refused(name, TOO_MANY_STEPS, DEVICES, above, FINISH)
    # 1 + 2 x (1 + 499,999) is 1,000,001.
    twice = here(proc(0, loop(CELL, 2, HALF)))
    refused("LOOP of two turns over 499,999 steps", TOO_MANY_STEPS, DEVICES, twice, FINISH)


def steps_of_calls():
    def calling(name, lower, body):
        accepted(f"{name}: 1,000,000 steps", DEVICES, proc(0, lower), proc(0, body), FINISH)
        above = here(proc(0, body + STEP))
        name = f"{name}: 1,000,001 steps"
        refused(name, TOO_MANY_STEPS, DEVICES, proc(0, lower), above, FINISH)

    calling("CALL of 999,999 steps", steps(999_999), call(0))
    calling("two CALLs of 499,999 steps", HALF, call(0) * 2)
    # 1 + 1 + 499,999 and 499,999.
    calling("CALLs of 499,999 steps in both blocks", HALF, when(CELL, call(0), call(0)) + HALF)
    above = proc(0, steps(1_000_000)) + here(proc(0, call(0)))
    refused("CALL of 1,000,000 steps", TOO_MANY_STEPS, DEVICES, above, FINISH)


def steps_of_cycles():
    """Cycles of procedure 0, and of procedure 1 of no commands: each entry is a step."""

    def cycle(body, *entries):
        return joined([DEVICES, proc(0, body), proc(0, NOTHING), *entries, FINISH])

    one, last = entry(0), here(entry(0))
    accepted("a cycle of 1,000,000 steps", cycle(steps(999_999), one))
    refused("a cycle of 1,000,001 steps", TOO_MANY_STEPS, cycle(steps(1_000_000), last))
    accepted("a body of 1,000,000 steps, no entry of it", cycle(steps(1_000_000), entry(1)))
    accepted("two entries of 500,000 steps", cycle(HALF, one, one))
    above = cycle(HALF, one, one, here(entry(1)))
    refused("two entries of 500,000 steps and an empty one", TOO_MANY_STEPS, above)
    above = cycle(HALF, entry(1), one, last)
    refused("an empty entry and two of 500,000 steps", TOO_MANY_STEPS, above)
    accepted("32 entries of 31,250 steps", cycle(SHARE, one * 32))
    above = proc(0, SHARE) + proc(0, SHARE + STEP) + one * 31 + here(entry(1))
    refused("32 entries, the last of 31,251 steps", TOO_MANY_STEPS, DEVICES, above, FINISH)
    # 1 + 1 + 255 x (1 + 1 + 255 x (1 + 14)) is 975,887.
    deep = loop(CELL, 255, loop(CELL, 255, set_(CELL, 7) * 14))
    accepted("LOOP 255 in LOOP 255 over 14 SETs", DEVICES, proc(0, deep), one, FINISH)
    # 1 + 255 x (1 + 1 + 255 x (1 + 15)) is 1,040,911.
    deep = here(proc(0, loop(CELL, 255, loop(CELL, 255, set_(CELL, 7) * 15))))
    refused("LOOP 255 in LOOP 255 over 15 SETs", TOO_MANY_STEPS, DEVICES, deep, one, FINISH)


def steps_past_32_and_64_bits():
    def eight(inmost):
        return nested(lambda block: loop(CELL, 255, block), 8, inmost)

    for name, body in [
        ("a SET", eight(set_(CELL, 7))),
        ("14 SETs", eight(set_(CELL, 7) * 14)),
        ("nothing", eight(NOTHING)),
        ("nothing, twice", eight(NOTHING) * 2),
    ]:
        package = joined([DEVICES, here(proc(0, body)), entry(0), FINISH])
        refused(f"eight nested LOOPs of 255 over {name}", TOO_MANY_STEPS, package)

    def turns(*further):
        """Nested LOOPs of 128 turns, these commands behind each inner one and in the inmost."""
        block = further[-1]
        for commands in reversed(further[:-1]):
            block = loop(CELL, 128, block) + commands
        return loop(CELL, 128, block)

    # The steps of such LOOPs are the sum of 128^i x d(i): d(0) is 1, d of the inmost block
    # is 1 and its steps, and every other d(i) is 2 and the further steps of block i.
    # A call of procedure 0 has 125 steps.
    lower = DEVICES + proc(0, STEP * 124)
    many = call(0)
    # d is 1, 2, 2, 128 and 15.
    body = turns(NOTHING, NOTHING, many + STEP, STEP * 14)
    refused("2^32 + 33,025 steps", TOO_MANY_STEPS, lower, here(proc(0, body)), FINISH)
    # d is 1, 2, 2, 128, four times 127, and 255.
    inner = [many + STEP, many, many, many, many, many * 2 + STEP * 4]
    body = turns(NOTHING, NOTHING, *inner)
    refused("2^64 + 33,025 steps", TOO_MANY_STEPS, lower, here(proc(0, body)), FINISH)


def after_finish():
    for byte in (0x00, 0x81, 0x87, 0x88, 0x89, 0xFF):
        behind = here(number(byte))
        refused(f"byte {byte:02X} behind FINISH", AFTER_FINISH, ENTRIES, FINISH, behind)
    refused("FINISH twice", AFTER_FINISH, FINISH, here(FINISH))
    refused("a package behind FINISH", AFTER_FINISH, ENTRIES, FINISH, here(P))
    refused("a party cut short behind FINISH", AFTER_FINISH, FINISH, here(party().first(3)))


# Two faults of one declaration: the earlier check counts.


def falls_and_more():
    name = "no declaration, and its byte falls"
    refused(name, NO_SUCH_BYTE, INPUTS, here(number(0x80)), FINISH)
    refused("no declaration, and the bytes end", NO_SUCH_BYTE, INPUTS, here(number(0x89)))
    name = "no declaration, its byte falls, and the bytes end"
    refused(name, NO_SUCH_BYTE, ENTRIES, here(number(0x00)))
    for word, _, declaration in SORTS[:-1]:
        short = here(declaration.first(1))
        refused(f"{word} falls and is cut to 1", BYTE_FALLS, ENTRIES, short)
        short = here(declaration.first(len(declaration) - 1))
        refused(f"{word} falls and lacks its last byte", BYTE_FALLS, ENTRIES, short)
    for word, most, one in LIMITS[:-1]:
        higher = entry(0) if word == "PROC" else proc(0, NOTHING)
        refused(f"{word} falls, above a limit", BYTE_FALLS, most, higher, here(one), FINISH)
    refused("INPUT falls and has no party", BYTE_FALLS, cell(), here(input_(0, 0)), FINISH)
    refused("TABLE falls and has no cell", BYTE_FALLS, device(), here(table(0, 1)), FINISH)
    refused("TABLE falls and has length 0", BYTE_FALLS, DEVICES, here(table(CELL, 0)), FINISH)
    wrong = here(proc(0, number(0)))
    refused("PROC falls and its body is wrong", BYTE_FALLS, ENTRIES, wrong, FINISH)


def cut_short_and_more():
    for word, most, one in LIMITS:
        ends_early(f"{word} lacks its last byte, above a limit", most, one.first(len(one) - 1))
    ends_early("INPUT is cut short and has no party", party(), input_(1, 0).first(5))
    ends_early("TABLE is cut short and has no cell", PLACES, table(INPUT, 1).first(2))
    ends_early("PROC is cut short and has no party", party(), proc(1, STEP).first(6))
    ends_early("PROC is cut to 2 and has no party", party(), proc(1, STEP).first(2))
    ends_early("PROC is cut short and its body is wrong", party(), proc_head(0, 3), number(0) * 2)
    full = PLACES + proc(0, blocks(255))
    ends_early("PROC is cut short and is block 257", full, proc(0, STEP).first(6))
    long = steps(1_000_001)
    short = proc_head(0, len(long) + 1) + long
    ends_early("PROC is cut short and has too many steps", DEVICES, short)


def above_a_limit_and_more():
    most = {word: before for word, before, _ in LIMITS}
    for name, before, wrong in [
        ("INPUT is above a limit and has no party", most["INPUT"], input_(1, 0)),
        ("TABLE is above a limit and has no cell", most["TABLE"], table(INPUT, 1)),
        ("TABLE is above a limit and has length 0", most["TABLE"], table(CELL, 0)),
        ("PROC is above a limit and has no party", most["PROC"], proc(1, NOTHING)),
        ("PROC is above a limit and its body is wrong", most["PROC"], proc(0, number(0))),
        ("ENTRY is above a limit and has no procedure", most["ENTRY"], entry(1)),
    ]:
        refused(name, OVER_LIMIT, before, here(wrong), FINISH)
    full = PLACES + proc(0, blocks(255))
    procs = PLACES + proc(0, NOTHING) * 32
    for name, before, wrong in [
        ("PROC is block 257 and has no party", full, proc(1, NOTHING)),
        ("PROC is block 257 and its body is wrong", full, proc(0, number(0))),
        ("PROC is above a limit and has too many steps", procs, proc(0, steps(1_000_001))),
    ]:
        refused(name, OVER_LIMIT, before, here(wrong), FINISH)
    long = PLACES + proc(0, SHARE) + entry(0) * 32
    name = "ENTRY is above a limit and the cycle of too many steps"
    refused(name, OVER_LIMIT, long, here(entry(0)), FINISH)


def wrong_procedures():
    long = steps(1_000_001)
    wrong = here(proc(1, number(0)))
    refused("PROC has no party and a wrong body", NOT_DECLARED, party(), wrong, FINISH)
    wrong = here(proc(1, long))
    refused("PROC has no party and too many steps", NOT_DECLARED, DEVICES, wrong, FINISH)
    for name, refusal, body in [
        ("no such byte behind too many steps", NO_SUCH_BYTE, long + here(number(0))),
        ("a command cut short behind too many steps", PAST_END, long + here(STEP.first(2))),
        ("a call of itself before too many steps", NOT_DECLARED, here(call(0)) + long),
        ("block 257 behind too many steps", OVER_LIMIT, long + blocks(252) + here(SINGLE)),
    ]:
        refused(name, refusal, DEVICES, proc(0, body), FINISH)


# Two faults of one command: the earlier check counts.


def command_cut_short_and_more():
    refused("no command, at the end of a body", NO_SUCH_BYTE, with_body(STEP + here(number(16))))
    block = grant(3, here(number(0))) + STEP
    refused("no command, at the end of a block", NO_SUCH_BYTE, with_body(block))
    for word, command, right, wrong, names in COMMANDS:
        for at, name in enumerate(names):
            whole = command(*right[:at], wrong[at], *right[at + 1 :])
            # The byte that is cut off is not the number itself.
            if len(whole) > at + 2:
                short = here(whole.first(len(whole) - 1))
                name = f"{word} is cut short and has {name} not declared"
                refused(name, PAST_END, with_body(short))
        if "target" in names:
            whole = command(INPUT, *right[1:])
            short = here(whole.first(len(whole) - 1))
            refused(f"{word} is cut short and sets an input", PAST_END, with_body(short))
    no_turns = here(loop(NO_PLACE, 0, STEP))
    refused("LOOP has k 0 and a place not declared", PAST_END, with_body(no_turns))
    no_turns = here(loop(CELL, 0, number(0)))
    refused("LOOP has k 0 and a wrong block", PAST_END, with_body(no_turns))


def not_declared_and_more():
    for word, command, right, wrong, names in COMMANDS:
        if "target" in names:
            for at in range(1, len(names)):
                both = here(command(INPUT, *right[1:at], wrong[at], *right[at + 1 :]))
                name = f"{word} sets an input and has {names[at]} not declared"
                refused(name, NOT_DECLARED, with_body(both))
    for word, wrong in [
        ("WHEN, first block", when(NO_PLACE, number(0), NOTHING)),
        ("WHEN, second block", when(NO_PLACE, NOTHING, number(0))),
        ("LOOP", loop(NO_PLACE, 1, number(0))),
        ("TRY, first block", try_(3, NO_PLACE, number(0), NOTHING)),
        ("TRY, second block", try_(3, NO_PLACE, NOTHING, number(0))),
    ]:
        name = f"a place not declared, and a wrong block: {word}"
        refused(name, NOT_DECLARED, with_body(here(wrong)))


# Commands with an empty block, and a place that is not declared.
NO_PLACES = [
    ("WHEN", when(NO_PLACE, NOTHING, NOTHING)),
    ("LOOP", loop(NO_PLACE, 1, NOTHING)),
    ("TRY", try_(3, NO_PLACE, NOTHING, NOTHING)),
]


def too_deep_and_more():
    def ninth(command):
        return with_body(nested(AROUND[2][1], 8, here(command)))

    for word, head in [
        ("WHEN", when_head(CELL, 0, 1)),
        ("LOOP", loop_head(CELL, 1, 1)),
        ("GRANT", grant_head(3, 1)),
        ("TRY", try_head(3, CELL, 1, 0)),
    ]:
        refused(f"{word} is too deep and its block too long", PAST_END, ninth(head))
        short = head.first(len(head) - 1)
        refused(f"{word} is too deep and cut short", PAST_END, ninth(short))
    refused("LOOP is too deep and has k 0", PAST_END, ninth(loop(CELL, 0, NOTHING)))
    for word, wrong in NO_PLACES:
        refused(f"{word} is too deep and has no place", NOT_DECLARED, ninth(wrong))
    for word, around in AROUND:
        name = f"too deep, with a wrong block: {word}"
        refused(name, TOO_DEEP, ninth(around(number(0))))
    # Eight nested LOOPs count 8 blocks more.
    for word, around in [AROUND[0], AROUND[3]]:
        deep = nested(AROUND[2][1], 8, here(around(NOTHING)))
        refused(f"too deep, with block 257: {word}", TOO_DEEP, counted(248, deep))


def block_257_and_more():
    for name, wrong in [
        ("LOOP has k 0", loop(CELL, 0, NOTHING)),
        ("WHEN has a block too long", when_head(CELL, 1, 0)),
        ("GRANT is cut short", grant_head(3, 0).first(10)),
    ]:
        refused(f"{name} and is block 257", PAST_END, counted(256, here(wrong)))
    for word, wrong in NO_PLACES:
        name = f"{word} has no place and is block 257"
        refused(name, NOT_DECLARED, counted(256, here(wrong)))
    for word, around in AROUND[1:3]:
        name = f"block 257 that is wrong: {word}"
        refused(name, OVER_LIMIT, counted(256, here(around(number(0)))))


# Two faults of one package: the first in reading order counts.


def two_faults_of_a_package():
    wrong = number(0)
    cases = [
        ("above a limit, then no such byte", OVER_LIMIT, party() * 16 + here(party()) + wrong),
        ("no such byte, then the bytes end", NO_SUCH_BYTE, here(wrong) + party().first(4)),
        ("a byte falls, then no party", BYTE_FALLS, cell() + here(party()) + input_(9, 0)),
        ("no party, then a byte falls", NOT_DECLARED, here(input_(0, 0)) + party()),
        ("length 0, then no such byte", PAST_END, PLACES + here(table(CELL, 0)) + wrong),
    ]
    body = DEVICES + proc(0, here(wrong))
    cases += [
        ("a body is wrong, then the bytes end", NO_SUCH_BYTE, body),
        ("a body is wrong, then an entry is cut", NO_SUCH_BYTE, body + entry(0).first(1)),
        ("a body is wrong, then one behind FINISH", NO_SUCH_BYTE, body + FINISH * 2),
        ("FINISH as a command", NO_SUCH_BYTE, DEVICES + proc_head(0, 1) + here(FINISH)),
    ]
    body = DEVICES + proc(0, STEP + here(set_(INPUT, 0)))
    cases += [
        ("an input is set, then a body is wrong", INPUT_AS_TARGET, body + proc(0, wrong)),
        ("no procedure, then FINISH twice", NOT_DECLARED, here(entry(0)) + FINISH * 2),
    ]
    body = DEVICES + here(proc(0, steps(1_000_001)))
    cycle = DEVICES + proc(0, steps(1_000_000)) + here(entry(0))
    cases += [
        ("a long body, then a wrong one", TOO_MANY_STEPS, body + proc(0, wrong)),
        ("a long cycle, then no procedure", TOO_MANY_STEPS, cycle + entry(9)),
        ("a long cycle, then a byte falls", TOO_MANY_STEPS, cycle + proc(0, NOTHING)),
    ]
    for name, refusal, package in cases:
        refused(name, refusal, package)


def two_faults_of_a_body():
    low, high = number(0), call(9)
    both = with_body(STEP + here(high) + low)
    refused("two wrong commands, the higher refusal first", NOT_DECLARED, both)
    both = with_body(STEP + here(low) + high)
    refused("two wrong commands, the lower refusal first", NO_SUCH_BYTE, both)
    for word, choice in CHOICES:
        both = choice(here(high), low)
        refused(f"both blocks are wrong: {word}", NOT_DECLARED, with_body(both))
        both = choice(STEP, STEP + here(high)) + low
        refused(f"the second block, then a command: {word}", NOT_DECLARED, with_body(both))
    for word, around in AROUND:
        both = around(here(high)) + low
        refused(f"a block, then a command behind it: {word}", NOT_DECLARED, with_body(both))
        both = grant(3, both)
        refused(f"a block, then the one around it: {word}", NOT_DECLARED, with_body(both))
    both = here(high) + STEP.first(2)
    refused("a wrong command, then one cut short", NOT_DECLARED, with_body(both))
    both = here(loop_head(CELL, 1, 3)) + high
    refused("a block too long, with a wrong command", PAST_END, with_body(both))


def write(path):
    whole_packages()
    every_command()
    short_declarations()
    wrong_bytes()
    falling_bytes()
    limits()
    highest_numbers()
    lengths()
    block_limit()
    blocks_counted_early()
    undeclared_operands()
    undeclared_in_declarations()
    tables()
    inputs_as_targets()
    short_commands()
    blocks_past_the_end()
    ends_behind_blocks()
    depths()
    heights()
    steps_of_bodies()
    steps_of_calls()
    steps_of_cycles()
    steps_past_32_and_64_bits()
    after_finish()
    falls_and_more()
    cut_short_and_more()
    above_a_limit_and_more()
    wrong_procedures()
    command_cut_short_and_more()
    not_declared_and_more()
    too_deep_and_more()
    block_257_and_more()
    two_faults_of_a_package()
    two_faults_of_a_body()
    names = {name for name, _, _, _ in CASES}
    assert len(names) == len(CASES), "two cases of one name"
    with open(path, "w", encoding="ascii", newline="\n") as out:
        for name, octets, answer, figure in CASES:
            out.write(f"case {name}\nin {octets.hex().upper()}\nout {answer} {figure}\n\n")


if __name__ == "__main__":
    write(Path(__file__).resolve().parent.parent / "crates" / "package_cases" / "stdin")
