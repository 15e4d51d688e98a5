#!/usr/bin/env python3
"""Writes the sample packs of sheet_points to the file stdin beside this script, and what document 01 says of each sheet to the file stdout;
the pack of sheets on a List in slot 0 goes to src/slot_pack.rt.
Each pack comes after its name; a name after its length of one byte, a pack after its length of three, little-endian."""
import os
import struct

HERE = os.path.dirname(os.path.abspath(__file__))

ADD, SUBTRACT, DIVIDE, MULTIPLY, MOD, NEGATE, EQUAL, GREATER, LESS = range(9)
NOT_EQUALS, NOT, AND, OR, MIN, MAX, POW, FLOOR, CEILING = range(11, 20)
TO_INT, TO_FLOAT, HAS, HASNT, INTERSECT, LIST_MIN, LIST_MAX, ALL, COUNT, VALUE_OF_LIST, INVERT, RANGE = range(20, 32)
VOID = bytes([37])


def boolean(b):
    return bytes([32, b])


def integer(n):
    return bytes([33]) + struct.pack('<i', n)


def float_bits(n):
    return bytes([34]) + struct.pack('<I', n)


def literal(n):
    return bytes([35, n])


def slot(n):
    return bytes([36, n])


def sheet(*parts):
    return b''.join(bytes([p]) if isinstance(p, int) else p for p in parts)


def pack(definitions=(), literals=(), sheets=()):
    bodies = [bytes([len(d)]) + struct.pack('<%di' % len(d), *d) for d in definitions]
    bodies += [struct.pack('<Q', o) + b''.join(struct.pack('<Bi', *e) for e in es) for o, es in literals]
    bodies += sheets
    out = bytes([1, len(definitions), len(literals), len(sheets)])
    at = 4 + 4 * len(bodies)
    for body in bodies:
        out += struct.pack('<HH', at, len(body))
        at += len(body)
    return out + b''.join(bodies)


# items 0 to 2 have the values 1, 2, 3, and items 3 and 4 have 10 and 20
DEFINITIONS = [(1, 2, 3), (10, 20)]
LITERALS = [(1, [(0, 1), (2, 3)]), (3, [(2, 30), (3, -5)]), (0, [])]
ONE, OTHER, EMPTY = literal(0), literal(1), literal(2)
LOWEST, GREATEST = -2 ** 31, 2 ** 31 - 1

VALUES = [
    (sheet(boolean(0)), 'B 0'),
    (sheet(boolean(1)), 'B 1'),
    (sheet(integer(LOWEST)), 'I -2147483648'),
    (sheet(integer(GREATEST)), 'I 2147483647'),
    (sheet(float_bits(0x3fc00000)), 'F 3fc00000'),
    (sheet(float_bits(0xffc00001)), 'F 7fc00000'),
    (sheet(ONE), 'L 2 0=1 2=3'),
    (sheet(OTHER), 'L 2 2=30 3=-5'),
    (sheet(EMPTY), 'L 0'),
    (sheet(VOID), 'V'),
    (sheet(slot(15)), 'V'),
]
ENDS = [
    (b'', 'R 17 0'),
    (sheet(integer(1), integer(2)), 'R 17 2'),
    (sheet(POW), 'R 8 0'),
    (sheet(integer(1), integer(1), POW), 'R 8 2'),
    (sheet(integer(1)) * 64, 'R 17 64'),
    (sheet(integer(1)) * 65, 'R 9 64'),
    (sheet(integer(1)) * 64 + sheet(*[ADD] * 63), 'I 64'),
    (sheet(ADD), 'R 10 0'),
    (sheet(integer(1), ADD), 'R 10 1'),
    (sheet(ONE, integer(1), RANGE), 'R 10 2'),
    (sheet(VOID, integer(1), ADD), 'R 11 2'),
    (sheet(ONE, slot(0), ADD), 'R 11 2'),
    (sheet(ONE, float_bits(0x3f800000), ADD), 'R 12 2'),
    (sheet(integer(1), ONE, ADD), 'R 12 2'),
    (sheet(ONE, boolean(1), SUBTRACT), 'R 12 2'),
    (sheet(integer(1), integer(1), HAS), 'R 13 2'),
    (sheet(ONE, NEGATE), 'R 13 1'),
    (sheet(integer(1), integer(1), integer(1), RANGE), 'R 13 3'),
    (sheet(integer(7), integer(0), DIVIDE), 'R 15 2'),
    (sheet(integer(LOWEST), integer(-1), MOD), 'R 15 2'),
]
NUMBERS = [
    (sheet(integer(-7), integer(2), DIVIDE), 'I -3'),
    (sheet(integer(-7), integer(2), MOD), 'I -1'),
    (sheet(integer(GREATEST), integer(1), ADD), 'I -2147483648'),
    (sheet(integer(3), integer(5), SUBTRACT), 'I -2'),
    (sheet(boolean(1), boolean(1), ADD), 'I 2'),
    (sheet(boolean(1), boolean(0), MIN), 'I 0'),
    (sheet(integer(16777217), TO_FLOAT), 'F 4b800000'),
    (sheet(float_bits(0xc0200000), TO_INT), 'I -2'),
    (sheet(integer(1), float_bits(0x40000000), LESS), 'B 1'),
    (sheet(float_bits(0x3f800000), float_bits(0), DIVIDE), 'F 7f800000'),
]
ROUNDING = [
    (sheet(float_bits(0x40200000), FLOOR), 'F 40000000'),  # 2.5: 2.0
    (sheet(float_bits(0x40200000), CEILING), 'F 40400000'),  # 2.5: 3.0
    (sheet(float_bits(0xc0200000), FLOOR), 'F c0400000'),  # -2.5: -3.0
    (sheet(float_bits(0xc0200000), CEILING), 'F c0000000'),  # -2.5: -2.0
    (sheet(float_bits(0x3f000000), FLOOR), 'F 00000000'),  # 0.5: 0.0
    (sheet(float_bits(0xbf000000), CEILING), 'F 80000000'),  # -0.5: -0.0
    (sheet(float_bits(0xbf000000), FLOOR), 'F bf800000'),  # -0.5: -1.0
    (sheet(integer(7), FLOOR), 'I 7'),  # an Int stays an Int
    (sheet(boolean(1), CEILING), 'I 1'),  # a Bool goes by its Int
    (sheet(integer(7), float_bits(0x40000000), DIVIDE, FLOOR, TO_INT), 'I 3'),  # the Int of 7 / 2.0, rounded down
    (sheet(float_bits(0x7f800000), CEILING), 'F 7f800000'),
    (sheet(float_bits(0x7f800001), FLOOR), 'F 7fc00000'),
    (sheet(ONE, FLOOR), 'R 13 1'),
    (sheet(VOID, CEILING), 'R 11 1'),
    (sheet(FLOOR), 'R 10 0'),
]
LISTS = [
    (sheet(ONE, OTHER, ADD), 'L 3 0=1 2=30 3=-5'),
    (sheet(ONE, OTHER, SUBTRACT), 'L 1 0=1'),
    (sheet(ONE, OTHER, INTERSECT), 'L 1 2=3'),
    (sheet(ONE, integer(1), ADD), 'L 1 1=2'),
    (sheet(ONE, integer(1), SUBTRACT), 'L 1 1=2'),
    (sheet(ONE, ALL), 'L 3 0=1 1=2 2=3'),
    (sheet(ONE, INVERT), 'L 1 1=2'),
    (sheet(ONE, COUNT), 'I 2'),
    (sheet(ONE, VALUE_OF_LIST), 'I 3'),
    (sheet(ONE, LIST_MIN), 'L 1 0=1'),
    (sheet(OTHER, LIST_MAX), 'L 1 2=30'),
    (sheet(ONE, integer(2), integer(3), RANGE), 'L 1 2=3'),
    (sheet(EMPTY, ONE, LESS), 'B 1'),
    (sheet(EMPTY, EMPTY, LESS), 'B 0'),
    (sheet(EMPTY, EMPTY, HASNT), 'B 1'),
    (sheet(EMPTY, NOT), 'I 1'),
    (sheet(ONE, boolean(1), AND), 'B 1'),
    (sheet(ONE, ALL, INVERT, OTHER, ADD, COUNT, integer(0), DIVIDE), 'R 15 7'),
]
# literals of its own: OTHERWISE has items 0 and 2 with other values and origins, FIRST the first of them alone, NEAR as many
OTHERWISE, FIRST, NEAR, NO_ITEMS, NO_ITEMS_OF_BOTH = [literal(n) for n in range(1, 6)]
EQUAL_LITERALS = [(1, [(0, 1), (2, 3)]), (2, [(0, 9), (2, -3)]), (1, [(0, 1)]), (1, [(0, 1), (1, 2)]), (0, []), (3, [])]
EQUALITY = [
    (sheet(ONE, ONE, EQUAL), 'B 1'),
    (sheet(ONE, ONE, NOT_EQUALS), 'B 0'),
    (sheet(ONE, OTHERWISE, EQUAL), 'B 1'),  # values and origins are not looked at
    (sheet(ONE, OTHERWISE, NOT_EQUALS), 'B 0'),
    (sheet(ONE, FIRST, EQUAL), 'B 0'),  # a part is not the same
    (sheet(FIRST, ONE, EQUAL), 'B 0'),
    (sheet(FIRST, ONE, NOT_EQUALS), 'B 1'),
    (sheet(ONE, NEAR, EQUAL), 'B 0'),  # nor as many
    (sheet(NO_ITEMS, NO_ITEMS_OF_BOTH, EQUAL), 'B 1'),
    (sheet(NO_ITEMS, ONE, EQUAL), 'B 0'),
    (sheet(ONE, NO_ITEMS, NOT_EQUALS), 'B 1'),
    (sheet(ONE, ONE, SUBTRACT, NO_ITEMS, EQUAL), 'B 1'),  # an emptied list, which has other origins than an empty one
    (sheet(FIRST, ONE, ADD, OTHERWISE, EQUAL), 'B 1'),
    (sheet(ONE, OTHERWISE, INTERSECT, ONE, EQUAL), 'B 1'),
    (sheet(ONE, INVERT, INVERT, ONE, EQUAL), 'B 1'),
    (sheet(ONE, ONE, EQUAL, ONE, EQUAL), 'R 12 4'),  # a Bool beside a List
    (sheet(ONE, integer(2), EQUAL), 'R 12 2'),
    (sheet(ONE, VOID, EQUAL), 'R 11 2'),
]
# literals of its own: BOTH has items of both definitions, WIDE a wider set than its item, NARROW a narrower one
BOTH, WIDE, NARROW = literal(0), literal(1), literal(2)
EMPTIED_LITERALS = [(3, [(0, 1), (3, 10)]), (3, [(4, 20)]), (1, [(0, 1), (4, 20)]), (2, [(3, 10)])]
RIGHT = literal(3)
WHOLE = 'L 5 0=1 1=2 2=3 3=10 4=20'
EMPTIED = [
    (sheet(BOTH, BOTH, SUBTRACT), 'L 0'),
    (sheet(BOTH, BOTH, SUBTRACT, INVERT), WHOLE),  # the left operand's origins, both
    (sheet(BOTH, BOTH, SUBTRACT, ALL), WHOLE),
    (sheet(NARROW, BOTH, WIDE, ADD, SUBTRACT, INVERT), 'L 3 0=1 1=2 2=3'),  # not the right operand's
    (sheet(RIGHT, BOTH, SUBTRACT, INVERT), 'L 2 3=10 4=20'),
    (sheet(BOTH, RIGHT, SUBTRACT, INVERT), 'L 2 1=2 2=3'),  # something left: the origins of the items
    (sheet(BOTH, RIGHT, SUBTRACT, ALL), 'L 3 0=1 1=2 2=3'),
    (sheet(BOTH, BOTH, SUBTRACT, BOTH, SUBTRACT, ALL), WHOLE),  # emptied again
    (sheet(BOTH, BOTH, SUBTRACT, BOTH, BOTH, SUBTRACT, SUBTRACT, ALL), WHOLE),
    (sheet(WIDE, WIDE, SUBTRACT, INVERT), WHOLE),  # a wider set than its items
    (sheet(WIDE, RIGHT, SUBTRACT, ALL), 'L 2 3=10 4=20'),
    (sheet(NARROW, NARROW, SUBTRACT, INVERT), 'L 3 0=1 1=2 2=3'),
    (sheet(BOTH, BOTH, SUBTRACT, integer(1), ADD), 'L 0'),
    (sheet(BOTH, BOTH, SUBTRACT, integer(1), ADD, INVERT), 'L 0'),  # an Int keeps nothing
    (sheet(BOTH, integer(7), SUBTRACT, INVERT), 'L 0'),
    (sheet(BOTH, BOTH, SUBTRACT, BOTH, ADD, INVERT), 'L 3 1=2 2=3 4=20'),
    (sheet(BOTH, BOTH, SUBTRACT, BOTH, BOTH, SUBTRACT, ADD, INVERT), 'L 0'),  # nor an empty union
    (sheet(WIDE, RIGHT, INTERSECT, INVERT), 'L 0'),  # nor Intersect
    (sheet(BOTH, ALL, INVERT, INVERT), 'L 0'),  # nor Invert
    (sheet(BOTH, BOTH, SUBTRACT, LIST_MAX, INVERT), 'L 0'),
    (sheet(BOTH, BOTH, SUBTRACT, integer(0), integer(9), RANGE, INVERT), 'L 0'),
    (sheet(BOTH, BOTH, SUBTRACT, COUNT), 'I 0'),
]
# on a List in slot 0, items 0 and 1 with the origins of both definitions (src/main.rt has it); literal 0 is item 0
SLOT = slot(0)
SLOT_LITERALS = [(1, [(0, 1)])]
SLOTS = [
    (sheet(SLOT, SLOT, SUBTRACT, INVERT), WHOLE),
    (sheet(SLOT, literal(0), SUBTRACT, INVERT), 'L 2 0=1 2=3'),  # something left
    (sheet(SLOT, SLOT, SUBTRACT, SLOT, SUBTRACT, INVERT), WHOLE),
    (sheet(SLOT, SLOT, SUBTRACT, integer(1), ADD, INVERT), 'L 0'),
]
DOCUMENT = bytes.fromhex(
    '01010102 14000d00 21000d00 2e000800 36000b00 03 01000000 02000000 03000000 0100000000000000 01 02000000'
    ' 2300 21 01000000 00 21 07000000 21 00000000 02')


def sheets(answers, literals=LITERALS):
    return pack(DEFINITIONS, literals, [s for s, _ in answers]), [a for _, a in answers]


def samples():
    """Name, pack, and the answers of its sheets or the number that turns the pack back."""
    yield 'document', DOCUMENT, ['L 1 2=3', 'R 15 2']
    yield 'no input', b'', 1
    yield 'three bytes', bytes([1, 0, 0]), 1
    yield 'no sheets', pack(), []
    yield '65,536 bytes', pack() + bytes(65532), 1
    yield 'a byte beyond the last body', pack() + b'\0', 2
    yield 'a definition of no items', pack([()]), 3
    yield 'an item that no definition has', pack(DEFINITIONS, [(1, [(5, 1)])]), 4
    yield 'instruction byte 38', pack(sheets=[sheet(38)]), 5
    yield ('values', *sheets(VALUES))
    yield ('ends', *sheets(ENDS))
    yield ('numbers', *sheets(NUMBERS))
    yield ('rounding', *sheets(ROUNDING))
    yield ('lists', *sheets(LISTS))
    yield ('equal lists', *sheets(EQUALITY, EQUAL_LITERALS))
    yield ('emptied lists', *sheets(EMPTIED, EMPTIED_LITERALS))


with open(os.path.join(HERE, 'stdin'), 'wb') as packs, open(os.path.join(HERE, 'stdout'), 'w') as lines:
    for name, sample, answers in samples():
        text = name.encode()
        packs.write(bytes([len(text)]) + text + len(sample).to_bytes(3, 'little') + sample)
        lines.write(name + ':\n')
        if isinstance(answers, int):
            lines.write('pack R %d\n' % answers)
            continue
        lines.write('sheets %d\n' % len(answers))
        lines.writelines('%d %s\n' % (k, a) for k, a in enumerate(answers))
    lines.write('a list in slot 0:\n')
    lines.writelines('%d %s\n' % (k, a) for k, (_, a) in enumerate(SLOTS))

with open(os.path.join(HERE, 'src', 'slot_pack.rt'), 'w') as source:
    slot_pack, _ = sheets(SLOTS, SLOT_LITERALS)
    source.write('// The pack of sheets on a List in slot 0; make_packs.py writes it.\n')
    source.write('pub const PACK: [u8; %d] = [\n' % len(slot_pack))
    source.writelines('    %d,\n' % b for b in slot_pack)
    source.write('];\n')
