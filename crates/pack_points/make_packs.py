#!/usr/bin/env python3
"""Writes the sample packs of pack_points to the file stdin beside this script. Each pack comes after its name; a name after its length
of one byte, a pack after its length of three, little-endian."""
import os
import struct


def contents(definitions, literals, sheets, bodies, shift=0):
    out = bytes([1, definitions, literals, sheets])
    at = 4 + 4 * len(bodies) + shift
    for body in bodies:
        out += struct.pack('<HH', at, len(body))
        at += len(body)
    return out


def pack(definitions=(), literals=(), sheets=()):
    bodies = [*definitions, *literals, *sheets]
    return contents(len(definitions), len(literals), len(sheets), bodies) + b''.join(bodies)


def i32(n):
    return struct.pack('<i', n)


def definition(*values):
    return bytes([len(values)]) + b''.join(i32(v) for v in values)


def literal(origins, *entries):
    return struct.pack('<Q', origins) + b''.join(bytes([item]) + i32(value) for item, value in entries)


def sheet(*parts):
    return b''.join(bytes([p]) if isinstance(p, int) else p for p in parts)


ADD = 0
BOOL, INT, FLOAT, LIST, SLOT, VOID = 32, 33, 34, 35, 36, 37
ONE = definition(7)
THREE = definition(1, 2, 3)
DOCUMENT = bytes.fromhex(
    '01010102 14000d00 21000d00 2e000800 36000b00 03 01000000 02000000 03000000 0100000000000000 01 02000000'
    ' 2300 21 01000000 00 21 07000000 21 00000000 02')
FULL = [definition(*range(255)), definition(-1)]


def longest():
    """A pack of 65,535 bytes: 63 sheets of 1,024 instructions and one of what is left."""
    rest = 65535 - 4 - 4 * 64 - 63 * 1024
    return pack(sheets=[sheet(*[ADD] * 1024)] * 63 + [sheet(*[ADD] * rest)])


def samples():
    # 1: length, format, D, and the contents table
    yield 'no byte', b''
    yield 'three bytes', bytes([1, 0, 0])
    yield 'four bytes', pack()
    yield 'format 0', bytes([0, 0, 0, 0])
    yield 'format 2', bytes([2, 0, 0, 0])
    yield '64 definitions', pack([ONE] * 64)
    yield '65 definitions', pack([ONE] * 65)
    yield 'contents cut by a byte', contents(0, 0, 1, [b''])[:-1]
    yield '65535 bytes', longest()
    yield '65536 bytes', longest() + b'\0'
    # 2: offsets and lengths
    yield 'a byte after the contents', pack() + b'\0'
    yield 'a gap before the body', contents(0, 0, 1, [b''], 1) + b'\0'
    yield 'an overlap with the contents', contents(0, 0, 1, [b''], -1)
    yield 'a gap between bodies', bytes([1, 0, 0, 2]) + struct.pack('<4H', 12, 0, 13, 0) + b'\0'
    yield 'an overlap of bodies', bytes([1, 0, 0, 2]) + struct.pack('<4H', 12, 1, 12, 1) + b'\0\0'
    yield 'the last body ends early', pack(sheets=[sheet(ADD)]) + b'\0'
    yield 'the last body ends late', pack(sheets=[sheet(ADD)])[:-1]
    # 3: definitions
    yield 'a definition of no byte', pack([b''])
    yield 'a definition of no item', pack([b'\0'])
    yield 'a definition cut by a byte', pack([ONE[:-1]])
    yield 'a definition with a byte more', pack([ONE + b'\0'])
    yield 'the second definition', pack([ONE, b'\0'])
    yield '255 items in one', pack([definition(*range(-255, 0))])
    yield '256 items', pack(FULL)
    yield '257 items', pack(FULL + [ONE])
    yield 'a definition, then a literal', pack([b'\0'], [b''])
    # 4: literals
    yield 'a literal of 7 bytes', pack([ONE], [literal(0)[:-1]])
    yield 'a literal with no entry', pack([ONE], [literal(0)])
    yield 'an entry cut by a byte', pack([ONE], [literal(1, (0, 7))[:-1]])
    yield 'an entry with a byte more', pack([ONE], [literal(1, (0, 7)) + b'\0'])
    yield 'an item that is not in the pack', pack([ONE], [literal(1, (1, 7))])
    yield 'an item twice', pack([THREE], [literal(1, (1, 7), (1, 8))])
    yield 'items that fall', pack([THREE], [literal(1, (2, 7), (1, 8))])
    yield 'values that are not the definition\'s', pack([THREE], [literal(1, (0, -1), (2, 2 ** 31 - 1))])
    yield 'an origin bit at D', pack([ONE], [literal(2)])
    yield 'an origin bit with no definition', pack([], [literal(1)])
    yield 'an origin set of 64', pack([ONE] * 64, [literal(2 ** 64 - 1, (63, -2 ** 31))])
    yield 'origin bit 63 of 63', pack([ONE] * 63, [literal(2 ** 63)])
    yield 'a literal of 256 entries', pack(FULL, [literal(3, *[(k, k) for k in range(256)])])
    yield 'the second literal', pack([ONE], [literal(0), literal(2)])
    yield 'a literal, then a sheet', pack([ONE], [literal(2)], [sheet(38)])
    # 5: sheets
    yield 'an empty sheet', pack(sheets=[b''])
    yield 'operators 0, 30 and 31', pack(sheets=[sheet(0, 30, 31)])
    yield 'every push', pack([ONE], [literal(1, (0, -7))], [sheet(
        BOOL, 0, BOOL, 1, INT, i32(-2 ** 31), FLOAT, struct.pack('<f', 1.5), LIST, 0, SLOT, 15, VOID)])
    yield 'instruction byte 38', pack(sheets=[sheet(38)])
    yield 'instruction byte 255', pack(sheets=[sheet(255)])
    yield 'Bool 2', pack(sheets=[sheet(BOOL, 2)])
    yield 'Bool cut', pack(sheets=[sheet(BOOL)])
    yield 'Int cut by a byte', pack(sheets=[sheet(INT, i32(0)[:-1])])
    yield 'Float cut by a byte', pack(sheets=[sheet(FLOAT, i32(0)[:-1])])
    yield 'literal 0 of none', pack(sheets=[sheet(LIST, 0)])
    yield 'literal 1 of one', pack([ONE], [literal(0)], [sheet(LIST, 1)])
    yield 'slot 16', pack(sheets=[sheet(SLOT, 16)])
    yield 'slot cut', pack(sheets=[sheet(SLOT)])
    yield '1024 instructions', pack(sheets=[sheet(*[ADD] * 1024)])
    yield '1025 instructions', pack(sheets=[sheet(*[ADD] * 1025)])
    yield '1024 Ints', pack(sheets=[sheet(INT, i32(5)) * 1024])
    yield 'the second sheet', pack(sheets=[b'', sheet(38)])
    yield 'two literals and two sheets', pack([ONE], [literal(0), literal(1, (0, 1))], [sheet(LIST, 1), sheet(LIST, 0, ADD)])
    # document 01
    yield 'document', DOCUMENT


with open(os.path.join(os.path.dirname(os.path.abspath(__file__)), 'stdin'), 'wb') as out:
    for name, sample in samples():
        text = name.encode()
        out.write(bytes([len(text)]) + text + len(sample).to_bytes(3, 'little') + sample)
