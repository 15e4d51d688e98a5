#!/usr/bin/env python3
"""Writes the calls that call_points makes to the file stdin beside this script, 80 bytes for each: the length of its name and the name,
and from byte 48 on what is called, the operator or the kind, how many operands, three operands of five bytes each (a kind and what it
holds), how many values are lent beside the seven items, whether one of the result slices has 255 places and not 256, and another pack after
its length."""
import os
import struct

CALL, CAST, COERCE = 0, 1, 2
FEW_ITEMS, FEW_VALUES = 1, 2
ADD = 0
SUBTRACT = 1
DIVIDE = 2
MULTIPLY = 3
MOD = 4
NEGATE = 5
EQUAL = 6
LESS = 8
NOT_EQUALS = 11
NOT = 12
AND = 13
OR = 14
MIN = 15
MAX = 16
POW = 17
FLOOR = 18
CEILING = 19
INT = 20
FLOAT = 21
HAS = 22
HASNT = 23
ALL = 27
VALUE_OF_LIST = 29
INVERT = 30
RANGE = 31
TO_BOOL, TO_INT, TO_FLOAT, TO_LIST, TO_VOID = range(5)
FALSE, TRUE, VOID = bytes(5), bytes([0, 1, 0, 0, 0]), bytes([4, 0, 0, 0, 0])


def integer(n):
    return bytes([1]) + struct.pack('<i', n)


def real(bits):
    return bytes([2]) + struct.pack('<I', bits)


def entries(origins, start, length):
    return bytes([3, origins, start, length, 0])


def made(name, what, which, operands, count=None, lent=7, results=0, pack=()):
    text = name.encode()
    filled = b''.join([*operands, VOID, VOID, VOID][:3])
    head = bytes([what, which, len(operands) if count is None else count]) + filled
    out = bytes([len(text)]) + text.ljust(47, b'\0') + head + bytes([lent, results, len(pack), *pack])
    return out.ljust(80, b'\0')


def call(name, operator, *operands, **other):
    return made(name, CALL, operator, operands, **other)


def cast(name, kind, operand):
    return made('cast of ' + name, CAST, kind, [operand])


def coerce(name, operand):
    for kind, to in enumerate(['bool', 'int', 'float']):
        yield made('coerce_to_' + to + ' of ' + name, COERCE, kind, [operand])


def cases():
    # two Bools become Ints
    yield call('true + true', ADD, TRUE, TRUE)
    yield call('true - true', SUBTRACT, TRUE, TRUE)
    yield call('Min of true and false', MIN, TRUE, FALSE)
    yield call('Max of true and false', MAX, TRUE, FALSE)
    yield call('true == true', EQUAL, TRUE, TRUE)
    yield call('Negate of true', NEGATE, TRUE)
    # division, and what the Rust panics at
    yield call('-7 / 2', DIVIDE, integer(-7), integer(2))
    yield call('-7 % 2', MOD, integer(-7), integer(2))
    yield call('-2147483648 / -1', DIVIDE, integer(-2147483648), integer(-1))
    yield call('-2147483648 % -1', MOD, integer(-2147483648), integer(-1))
    yield call('7 / 0', DIVIDE, integer(7), integer(0))
    yield call('7 % 0', MOD, integer(7), integer(0))
    yield call('2147483647 + 1', ADD, integer(2147483647), integer(1))
    yield call('Not of 0', NOT, integer(0))
    # floats, and Ints beside them
    yield call('Float of 16777216', FLOAT, integer(16777216))
    yield call('Float of 16777217', FLOAT, integer(16777217))
    yield call('Float of 16777219', FLOAT, integer(16777219))
    yield call('Int of 2147483648.0', INT, real(0x4f000000))
    yield call('Int of -2.5', INT, real(0xc0200000))
    yield call('Int of NaN', INT, real(0x7fc00000))
    yield call('7.0 / 0', DIVIDE, real(0x40e00000), integer(0))
    yield call('16777217 + 0.0', ADD, integer(16777217), real(0x00000000))
    # empty lists
    yield call('Not of an empty List', NOT, entries(3, 0, 0))
    yield call('Not of a List', NOT, entries(3, 0, 2))
    yield call('Has of an empty right side', HAS, entries(3, 0, 2), entries(3, 0, 0))
    yield call('Has of two empties', HAS, entries(3, 0, 0), entries(3, 0, 0))
    yield call('Has of an item', HAS, entries(3, 0, 2), entries(3, 2, 1))
    yield call('Hasnt of two empties', HASNT, entries(3, 0, 0), entries(3, 0, 0))
    yield call('empty < empty', LESS, entries(3, 0, 0), entries(3, 0, 0))
    yield call('empty < {0=1}', LESS, entries(3, 0, 0), entries(3, 0, 1))
    # range of {0=-5 1=1 2=3}: a bound that is neither Int nor List is 0 or 2147483647
    yield call('range from 2.5 to 3', RANGE, entries(3, 3, 3), real(0x40200000), integer(3))
    yield call('range from -9 to 0.5', RANGE, entries(3, 3, 3), integer(-9), real(0x3f000000))
    yield call('range from true to true', RANGE, entries(3, 3, 3), TRUE, TRUE)
    yield call('range from {0=1 2=3} to {0=1}', RANGE, entries(3, 3, 3), entries(3, 0, 2), entries(3, 0, 1))
    yield call('range from empty to empty', RANGE, entries(3, 3, 3), entries(3, 0, 0), entries(3, 0, 0))
    yield call('range of an Int', RANGE, integer(1), integer(1), integer(1))
    # lists with results of every kind
    yield call('{0=1 2=3} + {2=30}', ADD, entries(3, 0, 2), entries(3, 2, 1))
    yield call('{0=1 2=3} - {2=30}', SUBTRACT, entries(3, 0, 2), entries(3, 2, 1))
    yield call('{0=1 2=3} + 1', ADD, entries(3, 0, 2), integer(1))
    yield call('{0=1 2=3} - 1', SUBTRACT, entries(3, 0, 2), integer(1))
    yield call('All of both origins', ALL, entries(3, 0, 0))
    yield call('All of origin 1', ALL, entries(2, 0, 0))
    yield call('Invert of {0=1 2=3}', INVERT, entries(3, 0, 2))
    yield call('ValueOfList of {0=1 2=3}', VALUE_OF_LIST, entries(3, 0, 2))
    # one List: question 12
    yield call('List + true', ADD, entries(3, 0, 2), TRUE)
    yield call('List + 2.0', ADD, entries(3, 0, 2), real(0x40000000))
    yield call('1 + List', ADD, integer(1), entries(3, 0, 2))
    yield call('List Min 1', MIN, entries(3, 0, 2), integer(1))
    yield call('List And 0.0', AND, entries(3, 0, 2), real(0x00000000))
    yield call('0 Or List', OR, integer(0), entries(3, 0, 2))
    # the same items or not: values and origins do not count
    yield call('{0=1 2=3} == {0=1 2=3}', EQUAL, entries(3, 0, 2), entries(3, 0, 2))
    yield call('{0=1 2=3} != {0=1 2=3}', NOT_EQUALS, entries(3, 0, 2), entries(3, 0, 2))
    yield call('{0=1} == {0=-5}', EQUAL, entries(3, 0, 1), entries(3, 3, 1))
    yield call('{0=1} != {0=-5}', NOT_EQUALS, entries(3, 0, 1), entries(3, 3, 1))
    yield call('{0=1} == {0=1} of other origins', EQUAL, entries(1, 0, 1), entries(2, 0, 1))
    yield call('{0=1} == {0=1 2=3}', EQUAL, entries(3, 0, 1), entries(3, 0, 2))
    yield call('{0=1 2=3} == {0=1}', EQUAL, entries(3, 0, 2), entries(3, 0, 1))
    yield call('{0=1 2=3} != {0=1}', NOT_EQUALS, entries(3, 0, 2), entries(3, 0, 1))
    yield call('{0=1 2=3} == {0=-5 1=1}', EQUAL, entries(3, 0, 2), entries(3, 3, 2))
    yield call('{0=1 2=3} == {1=1 2=3}', EQUAL, entries(3, 0, 2), entries(3, 4, 2))
    yield call('empty == empty of other origins', EQUAL, entries(1, 0, 0), entries(2, 0, 0))
    yield call('empty != empty of other origins', NOT_EQUALS, entries(1, 0, 0), entries(2, 0, 0))
    yield call('empty == {0=1}', EQUAL, entries(3, 0, 0), entries(3, 0, 1))
    yield call('List == 1', EQUAL, entries(3, 0, 2), integer(1))
    yield call('true != List', NOT_EQUALS, TRUE, entries(3, 0, 2))
    yield call('List == Void', EQUAL, entries(3, 0, 2), VOID)
    # document 02's FLOOR and CEILING
    yield call('FLOOR of 2.5', FLOOR, real(0x40200000))
    yield call('CEILING of 2.5', CEILING, real(0x40200000))
    yield call('FLOOR of -2.5', FLOOR, real(0xc0200000))
    yield call('CEILING of -2.5', CEILING, real(0xc0200000))
    yield call('FLOOR of 0.5', FLOOR, real(0x3f000000))
    yield call('CEILING of -0.5', CEILING, real(0xbf000000))
    yield call('FLOOR of -0.0', FLOOR, real(0x80000000))
    yield call('CEILING of -0.0', CEILING, real(0x80000000))
    yield call('CEILING of 8388607.5', CEILING, real(0x4affffff))
    yield call('FLOOR of -infinity', FLOOR, real(0xff800000))
    yield call('CEILING of a NaN', CEILING, real(0xffc00001))
    yield call('FLOOR of -7', FLOOR, integer(-7))
    yield call('CEILING of true', CEILING, TRUE)
    yield call('FLOOR of a List', FLOOR, entries(3, 0, 2))
    yield call('CEILING of Void', CEILING, VOID)
    # questions 11 and 13
    yield call('List * List', MULTIPLY, entries(3, 0, 2), entries(3, 0, 2))
    yield call('1 Has 1', HAS, integer(1), integer(1))
    yield call('Void + 1', ADD, VOID, integer(1))
    yield call('List + Void', ADD, entries(3, 0, 2), VOID)
    yield call('Not of Void', NOT, VOID)
    yield call('range to Void', RANGE, entries(3, 0, 2), integer(1), VOID)
    # questions 8 and 10
    yield call('POW', POW, integer(2), integer(2))
    yield call('operator 32', 32, integer(1), integer(1))
    yield call('POW of none', POW)
    yield call('FLOOR of none', FLOOR)
    yield call('CEILING of two', CEILING, integer(1), integer(1))
    yield call('Add of one', ADD, integer(1))
    yield call('Add of three', ADD, integer(1), integer(1), integer(1))
    yield call('Not of none', NOT)
    yield call('range of two', RANGE, entries(3, 0, 2), integer(1))
    # question 7 of operands
    yield call('an item twice', NOT, entries(3, 1, 2))
    yield call('an item that is not in the pack', NOT, entries(3, 6, 1))
    yield call('an origin bit at D', NOT, entries(4, 0, 1))
    yield call('entries past the end', NOT, entries(3, 6, 2))
    yield call('the second ill-formed', ADD, entries(3, 0, 2), entries(3, 1, 2))
    yield call('ill-formed, operator POW', POW, entries(3, 0, 2), entries(3, 1, 2))
    yield call('ill-formed and not used', NOT, integer(0), entries(3, 1, 2), count=1)
    # result slices at and below 256 places
    yield call('result slices of 255 items', ADD, entries(3, 0, 2), entries(3, 0, 2), results=FEW_ITEMS)
    yield call('result slices of 255 values', ADD, entries(3, 0, 2), entries(3, 0, 2), results=FEW_VALUES)
    yield call('result slices of 256', ADD, entries(3, 0, 2), entries(3, 0, 2))
    # operand slices that are not equally long
    yield call('operand slices of 7 items and 6 values', ADD, integer(1), integer(1), lent=6)
    # other packs
    yield call('1 + 1 on an empty pack', ADD, integer(1), integer(1), pack=[1, 0, 0, 0])
    yield call('format 2', ADD, integer(1), integer(1), pack=[2, 0, 0, 0])
    yield call('a byte after the contents', ADD, integer(1), integer(1), pack=[1, 0, 0, 0, 0])
    yield call('a definition of no item', ADD, integer(1), integer(1), pack=[1, 1, 0, 0, 8, 0, 1, 0, 0])
    yield call('a literal of one byte', ADD, integer(1), integer(1), pack=[1, 0, 1, 0, 8, 0, 1, 0, 0])
    yield call('instruction byte 38', ADD, integer(1), integer(1), pack=[1, 0, 0, 1, 8, 0, 1, 0, 38])
    # conversions
    yield cast('2 to Bool', TO_BOOL, integer(2))
    yield cast('a List to Bool', TO_BOOL, entries(3, 0, 2))
    yield cast('a List to Int', TO_INT, entries(3, 0, 2))
    yield cast('an empty List to Int', TO_INT, entries(3, 0, 0))
    yield cast('a List to Float', TO_FLOAT, entries(3, 0, 2))
    yield cast('a List to List', TO_LIST, entries(3, 0, 2))
    yield cast('2 to List', TO_LIST, integer(2))
    yield cast('2 to Void', TO_VOID, integer(2))
    yield cast('Void to Int', TO_INT, VOID)
    yield cast('an item twice to Int', TO_INT, entries(3, 1, 2))
    yield from coerce('true', TRUE)
    yield from coerce('1', integer(1))
    yield from coerce('2', integer(2))
    yield from coerce('16777217', integer(16777217))
    yield from coerce('2147483648.0', real(0x4f000000))
    yield from coerce('a List', entries(3, 0, 2))
    yield from coerce('an item twice', entries(3, 1, 2))
    yield from coerce('Void', VOID)
    # a conversion's number beyond the three: the third
    yield made('coercion 3 of 1', COERCE, 3, [integer(1)])
    yield made('coercion 255 of 1', COERCE, 255, [integer(1)])

with open(os.path.join(os.path.dirname(os.path.abspath(__file__)), 'stdin'), 'wb') as out:
    for case in cases():
        assert len(case) == 80
        out.write(case)
