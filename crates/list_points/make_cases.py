#!/usr/bin/env python3
"""Writes the cases of list_points to the file stdin beside this script: a pool of 1,600 entries, each an item of two bytes and a value of
four, then the cases of 24 bytes (crates/list_cases/src/read.rt has their parts)."""
import os
import struct

POOL, CASE = 1600, 24
PAIR, SINGLE, RANGE, TITLE = 0, 1, 2, 255
LOWEST, GREATEST = -2147483648, 2147483647
pool, cases = [], []


def laid(items, values):
    start = len(pool)
    pool.extend(zip(items, values))
    return start


def ramp(first, step):
    return laid(range(256), [(first + step * i + 2**31) % 2**32 - 2**31 for i in range(256)])


def part(start, items, values=None):
    return struct.pack('<HHH', start, items, items if values is None else values)


def title(text):
    cases.append(bytes([TITLE, len(text)]) + text.encode())


def pair(a, b):
    cases.append(bytes([PAIR, 0]) + a + b)


def single(a):
    cases.append(bytes([SINGLE, 0]) + a)


def ranged(a, lower, upper):
    cases.append(bytes([RANGE, 0]) + a + bytes(6) + struct.pack('<ii', lower, upper))


small = laid([0, 2, 5], [1, 7, -1])
other = laid([2, 3], [9, 9])
rising = laid([0, 1], [5, 8])
level = laid([0, 1], [5, 5])
wider = laid([0, 1], [4, 9])
widest = laid([0, 1], [LOWEST, GREATEST])
tied = laid([0, 2, 5, 9], [7, -1, 7, -1])
lowest = laid([0, 2, 5, 9], [LOWEST, LOWEST, 0, 0])
bounded = laid([0, 2, 5, 9], [7, -1, 8, 7])
twice = laid([3, 3], [1, 2])
falling = laid([4, 3], [1, 2])
far = laid([3, 256], [1, 2])
late = laid([*range(39), 50], [7] * 40)
within = laid([*range(20), *range(21, 41)], [7] * 40)
up = ramp(0, 1)
down = ramp(255, -1)
wrapping = ramp(2147483640, 1)
around = ramp(-100, 1)

title('two lists')
pair(part(small, 0), part(other, 0))
pair(part(small, 1), part(other, 0))
pair(part(other, 0), part(small, 1))
pair(part(small, 3), part(other, 2))
pair(part(other, 2), part(small, 3))
pair(part(small, 3), part(small + 1, 2))
pair(part(small, 3), part(small, 3))
pair(part(rising, 2), part(level, 2))
pair(part(level, 2), part(level, 2))
pair(part(rising, 2), part(wider, 2))
pair(part(widest, 2), part(rising, 2))
pair(part(rising + 1, 1), part(level, 2))
pair(part(up, 256), part(down, 256))
pair(part(up, 250), part(down + 6, 250))
pair(part(up, 256), part(down + 255, 1))
pair(part(up, 256), part(down, 255))
pair(part(up, 40), part(late, 40))
pair(part(up, 40), part(within, 40))
title('one list')
single(part(tied, 0))
single(part(tied, 1))
single(part(tied, 4))
single(part(lowest, 4))
single(part(lowest, 2))
single(part(down, 256))
single(part(wrapping, 256))
single(part(twice, 2))
single(part(falling, 2))
single(part(far, 2))
single(part(far, 1, 2))
title('range')
ranged(part(bounded, 4), 7, 8)
ranged(part(bounded, 4), 7, 7)
ranged(part(bounded, 4), 8, 7)
ranged(part(bounded, 4), 0, GREATEST)
ranged(part(bounded, 4), LOWEST, -1)
ranged(part(bounded, 0), 0, GREATEST)
ranged(part(around, 256), LOWEST, GREATEST)
ranged(part(around, 256), -5, 5)

pool.extend([(0, 0)] * (POOL - len(pool)))
with open(os.path.join(os.path.dirname(os.path.abspath(__file__)), 'stdin'), 'wb') as f:
    f.write(b''.join(struct.pack('<Hi', i, v) for i, v in pool) + b''.join(c.ljust(CASE, b'\0') for c in cases))
