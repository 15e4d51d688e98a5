#!/usr/bin/env python3
"""Writes the cases of definition_points to the file stdin beside this script: a pool of 1,600 entries, each an item of two bytes and a
value of four, then the cases of 24 bytes (crates/list_cases/src/read.rt has their parts)."""
import os
import struct

POOL, CASE = 1600, 24
TITLE = 255
LOWEST, GREATEST = -2147483648, 2147483647
pool, cases = [], []


def laid(items, values):
    start, n = len(pool), max(len(items), len(values))
    pool.extend(zip(list(items) + [0] * (n - len(items)), list(values) + [0] * (n - len(values))))
    return start


def ramp(first, step):
    return [first + step * i for i in range(256)]


def part(start, items, values=None):
    return struct.pack('<HHH', start, items, items if values is None else values)


def title(text):
    cases.append(bytes([TITLE, len(text)]) + text.encode())


def case(a, origins, by, definitions):
    cases.append(bytes(2) + a + definitions + struct.pack('<iI', by, origins))


ENDS = [64, 128, 192, 256]
small = laid([1, 4, 6], [2, 1, GREATEST])
same = laid([0, 1, 2, 7], [5, 5, 5, 0])
falling = laid([0, 1, 2, 7], [3, 2, 1, LOWEST])
three = laid([3, 5, 8], [1, 2, 3, 2, 2, -5, GREATEST, LOWEST])
rising_list = laid(range(256), ramp(0, 1))
falling_list = laid(range(256), ramp(255, -1))
level_list = laid(range(256), ramp(7, 0))
THREE = part(three, 3, 8)


# the ends of four definitions stand as items beside the values of all their items
def four(first, step):
    return part(laid(ENDS, ramp(first, step)), 4, 256)


title('definitions')
case(part(small, 0), 7, 1, THREE)
case(part(small, 1), 7, 1, THREE)
case(part(small, 3), 7, 1, THREE)
case(part(small, 3), 1, 1, THREE)
case(part(small, 3), 6, 1, THREE)
case(part(small, 3), 0, 1, THREE)
case(part(small, 3), 8, 1, THREE)
case(part(small, 3), 7, LOWEST, THREE)
case(part(same, 4), 5, -3, THREE)
case(part(falling, 4), 5, 0, THREE)
case(part(falling, 4), 5, 1, THREE)
case(part(same, 0), 0, 1, part(three, 0))
up = four(0, 1)
down = four(255, -1)
level = four(7, 0)
case(part(rising_list, 256), 15, 1, up)
case(part(rising_list, 256), 5, 63, up)
case(part(falling_list, 256), 15, 1, up)
case(part(rising_list, 256), 15, 1, down)
case(part(level_list, 256), 15, 0, level)
case(part(level_list, 100), 3, 100, up)

pool.extend([(0, 0)] * (POOL - len(pool)))
with open(os.path.join(os.path.dirname(os.path.abspath(__file__)), 'stdin'), 'wb') as f:
    f.write(b''.join(struct.pack('<Hi', i, v) for i, v in pool) + b''.join(c.ljust(CASE, b'\0') for c in cases))
