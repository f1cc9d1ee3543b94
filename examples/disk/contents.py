#!/usr/bin/env python3
"""contents.py [GUEST] < OUTCOME > CONTENTS: the blocks of a guest's disk in an outcome, as S-records for another run."""
import re
import sys


def record(kind, at, data):
    body = bytes([len(data) + 5]) + at.to_bytes(4, 'big') + data
    return f'S{kind}{(body + bytes([~sum(body) & 255])).hex().upper()}'


def rows_of_disk(lines, guest):
    """Of the lines from the disk's heading to its end those that have an address: the buffer's rows have none."""
    is_disk = False
    for line in lines:
        if line.startswith(f'disk {guest} blocks '):
            is_disk = True
        elif is_disk and line == 'end\n':
            return
        elif is_disk and re.fullmatch('[0-9A-F]{8} [0-9A-F]{32}\n', line):
            yield line.split()
    if not is_disk:
        sys.exit(f'contents.py: no disk of guest {guest}')


for address, digits in rows_of_disk(sys.stdin, sys.argv[1] if len(sys.argv) > 1 else '1'):
    print(record(3, int(address, 16), bytes.fromhex(digits)))
print(record(7, 0, b''))
