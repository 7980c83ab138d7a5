#!/usr/bin/env python3
"""Writes crates/table_cases/stdin and stdout: tables too long for the lemma of crates/table/proofs/Cases.antt, and some short ones.

Each case is a table, the number that document 01 gives it and the place that change request F-1 gives it, written here by hand. Both are
compared with those of reader.py before anything is written."""
import os
import struct
import sys

from model import buffer, connection, port, record
from reader import first_fault

# What the program reads of its input.
MOST_BYTES = 65536

full_ports = port() * 64
# kinds 2, 4 and 3 share one numbering; most are buffers, which are shorter
full_links = connection(63, 0) + connection(63, 0, events=1, over=2) + buffer(0, 63) * 254
full_table = full_ports + full_links
two_ports = port() * 2
short_length = b'\x01\x00\x01\x00'
other_kind = record(5, b'1234')
fraction = connection(events=1, over=2)
wrong_length = record(1, b'')

CASES = [
    ('empty', b'', 12, 0),
    ('one port', port(), 0, 0),
    ('64 ports', full_ports, 0, 0),
    ('65 ports', full_ports + port(), 6, 512),
    ('the 65th port with rate 0', full_ports + port(0, 1), 6, 512),
    ('the 65th port with a wrong length', full_ports + record(1, b'\x01\x00\x01'), 4, 512),
    ('the 65th port behind a connection', full_ports + connection() + port(), 5, 532),
    ('64 ports and 256 links', full_table, 0, 0),
    ('the 257th link, a connection', full_table + connection(), 7, 4620),
    ('the 257th link, a buffer', full_table + buffer(), 7, 4620),
    ('the 257th link, whose ends name no port', full_table + connection(64, 64), 7, 4620),
    ('the 257th link, of a wrong length', full_table + record(2, b''), 4, 4620),
    ('a port behind 256 links', full_table + port(), 5, 4620),
    ('from the 64th port', full_ports + connection(63, 0), 0, 0),
    ('from port 64 of 64', full_ports + connection(64, 0), 9, 512),
    ('to port 64 of 64', full_ports + buffer(0, 64), 9, 512),
    ('a full table and a length without a record', full_table + b'\x06\x00', 2, 4620),
    ('a fault in the 256th link', full_table[:-16] + buffer(0, 0, 1, 1, 10_000_001), 11, 4604),
    ('a fault in the 64th port, then one in the 65th', port() * 63 + port(1, 1001) + port(0, 1), 8, 504),
    ('the longest length field', port() + b'\xff\xff\x02\x00' + bytes(300), 2, 8),
    # rates: 0/0 means none, and 0 goes with nothing else; a ratio has no such form
    ('rate 0/0', port(0, 0), 0, 0),
    ('64 ports with rate 0/0', port(0, 0) * 64, 0, 0),
    ('the 65th port with rate 0/0', full_ports + port(0, 0), 6, 512),
    ('rate 0/0 behind a connection', port(0, 0) + connection() + port(0, 0), 5, 28),
    ('rate 0/0 of a wrong length', record(1, bytes(5)), 4, 0),
    ('rate 0/1', port(0, 1), 8, 0),
    ('rate 1/0', port(1, 0), 8, 0),
    ('rate 0/1000', port(0, 1000), 8, 0),
    ('rate 1000/0', port(1000, 0), 8, 0),
    ('rate 0/1001', port(0, 1001), 8, 0),
    ('rate 0/65535', port(0, 65535), 8, 0),
    ('rate 65535/0', port(65535, 0), 8, 0),
    ('rate 0/256', port(0, 256), 8, 0),
    ('rate 0/1 behind 0/0', port(0, 0) + port(0, 1), 8, 8),
    ('rate 1/0 behind 1/1 and 0/0', port() + port(0, 0) + port(1, 0) + port(0, 0), 8, 16),
    ('rate 0/1000 behind two ports', two_ports + port(0, 1000), 8, 16),
    ('rate 1000/0 behind two ports', two_ports + port(1000, 0), 8, 16),
    ('rate 0/1001 behind two ports', two_ports + port(0, 1001), 8, 16),
    ('rate 0/65535 behind 63 ports', port(0, 0) * 63 + port(0, 65535), 8, 504),
    ('ratio 0/0 of a connection', port(0, 0) + connection(num=0, den=0), 10, 8),
    ('ratio 0/0 of a buffer', port() + buffer(num=0, den=0), 10, 8),
    # kind 4, a fraction of events: its denominator 1 to 10,000, its value within 1,000, and no lowest terms asked
    ('events 1/2', port() + fraction, 0, 0),
    ('events 4/2', port() + connection(events=4, over=2), 0, 0),
    ('events 0/7', port() + connection(events=0, over=7), 0, 0),
    ('events 2/1', port() + connection(events=2, over=1), 0, 0),
    ('events 1000/1', port() + connection(events=1000, over=1), 0, 0),
    ('events 1001/1', port() + connection(events=1001, over=1), 11, 8),
    ('events 2000/2', port() + connection(events=2000, over=2), 0, 0),
    ('events 2001/2', port() + connection(events=2001, over=2), 11, 8),
    ('events -2000/2', port() + connection(events=-2000, over=2), 0, 0),
    ('events -2001/2', port() + connection(events=-2001, over=2), 11, 8),
    ('events 10000000/10000', port() + connection(events=10_000_000, over=10_000), 0, 0),
    ('events -10000000/10000', port() + connection(events=-10_000_000, over=10_000), 0, 0),
    ('events 10000001/10000', port() + connection(events=10_000_001, over=10_000), 11, 8),
    ('events 1001/10000', port() + connection(events=1001, over=10_000), 0, 0),
    ('events 0/0', port() + connection(events=0, over=0), 11, 8),
    ('events 1/0', port() + connection(events=1, over=0), 11, 8),
    ('events 0/10001', port() + connection(events=0, over=10_001), 11, 8),
    ('events 1/65536', port() + connection(events=1, over=65_536), 11, 8),
    ('events 1/65538', port() + connection(events=1, over=65_538), 11, 8),
    ('events 1/4294967295', port() + connection(events=1, over=2 ** 32 - 1), 11, 8),
    ('the least events over the longest denominator', port() + connection(events=-2 ** 31, over=2 ** 32 - 1), 11, 8),
    ('ticks 10000001, events 1/2', port() + connection(ticks=10_000_001, events=1, over=2), 11, 8),
    ('ratio 0/1, events 1/0', port() + connection(num=0, events=1, over=0), 10, 8),
    ('to no port, ratio 0/1, events 1/0', port() + connection(end=1, num=0, events=1, over=0), 9, 8),
    ('kind 4 with the length of kind 2', port() + record(4, bytes(16)), 4, 8),
    ('kind 4 a byte short', port() + record(4, bytes(19)), 4, 8),
    ('kind 4 a byte long', port() + record(4, bytes(21)), 4, 8),
    ('kind 2 with the length of kind 4', port() + record(2, bytes(20)), 4, 8),
    ('kind 4 without its last byte', port() + fraction[:-1], 2, 8),
    ('kind 4 before any port', fraction + port(), 9, 0),
    ('a port behind kind 4', port() + fraction + port(), 5, 32),
    ('the 257th link, of kind 4', full_table + fraction, 7, 4620),
    ('a single byte behind the longest table', full_ports + fraction * 256 + b'\x16', 2, 6656),
    # each number in the first record, where it can be there: 5, 6, 7, 10 and 11 need a record before theirs
    ('2 first', short_length + port(), 2, 0),
    ('3 first', other_kind + port(), 3, 0),
    ('4 first', wrong_length + port(), 4, 0),
    ('8 first', port(0, 1) + port(), 8, 0),
    ('9 first', connection() + port(), 9, 0),
    ('10 in the first link', port() + buffer(0, 0, 1, 0) + connection(), 10, 8),
    ('11 in the first link', port() + connection(ticks=-10_000_001) + buffer(), 11, 8),
    # in a middle record
    ('2 between', two_ports + short_length + connection(), 2, 16),
    ('3 between', two_ports + other_kind + port(), 3, 16),
    ('4 between', two_ports + wrong_length + port(), 4, 16),
    ('5 between', two_ports + buffer() + port() + connection(), 5, 32),
    ('6 between', full_ports + port() + connection(), 6, 512),
    ('7 between', full_table + buffer() + connection(), 7, 4620),
    ('8 between', two_ports + port(1, 1001) + port(), 8, 16),
    ('9 between', two_ports + connection() + connection(0, 2) + buffer(), 9, 36),
    ('10 between', two_ports + buffer() + buffer(1, 0, 1001, 1) + connection(), 10, 32),
    ('11 between', two_ports + connection() + connection(events=1001) + connection(), 11, 36),
    # in the last record
    ('2 last', two_ports + connection() + short_length, 2, 36),
    ('3 last', two_ports + connection() + other_kind, 3, 36),
    ('4 last', two_ports + connection() + wrong_length, 4, 36),
    ('5 last', two_ports + connection() + port(), 5, 36),
    ('8 last', two_ports + port(1, 0), 8, 16),
    ('9 last', two_ports + connection() + buffer(2, 0), 9, 36),
    ('10 last', two_ports + connection() + connection(1, 0, 0, 1), 10, 36),
    ('11 last', two_ports + connection() + connection(ticks=10_000_001), 11, 36),
    # what is left of a record
    ('a single byte', b'\x00', 2, 0),
    ('a single byte behind a port', port() + b'\x06', 2, 8),
    ('a single byte behind three records', two_ports + connection() + b'\x12', 2, 36),
    ('a length one above what is left', two_ports + connection()[:-1], 2, 16),
    ('a length without a kind', port() + b'\x02\x00\x01', 2, 8),
    # two faulty records: the first decides
    ('11, then 2', two_ports + connection(events=-1001) + b'\x06', 11, 16),
    ('9, then 8', port() + connection(1, 0) + port(0, 1), 9, 8),
    ('3, then 3', port() + other_kind + other_kind, 3, 8),
]


def main():
    for name, table, number, place in CASES:
        if first_fault(table) != (number, place):
            sys.exit(f'{name}: {number} at {place} is said here, reader.py finds {first_fault(table)}')
    tables = b''.join(struct.pack('<H', len(table)) + table for _, table, _, _ in CASES)
    if len(tables) > MOST_BYTES:
        sys.exit(f'{len(tables)} bytes, of which the program reads {MOST_BYTES}')
    folder = os.path.join(os.path.dirname(os.path.abspath(__file__)), '..', 'crates', 'table_cases')
    with open(os.path.join(folder, 'stdin'), 'wb') as file:
        file.write(tables)
    with open(os.path.join(folder, 'stdout'), 'w', encoding='ascii') as file:
        file.write(''.join(f'{number} {place}\n' for _, _, number, place in CASES))


main()
