#!/usr/bin/env python3
"""Writes crates/join_cases/stdin and stdout: joins and previews that the program `join_cases` is run on, and what it prints of them.

A join is two tables, added records and the room for the joined table. Some are written by hand, with the number, place and input that change
request F-2 gives them; the others are random. What is due of them comes from joiner.py. The previews, and what is due of them, are those of
preview_cases.py. Where the program is not built, where it prints something else, or where some number does not occur, nothing is written, and the
status is 1. It fills the room with byte 0xA5 before each call, and says how many bytes behind the written ones it then finds changed."""
import argparse
import os
import random
import sys
from collections import Counter

from join_inputs import FIXED, ONE, TWO, full, random_inputs
from joiner import join
from model import Link, Model, Port, buffer, connection, port, table_bytes
from preview_cases import check_preview, preview_cases
from programs import BASE, JOIN, PREVIEW, built, called, calls_input, results_output
from shown import Wrong

MOST_INPUT, MOST_ROOM = 65_536, 7_000
RANDOM_JOINS = 3_000
# The most that is read at once, with its number, place and input. It is too long for the previews' four rooms.
MOST_READ = (b'', port() * 8_192, b'', 6, 512, 2)


def fraction(start, end):
    """A connection of kind 4."""
    return connection(start, end, events=1, over=2)


def fixed_cases():
    """The joins by hand, with exactly the room that is needed; a refusal with none, since a fault comes before 16."""
    for *inputs, number, place, which in (*FIXED, MOST_READ):
        room = 0 if number else sum(map(len, inputs))
        if join(*inputs, room)[:3] != (number, place, which):
            sys.exit(f'{number} at {place} of input {which} is said here, joiner.py finds {join(*inputs, room)[:3]} in {inputs}')
        yield (*inputs, room)
    worked = (TWO, ONE, buffer(2, 1), 84)
    due = table_bytes(Model([Port(), Port(), Port(1, 5)], [Link(0, 1, ticks=3), Link(2, 2, ticks=4, events=None), Link(2, 1, events=None)]))
    if join(*worked) != (0, 0, 0, due):
        sys.exit(f'joiner.py joins {worked} to {join(*worked)[3]}')
    yield worked
    longest = full(fraction)
    for room, number in ((0, 16), (6_655, 16), (6_656, 0), (6_657, 0), (MOST_ROOM, 0)):
        if join(*longest, room)[0] != number:
            sys.exit(f'{number} is due of the longest table in {room} bytes')
        yield (*longest, room)


def numbered_links(first, count):
    """Links with their numbers as ticks, so that another order shows; most are buffers, which are shorter."""
    return [connection(ticks=n, over=None if n % 16 else 1) if n % 8 == 0 else buffer(ticks=n) for n in range(first, first + count)]


def split_links(counts):
    """Three inputs with so many links each, a port in each table."""
    inputs = [numbered_links(sum(counts[:at]), count) for at, count in enumerate(counts)]
    return [port() + b''.join(inputs[0]), port() + b''.join(inputs[1]), b''.join(inputs[2])]


def link_splits():
    """256 links among the inputs, then one more where the most are: the last link of the last input that has any is 7."""
    splits = [(a, b, 256 - a - b) for a in range(0, 257, 16) for b in range(0, 257 - a, 16)]
    splits += [(255, 1, 0), (255, 0, 1), (1, 255, 0), (0, 255, 1), (1, 0, 255), (0, 1, 255)]
    for counts in splits:
        inputs = split_links(counts)
        room = sum(map(len, inputs))
        if join(*inputs, room)[0] != 0:
            sys.exit(f'links {counts} are not joined')
        yield (*inputs, room)
        more = list(counts)
        more[counts.index(max(counts))] += 1
        inputs = split_links(more)
        which = max(which for which, count in enumerate(more, 1) if count)
        place = len(inputs[which - 1]) - len(numbered_links(256, 1)[0])
        if join(*inputs, 16)[:3] != (7, place, which):
            sys.exit(f'7 at {place} of input {which} is due of links {more}, joiner.py finds {join(*inputs, 16)[:3]}')
        yield (*inputs, 16)


def random_cases():
    """Random joins: with one byte too few, exactly enough, more, none and any room; of a refusal, which has no length, the last two."""
    for _ in range(RANDOM_JOINS):
        inputs = random_inputs()
        length = sum(map(len, inputs))
        rooms = {0, random.randint(0, min(2 * length, MOST_ROOM))}
        if join(*inputs, MOST_ROOM)[0] == 0:
            rooms |= {max(length - 1, 0), length, length + random.randint(1, 40)}
        for room in sorted(rooms):
            yield (*inputs, room)


def check_join(case, came):
    """That what came of a join is what is due."""
    due = join(*case)
    if came != due:
        raise Wrong(f'{str(due)[:200]} is due')


def check_results(what, check, cases, results, others):
    """That each result is what is due; that each fault is met in each input where it can be, and each other number in none. A port among the added
    records is 5, so no 6 or 8 is there."""
    for at, (case, came) in enumerate(zip(cases, results)):
        try:
            check(case, came)
        except Wrong as why:
            sys.exit(f'{what} {at}, {str(case)[:400]}: {why}; printed is {str(came)[:200]}')
    counts = Counter((number, which) for number, _, which, _ in results)
    due = {(number, which) for number in range(2, 12) for which in (1, 2, 3)} - {(6, 3), (8, 3)} | {(number, 0) for number in others}
    if set(counts) != due:
        sys.exit(f'{what}: not met, or met where it cannot be, as (number, input): {sorted(set(counts) ^ due)}')
    for (number, which), count in sorted(counts.items()):
        print(f'{what} number {number} input {which}: {count}', file=sys.stderr)


def main():
    options = argparse.ArgumentParser(description='Writes the cases of the program `join_cases`, and what it prints, once that is checked.')
    options.add_argument('--program', default=built('join_cases'), help='the built program')
    program = options.parse_args().program
    if not os.path.exists(program):
        sys.exit(f'{program} is not built (tools/build join_cases): only it says what previews show, so nothing is written')
    random.seed(20261116)
    joins = [*fixed_cases(), *link_splits(), *random_cases()]
    random.seed(20261118)
    previews = [*preview_cases()]
    calls = [(JOIN, *case) for case in joins] + [(PREVIEW, *case) for case in previews]
    for _, *inputs, room in calls:
        assert sum(map(len, inputs)) <= MOST_INPUT and room <= MOST_ROOM
    results = called(program, calls)
    check_results('join', check_join, joins, results[:len(joins)], (0, 16))
    check_results('preview', check_preview, previews, results[len(joins):], (0, 1, 12, 13, 14, 15, 17))
    folder = os.path.join(BASE, 'crates', 'join_cases')
    os.makedirs(folder, exist_ok=True)
    for file_name, data in (('stdin', calls_input(calls)), ('stdout', results_output(results))):
        with open(os.path.join(folder, file_name), 'wb') as file:
            file.write(data)
    print(f'{len(joins)} joins, {len(previews)} previews', file=sys.stderr)


if __name__ == '__main__':
    main()
