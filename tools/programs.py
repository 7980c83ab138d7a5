"""Runs the programs `models`, `join_cases` and `hide_cases`, which `tools/build NAME` builds, each on many cases at once."""
import os
import re
import struct
import subprocess
import sys

BASE = os.path.dirname(os.path.dirname(os.path.abspath(__file__)))


def built(name):
    """Where `tools/build` puts a program."""
    return os.path.join(BASE, 'target', 'bin', name)


def output(program, given):
    try:
        return subprocess.run([program], input=given, stdout=subprocess.PIPE, check=True).stdout
    except (OSError, subprocess.CalledProcessError) as error:
        sys.exit(f'{program}: {error}')


def tables_input(tables):
    """What `models` reads: of each table its length in four bytes, then the table."""
    return b''.join(struct.pack('<I', len(table)) + table for table in tables)


def answers(program, tables):
    """What `models` prints, cut into the answers to each table."""
    try:
        text = output(program, tables_input(tables)).decode('ascii')
    except UnicodeDecodeError as error:
        sys.exit(f'{program}: {error}')
    before, *texts = re.split('(?m)^(?=answer )', text)
    if before:
        sys.exit(f'{program}: it prints {before[:80]!a} before any answer')
    if len(texts) != len(tables):
        sys.exit(f'{program}: {len(texts)} answers to {len(tables)} tables')
    return texts


def results(program, given, rooms, count):
    """Of each case, with so many bytes of room, so many numbers and the written bytes. The program prints a line with the numbers, how many bytes it
    wrote and how many behind them changed, of which there may be none; then the written ones."""
    printed, at, found = output(program, given), 0, []
    line = re.compile(b' '.join([rb'(0|[1-9]\d*)'] * (count + 2)) + b'\n')
    for case, room in enumerate(rooms):
        match = line.match(printed, at)
        if not match:
            sys.exit(f'{program}: no answer to case {case}: {printed[at:at + 80]!a}')
        *numbers, length, changed = map(int, match.groups())
        at = match.end() + length
        if length > room or at > len(printed) or changed:
            sys.exit(f'{program}: {match[0]!a} is no answer to case {case} with {room} bytes of room')
        found.append((*numbers, printed[match.end():at]))
    if at != len(printed):
        sys.exit(f'{program}: it prints {len(printed) - at} bytes behind the last answer')
    return found


def results_output(found):
    """What is printed of such results."""
    return b''.join(' '.join(map(str, (*numbers, len(written), 0))).encode() + b'\n' + written for *numbers, written in found)


# The calls of `join_cases`.
JOIN, PREVIEW = 0, 1


def calls_input(calls):
    """What `join_cases` reads: of each (call, first, second, added, room) the call, the room and the three lengths in four bytes each, then the
    inputs."""
    return b''.join(struct.pack('<5I', call, room, *map(len, inputs)) + b''.join(inputs) for call, *inputs, room in calls)


def called(program, calls):
    """(number, place, input, written bytes) of each call."""
    return results(program, calls_input(calls), [room for *_, room in calls], 3)


def joins(program, cases):
    """The results of joins, each (first, second, added, room)."""
    return called(program, [(JOIN, *case) for case in cases])


def hides_input(cases):
    """What `hide_cases` reads: of each (table, port, room) the port in eight bytes, the room and the table's length in four each, then the table."""
    return b''.join(struct.pack('<QII', port, room, len(table)) + table for table, port, room in cases)


def hides(program, cases):
    """(number, place, written bytes) of each hiding."""
    return results(program, hides_input(cases), [room for *_, room in cases], 2)
