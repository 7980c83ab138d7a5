#!/usr/bin/env python3
"""Writes crates/hide_cases/stdin and stdout: hidings of ports that the program `hide_cases` is run on, and what it prints of them.

A hiding is a table, the number of a port and the room for the table without it. Some tables are written by hand, with what change request F-6
gives them; the others are random, and each of their ports is hidden. What is due comes from hider.py. Of each table that is written, the separate
solver must find the periods that it finds in the given one, and the starts of each must serve the other. Where the program is not built, where it
prints something else, or where some kind of hiding does not occur, nothing is written, and the status is 1. It fills the room with byte 0xA5
before each call, and says how many bytes behind the written ones it then finds changed."""
import argparse
import os
import random
import sys
from collections import Counter

from hide_inputs import HIDDEN, OWN, REFUSED, random_table
from hider import fraction_of, hide, lowered_rate, made_links, own_answer, sides
from programs import BASE, built, hides, hides_input, results_output
from random_models import faulty_table, small
from separate import model_of
from shown import Wrong

MOST_ROOM = 7_000
RANDOM_TABLES, RANDOM_FAULTS = 500, 200
LAST_NUMBER = 2 ** 64 - 1
# What must occur: each number; a rate that is lowered, also from none, one that is not, and one that is not because it is the same; the
# lowest-numbered sender with another connection in front of its own; and new connections with a fraction of events and with a whole number.
OCCUR = [*(f'number {number}' for number in (0, *range(2, 20))), 'a lowered rate', 'a rate from none', 'a kept rate', 'an equal rate',
         'a later lowest sender', 'a fraction made', 'a whole number made']


def rooms(length):
    """None, one byte too few, exactly enough, and more."""
    return sorted({0, length - 1, length, length + 1, length + random.randint(2, 40)})


def hold(table, port, due):
    """That hider.py finds what is said here."""
    found = hide(table, port, MOST_ROOM)
    if found != due:
        sys.exit(f'{due} is said here, hider.py finds {found} for port {port} of {table}')


def fixed_cases():
    """The hidings by hand; a refusal without room too, since every other number comes before 16."""
    for table, port, due in HIDDEN:
        hold(table, port, (0, 0, due))
        for room in rooms(len(due)):
            yield table, port, room
    for table, port, number in REFUSED:
        hold(table, port, (number, 0, b''))
        yield from ((table, port, room) for room in (0, MOST_ROOM))
    for table, number, place in OWN:
        for port in (1, LAST_NUMBER):
            hold(table, port, (number, place, b''))
            yield table, port, 0


def random_cases():
    """Every port of random tables, and of some tables without a port that these give; and a port of tables with a fault."""
    tables = [random_table() for _ in range(RANDOM_TABLES)]
    # grows by what is hidden
    for table in tables:
        count = 0 if own_answer(table)[0] else len(model_of(table).ports)
        for port in range(count + 1):
            number, _, hidden = hide(table, port, MOST_ROOM)
            for room in rooms(len(hidden)) if number == 0 else [random.choice((0, MOST_ROOM))]:
                yield table, port, room
            if number == 0 and random.random() < 0.1:
                tables.append(hidden)
    for _ in range(RANDOM_FAULTS):
        yield faulty_table(small()), random.randrange(4), random.choice((0, MOST_ROOM))


def asked(link, periods, starts):
    """The earliest start that a connection asks of the port that it leads to."""
    return starts[link.start] + link.ticks + link.delta * periods[link.start]


def meets(model, periods, starts):
    """Whether these starts serve every connection at these periods."""
    connections = (link for link in model.links if link.events is not None)
    return all(asked(link, periods, starts) <= starts[link.end] for link in connections)


def without(values, port):
    return values[:port] + values[port + 1:]


def check_times(table, port, hidden):
    """That the other ports have the same periods, and that the starts of either table serve the other, where the hidden port starts when its senders
    ask it to."""
    given, left = own_answer(table), own_answer(hidden)
    if left[0]:
        raise Wrong(f'the answer to what is written is {left[0]} at {left[1]}')
    periods, starts = ([answer[column] for answer in given[2]] for column in (2, 3))
    left_periods, left_starts = ([answer[column] for answer in left[2]] for column in (2, 3))
    if left_periods != without(periods, port):
        raise Wrong(f'the periods {periods} become {left_periods}')
    if not meets(model_of(hidden), left_periods, without(starts, port)):
        raise Wrong(f'the starts {starts} do not serve without the port')
    model = model_of(table)
    longer = left_starts[:port] + [None] + left_starts[port:]
    longer[port] = max(asked(link, periods, longer) for link in sides(model, port)[0])
    if not meets(model, periods, longer):
        raise Wrong(f'the starts {left_starts} do not serve with the port')


def check_hide(case, came):
    """That what came of a hiding is what is due."""
    due = hide(*case)
    if came != due:
        raise Wrong(f'{str(due)[:200]} is due')
    if due[0] == 0:
        check_times(*case[:2], due[2])


def kinds(case, number):
    """What of `OCCUR` a hiding has."""
    yield f'number {number}'
    if number:
        return
    table, port, _ = case
    model = model_of(table)
    into, _ = sides(model, port)
    sender = min(link.start for link in into)
    lowered, own, hidden = lowered_rate(model, port), model.ports[sender], model.ports[port]
    yield 'a lowered rate' if lowered else 'a kept rate'
    if lowered and not own.is_rated:
        yield 'a rate from none'
    first = next(link for link in into if link.start == sender)
    if own.is_rated and hidden.is_rated and fraction_of(own) * fraction_of(first) == fraction_of(hidden):
        yield 'an equal rate'
    if into[0].start != sender:
        yield 'a later lowest sender'
    for *_, delta in made_links(model, port):
        yield 'a whole number made' if delta.denominator == 1 else 'a fraction made'


def main():
    options = argparse.ArgumentParser(description='Writes the cases of the program `hide_cases`, and what it prints, once that is checked.')
    options.add_argument('--program', default=built('hide_cases'), help='the built program')
    program = options.parse_args().program
    random.seed(20261121)
    cases = [*fixed_cases(), *random_cases()]
    results = hides(program, cases)
    counts = Counter()
    for at, (case, came) in enumerate(zip(cases, results)):
        try:
            check_hide(case, came)
        except Wrong as why:
            table, port, room = case
            sys.exit(f'hiding {at}, port {port} of {table.hex()} with {room} bytes of room: {why}; printed is {str(came)[:200]}')
        counts.update(set(kinds(case, came[0])))
    if set(counts) != set(OCCUR):
        sys.exit(f'not met, or not expected: {sorted(set(counts) ^ set(OCCUR))}')
    folder = os.path.join(BASE, 'crates', 'hide_cases')
    for file_name, data in (('stdin', hides_input(cases)), ('stdout', results_output(results))):
        with open(os.path.join(folder, file_name), 'wb') as file:
            file.write(data)
    print(len(cases), 'hidings:', ', '.join(f'{counts[kind]} with {kind}' for kind in OCCUR), file=sys.stderr)


if __name__ == '__main__':
    main()
