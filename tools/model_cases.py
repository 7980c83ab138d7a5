#!/usr/bin/env python3
"""Writes crates/models/stdin and stdout: tables that the program `models` is run on, and what it prints of them.

The tables are those of the examples, models at the edges, those without rates, of buffers' sizes and of fractions of events among them, random
models, one or more for each number without a model, and random models with a fault in their bytes. What the program prints is checked, answer by
answer, before it is written: number and lines by the exact solver of solver.py, number and place of a fault by reader.py, and both by what is said
here beside some tables; the loop, floor or block that is shown, which is free, by shown.py. Where an answer is wrong, or something of `OCCUR` does
not occur, nothing is written, and the status is 1."""
import argparse
import glob
import os
import random
import sys
from collections import Counter
from dataclasses import replace
from fractions import Fraction

from joiner import join
from model import Link, Model, Port, link_bytes, port_bytes, record, table_bytes
from programs import BASE, answers, built, tables_input
from random_models import FAST, UNRATED, dense_unrated, faulty_table, large, small
from ratios import weights
from reader import first_fault
from separate import model_of, separate_answer
from shown import Wrong, check_blocked, check_loop
from solver import analyse, answer_line, numbers_by_component, printed
from table_text import read_text

random.seed(20261115)

PORT = port_bytes(Port())
CONNECTION = link_bytes(Link(0, 0))
FRACTION = link_bytes(Link(0, 0, events=-1, over=2))
# The most ports and links, in 6,656 bytes: no fault has a later place, and no joined table is longer.
FULL = PORT * 64 + FRACTION * 256

# Tables without a model, each with what is printed of it.
REFUSED = [
    (b'\x06', 'answer 2 at 0\n'),
    (PORT + record(5, b''), 'answer 3 at 8\n'),
    (PORT + record(1, b''), 'answer 4 at 8\n'),
    (PORT + record(4, bytes(16)), 'answer 4 at 8\n'),
    (PORT + CONNECTION + PORT, 'answer 5 at 28\n'),
    (PORT * 65, 'answer 6 at 512\n'),
    (PORT * 8192, 'answer 6 at 512\n'),  # exactly 65,536 bytes
    (PORT * 8192 + b'\x06', 'answer long\n'),
    (PORT + CONNECTION * 257, 'answer 7 at 5128\n'),
    (port_bytes(Port(0, 1)), 'answer 8 at 0\n'),
    (PORT + link_bytes(Link(0, 1)), 'answer 9 at 8\n'),
    (PORT + link_bytes(Link(0, 0, 1, 0)), 'answer 10 at 8\n'),
    (port_bytes(UNRATED) + link_bytes(Link(0, 0, 0, 0)), 'answer 10 at 8\n'),
    (PORT * 2 + CONNECTION + link_bytes(Link(0, 1, ticks=10_000_001)), 'answer 11 at 36\n'),  # change request F-1
    # the denominator and the value of a fraction of events (change request F-6)
    *[(PORT + FRACTION + link_bytes(Link(0, 0, events=events, over=over)), 'answer 11 at 32\n')
      for events, over in ((1, 0), (1, 10_001), (2_001, 2), (-2_001, 2), (10_000_001, 10_000), (0, 2 ** 32 - 1))],
    (b'', 'answer 12 at 0\n'),
    # the latest places, with bytes behind them up to 65,536
    (FULL + b'\x06', 'answer 2 at 6656\n'),
    (FULL + PORT * 7360, 'answer 5 at 6656\n'),
    (FULL + CONNECTION * 2944, 'answer 7 at 6656\n'),
    # a record of 65,000 bytes is itself the first fault
    (record(9, bytes(64_996)) + PORT, 'answer 3 at 0\n'),
    (PORT + record(2, bytes(64_996)) + port_bytes(Port(0, 1)), 'answer 4 at 8\n'),
    (PORT * 64 + record(1, bytes(64_996)) + b'\x06', 'answer 4 at 512\n'),
]

EDGES = [
    Model([FAST] * 2, [Link(0, 1, 2, 1, ticks=1, events=-1), Link(1, 0, 1, 2, ticks=1)]),                       # H, δ exchanged
    Model([Port(1, 1), Port(1, 2)], []),                                                                        # two unjoined ports
    Model([Port()] * 4, [Link(0, 1, 1000, 1), Link(1, 2, 1000, 1), Link(3, 3, 2, 1)]),                          # 13 before 14
    Model([Port()] * 2, [Link(0, 1, 2, 1), Link(0, 1), Link(1, 1, events=1, over=9_973), Link(1, 1, over=9_967)]),  # the same by fractions
    Model([Port()] * 64, [Link(p, p + 1, 1000, 1) for p in range(63)]),
    Model([Port()] * 64, [Link(p, p + 1, 1000, 1) for p in range(63)] + [Link(0, 63, 1, 1)]),
    Model([Port()] * 64, [Link(p % 64, (p + 1) % 64, 1, 1, 10_000_000, -1000) for p in range(256)]),
    Model([Port()] * 64, [Link(p, p, 1, 1, 1, -1) for p in range(64)] * 4),
    Model([Port()] * 64, [Link(p % 64, (p * 7 + 3) % 64, 1, 1, p, None) for p in range(256)]),
    Model([UNRATED] * 64, [Link(p, (p + 1) % 64, events=int(p == 63)) for p in range(64)]),                     # E 0, D 1
    Model([UNRATED] * 2, [Link(0, 1, ticks=5), Link(1, 0, ticks=-5, events=1), Link(0, 0, ticks=1, events=-2)]),  # a limit, and a block above zero
]

NO_LEAST = 'answer 17 at 0\n'


def blocked(floor, block):
    return f'answer 15 at 0\nfloor {floor}\nblock {block}\n'


def alone(*delays):
    """A port without a rate, joined to itself by connections with these ticks and events."""
    return Model([UNRATED], [Link(0, 0, ticks=ticks, events=events) for ticks, events in delays])


def ring(heavy, light=()):
    """Ports without a rate of these weights, and what is printed. The heavy ones are in a ring with ε 1 once and δ −1,000 everywhere, so that a/b
    is 1 divided by the sum of their weights and by 1,000; buffers lead from the first to a chain of the light ones."""
    w, one_over = [*heavy, *light], 1_000 * sum(heavy)
    ends = [(p, (p + 1) % len(heavy)) for p in range(len(heavy))]
    model = Model([UNRATED] * len(w), [Link(p, q, *Fraction(w[p], w[q]).as_integer_ratio(), int(p == 0), -1_000) for p, q in ends])
    buffers = [(p - 1 if p > len(heavy) else 0, p) for p in range(len(heavy), len(w))]
    model.links += [Link(p, q, *Fraction(w[p], w[q]).as_integer_ratio(), events=None) for p, q in buffers]
    starts = [1 - Fraction(1_000 * sum(heavy[:p]), one_over) if 0 < p < len(heavy) else Fraction(0) for p in range(len(w))]
    ports = [(0, weight, Fraction(weight, one_over), start) for weight, start in zip(w, starts)]
    return model, printed(0, ports, [(n, 0) for n in range(len(heavy), len(w))])


# The weights of a cycle with D as far from zero as we found: 64 up to 10,000 without a common divisor, each to the next with parts to 1,000.
HEAVIEST = [10_000] * 61 + [9_984, 9_997, 9_984]


def turned_ring():
    """The heaviest ring with E −1 and D above zero."""
    model, _ = ring(HEAVIEST)
    for link in model.links:
        link.ticks, link.events = -link.ticks, -link.events
    return model


# Ports without a rate of their own (change request F-3), each model with what is printed of it.
WITHOUT_RATE = [
    (alone(), NO_LEAST),
    (alone((0, 0)), NO_LEAST),
    (alone((0, -1)), NO_LEAST),
    (alone((-1, 1000)), NO_LEAST),
    (alone((0, 1)), blocked('zero', 0)),
    (alone((1, 0)), blocked('zero', 0)),
    (alone((1, -1000)), 'answer 0\nport 0 component 0 weight 1 period 1/1000 start 0/1\n'),
    (alone((7, -1), (-5, 1)), blocked('cycle 0', 1)),                                                           # F
    (Model([UNRATED] * 2, [Link(0, 1, ticks=3), Link(1, 0, events=-2), Link(1, 0, ticks=4, events=None)]),      # A
     'answer 0\nport 0 component 0 weight 1 period 3/2 start 0/1\nport 1 component 0 weight 1 period 3/2 start 3/1\nbuffer 2 size 5\n'),
    (Model([UNRATED, Port()], [Link(0, 1)]),
     'answer 0\nport 0 component 0 weight 1 period 1/1 start 0/1\nport 1 component 0 weight 1 period 1/1 start 0/1\n'),
    (Model([UNRATED, Port()], [Link(1, 1, ticks=1)]), blocked('port 1', 0)),                                    # not 17
    (Model([UNRATED, Port()]), NO_LEAST),
    *[(Model([Port(*parts)]), 'answer 8 at 0\n') for parts in ((0, 1), (1, 0), (0, 1000))],
    ring([10_000] * 62, [10, 1]),
    # close to zero: D far below zero, and above
    ring(HEAVIEST),
    (turned_ring(), NO_LEAST),
    # 15 before 17 wherever the components stand, and the lowest without a period, not the lowest without a least
    (Model([UNRATED] * 2, [Link(0, 0, ticks=1)]), blocked('zero', 0)),
    (Model([UNRATED] * 2, [Link(1, 1, ticks=1)]), blocked('zero', 0)),
    (Model([UNRATED, Port(), UNRATED], [Link(2, 2, events=1), Link(1, 1, ticks=1)]), blocked('port 1', 1)),
    (Model([UNRATED, UNRATED, Port()], [Link(2, 2, ticks=1), Link(1, 1, events=1)]), blocked('zero', 1)),
    # a buffer joins a port to the rate of another
    (Model([UNRATED, Port(1, 5)], [Link(0, 1, events=None)]),
     'answer 0\nport 0 component 0 weight 1 period 5/1 start 0/1\nport 1 component 0 weight 1 period 5/1 start 0/1\nbuffer 0 size 0\n'),
]


def between(rate, start, sizes):
    """Two ports of this rate, the second starts so many ticks after the first; buffers from the second back to the first, by their ticks
    with their sizes."""
    model = Model([Port(*rate)] * 2, [Link(0, 1, ticks=start)] + [Link(1, 0, ticks=ticks, events=None) for ticks in sizes])
    ports = [(0, 1, 1 / Fraction(*rate), Fraction(s)) for s in (0, start)]
    return model, printed(0, ports, enumerate(sizes.values(), 1))


def weighted():
    """Periods 2 and 1, and buffers both ways: the sender's period counts."""
    model = Model([Port()] * 2, [Link(0, 1, 2, 1, 3, None), Link(1, 0, 1, 2, 3, None), Link(0, 0, 1, 1, 4, None)])
    return model, printed(0, [(0, 2, Fraction(2), Fraction(0)), (0, 1, Fraction(1), Fraction(0))], [(0, 2), (1, 3), (2, 2)])


def largest():
    """Periods down to 1/620,000,000, and with the longest delay the most events."""
    model, text = ring([10_000] * 62, [10, 1])
    sizes = [(Link(63, 63, ticks=10_000_000, events=None), 6_200_000_000_000_000), (Link(63, 63, ticks=-10_000_000, events=None), 0),
             (Link(63, 62, 1, 10, 9_999_999, None), 6_199_999_380_000_000), (Link(62, 63, 10, 1, 1, None), 62_000_000),
             (Link(0, 0, ticks=1, events=None), 62_000)]
    text += ''.join(f'buffer {n} size {size}\n' for n, (_, size) in enumerate(sizes, len(model.links)))
    model.links += [link for link, _ in sizes]
    return model, text


# The sizes of buffers by cases (change request F-4), each model with what is printed of it.
SIZES = [
    between((1, 3), 2, {-10_000_000: 0, -12: 0, -3: 0, -2: 0, -1: 1, 0: 1, 1: 1, 2: 2, 3: 2, 4: 2, 5: 3}),
    between((2, 3), 3, {-4: 0, -3: 0, -2: 1, -1: 2, 0: 2, 1: 3, 4: 5}),
    between((1000, 1), 0, {-1: 0, 0: 0, 1: 1000, 10_000_000: 10_000_000_000}),
    between((1000, 999), 1, {-2: 0, -1: 0, 0: 2, 998: 1000, 999: 1002, 9_999_999: 10_010_011}),
    weighted(),
    largest(),
]


def itself(*delays, rate=(1, 1)):
    """A port of this rate, joined to itself by connections with these ticks and fractions of events."""
    return Model([Port(*rate)], [Link(0, 0, ticks=ticks, events=events, over=over) for ticks, events, over in delays])


def timed_ports(*ports):
    """What is printed of ports by their component, weight, period and start."""
    return printed(0, [(component, weight, Fraction(period), Fraction(start)) for component, weight, period, start in ports], [])


TWO_TO_ONE = Link(0, 1, 2, 1, events=1, over=2)
ONE_TO_TWO = Link(1, 0, 1, 2, events=1, over=2)

# Fractions of events (change request F-6), each model with what is printed of it.
FRACTIONS = [
    # what hiding the middle of a chain gives
    (Model([Port(1, 6), Port()], [Link(0, 1, ticks=-2, events=1, over=2)]), timed_ports((0, 2, 6, 0), (0, 2, 6, 1))),
    (itself((1, -1, 2)), timed_ports((0, 2, 2, 0))),
    (itself((1, -1, 2), rate=(0, 0)), timed_ports((0, 2, 2, 0))),
    (itself((1, -3, 2), rate=(0, 0)), timed_ports((0, 2, Fraction(2, 3), 0))),
    # whole ones, as kind 2 has them
    (itself((1, -4, 2)), timed_ports((0, 1, 1, 0))),
    (itself((0, 0, 7)), timed_ports((0, 1, 1, 0))),
    (itself((-5, 2, 2), rate=(1, 5)), timed_ports((0, 1, 5, 0))),
    (itself((-2, 1, 2), rate=(1, 5)), blocked('port 0', 0)),
    (itself((0, 1, 10_000), rate=(0, 0)), blocked('zero', 0)),
    # the weights are scaled only where a delay is not whole at its sender's weight, and only in its component
    (Model([Port()] * 2, [TWO_TO_ONE]), timed_ports((0, 2, 2, 0), (0, 1, 1, 1))),
    (Model([Port()] * 2, [ONE_TO_TWO]), timed_ports((0, 4, 2, Fraction(1, 2)), (0, 2, 1, 0))),
    (Model([Port()] * 2, [Link(1, 1, events=-1, over=3)]), timed_ports((0, 1, 1, 0), (1, 3, 1, 0))),
    (Model([Port()] * 2, [Link(0, 0, events=-1, over=6), Link(0, 1, events=-1, over=4)]), timed_ports((0, 12, 1, 0), (0, 12, 1, 0))),
    # 10,000 and more
    (itself((0, -1, 10_000)), timed_ports((0, 10_000, 1, 0))),
    (itself((0, -10_000_000, 10_000)), timed_ports((0, 1, 1, 0))),
    (itself((0, -1, 16), (0, -1, 625)), timed_ports((0, 10_000, 1, 0))),
    (itself((0, -1, 9_973), (0, -1, 9_967)), 'answer 14 at 0\n'),
    (Model([Port()] * 2, [replace(ONE_TO_TWO, over=5_000)]), timed_ports((0, 10_000, 2, Fraction(1, 5_000)), (0, 5_000, 1, 0))),
    (Model([Port()] * 2, [replace(ONE_TO_TWO, over=5_001)]), 'answer 14 at 0\n'),
]


def faulty_tables(count):
    """So many random tables with a fault."""
    tables = []
    while len(tables) < count:
        table = faulty_table(large() if random.random() < 0.1 else small())
        if first_fault(table)[0]:
            tables.append((f'fault {len(tables)}', table, None, None))
    return tables


def check_example(name, text):
    """That what is printed of an example is what its .out has."""
    with open(os.path.join(BASE, 'examples', os.path.splitext(name)[0] + '.out'), encoding='ascii') as out:
        if out.read() != text:
            raise Wrong('its .out is otherwise')


def example_files(ending):
    for path in sorted(glob.glob(os.path.join(BASE, 'examples', '*' + ending))):
        with open(path, 'rb') as file:
            yield os.path.basename(path), file.read()


def examples():
    """The models of the example texts, A to M of document 01 among them, and that of the joined one."""
    models = {name: read_text(text) for name, text in example_files('.txt')}
    added = read_text(dict(example_files('.added'))['wires.added'], added=True)
    *_, table = join(*map(table_bytes, (models['front.txt'], models['decoder.txt'], added)), len(FULL))
    return [*models.items(), ('receiver.joined', model_of(table))]


def faulty_examples():
    """The examples that no text can say."""
    return ((name, table, None, None) for name, table in example_files('.table'))


def check(model, due, text):
    """That what is printed is what is due; of 13 and 15 that is the number, and the lines after it are checked by themselves."""
    if not text.startswith(due) or not text.endswith('\n'):
        raise Wrong(f'due is {due!a}')
    lines = text[len(due):].splitlines()
    if due == answer_line(13) and len(lines) == 1:
        check_loop(model, *lines)
    elif due == answer_line(15) and len(lines) == 2:
        check_blocked(model, *lines)
    elif due in (answer_line(13), answer_line(15)) or lines:
        raise Wrong(f'{len(lines)} lines follow what is due')


# What must occur among the answers: the numbers; the kinds of floor; 15 where another component has periods but no least; the delays that
# buffers need: below zero, zero, an exact number of events, and one with a part over; and models with fractions of events, of some of which no
# weight is scaled, of some it is, and of some it then passes 10,000.
OCCUR = [*(f'answer {number}' for number in (0, *range(2, 16), 17, 'long')), 'floor port', 'floor cycle', 'floor zero', '15 beside 17',
         'needed below zero', 'needed zero', 'needed exact', 'needed part over',
         'a fraction of events', 'fractions and no weight scaled', 'fractions and a weight scaled', '14 by scaling alone']


def needed(model):
    """Of each buffer of a consistent model the delay that it needs; its case gives the size."""
    _, ports, sizes = analyse(model)
    for number, size in sizes:
        link = model.links[number]
        *_, period, start = ports[link.start]
        delay = start + link.ticks - ports[link.end][-1]
        events, over = divmod(delay, period)
        if delay <= 0:
            kind, due = 'needed zero' if delay == 0 else 'needed below zero', 0
        else:
            kind, due = ('needed part over', events + 1) if over else ('needed exact', events)
        if size != due:
            raise Wrong(f'buffer {number} has {kind}')
        yield kind


def fraction_kinds(model):
    """What a model with fractions of events, in lowest terms, does to the weights; nothing of one without."""
    if all(link.events is None or link.delta.denominator == 1 for link in model.links):
        return
    yield 'a fraction of events'
    number, scaled = weights(model)
    without, base = weights(Model(model.ports, [replace(link, events=None, over=None) for link in model.links]))
    if number == 0:
        yield 'fractions and no weight scaled' if scaled == base else 'fractions and a weight scaled'
    elif number == 14 and without == 0:
        yield '14 by scaling alone'


def kinds(model, text):
    """What of this occurs in an answer."""
    yield ' '.join(text.split()[:2])
    if model is not None:
        yield from fraction_kinds(model)
    if text.startswith(answer_line(0)):
        yield from needed(model)
    if text.startswith(answer_line(15)):
        yield ' '.join(text.splitlines()[1].split()[:2])
        if 17 in numbers_by_component(model, weights(model)[1]).values():
            yield '15 beside 17'


def main():
    options = argparse.ArgumentParser(description='Writes the tables of the program `models`, and what it prints, once that is checked.')
    options.add_argument('--program', default=built('models'), help='the built program')
    program = options.parse_args().program
    cases = [(f'{len(table)} bytes', table, None, due) for table, due in REFUSED]
    for name, listed in (('without rate', WITHOUT_RATE), ('sizes', SIZES), ('fractions', FRACTIONS)):
        cases += [(f'{name} {n}', table_bytes(model), model, due) for n, (model, due) in enumerate(listed)]
    models = [*examples(), *((f'edge {n}', model) for n, model in enumerate(EDGES))]
    models += [(f'small {n}', small()) for n in range(5000)]
    models += [(f'large {n}', large()) for n in range(200)]
    models += [(f'dense {n}', dense_unrated()) for n in range(90)]
    cases += [(name, table_bytes(model), model, None) for name, model in models]
    cases += [*faulty_examples(), *faulty_tables(2000)]
    tables = [table for _, table, _, _ in cases]
    texts = answers(program, tables)
    counts = Counter()
    for at, (name, table, model, due) in enumerate(cases):
        try:
            if due not in (None, texts[at]):
                raise Wrong(f'due is {due!a}')
            check(model, separate_answer(table), texts[at])
            if name.endswith(('.txt', '.table', '.joined')):
                check_example(name, texts[at])
            counts.update(kinds(model, texts[at]))
        except Wrong as why:
            sys.exit(f'table {at} ({name}): {why}; printed is {texts[at]!a}')
    if set(counts) != set(OCCUR):
        sys.exit(f'not met, or not expected: {sorted(set(counts) ^ set(OCCUR))}')
    folder = os.path.join(BASE, 'crates', 'models')
    with open(os.path.join(folder, 'stdin'), 'wb') as stdin, open(os.path.join(folder, 'stdout'), 'w', encoding='ascii') as stdout:
        stdin.write(tables_input(tables))
        stdout.write(''.join(texts))
    print(len(cases), 'tables:', ', '.join(f'{counts[kind]} with {kind}' for kind in OCCUR))


main()
