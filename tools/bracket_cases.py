#!/usr/bin/env python3
"""Joins 500 random triples of tables both ways, (a b) c and a (b c), with one lot of added records, and compares what comes out.

Each added record stands in the first join where both its ends exist (change request F-2). The joined tables must have the same ports and, up to
order, the same links, and the answers to them the same number and the same port lines. The programs `join_cases` and `models` join and answer;
with --separate joiner.py, reader.py and solver.py do. The status is 1 where some differ."""
import argparse
import random
import sys
from collections import Counter

from join_inputs import random_parts
from joiner import ends, join, moved
from model import Model
from programs import answers, built, joins
from random_models import large, small
from reader import Before, read_run
from separate import separate_answer

TRIPLES = 500


def case(first, second, added):
    """A join with exactly the room that it needs."""
    return first, second, b''.join(added), len(first) + len(second) + sum(map(len, added))


def parted(added, is_inner):
    """The added records of the inner join, and those of the outer."""
    return [link for link in added if is_inner(ends(link))], [link for link in added if not is_inner(ends(link))]


def ways(tables, cuts, added):
    """(a b) c and a (b c): of each the inner join, and the outer one for what that gives."""
    a, b, c = tables
    left_inner, left_outer = parted(added, lambda pair: max(pair) < cuts[2])
    right_inner, right_outer = parted(added, lambda pair: min(pair) >= cuts[1])
    right_inner = [moved(link, -cuts[1]) for link in right_inner]
    return [(case(a, b, left_inner), lambda table: case(table, c, left_outer)),
            (case(b, c, right_inner), lambda table: case(a, table, right_outer))]


def whole(results):
    """The tables of joins, none of which may be refused."""
    for at, (number, place, which, _) in enumerate(results):
        if number:
            sys.exit(f'join {at}: {number} at {place} of input {which}')
    return [table for *_, table in results]


def both_ways(joined, triples):
    """The tables of (a b) c and of a (b c) for each triple; `joined` gives the results of a list of joins."""
    steps = [way for triple in triples for way in ways(*triple)]
    inner = whole(joined([first for first, _ in steps]))
    outer = whole(joined([last(table) for (_, last), table in zip(steps, inner)]))
    return list(zip(outer[::2], outer[1::2]))


def same_tables(left, right):
    """Whether the ports are the same, and the links up to order."""
    (*left_fault, left_ports, left_links), (*right_fault, right_ports, right_links) = (read_run(table, Before()) for table in (left, right))
    return left_fault == right_fault == [0, 0] and left_ports == right_ports and sorted(left_links) == sorted(right_links)


def said(answer):
    """The number of an answer, and its port lines."""
    lines = answer.splitlines()
    return lines[0].split()[1], [line for line in lines if line.startswith('port ')]


def main():
    options = argparse.ArgumentParser(description='Joins random triples of tables in both ways and compares the results.')
    options.add_argument('--join', default=built('join_cases'), help='the built program that joins')
    options.add_argument('--models', default=built('models'), help='the built program that answers')
    options.add_argument('--separate', action='store_true', help='by joiner.py and solver.py in place of the programs')
    given = options.parse_args()
    if given.separate:
        def joined(cases):
            return [join(*one) for one in cases]

        def answered(tables):
            return list(map(separate_answer, tables))
    else:
        def joined(cases):
            return joins(given.join, cases)

        def answered(tables):
            return answers(given.models, tables)
    random.seed(20261117)
    models = [Model(), *(large() if random.random() < 0.1 else small() for _ in range(TRIPLES - 1))]
    tables = both_ways(joined, [random_parts(model, 3) for model in models])
    texts = answered([table for pair in tables for table in pair])
    numbers, reordered, differ = Counter(), 0, 0
    for at, (left, right) in enumerate(tables):
        one, other = said(texts[2 * at]), said(texts[2 * at + 1])
        numbers[one[0]] += 1
        reordered += left != right
        if not same_tables(left, right) or one != other:
            print(f'triple {at}: {left.hex()} and {right.hex()}, answers {one} and {other}')
            differ += 1
    print(f'{len(tables)} triples, {differ} differ')
    print(', '.join(f'{numbers[number]} with answer {number}' for number in sorted(numbers, key=int)) + f'; links in another order in {reordered}')
    return 1 if differ else 0


if __name__ == '__main__':
    sys.exit(main())
