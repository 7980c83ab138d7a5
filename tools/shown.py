"""Checks the lines that a program shows of a model at numbers 13 and 15. Which loop, floor or block is shown is free; that it is one is not."""
import re
from fractions import Fraction

from ratios import components, weights
from solver import numbers_by_component

NUMBER = r'(?:0|[1-9][0-9]*)'
LOOP = rf'loop((?: [+-]{NUMBER})+)'
FLOOR_PORT = rf'floor port ({NUMBER})'
FLOOR_CYCLE = rf'floor cycle((?: {NUMBER})+)'
FLOOR_ZERO = 'floor zero'
BLOCK = rf'block((?: {NUMBER})+)'


class Wrong(Exception):
    """Why a line does not show what it should."""


def link_of(model, number):
    if number >= len(model.links):
        raise Wrong(f'there is no link {number}')
    return model.links[number]


def check_closed(steps):
    """Steps (link, from, to) lead on to each other and back, with no port and no link twice."""
    for (number, _, end), (_, start, _) in zip(steps, steps[1:] + steps[:1]):
        if end != start:
            raise Wrong(f'link {number} leads to port {end}, and the next link leaves port {start}')
    for what, passed in (('link', [step[0] for step in steps]), ('port', [step[1] for step in steps])):
        if len(set(passed)) < len(passed):
            raise Wrong(f'a {what} comes twice')


def check_loop(model, line):
    """Number 13: a closed walk over connections and buffers whose ratios do not multiply to 1."""
    match = re.fullmatch(LOOP, line)
    if not match:
        raise Wrong(f'{line!a} is no loop')
    steps, product = [], Fraction(1)
    for word in match[1].split():
        number = int(word[1:])
        link = link_of(model, number)
        if word[0] == '+':
            steps.append((number, link.start, link.end))
            product *= Fraction(link.num, link.den)
        else:
            steps.append((number, link.end, link.start))
            product *= Fraction(link.den, link.num)
    check_closed(steps)
    if product == 1:
        raise Wrong('the ratios of the loop multiply to 1')


def sums(model, w, words):
    """E and D of a directed cycle of connections, and a port of it."""
    steps, ticks, events = [], 0, 0
    for number in map(int, words.split()):
        link = link_of(model, number)
        if link.events is None:
            raise Wrong(f'link {number} of a cycle is a buffer')
        steps.append((number, link.start, link.end))
        ticks += link.ticks
        events += link.delta * w[link.start]
    check_closed(steps)
    return ticks, events, steps[0][1]


def floor_of(model, w, line):
    """a/b of a floor that is a limit, and a port of it."""
    if match := re.fullmatch(FLOOR_PORT, line):
        port = int(match[1])
        if port >= len(model.ports):
            raise Wrong(f'there is no port {port}')
        if not model.ports[port].is_rated:
            raise Wrong(f'port {port} has no rate')
        return Fraction(model.ports[port].den, model.ports[port].num * w[port]), port
    if match := re.fullmatch(FLOOR_CYCLE, line):
        ticks, events, port = sums(model, w, match[1])
        if events >= 0 or ticks <= 0:
            raise Wrong(f'the floor has E {ticks} and D {events}')
        return Fraction(ticks, -events), port
    raise Wrong(f'{line!a} is no floor')


def check_blocked(model, floor_line, block_line):
    """Number 15: a floor and a block of the lowest component without a period; the block is positive at the floor. Above the floor zero, which
    only a component without any rate has, it is positive everywhere (change request F-3)."""
    _, w = weights(model)
    match = re.fullmatch(BLOCK, block_line)
    if not match:
        raise Wrong(f'{block_line!a} is no block')
    ticks, events, block_port = sums(model, w, match[1])
    component = components(model)
    lowest = next(root for root, number in numbers_by_component(model, w).items() if number == 15)

    def check_component(what, port):
        if component[port] != lowest:
            raise Wrong(f'the {what} is of component {component[port]}, and {lowest} is the lowest without a period')

    check_component('block', block_port)
    if events < 0:
        raise Wrong(f'the block has D {events}')
    if floor_line == FLOOR_ZERO:
        rated = [p for p, port in enumerate(model.ports) if component[p] == lowest and port.is_rated]
        if rated:
            raise Wrong(f'the floor is zero, and port {rated[0]} has a rate')
        if ticks < 0 or ticks == events == 0:
            raise Wrong(f'the block has E {ticks} and D {events}, and is not positive everywhere above zero')
        return
    floor, floor_port = floor_of(model, w, floor_line)
    check_component('floor', floor_port)
    if ticks + events * floor <= 0:
        raise Wrong(f'the block is not positive at {floor}')
