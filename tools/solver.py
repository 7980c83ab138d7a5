"""The analysis of a model by exact rationals, apart from the proved code: number, port answers and buffer sizes of document 01.

The least a/b comes from all simple cycles where they can be listed, and else from a bisection; both are other searches than the proved one.
Where no port of a component has a rate, its floor is zero, which is no period (change request F-3): what counts is then which cycles are
positive at every a/b close enough to zero. That is those with E above zero, and of those with E zero the ones with D above zero."""
from fractions import Fraction

from ratios import components, weights

# More cycles, or more steps of the search for them, are not listed.
MOST_CYCLES = 3_000
MOST_STEPS = 60_000
# No part of a period passes this: 64 edges of 10,000,000.
MOST_PART = 640_000_000


class TooMany(Exception):
    """The simple cycles are too many to list."""


def simple_cycles(members, edges):
    """(E, D) of each simple cycle; an edge is (from, to, E, D)."""
    leaving = {p: [] for p in members}
    for edge in edges:
        leaving[edge[0]].append(edge)
    found, steps = [], 0
    for root in members:
        stack = [(root, 0, 0, frozenset())]
        while stack:
            p, e, d, seen = stack.pop()
            for _, q, edge_e, edge_d in leaving[p]:
                steps += 1
                if steps > MOST_STEPS or len(found) > MOST_CYCLES:
                    raise TooMany
                if q == root:
                    found.append((e + edge_e, d + edge_d))
                elif q > root and q not in seen:
                    stack.append((q, e + edge_e, d + edge_d, seen | {q}))
    return found


def by_cycles(floor, cycles):
    """0 and the greatest limit, or 15 where a cycle is positive there; just above zero, where no limit is above it, 17 or 15."""
    x = max([floor] + [Fraction(e, -d) for e, d in cycles if d < 0])
    if x > 0:
        return (0, x) if all(e + d * x <= 0 for e, d in cycles) else (15, None)
    return (15 if any(e > 0 or e == 0 and d > 0 for e, d in cycles) else 17), None


def longest(members, edges, a, b):
    """The least starts where an edge costs E b + D a, or (None, D) with D of a positive cycle."""
    start, last = {p: 0 for p in members}, {}
    for _ in members:
        changed = None
        for edge in edges:
            p, q, e, d = edge
            bound = start[p] + e * b + d * a
            if bound > start[q]:
                start[q], last[q], changed = bound, edge, q
        if changed is None:
            return start, None
    # a port that still changes lies behind a positive cycle
    p = changed
    for _ in members:
        p = last[p][0]
    total, q = 0, p
    while True:
        total += last[q][3]
        q = last[q][0]
        if q == p:
            return None, total


def longest_at(members, edges, x):
    return longest(members, edges, x.numerator, x.denominator)


def longest_above_zero(members, edges):
    """As `longest`, just above zero: by E, then by D over the edges that those starts meet exactly, for these are the edges of every cycle with
    E zero and of no other. The starts are those of the last search."""
    starts, rise = longest(members, edges, 0, 1)
    if starts is None:
        return None, rise
    return longest(members, [edge for edge in edges if starts[edge[0]] + edge[2] == starts[edge[1]]], 1, 0)


def by_bisection(floor, members, edges):
    """As `by_cycles`. Below `low` a falling cycle is positive; from `high` on a rising one is, or `high` serves."""
    starts, rise = longest_at(members, edges, floor) if floor > 0 else longest_above_zero(members, edges)
    if starts is not None:
        return (0, floor) if floor > 0 else (17, None)
    if rise >= 0:
        return 15, None
    low, high = floor, Fraction(MOST_PART + 1)
    while high - low > Fraction(1, 2 * MOST_PART ** 2):
        middle = (low + high) / 2
        # short fractions keep the sums short
        middle = middle.limit_denominator(2 ** 62)
        starts, rise = longest_at(members, edges, middle)
        if starts is None and rise < 0:
            low = middle
        else:
            high = middle
    x = ((low + high) / 2).limit_denominator(MOST_PART)
    serves = low < x <= high and longest_at(members, edges, x)[0] is not None
    return (0, x) if serves else (15, None)


def whole(x):
    assert x.denominator == 1
    return x.numerator


def timed(model, w, component, root):
    """Of the component with that root 0, its least a/b and its least starts there, times b; or 15 or 17, None and None."""
    members = [p for p in range(len(model.ports)) if component[p] == root]
    edges = [(k.start, k.end, k.ticks, whole(k.delta * w[k.start]))
             for k in model.links if k.events is not None and component[k.start] == root]
    limits = (Fraction(model.ports[p].den, model.ports[p].num * w[p]) for p in members if model.ports[p].is_rated)
    floor = max(limits, default=Fraction(0))
    try:
        number, x = by_cycles(floor, simple_cycles(members, edges))
    except TooMany:
        number, x = by_bisection(floor, members, edges)
    return number, x, None if x is None else longest_at(members, edges, x)[0]


def numbers_by_component(model, w):
    """For each component, by its lowest port, 0, 15 or 17."""
    component = components(model)
    return {root: timed(model, w, component, root)[0] for root in sorted(set(component))}


def analyse(model):
    """(number, ports, buffers): ports are (component, weight, period, start), buffers (number, size); both empty but at number 0."""
    number, w = weights(model)
    if number != 0:
        return number, [], []
    component = components(model)
    period, start, numbers = {}, {}, set()
    for root in sorted(set(component)):
        number, x, starts = timed(model, w, component, root)
        numbers.add(number)
        for p in starts or ():
            period[p] = w[p] * x
            start[p] = Fraction(starts[p], x.denominator)
    # 15 is tried over the whole table before 17
    for number in (15, 17):
        if number in numbers:
            return number, [], []
    sizes = []
    for n, k in enumerate(model.links):
        if k.events is None:
            lack = start[k.start] + k.ticks - start[k.end]
            sizes.append((n, max(0, -((-lack) // period[k.start]))))
    return 0, [(component[p], w[p], period[p], start[p]) for p in range(len(model.ports))], sizes


def answer_line(number, place=0):
    """The first line: every number but 0 is followed by its place, 0 too (change request F-1)."""
    return f'answer {number} at {place}\n' if number else 'answer 0\n'


def printed(number, ports, buffers):
    """The printed form of document 01; of 13 and 15 only the first line."""
    def fraction(x):
        return f'{x.numerator}/{x.denominator}'

    lines = []
    for p, (component, weight, period, start) in enumerate(ports):
        lines.append(f'port {p} component {component} weight {weight} period {fraction(period)} start {fraction(start)}')
    for n, size in buffers:
        lines.append(f'buffer {n} size {size}')
    return answer_line(number) + ''.join(line + '\n' for line in lines)
