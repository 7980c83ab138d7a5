"""Components, agreement and weights of a model, by exact rationals along a spanning forest: numbers 13 and 14 of document 01."""
from fractions import Fraction
from math import gcd, lcm


def components(model):
    """For each port the lowest port that it is joined to."""
    lowest = list(range(len(model.ports)))

    def find(p):
        while lowest[p] != p:
            p = lowest[p]
        return p

    for link in model.links:
        a, b = find(link.start), find(link.end)
        lowest[max(a, b)] = min(a, b)
    return [find(p) for p in range(len(model.ports))]


def relative_periods(model):
    """For each port its period over that of its component's lowest port, or None where ratios disagree."""
    neighbours = [[] for _ in model.ports]
    for link in model.links:
        ratio = Fraction(link.den, link.num)
        neighbours[link.start].append((link.end, ratio))
        neighbours[link.end].append((link.start, 1 / ratio))
    period = [None] * len(model.ports)
    for root in range(len(model.ports)):
        if period[root] is not None:
            continue
        period[root] = Fraction(1)
        todo = [root]
        while todo:
            p = todo.pop()
            for q, ratio in neighbours[p]:
                if period[q] is None:
                    period[q] = period[p] * ratio
                    todo.append(q)
                elif period[q] != period[p] * ratio:
                    return None
    return period


def weights(model):
    """(13, None), (14, None), or (0, the weights): the smallest whole numbers of a component in proportion for which every delay in events times
    the weight that it leaves is whole (change request F-6)."""
    period = relative_periods(model)
    if period is None:
        return 13, None
    component = components(model)
    result = [0] * len(model.ports)
    for root in set(component):
        members = [p for p in range(len(model.ports)) if component[p] == root]
        scale = lcm(*(period[p].denominator for p in members))
        whole = [int(period[p] * scale) for p in members]
        common = gcd(*whole)
        for p, w in zip(members, whole):
            result[p] = w // common
        delays = [link.delta * result[link.start] for link in model.links if component[link.start] == root and link.events is not None]
        parts = lcm(*(delay.denominator for delay in delays))
        for p in members:
            result[p] *= parts
    if max(result) > 10_000:
        return 14, None
    return 0, result
