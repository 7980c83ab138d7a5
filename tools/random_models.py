"""Random models, and tables of them with a fault. The caller sets the seed."""
import itertools
import random
from dataclasses import replace
from fractions import Fraction

from model import Link, Model, Port, link_bytes, port_bytes, record

FAST = Port(1000, 1)
UNRATED = Port(0, 0)


def rated_port():
    return Port(*random.choice(((1, 1), (1, 1), (1000, 1), (2, 5), (random.randint(1, 1000), random.randint(1, 1000)))))


def mostly_fast():
    return FAST if random.random() < 0.7 else rated_port()


def random_ports(count, rated=rated_port):
    """A third of all random ports have no rate: none of a model, some, or all."""
    share = random.choice((0, 0, 1 / 3, 1 / 3, 1))
    return [UNRATED if random.random() < share else rated() for _ in range(count)]


def scaled(num, den):
    """The same ratio, not always in lowest terms."""
    factor = random.randint(1, 1000 // max(num, den))
    return num * factor, den * factor


def joined_weights(ports, most):
    return [random.randint(1, most) for _ in range(ports)]


def in_kind_4(link, delta):
    """The connection with a delay of so many events as a fraction, not always in lowest terms."""
    most = 10_000 // delta.denominator
    factor = random.choice((1, 1, 1, min(2, most), random.randint(1, most)))
    return replace(link, events=delta.numerator * factor, over=delta.denominator * factor)


def with_fractions(model):
    """A model some of whose connections have a fraction of events, or their whole number as one (change request F-6)."""
    overs = random.choice(((1,), (1, 2), (2, 3, 4), (1, 2, 5, 10), (7, 97, 101), (1, 10_000), range(1, 10_001)))
    for at, link in enumerate(model.links):
        if link.events is not None and random.random() < 0.5:
            over = random.choice(overs)
            moved = random.randint(-over, over) if abs(link.events) < 1000 else 0
            model.links[at] = in_kind_4(link, Fraction(link.events * over + moved, over))
    return model


def random_delays(ports, links, most_weight, most_ticks, most_events):
    """Delays of any sign, most back paths with credit, ratios that agree but for a few."""
    w = joined_weights(ports, most_weight)
    model = Model(random_ports(ports))
    for _ in range(links):
        p, q = random.randrange(ports), random.randrange(ports)
        ticks, events = random.randint(-most_ticks, most_ticks), random.randint(-most_events, most_events // 3)
        model.links.append(Link(p, q, *scaled(w[p], w[q]), ticks, None if random.random() < 0.2 else events))
    if model.links and random.random() < 0.05:
        spoiled = random.choice(model.links)
        spoiled.num = max(1, min(1000, spoiled.num + random.choice((-1, 1))))
    return model


def tight(ports, links, most_weight, fractions=0):
    """Every connection is met exactly at one a/b by chosen starts, so that every cycle adds up to zero there; a few are then moved. Some may have
    a fraction of events."""
    w = joined_weights(ports, most_weight)
    b = random.choice((1, 1, 2, 3))
    a = random.randint(1, 9)
    start = [random.randint(0, 12) for _ in range(ports)]
    model = Model(random_ports(ports, mostly_fast))
    for _ in range(links):
        p, q = random.randrange(ports), random.randrange(ports)
        events = random.randint(-4, 2)
        if (events * w[p] * a) % b:
            events = b * random.choice((-1, 0, 1))
        ticks = start[q] - start[p] - events * w[p] * a // b
        link = Link(p, q, *scaled(w[p], w[q]), ticks, None if random.random() < 0.15 else events)
        if link.events is not None and random.random() < fractions:
            # so many ticks more, and as many less by a part of an event
            more = random.randint(-3, 3)
            link = in_kind_4(replace(link, ticks=ticks - more), events + Fraction(more * b, w[p] * a))
        model.links.append(link)
    if model.links and random.random() < 0.4:
        random.choice(model.links).ticks += random.choice((-1, 1))
    return model


def chain(ports):
    """A chain with a way back for each link, as through a buffer of few events."""
    model = Model(random_ports(ports))
    for p in range(ports - 1):
        model.links.append(Link(p, p + 1, ticks=random.randint(0, 50)))
        model.links.append(Link(p + 1, p, ticks=random.randint(0, 5), events=-random.randint(1, 8)))
        if random.random() < 0.3:
            model.links.append(Link(p, p + 1, ticks=random.randint(0, 50), events=None))
    return model


def long_chain(ports):
    """Ratios of 1000/1 and back, whose products far outgrow a machine integer; the last link closes the loop, almost or exactly."""
    order = list(range(ports))
    random.shuffle(order)
    model, value = Model(random_ports(ports, Port)), 0
    for p, q in zip(order, order[1:]):
        up = random.random() < 0.5
        value += 1 if up else -1
        model.links.append(Link(p, q, 1000, 1) if up else Link(p, q, 1, 1000))
    kind = random.randrange(4)
    if kind == 1 and abs(value) <= 1:
        model.links.append(Link(order[-1], order[0], 1000 if value < 0 else 1, 1000 if value > 0 else 1))
    elif kind == 2:
        model.links.append(Link(order[-1], order[0], 1000, 999))
    elif kind == 3:
        p = random.randrange(ports)
        model.links.append(Link(p, p, *random.choice(((2, 2), (3, 2), (1000, 1000), (999, 1000)))))
    return model


def dense_unrated():
    """Ports without a rate, each with a connection to each other, so that the cycles are too many to list. By chosen starts no cycle has E above
    zero, and none with E zero has D above zero; where a connection is then moved, one has."""
    ports = random.randint(8, 11)
    ticks, events = ([random.randint(0, 9) for _ in range(ports)] for _ in range(2))
    pair = random.sample(range(ports), 2)
    model = Model([UNRATED] * ports)
    for p, q in itertools.permutations(range(ports), 2):
        spare_ticks, spare_events = random.choice((0, 0, 1, 3)), random.choice((0, 0, 1))
        if {p, q} == set(pair):
            spare_ticks = spare_events = 0
        elif spare_ticks:
            spare_events = random.randint(-9, 9)
        model.links.append(Link(p, q, ticks=ticks[q] - ticks[p] - spare_ticks, events=events[q] - events[p] - spare_events))
    moved = next(link for link in model.links if [link.start, link.end] == pair)
    kind = random.randrange(3)
    if kind == 1:
        moved.events += 1
    elif kind == 2:
        moved.ticks, moved.events = moved.ticks + 1, moved.events - random.randint(0, 9)
    return model


def beside(models):
    """The models in one, unjoined, so that components with and without rates and periods come together."""
    both = Model()
    for model in models:
        base = len(both.ports)
        both.ports += model.ports
        both.links += [replace(link, start=link.start + base, end=link.end + base) for link in model.links]
    return both


def small():
    kind = random.randrange(8)
    if kind == 7:
        return with_fractions(random_delays(random.randint(1, 5), random.randint(0, 8), random.choice((1, 1, 6)), 40, 4))
    if kind == 6:
        return tight(random.randint(1, 6), random.randint(0, 12), random.choice((1, 1, 3)), 0.5)
    if kind < 2:
        return tight(random.randint(1, 6), random.randint(0, 12), random.choice((1, 1, 3)))
    if kind == 2:
        return random_delays(random.randint(1, 6), random.randint(0, 10), random.choice((1, 1, 6)), 9, 4)
    if kind == 3:
        return random_delays(random.randint(1, 5), random.randint(0, 8), 30, 10_000_000, 1000)
    if kind == 4:
        return beside(tight(random.randint(1, 2), random.randint(0, 5), 1) for _ in range(random.randint(2, 3)))
    return random.choice((chain, long_chain))(random.randint(1, 6))


def large():
    kind = random.randrange(6)
    ports = random.choice((12, 24, 40, 64))
    if kind == 5:
        return tight(ports, random.randint(ports, 4 * ports), random.choice((1, 1, 4)), 0.3)
    if kind == 0:
        return tight(ports, random.randint(ports, 4 * ports), random.choice((1, 1, 4)))
    if kind == 1:
        return random_delays(ports, random.randint(0, ports), random.choice((1, 10)), 1000, 40)
    if kind == 2:
        model = random_delays(ports, random.randint(ports, 4 * ports), 1, 1000, 90)
        for link in model.links:
            if link.events is not None:
                link.events = -abs(link.events)
        return model
    if kind == 3:
        return chain(ports)
    return long_chain(ports)


def faulty_record(ports):
    """The bytes of a record with a fault behind so many ports, or of a part of one."""
    kind = random.randrange(8)
    port = random.randrange(max(ports, 1))
    if kind == 0:
        return random.choice((b'\x06', b'\x01\x00', b'\x00\x00\x01\x00', b'\x07\x01\x01\x00'))
    if kind == 1:
        return record(random.choice((0, 5, 6, 16, 256, 65535)), bytes(random.randrange(24)))
    if kind == 2:
        return record(random.randint(1, 4), bytes(random.choice((0, 3, 5, 11, 13, 15, 17, 19, 21))))
    if kind == 3:
        return port_bytes(Port(*random.choice(((0, 1), (1, 0), (0, 65535), (1000, 0), (1001, 1), (1, 65535)))))
    link = Link(port, port, **random.choice(({}, {'events': None}, {'over': 3})))
    if kind == 4:
        link.start = ports + random.randrange(3)
    elif kind == 5:
        link.num, link.den = random.choice(((1, 0), (0, 0), (1, 1001)))
    elif kind == 6:
        link.ticks = random.choice((10_000_001, -10_000_001, -2 ** 31, 2 ** 31 - 1))
    elif link.over is None:
        link.events = random.choice((1001, -1001, -2 ** 31))
    else:
        link.events, link.over = random.choice(((0, 0), (1, 0), (1, 10_001), (2001, 2), (-2001, 2), (10_000_001, 10_000), (1, 2 ** 32 - 1)))
    return link_bytes(link)


def spoiled(records, ports):
    """The bytes of records with a faulty one among them, with one of them again elsewhere, or with other bytes; links name so many ports."""
    records = list(records)
    at = random.randrange(len(records) + 1)
    kind = random.randrange(6) if records else 0
    if kind < 3:
        records.insert(at, faulty_record(ports))
    elif kind == 3:
        records.insert(at, random.choice(records))
    given = bytearray(b''.join(records))
    if kind == 4:
        del given[random.randrange(len(given)):]
    elif kind == 5:
        given[random.randrange(len(given))] = random.randrange(256)
    return bytes(given)


def faulty_table(model):
    return spoiled([*map(port_bytes, model.ports), *map(link_bytes, model.links)], len(model.ports))
