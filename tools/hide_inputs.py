"""Tables of which a port is hidden: some by hand, each with what is due by change request F-6, and random ones, for which the caller sets the
seed."""
import random

from join_inputs import TABLE_FAULTS
from model import Model, buffer, connection, port, table_bytes
from preview_cases import C, FREE, I, K
from random_models import chain, random_delays, small, tight, with_fractions

PLAIN = {}


def passing(first, second, *rates):
    """Ports of these rates, three of rate 1 where none are given; a connection from 0 to 1, and one from 1 to 2."""
    return b''.join(port(*rate) for rate in rates or [(1, 1)] * 3) + connection(0, 1, **first) + connection(1, 2, **second)


def passed(*rates, num=1, den=1, ticks=0, events=0, over=1):
    """What is due of it with 1 hidden: the other ports, of rate 1 where none are given, and the new connection."""
    return b''.join(port(*rate) for rate in rates or [(1, 1)] * 2) + connection(0, 1, num, den, ticks, events, over)


def among(a, b, c):
    """Links among three ports, of every kind and none in lowest terms; the last two have whole delays."""
    return (connection(a, b, 2, 2, 5, -1), buffer(b, c, 3, 3, -7), connection(c, a, 4, 4, -9, -20, 6), connection(b, a, 5, 5, -8, -4, 2),
            connection(a, c, 6, 6, -7, -3, 1))


def between(hidden):
    """Four ports, one of which is hidden, and links among the others in front of its own, between and behind them; and what is due."""
    rates = [(2, 4), (3, 9), (4, 16), (5, 25)]
    rates[hidden] = (1, 1)
    others = [number for number in range(4) if number != hidden]
    a, b, c, d, e = among(*others)
    links = a, connection(others[2], hidden, ticks=1), b, c, connection(hidden, others[0], ticks=-100), d, e
    due = [port(*rates[number]) for number in others] + [*among(0, 1, 2), connection(2, 0, ticks=-99, over=1)]
    return b''.join(port(*rate) for rate in rates) + b''.join(links), hidden, b''.join(due)


# Several connections into port 2 and out of it.
CROSSED = (port() * 5 + connection(3, 2, 3, 1, 10, 1) + connection(2, 4, 1, 7, 200, -3) + connection(1, 2, 1, 2, 20, 2)
           + connection(2, 0, 5, 1, 100, 4) + connection(3, 2, 3, 1, 30, -1))

# The only pair has more ticks than a connection may have.
FAR = passing(dict(ticks=10_000_000), dict(ticks=1))

# A table, the port, and the table that is due.
HIDDEN = [
    # the hidden rate is carried to the sender, divided by the ratio
    (passing(dict(num=2, ticks=3, events=1), dict(den=2, ticks=-5, events=-1), (1, 1), (1, 3), (1, 1)), 1,
     passed((1, 6), (1, 1), ticks=-2, events=1, over=2)),
    (passing(dict(den=2), PLAIN, (1, 1), (1, 3), (1, 1)), 1, passed((2, 3), (1, 1), den=2)),
    (passing(dict(den=2), PLAIN, (1, 2), (1, 3), (1, 1)), 1, passed((1, 2), (1, 1), den=2)),
    (passing(dict(num=6, den=4), PLAIN, (1, 1), (6, 15), (1, 1)), 1, passed((4, 15), (1, 1), num=3, den=2)),
    # strictly smaller: 2/4 stays, also under 1/2
    (passing(dict(num=2), PLAIN, (2, 4), (1, 1), (1, 1)), 1, passed((2, 4), (1, 1), num=2)),
    (passing(PLAIN, PLAIN, (2, 4), (3, 6), (1, 1)), 1, passed((2, 4), (1, 1))),
    (passing(PLAIN, PLAIN, (2, 4), (499, 999), (1, 1)), 1, passed((499, 999), (1, 1))),
    (passing(PLAIN, PLAIN, (2, 4), (500, 999), (1, 1)), 1, passed((2, 4), (1, 1))),
    (passing(PLAIN, PLAIN, (2, 4), (2, 6), (1, 1)), 1, passed((1, 3), (1, 1))),
    # without a rate: the hidden port lowers nothing, the sender takes the limit
    (passing(PLAIN, PLAIN, (2, 4), (0, 0), (1, 1)), 1, passed((2, 4), (1, 1))),
    (passing(PLAIN, PLAIN, (0, 0), (2, 6), (1, 1)), 1, passed((1, 3), (1, 1))),
    (passing(PLAIN, PLAIN, (0, 0), (1000, 1), (0, 0)), 1, passed((1000, 1), (0, 0))),
    (passing(PLAIN, PLAIN, (0, 0), (0, 0), (7, 7)), 1, passed((0, 0), (7, 7))),
    # the receiver's rate is as it was
    (passing(PLAIN, PLAIN, (1, 4), (1, 3), (6, 8)), 1, passed((1, 4), (6, 8))),
    # the lowest-numbered sender, not that of the first connection; of its connections any
    (port() * 3 + port(1, 4) + port() * 2 + connection(5, 3, 3, 1) + connection(2, 3, 2, 1) + connection(3, 0) + connection(2, 3, 4, 2, ticks=9), 3,
     port() * 2 + port(1, 8) + port() * 2 + connection(4, 0, 3, 1, over=1) + connection(2, 0, 2, 1, over=1) + connection(2, 0, 2, 1, 9, over=1)),
    (port(1, 4) + port() * 2 + connection(2, 0, 3, 1) + connection(1, 0, 2, 1) + connection(0, 2, 1, 3, 5, -9), 0,
     port(1, 8) + port() + connection(1, 1, 1, 1, 5, -3, 1) + connection(0, 1, 2, 3, 5, -9, 2)),
    # the second delay is divided by the first ratio
    (passing(dict(num=2, events=1, over=5), dict(den=3, events=1, over=7)), 1, passed((1, 2), (1, 1), num=2, den=3, events=19, over=70)),
    (passing(dict(den=3, events=-1, over=6), dict(num=2, events=1)), 1, passed(num=2, den=3, events=17, over=6)),
    (passing(dict(num=3, den=2, events=4, over=2), dict(events=-3)), 1, passed((2, 3), (1, 1), num=3, den=2)),
    (passing(dict(events=-1), dict(events=1)), 1, passed()),
    (passing(dict(ticks=-3, events=1), dict(ticks=3, events=-4)), 1, passed(events=-3)),
    (passing(dict(ticks=-3, events=-2, over=6), dict(ticks=-4, events=-4, over=12)), 1, passed(ticks=-7, events=-2, over=3)),
    # ports that the new connections name move down too; kept records keep their bytes
    *map(between, range(4)),
    (CROSSED, 2,
     port() * 4 + connection(2, 3, 3, 7, 210, 0, 1) + connection(2, 0, 15, 1, 110, 7, 3) + connection(1, 3, 1, 14, 220, -4, 1)
     + connection(1, 0, 5, 2, 120, 10, 1) + connection(2, 3, 3, 7, 230, -2, 1) + connection(2, 0, 15, 1, 130, 1, 3)),
    # into a port and back: the new connection joins it to itself
    (port() * 2 + connection(0, 1, 2, 1, 7, -1) + connection(1, 0, 1, 2, -8, -3), 1, port(1, 2) + connection(0, 0, 1, 1, -1, -5, 2)),
    # lowest terms first, then the ranges
    (passing(dict(num=77, den=13), dict(num=13, den=77), (0, 0), (0, 0), (1, 1)), 1, passed((0, 0), (1, 1))),
    (passing(dict(num=1000, den=999), PLAIN, (2, 1), (1000, 999), (1, 1)), 1, passed((1, 1), (1, 1), num=1000, den=999)),
    # each value at the end of its range
    (passing(dict(num=40), dict(num=25)), 1, passed((1, 40), (1, 1), num=1000)),
    (passing(dict(num=1000, den=3), dict(num=3, den=7)), 1, passed((3, 1000), (1, 1), num=1000, den=7)),
    (passing(dict(den=40), dict(den=25)), 1, passed(den=1000)),
    *[(passing(dict(ticks=sign * 5_000_000), dict(ticks=sign * 5_000_000)), 1, passed(ticks=sign * 10_000_000)) for sign in (1, -1)],
    (passing(dict(ticks=10_000_000), dict(ticks=-10_000_000)), 1, passed()),
    (passing(dict(events=1, over=16), dict(events=-1, over=625)), 1, passed(events=609, over=10_000)),
    *[(passing(dict(events=sign * 500), dict(events=sign * 500)), 1, passed(events=sign * 1000)) for sign in (1, -1)],
    *[(passing(dict(events=sign * 1000), dict(events=-sign, over=3)), 1, passed(events=sign * 2999, over=3)) for sign in (1, -1)],
    *[(passing(dict(den=3, events=sign), dict(events=sign * 333)), 1, passed(den=3, events=sign * 1000)) for sign in (1, -1)],
    (passing(dict(num=2), PLAIN, (1, 1), (1, 500), (1, 1)), 1, passed((1, 1000), (1, 1), num=2)),
    (passing(dict(den=2), PLAIN, (0, 0), (500, 1), (1, 1)), 1, passed((1000, 1), (1, 1), den=2)),
    # a rate that is not lowered may leave the range
    (passing(dict(den=7), PLAIN, (1000, 1), (143, 1), (1, 1)), 1, passed((1000, 1), (1, 1), den=7)),
    (passing(dict(num=1000, den=999), PLAIN, (1, 2), (999, 1000), (1, 1)), 1, passed((1, 2), (1, 1), num=1000, den=999)),
]

# A table, the port, and the number that is due at place 0.
REFUSED = [
    # 18: no port
    *[(passing(PLAIN, PLAIN), number, 18) for number in (3, 4, 63, 64, 255, 256, 65_535, 65_536, 65_537, 2 ** 32, 2 ** 32 + 1,
                                                        2 ** 63, 2 ** 63 + 1, 2 ** 64 - 2, 2 ** 64 - 1)],
    (port() * 64 + connection(0, 63) + connection(63, 0), 64, 18), (port() * 64 + connection(0, 63) + connection(63, 0), 2 ** 32 + 63, 18),
    # a buffer into it or out of it, besides what it needs, or in place of that
    (passing(PLAIN, PLAIN) + buffer(0, 1), 1, 18), (passing(PLAIN, PLAIN) + buffer(1, 2), 1, 18), (passing(PLAIN, PLAIN) + buffer(1, 1), 1, 18),
    (port() * 3 + buffer(2, 1) + connection(0, 1) + connection(1, 2), 1, 18), (port() * 3 + buffer(0, 1) + connection(1, 2), 1, 18),
    (port() * 3 + connection(0, 1) + buffer(1, 2), 1, 18),
    # itself, by kind 2 or 4, at a ratio 1/1 or 2/2
    (passing(PLAIN, PLAIN) + connection(1, 1, events=-1), 1, 18), (passing(PLAIN, PLAIN) + connection(1, 1, 2, 2, events=-1, over=2), 1, 18),
    (port() * 3 + connection(1, 1, ticks=-1) + connection(0, 1) + connection(1, 2), 1, 18), (port() + connection(0, 0, ticks=-1), 0, 18),
    # no sender, no receiver, neither
    (passing(PLAIN, PLAIN), 0, 18), (passing(PLAIN, PLAIN), 2, 18), (port(), 0, 18), (passing(PLAIN, PLAIN) + connection(0, 2), 0, 18),
    (port() * 3 + connection(0, 1) + connection(2, 1), 1, 18), (port() * 3 + connection(1, 0) + connection(1, 2), 1, 18),
    # 18 before 19
    (FAR + buffer(1, 1), 1, 18), (FAR, 3, 18),
    # 19: each value just behind the end of its range
    (passing(dict(num=77), dict(num=13)), 1, 19), (passing(dict(den=77), dict(den=13)), 1, 19),
    (passing(dict(num=1000, den=3), dict(num=2, den=7)), 1, 19),
    *[(passing(dict(ticks=sign * 5_000_000), dict(ticks=sign * 5_000_001)), 1, 19) for sign in (1, -1)],
    *[(passing(dict(ticks=sign * 10_000_000), dict(ticks=sign * 10_000_000)), 1, 19) for sign in (1, -1)],
    *[(passing(dict(events=sign * 500), dict(events=sign * 501)), 1, 19) for sign in (1, -1)],
    *[(passing(dict(events=sign * 1000), dict(events=sign, over=9_999)), 1, 19) for sign in (1, -1)],
    *[(passing(dict(den=3, events=sign), dict(events=sign * 1000, over=3)), 1, 19) for sign in (1, -1)],
    (passing(dict(num=7), PLAIN, (1, 1), (1, 143), (1, 1)), 1, 19), (passing(dict(num=1000), PLAIN, (1, 1), (1, 1000), (1, 1)), 1, 19),
    (passing(dict(den=7), PLAIN, (0, 0), (143, 1), (1, 1)), 1, 19),
    (passing(dict(num=1000, den=999), PLAIN, (1, 1), (999, 1000), (1, 1)), 1, 19),
    # no denominator of events leaves its range: the sender's weight is a multiple of it, and 14 comes first
    (passing(dict(events=1, over=16), dict(events=1, over=627)), 1, 14), (passing(dict(num=3, events=1, over=9_999), dict(events=1, over=2)), 1, 14),
]


def bundle(into, out, kept, ports=3, ticks=0):
    """So many connections from 0 to 1, from 1 to 2, and from 0 to 2, so that no two pairs have the same ticks. The last one from 0 to 1 has so many
    ticks more."""
    links = [connection(0, 1, ticks=1_000 * n + (ticks if n == into - 1 else 0)) for n in range(into)]
    links += [connection(1, 2, ticks=n) for n in range(out)] + [connection(0, 2, ticks=-n) for n in range(kept)]
    return port() * ports + b''.join(links)


def bundled(into, out, kept, ports=3):
    """What is due of it with 1 hidden."""
    links = [connection(0, 1, ticks=-n) for n in range(kept)]
    links += [connection(0, 1, ticks=1_000 * m + n, over=1) for m in range(into) for n in range(out)]
    return port() * (ports - 1) + b''.join(links)


def farther(into, out):
    """Ticks with which the last pair of a bundle, and no other, is just above the range."""
    return 10_000_001 - 1_000 * (into - 1) - (out - 1)


# Connections into port 1, out of it, and apart from it: 256 links result, or fewer; and more.
FITTING = [(16, 16, 0, 64), (16, 16, 0, 3), (15, 17, 1, 3), (17, 15, 1, 3), (2, 2, 252, 3), (1, 255, 0, 3), (255, 1, 0, 3), (1, 1, 254, 64)]
TOO_MANY = [(16, 16, 1), (15, 17, 2), (2, 3, 251), (3, 2, 251), (20, 20, 0), (128, 128, 0)]
HIDDEN += [(bundle(*counts), 1, bundled(*counts)) for counts in FITTING]
REFUSED += [(bundle(*counts), 1, 7) for counts in TOO_MANY]
# 19 comes before 7, and is of every pair
REFUSED += [(bundle(*counts, ticks=farther(*counts[:2])), 1, 19) for counts in TOO_MANY]
REFUSED += [(bundle(*counts, ticks=farther(*counts[:2]) - 1), 1, 7) for counts in TOO_MANY]

# A table, and the number and place of its own refusal.
OWN = [
    *[(before + faulty, number, len(before)) for number, before, faulty in TABLE_FAULTS],
    *[(passing(PLAIN, PLAIN) + faulty, number, 64) for number, faulty in (
        (2, b'\x06'), (3, b'\x04\x00\x05\x00ab'), (4, b'\x02\x00\x01\x00'), (5, port()), (9, connection(3, 0)), (10, buffer(num=0)),
        (11, connection(events=1001, over=1)))],
    (port() * 65, 6, 512), (bundle(128, 128, 1), 7, 24 + 20 * 256), (port() * 3 + port(1, 0) + connection(0, 1) + connection(1, 2), 8, 24),
    (b'', 12, 0), (I, 13, 0), (K, 14, 0), (C, 15, 0), (FREE, 17, 0),
    # before 19, and before 7
    (FAR + connection(0, 1, 2, 1), 13, 0), (FAR + connection(1, 0, num=2) + connection(2, 2, events=1, over=9_973), 13, 0),
    (FAR + connection(0, 0, events=-1, over=9_973) + connection(2, 2, events=-1, over=9_967), 14, 0), (FAR + connection(0, 0, ticks=1), 15, 0),
    (passing(dict(ticks=10_000_000), dict(ticks=1), (0, 0), (0, 0), (0, 0)), 17, 0),
    (bundle(20, 20, 0) + connection(2, 0, 2, 1), 13, 0), (bundle(20, 20, 0) + connection(2, 0), 15, 0),
]


def plainer(model):
    """The model without links from a port to itself and most of its buffers, with which a port cannot be hidden."""
    return Model(model.ports, [link for link in model.links if link.start != link.end and (link.events is not None or random.random() < 0.15)])


def random_table():
    """A random table; of most of them some ports can be hidden."""
    kind = random.randrange(10)
    if kind == 0:
        return table_bytes(small())
    if kind == 1:
        model = random_delays(random.randint(2, 6), random.randint(2, 10), random.choice((1, 30)), 9_000_000, 800)
        return table_bytes(plainer(with_fractions(model)))
    if kind == 2:
        return table_bytes(plainer(chain(random.randint(3, 6))))
    return table_bytes(plainer(tight(random.randint(2, 6), random.randint(2, 12), random.choice((1, 3, 12)), random.choice((0, 0.5)))))
