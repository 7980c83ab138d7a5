"""Inputs of joins and previews, two tables and added records: some by hand, each with its first fault by change request F-2, and random ones, for
which the caller sets the seed."""
import random

from joiner import ends, moved
from model import Link, Port, buffer, connection, link_bytes, port, port_bytes, record
from random_models import UNRATED, spoiled
from table_text import MOST_EVENTS, MOST_OVER, MOST_TICKS

# a single byte; a kind that is none; a port and a connection of a wrong length
BYTE, OTHER, SHORT_PORT, SHORT_CONNECTION = b'\x06', record(5, b'1234'), record(1, b''), record(2, b'12')
TWO = port() * 2 + connection(0, 1, ticks=3)
ONE = port(1, 5) + buffer(ticks=4)
# a port without a rate (change request F-3)
FREE = port(0, 0) + connection(ticks=1, events=-1)
# a connection whose number of events is a fraction (change request F-6)
HALF = port() + connection(ticks=1, events=-1, over=2)

# For each number, what stands before a faulty record of a table, and the record. From and to go by the table's own ports.
TABLE_FAULTS = [
    (2, b'', BYTE), (3, b'', OTHER), (4, b'', SHORT_PORT), (8, b'', port(0, 1)), (9, b'', connection()),
    (2, port(), b'\x01\x00\x01\x00'), (3, port(), OTHER), (4, port(), SHORT_CONNECTION), (5, ONE, port()), (8, port(), port(1, 1001)),
    (9, port(), connection(0, 1)), (9, port() * 2 + buffer(1, 0), buffer(2, 0)), (10, port(), buffer(den=0)), (10, ONE, connection(num=1001)),
    (11, port(), connection(ticks=10_000_001)), (11, ONE, connection(events=-1001)), (11, ONE, buffer(ticks=-10_000_001)),
    (8, port(0, 0), port(0, 1000)), (8, port(0, 0) * 2, port(1, 0)), (10, port(0, 0), buffer(num=0, den=0)),
    (4, HALF, record(4, bytes(16))), (5, HALF, port()), (9, HALF, connection(1, 0, events=1, over=0)), (10, HALF, connection(den=0, over=0)),
    (11, HALF, connection(over=0)), (11, HALF, connection(over=10_001)), (11, port(), connection(events=2001, over=2)),
]
# The same of the records that are added to three ports.
ADDED_FAULTS = [
    (2, b'', BYTE), (3, b'', OTHER), (4, b'', SHORT_PORT), (5, b'', port()), (9, b'', connection(0, 3)), (10, b'', buffer(0, 2, num=0)),
    (11, b'', connection(2, 0, ticks=-10_000_001)), (5, b'', port(0, 1)), (5, b'', port(0, 0)), (10, connection(2, 0), connection(num=0, den=0)),
    *[(number, connection(2, 0) + buffer(0, 2), faulty) for number, faulty in (
        (2, b'\x12\x00\x02'), (3, OTHER), (4, SHORT_PORT), (4, SHORT_CONNECTION), (5, port()), (9, buffer(3, 0)), (10, connection(den=1001)),
        (11, connection(events=1001)), (4, record(4, bytes(16))), (11, connection(over=0)), (11, connection(events=-2001, over=2)))],
]
PORTS, LINKS = port() * 64, connection() * 256

# Two tables, added records, and the number, place and input that are due.
FIXED = [
    # no records in some inputs, or in none
    (b'', b'', b'', 0, 0, 0), (TWO, b'', b'', 0, 0, 0), (b'', TWO, b'', 0, 0, 0), (TWO, ONE, b'', 0, 0, 0),
    (TWO, b'', connection(1, 0), 0, 0, 0), (b'', TWO, connection(1, 0), 0, 0, 0), (b'', b'', connection(), 9, 0, 3),
    # ports without a rate in the first table, the second and both
    (FREE, ONE, connection(0, 1), 0, 0, 0), (ONE, FREE, connection(0, 1), 0, 0, 0), (FREE, FREE, b'', 0, 0, 0),
    (port(0, 0) * 32, port(0, 0) * 32, buffer(63, 0), 0, 0, 0), (port(0, 0) * 63, port(0, 0) * 2, b'', 6, 8, 2),
    # fractions of events as they stand, in lowest terms or not
    (HALF, ONE, connection(0, 1, events=4, over=2), 0, 0, 0), (TWO, HALF, connection(0, 2, over=7) + buffer(2, 0), 0, 0, 0),
    (HALF, HALF, connection(1, 0, events=2, over=1), 0, 0, 0),
    # each number in each input
    *[(before + faulty + port(), ONE, connection(), number, len(before), 1) for number, before, faulty in TABLE_FAULTS],
    *[(TWO, before + faulty, connection(), number, len(before), 2) for number, before, faulty in TABLE_FAULTS],
    *[(TWO, ONE, before + faulty, number, len(before), 3) for number, before, faulty in ADDED_FAULTS],
    # 6 counts through: 64 ports, one more
    (PORTS + connection(63, 0), b'', connection(0, 63), 0, 0, 0), (port() * 63, port() + connection(), connection(63, 63), 0, 0, 0),
    (port() * 32 + buffer(31, 0), port() * 32 + connection(31, 0), buffer(63, 0), 0, 0, 0), (b'', PORTS + connection(0, 63), connection(63, 0), 0, 0, 0),
    (PORTS, port(), b'', 6, 0, 2), (port(), PORTS, b'', 6, 504, 2), (PORTS + port(), b'', b'', 6, 512, 1), (b'', PORTS + port(), b'', 6, 512, 2),
    (PORTS, port(0, 1), b'', 6, 0, 2), (PORTS + port(1, 0), b'', b'', 6, 512, 1), (PORTS, SHORT_PORT, b'', 4, 0, 2), (PORTS, b'', port(), 5, 0, 3),
    # 7 counts through, and comes before 9
    (port() + LINKS, b'', connection(), 7, 0, 3), (port() + LINKS, port() + connection(), b'', 7, 8, 2),
    (port() + LINKS + buffer(), b'', b'', 7, 5_128, 1), (port() + LINKS, b'', connection(9, 9), 7, 0, 3), (port() + LINKS, connection(), b'', 7, 0, 2),
    (port(), port() + LINKS, buffer(9, 0), 7, 0, 3), (port() + LINKS, port(), SHORT_CONNECTION, 4, 0, 3),
    # 9: a table names its own ports only, the added records those of both
    (TWO, ONE, connection(2, 1) + buffer(0, 2), 0, 0, 0), (TWO, port() + connection(0, 1), b'', 9, 8, 2), (ONE, connection(), b'', 9, 0, 2),
    # two faulty inputs: the earlier one decides
    (TWO + BYTE, BYTE, b'', 2, 36, 1), (TWO + port(), OTHER, port(), 5, 36, 1), (TWO, ONE + SHORT_PORT, OTHER, 4, 24, 2), (ONE + OTHER, ONE, BYTE, 3, 24, 1),
]


def full(link):
    """64 ports and 256 links: with connections of kind 4 the longest table, with buffers the longest answer."""
    table = port() * 32 + link(31, 0) * 85
    return table, table, link(63, 0) * 86


def part():
    return random.choice((1, 2, 4, 1000, random.randint(1, 1000)))


def delay(most):
    return random.choice((0, -1, most, -most, random.randint(-most, most)))


def random_ports(count):
    """A third of them have no rate."""
    return [port_bytes(UNRATED if random.random() < 1 / 3 else Port(part(), part())) for _ in range(count)]


def events():
    """The events of a link and their denominator, by its kind."""
    over = random.choice((1, 2, MOST_OVER, random.randint(1, MOST_OVER)))
    return random.choice(((None, None), (delay(MOST_EVENTS), None), (delay(MOST_EVENTS * over), over)))


def random_links(count, ports):
    """Links between so many ports; none where there is no port."""
    return [link_bytes(Link(random.randrange(ports), random.randrange(ports), part(), part(), delay(MOST_TICKS), *events()))
            for _ in range(count if ports else 0)]


def random_inputs():
    """Two tables and added records, small ones mostly, a third of them with a fault in one input."""
    most_ports, most_links = (32, 80) if random.random() < 0.01 else (6, 10)
    first, second = (random.randint(0, most_ports) for _ in range(2))
    counts = [min(random.randint(0, most_links) for _ in range(3)) for _ in range(3)]
    named = [first, second, first + second]
    records = [random_links(count, ports) for count, ports in zip(counts, named)]
    records[0] = random_ports(first) + records[0]
    records[1] = random_ports(second) + records[1]
    inputs = [b''.join(own) for own in records]
    if random.random() < 1 / 3:
        at = random.randrange(3)
        inputs[at] = spoiled(records[at], named[at])
    return inputs


def random_parts(model, count):
    """So many tables and added records that join to a model, and where its ports are cut for that; a link within a table may be of that table."""
    ports = len(model.ports)
    cuts = [0, *sorted(random.randint(0, ports) for _ in range(count - 1)), ports]
    tables, added = [list(map(port_bytes, model.ports[low:high])) for low, high in zip(cuts, cuts[1:])], []
    for link in map(link_bytes, model.links):
        at = [max(n for n in range(count) if cuts[n] <= end) for end in ends(link)]
        if at[0] == at[1] and random.random() < 0.7:
            tables[at[0]].append(moved(link, -cuts[at[0]]))
        else:
            added.append(link)
    return [b''.join(table) for table in tables], cuts, added
