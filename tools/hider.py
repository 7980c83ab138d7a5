"""Hiding a port of a table by exact rationals, apart from the proved code (change request F-6)."""
import functools
from fractions import Fraction

from joiner import ends, with_ends
from model import Link, Port, link_bytes, port_bytes
from reader import Before, are_delays, are_parts, first_fault, read_run
from separate import model_of
from solver import analyse
from table_text import MOST_LINKS


@functools.lru_cache(maxsize=None)
def own_answer(table):
    """(number, place, ports) of a table by itself: its refusal, 2 to 15 or 17, or 0 and what the solver says of its ports."""
    number, place = first_fault(table)
    if number:
        return number, place, ()
    number, ports, _ = analyse(model_of(table))
    return number, 0, ports


def sides(model, port):
    """The connections and buffers into a port, and those out of it."""
    return [link for link in model.links if link.end == port], [link for link in model.links if link.start == port]


def can_hide(model, port):
    """Whether there is such a port, it has a sender and a receiver, touches no buffer, and does not join itself."""
    into, out = sides(model, port)
    barred = any(link.events is None or link.start == link.end for link in into + out)
    return port < len(model.ports) and bool(into) and bool(out) and not barred


def fraction_of(parts):
    return Fraction(parts.num, parts.den)


def lowered_rate(model, port):
    """(sender, rate) where the rate of the lowest-numbered sender is lowered: to the hidden rate divided by the ratio of its first connection,
    if that is smaller. Of a port without a rate every rate is smaller, and a hidden port without one lowers nothing."""
    into, _ = sides(model, port)
    first = min(into, key=lambda link: link.start)
    hidden, own = model.ports[port], model.ports[first.start]
    if not hidden.is_rated:
        return None
    rate = fraction_of(hidden) / fraction_of(first)
    return (first.start, rate) if not own.is_rated or rate < fraction_of(own) else None


def made_links(model, port):
    """(start, end, ratio, ticks, delta) of the connection for each pair of one into the port and one out of it, by first then second."""
    into, out = sides(model, port)
    return [(first.start, second.end, fraction_of(first) * fraction_of(second), first.ticks + second.ticks,
             first.delta + second.delta / fraction_of(first))
            for first in into for second in out]


def in_range(ratio, ticks, delta):
    return are_parts(ratio.as_integer_ratio()) and are_delays(ticks, *delta.as_integer_ratio())


def hidden_records(table, port, lowered, made):
    """The records of the table without the port: kept ones as they stand but for the ports that they name, then the new ones."""
    def down(number):
        return number - (number > port)

    _, _, ports, links = read_run(table, Before())
    if lowered:
        sender, rate = lowered
        ports[sender] = port_bytes(Port(*rate.as_integer_ratio()))
    kept = [with_ends(link, *map(down, ends(link))) for link in links if port not in ends(link)]
    new = [link_bytes(Link(down(start), down(end), *ratio.as_integer_ratio(), ticks, *delta.as_integer_ratio()))
           for start, end, ratio, ticks, delta in made]
    return ports[:port] + ports[port + 1:], kept + new


def hide(table, port, room):
    """(number, place, table): the table is empty but at number 0."""
    number, place, _ = own_answer(table)
    if number:
        return number, place, b''
    model = model_of(table)
    if not can_hide(model, port):
        return 18, 0, b''
    lowered, made = lowered_rate(model, port), made_links(model, port)
    if lowered and not are_parts(lowered[1].as_integer_ratio()) or not all(in_range(*values) for _, _, *values in made):
        return 19, 0, b''
    ports, links = hidden_records(table, port, lowered, made)
    if len(links) > MOST_LINKS:
        return 7, 0, b''
    hidden = b''.join(ports + links)
    return (0, 0, hidden) if len(hidden) <= room else (16, 0, b'')
