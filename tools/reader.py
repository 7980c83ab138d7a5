"""The first fault of an input, apart from the proved code: its number, 2 to 12 of document 01, and its place (change request F-1)."""
import struct
from typing import NamedTuple

from table_text import MOST_EVENTS, MOST_LINKS, MOST_OVER, MOST_PART, MOST_PORTS, MOST_TICKS, RECORDS


class Before(NamedTuple):
    """What stands before a record: ports and links, for the limits, how many ports from and to may name, and whether a port may come."""
    ports: int = 0
    links: int = 0
    named: int = 0
    port_may_come: bool = True


def are_parts(values):
    return all(1 <= value <= MOST_PART for value in values)


def is_rate(values):
    """0/0 means that a port has no rate (change request F-3)."""
    return values == (0, 0) or are_parts(values)


def are_delays(ticks, events=0, over=1):
    """Ticks, and events divided by `over`, are in their ranges (change request F-6)."""
    return abs(ticks) <= MOST_TICKS and 1 <= over <= MOST_OVER and abs(events) <= MOST_EVENTS * over


def record_fault(rest, before):
    """(number, length) of the record at the front of `rest`; number 0 where it has no fault."""
    length = int.from_bytes(rest[:2], 'little')
    if len(rest) < 2 or not 2 <= length <= len(rest) - 2:
        return 2, length
    kind = int.from_bytes(rest[2:4], 'little')
    if kind not in (1, 2, 3, 4):
        return 3, length
    if (kind, length) not in RECORDS:
        return 4, length
    values = struct.unpack_from(RECORDS[kind, length][0], rest, 4)
    if kind == 1:
        tests = [(5, not before.port_may_come), (6, before.ports >= MOST_PORTS), (8, not is_rate(values))]
    else:
        tests = [(7, before.links >= MOST_LINKS), (9, max(values[:2]) >= before.named), (10, not are_parts(values[2:4])),
                 (11, not are_delays(*values[4:]))]
    return next((number for number, faulty in tests if faulty), 0), length


def read_run(given, before):
    """(number, place, ports, links) of an input: its first fault, 2 to 11, or (0, 0), and the records in front of it as bytes."""
    at, ports, links = 0, [], []
    while at < len(given):
        number, length = record_fault(given[at:], before)
        if number:
            return number, at, ports, links
        record = given[at:at + 2 + length]
        if record[2] == 1:
            ports.append(record)
            before = before._replace(ports=before.ports + 1, named=before.named + 1)
        else:
            links.append(record)
            before = before._replace(links=before.links + 1, port_may_come=False)
        at += len(record)
    return 0, 0, ports, links


def first_fault(table):
    """(number, place) of a table's first fault; (0, 0) where it has none."""
    number, place, ports, _ = read_run(table, Before())
    return (number, place) if number or ports else (12, 0)
