"""Models as Python values, and their tables as bytes (document 01)."""
import struct
from dataclasses import dataclass, field
from fractions import Fraction
from typing import List, Optional


@dataclass
class Port:
    """A port, by the parts of its maximum rate; 0/0 means that it has none (change request F-3)."""
    num: int = 1
    den: int = 1

    @property
    def is_rated(self):
        return self.num > 0


@dataclass
class Link:
    """A connection, or a buffer, whose events are None. A connection of kind 4 has events divided by `over` (change request F-6)."""
    start: int
    end: int
    num: int = 1
    den: int = 1
    ticks: int = 0
    events: Optional[int] = 0
    over: Optional[int] = None

    @property
    def delta(self):
        """The rate-dependent delay of a connection."""
        return Fraction(self.events, self.over or 1)


@dataclass
class Model:
    ports: List[Port] = field(default_factory=list)
    links: List[Link] = field(default_factory=list)


def record(kind, body):
    return struct.pack('<HH', len(body) + 2, kind) + body


def port_bytes(port):
    return record(1, struct.pack('<HH', port.num, port.den))


def link_bytes(link):
    head = struct.pack('<HHHHi', link.start, link.end, link.num, link.den, link.ticks)
    if link.events is None:
        return record(3, head)
    if link.over is None:
        return record(2, head + struct.pack('<i', link.events))
    return record(4, head + struct.pack('<iI', link.events, link.over))


def table_bytes(model):
    return b''.join(map(port_bytes, model.ports)) + b''.join(map(link_bytes, model.links))


def port(num=1, den=1):
    """A port's record."""
    return port_bytes(Port(num, den))


def connection(start=0, end=0, num=1, den=1, ticks=0, events=0, over=None):
    """A connection's record."""
    return link_bytes(Link(start, end, num, den, ticks, events, over))


def buffer(start=0, end=0, num=1, den=1, ticks=0):
    """A buffer's record."""
    return link_bytes(Link(start, end, num, den, ticks, None))
