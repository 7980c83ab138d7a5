"""The records of an answer as bytes (document 01): those of number 0 made of what solver.py gives, and those of 13 and 15 read back as lines."""
import struct

from model import record
from shown import FLOOR_ZERO, Wrong

# The port of a floor that is zero.
NO_PORT = 65_535


def port_answer(component, weight, period, start):
    a, b = (period / weight).as_integer_ratio()
    return record(16, struct.pack('<HHIIQ', component, weight, a, b, int(start * b)))


def buffer_answer(number, size):
    return record(17, struct.pack('<HQ', number, size))


def answer_bytes(ports, buffers):
    """The records of a consistent table; none where there are no ports and no buffers."""
    return b''.join(port_answer(*port) for port in ports) + b''.join(buffer_answer(*buffer) for buffer in buffers)


def records_of(written):
    """(kind, numbers of two bytes) of each record; what is shown has no others."""
    at = 0
    while at < len(written):
        length, kind = struct.unpack_from('<HH', written, at) if at + 4 <= len(written) else (0, 0)
        if length < 2 or length % 2 or at + 2 + length > len(written):
            raise Wrong(f'no record of an answer begins at byte {at}')
        yield kind, struct.unpack_from(f'<{length // 2 - 1}H', written, at + 4)
        at += 2 + length


def line_of(name, words):
    return ' '.join([name, *map(str, words)])


def loop_line(written):
    """The line of the loop that is written at 13."""
    match list(records_of(written)):
        case [(18, numbers)] if len(numbers) % 2 == 0 and set(numbers[1::2]) <= {0, 1}:
            return line_of('loop', ('+-'[direction] + str(link) for link, direction in zip(numbers[::2], numbers[1::2])))
    raise Wrong(f'{written.hex()} is no loop')


def blocked_lines(written):
    """The lines of the floor and the block that are written at 15."""
    match list(records_of(written)):
        case [(20, [port]), (19, block)]:
            floor = FLOOR_ZERO if port == NO_PORT else line_of('floor port', [port])
        case [(19, cycle), (19, block)]:
            floor = line_of('floor cycle', cycle)
        case _:
            raise Wrong(f'{written.hex()} is no floor and block')
    return floor, line_of('block', block)
