#!/usr/bin/env python3
"""Tables as text, one line for each port, connection or buffer, and back.

    table_text.py encode [TEXT] > TABLE
    table_text.py encode --added [TEXT] > RECORDS    the records that a join adds
    table_text.py decode [TABLE] > TEXT
    table_text.py decode --at BYTE [TABLE]           the line, with its number, of the record that begins at that byte

    port 1/1                                         maximum rate: events per tick; 0/0 where it has none
    connection 0 1 ratio 1/1 ticks 3 events 0        from, to, ratio, constant delay, rate-dependent delay
    connection 0 1 ratio 1/1 ticks 3 events 1/2      the same with a fraction of events, also where it is whole, as 4/2
    buffer 1 0 ratio 1/1 ticks 4                     from, to, ratio, constant delay

Without a file, standard input is read. Ports are numbered from 0 in order; connections and buffers share one numbering from 0.
Added records are connections and buffers only, or none; from and to are numbered as in the joined table, so they are held to 0 to 63.
A text is UTF-8. A line ends at \\n or \\r\\n; spaces and tabs part its words; blank lines and what follows # are left out.
On a fault one line on standard error names the line, or the byte where the faulty record begins, and the reason; nothing else is
written, and the status is 2."""
import re
import struct
import sys

from model import Link, Model, Port, table_bytes

MOST_PORTS, MOST_LINKS, MOST_PART = 64, 256, 1_000
MOST_TICKS, MOST_EVENTS, MOST_OVER = 10_000_000, 1_000, 10_000
USAGE = 'usage: table_text.py encode [--added] [TEXT] > TABLE, or table_text.py decode [--at BYTE] [TABLE] > TEXT'
# More than any number of a table needs, and few enough for Python to read.
MOST_DIGITS = 10

NUMBER = r'([+-]?[0-9]+)'
LINK = rf'{NUMBER} {NUMBER} ratio {NUMBER}/{NUMBER} ticks {NUMBER}'
SHAPES = {
    'port': (rf'port {NUMBER}/{NUMBER}', 'port RATE, as: port 1/1'),
    'connection': (rf'connection {LINK} events {NUMBER}(?:/{NUMBER})?',
                   'connection FROM TO ratio N/D ticks T events E or N/D, as: connection 0 1 ratio 1/1 ticks 3 events 0'),
    'buffer': (rf'buffer {LINK}', 'buffer FROM TO ratio N/D ticks T, as: buffer 1 0 ratio 1/1 ticks 4'),
}
# For each kind and length of a record: its numbers, and its line.
RECORDS = {
    (1, 6): ('<HH', 'port {}/{}\n'),
    (2, 18): ('<HHHHii', 'connection {} {} ratio {}/{} ticks {} events {}\n'),
    (3, 14): ('<HHHHi', 'buffer {} {} ratio {}/{} ticks {}\n'),
    (4, 22): ('<HHHHiiI', 'connection {} {} ratio {}/{} ticks {} events {}/{}\n'),
}


class Fault(Exception):
    """Why there is no table or no text."""


def number(word):
    digits = len(word.lstrip('+-'))
    if digits > MOST_DIGITS:
        raise Fault(f'a number of {digits} digits; at most {MOST_DIGITS} are read')
    return int(word)


def within(what, value, least, most):
    if not least <= value <= most:
        raise Fault(f'{what} {value} is not from {least} to {most}')


def add_line(model, line, added):
    """Adds what one line says, of a table or of added records. The reasons are those of the numbers 5 to 11 of document 01, in their order."""
    kind = line.split(' ')[0]
    if kind not in SHAPES:
        raise Fault(f'{kind[:20]!a} is not port, connection or buffer')
    pattern, shape = SHAPES[kind]
    match = re.fullmatch(pattern, line)
    if not match:
        raise Fault(f'this is not {shape}')
    values = [number(word) for word in match.groups() if word is not None]
    if kind == 'port':
        if added:
            raise Fault('a port among added records')
        if model.links:
            raise Fault('a port follows a connection or buffer')
        if len(model.ports) == MOST_PORTS:
            raise Fault(f'more than {MOST_PORTS} ports')
        for part in values:
            if values != [0, 0] and not 1 <= part <= MOST_PART:
                raise Fault(f'rate part {part} is not from 1 to {MOST_PART}, nor is the rate 0/0')
        model.ports.append(Port(*values))
        return
    if len(model.links) == MOST_LINKS:
        raise Fault(f'more than {MOST_LINKS} connections and buffers')
    for port in values[:2]:
        if not 0 <= port < (MOST_PORTS if added else len(model.ports)):
            raise Fault(f'there is no port {port}')
    for part in values[2:4]:
        within('ratio part', part, 1, MOST_PART)
    within('ticks', values[4], -MOST_TICKS, MOST_TICKS)
    if len(values) == 7:
        within('denominator of events', values[6], 1, MOST_OVER)
        if abs(values[5]) > MOST_EVENTS * values[6]:
            raise Fault(f'events {values[5]}/{values[6]} is not from -{MOST_EVENTS} to {MOST_EVENTS}')
    elif kind == 'connection':
        within('events', values[5], -MOST_EVENTS, MOST_EVENTS)
    model.links.append(Link(*values) if kind == 'connection' else Link(*values, events=None))


def words_of(line):
    """The words of a line's bytes, with one space between them."""
    try:
        said = line.decode().split('#')[0]
    except UnicodeDecodeError as error:
        raise Fault(f'byte {line[error.start]:#04x} is not UTF-8') from None
    return re.sub('[ \t]+', ' ', said).strip(' ')


def read_text(text, added=False):
    """The model of a text's bytes, without ports where it is one of added records; a fault carries the line's number."""
    model = Model()
    lines = text.replace(b'\r\n', b'\n').split(b'\n')
    for at, line in enumerate(lines, 1):
        try:
            words = words_of(line)
            if words:
                add_line(model, words, added)
        except Fault as fault:
            raise Fault(f'line {at}: {fault}') from None
    if not model.ports and not added:
        raise Fault(f'line {len(lines)}: the text ends without a port')
    return model


def table_lines(table):
    """Where each record of a table begins, and its line, whatever its numbers; a fault carries the byte where its record begins."""
    at = 0
    while at < len(table):
        length, kind = struct.unpack_from('<HH', table, at) if at + 4 <= len(table) else (0, 0)
        if (kind, length) not in RECORDS or at + 2 + length > len(table):
            raise Fault(f'byte {at}: no port, connection or buffer begins here')
        numbers, line = RECORDS[kind, length]
        yield at, line.format(*struct.unpack_from(numbers, table, at + 4))
        at += 2 + length


def text_of(table):
    return ''.join(line for _, line in table_lines(table)).encode()


def line_at(table, place):
    """The line of the record that begins at a place, with its number among the lines."""
    for number, (at, line) in enumerate(table_lines(table), 1):
        if at == place:
            return f'line {number}: {line}'
        if at > place:
            break
    raise Fault(f'byte {place}: no record begins here')


def read(source):
    try:
        with open(source, 'rb') as file:
            return file.read()
    except OSError as error:
        raise Fault(f'not read: {error.strerror}') from None
    except KeyboardInterrupt:
        raise Fault('not read: interrupted') from None


def write(data):
    try:
        with open(1, 'wb') as file:
            file.write(data)
    except OSError as error:
        raise Fault(f'not written: {error.strerror}') from None


def converted(command, option, data):
    """What is written of the data; the option is 'added', the byte behind --at, or None."""
    if command == 'encode':
        return table_bytes(read_text(data, option == 'added'))
    return text_of(data) if option is None else line_at(data, option).encode()


def arguments(words):
    """The command, its option, and the file, or standard input."""
    command, *rest = words or ['']
    option = None
    if command == 'encode' and rest[:1] == ['--added']:
        option, rest = 'added', rest[1:]
    elif command == 'decode' and rest[:1] == ['--at']:
        if len(rest) < 2 or not re.fullmatch('[0-9]{1,10}', rest[1]):
            raise Fault(USAGE)
        option, rest = int(rest[1]), rest[2:]
    if command not in ('encode', 'decode') or len(rest) > 1:
        raise Fault(USAGE)
    return command, option, rest[0] if rest else 0


def main(words):
    try:
        command, option, source = arguments(words)
        write(converted(command, option, read(source)))
    except Fault as fault:
        print(fault, file=sys.stderr)
        return 2
    return 0


if __name__ == '__main__':
    sys.exit(main(sys.argv[1:]))
