#!/usr/bin/env python3
"""Runs table_text.py on good and faulty texts and tables, and compares what it writes, what it says and its status with what stands here."""
import os
import subprocess
import sys

from model import Link, Model, Port, link_bytes, port_bytes, record, table_bytes

SCRIPT = os.path.join(os.path.dirname(os.path.abspath(__file__)), 'table_text.py')

PORT = b'port 1/1\n'
CONNECTION = b'connection 0 0 ratio 1/1 ticks 0 events 0\n'
BUFFER = b'buffer 0 0 ratio 1/1 ticks 0\n'
PORT_SHAPE = 'this is not port RATE, as: port 1/1'
CONNECTION_SHAPE = 'this is not connection FROM TO ratio N/D ticks T events E or N/D, as: connection 0 1 ratio 1/1 ticks 3 events 0'
BUFFER_SHAPE = 'this is not buffer FROM TO ratio N/D ticks T, as: buffer 1 0 ratio 1/1 ticks 4'
NO_RATE = 'not from 1 to 1000, nor is the rate 0/0'
ONE = port_bytes(Port())

# The worked example of document 01: its text and, by hand, its 72 bytes.
WORKED = (PORT * 2 + b'connection 0 1 ratio 1/1 ticks 3 events 0\n'
          b'connection 1 0 ratio 1/1 ticks 0 events -2\n' b'buffer 1 0 ratio 1/1 ticks 4\n')
WORKED_TABLE = bytes.fromhex('0600010001000100' '0600010001000100'
                             '12000200000001000100010003000000' '00000000'
                             '12000200010000000100010000000000' 'feffffff'
                             '0e000300010000000100010004000000')

GOOD_TEXTS = [
    (WORKED, WORKED_TABLE),
    (PORT, ONE),
    (b'port 1/1', ONE),
    (WORKED.replace(b'\n', b'\r\n'), WORKED_TABLE),
    (b'\t port \t 1/1 \t\n', ONE),
    (b'# first\n\n  # second\n\t\nport 1/1# third\n#\n', ONE),
    (b'# caf\xc3\xa9 \xe2\x80\xa8 \xc2\x85 \x0b \x0c \x1c\nport 1/1\n', ONE),
    (b'port 1000/999\n', port_bytes(Port(1000, 999))),
    (b'port 0/0\n', port_bytes(Port(0, 0))),
    (PORT + b'port 0/0\n' + CONNECTION, ONE + port_bytes(Port(0, 0)) + link_bytes(Link(0, 0))),
    (b'port +0000000001/1\n', ONE),
    (PORT * 64 + CONNECTION * 255 + BUFFER, table_bytes(Model([Port()] * 64, [Link(0, 0)] * 255 + [Link(0, 0, events=None)]))),
    (PORT + b'connection 0 0 ratio 1000/1 ticks 10000000 events 1000\n' b'connection 0 0 ratio 1/1000 ticks -10000000 events -1000\n',
     table_bytes(Model([Port()], [Link(0, 0, 1000, 1, 10_000_000, 1000), Link(0, 0, 1, 1000, -10_000_000, -1000)]))),
    # a fraction of events is kind 4, also where it is whole; a whole number is kind 2
    (PORT + b'connection 0 0 ratio 2/3 ticks 1 events -1/2\n', ONE + bytes.fromhex('16000400000000000200030001000000' 'ffffffff02000000')),
    (PORT + b'connection 0 0 ratio 1/1 ticks 0 events 4/2\n', ONE + link_bytes(Link(0, 0, events=4, over=2))),
    (PORT + b'connection 0 0 ratio 1/1 ticks 0 events 2/1\n', ONE + link_bytes(Link(0, 0, events=2, over=1))),
    (PORT + b'connection 0 0 ratio 1/1 ticks 0 events 2\n', ONE + link_bytes(Link(0, 0, events=2))),
    (PORT + b'connection 0 0 ratio 1/1 ticks 0 events 0/7\n', ONE + link_bytes(Link(0, 0, events=0, over=7))),
    (PORT + b'connection 0 0 ratio 1/1 ticks 0 events 2000/2\n' b'connection 0 0 ratio 1/1 ticks 0 events -10000000/10000\n',
     table_bytes(Model([Port()], [Link(0, 0, events=2000, over=2), Link(0, 0, events=-10_000_000, over=10_000)]))),
]

FAULTY_TEXTS = [
    # no port, and lines that are none
    (b'', 'line 1: the text ends without a port'),
    (b'# nothing\n\n', 'line 3: the text ends without a port'),
    (CONNECTION, 'line 1: there is no port 0'),
    (PORT + b'prot 1/1\n', "line 2: 'prot' is not port, connection or buffer"),
    (b'Port 1/1\n', "line 1: 'Port' is not port, connection or buffer"),
    (b'x' * 5000 + b'\n', f"line 1: '{'x' * 20}' is not port, connection or buffer"),
    # the limits, one after the other
    (PORT * 65, 'line 65: more than 64 ports'),
    (PORT + CONNECTION * 128 + BUFFER * 129, 'line 258: more than 256 connections and buffers'),
    (PORT + BUFFER + PORT, 'line 3: a port follows a connection or buffer'),
    (b'port 0/1\n', f'line 1: rate part 0 is {NO_RATE}'),
    (b'port 1/0\n', f'line 1: rate part 0 is {NO_RATE}'),
    (PORT + b'port 0/1000\n', f'line 2: rate part 0 is {NO_RATE}'),
    (b'port 0/0\n' b'port 1000/0\n', f'line 2: rate part 0 is {NO_RATE}'),
    (b'port 0/65535\n', f'line 1: rate part 0 is {NO_RATE}'),
    (b'port 1001/0\n', f'line 1: rate part 1001 is {NO_RATE}'),
    (b'port 1001/1\n', f'line 1: rate part 1001 is {NO_RATE}'),
    (b'port 1/-1\n', f'line 1: rate part -1 is {NO_RATE}'),
    (b'port 0\n', f'line 1: {PORT_SHAPE}'),
    (PORT + b'connection 1 0 ratio 1/1 ticks 0 events 0\n', 'line 2: there is no port 1'),
    (PORT + b'connection 0 1 ratio 1/1 ticks 0 events 0\n', 'line 2: there is no port 1'),
    (PORT + b'buffer -1 0 ratio 1/1 ticks 0\n', 'line 2: there is no port -1'),
    (PORT + b'connection 0 0 ratio 0/1 ticks 0 events 0\n', 'line 2: ratio part 0 is not from 1 to 1000'),
    (b'port 0/0\n' b'connection 0 0 ratio 0/0 ticks 0 events 0\n', 'line 2: ratio part 0 is not from 1 to 1000'),
    (b'port 0/0\n' b'buffer 0 0 ratio 0/0 ticks 0\n', 'line 2: ratio part 0 is not from 1 to 1000'),
    (PORT + b'buffer 0 0 ratio 1/1001 ticks 0\n', 'line 2: ratio part 1001 is not from 1 to 1000'),
    (PORT + b'connection 0 0 ratio 1/1 ticks 10000001 events 0\n', 'line 2: ticks 10000001 is not from -10000000 to 10000000'),
    (PORT + b'buffer 0 0 ratio 1/1 ticks -10000001\n', 'line 2: ticks -10000001 is not from -10000000 to 10000000'),
    (PORT + b'connection 0 0 ratio 1/1 ticks 0 events 1001\n', 'line 2: events 1001 is not from -1000 to 1000'),
    (PORT + b'connection 0 0 ratio 1/1 ticks 0 events -1001\n', 'line 2: events -1001 is not from -1000 to 1000'),
    (PORT + b'connection 0 0 ratio 1/1 ticks 0 events 1/0\n', 'line 2: denominator of events 0 is not from 1 to 10000'),
    (PORT + b'connection 0 0 ratio 1/1 ticks 0 events 0/10001\n', 'line 2: denominator of events 10001 is not from 1 to 10000'),
    (PORT + b'connection 0 0 ratio 1/1 ticks 0 events 1/-2\n', 'line 2: denominator of events -2 is not from 1 to 10000'),
    (PORT + b'connection 0 0 ratio 1/1 ticks 0 events 2001/2\n', 'line 2: events 2001/2 is not from -1000 to 1000'),
    (PORT + b'connection 0 0 ratio 1/1 ticks 0 events -10000001/10000\n', 'line 2: events -10000001/10000 is not from -1000 to 1000'),
    (PORT + b'connection 0 0 ratio 1/1 ticks 0 events 1/\n', f'line 2: {CONNECTION_SHAPE}'),
    (PORT + b'connection 0 0 ratio 1/1 ticks 0 events 1/2/3\n', f'line 2: {CONNECTION_SHAPE}'),
    (PORT + b'connection 0 0 ratio 1/1 ticks 0 events 1 /2\n', f'line 2: {CONNECTION_SHAPE}'),
    (PORT + b'buffer 0 0 ratio 1/1 ticks 1/2\n', f'line 2: {BUFFER_SHAPE}'),
    # fields that are missing, too many, or no numbers
    (b'port\n', f'line 1: {PORT_SHAPE}'),
    (b'port 1\n', f'line 1: {PORT_SHAPE}'),
    (b'port 1/\n', f'line 1: {PORT_SHAPE}'),
    (b'port 1 / 1\n', f'line 1: {PORT_SHAPE}'),
    (b'port 1/1 1\n', f'line 1: {PORT_SHAPE}'),
    (b'port 1.5/1\n', f'line 1: {PORT_SHAPE}'),
    (b'port 1_0/1\n', f'line 1: {PORT_SHAPE}'),
    (b'port 0x1/1\n', f'line 1: {PORT_SHAPE}'),
    (PORT + b'connection 0 ratio 1/1 ticks 0 events 0\n', f'line 2: {CONNECTION_SHAPE}'),
    (PORT + b'connection 0 0 ticks 0 events 0\n', f'line 2: {CONNECTION_SHAPE}'),
    (PORT + b'connection 0 0 ratio 1/1 events 0\n', f'line 2: {CONNECTION_SHAPE}'),
    (PORT + b'connection 0 0 ratio 1/1 ticks 0\n', f'line 2: {CONNECTION_SHAPE}'),
    (PORT + b'buffer 0 0 ratio 1/1\n', f'line 2: {BUFFER_SHAPE}'),
    (PORT + b'buffer 0 0 ratio 1/1 ticks 0 events 0\n', f'line 2: {BUFFER_SHAPE}'),
    (b'port ' + b'1' * 5001 + b'/1\n', 'line 1: a number of 5001 digits; at most 10 are read'),
    (PORT + b'buffer 0 0 ratio 1/1 ticks -' + b'0' * 11 + b'\n', 'line 2: a number of 11 digits; at most 10 are read'),
    # other encodings, digits and spaces
    (PORT + b'\n# caf\xe9\n', 'line 3: byte 0xe9 is not UTF-8'),
    (b'\xff\xfep\x00', 'line 1: byte 0xff is not UTF-8'),
    (b'\xef\xbb\xbfport 1/1\n', "line 1: '\\ufeffport' is not port, connection or buffer"),
    ('port ١/١\n'.encode(), f'line 1: {PORT_SHAPE}'),
    ('port １/１\n'.encode(), f'line 1: {PORT_SHAPE}'),
    ('port\u00a01/1\n'.encode(), "line 1: 'port\\xa01/1' is not port, connection or buffer"),
    ('port\u30001/1\n'.encode(), "line 1: 'port\\u30001/1' is not port, connection or buffer"),
    (b'port \x001/1\n', f'line 1: {PORT_SHAPE}'),
    # what ends no line
    (PORT + b'port 1/1\rport 1/1\n', f'line 2: {PORT_SHAPE}'),
    (PORT + b'port 1/1\r', f'line 2: {PORT_SHAPE}'),
    (PORT + b'port 1/1\r\r\n', f'line 2: {PORT_SHAPE}'),
    *[(PORT + f'# a{end}b\nport{end}\n'.encode(), f'line 3: {f"port{end}"!a} is not port, connection or buffer')
      for end in '\x0b\x0c\x1c\x1d\x1e\x85\u2028\u2029'],
]

# Texts of added records; a port line and an end above 63 are faults of theirs only.
GOOD_ADDED = [
    (b'', b''),
    (b'# nothing\n\n', b''),
    (CONNECTION, link_bytes(Link(0, 0))),
    (b'connection 63 0 ratio 2/4 ticks 3 events -1\n' b'buffer 0 63 ratio 1/1 ticks -4\n',
     link_bytes(Link(63, 0, 2, 4, 3, -1)) + link_bytes(Link(0, 63, ticks=-4, events=None))),
    (b'connection 63 0 ratio 1/1 ticks 0 events 1/3\n', link_bytes(Link(63, 0, events=1, over=3))),
    (BUFFER * 256, link_bytes(Link(0, 0, events=None)) * 256),
]

FAULTY_ADDED = [
    (PORT, 'line 1: a port among added records'),
    (CONNECTION + PORT, 'line 2: a port among added records'),
    (b'port 0/1\n', 'line 1: a port among added records'),
    (b'port 0/0\n', 'line 1: a port among added records'),
    (b'port 1\n', f'line 1: {PORT_SHAPE}'),
    (b'prot 1/1\n', "line 1: 'prot' is not port, connection or buffer"),
    (b'connection 64 0 ratio 1/1 ticks 0 events 0\n', 'line 1: there is no port 64'),
    (BUFFER + b'buffer 0 64 ratio 1/1 ticks 0\n', 'line 2: there is no port 64'),
    (b'buffer 0 -1 ratio 1/1 ticks 0\n', 'line 1: there is no port -1'),
    (b'buffer 63 63 ratio 1/0 ticks 0\n', 'line 1: ratio part 0 is not from 1 to 1000'),
    (CONNECTION * 256 + BUFFER, 'line 257: more than 256 connections and buffers'),
]

GOOD_TABLES = [
    (WORKED_TABLE, WORKED),
    (b'', b''),
    (link_bytes(Link(63, 0)), b'connection 63 0 ratio 1/1 ticks 0 events 0\n'),
    (port_bytes(Port(0, 0)) + ONE, b'port 0/0\n' + PORT),
    (ONE + link_bytes(Link(0, 0, events=-1, over=2)) + link_bytes(Link(0, 0, events=2, over=1)),
     PORT + b'connection 0 0 ratio 1/1 ticks 0 events -1/2\n' b'connection 0 0 ratio 1/1 ticks 0 events 2/1\n'),
    (link_bytes(Link(0, 0, events=-2 ** 31, over=2 ** 32 - 1)), b'connection 0 0 ratio 1/1 ticks 0 events -2147483648/4294967295\n'),
    # faults of its numbers and of its order stay for the text to show
    (port_bytes(Port(0, 65535)), b'port 0/65535\n'),
    (ONE * 65, PORT * 65),
    (ONE + link_bytes(Link(9, 8, 0, 7, -2 ** 31, 2 ** 31 - 1)) + ONE,
     PORT + b'connection 9 8 ratio 0/7 ticks -2147483648 events 2147483647\n' + PORT),
]

FAULTY_TABLES = [
    (b'\x06', 'byte 0: no port, connection or buffer begins here'),
    (ONE + b'\x06\x00\x01', 'byte 8: no port, connection or buffer begins here'),
    (ONE + ONE[:-1], 'byte 8: no port, connection or buffer begins here'),
    (ONE + record(4, b'1234'), 'byte 8: no port, connection or buffer begins here'),
    (ONE + record(1, b'123'), 'byte 8: no port, connection or buffer begins here'),
    (ONE + record(2, b''), 'byte 8: no port, connection or buffer begins here'),
    (bytes(4), 'byte 0: no port, connection or buffer begins here'),
    (PORT, 'byte 0: no port, connection or buffer begins here'),
]

# Bytes of tables, and the line of the record that begins there.
FAULT = ONE * 2 + link_bytes(Link(0, 1, ticks=3)) + link_bytes(Link(1, 0, ticks=10_000_001, events=-2)) + ONE
PLACES = [
    (FAULT, 0, b'line 1: port 1/1\n'),
    (FAULT, 8, b'line 2: port 1/1\n'),
    (FAULT, 16, b'line 3: connection 0 1 ratio 1/1 ticks 3 events 0\n'),
    (FAULT, 36, b'line 4: connection 1 0 ratio 1/1 ticks 10000001 events -2\n'),
    (FAULT, 56, b'line 5: port 1/1\n'),
    (FAULT[:-1], 36, b'line 4: connection 1 0 ratio 1/1 ticks 10000001 events -2\n'),
]

FAULTY_PLACES = [
    (FAULT, 1, 'byte 1: no record begins here'),
    (FAULT, 37, 'byte 37: no record begins here'),
    (FAULT, 63, 'byte 63: no record begins here'),
    (FAULT, 64, 'byte 64: no record begins here'),
    (FAULT, 9999999999, 'byte 9999999999: no record begins here'),
    (b'', 0, 'byte 0: no record begins here'),
    (FAULT[:-1], 56, 'byte 56: no port, connection or buffer begins here'),
    (ONE + record(4, b'1234'), 8, 'byte 8: no port, connection or buffer begins here'),
]

USAGE = 'usage: table_text.py encode [--added] [TEXT] > TABLE, or table_text.py decode [--at BYTE] [TABLE] > TEXT'


def run(words, **streams):
    """What is written, what is said, and the status."""
    streams = {'stdout': subprocess.PIPE, **streams}
    ended = subprocess.run([sys.executable, '-B', SCRIPT, *words], stderr=subprocess.PIPE, check=False, **streams)
    return ended.stdout or b'', ended.stderr.decode(), ended.returncode


def expected(output, message):
    return output, message + '\n' if message else '', 2 if message else 0


def cases():
    """What is tried, what came of it, and what should have come."""
    for words, good, faulty in ((['encode'], GOOD_TEXTS, FAULTY_TEXTS), (['encode', '--added'], GOOD_ADDED, FAULTY_ADDED),
                                (['decode'], GOOD_TABLES, FAULTY_TABLES)):
        for data, output in good:
            yield f'{" ".join(words)} {data!r}', run(words, input=data), expected(output, '')
        for data, message in faulty:
            yield f'{" ".join(words)} {data!r}', run(words, input=data), expected(b'', message)
    for data, place, output in PLACES:
        yield f'decode --at {place} {data!r}', run(['decode', '--at', str(place)], input=data), expected(output, '')
    for data, place, message in FAULTY_PLACES:
        yield f'decode --at {place} {data!r}', run(['decode', '--at', str(place)], input=data), expected(b'', message)
    for words in ([], ['code'], ['encode', 'a', 'b'], ['--help'], ['decode', '--at'], ['decode', '--at', 'x'], ['decode', '--at', '-1'],
                  ['decode', '--at', '0', 'a', 'b'], ['encode', '--at', '0'], ['encode', '--added', 'a', 'b']):
        yield ' '.join(words), run(words, input=PORT), expected(b'', USAGE)
    for word in ('encode', 'decode'):
        data = {'encode': PORT, 'decode': ONE}[word]
        yield f'{word} a directory', run([word, '/']), expected(b'', 'not read: Is a directory')
        yield f'{word} no file', run([word, '/no such file']), expected(b'', 'not read: No such file or directory')
        yield f'{word} closed input', run([word], preexec_fn=lambda: os.close(0)), expected(b'', 'not read: Bad file descriptor')
        yield f'{word} closed output', run([word], input=data, preexec_fn=lambda: os.close(1)), expected(b'', 'not written: Bad file descriptor')
        with open('/dev/full', 'wb') as full:
            yield f'{word} full output', run([word], input=data, stdout=full), expected(b'', 'not written: No space left on device')
        reading, writing = os.pipe()
        os.close(reading)
        yield f'{word} closed pipe', run([word], input=data, stdout=writing), expected(b'', 'not written: Broken pipe')
        os.close(writing)


def main():
    count = differ = 0
    for name, came, due in cases():
        count += 1
        if came != due:
            differ += 1
            print(f'{name[:200]}\n    gives {came}\n    not   {due}')
    print(f'{count} texts, {differ} differ')
    return 1 if differ else 0


if __name__ == '__main__':
    sys.exit(main())
