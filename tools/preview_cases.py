"""The previews that the program `join_cases` is run on, and what is due of them (change request F-5).

Each input, two tables and added records, is previewed in four rooms for the answer, of which the last two are enough. Some inputs are written by
hand, with the number, place and input that are due; the others are random. What is due comes from separate.py; the loop, floor or block that is
shown at 13 and 15, which is free, is checked by shown.py. The caller sets the seed."""
import itertools
import random
import sys

from answer_bytes import blocked_lines, loop_line
from join_inputs import FIXED, full, random_inputs, random_parts
from model import buffer, connection, port
from random_models import large, small
from separate import LEAST_ANSWER_BUFFER, joined, model_of, separate_preview
from shown import Wrong, check_blocked, check_loop

ROOMS = (0, LEAST_ANSWER_BUFFER - 1, LEAST_ANSWER_BUFFER, 6_000)
RANDOM_MODELS, RANDOM_FAULTS = 1_000, 400

# Models of document 01; a port without a rate; tables with a ratio of 2/1 and of 1/2, and what makes a loop of two such.
A = port() * 2 + connection(0, 1, ticks=3) + connection(1, 0, events=-2) + buffer(1, 0, ticks=4)
C = port() * 2 + connection(0, 1, ticks=3) + connection(1, 0, ticks=-2)
D = port(1, 5) + connection(ticks=-5, events=1)
I = port() * 2 + connection(0, 1) + connection(0, 1, 2, 1)
K = port() * 3 + connection(0, 1, 1000, 1) + connection(1, 2, 11, 1)
FREE = port(0, 0)
TWICE, HALF, CLOSED = port() * 2 + connection(0, 1, 2, 1), port() * 2 + buffer(0, 1, 1, 2), connection(1, 2) + buffer(3, 0)

# Two tables, added records, and the numbers that are due: of each table alone, and of both joined.
ANALYSED = [
    # no port; one table; tables side by side; the largest table
    (b'', b'', b'', 12, 12, 12), (A, b'', b'', 0, 12, 0), (b'', A, b'', 12, 0, 0), (A, D, b'', 0, 0, 0), (D, A, b'', 0, 0, 0),
    (*full(connection), 0, 0, 0),
    # 13: tables that agree alone; one that does not; ratios that are added. It comes before 14 and 15
    (TWICE, TWICE, CLOSED, 0, 0, 13), (TWICE, HALF, CLOSED, 0, 0, 0), (HALF, HALF, CLOSED, 0, 0, 13), (A, I, b'', 0, 13, 13), (I, A, b'', 13, 0, 13),
    (port(), port(), connection(0, 1) + connection(1, 0, 2, 1), 0, 0, 13), (K, I, b'', 14, 13, 13), (C, K, connection(num=2), 15, 14, 13),
    # 14: weights of 11,000 and of 10,000. It comes before 15 and 17
    (TWICE, port() * 2 + connection(0, 1, 550, 1), connection(1, 2, 10, 1), 0, 0, 14),
    (TWICE, port() * 2 + connection(0, 1, 500, 1), connection(1, 2, 10, 1), 0, 0, 0),
    (A, K, b'', 0, 14, 14), (C, K, b'', 15, 14, 14), (K, FREE, b'', 14, 17, 14),
    # 15: D's upper limit of 5 under a rate's limit of 6, not of 5; a cycle of one tick too many, and one of none; a floor that is a cycle, or zero
    (port(1, 6), D, connection(0, 1), 0, 0, 15), (port(1, 5), D, connection(0, 1), 0, 0, 0),
    (port(), port(), connection(0, 1, ticks=3) + connection(1, 0, ticks=-2), 0, 0, 15),
    (port(), port(), connection(0, 1, ticks=3) + connection(1, 0, ticks=-3), 0, 0, 0),
    (port() + connection(ticks=7, events=-1), D, buffer(1, 0), 0, 0, 15),
    (FREE, FREE, connection(0, 1, ticks=12) + connection(1, 0), 17, 17, 15),
    (FREE, FREE, connection(0, 1, ticks=12) + connection(1, 0, events=-1), 17, 17, 0),
    # 15 of a table alone. It comes before 17
    (A, C, b'', 0, 15, 15), (C, A, b'', 15, 0, 15), (C, C, b'', 15, 15, 15), (FREE, C, b'', 17, 15, 15), (C, FREE, b'', 15, 17, 15),
    # 17, and 0 where what is added leads to a rate
    (A, FREE, b'', 0, 17, 17), (FREE, A, b'', 17, 0, 17), (FREE, FREE, connection(0, 1), 17, 17, 17), (FREE, A, buffer(0, 2), 17, 0, 0),
    (FREE + port(), FREE, connection(0, 2), 17, 17, 17), (FREE + port(), FREE, connection(0, 2) + connection(2, 1), 17, 17, 0),
    (FREE + port(), FREE + port(), connection(0, 3) + connection(2, 1), 17, 17, 0),
]

# The records of A and D joined, by hand.
WORKED = bytes.fromhex('16001000' '0000' '0100' '03000000' '02000000' '0000000000000000'
                       '16001000' '0000' '0100' '03000000' '02000000' '0600000000000000'
                       '16001000' '0200' '0100' '05000000' '01000000' '0000000000000000'
                       '0c001100' '0200' '0500000000000000')


def hold(inputs, room, due):
    """That number, place and input are by separate.py what is said here."""
    found = separate_preview(*inputs, room)[:3]
    if found != due:
        sys.exit(f'number, place and input {due} are said here, separate.py finds {found} in {inputs} with a room of {room}')


def fixed_inputs():
    """The inputs of joins by hand, whose faults come before 1; those above, whose numbers come behind it; and those of the longest answer."""
    for *inputs, number, place, which in FIXED:
        if number:
            for room in ROOMS:
                hold(inputs, room, (number, place, which))
        yield inputs
    for *inputs, first_alone, second_alone, number in ANALYSED:
        hold((inputs[0], b'', b''), ROOMS[-1], (first_alone, 0, 0))
        hold((b'', inputs[1], b''), ROOMS[-1], (second_alone, 0, 0))
        for room in ROOMS:
            hold(inputs, room, (1 if room < LEAST_ANSWER_BUFFER else number, 0, 0))
        yield inputs
    worked = separate_preview(A, D, b'', ROOMS[-1])[3]
    if worked != WORKED:
        sys.exit(f'separate.py writes {worked.hex()} of A and D')
    longest = full(buffer)
    if len(separate_preview(*longest, LEAST_ANSWER_BUFFER)[3]) != LEAST_ANSWER_BUFFER:
        sys.exit('separate.py does not fill the answer buffer with the longest answer')
    yield longest


def cut_models():
    """Random models, each cut into two tables and added records; all of them are analysed."""
    for _ in range(RANDOM_MODELS):
        (first, second), _, added = random_parts(large() if random.random() < 0.03 else small(), 2)
        yield first, second, b''.join(added)


def faulty_inputs():
    """Random inputs with a fault."""
    return itertools.islice((inputs for inputs in iter(random_inputs, None) if joined(*inputs)[0]), RANDOM_FAULTS)


def preview_cases():
    """(first, second, added, room) of each preview."""
    for inputs in itertools.chain(fixed_inputs(), cut_models(), faulty_inputs()):
        for room in ROOMS:
            yield (*inputs, room)


def check_preview(case, came):
    """That what came of a preview is what is due."""
    *due, records = separate_preview(*case)
    *said, written = came
    if said != due:
        raise Wrong(f'number, place and input {due} are due')
    *_, table = joined(*case[:3])
    if due[0] == 13:
        check_loop(model_of(table), loop_line(written))
    elif due[0] == 15:
        check_blocked(model_of(table), *blocked_lines(written))
    elif written != records:
        raise Wrong(f'{str(records)[:200]} is due')
