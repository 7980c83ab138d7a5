"""What is due of a table by the separate reader and solver, and of a preview by the separate join too."""
import math

from answer_bytes import answer_bytes
from joiner import join
from reader import first_fault
from solver import analyse, answer_line, printed
from table_text import read_text, text_of

MOST_BYTES = 65_536
LEAST_ANSWER_BUFFER = 5_120


def model_of(table):
    """The model of a table without a fault."""
    return read_text(text_of(table))


def separate_answer(table):
    """What is printed of a table; of 13 and 15 only the first line."""
    if len(table) > MOST_BYTES:
        return 'answer long\n'
    number, place = first_fault(table)
    return answer_line(number, place) if number else printed(*analyse(model_of(table)))


def joined(first, second, added):
    """(number, place, input, table) of the join with room for every table."""
    return join(first, second, added, math.inf)


def separate_preview(first, second, added, room):
    """(number, place, input, written bytes) of a preview with so much room for its answer: what the join says, else what the analysis of the
    joined table does (change request F-5). Of 13 and 15, where the bytes are free, there are none."""
    number, place, which, table = joined(first, second, added)
    if number:
        return number, place, which, b''
    if room < LEAST_ANSWER_BUFFER:
        return 1, 0, 0, b''
    ports = buffers = ()
    number, place = first_fault(table)
    if not number:
        number, ports, buffers = analyse(model_of(table))
    return number, place, 0, answer_bytes(ports, buffers)
