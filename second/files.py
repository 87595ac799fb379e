"""Step files: the reader, the judge with its line, the running judge, the writer and the joining of parts."""

import struct
from typing import NamedTuple

from rules import (
    LIMITS, NEW_DEFAULT, NOT_ADMITTED, OLD_DEFAULT, START, Table, admitted_step, broken_rule, has_delays, step,
    unreadable,
)

# The numbers for what files, parts and buffers are refused for.
TOO_SHORT, WRONG_HEADER, WRONG_LENGTH, BEYOND_HELD, NO_ROOM, OVERLAP_DIFFERS = 1, 2, 3, 14, 15, 16

HEADER = struct.Struct("<HHII")
ENTRIES = struct.Struct("<22H")
RECORD = struct.Struct("<BBH")
# How many entries a file has without delays and with them, and the most records without them and with them.
WITHOUT_DELAYS, WITH_DELAYS = LIMITS, len(Table._fields)
ENTRY_COUNTS = 0, WITHOUT_DELAYS, WITH_DELAYS
MOST_RECORDS, MOST_WITH_DELAYS = 16_372, 16_370


class Header(NamedTuple):
    """The four fields of a header."""

    table_offset: int
    k: int
    record_offset: int
    n: int


def header_of(file):
    """The header at the start of a file."""
    return Header(*HEADER.unpack_from(file))


def record_offset(k):
    """Where the records begin behind k entries."""
    return HEADER.size + 2 * k


def most_records(k):
    """The most records behind k entries."""
    return MOST_WITH_DELAYS if k == WITH_DELAYS else MOST_RECORDS


def k_written(table):
    """How many entries are written of a table."""
    return WITH_DELAYS if has_delays(table) else WITHOUT_DELAYS


def file_with_entries(k, table, records):
    """The file of the first k entries of a table and record bytes."""
    entries = ENTRIES.pack(*table)[:2 * k]
    return HEADER.pack(HEADER.size, k, record_offset(k), len(records) // RECORD.size) + entries + records


def file_of(table, records):
    """The file of a table and record bytes, as it is written."""
    return file_with_entries(k_written(table), table, records)


def file_without_entries(records):
    """The file of record bytes alone, which means the old default; the writer made such files before request 7."""
    return file_with_entries(0, OLD_DEFAULT, records)


def damage(file):
    """The refusal 1, 2 or 3 of a file, or 0."""
    if len(file) < HEADER.size:
        return TOO_SHORT
    table_offset, k, offset, n = header_of(file)
    if table_offset != HEADER.size or k not in ENTRY_COUNTS or offset != record_offset(k) or n > most_records(k):
        return WRONG_HEADER
    return 0 if len(file) == offset + RECORD.size * n else WRONG_LENGTH


def table_of(file):
    """The table of any bytes: its entries if they are all there, without delays if it says 18, else the old default."""
    k = header_of(file).k if len(file) >= HEADER.size else 0
    entries = file[HEADER.size:record_offset(k)]
    if k in ENTRY_COUNTS[1:] and len(entries) == 2 * k:
        return Table(*ENTRIES.unpack(entries + bytes(ENTRIES.size - len(entries))))
    return OLD_DEFAULT


def read(file):
    """The reader: number, rule, table and the bytes of the records."""
    number, rule, table = damage(file), 0, table_of(file)
    if not number:
        rule = broken_rule(table)
        number = NOT_ADMITTED if rule else 0
    return number, rule, table, b"" if number else file[header_of(file).record_offset:]


def fours(records):
    """The four bytes of each record."""
    return (records[place:place + RECORD.size] for place in range(0, len(records), RECORD.size))


def record(four):
    """A record's code, amount and middle byte."""
    code, middle, amount = RECORD.unpack(four)
    return code, amount, middle


def advance(table, state, four):
    """The running judge, one record a call: number, rule, excess and state."""
    return step(table, state, *record(four))


def run(engine, start, table, records):
    """An engine over records, up to the first that it refuses: number, rule, records accepted, excess and the end."""
    number, rule, accepted, excess, reached = 0, 0, 0, 0, start
    for four in fours(records):
        number, rule, excess, reached = engine(table, reached, *record(four))
        if number:
            break
        accepted += 1
    return number, rule, accepted, excess, reached


def block(table, state, records):
    """The running judge, a block of whole records a call: number, rule, records accepted, excess and state."""
    whole = records[:len(records) // RECORD.size * RECORD.size]
    return run(step, state, table, whole)


def judged(table, records):
    """Each record's number, its excess and the state after it, from the start state to the first that is refused."""
    state = START
    for four in fours(records):
        number, excess, state = admitted_step(table, state, *record(four))
        yield number, excess, state
        if number:
            return


def judge(file):
    """The judge: number, rule, records accepted, excess and state."""
    number, rule, table, records = read(file)
    accepted, excess, state = 0, 0, START
    for number, excess, state in judged(table, records):
        accepted += number == 0
    return number, rule, accepted, excess, state


def line(file):
    """The line that the program prints."""
    number, _, accepted, excess, state = judge(file)
    word = "accepted" if number == 0 else "unread" if number <= NOT_ADMITTED else "refused"
    return f"{word} {accepted} {number} {state.clock} {state.phase} {state.box} {excess}\n".encode()


def laid(text, buffer):
    """A text laid at the buffer's start: number, length and the buffer after."""
    if len(text) > len(buffer):
        return NO_ROOM, 0, buffer
    return 0, len(text), text + buffer[len(text):]


def lay_line(file, buffer):
    """The line laid into a lent buffer: number, length and the buffer after."""
    return laid(line(file), buffer)


def write(table, codes, amounts, buffer):
    """The writer, with None as the wish for no table: number, rule, index, length and the buffer after."""
    table = NEW_DEFAULT if table is None else table
    if len(codes) != len(amounts):
        return WRONG_LENGTH, 0, 0, 0, buffer
    if len(codes) > most_records(k_written(table)):
        return WRONG_HEADER, 0, 0, 0, buffer
    rule = broken_rule(table)
    if rule:
        return NOT_ADMITTED, rule, 0, 0, buffer
    for index, (code, amount) in enumerate(zip(codes, amounts)):
        number = unreadable(code, amount)
        if number:
            return number, 0, index, 0, buffer
    records = b"".join(RECORD.pack(code, 0, amount) for code, amount in zip(codes, amounts))
    number, length, buffer = laid(file_of(table, records), buffer)
    return number, 0, 0, length, buffer


def join(buffer, held, offset, part):
    """Joining: number, held and the buffer after."""
    end = offset + len(part)
    if held > len(buffer):
        return NO_ROOM, held, buffer
    if offset > held:
        return BEYOND_HELD, held, buffer
    if end > len(buffer):
        return NO_ROOM, held, buffer
    overlap, rest = part[:held - offset], part[held - offset:]
    if buffer[offset:offset + len(overlap)] != overlap:
        return OVERLAP_DIFFERS, held, buffer
    return 0, held + len(rest), buffer[:held] + rest + buffer[held + len(rest):]
