"""INPUT words that name symbols, `NAME`, `NAME:COUNT` or `NAME+OFFSET:COUNT`, as the tool's `ADDRESS:COUNT`; and notes on regions
that are seldom meant."""
import re

from command_line import REGION, near
from program_file import ProgramFile, is_stack

NAME = re.compile(r"([A-Za-z_.][\w.$]*)(?:\+(0[xX][0-9a-fA-F]{1,8}|[0-9]{1,10}))?(?::([0-9]+))?")
EXECUTABLE = 1
# What the tool takes, of all regions together.
MOST_BYTES = 1_024


class NoRegion(Exception):
    """Why a word names no region."""


def symbol_of(name, program):
    found = [symbol for symbol in program.symbols if symbol.name == name]
    starts = sorted({symbol.start for symbol in found})
    if program.why_unreadable:
        raise NoRegion(f"PROGRAM names nothing, as it can't be read: {program.why_unreadable}")
    if not program.symbols:
        raise NoRegion("PROGRAM has no symbol table, so an INPUT is ADDRESS:COUNT, as 00011000:4")
    if not found:
        raise NoRegion(f"PROGRAM has no symbol {name}" + near(name, {symbol.name for symbol in program.symbols}))
    if len(starts) > 1:
        raise NoRegion(f"PROGRAM has several symbols {name}, at " + ", ".join(f"{start:08x}" for start in starts))
    return max(found, key=lambda symbol: symbol.size)


def region_of(name, offset, count, program):
    """The region that a symbol names, and why it has so many bytes."""
    symbol = symbol_of(name, program)
    offset = int(offset or "0", 0 if (offset or "").lower().startswith("0x") else 10)
    left, by = symbol.size - offset, "by its size"
    if not symbol.has_size:
        by = "it has no size, so up to the next symbol or the end of its section"
    if count is None and left <= 0:
        raise NoRegion(f"{name} has {symbol.size} bytes, so the number of bytes is to be given")
    if count is None and left > MOST_BYTES:
        raise NoRegion(f"{left} bytes are too many, at most {MOST_BYTES} are input: give their number, as in {name}:8")
    if count and len(count) > 4:
        raise NoRegion("the number of bytes has four digits at most")
    if symbol.start + offset > 0xFFFFFFFF:
        raise NoRegion("no such address")
    return f"{symbol.start + offset:08x}:{count or left}", "" if count else f" ({by})"


def put(reading):
    """The words with regions for names, what is said of each, and by the place of a word why it names none."""
    words, said, reasons, program = list(reading.words), [], {}, None
    for place in reading.inputs():
        word = words[place]
        match = NAME.fullmatch(word)
        if REGION.fullmatch(word) or not match:
            continue
        program = program or ProgramFile(reading.word("PROGRAM"))
        try:
            words[place], by = region_of(*match.groups(), program)
            said.append(f"{word} is {words[place]}{by}")
        except NoRegion as why:
            # Digits of an address may look like a name.
            if not re.fullmatch("[0-9a-fA-F]{1,8}", match[1]) or match[2]:
                reasons[place] = str(why)
    return words, said, reasons


def notes(reading):
    """What is odd about the regions of a job: the tool takes them all the same."""
    program = ProgramFile(reading.word("PROGRAM")) if reading.inputs() else None
    for place in reading.inputs():
        start, count = REGION.fullmatch(reading.words[place]).groups()
        note = odd(program, int(start, 16), int(count))
        if note:
            yield f"note: {reading.words[place]} {note}"


def odd(program, start, count):
    places = range(start, start + count)
    if any(is_stack(place) for place in places):
        return "is on the stack"
    if any(program.flags(place) & EXECUTABLE for place in places):
        return f"is on a page of code{inside(program, start)}"
    if not program.symbols or not all(program.flags(place) for place in places):
        return None
    first = program.name_at(start)
    if not first:
        return "is in no object of the symbol table"
    behind = start + count - first.start - first.size
    return f"passes the end of {first.name}, which has {first.size} bytes" if behind > 0 else None


def inside(program, address):
    symbol = program.name_at(address)
    return f", in {symbol.name}" if symbol else ""
