"""What a person can do where the tool refuses a program, its inputs or a test, or where reading, writing or memory fails: a
sentence for each reason of docs/FORMATS.md, with what the file at hand shows (refused_facts.py)."""
import re

from program_file import ProgramFile, why_unreadable
from refused_facts import input_facts, program_facts, read_test, test_facts, test_regions

BUILD = "-march=rv32im -mabi=ilp32"
DAMAGED = "the file is damaged or was cut off: build or copy it again"
# By the numbers of "Program files".
PROGRAM = {
    1: "it has more than 1,048,576 bytes: take out what isn't loaded, by `strip -g`, or large tables",
    2: "it is too short for an ELF file: is it the one that the linker made?",
    3: "it is no ELF file{begins}: give the file that the linker made, not its .bin or .hex, nor the source",
    4: "it is no 32-bit file; this one is for {machine}: build it for RV32IM, by " + BUILD,
    5: "it is big-endian, for {machine}: build it for RV32IM, which is little-endian, by " + BUILD,
    6: "its ELF version isn't 1: " + DAMAGED,
    7: "it is no executable{kind}",
    8: "it is for {machine}: build it for RV32IM, by " + BUILD,
    9: "it was compiled {flags}: build all of it, libraries too, by " + BUILD,
    10: "its headers haven't the sizes of the standard: " + DAMAGED,
    11: "its program headers pass its end: " + DAMAGED,
    12: "it is linked dynamically: link it by -static -nostdlib -nostartfiles",
    13: "a segment has more bytes in the file than in memory: look at the linker script, or build it again",
    14: "a segment's bytes pass the end of the file: " + DAMAGED,
    15: "a segment{segments} is on the stack (0x7fff0000 to 0x7fffffff) or passes the end of memory: place it by the linker script",
    16: "two segments share an address{segments}: place them apart by the linker script",
    17: "its segments{segments} touch more than 16,384 pages of 256 bytes, 4 MiB: make arrays or the heap smaller",
    18: "it has no segment to load: is it the file that the linker made?",
}
# By the numbers of "Inputs".
INPUTS = {
    1: "there are {count} regions, and at most eight may be",
    2: "{empty} has no byte: behind the colon stands how many bytes are input",
    3: "they have {bytes} bytes in all, and at most 1,024 may be input: give fewer, as paths grow fast with each",
    4: "{unmapped}: not all of it is on pages of the program{pages}: `nm` shows where things are, or give the input by its symbol",
    5: "{shared} share an address: give each byte once",
}
# By the numbers of "Tests".
TEST = {
    1: "it is no JSON text: give a test-NNNNNN.json that `explore` wrote",
    2: "it has no {missing}: give a test-NNNNNN.json that `explore` wrote",
    3: "{odd}: docs/FORMATS.md says what each key of a test may be",
    4: "its input or output isn't hexadecimal, two digits for each byte",
    5: "{length}",
    6: "it has more than 16,777,216 bytes: is it a test?",
}
# By the numbers of "Certificates".
CERTIFICATE = {
    1: "it isn't of the form that docs/FORMATS.md gives",
    2: "another line must stand here, or none",
    3: "the question isn't the one that is asked here",
    4: "the clauses don't show what they must",
    5: "these bytes don't lead here",
    6: "a budget isn't spent, or a region or a budget isn't within its limits",
    7: "a value of the byte isn't excluded, or there are more bytes than one",
}


def doubt(file, said):
    """The sentence for the line with which an audit says no."""
    found = re.match(r"audit no (\d+) (\d)$", said)
    if not found:
        return None
    line, reason = int(found[1]), int(found[2])
    if line == 0:
        return f"{file}: it has more than 67,108,864 bytes: is it a certificate?"
    return f"{file}, line {line}: {CERTIFICATE[reason]}"


def sentences(run):
    """The sentence for a run's status and the line that was printed with it, where there is one."""
    reading, status = run.reading, run.status
    path, test, certificate = (reading.word(name) for name in ("PROGRAM", "TEST", "CERT"))
    found = re.match(r"\w+ refused (\d+) ", run.line()) if status in (3, 4, 7) else None
    number = int(found[1]) if found else None
    if status == 1 and reading.command == "audit" and (said := doubt(certificate, run.line())):
        yield said
    if status == 3 and number in PROGRAM:
        yield f"{path}: " + PROGRAM[number].format_map(program_facts(ProgramFile(path)))
    if status == 4 and number in INPUTS:
        regions = [reading.words[place] for place in reading.inputs()] or test_regions(read_test(test))
        yield "the inputs: " + INPUTS[number].format_map(input_facts(regions, ProgramFile(path)))
    if status == 7 and number in TEST:
        yield f"{test}: " + TEST[number].format_map(test_facts(read_test(test), reading.command == "upgrade"))
    if status == 5:
        yield unreadable([file for file in (path, test, certificate) if file is not None])
    if status == 6:
        yield f"{unwritten(reading)}the line wasn't printed: is the disk full, or may you not write?"
    if status == 8:
        yield "memory ran out: give smaller budgets, fewer input bytes or fewer workers"


def unwritten(reading):
    """What else may not be written where a line may not be printed, if anything is."""
    out = reading.word("OUT")
    if out is None:
        return ""
    return f"{out} isn't whole, or " if reading.command == "upgrade" else f"{out} hasn't all of the report, or "


def unreadable(files):
    found = [f"{file}: {why}" for file, why in ((file, why_unreadable(file)) for file in files) if why]
    return "; ".join(found) or f"{' or '.join(files)} couldn't be read, and can be now: try again"
