"""What a program, its inputs or a test show that the tool has refused. Of what they don't show nothing is said."""
import json
import re
import struct

from command_line import REGION
from program_file import PAGE
from test_text import APART, JOINED, NoInputs, as_joined

MACHINES = {3: "x86", 8: "MIPS", 20: "PowerPC", 40: "ARM", 62: "x86-64", 183: "AArch64", 243: "RISC-V"}
TYPES = {1: "an object file: link it", 3: "position-independent or shared: link it by -static -no-pie", 4: "a core dump"}
HEADER_SIZE, BIG_ENDIAN, COMPRESSED = 52, 2, 1
MOST_TEST_BYTES, MOST_INPUT = 16_777_216, 1_024
MOST_SHOWN = 8
ENTRIES = re.compile(r"(?:[TN]|@[0-9a-f]{8})*")
END = re.compile(r"running|trap \w+|exit (?:\d|[1-9]\d|1\d\d|2[0-4]\d|25[0-5])")
SMALL_REGION = re.compile(r"[0-9a-f]{8}:(?:0|[1-9][0-9]{0,3})")


class Facts(dict):
    def __missing__(self, name):
        return ""


def program_facts(program):
    data, begins = program.data, program.data[:16].decode("ascii", "replace").split("\n")[0]
    facts = Facts(machine="another machine", flags="with compressed instructions")
    if begins.isprintable() and begins.isascii():
        facts["begins"] = f" (it begins with `{begins}`)"
    if program.segments:
        facts["segments"] = f" ({shown(program, 1)})"
    if len(data) >= HEADER_SIZE:
        kind, machine = struct.unpack_from(">HH" if data[5] == BIG_ENDIAN else "<HH", data, 16)
        flags, = struct.unpack_from("<I", data, 36)
        facts["machine"] = MACHINES.get(machine, f"machine {machine}")
        facts["kind"] = f", but {TYPES[kind]}" if kind in TYPES else ""
        facts["flags"] = "with compressed instructions" if flags & COMPRESSED else "for RV32E"
    return facts


def shown(program, unit):
    """The segments' addresses, in whole units."""
    ends = [(start // unit * unit, -(-(start + size) // unit) * unit - 1) for start, size, _ in program.segments]
    return ", ".join(f"0x{first:x} to 0x{last:x}" for first, last in ends[:MOST_SHOWN])


def input_facts(words, program):
    found = {word: REGION.fullmatch(word) for word in words}
    regions = [(word, int(found[word][1], 16), int(found[word][2])) for word in words if found[word]]
    ranges = [(word, range(start, start + count)) for word, start, count in regions]
    shared = [f"{one} and {other}" for at, (one, here) in enumerate(ranges) for other, there in ranges[at + 1:]
              if max(here.start, there.start) < min(here.stop, there.stop)]
    facts = Facts(count=len(words), bytes=sum(count for _, _, count in regions), shared="; ".join(shared) or "two")
    facts["empty"] = ", ".join(word for word, _, count in regions if not count) or "one"
    facts["unmapped"] = ", ".join(word for word, places in ranges if not all(map(program.flags, places))) or "one"
    facts["pages"] = f" ({shown(program, PAGE)}, and the stack)" if program.segments else ""
    return facts


def read_test(path):
    """What a test's file says by its keys; nothing where it is no JSON object."""
    try:
        with open(path, "rb") as file:
            said = json.loads(file.read(MOST_TEST_BYTES + 1))
    except (OSError, ValueError, RecursionError):
        return {}
    return said if isinstance(said, dict) else {}


def test_regions(said):
    """The texts of a test's regions that are such."""
    try:
        found = as_joined(said).get("regions")
    except NoInputs:
        found = None
    return [word for word in found if isinstance(word, str)] if isinstance(found, list) else []


def is_count(value, least, most):
    return isinstance(value, int) and not isinstance(value, bool) and least <= value <= most


def is_region(value):
    return isinstance(value, str) and SMALL_REGION.fullmatch(value)


def is_item(value):
    if not isinstance(value, dict) or not isinstance(value.get("at"), str) or not isinstance(value.get("bytes"), str):
        return False
    return re.fullmatch("[0-9a-f]{8}", value["at"]) is not None


# By the keys of a test, whether a value may stand there.
FORMAT = {"format": lambda value: is_count(value, JOINED, APART)}
BOTH = {
    "end": lambda value: isinstance(value, str) and END.fullmatch(value),
    "leaf": lambda value: is_count(value, 0, 1 << 53),
    "output": lambda value: isinstance(value, str),
    "path": lambda value: isinstance(value, str) and ENTRIES.fullmatch(value),
    "steps": lambda value: is_count(value, 1, 1_000_000),
}
# And by its format those of the input.
INPUT = {
    JOINED: {
        "input": lambda value: isinstance(value, str),
        "regions": lambda value: isinstance(value, list) and all(map(is_region, value)),
    },
    APART: {"inputs": lambda value: isinstance(value, list) and all(map(is_item, value))},
}


def keys_of(said):
    """The keys that are looked at: the format alone where it is none of the two."""
    if "format" not in said or not FORMAT["format"](said["format"]):
        return FORMAT
    return {**FORMAT, **BOTH, **INPUT[said["format"]]}


def bytes_of(digits):
    return len(str(digits)) // 2


def length_fact(said, is_upgrade):
    """Why the input has the wrong length."""
    if said.get("format") == APART:
        counts = [bytes_of(item["bytes"]) for item in said.get("inputs") or [] if is_item(item)]
        lengths = "no region" if not counts else "a region with no byte" if 0 in counts else f"{sum(counts)} bytes of input"
        return f"it has {lengths}, and 1 to {MOST_INPUT:,} may be, in regions of one or more"
    given, asked = bytes_of(said.get("input")), sum(int(word.partition(":")[2]) for word in filter(is_region, test_regions(said)))
    if is_upgrade and given == asked:
        return f"format 2 has no text of it: it has {given} bytes, and 1 to {MOST_INPUT:,} may be, in regions of one or more"
    return f"its input has {given} bytes, and its regions {asked}"


def test_facts(said, is_upgrade=False):
    keys = keys_of(said)
    odd = [key for key, may_be in keys.items() if key in said and not may_be(said[key])]
    facts = Facts(missing=", no ".join(key for key in keys if key not in said))
    facts["odd"] = (f"its key `{odd[0]}`" if odd else "a key") + " isn't as it should be" if said else "it is no JSON object"
    facts["length"] = length_fact(said, is_upgrade)
    return facts
