"""The tool's words, read as the tool reads them (docs/FORMATS.md, Command line), to say why they make no job.

The tool itself judges: this reading only explains, and tests/launcher compares both on many words.
"""
import collections
import difflib
import re

from own_options import NAMES

Limit = collections.namedtuple("Limit", "most default")
COMMANDS = {"explore": ("PROGRAM", "OUT", "INPUT"), "replay": ("PROGRAM", "TEST"), "bench": ("NUMBER", "WORKERS", "OUT"),
            "upgrade": ("TEST", "OUT"), "audit": ("PROGRAM", "CERT")}
# Of the options of `explore` that take a number.
LIMITS = {"--steps": Limit(1_000_000, 10_000), "--targets": Limit(64, 16), "--conflicts": Limit(100_000, 2_000),
          "--workers": Limit(64, 4), "--nodes": Limit(1_000_000, 1_000_000)}
# What --order takes, the default first.
ORDERS = ("deepest", "oldest", "mixed")
OPTIONS = (*LIMITS, "--order")
# Of the words of `bench`.
NUMBERS = {"NUMBER": 12, "WORKERS": 64}
USAGE = """usage: rvklee explore [--steps N] [--targets N] [--conflicts N] [--workers N] [--nodes N] [--order O] PROGRAM OUT INPUT..
       rvklee replay PROGRAM TEST
       rvklee bench NUMBER WORKERS OUT
       rvklee upgrade TEST OUT
       rvklee audit PROGRAM CERT
"""
REGION = re.compile(r"([0-9a-fA-F]{8}):([0-9]{1,4})")


def near(word, words):
    """A question for the word that was meant, where one is near."""
    found = difflib.get_close_matches(word, words, 1)
    return f", did you mean {found[0]}?" if found else ""


def number_fault(word, most):
    """Why a word is no number from 1 to the most, or None where it is one."""
    if re.fullmatch("[1-9][0-9]{0,8}", word) and int(word) <= most:
        return None
    if re.fullmatch("0[0-9]+", word):
        return "a number has no leading zero"
    return f"from 1 to {most}" if re.fullmatch("[0-9]+", word) else f"a number is decimal digits alone, from 1 to {most}"


def sort_of(option):
    """What an option takes."""
    return "number" if option in LIMITS else "order"


def option_fault(name, value):
    """Why an option doesn't take a value, or None where it does."""
    if name in LIMITS:
        return number_fault(value, LIMITS[name].most)
    return None if value in ORDERS else f"an order is deepest, oldest or mixed{near(value, ORDERS)}"


def region_fault(word):
    """Why a word is no region, or None where it is one."""
    if REGION.fullmatch(word):
        return None
    address, colon, count = word.partition(":")
    digits = re.fullmatch("(?:0[xX])?0*([0-9a-fA-F]{1,8})", address)
    if not digits:
        return "an INPUT is ADDRESS:COUNT, as 00011000:4, or a symbol of PROGRAM, as NAME or NAME+OFFSET:COUNT"
    if not colon:
        return f"the number of bytes is missing, as in {digits[1].zfill(8)}:4"
    if not re.fullmatch("[0-9]{1,4}", count):
        return "behind the colon stands the number of bytes, in one to four decimal digits"
    return f"an address is eight hexadecimal digits, so this is {digits[1].zfill(8)}:{count}"


class Reading:
    """What the words ask for: the command, the values of options, and the places of the other words; whether they call for help;
    and why they make no job. Of an INPUT that is no region, `reasons` may have a better reason by its place."""

    def __init__(self, words, reasons=None):
        self.words, self.reasons = words, reasons or {}
        self.command, self.options, self.plain = None, {}, []
        self.asks_help, self.faults = False, []
        if any(not is_text(word) for word in words):
            self.faults.append("a word isn't UTF-8 text: give the file a plain name")
        elif self.takes_command() and self.takes_words():
            self.judge()

    def has_job(self):
        return not self.faults and not self.asks_help

    def refuse(self, fault):
        """Notes why there is no job, and that reading ends."""
        self.faults.append(fault)
        return False

    def help(self):
        self.asks_help = True
        return False

    def takes_command(self):
        first = self.words[0] if self.words else "help"
        if first in COMMANDS:
            self.command = first
            return True
        if first in ("help", "--help") or first.startswith("-h"):
            self.command = self.words[1] if self.words[1:] and self.words[1] in COMMANDS else None
            return self.help()
        if first.startswith("-") and first != "-":
            return self.refuse(f"{first}: the first word is explore, replay, bench, upgrade or audit")
        return self.refuse(f"{first}: no such command{near(first, COMMANDS) or '; there are explore, replay, bench, upgrade and audit'}")

    def takes_words(self):
        """Sorts the words behind the command: options with their values, and the places of all others."""
        pending, only_plain = None, False
        for place, word in enumerate(self.words[1:], 1):
            if only_plain or word == "-" or not word.startswith("-"):
                if pending and not only_plain:
                    self.options[pending], pending = word, None
                else:
                    self.plain.append(place)
            elif word == "--":
                only_plain = True
            elif word.split("=")[0] == "--help" or word.startswith("-h"):
                return self.help()
            elif pending:
                return self.refuse(f"{pending}: its {sort_of(pending)} is missing before {word}")
            else:
                name, equals, value = word.partition("=")
                if not self.takes_option(name):
                    return False
                self.options[name] = value
                pending = None if equals else name
        return not pending or self.refuse(f"{pending}: its {sort_of(pending)} is missing")

    def takes_option(self, name):
        options = OPTIONS if self.command == "explore" else ()
        if name not in options:
            return self.refuse(f"{name}: no such option of {self.command}" + near(name, [*options, *NAMES]))
        return name not in self.options or self.refuse(f"{name}: it may be given once")

    def judge(self):
        """Looks at what each word says."""
        names = COMMANDS[self.command]
        self.faults += [f"{name} is missing" for name in names[len(self.plain):]]
        if names[-1] != "INPUT":
            self.faults += [f"{self.words[place]}: one word too many" for place in self.plain[len(names):]]
        faults = [(f"{name} {value}", option_fault(name, value)) for name, value in self.options.items()]
        numbers = [(name, self.word(name), most) for name, most in NUMBERS.items()]
        faults += [(f"{name} {value}", number_fault(value, most)) for name, value, most in numbers if value is not None]
        faults += [(self.words[place], self.input_fault(place)) for place in self.inputs()]
        self.faults += [f"{said}: {fault}" for said, fault in faults if fault]
        out = self.folder()
        if self.faults and out is not None and REGION.fullmatch(out):
            self.faults.append(f"{out} is read as OUT, the folder, which stands before the INPUT words")

    def place(self, name):
        """Where the word of this name stands, or None."""
        names = COMMANDS.get(self.command, ())
        return self.plain[names.index(name)] if name in names and names.index(name) < len(self.plain) else None

    def word(self, name):
        place = self.place(name)
        return None if place is None else self.words[place]

    def folder(self):
        """The folder that a report is put into, or None; that of `upgrade` is a file."""
        return None if self.command == "upgrade" else self.word("OUT")

    def inputs(self):
        """The places of INPUT words."""
        return self.plain[2:] if self.command == "explore" else []

    def input_fault(self, place):
        fault = region_fault(self.words[place])
        return fault and self.reasons.get(place, fault)


def is_text(word):
    try:
        return word.encode() is not None
    except UnicodeEncodeError:
        return False
