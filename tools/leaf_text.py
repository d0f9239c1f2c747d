"""What the lines of a leaf's text say (docs/FORMATS.md). It shares nothing with the crates."""
import collections
import re

HEAD = ["rvklee leaf", "kind", "choices", "path", "steps", "end", "inputs", "nodes", "outputs"]
HEAD_LINE = re.compile(rf"^; ({'|'.join(HEAD)}) (.*)$", re.MULTILINE)
CHOICE = re.compile(r"[NYR]|=[0-9a-f]{8}")
# Of a path.
ENTRY = re.compile(r"[NT]|@[0-9a-f]{8}")
TERM = re.compile(r"\(define-fun n(\d+) \(\) \(_ BitVec (\d+)\) (.*)\)")
OPERAND = re.compile(r"\bn(\d+)")
BYTE = re.compile(r"\(define-fun (status|out\d+) \(\) \(_ BitVec 8\) n(\d+)\)")
ASSERTED = re.compile(r"\(assert \(= n(\d+) \(_ bv1 1\)\)\)")
STATUS = re.compile(r"^\(define-fun status \(\) \(_ BitVec 8\) (n\d+)\)$", re.MULTILINE)
# What stands behind the last assertion.
END = "(check-sat)\n(exit)\n"
# A term's form is its text with n in place of its operands and, but for a choice, # in place of its numbers.
Term = collections.namedtuple("Term", "place width text form operands numbers")


def head(text):
    """What the comments at the top say, by their words."""
    return dict(HEAD_LINE.findall(text))


def has_one_status(text):
    """Whether the status of a leaf that exits is a number."""
    status = STATUS.search(text)
    return bool(status) and f"\n(define-fun {status[1]} () (_ BitVec 8) (_ bv" in text


def term(place, width, text):
    """The term of a line that TERM matches, by its groups."""
    bare = OPERAND.sub("n", text)
    form = bare if bare.startswith("(ite") else re.sub(r"\d+", "#", bare)
    operands, numbers = ([int(word) for word in found] for found in (OPERAND.findall(text), re.findall(r"\d+", bare)))
    return Term(int(place), int(width), text, form, operands, numbers)


class LeafText:
    """The terms, and the places of those that are asserted and of the status, or None. Whether each line stands where it may is
    leaf_values' matter."""

    def __init__(self, text):
        self.lines = text.splitlines()
        self.terms = [term(*found) for found in self.found(TERM)]
        named = dict(self.found(BYTE))
        self.status = int(named["status"]) if "status" in named else None
        self.asserted = [int(place) for place, in self.found(ASSERTED)]

    def found(self, pattern):
        return [match.groups() for match in map(pattern.fullmatch, self.lines) if match]
