"""Reads a leaf's text line by line, as docs/FORMATS.md has it, and evaluates its terms as SMT-LIB's theory FixedSizeBitVectors has
them. It shares nothing with the crates, and asks no solver.
"""
from leaf_text import ASSERTED, BYTE, END, HEAD, TERM, term

# Each form of a term, with n in place of its operands and, but for a choice, # in place of its numbers. Its value in Python is
# taken modulo 2^width: of operands a b c, with A B as signed numbers and w the width of the last, and of the numbers by their
# places. Its width is that of operands (w) and numbers (k).
SAME, BIT = lambda w, k: w[0], lambda w, k: 1
FORMS = {
    "b#": ("b[{0}]", lambda w, k: 8),
    "(_ bv# #)": ("{0}", lambda w, k: k[1]),
    "(bvnot n)": ("~{a}", SAME),
    "(bvneg n)": ("-{a}", SAME),
    "(bvadd n n)": ("{a} + {b}", SAME),
    "(bvsub n n)": ("{a} - {b}", SAME),
    "(bvmul n n)": ("{a} * {b}", SAME),
    "(bvudiv n n)": ("({a} // {b} if {b} else -1)", SAME),
    "(bvurem n n)": ("({a} % {b} if {b} else {a})", SAME),
    "(bvand n n)": ("{a} & {b}", SAME),
    "(bvor n n)": ("{a} | {b}", SAME),
    "(bvxor n n)": ("{a} ^ {b}", SAME),
    "(bvshl n n)": ("({a} << {b} if {b} < {w} else 0)", SAME),
    "(bvlshr n n)": ("{a} >> {b}", SAME),
    "(bvashr n n)": ("{A} >> {b}", SAME),
    "(ite (bvult n n) (_ bv1 1) (_ bv0 1))": ("({a} < {b})", BIT),
    "(ite (bvslt n n) (_ bv1 1) (_ bv0 1))": ("({A} < {B})", BIT),
    "(ite (= n n) (_ bv1 1) (_ bv0 1))": ("({a} == {b})", BIT),
    "(ite (= n (_ bv1 1)) n n)": ("({b} if {a} == 1 else {c})", lambda w, k: w[1]),
    "((_ extract # #) n)": ("{a} >> {1}", lambda w, k: k[0] - k[1] + 1),
    "((_ zero_extend #) n)": ("{a}", lambda w, k: w[0] + k[0]),
    "((_ sign_extend #) n)": ("{A}", lambda w, k: w[0] + k[0]),
    "(concat n n)": ("({a} << {w} | {b})", lambda w, k: w[0] + w[1]),
}


class NoLeaf(Exception):
    """The text is none of a leaf."""


def valued(found, widths):
    """A term's value in Python, and its width."""
    if found.form not in FORMS:
        raise NoLeaf(found.text)
    names = {}
    for letter, operand in zip("abc", found.operands):
        name, sign = f"n{operand}", 1 << widths[operand] - 1
        names |= {letter: name, letter.upper(): f"({name} - (({name} & {sign}) << 1))", "w": widths[operand]}
    value, width = FORMS[found.form]
    return value.format(*found.numbers, **names), width([widths[operand] for operand in found.operands], found.numbers)


class LeafValues:
    """What stands in the text: of the asserted terms, the status (or None) and the output their numbers."""

    def __init__(self, text):
        self.lines = text.splitlines()
        self.place = self.take_head()
        code = self.take_terms()
        self.status, self.output = self.take_bytes()
        self.asserted = [int(match[1]) for match in self.take(ASSERTED)]
        if len(code) != self.nodes or self.lines[self.place:] != END.splitlines() or not text.endswith(")\n"):
            raise NoLeaf(f"its end: {self.lines[self.place:]}")
        made = {}
        exec(f"def values(b):\n{''.join(code)} return [{', '.join(f'n{place}' for place in range(len(code)))}]\n", made)
        # The values of all terms on some input bytes.
        self.values = made["values"]

    def take_head(self):
        for line, word in zip(self.lines, HEAD):
            if not line.startswith(f"; {word} "):
                raise NoLeaf(line)
        self.inputs, self.nodes, self.outputs = (int(line.split()[2]) for line in self.lines[6:9])
        wanted = ["(set-logic QF_ABV)", *(f"(declare-fun b{place} () (_ BitVec 8))" for place in range(self.inputs))]
        wanted += ["(declare-fun base () (Array (_ BitVec 8) (_ BitVec 8)))"]
        if self.lines[9:9 + len(wanted)] != wanted:
            raise NoLeaf("its declarations")
        return 9 + len(wanted)

    def take(self, pattern):
        """The lines from here on that are so, one after another."""
        while match := pattern.fullmatch(self.lines[self.place]):
            yield match
            self.place += 1

    def take_terms(self):
        """For each term a line of Python."""
        widths, code = [], []
        for match in self.take(TERM):
            found = term(*match.groups())
            value, width = valued(found, widths)
            if (found.place, found.width) != (len(widths), width):
                raise NoLeaf(match[0])
            code.append(f" n{len(widths)} = {value} & {(1 << width) - 1}\n")
            widths.append(width)
        return code

    def take_bytes(self):
        found = [(match[1], int(match[2])) for match in self.take(BYTE)]
        names = ["status"] * (self.lines[5] == "; end exit") + [f"out{number}" for number in range(self.outputs)]
        if [name for name, _ in found] != names:
            raise NoLeaf("its status and output")
        numbers = [number for _, number in found]
        return (numbers[0], numbers[1:]) if names[:1] == ["status"] else (None, numbers)

    def holds(self, values, but=0):
        """Whether the condition holds on these values of its terms, but for some of the last assertions."""
        return all(values[number] == 1 for number in self.asserted[:len(self.asserted) - but])

    def end(self, values):
        """The status and the output on these values of its terms."""
        return None if self.status is None else values[self.status], bytes(values[number] for number in self.output)
