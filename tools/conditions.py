"""A leaf's condition in a form for reading: `b0 - 48 > 9` in place of SMT-LIB's text.

Comparisons and quotients are unsigned; an operand of a signed one is written `signed(x)`, and so is a term widened by its
sign. A term widened by zeros is written as the term. `x[7:0]` are bits of a term, `x:y` is one term above another.
"""
import collections
import re

from leaf_text import OPERAND, LeafText

# Longer terms that stand at more than one place get a name, `t12`, and are written once.
LONGEST = 40
NAMED = re.compile(r"\bt\d+\b")
# By the forms of terms, as leaf_text has them.
INFIX = {"(bvadd n n)": "+", "(bvsub n n)": "-", "(bvmul n n)": "*", "(bvudiv n n)": "/", "(bvurem n n)": "%", "(bvand n n)": "&",
         "(bvor n n)": "|", "(bvxor n n)": "^", "(bvshl n n)": "<<", "(bvlshr n n)": ">>", "(bvashr n n)": ">>"}
PREFIX = {"(bvnot n)": "~", "(bvneg n)": "-"}
COMPARED = {f"(ite ({name} n n) (_ bv1 1) (_ bv0 1))": sign for name, sign in (("=", "=="), ("bvult", "<"), ("bvslt", "<"))}
# How tightly a text is bound, from a choice or a comparison to a name.
LOOSE, SUM, PRODUCT, WHOLE = range(4)
MIRRORED = {"==": "==", "!=": "!=", "<": ">", ">=": "<="}
OPPOSITE = {"==": "!=", "!=": "==", "<": ">=", ">=": "<"}


class Term:
    """A term's width and text, and how tightly the text is bound; `parts` of a comparison are its operands around its sign;
    `number` is that of a number."""

    def __init__(self, width, text, bound, parts=None, number=None):
        self.width, self.text, self.bound, self.parts, self.number = width, text, bound, parts, number

    def inside(self, bound=WHOLE):
        """The text as an operand that has to be bound so tightly."""
        return self.text if self.bound >= bound else f"({self.text})"

    def signed(self):
        """The text as a signed number."""
        if self.number is not None:
            return str(self.number - (1 << self.width) if self.number >> self.width - 1 else self.number)
        return self.text if self.bound == WHOLE and self.text.startswith("signed(") else f"signed({self.text})"


def number_text(value):
    return str(value) if value < 10 else f"0x{value:x}"


def number(value, width):
    return Term(width, number_text(value), WHOLE, number=value)


def compare(left, sign, right, is_signed=False):
    """A comparison, with a number on the right; a byte is compared with a character, where that can be shown."""
    parts = left, sign, right, is_signed
    if left.number is not None:
        left, sign, right = right, MIRRORED[sign], left
    texts = [left.signed(), right.signed()] if is_signed else [left.inside(SUM), right.inside(SUM)]
    if not is_signed and right.number is not None and 0x20 < right.number < 0x7F and re.fullmatch(r"b\d+", left.text):
        texts[1] = f"'{chr(right.number)}'"
    return Term(1, f"{texts[0]} {sign} {texts[1]}", LOOSE, parts)


def inverse(term):
    """The complement of one bit."""
    if term.parts:
        left, sign, right, is_signed = term.parts
        return compare(left, OPPOSITE[sign], right, is_signed)
    return Term(1, f"not {term.inside()}", LOOSE)


def joined(form, left, right):
    sign, width = INFIX[form], left.width
    bound = SUM if sign in "+-" else PRODUCT if sign in "*/%" else LOOSE
    if form == "(bvadd n n)" and right.number is not None and right.number >> width - 1:
        return Term(width, f"{left.inside(SUM)} - {number_text((1 << width) - right.number)}", SUM)
    first = left.signed() if form == "(bvashr n n)" else left.inside(bound or WHOLE)
    return Term(width, f"{first} {sign} {right.inside(bound + 1 if bound else WHOLE)}", bound)


def part(high, low, term):
    width = high - low + 1
    return term if width == term.width else Term(width, f"{term.inside()}[{high}:{low}]", WHOLE)


def read(term, terms):
    """A leaf's term, over earlier ones."""
    form, width, operands = term.form, term.width, [terms[place] for place in term.operands]
    if form == "(_ bv# #)":
        return number(term.numbers[0], width)
    if form in INFIX:
        return joined(form, *operands)
    if form == "(bvnot n)" and width == 1:
        return inverse(*operands)
    if form in PREFIX:
        return Term(width, PREFIX[form] + operands[0].inside(), PRODUCT)
    if form in COMPARED:
        return compare(operands[0], COMPARED[form], operands[1], "bvslt" in form)
    if form == "(ite (= n (_ bv1 1)) n n)":
        return Term(width, f"{operands[0].inside()} ? {operands[1].inside()} : {operands[2].inside()}", LOOSE)
    if form == "(concat n n)":
        return Term(width, f"{operands[0].inside()}:{operands[1].inside()}", LOOSE)
    if form == "((_ extract # #) n)":
        return part(*term.numbers, *operands)
    if form == "((_ zero_extend #) n)":
        return Term(operands[0].width + term.numbers[0], operands[0].text, operands[0].bound)
    if form == "((_ sign_extend #) n)":
        return Term(operands[0].width + term.numbers[0], operands[0].signed(), WHOLE)
    return Term(width, term.text, WHOLE)


class Condition:
    """The assertions of a leaf's text and its status, all as texts, and the named terms that they use."""

    def __init__(self, text):
        leaf = LeafText(text)
        self.uses = collections.Counter(OPERAND.findall(text))
        self.terms, self.named = [], []
        for term in leaf.terms:
            self.terms.append(self.short(term.place, read(term, self.terms)))
        self.status_term = None if leaf.status is None else self.terms[leaf.status]
        self.asserted = [self.terms[place].text for place in leaf.asserted]

    def short(self, place, term):
        """The term itself, or its name where it is long and stands at several places. Its definition counts as one."""
        if len(term.text) <= LONGEST or self.uses[str(place)] <= 2 or term.parts:
            return term
        self.named.append((f"t{place}", term.text))
        return Term(term.width, f"t{place}", WHOLE)

    def named_in(self, texts):
        """The named terms that these texts use, directly or through others."""
        used = {name for text in texts for name in NAMED.findall(text)}
        for name, text in reversed(self.named):
            used.update(NAMED.findall(text) if name in used else ())
        return [(name, text) for name, text in self.named if name in used]

    def status(self):
        """The status as a text, or None where it is the same for all inputs of the leaf."""
        term = self.status_term
        return term.text if term and term.number is None else None
