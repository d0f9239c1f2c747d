"""Programs that take as much as they can of one thing, with what is known of them by their words. tests/hostile explores them."""
import dataclasses
import pathlib
import sys

from rows import ALL, CODE, DATA, EXIT, program

sys.path.insert(0, str(pathlib.Path(__file__).resolve().parent.parent / "bench/routines"))

from encoding import branch_word, immediate_word, jump_word, load_word, number, register_word, store_word  # noqa: E402

ZERO, RA, SP, T0, T1, T2, S0, A0, A1, A2, A7 = 0, 1, 2, 5, 6, 7, 8, 10, 11, 12, 17
T3, T4, T5, T6 = 28, 29, 30, 31
BYTE, WORD, BYTE_UNSIGNED = 0, 2, 4
EQ, NE, LESS, BELOW, NOT_BELOW = 0, 1, 4, 6, 7
# Of the rows of M: MUL, MULH, DIV.
PRODUCT, UPPER, QUOTIENT = 0, 1, 4
ECALL = 0x00000073
REPORT = r"leaves \d+ finished \d+ cut \d+ tests \d+ steps \d+"
KILO, MEGA = 1_000, 1_000_000
# Bytes of memory, as docs/GUIDE.md has them: "How much memory a run takes".
TOOL, NODE, STEP, TERM, OUTPUT, STORED = 16 * MEGA, 10 * KILO, 40, 200, 100, 5 * KILO


@dataclasses.dataclass
class Hostile:
    """A program, how it is explored, and what is said then, as a pattern. Of what takes memory it has so much: nodes; over all
    leaves the steps, the terms that they rest on and the bytes of their output; over all runs that wait at once the pages that they
    wrote; and the bytes of a question. Where it is large, half of its memory can't be enough."""
    name: str
    file: bytes
    region: str
    options: list
    said: str
    nodes: int = 1
    steps: int = 0
    terms: int = 0
    written: int = 0
    stored: int = 0
    asked: int = 0
    output: str = None
    is_large: bool = False

    def bound(self):
        leaves = NODE * self.nodes + STEP * self.steps + TERM * self.terms + OUTPUT * self.written
        return TOOL + leaves + STORED * self.stored + self.asked


def add(value, source, rd):
    return immediate_word(value, source, 0, rd)


def jump_to(register):
    return immediate_word(0, register, 0, ZERO, 0x67)


def base(register=T0):
    return number(register, DATA)


def loop(body, counter):
    """A body again and again, until the counter is 0."""
    turn = [*body, add(-1, counter, counter)]
    return [*turn, branch_word(-4 * len(turn), ZERO, counter, NE)]


def forever(body):
    return [*body, jump_word(-4 * len(body))]


def leaf_steps(leaves, steps=10_000):
    """The steps of so many leaves, each of which may have made all that are allowed."""
    return leaves * steps


def writes():
    """It writes 4,096 bytes in each third step: one that isn't known, and zeros."""
    turns, first = 500, [*base(A1), *number(A2, 4096), add(64, ZERO, A7)]
    words = [*first, *forever([add(1, ZERO, A0), ECALL])]
    steps, written = len(first) + 3 * turns, 4096 * turns
    file = program(words, size=4096)
    return Hostile("writes", file, "00011000:1", ["--steps", str(steps)], "leaves 1 finished 0 cut 1 tests 1 steps 0", steps=steps,
                   written=written, output="00" * written, is_large=True)


def quotients(name, turns, each, divisor, region):
    """It divides a word again and again, so many terms each time, writes what comes of it and exits."""
    body = [register_word(1, T2, T1, QUOTIENT, T1), register_word(0, T2, T1, 0, T1)]
    show = [store_word(8, T1, T0, WORD), add(1, ZERO, A0), add(8, T0, A1), add(4, ZERO, A2), add(64, ZERO, A7), ECALL]
    words = [*base(), load_word(0, T0, WORD, T1), divisor, *number(T3, turns)]
    count = len(words) + 4 * turns + len(show) + len(EXIT)
    return Hostile(name, program([*words, *loop(body, T3), *show, *EXIT]), region, ["--steps", "1000000"],
                   f"leaves 1 finished 1 cut 0 tests 1 steps {count}", steps=count, terms=each * turns, is_large=True)


def terms():
    """It divides by another word, 15 terms each time."""
    return quotients("terms", 100_000, 15, load_word(4, T0, WORD, T2), "00011000:8")


def stages():
    """It divides by a number, which is written out in 400 terms at most."""
    return quotients("stages", 2_000, 400, add(3, ZERO, T2), "00011000:4")


def branches():
    """A branch to itself: a path of a million branches."""
    return Hostile("branches", program([branch_word(0, ZERO, ZERO, EQ)]), "00011000:1", ["--steps", "1000000"],
                   "leaves 1 finished 0 cut 1 tests 1 steps 0", steps=1_000_000)


def thresholds():
    """It asks whether a word is below 1, 2, 3 and on. Each fork ends one run and lets one go on, so 301 nodes have 150 leaves of
    the former, and the last of the latter."""
    forks, first = 150, [*base(), load_word(0, T0, WORD, T1), add(0, ZERO, T2)]
    words = [*first, add(1, T2, T2), branch_word(8, T2, T1, BELOW), jump_word(-8), *EXIT]
    # Of the run that ends in a turn: two steps in each, a jump behind all but the last, and the exit.
    steps = sum(len(first) + 3 * turn - 1 + len(EXIT) for turn in range(1, forks + 1))
    return Hostile("thresholds", program(words), "00011000:4", ["--nodes", "300"],
                   f"leaves {forks + 1} finished {forks} cut 1 tests {forks} steps {steps}", nodes=301,
                   steps=leaf_steps(forks + 1, 500), terms=(forks + 1) * 2 * forks)


def pairs():
    """It compares each of 256 bytes with each behind it. All forks have two sides, and no run of 10,000 steps gets to the end."""
    row = [load_word(0, T2, BYTE_UNSIGNED, T4), branch_word(8, T4, S0, NE), add(1, T6, T6), add(1, T2, T2)]
    inner = [branch_word(4 * len(row) + 8, T5, T2, NOT_BELOW), *row]
    inner.append(jump_word(-4 * len(inner)))
    outer = [load_word(0, T1, BYTE_UNSIGNED, S0), add(1, T1, T2), *inner, add(1, T1, T1)]
    words = [*base(), add(256, T0, T5), add(0, T0, T1), *outer, branch_word(-4 * len(outer), T5, T1, BELOW), *EXIT]
    return Hostile("pairs", program(words, size=4096), "00011000:256", ["--nodes", "300", "--conflicts", "20"],
                   "leaves 151 finished 0 cut 151 tests 0 steps 0", nodes=301, steps=leaf_steps(151), terms=151 * 3 * 256)


def pointers():
    """It stores through each word of its input. The first may be anywhere: of its pages 16 are followed."""
    words = [*base(), add(256, T0, T5), load_word(0, T0, WORD, T1), store_word(0, T1, T1, WORD), add(4, T0, T0),
             branch_word(-12, T5, T0, BELOW), *EXIT]
    return Hostile("pointers", program(words, ALL, 4096), "00011000:256", ["--nodes", "300"], REPORT, nodes=316,
                   steps=leaf_steps(316, 1_000), terms=316 * 100)


def near_pointers():
    """It stores each byte of its input at that byte's place among them, so that later bytes may be other than they were."""
    count = 16
    words = [*base(), add(count, T0, T5), load_word(0, T0, BYTE_UNSIGNED, T1), register_word(0, T1, T0, 0, T2),
             store_word(0, T1, T2, BYTE), add(1, T0, T0), branch_word(-16, T5, T0, BELOW), *EXIT]
    return Hostile("near_pointers", program(words, size=4096), f"00011000:{count}", ["--nodes", "300"], REPORT, nodes=316,
                   steps=leaf_steps(316, 1_000), terms=316 * 1_600 * count)


def pages():
    """It forks on the bits of a byte, and behind each fork stores a word that isn't known in each of 200 pages. In the order
    `oldest` as many runs wait as there are leaves."""
    fork = [immediate_word(1, T5, 7, S0), branch_word(8, ZERO, S0, EQ), add(1, T6, T6), immediate_word(1, T5, 5, T5)]
    store = [*number(T3, 200), add(0, T0, T4), *loop([store_word(0, T5, T4, WORD), add(256, T4, T4)], T3)]
    words = [*base(), load_word(0, T0, BYTE_UNSIGNED, T5), add(8, ZERO, T2), *loop([*fork, *store], T2), *EXIT]
    # A run makes four steps, eight turns and the exit. Of each fork one side has one step more.
    steps = 256 * (4 + 8 * (3 + 3 + 4 * 200 + 2) + len(EXIT)) + 8 * 128
    return Hostile("pages", program(words, size=200 * 256 + 256), "00011000:1", ["--order", "oldest"],
                   f"leaves 256 finished 256 cut 0 tests 256 steps {steps}", nodes=511, steps=steps, terms=256 * 50,
                   stored=256 * 201, is_large=True)


def products():
    """It multiplies two words by one another 50 times, and branches on what comes of it: one question on all."""
    turns, body = 50, [register_word(1, T2, T1, PRODUCT, T1), register_word(0, T2, T1, 0, T1)]
    words = [*base(), load_word(0, T0, WORD, T1), load_word(4, T0, WORD, T2), *number(T3, turns), *loop(body, T3)]
    return Hostile("products", program([*words, branch_word(8, T2, T1, LESS), *EXIT, *EXIT]), "00011000:8", ["--conflicts", "1"],
                   r"leaves 2 finished [12] cut [01] tests [12] steps \d+", nodes=3, steps=leaf_steps(2, 500), terms=2 * 200,
                   asked=turns * 2 * MEGA, is_large=True)


def lookups():
    """It looks up a byte in a page that is all input, by the one that it found before, 20 times, and branches on the last: one
    question on all."""
    turns, body = 20, [register_word(0, T2, T0, 0, T1), load_word(0, T1, BYTE_UNSIGNED, T2)]
    words = [*base(), load_word(0, T0, BYTE_UNSIGNED, T2), *number(T3, turns), *loop(body, T3)]
    return Hostile("lookups", program([*words, branch_word(8, ZERO, T2, EQ), *EXIT, *EXIT]), "00011000:256", ["--conflicts", "1"],
                   r"leaves 2 finished [12] cut [01] tests [12] steps \d+", nodes=3, steps=leaf_steps(2, 500),
                   terms=2 * 300 * turns, asked=turns * MEGA)


def scatters():
    """It stores an unknown byte at an unknown place of a page, 200 times, and exits with what it finds at another."""
    turns, body = 200, [register_word(0, T2, T0, 0, T1), store_word(0, T2, T1, BYTE), add(7, T2, T2), immediate_word(255, T2, 7, T2)]
    first = [*base(), load_word(0, T0, BYTE_UNSIGNED, T2), *number(T3, turns)]
    words = [*first, *loop(body, T3), register_word(0, T2, T0, 0, T1), load_word(0, T1, BYTE_UNSIGNED, A0), add(93, ZERO, A7), ECALL]
    count = len(first) + turns * (len(body) + 2) + 4
    return Hostile("scatters", program(words), "00011000:1", [], f"leaves 1 finished 1 cut 0 tests 1 steps {count}", steps=count,
                   terms=1_600 * turns, is_large=True)


def code():
    """It writes each word of its input over the instruction that comes next, and fetches it."""
    turn = [load_word(0, T0, WORD, T1), store_word(24, T1, T3, WORD), add(0, ZERO, ZERO), add(4, T0, T0)]
    words = [*base(), *number(T3, CODE), *forever(turn)]
    return Hostile("code", program(words, ALL, 4096), "00011000:16", ["--nodes", "300"], REPORT, nodes=316,
                   steps=leaf_steps(316, 1_000), terms=316 * 100)


def stack():
    """It puts the exit into the middle of the stack and jumps there, where nothing may be run: FetchAccess in the next step."""
    words = [add(-2048, SP, T0), *number(T1, EXIT[1]), store_word(0, T1, T0, WORD), *number(T1, ECALL), store_word(4, T1, T0, WORD),
             jump_to(T0)]
    count = len(words) + 1
    return Hostile("stack", program(words), "00011000:1", [], f"leaves 1 finished 1 cut 0 tests 1 steps {count}", steps=count)


def returns():
    """It puts a word of its input where its return address stands and returns, to anywhere."""
    words = [*base(), load_word(0, T0, WORD, T1), store_word(-4, T1, SP, WORD), load_word(-4, SP, WORD, RA), jump_to(RA)]
    return Hostile("returns", program(words), "00011000:4", ["--nodes", "300"], REPORT, nodes=316, steps=leaf_steps(316, 1_000),
                   terms=316 * 100)


MAKERS = [
    writes, terms, stages, branches, thresholds, pairs, pointers, near_pointers, pages, products, lookups, scatters, code, stack,
    returns,
]
PROGRAMS = [make() for make in MAKERS]
