"""What the page of tools/report says, on reports whose truth is known without the tool: by the source of a routine, read by hand,
or by the bytes of a program that is written here. tests/launcher runs these checks, in a folder of their own."""
import json
import math
import os
import pathlib
import re
import shutil
import struct
import subprocess
import sys

TOP = pathlib.Path(__file__).resolve().parent.parent
TRAPS, LTV, LOCK = TOP / "bench/routines/traps.elf", TOP / "examples/ltv.elf", TOP / "examples/lock.elf"
PATCH = TOP / "bench/routines/patch.elf"
# By traps.s, the address of each ECALL that stands behind an instruction which always traps or branches.
DEAD = ("1017c", "10194", "101a4")
# By traps.s, which inputs trap at which instruction: the lowest four bits of an input say where.
TRAPPED = {
    "10154": ["LoadMisaligned: 1 leaf"], "10160": ["StoreMisaligned: 1 leaf"],
    "10178": ["LoadAccess: 1 leaf", "LoadMisaligned: 1 leaf"], "10190": ["StoreAccess: 1 leaf", "StoreMisaligned: 1 leaf"],
    "1019c": ["FetchAccess: 1 leaf", "FetchMisaligned: 1 leaf"], "101a0": ["FetchMisaligned: 1 leaf"],
    "101ac": ["Call: 3 leaves"], "101b8": ["Break: 1 leaf"],
}
# So many input bytes has the program of many leaves, each of which is compared with 0.
BYTES = 9
# What an addr2line says of ltv.elf in these checks, line by line of LINED.
LINED = "int settings_read(void)\n{\n    dead();\n    overrun();\n}\n"
ADDR2LINE = """#!/bin/sh
while read -r address; do
    case $address in
        0x101a4) echo "FOLDER/lined.c:3 (discriminator 2)" ;;
        0x1018c) echo "FOLDER/lined.c:4" ;;
        *) echo "??:?" ;;
    esac
done
"""


class Page:
    """A page as text, with its rows by the addresses of the listing and its sections by their names."""

    def __init__(self, text):
        self.text = text
        self.rows = {address: plain(row) for address, row in re.findall(r'<tr id="at-([0-9a-f]+)"(.*?)</tr>', text, re.DOTALL)}

    def section(self, name):
        return plain(re.search(rf'<h2 id="{name}">(.*?)(?:<h2|$)', self.text, re.DOTALL)[1])

    def body(self):
        return plain(self.text.partition("<main>")[2])

    def head(self):
        return plain(self.text.partition("<h2")[0])


def plain(markup):
    """The text of markup, with a blank for each element."""
    text = re.sub(r"\s+", " ", re.sub(r"<[^>]*>", " ", markup))
    return text.replace("&lt;", "<").replace("&gt;", ">").replace("&#x27;", "'").replace("&amp;", "&")


def report(*words, **how):
    done = subprocess.run([sys.executable, TOP / "tools/report", *words], capture_output=True, text=True, **how)
    return done.returncode, done.stdout, done.stderr


class Pages:
    """The checks. `check(name, is_so, found)` takes note of each, and `tool` is the program that explores."""

    def __init__(self, check, tool):
        self.check, self.tool = check, tool

    def page(self, program, out, *words, **how):
        """Explores a program, and makes its page."""
        os.mkdir(out)
        subprocess.run([self.tool, "explore", *words[:-1], program, out, words[-1]], stdout=subprocess.DEVNULL)
        status, said, err = report(program, out, **how)
        self.check(f"page of {out}", (status, said, err) == (0, f"{out}/report.html\n", ""), (status, said, err))
        text = pathlib.Path(out, "report.html").read_text()
        links, names = set(re.findall(r'href="#([^"]+)"', text)), re.findall(r'id="([^"]+)"', text)
        self.check(f"links of {out}", links <= set(names) and len(names) == len(set(names)), links - set(names))
        return Page(text)

    def has(self, name, text, *wanted):
        for each in wanted:
            self.check(f"the page of {name}", each in text, f"`{each}` isn't in: {text}")

    def whole(self):
        """Nothing is cut, so what no test reaches no input reaches."""
        page = self.page(TRAPS, "traps", "00011000:1")
        head = "each of the 256 inputs is in one of the 18 leaves"
        self.has("traps", page.head(), head, "46 of 49 instructions", "19 of 20 sides")
        self.has("traps", page.section("unreached"), "no input goes there not taken beq s1, s1, 0x101a6 0x101a0")
        dead = {address for address, row in page.rows.items() if "no input gets here" in row}
        self.check("dead instructions of traps", dead == set(DEAD) and "unknown" not in page.body(), dead)
        trapped = {address: re.findall(r"✕ (\w+: \d+ lea(?:f|ves))", row) for address, row in page.rows.items() if "✕" in row}
        self.check("traps of traps", trapped == TRAPPED, trapped)
        self.has("traps", page.section("traps"), "FetchAccess 0x00011000 can't be executed from jalr zero, 0(t3) 0x1019c 1 leaf")
        self.has("traps", page.section("functions"), "0x10100 18 46 of 49 19 of 20 13 no input gets there")

    def cut(self):
        """Runs of twelve steps. The first branch is the tenth: behind it a load traps, or the run is cut two steps later; behind
        the next branch a store traps, or is the last step; all else is cut too."""
        page = self.page(TRAPS, "cut", "--steps", "12", "00011000:1")
        self.has("cut", page.head(), "Of 5 leaves 3 were cut (3 by steps)", "15 of 49 instructions", "4 of 20 sides")
        unknown = [row for row in page.rows.values() if "unknown: 3 cut leaves stop before it" in row]
        # Of the last 24 the listing has six at each end.
        self.check("unknown instructions", len(unknown) == 9 + 1 + 12 and "no input g" not in page.body(), len(unknown))
        self.has("cut", page.section("listing"), "12 words that no test executes: unknown: 3 cut leaves stop before it")
        self.has("cut", page.section("unreached"), "0x10130 to 0x10150 9", "0x1015c 1", "0x10164 to 0x101c0 24")
        places = "1 leaf before lhu t3, 0(s2) 0x10164", "1 leaf before ecall 0x1015c", "1 leaf before bltu t0, t2, 0x10170"
        self.has("cut", page.section("cuts"), "Budget of steps, 12: 3 leaves", *places)

    def full(self):
        """From three nodes on no run is forked. The first branch makes three of one; on one side of it the next branch would fork,
        on the other a load may be misaligned. Neither leaf has a test, so their paths say where that is. Runs of the other program
        write to its code, so there a path says nothing."""
        page = self.page(TRAPS, "full", "--nodes", "3", "00011000:1")
        self.has("full", page.head(), "Of 2 leaves 2 were cut (2 by nodes)", "0 of 49 instructions", "nodes 3, order deepest,")
        places = "1 leaf before beq t0, t2, 0x10160 0x10128 leaf 0", "1 leaf before lw t3, 0(s2) 0x10154 leaf 1"
        self.has("full", page.section("cuts"), "Budget of nodes, 3: 2 leaves", *places)
        self.has("full", page.section("leaves"), "cut by nodes: 2 leaves", "0 no test 10 beq", "1 no test 10 lw")
        self.has("full", page.section("forks"), "0x10124 bltu t0, t2, 0x10154 2 leaves")
        page = self.page(PATCH, "patch", "--nodes", "1", "00011000:1")
        self.has("patch", page.section("cuts"), "1 leaf before a place that isn't known", "Still stands for all inputs")
        self.has("patch", page.section("forks"), "all inputs take one path, as far as it was followed.")

    def earlier(self):
        """A report of before there was a budget of nodes, or an order, has the same page, but for these."""
        shutil.copytree("traps", "earlier")
        file, page = pathlib.Path("earlier/report.json"), pathlib.Path("traps/report.html").read_text()
        said = json.loads(file.read_text())
        del said["budgets"]["nodes"], said["budgets"]["order"]
        file.write_text(json.dumps(said))
        done = report(TRAPS, "earlier")
        self.check("an earlier report", done == (0, "earlier/report.html\n", ""), done)
        without = page.replace("nodes 1000000, order deepest, ", "")
        self.check("the page of an earlier report", without != page and pathlib.Path("earlier/report.html").read_text() == without)

    def lines(self):
        """The lines of source, by a tool that is found on the path. By ltv.c, counted by hand: of five bytes a LEVEL and a
        LIMIT each pass the end in two ways, and the first test of the loop never ends it, so what it would go to is dead."""
        tools = pathlib.Path("lines").resolve()
        tools.mkdir()
        (tools / "lined.c").write_text(LINED)
        (tools / "riscv-addr2line").write_text(ADDR2LINE.replace("FOLDER", str(tools)))
        (tools / "riscv-addr2line").chmod(0o755)
        lined = tools / "lined.elf"
        lined.write_bytes(LTV.read_bytes() + b".debug_line\0")
        page = self.page(lined, "lined", "0002fffb:5", env={**os.environ, "PATH": str(tools)})
        source = page.section("source")
        self.has("lined", source, "1 of 2 lines with instructions are reached by tests", "3 ○ dead(); no input gets here",
                 "4 ● overrun(); ✕ LoadAccess: 2 leaves")
        functions = "_start 18 7 of 7 no branch all is reached", "settings_read 18 47 of 48 15 of 16 4 no input gets there"
        self.has("lined", page.section("functions"), *functions)
        self.has("lined", page.section("unreached"), "0x101a4 <settings_read+0x88> 1 lined.c:3")

    def many(self):
        """A program with a leaf for each set of its bytes that are 0, and the number of the others as its status."""
        pathlib.Path("many.elf").write_bytes(many_program())
        page = self.page("many.elf", "many", f"00011000:{BYTES}")
        words, sides = 3 + 3 * BYTES, 2 * BYTES
        figures = f"{2 ** BYTES} leaves", f"{words} of {words} instructions", f"{sides} of {sides} sides"
        self.has("many", page.head(), *figures)
        for status in range(1, BYTES):
            count = math.comb(BYTES, status)
            more = [f"and {count - 20} more, in leaf-"] if count > 20 else []
            self.has("many", page.section("leaves"), f"exit {status}: {count} leaves", *more)
        self.check("rows of many", page.text.count('id="leaf-') < 300 and len(page.text) < 500_000, len(page.text))

    def doubts(self):
        """Files that don't fit together: then nothing is said of what no input reaches."""
        status, _, err = report(LOCK, "lined", "other.html")
        page = Page(pathlib.Path("other.html").read_text())
        self.check("another program", status == 0 and "no input g" not in page.body(), (status, page.head()))
        self.has("another program", err + page.head(), "don't fit together, as the page says", "These files don't fit together.")
        shutil.copytree("traps", "lost")
        pathlib.Path("lost/test-000003.json").unlink()
        report(TRAPS, "lost")
        page = Page(pathlib.Path("lost/report.html").read_text())
        self.has("a report without a test", page.head(), "Of leaf 3 the test is missing")
        shutil.copy("lost/test-000002.json", "lost/test-000003.json")
        shutil.copy("lost/test-000001.json", "lost/test-000002.json")
        report(TRAPS, "lost")
        page = Page(pathlib.Path("lost/report.html").read_text())
        self.has("a report with other tests", page.head(), "Of leaf 2, 3 the test is missing")
        self.faults()

    def faults(self):
        """What isn't there is a sentence and status 1."""
        pathlib.Path("lost/leaf-000003.smt2").unlink()
        pathlib.Path("part").mkdir()
        shutil.copy("traps/leaf-000001.smt2", "part")
        for words, said in [
            ((TRAPS, "lost"), "lost/leaf-000003.smt2: No such file or directory\n"),
            ((TRAPS, "part"), "part has a part of a report, and no report.json"),
            ((TRAPS, "none"), "no folder none"),
            ((TRAPS, ""), "OUT is an empty word\n"),
            ((TRAPS, "."), ". has no report"),
            (("none", "traps"), "none: no such file\n"),
            (("many.elf", "lined"), "the report's input 0002fffb:5 is on no page of many.elf"),
            ((TRAPS, "traps", "none/page"), "none/page: No such file or directory\n"),
            ((TRAPS,), "usage: report PROGRAM OUT [HTML]\n"),
        ]:
            status, out, err = report(*words)
            is_sentence = err.startswith(said) and err.count("\n") == 1
            self.check(f"report {words}", (status, out) == (1, "") and is_sentence, (status, out, err))

    def all(self):
        for part in (self.whole, self.cut, self.full, self.earlier, self.lines, self.many, self.doubts):
            part()


def many_program():
    """LUI s0, 0x11; for each byte i LBU a1, i(s0); BEQ a1, x0, 8; ADDI a0, a0, 1; then ADDI a7, x0, 93; ECALL."""
    words = [0x00011437]
    for place in range(BYTES):
        words += [place << 20 | 0x00044583, 0x00058463, 0x00150513]
    code = b"".join(struct.pack("<I", word) for word in [*words, 0x05D00893, 0x00000073])
    head = b"\x7fELF\x01\x01\x01" + bytes(9) + struct.pack("<HHIIIIIHHHHHH", 2, 243, 1, 0x10000, 52, 0, 0, 52, 32, 2, 0, 0, 0)
    rows = (1, 116, 0x10000, 0x10000, len(code), len(code), 5, 4), (1, 116, 0x11000, 0x11000, 0, BYTES, 6, 4)
    return head + b"".join(struct.pack("<8I", *row) for row in rows) + code
