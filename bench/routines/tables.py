"""The tables of brute force, NAME.expected: runs.py, wide.py and examples/count write them, and the checks read them."""
import collections
import pathlib
import re

HERE = pathlib.Path(__file__).resolve().parent
LEAF = re.compile(r"leaf steps (\d+) path (\S*)\.(?: inputs \d+)? first (\w+) (\w+(?: \w+)?) output (\w*)\.")
# A leaf of a table of more than one input byte: the first input that is known of it, and what its run does.
FoundLeaf = collections.namedtuple("FoundLeaf", "steps path first end output")


def region(count):
    """Where so many input bytes of a routine stand, in the tool's words."""
    return f"00011000:{count}"


def names(folder=HERE):
    """The tables of a folder, without `.expected`."""
    return sorted(path.stem for path in folder.glob("*.expected"))


def put(path, text, is_compared):
    """Writes a table, or where it is compared says if it isn't so. Gives whether it is stale."""
    if not is_compared:
        path.write_text(text)
        return False
    if path.exists() and path.read_text() == text:
        return False
    print(f"{path} isn't what brute force says")
    return True


class Table:
    """How a program is explored, and the line that has to be said of it, or None where that isn't foreseen."""

    def __init__(self, path):
        self.name, self.lines = path.stem, path.read_text().splitlines()
        self.program = path.with_name(f"{self.name.split('.')[0]}.elf")
        self.options = (self.behind("options") or "").split()
        self.region = self.behind("input") or region(1)
        self.summary = self.behind("summary")

    def behind(self, word):
        """What stands behind the word that begins a line, or None where no line has it."""
        return next((line[len(word) + 1:] for line in self.lines if line.startswith(word + " ")), None)


class WideTable(Table):
    """A table of more than one input byte."""

    def __init__(self, path):
        super().__init__(path)
        rows = filter(None, map(LEAF.fullmatch, self.lines))
        self.leaves = [FoundLeaf(int(row[1]), row[2], bytes.fromhex(row[3]), row[4], bytes.fromhex(row[5])) for row in rows]


class ByteTable(Table):
    """A table of one input byte: the leaves, each with end and output of all its runs, and where they part by targets, how."""

    def __init__(self, path):
        super().__init__(path)
        self.spent, self.leaves = None, []
        for line in self.lines:
            words = line.split()
            if words[0] == "spent":
                self.spent = {"targets": int(words[1]), "steps": int(words[5]), "path": words[7][:-1], "output": words[9][:-1]}
            elif words[0] == "leaf":
                value = words[6] if len(words) > 5 else None
                self.leaves.append({"steps": int(words[2]), "path": words[4][:-1], "value": value, "runs": {}})
            elif line.startswith("  "):
                self.leaves[-1]["runs"].update(runs_of(line))
        self.leaf_of = {value: leaf for leaf in self.leaves for value in leaf["runs"]}
        assert sorted(self.leaf_of) == list(range(256)), path


def runs_of(line):
    """End and output of each input of a line below a leaf."""
    end, output, inputs = re.fullmatch(r"  (.*) output (\w*)\. inputs (.*)", line).groups()
    for part in inputs.split():
        low, _, high = part.partition("-")
        for value in range(int(low, 16), int(high or low, 16) + 1):
            yield value, (end, output)
