"""What `rvklee explore` put into a folder (docs/FORMATS.md). Where a file isn't there, or isn't as it should be, the script that
reads it ends with a sentence."""
import functools
import itertools
import json
import pathlib

import leaf_text
from command_line import ORDERS
from conditions import Condition
from regions import is_region
from test_text import NoInputs, as_joined

# By the keys of a report and of a test, as format 1 has it, that are read here, what stands there.
REPORT = {"budgets": dict, "leaves": list, "regions": list, "summary": dict}
SUMMARY = ("leaves", "finished", "cut", "tests", "steps")
BUDGETS = ("steps", "targets", "conflicts", "workers")
# Why a leaf may be cut; and of which kinds a leaf has a test, where all others have what was spent.
CUTS, TESTED = ("steps", "targets", "conflicts", "nodes"), ("finished", "steps")
# How the runs of a leaf end that exit, but not all with one status.
BY_INPUT = "exit, with a status by the input"
TEST = {"end": str, "input": str, "output": str, "path": str, "regions": list, "steps": int}


def report_folder(word):
    """The folder of a report. Where it isn't one, the script ends."""
    folder = pathlib.Path(word)
    if word and (folder / "report.json").is_file():
        return folder
    if not word or not folder.is_dir():
        raise SystemExit(f"no folder {word}: give the folder OUT of an `explore`" if word else "OUT is an empty word")
    if leaf_files(folder):
        raise SystemExit(f"{word} has a part of a report, and no report.json: `explore` writes that last")
    raise SystemExit(f"{word} has no report: give the folder OUT of an `explore` that ended with status 0")


def read_text(file):
    try:
        return file.read_text()
    except OSError as why:
        raise SystemExit(f"{file}: {why.strerror}") from None
    except UnicodeDecodeError:
        raise SystemExit(f"{file} is no text") from None


def read_object(file, kinds):
    """The JSON object in a file, which has to have these keys with values of these kinds."""
    try:
        said = json.loads(read_text(file))
    except (ValueError, RecursionError):
        raise SystemExit(f"{file} is no JSON text") from None
    has_kinds(file, said, kinds)
    return said


def has_kinds(file, said, kinds):
    wrong = [key for key, kind in kinds.items() if not isinstance(said, dict) or not isinstance(said.get(key), kind)]
    if wrong:
        refuse(file, f"its key `{wrong[0]}`")


def refuse(file, why):
    raise SystemExit(f"{file} isn't as `explore` writes it: {why}")


def read_report(folder):
    file = folder / "report.json"
    report = read_object(file, REPORT)
    for key, names in (("summary", SUMMARY), ("budgets", BUDGETS)):
        if not all(isinstance(report[key].get(name), int) for name in names):
            refuse(file, f"its key `{key}`")
    # Reports of before there was a budget of nodes, or an order, are read too.
    if not isinstance(report["budgets"].get("nodes", 0), int) or report["budgets"].get("order", ORDERS[0]) not in ORDERS:
        refuse(file, "its key `budgets`")
    if not all(isinstance(leaf, dict) for leaf in report["leaves"]) or not all(map(is_region, report["regions"])):
        refuse(file, "its leaves or its regions")
    return report


def read_test(file):
    """A test of either format, with `regions` and `input` as format 1 has them."""
    said = read_object(file, {"format": int})
    try:
        test = as_joined(said)
    except NoInputs:
        refuse(file, "its key `inputs`")
    has_kinds(file, test, TEST)
    try:
        bytes.fromhex(test["input"]), bytes.fromhex(test["output"])
    except ValueError:
        refuse(file, "its input or its output isn't hexadecimal")
    return test


def leaf_files(folder):
    """The files of leaves that are there, whatever the report says."""
    return sorted(folder.glob("leaf-*.smt2"))


def read_tests(folder):
    """The tests by their files."""
    return {file: read_test(file) for file in sorted(folder.glob("test-*.json"))}


def read_head(file):
    """What the comments at the top of a leaf's file say, by their words."""
    try:
        with open(file) as lines:
            head = leaf_text.head("".join(itertools.islice(lines, len(leaf_text.HEAD))))
    except OSError as why:
        raise SystemExit(f"{file}: {why.strerror}") from None
    except UnicodeDecodeError:
        head = {}
    if not set(leaf_text.HEAD) <= set(head) or not (head["steps"] + head["outputs"]).isdecimal():
        refuse(file, "its first lines")
    return head


class Leaf:
    """A leaf's file, and the test or what was spent beside it; of the other there is None. Its text is read when it is asked for,
    since those of a large report don't fit into memory."""

    def __init__(self, file):
        self.file, self.name, rank = file, file.name, file.stem.removeprefix("leaf-")
        head = read_head(file)
        self.rank, self.kind, self.end, self.steps = int(rank), head["kind"], head["end"], int(head["steps"])
        self.path, self.choice_text, self.outputs = head["path"][:-1], head["choices"][:-1], int(head["outputs"])
        self.test_file, spent = file.with_name(f"test-{rank}.json"), file.with_name(f"spent-{rank}.txt")
        self.test = read_test(self.test_file) if self.test_file.exists() else None
        self.spent = spent.read_text().splitlines() if spent.exists() else None

    @property
    def text(self):
        return read_text(self.file)

    @property
    def choices(self):
        return leaf_text.CHOICE.findall(self.choice_text)

    @property
    def entries(self):
        """Those of its path."""
        return leaf_text.ENTRY.findall(self.path)

    @functools.cached_property
    def condition(self):
        try:
            return Condition(self.text)
        except (IndexError, KeyError, ValueError):
            refuse(self.file, "its terms")

    def input(self):
        """The bytes of its test's input, or None where it has no test."""
        return bytes.fromhex(self.test["input"]) if self.test else None

    def output(self):
        """The bytes of its test's output; none where it has no test."""
        return bytes.fromhex(self.test["output"]) if self.test else b""

    def values(self):
        """The values that were found where it was cut by targets, each with an input that shows it, in hexadecimal."""
        return [tuple(line.split()[1:]) for line in (self.spent or [])[2:]]

    def sort(self):
        """`trap`, `cut` or `exit`."""
        return "cut" if self.kind != "finished" else "exit" if self.end == "exit" else "trap"

    def fits_test(self):
        """Whether it has a test where it should, and that is one of its runs by steps and path."""
        if self.test is None or self.kind not in TESTED:
            return self.test is None and self.kind not in TESTED
        return (self.test["steps"], self.test["path"]) == (self.steps, self.path)

    @functools.cached_property
    def said(self):
        """How its runs end, in a few words."""
        if self.kind != "finished":
            return f"cut by {self.kind}"
        if self.end != "exit":
            return f"trap {self.end}"
        return self.test["end"] if self.test and leaf_text.has_one_status(self.text) else BY_INPUT


class ReportFiles:
    """The report, and just the leaves that it has."""

    def __init__(self, folder):
        self.folder, self.report = folder, read_report(folder)
        self.leaves = [Leaf(folder / f"leaf-{rank:06}.smt2") for rank in range(len(self.report["leaves"]))]

    def differing(self):
        """The leaves of which the report says otherwise than their files, or that have another test than they should."""
        keys = ("choices", "end", "kind", "steps")
        for leaf, said in zip(self.leaves, self.report["leaves"]):
            here = leaf.choice_text, leaf.end, leaf.kind, leaf.steps
            if here != tuple(map(said.get, keys)) or not leaf.fits_test():
                yield leaf
