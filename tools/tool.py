"""The tool, as scripts find it and run it."""
import pathlib
import subprocess

TOP = pathlib.Path(__file__).resolve().parent.parent
# The tool as it was proved and built, and what runs it also where it wasn't.
PROGRAM, LAUNCHER = TOP / "crates/rvklee/out/rvklee", TOP / "rvklee"


def built():
    """The tool that was built. Where it isn't there, the script ends."""
    if not PROGRAM.exists():
        raise SystemExit("run `./rvklee --build` first: it builds the tool")
    return PROGRAM


def run(tool, *words, stderr=None):
    """A run of the tool, with its status and what it says."""
    return subprocess.run([tool, *words], stdout=subprocess.PIPE, stderr=stderr, text=True)


def run_quietly(tool, *words):
    """Likewise, without what goes to standard error, where the launcher says that it runs the tool unproved."""
    return run(tool, *words, stderr=subprocess.DEVNULL)


def said(tool, *words):
    """What the tool says, and how it is with its status where that isn't 0."""
    done = run(tool, *words)
    return done.stdout.strip() + (f" (status {done.returncode})" if done.returncode else "")


def wrong_replays(tool, program, tests):
    """A line for each of these tests whose replay isn't the same."""
    answers = [(test.name, said(tool, "replay", program, test)) for test in tests]
    return [f"{name}: the replay says `{answer}`" for name, answer in answers if answer != "same"]
