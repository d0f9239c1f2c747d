"""Where the tool's program comes from (built here from these sources, or their release, or none yet), and how it is built."""
import os
import shutil
import subprocess
import sys

from tool import PROGRAM, TOP
from voice import put, say

CRATE = TOP / "crates/rvklee"
# A status that the tool never answers: the toolchain failed.
NO_TOOL = 70


def sources():
    """The paths of all code, definitions and proofs."""
    yield TOP / "crates.txt"
    for crate in os.scandir(TOP / "crates"):
        for part in ("src", "specs", "proofs"):
            for folder, _, names in os.walk(f"{crate.path}/{part}"):
                yield from (f"{folder}/{name}" for name in names if name.endswith("t"))


def is_current():
    if not PROGRAM.exists():
        return False
    built = PROGRAM.stat().st_mtime
    return all(os.stat(source).st_mtime <= built for source in sources())


def program():
    """The program to run, or None where there is none of these sources."""
    if is_current():
        return PROGRAM
    from released import released
    return released()


def rt():
    found = shutil.which("rt")
    if found is None:
        say("the Rattle kit's command `rt` is not on the path")
        sys.exit(NO_TOOL)
    return found


def build():
    """Proves all crates, as many side by side as there are processors, and builds the program."""
    processors = os.cpu_count() or 1
    command = [rt(), "all", "check", "--jobs", str(processors)]
    crates = len(list(TOP.glob("crates/*/src")))
    say(f"{crates} crates are to be proved, {processors} at a time; for the first minutes their types are checked")
    done = 0
    with subprocess.Popen(command, cwd=TOP, stdout=subprocess.PIPE, stderr=subprocess.STDOUT, text=True) as proving:
        log = []
        for line in proving.stdout:
            log.append(line)
            # A crate's output begins with its name; the last such line begins the summary.
            if line.startswith("== ") and line.strip() != "== summary":
                done += 1
                say(f"{line[3:].strip()} is done, {crates - done} left")
    if proving.returncode != 0:
        put(2, "".join(log[-40:]).encode())
        say("not all crates are proved")
        return 1
    # The build ends with a run without words: what that says and answers is of no interest.
    PROGRAM.unlink(missing_ok=True)
    subprocess.run([rt(), "run"], cwd=CRATE, stdin=subprocess.DEVNULL, stdout=subprocess.DEVNULL, stderr=subprocess.DEVNULL)
    say("proved and built" if PROGRAM.exists() else "proved, but not built")
    return 0 if PROGRAM.exists() else 1
