"""The unproved program of changed sources: `rt try` compiles it once, and it is kept in the user's cache folder by their sum.

`rt try` compiles a program into a folder for temporary files, runs it, and removes it. So it is given words by which the program
has to read a pipe: once it waits there it is whole, and is copied; then the pipe is closed, and the run ends with a refusal.
"""
import contextlib
import errno
import os
import pathlib
import shutil
import subprocess
import tempfile
import threading
import time

from child import Child
from released import caches, sources_sum

# So many programs are kept, those that were used last.
MOST_KEPT = 3
PREFIX = "unproved-"
# So often it is looked whether the program waits for the pipe.
TURN = 0.1


def place_of(total):
    return caches() / f"{PREFIX}{total[:16]}" / "rvklee"


def kept():
    """The program of these sources that was compiled before, or None."""
    place = place_of(sources_sum())
    if not place.exists():
        return None
    with contextlib.suppress(OSError):
        os.utime(place)
    return place


def keep(program, total):
    """Puts a program into the cache folder, whole or not at all."""
    place = place_of(total)
    place.parent.mkdir(parents=True, exist_ok=True)
    with tempfile.NamedTemporaryFile(dir=place.parent, delete=False) as part:
        part.write(program.read_bytes())
    os.chmod(part.name, 0o755)
    os.replace(part.name, place)
    return place


def prune():
    """Removes the programs that weren't used for longest."""
    with contextlib.suppress(OSError):
        found = sorted(caches().glob(f"{PREFIX}*/rvklee"), key=lambda each: each.stat().st_mtime)
        for old in found[:-MOST_KEPT]:
            shutil.rmtree(old.parent)


class Compilation:
    """A run of `rt try` that compiles. `program` is where the program is kept, or None; `was_compiled` says whether there was
    one, `noise` is what the toolchain says, and `status` and `ending` are those of its run."""

    def __init__(self, rt, crate):
        self.rt, self.crate, self.total = rt, crate, sources_sum()
        self.program, self.was_compiled, self.noise, self.status, self.ending = None, False, b"", None, None

    def run(self, seconds, shows):
        with tempfile.TemporaryDirectory(prefix="rvklee-") as room:
            pipe = pathlib.Path(room, "pipe")
            os.mkfifo(pipe)
            command = [self.rt, "try", "--steps", "1", "--seconds", "86400", "--", "explore", pipe, room, "00000000:1"]
            streams = {"stdin": subprocess.DEVNULL, "stdout": subprocess.PIPE, "stderr": subprocess.PIPE}
            running = Child(command, has_others=True, cwd=self.crate, env={**os.environ, "TMPDIR": room}, **streams)
            taking = threading.Thread(target=self.take, args=(running.process, pathlib.Path(room), pipe))
            taking.start()
            _, self.noise = running.wait(seconds, shows)
            taking.join()
            self.status, self.ending = running.process.returncode, running.ending
        return self

    def take(self, process, room, pipe):
        """Takes the program once it waits for the pipe, and lets it go on."""
        while process.poll() is None:
            writer = opened(pipe)
            if writer is not None:
                with os.fdopen(writer, "wb"):
                    self.copy([each for each in room.glob("*/*/program") if os.access(each, os.X_OK)])
                return
            time.sleep(TURN)

    def copy(self, programs):
        """Keeps the newest of these, where the sources are still those that it was made from."""
        self.was_compiled = bool(programs)
        with contextlib.suppress(OSError):
            if programs and sources_sum() == self.total:
                self.program = keep(max(programs, key=lambda each: each.stat().st_mtime), self.total)
                prune()


def opened(pipe):
    """The pipe's end to write to, or None as long as nobody reads from it."""
    try:
        return os.open(pipe, os.O_WRONLY | os.O_NONBLOCK)
    except OSError as why:
        if why.errno != errno.ENXIO:
            raise
        return None
