"""A run of the tool, as it was built or unproved: what it answered, and how the launcher ended it."""
import os
import signal
import subprocess
import time

from building import CRATE, NO_TOOL, program, rt
from child import INTERRUPTED, Child
from compiled import Compilation, kept
from voice import pass_on, put, say

WAS_COMPILED = """not built on this machine, and the release is of other sources: this run is of the unproved program,
compiled earlier. `./rvklee --build`, or .ci/run, proves and builds it"""
IS_COMPILED = """not built on this machine, and the release is of other sources: this run is of the unproved program, which is
compiled first (about a minute) and kept for later runs. `./rvklee --build`, or .ci/run, proves and builds it"""
NOT_KEPT = "what was compiled can't be run: the sources changed meanwhile, or the user's cache folder can't be written"
WENT_WRONG = "the unproved program went wrong: `rt try` in crates/rvklee, with these words behind `--`, says where"


class ToolRun:
    """A run for the words of a reading. `status` is below 0 where a signal ended it, and `ending` says where the launcher did."""

    def __init__(self, reading, seconds=None, shows=False):
        self.reading, self.seconds, self.left, self.shows = reading, seconds, seconds, shows
        self.program, self.status, self.ending, self.said = program(), None, None, None

    def start(self):
        is_proved = self.program is not None
        if not is_proved:
            self.compile()
        if self.program is not None:
            # What goes to a terminal is held back until the line of the progress is gone.
            held = subprocess.PIPE if self.shows and os.isatty(1) else None
            running = Child([self.program, *self.reading.words], stdout=held)
            self.said, _ = running.wait(self.left, self.shows)
            self.status, self.ending = running.process.returncode, running.ending
            if self.said is not None:
                pass_on(self.said)
        if not is_proved and self.status == -signal.SIGABRT:
            say(WENT_WRONG)
            self.status = NO_TOOL
        return self

    def compile(self):
        """Finds the unproved program, or compiles it. Where that fails there is none, and the status says so."""
        self.program = kept()
        for line in (WAS_COMPILED if self.program else IS_COMPILED).splitlines():
            say(line)
        if self.program:
            return
        began = time.monotonic()
        done = Compilation(rt(), CRATE).run(self.seconds, self.shows)
        self.program, self.ending = None if done.ending else done.program, done.ending
        if self.seconds is not None:
            self.left = max(0.0, self.seconds - (time.monotonic() - began))
        if self.ending:
            self.status = -signal.SIGINT if self.ending == INTERRUPTED else -signal.SIGTERM
        elif self.program is None and done.status < 0:
            self.status = done.status
        elif self.program is None:
            put(2, done.noise)
            say(NOT_KEPT if done.was_compiled else "the program wasn't compiled")
            self.status = NO_TOOL

    def line(self):
        """What the tool printed. Where that went to the caller alone it is asked again, which is quick of a refusal; not where a
        file is a pipe, which can't be read again."""
        if self.said is None:
            files = [self.reading.word(name) for name in ("PROGRAM", "TEST", "CERT") if self.reading.word(name) is not None]
            if not all(map(os.path.isfile, files)):
                return ""
            self.said = subprocess.run([self.program, *self.reading.words], stdout=subprocess.PIPE).stdout
        return self.said.decode(errors="replace")
