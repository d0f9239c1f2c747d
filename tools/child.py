"""Runs the tool as a child so that a caller sees what the tool itself would show: its files, signals and status are the caller's.

Where somebody looks, a line says every two seconds how the run is; where it has a limit of seconds, it is ended there.
"""
import contextlib
import os
import signal
import subprocess
import sys
import time

from processes import below, table
from progress import Progress

FORWARDED = (signal.SIGINT, signal.SIGTERM, signal.SIGHUP, signal.SIGQUIT, signal.SIGUSR1, signal.SIGUSR2)
# So often a watched run is looked at.
TURN = 2.0
# So long a run may take to end once it is asked to.
GRACE = 5.0
# How the launcher ended a run.
INTERRUPTED, OUT_OF_TIME = "interrupted", "out of time"
SET_DEATH_SIGNAL = 1
try:
    import ctypes
    LIBC = ctypes.CDLL(None)
except (ImportError, OSError):
    LIBC = None


def die_with_parent():
    """A launcher that is killed takes the tool with it, as if it were the tool."""
    if LIBC:
        LIBC.prctl(SET_DEATH_SIGNAL, signal.SIGKILL)


class Child:
    """A run of a command. `ending` says where the launcher ended it. A command that starts others has a session of its own: a
    terminal's signal goes to the launcher alone then, which finds those others while the command is still there."""

    def __init__(self, command, has_others=False, **how):
        self.has_others, self.ending, self.before = has_others, None, {}
        self.process = subprocess.Popen(command, close_fds=False, preexec_fn=die_with_parent, start_new_session=has_others, **how)
        for number in FORWARDED:
            # What the caller has ignored stays so, for the tool too.
            if signal.getsignal(number) != signal.SIG_IGN:
                self.before[number] = signal.signal(number, self.forward)

    def forward(self, number, _frame):
        if number == signal.SIGINT:
            self.ending = self.ending or INTERRUPTED
        self.send(number)

    def send(self, number):
        """Sends a signal to the command, and where it starts others to them too."""
        started = below(self.process.pid, table())[1:] if self.has_others else []
        self.process.send_signal(number)
        for pid in started:
            with contextlib.suppress(OSError):
                os.kill(pid, number)

    def wait(self, seconds=None, shows=False):
        """Waits for the end, and gives what came through pipes."""
        progress = Progress(self.process.pid) if shows else None
        try:
            return self.wait_within(seconds, progress)
        finally:
            for number, handler in self.before.items():
                signal.signal(number, handler)
            if progress:
                progress.hide()

    def wait_within(self, seconds, progress):
        ends = None if seconds is None else time.monotonic() + seconds
        while True:
            left = None if ends is None else max(0.0, ends - time.monotonic())
            turns = [each for each in (left, progress and TURN) if each is not None]
            try:
                return self.process.communicate(timeout=min(turns, default=None))
            except subprocess.TimeoutExpired:
                if ends is not None and ends <= time.monotonic():
                    return self.end()
                if progress:
                    progress.show()

    def end(self):
        self.ending = OUT_OF_TIME
        for number, grace in ((signal.SIGTERM, GRACE), (signal.SIGKILL, None)):
            self.send(number)
            with contextlib.suppress(subprocess.TimeoutExpired):
                return self.process.communicate(timeout=grace)


def end_as(status):
    """Ends the launcher as its child ended: with the status, or where that is below 0 by the signal."""
    if status < 0:
        with contextlib.suppress(OSError):
            signal.signal(-status, signal.SIG_DFL)
        os.kill(os.getpid(), -status)
    sys.exit(status)
