"""A line on a terminal that says how a run is: the time, the memory and the processors that it takes."""
import os
import time

from processes import taken
from voice import put

TO_START, ERASE = "\r", "\x1b[K"


class Progress:
    def __init__(self, pid):
        self.pid, self.began = pid, time.monotonic()
        self.last, self.seconds = self.began, 0.0

    def show(self):
        now, (seconds, memory) = time.monotonic(), taken(self.pid)
        at_once = max(0.0, seconds - self.seconds) / max(now - self.last, 0.1)
        minutes, rest = divmod(int(now - self.began), 60)
        self.draw(f"rvklee: {minutes}:{rest:02}, {memory / 1e6:.0f} MB, {at_once:.1f} of {os.cpu_count()} processors")
        self.last, self.seconds = now, seconds

    def hide(self):
        self.draw("")

    @staticmethod
    def draw(text):
        put(2, (TO_START + ERASE + text).encode())
