"""The launcher's own options, which it takes out of the words before the tool sees them."""
import re

FLAGS = ("--make-out", "--fresh", "--version", "--build")
NAMES = (*FLAGS, "--seconds")
MOST_SECONDS = 10_000_000


class OwnOptions:
    """What was asked of the launcher; `words` are what is left for the tool. Behind a word `--` all are the tool's."""

    def __init__(self, words):
        end = words.index("--") if "--" in words else len(words)
        self.words, self.given, self.seconds, self.fault = [], set(), None, None
        mine = iter(words[:end])
        for word in mine:
            if word in FLAGS:
                self.given.add(word)
            elif word == "--seconds":
                self.take_seconds(next(mine, ""))
            elif word.startswith("--seconds="):
                self.take_seconds(word.partition("=")[2])
            else:
                self.words.append(word)
        self.words += words[end:]

    def take_seconds(self, value):
        if re.fullmatch("[1-9][0-9]{0,8}", value) and int(value) <= MOST_SECONDS:
            self.seconds = int(value)
        else:
            self.fault = f"--seconds {value}: a number of seconds from 1 to {MOST_SECONDS}"
