"""The regions of input bytes, as a report and its tests name them: `00011000:4`."""
import re

REGION = re.compile(r"([0-9a-f]{8}):([1-9][0-9]{0,3})")


def is_region(text):
    return isinstance(text, str) and REGION.fullmatch(text) is not None


def count(region):
    """How many bytes it has."""
    return int(region.split(":")[1])


def addresses(region):
    start = int(region.split(":")[0], 16)
    return range(start, start + count(region))
