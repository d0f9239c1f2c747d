"""A test's JSON object as one, whichever of the two formats it has (docs/FORMATS.md, Tests)."""
JOINED, APART = 1, 2


class NoInputs(Exception):
    """What `inputs` has is not as format 2 has it."""


def place(item):
    """The address and the hexadecimal digits of a region with its bytes."""
    at, digits = (item.get("at"), item.get("bytes")) if isinstance(item, dict) else (None, None)
    if not isinstance(at, str) or not isinstance(digits, str):
        raise NoInputs
    return at, digits


def as_joined(test):
    """The test with the keys `regions` and `input` of format 1, which one of format 2 says region by region in `inputs`."""
    if test.get("format") != APART:
        return test
    items = test.get("inputs")
    if not isinstance(items, list):
        raise NoInputs
    places = [place(item) for item in items]
    regions = [f"{at}:{len(digits) // 2}" for at, digits in places]
    return {**test, "regions": regions, "input": "".join(digits for _, digits in places)}
