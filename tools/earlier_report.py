"""The files of a report in a folder, which are put aside before another run writes there (docs/FORMATS.md, Reports)."""
import pathlib
import re

# `report.html` is the page of tools/report, `tests.h` the header of tools/test-inputs.
NAME = re.compile(r"(leaf-\d{6,}\.smt2|test-\d{6,}\.json|spent-\d{6,}\.txt|events\.txt|report\.json|report\.html|tests\.h)")
EARLIER = "earlier"


def files(folder):
    try:
        return sorted(file for file in pathlib.Path(folder).iterdir() if NAME.fullmatch(file.name) and not file.is_dir())
    except OSError:
        return []


def put_aside(folder, is_fresh):
    """Moves the report to the folder `earlier` in this one, where it takes the place of the one there, or removes it; what is said
    of that, or None where there is no report."""
    found, earlier = files(folder), pathlib.Path(folder, EARLIER)
    if not found:
        return None
    try:
        if not is_fresh:
            earlier.mkdir(exist_ok=True)
        for file in found if is_fresh else files(earlier):
            file.unlink()
        for file in [] if is_fresh else found:
            file.rename(earlier / file.name)
    except OSError as why:
        return f"{folder} has a report of an earlier run, which stays: {why}"
    count = "1 file" if len(found) == 1 else f"{len(found)} files"
    done = f"removed from {folder}" if is_fresh else f"moved from {folder} to {earlier}"
    return f"{count} of an earlier report {done}"
