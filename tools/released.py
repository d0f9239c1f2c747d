"""The released program: what the gate proved and built, packed, with a text that names what it was made from.

`release/rvklee.xz` is the program, and `release/rvklee.txt` has the kit, the sum of the sources and the sum of the program. Sums are
SHA-256. The sources are crates.txt, HANDLES, and all code, definitions and proofs of the crates that the program stands on.
"""
import hashlib
import lzma
import os
import pathlib
import tempfile

from tool import TOP

PACKED, TEXT = TOP / "release/rvklee.xz", TOP / "release/rvklee.txt"
NAMES = ("kit", "sources", "program")


def crates_below(name):
    """The crate and all crates of this repository that it stands on."""
    lines = [line.split(":") for line in (TOP / "crates.txt").read_text().splitlines() if ":" in line and line[0] != "#"]
    named, found, left = dict(lines), set(), [name]
    while left:
        crate = left.pop()
        if crate in named and crate not in found:
            found.add(crate)
            left += named[crate].split()
    return found


def sources():
    yield TOP / "crates.txt"
    yield TOP / "HANDLES"
    for crate in sorted(crates_below("rvklee")):
        for folder in ("src", "specs", "proofs"):
            yield from sorted((TOP / "crates" / crate / folder).glob("**/*.*t"))


def sources_sum():
    total = hashlib.sha256()
    for path in sources():
        total.update(f"{path.relative_to(TOP)}\n{hashlib.sha256(path.read_bytes()).hexdigest()}\n".encode())
    return total.hexdigest()


def stamp():
    """What tells, by sizes and times alone, whether the sources are those of an earlier look."""
    total = hashlib.sha256()
    for path in sources():
        about = path.stat()
        total.update(f"{path}\n{about.st_size} {about.st_mtime_ns}\n".encode())
    return total.hexdigest()


def sum_of(data):
    return hashlib.sha256(data).hexdigest()


def record():
    """What the text says of the release, by name; empty where there is none."""
    if not TEXT.exists():
        return {}
    lines = [line.split(": ", 1) for line in TEXT.read_text().splitlines()]
    return {line[0]: line[1] for line in lines if len(line) == 2 and line[0] in NAMES}


def caches():
    """Where programs are kept, in the user's cache folder."""
    return pathlib.Path(os.environ.get("XDG_CACHE_HOME") or pathlib.Path.home() / ".cache") / "rvklee"


def cached(program):
    """Where the unpacked program of this sum stands."""
    return caches() / program[:16] / "rvklee"


def unpack(place, program):
    """Puts the program of this sum to its place, whole or not at all."""
    data = lzma.decompress(PACKED.read_bytes())
    if sum_of(data) != program:
        return False
    place.parent.mkdir(parents=True, exist_ok=True)
    with tempfile.NamedTemporaryFile(dir=place.parent, delete=False) as part:
        part.write(data)
    os.chmod(part.name, 0o755)
    os.replace(part.name, place)
    return True


def are_sources(made, seen):
    """Whether the sources are the release's. Where they are, `seen` keeps their stamp, so that they aren't read each time."""
    here = stamp()
    if seen.exists() and seen.read_text() == here:
        return True
    if made["sources"] != sources_sum():
        return False
    seen.parent.mkdir(parents=True, exist_ok=True)
    seen.write_text(here)
    return True


def released():
    """The path of the released program, where it was made from these very sources; None where it wasn't, or can't be unpacked."""
    made = record()
    if set(made) != set(NAMES) or not PACKED.exists():
        return None
    place = cached(made["program"])
    try:
        if not are_sources(made, place.with_name("sources")):
            return None
        if place.exists() and sum_of(place.read_bytes()) == made["program"]:
            return place
        return place if unpack(place, made["program"]) else None
    except (OSError, lzma.LZMAError):
        return None
