"""What the launcher says: lines on standard error, and on standard output what is the tool's. Where nobody takes it, that changes
nothing, so no stream of Python's is used, which would change the status."""
import contextlib
import os


def put(descriptor, data):
    with contextlib.suppress(OSError):
        while data:
            data = data[os.write(descriptor, data):]


def say(line):
    put(2, f"rvklee: {line}\n".encode(errors="surrogateescape"))


def pass_on(data):
    """Puts to standard output what the tool says there."""
    put(1, data)
