"""A folder for what a script makes."""
import contextlib
import pathlib
import tempfile


@contextlib.contextmanager
def scratch(kept=None):
    """The folder that is to be kept, or where there is none one that is gone afterwards."""
    with tempfile.TemporaryDirectory() as folder:
        yield kept or pathlib.Path(folder)
