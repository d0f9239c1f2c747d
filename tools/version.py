"""What the launcher and the tool are made of: the commit of this folder, and the kit."""
import shutil
import subprocess

from released import TOP, record


def said_by(*command):
    """The first line that a command prints, or nothing where it fails."""
    done = subprocess.run(command, cwd=TOP, stdin=subprocess.DEVNULL, capture_output=True, text=True)
    return done.stdout.partition("\n")[0].strip() if done.returncode == 0 else ""


def commit():
    found = shutil.which("git") and said_by("git", "log", "-1", "--format=%h of %cs")
    changed = found and said_by("git", "status", "--porcelain", "--untracked-files=no")
    return (found or "unknown, as this is no clone") + (", changed since" if changed else "")


def kit():
    found = shutil.which("rt") and said_by("rt", "version")
    return found or record().get("kit") or "unknown, as `rt` isn't on the path"


def text():
    return f"rvklee, commit {commit()}\nkit {kit()}\n"
