"""The source lines that a program's instructions come from: where the file says so, by the first addr2line that can read it (a
RISC-V compiler brings one, and so does LLVM). Without one there are none."""
import os
import pathlib
import re
import subprocess

SECONDS = 30
LINE = re.compile(r"(.+):(\d+)(?: .*)?")


def tools():
    """The names on the path that are an addr2line, those of RISC-V first and the plain one last."""
    found = set()
    for folder in os.get_exec_path():
        try:
            found.update(name for name in os.listdir(folder) if re.fullmatch(r"(.+-)?addr2line(-[\d.]+)?", name))
        except OSError:
            pass
    return sorted(found, key=lambda name: ("riscv" not in name, name.startswith("addr2line"), name))


def answer(tool, path, addresses):
    """What a tool says of the addresses, a line for each, or None where it can't."""
    asked = "".join(f"0x{address:x}\n" for address in addresses)
    try:
        done = subprocess.run([tool, "-e", path], input=asked, capture_output=True, text=True, errors="replace", timeout=SECONDS)
    except (OSError, subprocess.TimeoutExpired):
        return None
    said = done.stdout.splitlines()
    return said if done.returncode == 0 and len(said) == len(addresses) else None


def source_lines(program):
    """The file and the line of each address that has one."""
    addresses = [address for address, _ in program.words]
    # Without this section no tool knows a line.
    if b".debug_line\0" not in program.data or not addresses:
        return {}
    said = next(filter(None, (answer(tool, program.path, addresses) for tool in tools())), [])
    found = {address: LINE.fullmatch(line) for address, line in zip(addresses, said)}
    return {address: (line[1], int(line[2])) for address, line in found.items() if line and int(line[2])}


def read_source(name, program):
    """The lines of a source file, or None where it can't be read; and whether it is newer than the program."""
    path = pathlib.Path(name)
    try:
        return path.read_text(errors="replace").splitlines(), path.stat().st_mtime > program.path.stat().st_mtime
    except OSError:
        return None, False
