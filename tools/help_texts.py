"""What `--help` says: what each command does, its options with their ranges, an example, and the statuses."""
from command_line import LIMITS, ORDERS

ALL = """
rvklee finds the paths of RV32IM firmware: for each a condition on the input bytes, and a test that takes it.

  explore   runs a program with some bytes as input, and puts each path and its test into a folder
  replay    runs a test again, and says whether the run is as the test says
  bench     explores a program that it generates, with 2^NUMBER paths
  upgrade   writes a test of format 1 in format 2
  audit     checks a certificate of a program's leaves, and trusts nothing of how they were found

`rvklee COMMAND --help` says more of each; docs/GUIDE.md goes from a C routine to its tests, docs/FORMATS.md has all texts.
"""
EXPLORE = """
rvklee explore runs PROGRAM with the INPUT bytes symbolic. For each path OUT gets its condition (leaf-NNNNNN.smt2) and a test
(test-NNNNNN.json), and in all events.txt and report.json.

  PROGRAM   a static RV32IM executable, an ELF32 file of at most 1 MiB
  OUT       a folder that is there (--make-out makes it)
  INPUT     ADDRESS:COUNT, eight hexadecimal digits and a number of bytes; or by a symbol of PROGRAM, NAME, NAME:COUNT or
            NAME+OFFSET:COUNT, where without COUNT all of its bytes are meant. Up to eight INPUTs, 1,024 bytes in all

  --steps N      the most instructions of a run{steps}
  --targets N    the most values followed of a number that a run depends on, mostly a page{targets}
  --conflicts N  the most clauses that the solver learns for one answer{conflicts}
  --workers N    how many work at it side by side{workers}
  --nodes N      once the tree has so many forks and leaves, no run forks any more{nodes}
  --order O      which run a worker takes up next{order}

example: ./rvklee explore --make-out examples/ltv.elf out/ltv input
"""
REPLAY = """
rvklee replay runs the test in the file TEST on PROGRAM. It prints `same` (status 0), or how the run went (status 1).

example: ./rvklee replay examples/ltv.elf out/ltv/test-000018.json
"""
BENCH = """
rvklee bench explores a generated program with 2^NUMBER paths (NUMBER from 1 to 12) by WORKERS workers (from 1 to 64), into the
folder OUT as explore does.

example: ./rvklee bench --make-out 8 2 out/bench
"""
UPGRADE = """
rvklee upgrade reads the test in the file TEST, of format 1 or 2 (docs/FORMATS.md, Tests), and writes it in format 2 as the file
OUT. It prints `upgraded`. OUT may be TEST.

example: ./rvklee upgrade old/test-000018.json out/test-000018.json
"""
AUDIT = """
rvklee audit walks the fork tree of PROGRAM along the lines of the certificate in the file CERT (docs/FORMATS.md, Certificates). It
prints `audit yes leaves L finished F cut C` where the leaves that the certificate names share out all inputs and each is right, and
else `audit no LINE REASON` (status 1), with the first line at fault. tools/certificate makes one of what explore put.

example: ./rvklee audit examples/ltv.elf out/ltv/cert.txt
"""
LAUNCHER = """
The launcher's own options, anywhere before a word `--`:
  --make-out   makes the folder OUT where it isn't there
  --fresh      removes the files of an earlier report from OUT; without it they are moved to OUT/earlier
  --seconds N  ends the run after N seconds, with status 124
  --version    says the commit and the kit
  --build      proves all crates and builds the program, once
"""
STATUSES = """
Statuses: 0 done, 1 the replay differs or the audit says no, 2 the words make no job (as calls for help), 3 the program is refused,
4 the inputs are refused, 5 a file couldn't be read, 6 a file couldn't be written, 7 the test is refused, 8 out of memory; 70 no Rattle kit,
124 ended by --seconds, 130 ended by Ctrl-C.
"""
TEXTS = {"explore": EXPLORE, "replay": REPLAY, "bench": BENCH, "upgrade": UPGRADE, "audit": AUDIT}


def text(command):
    """The help of a command, or where there is none of all."""
    ranges = {name[2:]: f"; 1 to {limit.most:,}, default {limit.default:,}" for name, limit in LIMITS.items()}
    ranges["order"] = f"; {', '.join(ORDERS[:-1])} or {ORDERS[-1]}, default {ORDERS[0]}"
    return TEXTS.get(command, ALL).format_map(ranges) + LAUNCHER + STATUSES
