"""Runs a command and says, as the last line on standard error, its status and how many kilobytes it took at most.

    python3 -I -S measured.py BYTES COMMAND..

BYTES bounds the addresses that the command may take; with 0 it has no bound. It is a script of its own because a process counts
the memory of the one that started it as its own, so that one has to be small.
"""
import os
import resource
import sys


def main(most, *command):
    pid = os.fork()
    if pid == 0:
        if int(most):
            resource.setrlimit(resource.RLIMIT_AS, (int(most), int(most)))
        os.execv(command[0], command)
    _, status, used = os.wait4(pid, 0)
    print(os.waitstatus_to_exitcode(status), used.ru_maxrss, file=sys.stderr)


if __name__ == "__main__":
    main(*sys.argv[1:])
