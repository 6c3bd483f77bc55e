"""Runs of a program, what they take, and how what they write is compared."""

import os
import signal
import subprocess
import sys
import threading
import time
from dataclasses import dataclass

TOP = os.path.dirname(os.path.dirname(os.path.abspath(__file__)))
BUILT = os.path.join(TOP, "crates/ix_program/out/ix_program")


@dataclass(frozen=True)
class Run:
    """The status, the seconds of the processors and of the clock, and the greatest memory in bytes."""

    status: int
    seconds: float
    wall: float
    memory: int
    cut_off: bool = False


def program():
    """The program that IXML names, or the one that `./ixml` runs. `./ixml` itself would be measured with its look for newer
    sources, so it is asked once to build what is missing."""
    named = os.environ.get("IXML")
    if named:
        return named
    if subprocess.run([os.path.join(TOP, "ixml"), "sample", "1"], stdout=subprocess.DEVNULL).returncode != 0:
        sys.exit("bench: ./ixml does not run")
    return BUILT


def run(command, output, limit):
    """Runs a command and sends what it writes to a file, and its messages to another. It ends after so many seconds."""
    files = [
        (os.POSIX_SPAWN_OPEN, 0, os.devnull, os.O_RDONLY, 0),
        (os.POSIX_SPAWN_OPEN, 1, output, os.O_WRONLY | os.O_CREAT | os.O_TRUNC, 0o644),
        (os.POSIX_SPAWN_OPEN, 2, output + ".said", os.O_WRONLY | os.O_CREAT | os.O_TRUNC, 0o644),
    ]
    cut_off = threading.Event()
    begun = time.perf_counter()
    child = os.posix_spawnp(command[0], command, os.environ, file_actions=files)
    timer = threading.Timer(limit, end, [child, cut_off])
    timer.start()
    _, status, usage = os.wait4(child, 0)
    wall = time.perf_counter() - begun
    timer.cancel()
    seconds = usage.ru_utime + usage.ru_stime
    return Run(os.waitstatus_to_exitcode(status), seconds, wall, usage.ru_maxrss * 1024, cut_off.is_set())


def end(child, cut_off):
    cut_off.set()
    os.kill(child, signal.SIGKILL)


def said(output):
    """The last line that a run said."""
    with open(output + ".said", errors="replace") as file:
        lines = file.read().split("\n")
    return next((line for line in reversed(lines) if line), "nothing was said")


def write(path, pieces):
    """Writes pieces of a text, and answers how many characters they have."""
    count = 0
    with open(path, "w", encoding="utf-8", newline="") as file:
        for piece in pieces:
            count += file.write(piece)
    return count


def blocks(path):
    """The bytes of a file in pieces."""
    with open(path, "rb") as file:
        while block := file.read(65536):
            yield block


def difference(path, pieces):
    """The first place, in bytes, at which a file is not what the pieces say; None where it is all the same."""
    place = 0
    with open(path, "rb") as file:
        for piece in pieces:
            wanted = piece if isinstance(piece, bytes) else piece.encode()
            got = file.read(len(wanted))
            if got != wanted:
                return place + len(os.path.commonprefix([got, wanted]))
            place += len(wanted)
        return place if file.read(1) else None
