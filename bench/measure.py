"""What the measurements share: one run of a program, and what it cost."""
import os
import subprocess
import sys
import time

ROOT = os.path.dirname(os.path.dirname(os.path.abspath(__file__)))

# Begins a program and waits for it. What a process held when it began another counts for that one's peak, so a script that
# holds much begins this one first.
WAITING = """
import os, sys, time
start = time.perf_counter()
child = os.posix_spawn(sys.argv[1], sys.argv[1:], os.environ)
_, status, usage = os.wait4(child, 0)
wall = time.perf_counter() - start
ended = os.waitstatus_to_exitcode(status)
sys.stderr.write("\\n%d %f %f %d" % (ended, wall, usage.ru_utime + usage.ru_stime, usage.ru_maxrss))
"""


class Refused(Exception):
    """A program ended with another status than 0."""


def built(folder, name, *flags):
    """The path of a program in C of this folder, built in another one."""
    program = os.path.join(folder, name)
    subprocess.run(["cc", "-O2", "-o", program, os.path.join(ROOT, "bench", name + ".c"), *flags], check=True)
    return program


def program_of(crate):
    """Where the proved build of a crate's program lies."""
    return os.path.join(ROOT, "crates", crate, "out", crate)


def ended(child, words, start, errors=b""):
    """Wall time, processor time and peak memory in KiB of a program that is to end."""
    _, status, usage = os.wait4(child.pid, 0)
    wall = time.perf_counter() - start
    child.returncode = os.waitstatus_to_exitcode(status)
    if child.returncode != 0:
        raise Refused("%s: status %d %s" % (
            os.path.basename(words[0]), child.returncode, errors.decode(errors="replace").strip()))
    return wall, usage.ru_utime + usage.ru_stime, usage.ru_maxrss


def apart(words):
    """What a program writes as its standard output, its wall time, its processor time, and its peak memory in KiB, from a script
    that holds much."""
    run = subprocess.run([sys.executable, "-S", "-c", WAITING] + words, stdout=subprocess.PIPE, stderr=subprocess.PIPE)
    errors, _, last = run.stderr.decode(errors="replace").rpartition("\n")
    status, wall, seconds, peak = last.split()
    if status != "0":
        raise Refused("%s: status %s %s" % (os.path.basename(words[0]), status, errors.strip()))
    return run.stdout.decode(), float(wall), float(seconds), int(peak)


def once(words, source, target):
    """What one run costs that reads a file as its standard input and writes another."""
    with open(source, "rb") as stdin, open(target, "wb") as stdout:
        start = time.perf_counter()
        child = subprocess.Popen(words, stdin=stdin, stdout=stdout, stderr=subprocess.PIPE)
        errors = child.stderr.read()
        child.stderr.close()
        return ended(child, words, start, errors)


def same(one, other):
    """Whether two files have the same bytes."""
    with open(one, "rb") as a, open(other, "rb") as b:
        while True:
            x, y = a.read(1 << 20), b.read(1 << 20)
            if x != y:
                return False
            if not x:
                return True


def compared(ours, theirs=()):
    """A cell for the wall time in ms, the processor time in ms and the memory in MiB of a list of runs, or of two lists
    with their ratio: least times, greatest memory."""
    cells = []
    for k, unit, best in ((0, 1e3, min), (1, 1e3, min), (2, 1 / 1024, max)):
        values = [best(run[k] for run in runs) * unit for runs in (ours, theirs) if runs]
        cell = " ".join("%6.1f" % value for value in values)
        if len(values) == 2:
            cell += " (%5.2f)" % (values[0] / max(values[1], 1e-9))
        cells.append(cell)
    return cells


def numbers(text):
    """The numbers of a list with commas."""
    return [int(word) for word in text.split(",")]
