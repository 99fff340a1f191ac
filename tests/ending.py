"""How a command ends: its status, and what it wrote on standard output and on standard error."""
import collections
import os
import pathlib
import subprocess
import sys
import time

Ended = collections.namedtuple("Ended", "status stdout stderr")

PATIENCE = 60  # seconds that a command may take


def ended(command, given=None, **how):
    """Runs a command on bytes, or on the standard input that `how` names."""
    if given is not None:
        how["stdin"] = subprocess.PIPE
    return finished(subprocess.Popen(command, **{"stdout": subprocess.PIPE, "stderr": subprocess.PIPE, **how}), given)


def finished(process, given=None):
    """Waits for a command that was started."""
    try:
        stdout, stderr = process.communicate(given, timeout=PATIENCE)
    except subprocess.TimeoutExpired:
        process.kill()
        fail(" ".join(map(str, process.args)), "goes on for {} s".format(PATIENCE))
    return Ended(process.returncode, stdout or b"", stderr or b"")


def fail(name, text):
    sys.exit("tests/programs: {}: {}".format(name, text))


def state(process):
    """The letter of a process in proc(5): S it waits, T it is stopped; Z also where it is gone."""
    try:
        return pathlib.Path("/proc", str(process), "stat").read_text().rpartition(")")[2].split()[0]
    except (FileNotFoundError, ProcessLookupError):
        return "Z"


def until(holds, what):
    """Waits until something holds for a while."""
    since, held = time.monotonic(), 0
    while held < 5:
        held = held + 1 if holds() else 0
        if time.monotonic() - since > PATIENCE:
            fail("waited in vain until " + what, "{} s".format(PATIENCE))
        time.sleep(0.005)


def shown(part, at):
    """Some bytes from where they differ on."""
    if not isinstance(part, bytes):
        return repr(part)
    begin = max(0, at - 40)
    return "{} bytes, from {}: {!r}".format(len(part), begin, part[begin:at + 80])


def compare(name, got, expected):
    """Ends the test where something else was expected, and shows where it begins."""
    for field, one, other in zip(Ended._fields, got, expected):
        if one != other:
            at = len(os.path.commonprefix([one, other])) if isinstance(one, bytes) else 0
            fail(name, "{} is {}\n  expected {}".format(field, shown(one, at), shown(other, at)))
