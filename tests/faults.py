"""Real faults of input and output, each tried on the programs day, pack, unpack and merge: nothing
is lost without a word. A program has no status of its own: it says what failed on standard error,
also where nobody reads what it prints (the runtime ignores the signal).
"""
import contextlib
import fcntl
import os
import signal
import socket
import struct
import subprocess
import tempfile
import termios
import time

from ending import Ended, PATIENCE, compare, ended, finished, state, until

PAGE = 4096  # a write of at most so many bytes to a pipe is made whole or not at all

# What is wrong, the redirection that makes it, and what is said.
REDIRECTIONS = [
    ("a full device as output", ">/dev/full", "cannot write"),
    ("a closed output", ">&-", "cannot write"),
    ("an output only for reading", "1</dev/null", "cannot write"),
    ("a closed input", "<&-", "cannot read"),
    ("a directory as input", "<.", "cannot read"),
    ("an input only for writing", "0>/dev/null", "cannot read"),
    ("a directory as input and a closed output", "<. >&-", "cannot read"),
]


@contextlib.contextmanager
def pipe():
    """Both ends of a pipe, closed afterwards where they are still open."""
    ends = os.pipe()
    try:
        yield ends
    finally:
        for end in ends:
            with contextlib.suppress(OSError):
                os.close(end)


def redirected(program, given, redirection):
    return ended(["sh", "-c", 'exec "$0" ' + redirection, program], given)


def started(program, given, output):
    """Starts a program on an input."""
    with tempfile.TemporaryFile() as file:
        file.write(given)
        file.seek(0)
        return subprocess.Popen([program], stdin=file, stdout=output, stderr=subprocess.PIPE)


def nobody_reads(program, given, before=""):
    """The pipe has no reader from the start."""
    with pipe() as (reading, writing):
        os.close(reading)
        return ended(["sh", "-c", before + 'exec "$0"', program], given, stdout=writing)


def reader_leaves(program, given):
    """The reader takes some bytes, then goes away while the program waits for room."""
    with pipe() as (reading, writing):
        process = started(program, given, writing)
        os.close(writing)
        os.read(reading, 100)
        asleep(process)
        os.close(reading)
        return finished(process)


def not_blocking_output(program, given, room):
    """A pipe that does not block, with so much room, and nobody empties it."""
    with pipe() as (reading, writing):
        os.set_blocking(reading, False)
        os.set_blocking(writing, False)
        size = fcntl.fcntl(writing, getattr(fcntl, "F_GETPIPE_SZ", 1032))
        front = os.write(writing, bytes(size - min(room, size)))
        end = ended([program], given, stdout=writing)
        with contextlib.suppress(BlockingIOError):
            return end._replace(stdout=os.read(reading, 2 * size)[front:])
        return end


def slowly_read(program, given):
    """A pipe that does not block, emptied more slowly than it is filled: writes fail, and later
    ones would not."""
    with pipe() as (reading, writing):
        os.set_blocking(writing, False)
        process = started(program, given, writing)
        os.close(writing)
        out = b""
        for part in iter(lambda: os.read(reading, PAGE), b""):
            out += part
            time.sleep(0.001)
        return finished(process)._replace(stdout=out)


def not_blocking_input(program, given):
    """A pipe that does not block, with a front part of the input."""
    with pipe() as (reading, writing):
        os.write(writing, given[:PAGE])
        os.set_blocking(reading, False)
        return ended([program], stdin=reading)


def reset_input(program, given):
    """A socket with a front part of the input, whose other end was closed before it had read
    everything."""
    ours, theirs = socket.socketpair()
    with ours, theirs:
        ours.sendall(given[:PAGE])
        theirs.sendall(b"unread")
        ours.close()
        return ended([program], stdin=theirs)


def interrupted_input(program, given):
    """A read that a signal interrupts, in the middle of the input."""
    ours, theirs = socket.socketpair()
    with ours, theirs:
        limit(theirs, socket.SO_RCVTIMEO)
        process = subprocess.Popen([program], stdin=theirs, stdout=subprocess.PIPE, stderr=subprocess.PIPE)
        half = len(given) // 2
        ours.sendall(given[:half])
        until(lambda: unread(ours) == 0, "the input is read")
        interrupt(process)
        ours.sendall(given[half:])
        ours.close()
        return finished(process)


def interrupted_output(program, given):
    """Writes that a signal interrupts, on a socket that is full: with none of the bytes gone, and
    with a part of them."""
    ours, theirs = socket.socketpair()
    with ours, theirs:
        limit(theirs, socket.SO_SNDTIMEO)
        theirs.setsockopt(socket.SOL_SOCKET, socket.SO_SNDBUF, 1)  # as small as it can be
        process = started(program, given, theirs)
        theirs.close()
        interrupt(process)
        out = ours.recv(3000)  # makes room for a part of what the program writes at once
        interrupt(process)
        interrupt(process)
        out += b"".join(iter(lambda: ours.recv(1 << 20), b""))
        return finished(process)._replace(stdout=out)


def limit(end, option):
    """Sets a time limit: then a call on a socket that a stop interrupts fails (signal(7))."""
    end.setsockopt(socket.SOL_SOCKET, option, struct.pack("ll", PATIENCE, 0))


def unread(end):
    """How many bytes written here the other end has not read."""
    return struct.unpack("i", fcntl.ioctl(end, termios.TIOCOUTQ, bytes(4)))[0]


def interrupt(process):
    """Stops a program that waits, and lets it go on."""
    asleep(process)
    process.send_signal(signal.SIGSTOP)
    until(lambda: state(process.pid) in "TZ", "the program is stopped")
    process.send_signal(signal.SIGCONT)
    asleep(process)


def asleep(process):
    """Waits until a program waits, or has ended."""
    until(lambda: state(process.pid) in "SZ", "the program waits")


def try_faults(program, given, whole):
    """All faults on one program, on an input whose output is longer than a pipe holds; gives their
    number. Where every output is short, as of merge, those are left out in which the program waits
    for room."""
    tried, waits = [], len(whole) > PAGE

    def check(what, got, stdout=b"", says=None, status=0):
        stderr = "{}: {}\n".format(program.name, says).encode() if says else b""
        compare("{}, {}".format(program.name, what), got, Ended(status, stdout, stderr))
        tried.append(what)

    for what, redirection, says in REDIRECTIONS:
        check(what, redirected(program, given, redirection), says=says)
    check("nobody reads", nobody_reads(program, given), says="cannot write")
    if waits:
        check("the reader leaves", reader_leaves(program, given), says="cannot write")
    ignored = nobody_reads(program, given, "trap '' PIPE; ")
    check("nobody reads, and the signal is ignored", ignored, says="cannot write")
    for room in 0, PAGE // 2, PAGE - 100, 2 * PAGE:
        got = not_blocking_output(program, given, room)
        front = whole[:min(len(got.stdout), room)] if len(whole) > room else whole
        says = "cannot write" if len(whole) > room else None
        check("a pipe that does not block, with room for {}".format(room), got, front, says)
    got = slowly_read(program, given)
    front = whole[:len(got.stdout)]
    check("a pipe that is emptied slowly", got, front, None if front == whole else "cannot write")
    check("an input that does not block", not_blocking_input(program, given), says="cannot read")
    check("an input that is reset", reset_input(program, given), says="cannot read")
    check("a read that is interrupted", interrupted_input(program, given), whole)
    if waits:
        check("a write that is interrupted", interrupted_output(program, given), whole)
    return len(tried)
