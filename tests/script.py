"""The script ./day, over the programs and over stand-ins for them and for rt, under each shell.

A copy of it stands in a folder of its own, with crates to build and the programs; it is started in
another one, which has the files of the cases.
"""
import contextlib
import os
import pathlib
import pty
import re
import select
import shutil
import signal
import socket
import subprocess
import tempfile
import time
import tty

from ending import Ended, PATIENCE, compare, ended, fail, finished, state, until

CRATES = """base:  # not other
text: base
other: base text
pack: text io
day: text base libc
merge: text
unpack: text
"""
NAMES = "day", "pack", "unpack", "merge"  # the programs

RT = """#!/bin/sh
exec >&2
name=${PWD##*/}
echo "$name $*" >>"$CALLS"
if [ ! -e "$CALLS.$PPID" ]; then
    : >"$CALLS.$PPID"
    echo "rt: base: begins with what a check kept"
    echo "crate base: modules loaded=1 checked=0"
    echo "logic=proved functions=1"
    [ ! -e "$HELD" ] || read -r line <"$HELD"
    echo "library base: modules loaded=0 checked=0"
    echo "crate text: modules loaded=0 checked=1"
    echo "logic=proved functions=2"
fi
mkdir -p out
echo "crate $name: modules loaded=0 checked=1"
echo "logic=proved functions=1"
cp -p "$PROGRAMS/$name" out/
echo "rt: running out/$name; to give it other input, run that file yourself"
"""

FAILING_RT = """#!/bin/sh
exec >&2
i=0
while [ "$i" -lt 30 ]; do i=$((i + 1)); echo "error $i"; done
printf 'crate %s: modules loaded=0 checked=1\\nlogic=not-proved\\n' base text
exit 1
"""

BUILDING = "day: proving and building {} (some minutes the first time)\n"
TEXT = "day: {} is text, not bytes: give a sheet and its events, ./day SHEET EVENTS\n"
UNREAD = "\nday: standard input could not be read\n"

V = [3, 2, 1, 0, 0, 1, 1, 0, 1, 1, 0, 1, 2, 2, 2]

FILES = {
    "v.bytes": bytes([15, *V, 1, 0]),
    "a sheet": b"3 2 1 0, 0 1,\n1 0 1, 1 0, 1 2, 2 2\n",
    "silent": b"2 2 1 0, 0 1,\n1 0, 0 1, 1 1\n",
    "six": b"6 1 1 0, 0, 1 1 1 1 1 1, 0 0 0 0 0 0",
    "six of two": b"6 2 1 0, 0 0, 1 1 1 1 1 1, 0 0 0 0 0 0 0 0 0 0 0 0",
    "classes": b"2 2 1 0, 1 0, 1 0, 0 1, 1 1",
    "-events": b"1 0",
    "--help": b"3 2 1 0 0 1 1 0 1 1 0 1 2 2 2",
    "none": b"",
    "high": "3 2 1 0 \u00e4\n\t".encode(),
    "word": b"1 2\n3 x7",
    "states": b"# 7\n00033 2",
    "kinds": b"3,\r\n16384,16\n",
    "class": b"3 2 1 0 # a\0 9 \xff\n0\n\n 200 0",
    "next": b"3 2 1 0\n0 1 # 0\n1 0 1\n1 0 1 2\n2 3\n",
    "left": b"3 2 1 0 0 1 1 0 1 1 0 1 2 2 2 # V\n\n5 6",
    "early": b"3 2\n1 0\n0 # 1\n\n# 1 0 1\n",
    "comment": b"# 1\n",
    "table": b"1 8 5 0 1 1 1 1 1 1 1 1 1 0 0 0 0 0 0 0 0",
    "long": b"0 " * 59985,
    "longer": b"0 " * 60000,
    "longest": b"0 " * 59984,
    "text": b"1 " * 131072 + b"1",
}

# What is refused of a sheet in a text: the row, the place in its bytes, and what is said of it.
FAULTS = {
    "states": (3, 0, "line 2: 00033 is refused by row 3"),
    "kinds": (4, 1, "line 2: 16384 is refused by row 4"),
    "class": (7, 5, "line 4: 200 is refused by row 7"),
    "next": (9, 14, "line 5: 3 is refused by row 9"),
    "left": (10, 15, "line 3: 5 is refused by row 10"),
    "early": (1, 5, "line 3: the numbers end early, refused by row 1"),
    "comment": (1, 0, "it has no number, refused by row 1"),
}

V_LINE = "sheet 3 2 1 start 0 guarded no\n"
LONG_DAY = V_LINE + 59984 * "in 0 out 0 state 1 held 0 guarded no\n" + "end 59984 0\n"


# V, "a sheet", and "silent", merged: pairs 0 0 to 2 1. Answer is held, and then Query passes.
MERGED = "6 2 1 0 0 1 1 0 0 0 1 0 2 1 3 1 2 5 3 5 4 5 5 5\n"
MERGED_DAY = """sheet 6 2 1 start 0 guarded no
in 1 out - state 0 held 1 guarded no
in 0 out 0 state 2 held 1 guarded no
end 2 0
"""


def long_line(sheet, events):
    return "day: {} and {} are over 60000 bytes together, refused by row 18\n".format(sheet, events)


def other_kinds(first, second):
    return "day: {} and {}: their kinds differ in number or class, refused by row 24\n".format(first, second)


def many_pairs(first, second):
    return "day: {} and {} have more than 32 pairs of states, refused by row 25\n".format(first, second)


# What is given, the words behind ./day, the status, what is printed and what is said. PRINTED is
# what the sample prints: V with Answer, Query.
CASES = [
    ("two texts", ["a sheet", "-events"], 0, "PRINTED", ""),
    ("a name that is an option", ["--", "--help", "-events"], 0, "PRINTED", ""),
    ("bytes", ["v.bytes"], 0, "PRINTED", ""),
    ("bytes, after --", ["--", "v.bytes"], 0, "PRINTED", ""),
    ("the sample", ["--sample"], 0, "PRINTED", ""),
    ("an empty file", ["none"], 0, "refused 1 at 0\n", ""),
    ("no event", ["a sheet", "none"], 0, V_LINE + "end 0 0\n", ""),
    ("no file", ["neither"], 2, "", "day: neither: no such file\n"),
    ("no events' file", ["a sheet", "neither"], 2, "", "day: neither: no such file\n"),
    ("a directory", ["."], 2, "", "day: .: is a directory\n"),
    ("a directory of events", ["a sheet", ".."], 2, "", "day: ..: is a directory\n"),
    ("four names", ["a", "b", "c", "d"], 2, "", "day: too many arguments: a b c d (./day --help)\n"),
    ("the sample and a name", ["--sample", "a"], 2, "", "day: too many arguments: --sample a (./day --help)\n"),
    ("a text for bytes", ["a sheet"], 2, "", TEXT.format("a sheet")),
    ("a text with bytes over 127", ["high"], 2, "", TEXT.format("high")),
    ("bytes for a text", ["v.bytes", "none"], 1, "", "day: v.bytes: line 1: " + 18 * "?" + " is no number\n"),
    ("no number in a sheet", ["word", "-events"], 1, "", "day: word: line 2: x7 is no number\n"),
    ("no number in the events", ["a sheet", "word"], 1, "", "day: word: line 2: x7 is no number\n"),
    ("too long a text", ["a sheet", "text"], 1, "", "day: text: more than 262144 bytes of text\n"),
    ("row 3", ["states", "none"], 0, "refused 3 at 1\n", "day: states: line 2: 00033 is refused by row 3\n"),
    ("row 4", ["kinds", "none"], 0, "refused 4 at 2\n", "day: kinds: line 2: 16384 is refused by row 4\n"),
    ("row 7", ["class", "none"], 0, "refused 7 at 6\n", "day: class: line 4: 200 is refused by row 7\n"),
    ("row 9", ["next", "-events"], 0, "refused 9 at 15\n", "day: next: line 5: 3 is refused by row 9\n"),
    ("row 10", ["left", "-events"], 0, "refused 10 at 16\n", "day: left: line 3: 5 is refused by row 10\n"),
    ("row 1", ["early", "-events"], 0, "refused 1 at 6\n", "day: early: line 3: the numbers end early, refused by row 1\n"),
    ("row 1, no number", ["comment", "none"], 0, "refused 1 at 1\n", "day: comment: it has no number, refused by row 1\n"),
    ("row 12", ["table", "-events"], 0, "refused 12\n", "day: table is refused by row 12\n"),
    ("row 18", ["a sheet", "long"], 0, "refused 18\n", long_line("a sheet", "long")),
    ("row 18, by the sheet", ["longer", "none"], 0, "refused 18\n", long_line("longer", "none")),
    ("60000 bytes", ["a sheet", "longest"], 0, LONG_DAY, ""),
    ("three texts", ["a sheet", "silent", "-events"], 0, MERGED_DAY, ""),
    ("three texts, after --", ["--", "--help", "silent", "-events"], 0, MERGED_DAY, ""),
    ("three texts, no event", ["a sheet", "silent", "none"], 0, MERGED_DAY[:31] + "end 0 0\n", ""),
    ("no first sheet", ["neither", "silent", "-events"], 2, "", "day: neither: no such file\n"),
    ("no second sheet", ["a sheet", "neither", "-events"], 2, "", "day: neither: no such file\n"),
    ("no events for two sheets", ["a sheet", "silent", "neither"], 2, "", "day: neither: no such file\n"),
    ("a directory for the second", ["a sheet", ".", "-events"], 2, "", "day: .: is a directory\n"),
    ("no number in the first", ["word", "silent", "-events"], 1, "", "day: word: line 2: x7 is no number\n"),
    ("no number in the second", ["a sheet", "word", "-events"], 1, "", "day: word: line 2: x7 is no number\n"),
    ("no number in the events for two", ["a sheet", "silent", "word"], 1, "", "day: word: line 2: x7 is no number\n"),
    ("no number before a refusal", ["states", "six", "word"], 1, "", "day: word: line 2: x7 is no number\n"),
    ("too long a second text", ["a sheet", "text", "none"], 1, "", "day: text: more than 262144 bytes of text\n"),
    ("the first's fault before the second's", ["next", "states", "none"], 0, "refused 9 at 15\n",
     "day: next: " + FAULTS["next"][2] + "\n"),
    ("the first ends early, the second is empty", ["early", "comment", "none"], 0, "refused 1 at 6\n",
     "day: early: " + FAULTS["early"][2] + "\n"),
    ("a fault before row 24", ["a sheet", "kinds", "none"], 0, "refused 4 at 17\n", "day: kinds: " + FAULTS["kinds"][2] + "\n"),
    ("row 12, merged", ["table", "table", "-events"], 0, "refused 12\n", "day: table merged with table is refused by row 12\n"),
    ("row 18, merged", ["a sheet", "silent", "long"], 0, "refused 18\n", long_line("a sheet merged with silent", "long")),
    ("no file to merge", ["--product", "a sheet", "neither"], 2, "", "day: neither: no such file\n"),
    ("two names that are options", ["--product", "--", "--help", "silent"], 0, MERGED, ""),
    ("a file --product", ["--", "--product", "-events"], 2, "", "day: --product: no such file\n"),
]

# The samples of a run, and where its output stands.
SAMPLES = [
    (["W", "W-day"], "W-day"),
    (["phi_ex", "phi_ex-day"], "phi_ex-day"),
    (["receipt", "receipt-day"], "receipt-day"),
    (["season-grower", "season-grower-day"], "season-grower-day"),
    (["season", "grower", "season-grower-day"], "season-grower-day"),
    (["V", "V-silent-day"], "V-silent-first"),
    (["silent", "V-silent-day"], "V-silent-second"),
    (["V", "silent", "V-silent-day"], "V-silent-day"),
]

# Two sheets merged, each case with events behind them and with --product before them.
TWO = [
    ("row 24, number", "a sheet", "six", "refused 24\n", other_kinds("a sheet", "six")),
    ("row 24, class", "a sheet", "classes", "refused 24\n", other_kinds("a sheet", "classes")),
    ("row 24 before 25", "six", "six of two", "refused 24\n", other_kinds("six", "six of two")),
    ("row 25", "six", "six", "refused 25\n", many_pairs("six", "six")),
    ("row 18, by the first", "longer", "silent", "refused 18\n", long_line("longer", "silent")),
    ("row 18, by the second", "a sheet", "longer", "refused 18\n", long_line("a sheet", "longer")),
]
for name, (row, place, said) in FAULTS.items():
    TWO.append((
        "row {} of the first, {}".format(row, name), name, "silent", "refused {} at {}\n".format(row, 1 + place),
        "day: {}: {}\n".format(name, said)))
    TWO.append((
        "row {} of the second, {}".format(row, name), "a sheet", name, "refused {} at {}\n".format(row, 16 + place),
        "day: {}: {}\n".format(name, said)))
for what, first, second, stdout, stderr in TWO:
    CASES.append((what, [first, second, "-events"], 0, stdout, stderr))
    CASES.append((what + ", --product", ["--product", first, second], 1, "", stderr))
CASES.append(("two sheets, --product", ["--product", "a sheet", "silent"], 0, MERGED, ""))
for words in [], ["a sheet"], ["a sheet", "silent", "-events"], ["--"], ["--", "a sheet"]:
    what = "--product and {} words".format(len(words))
    CASES.append((what, ["--product", *words], 2, "", "day: --product takes two sheets (./day --help)\n"))


class House:
    """The script with its programs, and the folder that it is started in."""

    def __init__(self, folder, shell, root):
        self.shell, self.root = shell, root
        self.script = folder / "the house" / "day"
        self.programs, self.start, self.temporary = folder / "programs", folder / "start", folder / "temporary"
        self.calls, self.held = folder / "calls", folder / "held"
        crates = [self.script.parent / "crates" / name for name in NAMES]
        for place in *crates, self.programs, self.start, self.temporary, folder / "rt":
            place.mkdir(parents=True)
        shutil.copy(root / "day", self.script)
        shutil.copy(root / "build", self.script.parent)
        shutil.copy(root / "crates" / "day" / "stdin", self.script.parent / "crates" / "day")
        (self.script.parent / "crates.txt").write_text(CRATES)
        for name, data in FILES.items():
            (self.start / name).write_bytes(data)
        for name in NAMES:
            shutil.copy(root / "target" / "bin" / name, self.programs)
            os.utime(self.programs / name, (0, 0))
        self.printed = (root / "crates" / "day" / "stdout").read_bytes()
        self.environment = {
            "PATH": "{}:{}".format(folder / "rt", os.environ["PATH"]), "TMPDIR": str(self.temporary), "CALLS": str(self.calls),
            "HELD": str(self.held), "PROGRAMS": str(self.programs)}
        self.rt = folder / "rt" / "rt"
        self.write(self.rt, RT)
        self.count = 0

    def write(self, path, text):
        path.parent.mkdir(parents=True, exist_ok=True)
        path.write_text(text)
        path.chmod(0o755)

    def put_programs(self, **stand_ins):
        """Puts the programs there, built: real ones, or stand-ins by their text."""
        self.remove_programs()
        for name in NAMES:
            place = self.script.parent / "target" / "bin" / name
            place.parent.mkdir(parents=True, exist_ok=True)
            shutil.copy(self.programs / name, place)
            if name in stand_ins:
                self.write(place, "#!/bin/sh\n" + stand_ins[name] + "\n")

    def remove_programs(self):
        shutil.rmtree(self.script.parent / "target", ignore_errors=True)
        with contextlib.suppress(FileNotFoundError):
            self.calls.unlink()

    def command(self, words, script=None):
        return [self.shell, script or self.script, *words]

    def how(self, **how):
        """Where and with what the script is started."""
        how.setdefault("cwd", self.start)
        how["env"] = {**self.environment, **how.get("env", {})}
        return how

    def run(self, words=(), given=None, script=None, **how):
        if given is None:
            how.setdefault("stdin", subprocess.DEVNULL)
        return ended(self.command(words, script), given, **self.how(**how))

    def begin(self, words=(), **how):
        return subprocess.Popen(self.command(words), **self.how(**how))

    def check(self, what, got, status=0, stdout=b"", stderr=b""):
        """Compares, and looks whether a temporary file stayed behind."""
        name = "./day by {}, {}".format(self.shell, what)
        compare(name, got, Ended(status, encoded(stdout, self.printed), encoded(stderr, self.printed)))
        left = os.listdir(self.temporary)
        if left:
            fail(name, "left behind: " + " ".join(left))
        self.count += 1

    def called(self, what, expected):
        """How rt was called since the programs were put there or removed."""
        calls = self.calls.read_text().splitlines() if self.calls.exists() else []
        if calls != expected:
            fail("./day by {}, {}".format(self.shell, what), "rt was called with {}".format(calls))


def encoded(text, printed):
    return text if isinstance(text, bytes) else printed if text == "PRINTED" else text.encode()


def try_cases(house):
    house.put_programs()
    for what, words, status, stdout, stderr in CASES:
        house.check(what, house.run(words), status, stdout, stderr)
    for names, out in SAMPLES:
        words = [house.root / "samples" / (name + ".txt") for name in names]
        house.check(" ".join(names), house.run(words), 0, (house.root / "samples" / (out + ".out")).read_bytes())
    merged = (house.root / "samples" / "season-grower.txt").read_text()
    line = " ".join(re.findall("[0-9]+", re.sub("#.*", "", merged))) + "\n"
    words = ["--product", *(house.root / "samples" / (name + ".txt") for name in ("season", "grower"))]
    house.check("season and grower, merged", house.run(words), 0, line)
    helped = house.run(["--help"])
    house.check("--help", helped._replace(stdout=helped.stdout[:27]), 0, "usage: ./day SHEET EVENTS  ")
    house.check("--help to a full device", house.run(["--help"], stdout=open("/dev/full", "wb"))._replace(stderr=b""), 1)


def try_arguments_first(house):
    """What is given is looked at before anything is built."""
    house.remove_programs()
    for what, words, status, stdout, stderr in CASES:
        if status == 2:
            house.check(what + ", not built", house.run(words), status, stdout, stderr)
    house.check("a text on standard input, not built", house.run(given=b"1 2"), 2, "", TEXT.format("standard input"))
    house.run(["--help"])
    house.called("what is given is looked at first", [])


def try_unreadable(house):
    """A file that may not be read; root may read any, so root becomes nobody for it."""
    house.put_programs()
    (house.start / "hidden").write_bytes(b"")
    (house.start / "hidden").chmod(0)
    user = dict(user=65534, group=65534, extra_groups=[]) if os.getuid() == 0 else {}
    house.check("a hidden file", house.run(["hidden"], **user), 2, "", "day: hidden: cannot be read\n")
    house.check("a hidden sheet", house.run(["hidden", "-events"], **user), 2, "", "day: hidden: cannot be read\n")


def try_inputs(house):
    """What stands on standard input, where no file is named."""
    house.put_programs()
    data = FILES["v.bytes"]
    house.check("a pipe", house.run(given=data), 0, "PRINTED")
    with open(house.start / "v.bytes", "rb") as file:
        house.check("a file", house.run(stdin=file), 0, "PRINTED")
    ours, theirs = socket.socketpair()
    with ours, theirs:
        ours.sendall(data)
        ours.shutdown(socket.SHUT_WR)
        house.check("a socket", house.run(stdin=theirs), 0, "PRINTED")
    house.check("/dev/null", house.run(), 0, "refused 1 at 0\n")
    house.check("a text", house.run(given=b"3 2 1\n"), 2, "", TEXT.format("standard input"))
    house.check("60001 bytes and more", house.run(given=data + bytes(60000)), 0, "refused 18\n")
    got = house.run(stdin=os.open(house.start, os.O_RDONLY))
    house.check("a directory", got._replace(stderr=got.stderr[-len(UNREAD):]), 1, "", UNREAD)
    closed = ended(["sh", "-c", 'exec "$@" <&-', "sh", *house.command([])], **house.how())
    house.check("a closed descriptor", closed, 2, "", "day: standard input is closed\n")
    ours, theirs = socket.socketpair()
    with ours, theirs:
        ours.sendall(data)
        theirs.sendall(b"unread")
        ours.close()
        got = house.run(stdin=theirs)
        house.check("a socket that is reset", got._replace(stderr=got.stderr[-len(UNREAD):]), 1, "", UNREAD)
    ours, theirs = pty.openpty()
    house.check("a terminal", house.run(stdin=theirs), 0, "PRINTED")
    os.mkfifo(house.start / "fifo")
    process = house.begin(["fifo", "-events"], stdout=subprocess.PIPE, stderr=subprocess.PIPE)
    (house.start / "fifo").write_bytes(FILES["next"])
    house.check("a named pipe", finished(process), 0, "refused 9 at 15\n", "day: fifo: line 5: 3 is refused by row 9\n")


def try_texts(house):
    """Which bytes a text has: 49 is the digit 1, and as bytes it is a sheet's length."""
    house.put_programs()
    for byte in 9, 10, 13, 32, 126, 128, 255:
        got = house.run(given=bytes([49, byte]))
        house.check("a text with byte {}".format(byte), got, 2, "", TEXT.format("standard input"))
    for byte in 0, 8, 11, 12, 14, 31, 127:
        house.check("bytes with {}".format(byte), house.run(given=bytes([49, byte])), 0, "refused 1 at 1\n")


def try_outputs(house):
    """Where the output fails, or a program does."""
    house.put_programs()
    two, three, merged = ["a sheet", "longest"], ["a sheet", "silent", "-events"], ["--product", "a sheet", "silent"]
    refused = ["a sheet", "six", "-events"]
    for words, said in (["v.bytes"], ""), (two, ""), (three, ""), (merged, "unpack: "), (refused, ""):
        said = "day: {}cannot write\n".format(said)
        house.check("a full device", house.run(words, stdout=open("/dev/full", "wb")), 1, "", said)
        closed = ended(["sh", "-c", 'exec "$@" >&-', "sh", *house.command(words)], **house.how())
        house.check("a closed output", closed, 1, "", said)
    for words, status, stdout in (["v.bytes"], 0, "PRINTED"), (["neither"], 2, ""), (refused, 0, "refused 24\n"):
        silent = ended(["sh", "-c", 'exec "$@" 2>&-', "sh", *house.command(words)], **house.how())
        house.check("a closed standard error", silent, status, stdout)
    for words in two, merged, refused:
        process = house.begin(words, stdout=subprocess.PIPE, stderr=subprocess.PIPE)
        process.stdout.close()
        process.stdout = None
        house.check("a reader that goes away", finished(process), 128 + signal.SIGPIPE)
    process = house.begin(["word", "-events"], stdout=subprocess.PIPE, stderr=subprocess.PIPE)
    process.stderr.close()
    process.stderr = None
    house.check("a reader of standard error that goes away", finished(process), 128 + signal.SIGPIPE)
    for name, words, front in [
            ("day", ["v.bytes"], ""), ("day", two, ""), ("pack", two, "day: a sheet: "), ("day", three, ""),
            ("pack", three, "day: a sheet: "), ("merge", three, "day: "), ("merge", merged, "day: "), ("unpack", merged, "day: ")]:
        house.put_programs(**{name: "echo front; kill -9 $$"})
        out = "front\n" if name in ("day", "unpack") else ""
        got = house.run(words)
        line = got.stderr[got.stderr.rfind(b"day: "):]  # bash says it too
        said = "day: {} was killed by signal 9\n".format(name)
        house.check(name + " is killed", got._replace(stderr=line), 128 + signal.SIGKILL, out, said)
        house.put_programs(**{name: "echo front; echo one >&2; printf two >&2"})
        house.check(name + " says something", house.run(words), 1, out, "{0}one\n{0}two\n".format(front))
        house.put_programs(**{name: "exit 3"})
        house.check(name + " ends with a status", house.run(words), 3)
        if name != "merge":
            house.put_programs(**{name: "echo front; echo refused 1 at 0 >&2"})
            house.check(name + " says a refusal", house.run(words), 1, out, front + "refused 1 at 0\n")


def try_places(house):
    """Where the script stands and is started; CDPATH leads to folders of the same names."""
    house.put_programs()
    links = house.start / "links"
    (links / "more").mkdir(parents=True)
    (links / "first").symlink_to("more/second")
    (links / "more" / "second").symlink_to(house.script)
    (links / "the house").symlink_to(house.script.parent)
    for where in "the house", "start":
        (links / "paths" / where).mkdir(parents=True)
    paths = {"CDPATH": str(links / "paths")}
    for what, script, where in [
        ("a chain of links", links / "first", house.start),
        ("a relative link", "./first", links),
        ("a link without a slash", "first", links),
        ("a folder that is a link", "links/the house/day", house.start),
        ("the script's own folder", "./day", house.script.parent),
        ("the folder above", "the house/day", house.script.parent.parent),
        ("the folder /", house.script, "/"),
    ]:
        for environment in {}, paths:
            words = [house.start / "a sheet", house.start / "-events"]
            house.check(what, house.run(words, script=script, cwd=where, env=environment), 0, "PRINTED")
    house.called("programs that are built", [])
    house.remove_programs()
    got = house.run(["--sample"], script=links / "first", env=paths)
    house.check("a build by a link", got, 0, "PRINTED", built(["day"], 3))


def built(names, count):
    """What a build says."""
    lines = ["day: crate {} of {}: {} proved\n".format(i + 1, count, name) for i, name in enumerate(["base", "text", *names])]
    return BUILDING.format(" ".join(names)) + "".join(lines)


def try_builds(house):
    house.remove_programs()
    two = ["a sheet", "-events"]
    house.check("the first build", house.run(two), 0, "PRINTED", built(["day", "pack"], 4))
    house.check("built", house.run(two), 0, "PRINTED")
    house.called("the first build", ["day run", "pack run"])
    for newer in house.script.parent / "crates.txt", house.script.parent / "crates" / "day" / "stdin":
        os.utime(newer)
        house.check("a newer file", house.run(["v.bytes"]), 0, "PRINTED", built(["day"], 3))
        house.check("built again", house.run(["v.bytes"]), 0, "PRINTED")
    house.remove_programs()
    house.check("the first build, bytes", house.run(["v.bytes"]), 0, "PRINTED", built(["day"], 3))
    house.check("one program is missing", house.run(two), 0, "PRINTED", built(["day", "pack"], 4))
    house.called("one program is missing", ["day run", "day run", "pack run"])
    house.remove_programs()
    house.check("the first build, two sheets", house.run(["a sheet", "silent", "-events"]), 0, MERGED_DAY,
        built(["day", "pack", "merge"], 5))
    house.check("unpack is missing", house.run(["--product", "a sheet", "silent"]), 0, MERGED,
        built(["pack", "merge", "unpack"], 5))
    house.called("two sheets", ["day run", "pack run", "merge run", "pack run", "merge run", "unpack run"])
    try_lines_as_they_come(house, two)
    try_build_on_terminal(house)
    try_failed_builds(house)


def try_lines_as_they_come(house, words):
    """rt waits in the middle: what it has proved is said before it goes on. A file that is changed
    meanwhile is built once more."""
    house.remove_programs()
    os.mkfifo(house.held)
    process = house.begin(words, stdout=subprocess.PIPE, stderr=subprocess.PIPE)
    line, expected = b"", built(["day", "pack"], 4)
    first = expected[:expected.index("day: crate 2")].encode()
    while len(line) < len(first) and select.select([process.stderr], [], [], PATIENCE)[0]:
        line += os.read(process.stderr.fileno(), 1)
    if line != first:
        fail("lines of a build", "{!r} while rt waits".format(line))
    os.utime(house.script.parent / "crates.txt")
    house.held.write_bytes(b"\n")
    house.held.unlink()
    got = finished(process)
    house.check("lines of a build", got._replace(stderr=line + got.stderr), 0, "PRINTED", expected)
    house.check("a file that is changed while it builds", house.run(words), 0, "PRINTED", expected)


def try_build_on_terminal(house):
    """On a terminal the lines are one."""
    house.remove_programs()
    ours, theirs = pty.openpty()
    tty.setraw(theirs)
    got = house.run(["v.bytes"], stderr=theirs)
    expected = BUILDING.format("day") + "".join(
        "\r\033[Kday: crate {} of 3: {} proved".format(i + 1, name) for i, name in enumerate(["base", "text", "day"])) + "\n"
    house.check("a build on a terminal", got._replace(stderr=os.read(ours, 10000)), 0, "PRINTED", expected)


def try_failed_builds(house):
    house.remove_programs()
    house.write(house.rt, FAILING_RT)
    log = house.script.parent / "target" / "build.log"
    whole = ["error {}\n".format(i + 1) for i in range(30)]
    for name in "base", "text":
        whole += ["crate {}: modules loaded=0 checked=1\n".format(name), "logic=not-proved\n"]
    said = BUILDING.format("day") + "day: crate 1 of 3: base NOT PROVED\nday: crate 2 of 3: text NOT PROVED\n"
    end = "".join(whole[-20:]) + "day: day not built; {} has the whole\n".format(log)
    house.check("a failed build", house.run(["v.bytes"]), 1, "", said + end)
    if log.read_text() != "".join(whole):
        fail("a failed build", "its log is not whole")
    house.write(house.rt, "#!/bin/sh\n")
    shutil.rmtree(house.script.parent / "crates" / "day" / "out", ignore_errors=True)
    nothing = "build: rt left no {}\nday: day not built; {} has the whole\n".format(
        house.script.parent / "crates" / "day" / "out" / "day", log)
    house.check("a build that leaves nothing", house.run(["v.bytes"]), 1, "", BUILDING.format("day") + nothing)
    house.rt.unlink()
    if not shutil.which("rt", path="/usr/bin:/bin"):
        missing = house.run(["v.bytes"], env={"PATH": "/usr/bin:/bin"})
        house.check("no rt", missing, 1, "", "day: the command rt is missing; put the kit's bin/ on the PATH\n")
    house.write(house.rt, RT)


def try_signals(house):
    """A signal to the script alone ends it at once, with what it started, and leaves nothing."""
    for number in signal.SIGHUP, signal.SIGINT, signal.SIGQUIT, signal.SIGTERM:
        house.put_programs()
        process = house.begin(stdin=subprocess.PIPE, stdout=subprocess.PIPE, stderr=subprocess.PIPE)
        end_while(house, process, number, "it waits for its input")
        house.put_programs(day="echo $$ >&2; exec sleep 100")
        process = house.begin(["v.bytes"], stdout=subprocess.PIPE, stderr=subprocess.PIPE)
        child = int(process.stderr.readline())
        end_while(house, process, number, "the program runs", child)
        house.remove_programs()
        house.write(house.rt, "#!/bin/sh\nexec >&2\nsleep 100 &\necho $!\necho 'crate base: 1'\necho logic=proved\nwait\n")
        process = house.begin(["v.bytes"], stdout=subprocess.PIPE, stderr=subprocess.PIPE)
        process.stderr.readline(), process.stderr.readline()
        child = int((house.script.parent / "target" / "build.log").read_text().split()[0])
        end_while(house, process, number, "it builds", child)
        house.write(house.rt, RT)


def end_while(house, process, number, what, child=None):
    until(lambda: os.listdir(house.temporary), "./day has a temporary folder")
    process.send_signal(number)
    name = "signal {} while {}".format(number, what)
    until(lambda: process.poll() is not None, "./day ends after " + name)
    house.check(name, finished(process), 128 + number)
    until(lambda: not child or state(child) == "Z", "process {} ends after ".format(child) + name)


def try_script(root):
    """Tries the script under each shell; gives the number of runs."""
    count = 0
    for shell in "sh", "bash":
        if not shutil.which(shell):
            continue
        with tempfile.TemporaryDirectory() as folder:
            os.chmod(folder, 0o755)
            house = House(pathlib.Path(folder), shell, root)
            house.temporary.chmod(0o777)
            for part in (
                    try_cases, try_arguments_first, try_unreadable, try_inputs, try_texts, try_outputs, try_places, try_builds,
                    try_signals):
                part(house)
            count += house.count
    return count
