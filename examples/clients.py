"""Many growers that share a sheet: a day of their events one by one, and the same as a whole day.

    python3 clients.py LIBRARY SHEET COUNT DAY

LIBRARY is the shared object made from the archive, SHEET a file with a sheet's bytes, COUNT how
many growers there are, DAY a text with an event on each line: grower and kind. White space or
commas part the two numbers, each 0 to 65535; comments go from # to the line's end.

Offsets and sizes are those of include/jaxhophasi.h; day.py has what all examples share, and
explains the status.
"""
import re
import sys

sys.dont_write_bytecode = True  # nothing is left beside the examples
from day import RAN_SIZE, RECEIVED_SIZE, Configuration
from day import carried_state, lent, library_at, number_at, number_of, numbers, printed, read, read_file, received, solve
from day import stop, symbols


class Growers:
    """What the growers share, and the carried state of each, one after the other."""

    def __init__(self, library, automaton, count):
        self.library, self.automaton, self.count = library, automaton, count
        self.table, self.places = solve(library, automaton)
        self.begin()

    def begin(self):
        """Every grower begins anew."""
        self.list = (Configuration * (self.count + 1))()  # one more: it is nowhere empty
        for grower in range(self.count):
            self.library.jaxhophasi_initial(self.automaton, self.list[grower])

    def shared(self):
        """What all calls over growers begin with."""
        return self.automaton, self.table, self.places, self.list, self.count

    def event(self, row, grower, kind, answer):
        """A grower's event: the grower and the kind, then what came of it."""
        configuration = self.list[grower] if row == 0 else None
        return "grower {}: in {} {}".format(grower, kind, received(row, answer, configuration))

    def print_all(self):
        """Where each grower stands."""
        for grower in range(self.count):
            print("grower {}: {}".format(grower, carried_state(self.list[grower])))


def print_events(growers, events):
    """One event after the other."""
    answer = lent(RECEIVED_SIZE)
    for grower, kind in events:
        row = growers.library.jaxhophasi_receive_for(*growers.shared(), grower, kind, answer)
        print(growers.event(row, grower, kind, answer))


def print_day(growers, events):
    """The whole day: all that is put out, how many events were refused, and where each grower
    is."""
    # fresh growers hold nothing: a byte for each event is enough
    answer, out = lent(RAN_SIZE), lent(len(events) + 1)
    day = numbers([grower * 65536 + kind for grower, kind in events])
    row = growers.library.jaxhophasi_run_for(*growers.shared(), day, len(events), out, len(events), answer)
    if row:
        print("day refused", row)
        return
    print("day out", symbols(out[:number_at(answer)]), "refused", number_at(answer, 8))
    growers.print_all()


def print_both(growers, events):
    print_events(growers, events)
    growers.begin()
    print_day(growers, events)


def read_lines(path, names, counts, greatest):
    """The numbers of each line of a text that has any; names says what they are, counts how many
    there may be."""
    lines = []
    for number, line in enumerate(read_file(path).split(b"\n"), 1):
        words = re.findall(rb"[^ \t\r,]+", line.partition(b"#")[0])
        values = [int(word[-7:]) for word in words if re.fullmatch(rb"0*[0-9]{1,7}", word)]
        if len(words) not in (0, *counts) or len(values) != len(words) or any(value > greatest for value in values):
            stop(2, path, "line {}: no {} (each 0 to {})".format(number, names, greatest))
        lines += [values] if values else []
    return lines


def run_sheet(library, path, count, lines, print_lines):
    """Reads the sheet and runs the lines, or prints the sheet's refusal; the status."""
    automaton = read(library, path)
    if automaton is None:
        return 1
    print_lines(Growers(library, automaton, count), lines)
    return 0


def over_growers(words, usage, text, print_lines):
    """The whole of an example over growers: its words are LIBRARY, SHEET, COUNT and the path of a
    text; what read_lines is told of the text, and what prints the lines, are given. The status."""
    if len(words) != 5:
        stop(2, "usage", usage)
    count = number_of(words[3], 65535, "no number of growers (0 to 65535)")
    lines = read_lines(words[4], *text)
    return printed(run_sheet, library_at(words[1]), words[2], count, lines, print_lines)


def main(words):
    return over_growers(words, "clients.py LIBRARY SHEET COUNT DAY", ("grower and kind", [2], 65535), print_both)


if __name__ == "__main__":
    sys.exit(main(sys.argv))
