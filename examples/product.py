"""Two sheets, both to be obeyed, as one: events over it one by one, and as a whole day.

    python3 product.py LIBRARY FIRST SECOND EVENT ..

LIBRARY is the shared object made from the archive, FIRST and SECOND are files with a sheet's
bytes, each EVENT a number. Printed, where the two can be merged, what day.py prints of a sheet;
else which row refused:

    first: refused 9 at 14      FIRST is no sheet, with the place in its bytes; so for SECOND
    refused 24                  their kinds differ in number or class
    refused 25                  there are more than 32 pairs of their states

Sizes are those of include/jaxhophasi.h; day.py has what all examples share, and explains the
status. Two sheets that cannot be merged are refused too.
"""
import sys

sys.dont_write_bytecode = True  # nothing is left beside the examples
from day import AUTOMATON_SIZE, lent, library_at, printed, read, read_events, run_events, stop


def merge(library, first_path, second_path):
    """The record of the two merged; a refusal is printed, and nothing is handed back."""
    first = read(library, first_path, "first: ")
    second = None if first is None else read(library, second_path, "second: ")
    if second is None:
        return None
    automaton = lent(AUTOMATON_SIZE)
    row = library.jaxhophasi_product(first, second, automaton)
    if row == 0:
        return automaton
    print("refused", row)
    return None


def run_two(library, first_path, second_path, events):
    """Merges two sheets and runs the events, or prints a refusal; the status."""
    return run_events(library, merge(library, first_path, second_path), events)


def main(words):
    if len(words) < 4:
        stop(2, "usage", "product.py LIBRARY FIRST SECOND EVENT ..")
    events = read_events(words[4:])
    return printed(run_two, library_at(words[1]), words[2], words[3], events)


if __name__ == "__main__":
    sys.exit(main(sys.argv))
