"""A feed of numbered records over growers that share a sheet.

    python3 feed.py LIBRARY SHEET COUNT FEED

LIBRARY is the shared object made from the archive, SHEET a file with a sheet's bytes, COUNT how
many growers there are, FEED a text with a record on each line: serial, grower, kind. White space
or commas part the numbers, each 0 to 2097151; comments go from # to the line's end. A line with
one or two numbers, or with a fourth, is a record cut short, or one with bytes left: the call
refuses it.

Printed, after the sheet's two lines, a line for each record, by its serial:

    record 7: lost 2 grower 0: in 3 place 4 out 2 3 from 3 4 state 1 held 0 guarded yes     let in
    record 7: lost 2 grower 0: in 9 refused 14      let in, and then its event was refused
    record 7: refused 22                            not let in; the expected serial stays
    record 7: refused 1 at 2                        .. with the place in the record's bytes

then the serial that is expected next, or none, and where each grower stands.

Offsets and sizes are those of include/jaxhophasi.h; day.py and clients.py have what the examples
share, and day.py explains the status.
"""
import sys

sys.dont_write_bytecode = True  # nothing is left beside the examples
from clients import over_growers
from day import EXPECTED_SIZE, FED_SIZE, filled, lent, number_at

LET_IN = 0, 19, 13, 14, 15, 23  # nothing is refused, or only the record's event is
PLACED = 1, 2, 10  # rows that have a place


def pack(values):
    """Numbers in seven-bit groups, each in the fewest bytes."""
    packed = []
    for value in values:
        while value > 127:
            packed.append(value & 127 | 128)
            value >>= 7
        packed.append(value)
    return packed


def print_record(growers, values, expected):
    """One record, where this serial is expected; the next expected serial is left there."""
    packed, answer = pack(values), lent(FED_SIZE)
    row = growers.library.jaxhophasi_feed(*growers.shared(), filled(packed), len(packed), expected, answer)
    if row in LET_IN:
        came = "lost {} {}".format(number_at(answer, 37), growers.event(row, *values[1:], answer))
    else:
        came = "refused {}".format(row) + (" at {}".format(number_at(answer, 45)) if row in PLACED else "")
    print("record {}: {}".format(values[0], came))


def print_feed(growers, records):
    expected = lent(EXPECTED_SIZE)  # none, before the first
    for values in records:
        print_record(growers, values, expected)
    print("expected", expected[1] + 256 * expected[2] if expected[0] else "none")
    growers.print_all()


def main(words):
    text = "serial, grower and kind", [1, 2, 3, 4], 2097151
    return over_growers(words, "feed.py LIBRARY SHEET COUNT FEED", text, print_feed)


if __name__ == "__main__":
    sys.exit(main(sys.argv))
