"""A sheet, its events one by one, and the same events as a whole day.

    python3 day.py LIBRARY SHEET EVENT ..

LIBRARY is the shared object made from the archive, SHEET a file with a sheet's bytes, each EVENT a
number. Offsets and sizes are those of include/jaxhophasi.h.

Status 0: all was printed. 1: the sheet is refused, or the output could not be written. 2: a fault
in what is given.
"""
import ctypes
import pathlib
import re
import signal
import sys

AUTOMATON_SIZE, NUMBER_SIZE, PLACE_SIZE, STATUS_SIZE, RECEIVED_SIZE, RAN_SIZE, VERDICT_SIZE = 564, 8, 4, 1, 37, 16, 2
EXPECTED_SIZE, FED_SIZE = 3, 53
RECEIVED_PLACES = 9  # where the places begin in the answer to an event
BYTES_READ = 3 * 564 + 1  # one byte more than a sheet can have


class Configuration(ctypes.LittleEndianStructure):
    """A carried state, 40 bytes: the state, how many are held, their kinds, their places among the
    accepted events, how many events were accepted and how many kinds put out. (A list of them is
    aligned to 4 bytes.)"""

    _fields_ = [
        ("state", ctypes.c_uint8),
        ("held", ctypes.c_uint8),
        ("buffer", ctypes.c_uint8 * 6),
        ("places", ctypes.c_uint32 * 6),
        ("received", ctypes.c_uint32),
        ("emitted", ctypes.c_uint32),
    ]


def stop(status, name, fault):
    """Says what is wrong, of a name where there is one, and ends."""
    program = pathlib.Path(sys.argv[0]).stem
    print(program + ": " + (name + ": " if name else "") + fault, file=sys.stderr)
    sys.exit(status)


def numbers(values):
    """A list of 32-bit numbers to lend; one place more, so that it is nowhere empty."""
    return (ctypes.c_uint32 * (len(values) + 1))(*values)


def lent(size):
    """Bytes to lend."""
    return (ctypes.c_uint8 * size)()


def filled(values):
    """Bytes to lend, with these contents; one place more, so that they are nowhere empty."""
    return (ctypes.c_uint8 * (len(values) + 1))(*values)


def number_at(answer, offset=0, size=NUMBER_SIZE):
    return int.from_bytes(bytes(answer[offset:offset + size]), "little")


def places_at(answer, count):
    """The places of as many kinds put out, in the answer to an event."""
    return [number_at(answer, RECEIVED_PLACES + PLACE_SIZE * i, PLACE_SIZE) for i in range(count)]


def library_at(path):
    """The shared object with its functions' types: a list is a pointer and then its length."""
    try:
        library = ctypes.CDLL(path)
    except OSError as error:
        stop(2, "", str(error))
    byte, word, size = ctypes.POINTER(ctypes.c_uint8), ctypes.POINTER(ctypes.c_uint32), ctypes.c_size_t
    carried = ctypes.POINTER(Configuration)  # one or a list
    for name, types in {
        "read": [byte, size, byte, byte],
        "write": [byte, byte, size, byte],
        "buffers_count": [byte, byte],
        "solve": [byte, word, size, byte],
        "initial": [byte, carried],
        "winning": [byte, word, size, carried, byte],
        "receive": [byte, word, size, carried, ctypes.c_uint32, byte],
        "run": [byte, word, size, carried, word, size, byte, size, byte],
        "judge": [byte, carried, byte],
        "product": [byte, byte, byte],
        "receive_for": [byte, word, size, carried, size, ctypes.c_uint32, ctypes.c_uint32, byte],
        "run_for": [byte, word, size, carried, size, word, size, byte, size, byte],
        "feed": [byte, word, size, carried, size, byte, size, byte, byte],
    }.items():
        function = getattr(library, "jaxhophasi_" + name, None) or stop(2, path, "no function jaxhophasi_" + name)
        function.argtypes, function.restype = types, ctypes.c_uint8
    return library


def symbols(values):
    return " ".join(str(v) for v in values) or "-"


def came_from(places):
    """Where kinds came from: their places among the accepted events, from 0."""
    return " from " + symbols(places) if places else ""


def yes(flag):
    return "yes" if flag else "no"


def number_of(word, most, fault):
    """The number of a word, digits alone, at most so large; else it ends with the fault."""
    if not re.fullmatch("0*[0-9]{1,10}", word) or int(word[-10:]) > most:
        stop(2, word or "''", fault)
    return int(word[-10:])


def read_file(path, most=-1):
    """A file's bytes, at most so many; all of them where no number is given."""
    try:
        with open(path, "rb") as file:
            return file.read(most)
    except OSError as error:
        stop(2, path, error.strerror)


def read(library, path, which=""):
    """The record of a sheet; the number of refusal and its place are printed, behind which sheet
    it is where there are two, and nothing is handed back."""
    data = read_file(path, BYTES_READ)
    automaton, place = lent(AUTOMATON_SIZE), lent(NUMBER_SIZE)
    row = library.jaxhophasi_read(filled(data), len(data), automaton, place)
    if row == 0:
        return automaton
    print("{}refused {} at {}".format(which, row, number_at(place)))
    return None


def solve(library, automaton):
    """Solves a sheet and prints its lines; the table and its length."""
    number, configuration, winning = lent(NUMBER_SIZE), Configuration(), lent(STATUS_SIZE)
    library.jaxhophasi_buffers_count(automaton, number)
    places = 2 * number_at(number)
    table = numbers([0] * places)
    library.jaxhophasi_solve(automaton, table, places, number)
    print("solved", places, "places,", number_at(number), "rounds")
    library.jaxhophasi_initial(automaton, configuration)
    library.jaxhophasi_winning(automaton, table, places, configuration, winning)
    print("sheet", automaton[0], automaton[1], automaton[2], "start", automaton[3], "guarded", yes(winning[0]))
    return table, places


def state(configuration):
    return "state {} held {}".format(configuration.state, configuration.held)


def carried_state(configuration):
    """A carried state: with where the held ones came from, how many came in and went out."""
    held_from = came_from(configuration.places[:configuration.held])
    return "{}{} came in {} went out {}".format(
        state(configuration), held_from, configuration.received, configuration.emitted)


def received(row, answer, configuration):
    """What an event answers and leaves, as the day program prints it, and with places: its own,
    which is the last that was given, and where each kind put out came from."""
    if row:
        return "refused {}".format(row)
    count = answer[7]
    put_out = symbols(answer[:count]) + came_from(places_at(answer, count))
    return "place {} out {} {} guarded {}".format(
        configuration.received - 1, put_out, state(configuration), yes(answer[8]))


def print_events(library, automaton, table, places, events):
    """One event after the other."""
    configuration, answer = Configuration(), lent(RECEIVED_SIZE)
    library.jaxhophasi_initial(automaton, configuration)
    for event in events:
        row = library.jaxhophasi_receive(automaton, table, places, configuration, event, answer)
        print("in", event, received(row, answer, configuration))


def print_day(library, automaton, table, places, events):
    """The whole day: all that is put out, the carried state, how many events were refused."""
    configuration, answer, out = Configuration(), lent(RAN_SIZE), lent(len(events) + 1)
    library.jaxhophasi_initial(automaton, configuration)
    row = library.jaxhophasi_run(automaton, table, places, configuration, numbers(events), len(events), out, len(events), answer)
    if row:
        print("day refused", row)
    else:
        print("day out", symbols(out[:number_at(answer)]), carried_state(configuration), "refused", number_at(answer, 8))


def run_events(library, automaton, events):
    """Solves a sheet and runs the events, unless it is refused; the status."""
    if automaton is None:
        return 1
    table, places = solve(library, automaton)
    print_events(library, automaton, table, places, events)
    print_day(library, automaton, table, places, events)
    return 0


def run_sheet(library, path, events):
    """Reads the sheet and runs the events, or prints the sheet's refusal; the status."""
    return run_events(library, read(library, path), events)


def printed(run, *arguments):
    """The status of what prints, once all is written."""
    signal.signal(signal.SIGPIPE, signal.SIG_DFL)  # as in C: a reader that goes away ends it
    try:
        status = run(*arguments)
        print(end="", flush=True)
    except OSError:
        sys.stdout = None
    if sys.stdout is None:  # also where it was closed from the start
        stop(1, "", "cannot write")
    return status


def read_events(words):
    """The numbers of words, each an event."""
    return [number_of(word, 0xFFFFFFFF, "no event number (0 to 4294967295)") for word in words]


def main(words):
    if len(words) < 3:
        stop(2, "usage", "day.py LIBRARY SHEET EVENT ..")
    events = read_events(words[3:])
    return printed(run_sheet, library_at(words[1]), words[2], events)


if __name__ == "__main__":
    sys.exit(main(sys.argv))
