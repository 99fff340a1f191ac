"""The test program: runs each line of a file through the interface for C, and prints the line and
what came out below it, numbers or groups of them. Lines that begin with # are printed alone.

    python3 tests/cases.py LIBRARY FILE

LIBRARY is the shared object made from the archive. One record, two records to be merged, one
table, one carried state and one list of clients' carried states are kept from line to line. A line
is a word and numbers; spaces, commas and semicolons part them. A carried state (STATE) is sixteen
numbers: the state, how many are held, six kinds, their six places in the input, how many came in
and how many went out.

    sheet BYTES             reads a sheet:
                            = refusal, place, n, m, B, start, the sum of all bytes of the record
    overwrite PLACE VALUE   changes one byte of the record
    first, second           the record, as it is, becomes the first or the second to be merged
    product                 merges these two into the record, whose bytes were 9:
                            = refusal, n, m, B, start, the sum of all bytes of the record
    write ROOM              writes the sheet into ROOM bytes that were 9:
                            = refusal, length, those bytes
    count                   = refusal, T
    bits WORDS              puts words at the front of the table
    table PLACES            solves into the table's first places:
                            = refusal, rounds, those places
    initial                 = refusal, the carried state
    at STATE                sets the carried state
    guarded PLACES          = refusal, guarded
    event PLACES KIND       = refusal, count put out, guarded, the carried state, the seven kinds
                            put out and their seven places in the input
    run PLACES ROOM KINDS   a day into ROOM bytes that were 9:
                            = refusal, length, refused, the carried state, those bytes
    clients STATE ..        sets the list of clients
    alike COUNT STATE       sets a list of so many clients with the same carried state
    event_for PLACES CLIENT KIND
                            = refusal, count put out, guarded, the seven kinds put out and their
                            seven places in that client's input; then each client whose carried
                            state changed, with it
    run_for PLACES ROOM NUMBERS
                            a day over the list into ROOM bytes that were 9:
                            = refusal, length, refused, those bytes up to the last that is not 9;
                            then each client whose carried state changed, with it
    feed PLACES EXPECTED BYTES
                            a record of a feed over the list, EXPECTED three bytes:
                            = refusal, place, loss, those three bytes, then as event_for from the
                            count put out on
    judge                   = refusal, may rest here, can come to rest
    agree NUMBERS           every sheet that begins with these numbers, every carried state over
                            it: = sheets, carried states, in how many of them the judge says what
                            the solved table says
    parts NUMBERS           every first sheet that begins with these numbers, merged with the
                            second; every held list and every pair of states: = sheets, such states
                            with a list, in how many the product may rest, in how many both parts
                            may, and in how many the product may and a part may not, by solved
                            tables
"""
import itertools
import pathlib
import re
import sys

sys.path.insert(0, str(pathlib.Path(__file__).resolve().parent.parent / "examples"))
from day import AUTOMATON_SIZE, EXPECTED_SIZE, FED_SIZE, NUMBER_SIZE, RAN_SIZE, RECEIVED_SIZE, STATUS_SIZE, VERDICT_SIZE
from day import Configuration, filled, lent, library_at, number_at, numbers, places_at

TABLE_PLACES = 256
STATE_NUMBERS = 16  # of a carried state


def answer(size):
    """An answer's bytes to lend: 9 each, so that one that is not written is seen."""
    return filled([9] * size)


def carried(values):
    """The carried state of its sixteen numbers."""
    if len(values) != STATE_NUMBERS:
        sys.exit("no carried state: {}".format(values))
    state, held, *rest = values
    return Configuration(state, held, tuple(rest[:6]), tuple(rest[6:12]), *rest[12:])


def said(configuration):
    """The sixteen numbers of a carried state, in groups."""
    eight = [configuration.state, configuration.held, *configuration.buffer]
    return [eight, configuration.places[:], [configuration.received, configuration.emitted]]


def put_out(answer):
    """The kinds put out, and their places in the input, in the answer to an event."""
    return [answer[:7], places_at(answer, 7)]


def until_nines(values):
    """Bytes up to the last that is not 9."""
    while values and values[-1] == 9:
        values = values[:-1]
    return values


class Cases:
    def __init__(self, library):
        self.library = library
        self.automaton, self.configuration = lent(AUTOMATON_SIZE), Configuration()
        self.two = [lent(AUTOMATON_SIZE), lent(AUTOMATON_SIZE)]  # to be merged
        self.table_words = numbers([0] * TABLE_PLACES)
        self.list = []  # the clients' carried states

    def sheet(self, *data):
        place = answer(NUMBER_SIZE)
        row = self.library.jaxhophasi_read(filled(data), len(data), self.automaton, place)
        return [row, number_at(place)] + self.automaton[:4] + [sum(self.automaton)]

    def overwrite(self, place, value):
        self.automaton[place] = value

    def first(self):
        self.two[0] = filled(self.automaton[:AUTOMATON_SIZE])

    def second(self):
        self.two[1] = filled(self.automaton[:AUTOMATON_SIZE])

    def product(self):
        before = [part[:] for part in self.two]
        self.automaton = answer(AUTOMATON_SIZE)
        row = self.library.jaxhophasi_product(*self.two, self.automaton)
        if [part[:] for part in self.two] != before:
            sys.exit("a product changed what it was lent")
        return [row] + self.automaton[:4] + [sum(self.automaton)]

    def write(self, room):
        out, length = filled([9] * room), answer(NUMBER_SIZE)
        row = self.library.jaxhophasi_write(self.automaton, out, room, length)
        return [row, number_at(length)] + out[:room]

    def count(self):
        count = answer(NUMBER_SIZE)
        return [self.library.jaxhophasi_buffers_count(self.automaton, count), number_at(count)]

    def bits(self, *words):
        self.table_words[:len(words)] = words

    def table(self, places):
        rounds = answer(NUMBER_SIZE)
        row = self.library.jaxhophasi_solve(self.automaton, self.table_words, places, rounds)
        return [row, number_at(rounds)] + self.table_words[:places]

    def initial(self):
        row = self.library.jaxhophasi_initial(self.automaton, self.configuration)
        return [[row], *said(self.configuration)]

    def at(self, *values):
        self.configuration = carried(values)

    def guarded(self, places):
        status = answer(STATUS_SIZE)
        return [self.library.jaxhophasi_winning(self.automaton, self.table_words, places, self.configuration, status), status[0]]

    def event(self, places, kind):
        received = answer(RECEIVED_SIZE)
        row = self.library.jaxhophasi_receive(self.automaton, self.table_words, places, self.configuration, kind, received)
        return [[row, received[7], received[8]], *said(self.configuration), *put_out(received)]

    def run(self, places, room, *kinds):
        ran, out = answer(RAN_SIZE), filled([9] * room)
        row = self.library.jaxhophasi_run(
            self.automaton, self.table_words, places, self.configuration, numbers(kinds), len(kinds), out, room, ran)
        return [[row, number_at(ran), number_at(ran, 8)], *said(self.configuration), out[:room]]

    def clients(self, *values):
        self.list = [carried(values[i:i + STATE_NUMBERS]) for i in range(0, len(values), STATE_NUMBERS)]

    def alike(self, count, *values):
        self.list = [carried(values)] * count

    def over_list(self, call):
        """Lends the list, behind which stands the carried state of one client more: the refusal,
        and each client whose carried state changed (one that is not there too)."""
        before = self.list + [carried([9] * STATE_NUMBERS)]
        lent_list = (Configuration * len(before))(*before)
        row = call(lent_list, len(self.list))
        changed = []
        for client, (old, new) in enumerate(zip(map(said, before), map(said, lent_list))):
            changed += [] if old == new else [[str(client) + ":", *new[0]], *new[1:]]
        self.list = lent_list[:len(self.list)]
        return row, changed

    def event_for(self, places, client, kind):
        received = answer(RECEIVED_SIZE)
        row, changed = self.over_list(lambda clients, count: self.library.jaxhophasi_receive_for(
            self.automaton, self.table_words, places, clients, count, client, kind, received))
        return [[row, received[7], received[8]], *put_out(received), *changed]

    def run_for(self, places, room, *events):
        ran, out = answer(RAN_SIZE), filled([9] * room)
        row, changed = self.over_list(lambda clients, count: self.library.jaxhophasi_run_for(
            self.automaton, self.table_words, places, clients, count, numbers(events), len(events), out, room, ran))
        return [[row, number_at(ran), number_at(ran, 8)], until_nines(out[:room]), *changed]

    def feed(self, places, *data):
        fed, expected, record = answer(FED_SIZE), filled(data[:EXPECTED_SIZE]), data[EXPECTED_SIZE:]
        row, changed = self.over_list(lambda clients, count: self.library.jaxhophasi_feed(
            self.automaton, self.table_words, places, clients, count, filled(record), len(record), expected, fed))
        told = [row, number_at(fed, 45), number_at(fed, 37)]
        return [told, expected[:EXPECTED_SIZE], [fed[7], fed[8]], *put_out(fed), *changed]

    def judge(self):
        verdict = answer(VERDICT_SIZE)
        return [self.library.jaxhophasi_judge(self.automaton, self.configuration, verdict)] + verdict[:VERDICT_SIZE]

    def agree(self, *head):
        states, symbols, capacity = head[:3]
        controllable = [kind for kind in range(symbols) if head[4 + kind]]
        buffers = [held for length in range(capacity + 1) for held in itertools.product(controllable, repeat=length)]
        sheets = asked = agreed = 0
        for accepting in itertools.product(range(2), repeat=states):
            for following in itertools.product(range(states), repeat=states * symbols):
                sheets += 1
                self.sheet(*head, *accepting, *following)
                solved = self.table(2 * len(buffers))[2:]
                for place, held in enumerate(buffers):
                    for state in range(states):
                        unused = [0] * (6 - len(held))
                        self.at(state, len(held), *held, *unused, *range(len(held)), *unused, len(held), 0)
                        rests, released = (solved[2 * place + i] >> state & 1 for i in range(2))
                        asked += 1
                        agreed += self.judge() == [0, rests, rests | released]
        return [sheets, asked, agreed]

    def resting(self, automaton):
        """Where a record may rest, for each held list: a set as bits."""
        self.automaton = filled(automaton[:AUTOMATON_SIZE])
        return self.table(2 * self.count()[1])[2::2]

    def parts(self, *head):
        states, symbols = head[:2]
        by_second, other_states = self.resting(self.two[1]), self.two[1][0]
        pairs = list(itertools.product(range(states), range(other_states)))
        sheets = asked = rests = both = wrong = 0
        for accepting in itertools.product(range(2), repeat=states):
            for following in itertools.product(range(states), repeat=states * symbols):
                sheets += self.sheet(*head, *accepting, *following)[0] == 0
                self.first()
                by_first = self.resting(self.automaton)
                self.product()
                sets = zip(by_first, by_second, self.resting(self.automaton))
                for (one, other, merged), (p, q) in itertools.product(sets, pairs):
                    may = merged >> p * other_states + q & 1
                    parts_may = one >> p & other >> q & 1
                    asked += 1
                    rests, both, wrong = rests + may, both + parts_may, wrong + (may > parts_may)
        return [sheets, asked, rests, both, wrong]


def main(library, path):
    cases = Cases(library_at(library))
    for line in open(path):
        print(line, end="")
        word, _, text = line.rstrip("\n").partition(" ")
        printed = None if word == "#" else getattr(cases, word)(*map(int, re.findall("[0-9]+", text)))
        if printed is not None:
            groups = printed if isinstance(printed[0], list) else [printed]
            print("=", ", ".join(" ".join(map(str, group)) for group in groups if group))


if __name__ == "__main__":
    if len(sys.argv) != 3:
        sys.exit("usage: cases.py LIBRARY FILE")
    main(*sys.argv[1:])
