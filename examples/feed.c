/*
 * A feed of numbered records over growers that share a sheet.
 *
 *   feed SHEET COUNT FEED     SHEET is a file with a sheet's bytes, COUNT how many growers there
 *                             are, FEED a text with a record on each line: serial, grower, kind
 *
 * White space or commas part the numbers, each 0 to 2097151; comments go from # to the line's end.
 * A line with one or two numbers, or with a fourth, is a record cut short, or one with bytes left:
 * the call refuses it. The status is explained in example.h.
 *
 * Printed, after the sheet's two lines, a line for each record, by its serial:
 *
 *   record 7: lost 2 grower 0: in 3 place 4 out 2 3 from 3 4 state 1 held 0 guarded yes     let in
 *   record 7: lost 2 grower 0: in 9 refused 14      let in, and then its event was refused
 *   record 7: refused 22                            not let in; the expected serial stays
 *   record 7: refused 1 at 2                        .. with the place in the record's bytes
 *
 * then the serial that is expected next, or none, and where each grower stands.
 */
#define PROGRAM "feed"
#include "growers.h"

/* A number in seven-bit groups, in the fewest bytes; how many. */
static size_t pack_number(uint32_t value, uint8_t *bytes)
{
    size_t length = 0;
    for (; value > 127; value >>= 7)
        bytes[length++] = (uint8_t)(value | 128);
    bytes[length++] = (uint8_t)value;
    return length;
}

/* The bytes of a record; how many. */
static size_t pack(const struct line *line, uint8_t bytes[3 * MOST_NUMBERS])
{
    size_t length = 0;
    for (unsigned i = 0; i < line->count; i++)
        length += pack_number(line->number[i], bytes + length);
    return length;
}

/* Whether a record was let in: nothing is refused, or only its event is. */
static int let_in(uint8_t row)
{
    return row == JAXHOPHASI_FINE || row == JAXHOPHASI_NO_CLIENT || row == JAXHOPHASI_BAD_CONFIGURATION ||
        row == JAXHOPHASI_BAD_EVENT || row == JAXHOPHASI_BUFFER_FULL || row == JAXHOPHASI_INPUT_COUNT_END;
}

static void print_refusal(uint8_t row, const uint8_t *answer)
{
    printf("refused %u", row);
    if (row == JAXHOPHASI_ENDS_EARLY || row == JAXHOPHASI_LONG_NUMBER || row == JAXHOPHASI_BYTES_LEFT)
        printf(" at %u", (unsigned)jaxhophasi_number_at(answer + JAXHOPHASI_FED_PLACE));
    printf("\n");
}

/* One record, where this serial is expected; the next expected serial is left there. */
static void print_record(const struct growers *g, const struct line *line, uint8_t expected[JAXHOPHASI_EXPECTED_SIZE])
{
    uint8_t bytes[3 * MOST_NUMBERS], answer[JAXHOPHASI_FED_SIZE];
    size_t length = pack(line, bytes);
    uint8_t row = jaxhophasi_feed(
        g->automaton, g->table, g->places, g->list, g->count, bytes, length, expected, answer);
    printf("record %u: ", line->number[0]);
    if (let_in(row)) {
        printf("lost %u ", (unsigned)jaxhophasi_number_at(answer + JAXHOPHASI_FED_LOSS));
        print_event(g, row, line->number[1], line->number[2], answer);
    } else
        print_refusal(row, answer);
}

static void print_expected(const uint8_t expected[JAXHOPHASI_EXPECTED_SIZE])
{
    const uint8_t *serial = expected + JAXHOPHASI_EXPECTED_SERIAL;
    if (expected[JAXHOPHASI_EXPECTED_KNOWN])
        printf("expected %u\n", serial[0] + 256u * serial[1]);
    else
        printf("expected none\n");
}

static void print_feed(const struct growers *g, const struct line *lines, size_t count)
{
    uint8_t expected[JAXHOPHASI_EXPECTED_SIZE] = { 0 };
    for (size_t i = 0; i < count; i++)
        print_record(g, &lines[i], expected);
    print_expected(expected);
    print_growers(g);
}

int main(int words, char **word)
{
    static const struct form feed = { "serial, grower and kind", 1, MOST_NUMBERS, 2097151 };
    return over_growers(words, word, "feed SHEET COUNT FEED", &feed, print_feed);
}
