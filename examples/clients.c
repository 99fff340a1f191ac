/*
 * Many growers that share a sheet: a day of their events one by one, and the same as a whole day.
 *
 *   clients SHEET COUNT DAY     SHEET is a file with a sheet's bytes, COUNT how many growers there
 *                               are, DAY a text with an event on each line: grower and kind
 *
 * White space or commas part the two numbers, each 0 to 65535; comments go from # to the line's
 * end. The status is explained in example.h.
 */
#define PROGRAM "clients"
#include "growers.h"

/* One event after the other. */
static void print_events(const struct growers *g, const struct line *lines, size_t count)
{
    uint8_t answer[JAXHOPHASI_RECEIVED_SIZE];
    for (size_t i = 0; i < count; i++) {
        uint32_t grower = lines[i].number[0], kind = lines[i].number[1];
        uint8_t row = jaxhophasi_receive_for(g->automaton, g->table, g->places, g->list, g->count, grower, kind, answer);
        print_event(g, row, grower, kind, answer);
    }
}

/* The whole day: all that is put out, how many events were refused, and where each grower is. */
static void print_day(const struct growers *g, const struct line *lines, size_t count)
{
    /* Fresh growers hold nothing: a byte for each event is enough. Else one more for each held. */
    uint8_t answer[JAXHOPHASI_RAN_SIZE], *out = room(count, sizeof *out);
    uint32_t *events = room(count, sizeof *events);
    for (size_t i = 0; i < count; i++)
        events[i] = JAXHOPHASI_CLIENT_EVENT(lines[i].number[0], lines[i].number[1]);
    uint8_t row = jaxhophasi_run_for(
        g->automaton, g->table, g->places, g->list, g->count, events, count, out, count, answer);
    if (row)
        printf("day refused %u\n", row);
    else {
        printf("day out");
        print_symbols(out, jaxhophasi_number_at(answer + JAXHOPHASI_RAN_LENGTH));
        printf(" refused %u\n", (unsigned)jaxhophasi_number_at(answer + JAXHOPHASI_RAN_REFUSED));
        print_growers(g);
    }
    free(events);
    free(out);
}

static void print_both(const struct growers *g, const struct line *lines, size_t count)
{
    print_events(g, lines, count);
    begin(g);
    print_day(g, lines, count);
}

int main(int words, char **word)
{
    static const struct form day = { "grower and kind", 2, 2, 65535 };
    return over_growers(words, word, "clients SHEET COUNT DAY", &day, print_both);
}
