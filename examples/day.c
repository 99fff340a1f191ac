/*
 * A sheet, its events one by one, and the same events as a whole day.
 *
 *   day SHEET EVENT ..     SHEET is a file with a sheet's bytes, each EVENT a number
 *
 * The status is explained in example.h.
 */
#define PROGRAM "day"
#include "events.h"

int main(int words, char **word)
{
    uint8_t automaton[JAXHOPHASI_AUTOMATON_SIZE];
    if (words < 2)
        stop(2, "usage", "day SHEET EVENT ..");
    size_t count = (size_t)words - 2;
    uint32_t *events = read_events(word + 2, count);
    int refused = read_sheet("", word[1], automaton) != 0;
    if (!refused)
        run_events(automaton, events, count);
    free(events);
    return finished(refused);
}
