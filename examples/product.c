/*
 * Two sheets, both to be obeyed, as one: events over it one by one, and as a whole day.
 *
 *   product FIRST SECOND EVENT ..     FIRST and SECOND are files with a sheet's bytes, each EVENT
 *                                     a number
 *
 * Printed, where the two can be merged, what the example day prints of a sheet; else which row
 * refused:
 *
 *   first: refused 9 at 14      FIRST is no sheet, with the place in its bytes; so for SECOND
 *   refused 24                  their kinds differ in number or class
 *   refused 25                  there are more than 32 pairs of their states
 *
 * The status is explained in example.h; two sheets that cannot be merged are refused too.
 */
#define PROGRAM "product"
#include "events.h"

/* Merges the sheets of two files into a record; prints a refusal and hands it back. */
static uint8_t merge(const char *first_name, const char *second_name, uint8_t automaton[JAXHOPHASI_AUTOMATON_SIZE])
{
    uint8_t first[JAXHOPHASI_AUTOMATON_SIZE], second[JAXHOPHASI_AUTOMATON_SIZE];
    uint8_t row = read_sheet("first: ", first_name, first);
    if (row || (row = read_sheet("second: ", second_name, second)))
        return row;
    row = jaxhophasi_product(first, second, automaton);
    if (row)
        printf("refused %u\n", row);
    return row;
}

int main(int words, char **word)
{
    uint8_t automaton[JAXHOPHASI_AUTOMATON_SIZE];
    if (words < 3)
        stop(2, "usage", "product FIRST SECOND EVENT ..");
    size_t count = (size_t)words - 3;
    uint32_t *events = read_events(word + 3, count);
    int refused = merge(word[1], word[2], automaton) != 0;
    if (!refused)
        run_events(automaton, events, count);
    free(events);
    return finished(refused);
}
