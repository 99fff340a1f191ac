/*
 * What the examples in C with one carried state share: events one by one, and the same events as a
 * whole day.
 */
#ifndef EVENTS_H
#define EVENTS_H

#include "example.h"

/* One event: the kind, then what came of it. */
static void print_event(const uint8_t *automaton, const uint32_t *table, size_t places, uint8_t *configuration, uint32_t event)
{
    uint8_t answer[JAXHOPHASI_RECEIVED_SIZE];
    uint8_t row = jaxhophasi_receive(automaton, table, places, configuration, event, answer);
    printf("in %u", event);
    if (row)
        printf(" refused %u\n", row);
    else
        print_answer(answer, configuration);
}

/* The whole day: all that is put out, the carried state, how many events were refused. */
static void print_day(const uint8_t *automaton, const uint32_t *table, size_t places, const uint32_t *events, size_t count)
{
    uint8_t configuration[JAXHOPHASI_CONFIGURATION_SIZE], answer[JAXHOPHASI_RAN_SIZE];
    uint8_t *out = room(count, sizeof *out);
    jaxhophasi_initial(automaton, configuration);
    uint8_t row = jaxhophasi_run(automaton, table, places, configuration, events, count, out, count, answer);
    if (row)
        printf("day refused %u\n", row);
    else {
        printf("day out");
        print_symbols(out, jaxhophasi_number_at(answer + JAXHOPHASI_RAN_LENGTH));
        print_carried(configuration);
        printf(" refused %u\n", (unsigned)jaxhophasi_number_at(answer + JAXHOPHASI_RAN_REFUSED));
    }
    free(out);
}

/* Solves a sheet and runs the events. */
static void run_events(const uint8_t *automaton, const uint32_t *events, size_t count)
{
    uint8_t configuration[JAXHOPHASI_CONFIGURATION_SIZE];
    size_t places;
    uint32_t *table = solve(automaton, &places);
    jaxhophasi_initial(automaton, configuration);
    for (size_t i = 0; i < count; i++)
        print_event(automaton, table, places, configuration, events[i]);
    print_day(automaton, table, places, events, count);
    free(table);
}

/* The numbers of so many words, each an event. */
static uint32_t *read_events(char **word, size_t count)
{
    uint32_t *events = room(count, sizeof *events);
    for (size_t i = 0; i < count; i++)
        events[i] = number_of(word[i], UINT32_MAX, "no event number (0 to 4294967295)");
    return events;
}

#endif
