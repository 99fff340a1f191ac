/* The calls of jaxhophasi.h once more, written in C from the rules of documents 01 and 02 alone.
 * Same parameters, same bytes. */
#ifndef REFERENCE_H
#define REFERENCE_H

#include <stddef.h>
#include <stdint.h>

/* How row 11 is checked: 0 leaves at the first fault, 1 goes over whole arrays with a flag, which
 * a compiler vectorises. */
extern int ref_flat_check;

/* Whether the solver remembers the last list of those that begin with one symbol: what leads into
 * the same states is not struck again. */
extern int ref_remember;

uint8_t ref_read(const uint8_t *bytes, size_t bytes_length, uint8_t *automaton, uint8_t *place);
uint8_t ref_write(const uint8_t *automaton, uint8_t *out, size_t out_length, uint8_t *length);
uint8_t ref_buffers_count(const uint8_t *automaton, uint8_t *count);
uint8_t ref_solve(const uint8_t *automaton, uint32_t *table, size_t table_length, uint8_t *rounds);
uint8_t ref_initial(const uint8_t *automaton, uint8_t *configuration);
uint8_t ref_winning(const uint8_t *automaton, const uint32_t *table, size_t table_length, const uint8_t *configuration,
    uint8_t *answer);
uint8_t ref_receive(const uint8_t *automaton, const uint32_t *table, size_t table_length, uint8_t *configuration, uint32_t event,
    uint8_t *answer);
uint8_t ref_run(const uint8_t *automaton, const uint32_t *table, size_t table_length, uint8_t *configuration,
    const uint32_t *events, size_t events_length, uint8_t *out, size_t out_length, uint8_t *answer);
uint8_t ref_receive_for(const uint8_t *automaton, const uint32_t *table, size_t table_length, uint8_t (*configurations)[40],
    size_t configurations_length, uint32_t client, uint32_t event, uint8_t *answer);
uint8_t ref_run_for(const uint8_t *automaton, const uint32_t *table, size_t table_length, uint8_t (*configurations)[40],
    size_t configurations_length, const uint32_t *events, size_t events_length, uint8_t *out, size_t out_length, uint8_t *answer);
uint8_t ref_feed(const uint8_t *automaton, const uint32_t *table, size_t table_length, uint8_t (*configurations)[40],
    size_t configurations_length, const uint8_t *bytes, size_t bytes_length, uint8_t *expected, uint8_t *answer);
uint8_t ref_judge(const uint8_t *automaton, const uint8_t *configuration, uint8_t *answer);
uint8_t ref_product(const uint8_t *first, const uint8_t *second, uint8_t *automaton);

#endif
