/*
 * What the examples in C share. A program defines PROGRAM, its name, before it includes this.
 *
 * Status 0: all was printed. 1: the sheet is refused, or the output could not be written. 2: a
 * fault in what is given.
 */
#ifndef EXAMPLE_H
#define EXAMPLE_H

#include <errno.h>
#include <stdio.h>
#include <stdlib.h>
#include <string.h>

#include "jaxhophasi.h"

/* One byte more than a sheet can have. */
#define BYTES_READ (3 * JAXHOPHASI_MAX_SHEET + 1)

/* Says what is wrong, of a name where there is one, and ends. */
static void stop(int status, const char *name, const char *fault)
{
    fprintf(stderr, PROGRAM ": %s%s%s\n", name, *name ? ": " : "", fault);
    exit(status);
}

/* Room to lend, all zero; one place more, so that it is nowhere empty. */
static void *room(size_t count, size_t size)
{
    void *place = calloc(count + 1, size);
    if (!place)
        stop(1, "", strerror(ENOMEM));
    return place;
}

/* The number of a word, digits alone, at most so large; else it ends with the fault. */
static uint32_t number_of(const char *word, uint32_t most, const char *fault)
{
    uint64_t value = 0;
    size_t digits = strspn(word, "0123456789");
    for (size_t i = 0; i < digits && value <= most; i++)
        value = 10 * value + (uint64_t)(word[i] - '0');
    if (digits == 0 || word[digits] || value > most)
        stop(2, *word ? word : "''", fault);
    return (uint32_t)value;
}

static void print_symbols(const uint8_t *symbols, size_t count)
{
    if (count == 0)
        printf(" -");
    for (size_t i = 0; i < count; i++)
        printf(" %u", symbols[i]);
}

/* Where as many kinds came from: their places among the accepted events, from 0. */
static void print_places(const uint8_t *places, size_t count)
{
    if (count)
        printf(" from");
    for (size_t i = 0; i < count; i++)
        printf(" %u", jaxhophasi_place_at(places + i * JAXHOPHASI_PLACE_SIZE));
}

static void print_state(const uint8_t *configuration)
{
    printf(" state %u held %u", configuration[JAXHOPHASI_CONFIGURATION_STATE], configuration[JAXHOPHASI_CONFIGURATION_HELD]);
}

/* What an accepted event answers and leaves, as the day program prints it, and with places: its
 * own, which is the last that was given, and where each kind put out came from. */
static void print_answer(const uint8_t *answer, const uint8_t *configuration)
{
    size_t count = answer[JAXHOPHASI_RECEIVED_COUNT];
    printf(" place %u out", jaxhophasi_place_at(configuration + JAXHOPHASI_CONFIGURATION_RECEIVED) - 1);
    print_symbols(answer + JAXHOPHASI_RECEIVED_EMITTED, count);
    print_places(answer + JAXHOPHASI_RECEIVED_PLACES, count);
    print_state(configuration);
    printf(" guarded %s\n", answer[JAXHOPHASI_RECEIVED_WINNING] ? "yes" : "no");
}

/* A carried state: with where the held ones came from, how many came in and went out. */
static void print_carried(const uint8_t *configuration)
{
    print_state(configuration);
    print_places(configuration + JAXHOPHASI_CONFIGURATION_PLACES, configuration[JAXHOPHASI_CONFIGURATION_HELD]);
    printf(" came in %u went out %u", jaxhophasi_place_at(configuration + JAXHOPHASI_CONFIGURATION_RECEIVED),
        jaxhophasi_place_at(configuration + JAXHOPHASI_CONFIGURATION_EMITTED));
}

/* As many of a file's bytes as a sheet can have, and one more. */
static size_t read_file(const char *name, uint8_t bytes[BYTES_READ])
{
    FILE *file = fopen(name, "rb");
    size_t length = file ? fread(bytes, 1, BYTES_READ, file) : 0;
    if (!file || ferror(file))
        stop(2, name, strerror(errno));
    fclose(file);
    return length;
}

/* Reads the sheet of a file into a record; prints its refusal, behind which sheet it is where
 * there are two, and hands it back. */
static uint8_t read_sheet(const char *which, const char *name, uint8_t automaton[JAXHOPHASI_AUTOMATON_SIZE])
{
    uint8_t bytes[BYTES_READ], place[JAXHOPHASI_NUMBER_SIZE];
    size_t length = read_file(name, bytes);
    uint8_t row = jaxhophasi_read(bytes, length, automaton, place);
    if (row)
        printf("%srefused %u at %u\n", which, row, (unsigned)jaxhophasi_number_at(place));
    return row;
}

/* Solves a sheet and prints its lines; the table, and how many places it has. A record that was
 * read is refused by none of the calls. */
static uint32_t *solve(const uint8_t *automaton, size_t *places)
{
    uint8_t number[JAXHOPHASI_NUMBER_SIZE], configuration[JAXHOPHASI_CONFIGURATION_SIZE], winning[JAXHOPHASI_STATUS_SIZE];
    jaxhophasi_buffers_count(automaton, number);
    *places = JAXHOPHASI_TABLE_LENGTH(jaxhophasi_number_at(number));
    uint32_t *table = room(*places, sizeof *table);
    jaxhophasi_solve(automaton, table, *places, number);
    printf("solved %zu places, %u rounds\n", *places, (unsigned)jaxhophasi_number_at(number));
    jaxhophasi_initial(automaton, configuration);
    jaxhophasi_winning(automaton, table, *places, configuration, winning);
    printf("sheet %u %u %u start %u guarded %s\n", automaton[JAXHOPHASI_AUTOMATON_STATES], automaton[JAXHOPHASI_AUTOMATON_SYMBOLS],
        automaton[JAXHOPHASI_AUTOMATON_CAPACITY], automaton[JAXHOPHASI_AUTOMATON_INITIAL], winning[0] ? "yes" : "no");
    return table;
}

/* The status, once all that was printed is written. */
static int finished(int status)
{
    if (fflush(stdout) || ferror(stdout))
        stop(1, "", "cannot write");
    return status;
}

#endif
