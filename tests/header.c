/*
 * Every name that include/jaxhophasi.h defines, against what the calls answer. The sheets, the
 * numbers and the bytes that are expected stand here as documents 01 and 02 have them; the answers
 * are indexed by the header's names.
 */
#include <stdio.h>
#include <stdlib.h>
#include <string.h>

#include "jaxhophasi.h"

enum { ROOM = 2048 };

/* Sheets V and W of document 01. */
static const uint8_t v[] = { 3, 2, 1, 0, 0, 1, 1, 0, 1, 1, 0, 1, 2, 2, 2 };
static const uint8_t w[] = { 4, 4, 2, 0, 0, 0, 1, 1, 1, 1, 0, 0, 1, 0, 3, 0, 1, 0, 2, 1, 2, 3, 3, 1, 3, 3, 3, 3 };

static int different;

static void same(const char *what, unsigned long got, unsigned long expected)
{
    if (got == expected)
        return;
    printf("tests/header.c: %s: %lu, expected %lu\n", what, got, expected);
    different = 1;
}

static void same_bytes(const char *what, const uint8_t *got, const uint8_t *expected, size_t count)
{
    for (size_t i = 0; i < count; i++)
        same(what, got[i], expected[i]);
}

/* How many bytes a call writes at the front of what it is lent: it is made twice, over bytes that
 * nowhere agree. CALL lends `lent`. */
static uint8_t first[ROOM], second[ROOM], *lent;

static unsigned long agreeing(void)
{
    unsigned long count = 0;
    while (count < ROOM && first[count] == second[count])
        count++;
    return count;
}

#define WRITTEN(CALL) \
    (memset(first, 0x55, ROOM), lent = first, (void)(CALL), memset(second, 0xaa, ROOM), lent = second, (void)(CALL), agreeing())

/* What most calls are lent. (A single carried state may begin anywhere: here at an odd place.) */
static uint8_t automaton[ROOM], number[ROOM], answer[ROOM], out[ROOM];
_Alignas(4) static uint8_t odd[ROOM + 1];
static uint8_t *const configuration = odd + 1;
static uint32_t *table;

static uint8_t read_sheet(const uint8_t *bytes, size_t length)
{
    return jaxhophasi_read(bytes, length, automaton, number);
}

/* The end of a count. */
static const uint32_t end = 4294967295;

/* The bytes of a carried state, 40 of them, with so many held, all of one kind, in the places just
 * below the input count; the output count is what it must be. */
static void put_configuration(uint8_t *bytes, uint8_t state, uint8_t held, uint8_t kind, uint32_t received)
{
    uint32_t numbers[8] = { 0 };
    memset(bytes, 0, 40);
    bytes[0] = state;
    bytes[1] = held;
    memset(bytes + 2, kind, held);
    for (unsigned i = 0; i < held; i++)
        numbers[i] = received - held + i;
    numbers[6] = received;
    numbers[7] = received - held;
    for (unsigned i = 0; i < 32; i++)
        bytes[8 + i] = (uint8_t)(numbers[i / 4] >> 8 * (i % 4));
}

static void set_configuration(uint8_t state, uint8_t held, uint8_t kind, uint32_t received)
{
    put_configuration(configuration, state, held, kind, received);
}

/* Numbers of four bytes that lie one after the other, by the header's size and reading. */
static void same_places(const char *what, const uint8_t *got, const uint32_t *expected, size_t count)
{
    for (size_t i = 0; i < count; i++)
        same(what, jaxhophasi_place_at(got + i * JAXHOPHASI_PLACE_SIZE), expected[i]);
}

/* The two counts of a carried state. */
static void same_counts(const char *what, const uint8_t *got, uint32_t received, uint32_t emitted)
{
    same(what, jaxhophasi_place_at(got + JAXHOPHASI_CONFIGURATION_RECEIVED), received);
    same(what, jaxhophasi_place_at(got + JAXHOPHASI_CONFIGURATION_EMITTED), emitted);
}

/* ---- the record ---- */

/* A sheet's record, written place by place by the header's offsets, is the record that is read. */
static void check_record(const char *what, const uint8_t *sheet, size_t length)
{
    static uint8_t record[ROOM];
    unsigned n = sheet[0], m = sheet[1];
    const uint8_t *classes = sheet + 4, *flags = classes + m, *next = flags + n;
    memset(record, 0, ROOM);
    record[JAXHOPHASI_AUTOMATON_STATES] = sheet[0];
    record[JAXHOPHASI_AUTOMATON_SYMBOLS] = sheet[1];
    record[JAXHOPHASI_AUTOMATON_CAPACITY] = sheet[2];
    record[JAXHOPHASI_AUTOMATON_INITIAL] = sheet[3];
    for (unsigned e = 0; e < m; e++)
        record[JAXHOPHASI_AUTOMATON_CLASSES + e] = classes[e];
    for (unsigned q = 0; q < n; q++)
        record[JAXHOPHASI_AUTOMATON_ACCEPTING + q] = flags[q];
    for (unsigned q = 0; q < n; q++)
        for (unsigned e = 0; e < m; e++)
            record[JAXHOPHASI_AUTOMATON_NEXT + q * JAXHOPHASI_MAX_SYMBOLS + e] = next[q * m + e];
    same(what, read_sheet(sheet, length), 0);
    same_bytes(what, record, automaton, 564);
}

/* A sheet with so many states and kinds, none controllable, every state acceptable and every next
 * state the first one. */
static size_t plain_sheet(uint8_t *sheet, unsigned n, unsigned m)
{
    size_t length = 4 + m + n + n * m;
    memset(sheet, 0, length);
    sheet[0] = (uint8_t)n;
    sheet[1] = (uint8_t)m;
    sheet[2] = 1;
    memset(sheet + 4 + m, 1, n);
    return length;
}

static void check_automaton(void)
{
    static const uint8_t from_two[] = { 3, 2, 1, 2, 0, 1, 1, 0, 1, 1, 0, 1, 2, 2, 2 };
    static uint8_t sheet[ROOM];
    check_record("the record of V", v, sizeof v);
    check_record("the record of V with start 2", from_two, sizeof from_two);
    check_record("the record of W", w, sizeof w);
    same("AUTOMATON_SIZE", JAXHOPHASI_AUTOMATON_SIZE, WRITTEN(jaxhophasi_read(v, sizeof v, lent, number)));
    same("MAX_STATES", read_sheet(sheet, plain_sheet(sheet, JAXHOPHASI_MAX_STATES, 1)), 0);
    same("a state over MAX_STATES", read_sheet(sheet, plain_sheet(sheet, JAXHOPHASI_MAX_STATES + 1, 1)), 3);
    same("MAX_SYMBOLS", read_sheet(sheet, plain_sheet(sheet, 1, JAXHOPHASI_MAX_SYMBOLS)), 0);
    same("a kind over MAX_SYMBOLS", read_sheet(sheet, plain_sheet(sheet, 1, JAXHOPHASI_MAX_SYMBOLS + 1)), 4);
    same("the largest sheet", read_sheet(sheet, plain_sheet(sheet, 32, 16)), 0);
    same("MAX_SHEET", jaxhophasi_write(automaton, out, JAXHOPHASI_MAX_SHEET, number), 0);
    same("bytes of the largest sheet", jaxhophasi_number_at(number), JAXHOPHASI_MAX_SHEET);
    same("a byte under MAX_SHEET", jaxhophasi_write(automaton, out, JAXHOPHASI_MAX_SHEET - 1, number), 16);
}

/* ---- the version, and limits by their older names ---- */

static void check_names(void)
{
    same("VERSION_MAJOR", JAXHOPHASI_VERSION / 10000, JAXHOPHASI_VERSION_MAJOR);
    same("VERSION_MINOR", JAXHOPHASI_VERSION / 100 % 100, JAXHOPHASI_VERSION_MINOR);
    same("VERSION_PATCH", JAXHOPHASI_VERSION % 100, JAXHOPHASI_VERSION_PATCH);
    same("STATES_MOST", JAXHOPHASI_STATES_MOST, 32);
    same("SYMBOLS_MOST", JAXHOPHASI_SYMBOLS_MOST, 16);
    same("TABLE_MOST", JAXHOPHASI_TABLE_MOST, 599186);
    same("SHEET_MOST", JAXHOPHASI_SHEET_MOST, 564);
}

/* ---- numbers and the table ---- */

static void check_numbers(void)
{
    static const uint8_t high[] = { 8, 7, 6, 5, 4, 3, 2, 129 };
    same("number_at", jaxhophasi_number_at(high) >> 32, 0x81020304);
    same("number_at, its low half", jaxhophasi_number_at(high) & 0xffffffff, 0x05060708);
    same("place_at", jaxhophasi_place_at(high), 0x05060708);
    same("place_at, the top bit set", jaxhophasi_place_at(high + 4), 0x81020304);
    read_sheet(v, sizeof v);
    same("NUMBER_SIZE", JAXHOPHASI_NUMBER_SIZE, WRITTEN(jaxhophasi_buffers_count(automaton, lent)));
    same("the place of a fault", read_sheet(v, sizeof v - 1), 1);
    same("the place of a fault", jaxhophasi_number_at(number), 14);
}

static void check_table(void)
{
    static const uint8_t eight[] = { 1, 8, 6, 0, 1, 1, 1, 1, 1, 1, 1, 1, 1, 0, 0, 0, 0, 0, 0, 0, 0 };
    read_sheet(v, sizeof v);
    same("T of V", jaxhophasi_buffers_count(automaton, number), 0);
    size_t places = JAXHOPHASI_TABLE_LENGTH(jaxhophasi_number_at(number));
    same("TABLE_LENGTH of V's T", places, 4);
    same("TABLE_LENGTH of a sum", JAXHOPHASI_TABLE_LENGTH(3 + 4), 14);
    same("V's table", jaxhophasi_solve(automaton, table, places, number), 0);
    same("V's rounds", jaxhophasi_number_at(number), 1);
    same("V's table, a place less", jaxhophasi_solve(automaton, table, places - 1, number), 12);
    same("eight controllable kinds", read_sheet(eight, sizeof eight), 0);
    jaxhophasi_buffers_count(automaton, number);
    same("MAX_TABLE", JAXHOPHASI_MAX_TABLE, 2 * jaxhophasi_number_at(number));
    same("the largest table, a place less", jaxhophasi_solve(automaton, table, JAXHOPHASI_MAX_TABLE - 1, number), 12);
    same("the largest table", jaxhophasi_solve(automaton, table, JAXHOPHASI_MAX_TABLE, number), 0);
}

/* ---- the carried state and the answers, on W ---- */

static void solve_w(void)
{
    same("W", read_sheet(w, sizeof w), 0);
    same("W's table", jaxhophasi_solve(automaton, table, 14, number), 0);
    same("W, fresh", jaxhophasi_initial(automaton, configuration), 0);
}

static uint8_t event(uint32_t kind)
{
    return jaxhophasi_receive(automaton, table, 14, configuration, kind, answer);
}

static void check_configuration(void)
{
    static const uint8_t two_held[] = { 2, 3, 0, 0, 0, 0 }, one_held[] = { 2, 0, 0, 0, 0, 0 };
    static const uint32_t places_of_two[] = { 0, 1, 0, 0, 0, 0 }, places_of_one[] = { 1, 0, 0, 0, 0, 0 };
    solve_w();
    same("CONFIGURATION_SIZE", JAXHOPHASI_CONFIGURATION_SIZE, WRITTEN(jaxhophasi_initial(automaton, lent)));
    same_counts("counts, fresh", configuration, 0, 0);
    event(2);
    event(3);
    same("state after Page, Receipt", configuration[JAXHOPHASI_CONFIGURATION_STATE], 0);
    same("held after Page, Receipt", configuration[JAXHOPHASI_CONFIGURATION_HELD], 2);
    same_bytes("buffer after Page, Receipt", configuration + JAXHOPHASI_CONFIGURATION_BUFFER, two_held, 6);
    same_places("places after Page, Receipt", configuration + JAXHOPHASI_CONFIGURATION_PLACES, places_of_two, 6);
    same_counts("counts after Page, Receipt", configuration, 2, 0);
    jaxhophasi_initial(automaton, configuration);
    event(0);
    event(2);
    same("state after Sign, Page", configuration[JAXHOPHASI_CONFIGURATION_STATE], 1);
    same("held after Sign, Page", configuration[JAXHOPHASI_CONFIGURATION_HELD], 1);
    same_bytes("buffer after Sign, Page", configuration + JAXHOPHASI_CONFIGURATION_BUFFER, one_held, 6);
    same_places("places after Sign, Page", configuration + JAXHOPHASI_CONFIGURATION_PLACES, places_of_one, 6);
    same_counts("counts after Sign, Page", configuration, 2, 1);
}

/* Page at place 66050, where the input count becomes 66051, 3 2 1 0 in four bytes; and at the last
 * place that there is, which the header's offsets lead up to. */
static void check_places(void)
{
    static const uint32_t high[] = { 66049, 66050, 0, 0, 0, 0 }, last[] = { 66049, 4294967294, 0, 0, 0, 0 };
    uint8_t whole[40];
    solve_w();
    set_configuration(0, 1, 2, 66050);
    same("Page at place 66050", event(2), 0);
    same_places("places up to 66050", configuration + JAXHOPHASI_CONFIGURATION_PLACES, high, 6);
    same_counts("counts after place 66050", configuration, 66051, 66049);
    put_configuration(whole, 0, 2, 2, 66051);
    same_bytes("the carried state after place 66050", configuration, whole, 40);
    set_configuration(0, 1, 2, 66050);
    configuration[JAXHOPHASI_CONFIGURATION_RECEIVED] = 254;
    memset(configuration + JAXHOPHASI_CONFIGURATION_RECEIVED + 1, 255, 3);
    configuration[JAXHOPHASI_CONFIGURATION_EMITTED] = 253;
    memset(configuration + JAXHOPHASI_CONFIGURATION_EMITTED + 1, 255, 3);
    same("Page at the last place", event(2), 0);
    same_places("places up to the last", configuration + JAXHOPHASI_CONFIGURATION_PLACES, last, 6);
    same_counts("counts after the last place", configuration, end, end - 2);
}

static void check_received(void)
{
    static const uint8_t emitted[] = { 0, 2, 3, 0, 0, 0, 0 };
    static const uint32_t from[] = { 2, 0, 1, 0, 0, 0, 0 }, far[] = { 66051, 0, 0, 0, 0, 0, 0 };
    solve_w();
    same("RECEIVED_SIZE", JAXHOPHASI_RECEIVED_SIZE, WRITTEN(jaxhophasi_receive(automaton, table, 14, configuration, 4, lent)));
    event(2);
    event(3);
    same("Page, Receipt, Sign", event(0), 0);
    same_bytes("what is put out", answer + JAXHOPHASI_RECEIVED_EMITTED, emitted, 7);
    same("how many are put out", answer[JAXHOPHASI_RECEIVED_COUNT], 3);
    same("guarded after Sign", answer[JAXHOPHASI_RECEIVED_WINNING], 1);
    same_places("where it came from", answer + JAXHOPHASI_RECEIVED_PLACES, from, 7);
    same_counts("counts after Sign", configuration, 3, 3);
    /* in state 2, Sign leaves a page out with no receipt */
    set_configuration(2, 0, 0, 66051);
    same("Sign in state 2", event(0), 0);
    same_places("where Sign came from", answer + JAXHOPHASI_RECEIVED_PLACES, far, 7);
    same("how many are put out in state 2", answer[JAXHOPHASI_RECEIVED_COUNT], 1);
    same("guarded in state 2", answer[JAXHOPHASI_RECEIVED_WINNING], 0);
}

/* Page, Receipt, Sign, three Pages (the last is refused by 15), a kind that W does not have,
 * Withdraw. */
static void check_ran(void)
{
    static const uint32_t day[] = { 2, 3, 0, 2, 2, 2, 7, 1 };
    static const uint8_t put_out[] = { 0, 2, 3, 1 };
    solve_w();
    same("RAN_SIZE", JAXHOPHASI_RAN_SIZE, WRITTEN(jaxhophasi_run(automaton, table, 14, configuration, day, 8, out, 7, lent)));
    same("a day", jaxhophasi_run(automaton, table, 14, configuration, day, 8, out, 8, answer), 0);
    same("bytes written", jaxhophasi_number_at(answer + JAXHOPHASI_RAN_LENGTH), 4);
    same("events refused", jaxhophasi_number_at(answer + JAXHOPHASI_RAN_REFUSED), 2);
    same_bytes("the day's output", out, put_out, 4);
    same_counts("counts after the day", configuration, 6, 4);
    /* two more can be accepted: Page and Receipt are, and nothing after them */
    set_configuration(0, 0, 0, end - 2);
    same("a day to the end", jaxhophasi_run(automaton, table, 14, configuration, day, 8, out, 8, answer), 0);
    same("bytes written to the end", jaxhophasi_number_at(answer + JAXHOPHASI_RAN_LENGTH), 0);
    same("events refused to the end", jaxhophasi_number_at(answer + JAXHOPHASI_RAN_REFUSED), 6);
    same_counts("counts at the end", configuration, end, end - 2);
}

/* With Receipt held W may not rest in state 2, and comes to rest in state 1; in state 0 it may
 * rest; in state 3 neither. */
static void check_status_and_verdict(void)
{
    static const uint8_t states[] = { 2, 0, 3 }, may[] = { 0, 1, 0 }, can[] = { 1, 1, 0 };
    solve_w();
    same("STATUS_SIZE", JAXHOPHASI_STATUS_SIZE, WRITTEN(jaxhophasi_winning(automaton, table, 14, configuration, lent)));
    same("VERDICT_SIZE", JAXHOPHASI_VERDICT_SIZE, WRITTEN(jaxhophasi_judge(automaton, configuration, lent)));
    for (int i = 0; i < 3; i++) {
        set_configuration(states[i], 1, 3, 1);
        same("winning", jaxhophasi_winning(automaton, table, 14, configuration, answer), 0);
        same("guarded", answer[0], may[i]);
        same("judge", jaxhophasi_judge(automaton, configuration, answer), 0);
        same("may rest", answer[JAXHOPHASI_VERDICT_MAY_REST], may[i]);
        same("can come to rest", answer[JAXHOPHASI_VERDICT_CAN_REST], can[i]);
    }
}

/* ---- lists of clients, on W ---- */

_Alignas(4) static uint8_t clients[JAXHOPHASI_MAX_CLIENTS + 1][JAXHOPHASI_CONFIGURATION_SIZE];

static void fresh_clients(void)
{
    solve_w();
    for (size_t i = 0; i < sizeof clients / sizeof *clients; i++)
        jaxhophasi_initial(automaton, clients[i]);
}

static uint8_t event_for(size_t count, uint32_t client, uint32_t kind)
{
    return jaxhophasi_receive_for(automaton, table, 14, clients, count, client, kind, answer);
}

static uint8_t day_for(size_t count, const uint32_t *events, size_t length, size_t size)
{
    return jaxhophasi_run_for(automaton, table, 14, clients, count, events, length, out, size, answer);
}

static void check_client_events(void)
{
    same("CLIENT_EVENT", JAXHOPHASI_CLIENT_EVENT(3, 2), 196610);
    same("CLIENT_EVENT of a sum", JAXHOPHASI_CLIENT_EVENT(1 + 1, 1 + 2), 131075);
    same("the last CLIENT_EVENT", JAXHOPHASI_CLIENT_EVENT(65535, 65535), 4294967295);
    fresh_clients();
    same("MAX_CLIENTS", event_for(JAXHOPHASI_MAX_CLIENTS, JAXHOPHASI_MAX_CLIENTS - 1, 0), 0);
    same("a client over MAX_CLIENTS", event_for(JAXHOPHASI_MAX_CLIENTS + 1, 0, 0), 20);
}

/* Client 1 of three: Page, Receipt, Sign. The 40 bytes before and after its own stay. */
static void check_received_for(void)
{
    static const uint8_t before[120] = { [41] = 2, 2, 3, [52] = 1, [72] = 2 };
    static const uint8_t emitted[] = { 0, 2, 3, 0, 0, 0, 0 };
    static const uint32_t from[] = { 2, 0, 1, 0, 0, 0, 0 };
    fresh_clients();
    same("RECEIVED_SIZE", JAXHOPHASI_RECEIVED_SIZE,
        WRITTEN(jaxhophasi_receive_for(automaton, table, 14, clients, 3, 1, 4, lent)));
    same("Page of client 1", event_for(3, 1, 2), 0);
    same("how many Page puts out", answer[JAXHOPHASI_RECEIVED_COUNT], 0);
    same("Receipt of client 1", event_for(3, 1, 3), 0);
    same_bytes("the list after Page, Receipt", clients[0], before, 120);
    same("state of client 1", clients[1][JAXHOPHASI_CONFIGURATION_STATE], 0);
    same("held by client 1", clients[1][JAXHOPHASI_CONFIGURATION_HELD], 2);
    same_bytes("buffer of client 1", clients[1] + JAXHOPHASI_CONFIGURATION_BUFFER, before + 42, 6);
    same_places("places of client 1", clients[1] + JAXHOPHASI_CONFIGURATION_PLACES, (const uint32_t[]){ 0, 1 }, 2);
    same("Sign of client 1", event_for(3, 1, 0), 0);
    same_bytes("what client 1 puts out", answer + JAXHOPHASI_RECEIVED_EMITTED, emitted, 7);
    same("how many client 1 puts out", answer[JAXHOPHASI_RECEIVED_COUNT], 3);
    same("client 1 guarded", answer[JAXHOPHASI_RECEIVED_WINNING], 1);
    same_places("where it came from, client 1", answer + JAXHOPHASI_RECEIVED_PLACES, from, 7);
    same_counts("counts of client 0", clients[0], 0, 0);
    same_counts("counts of client 1", clients[1], 3, 3);
    same("state of client 1 after Sign", clients[1][JAXHOPHASI_CONFIGURATION_STATE], 1);
    same("held by client 1 after Sign", clients[1][JAXHOPHASI_CONFIGURATION_HELD], 0);
}

/* Client 0 signs while client 1 asks for a Page; client 0's Page and Receipt go; 19 for client 2,
 * 14 for client 1; then client 1 signs, and its Page waits for its Receipt. */
static void check_ran_for(void)
{
    static const uint32_t day[] = {
        JAXHOPHASI_CLIENT_EVENT(0, 0), JAXHOPHASI_CLIENT_EVENT(1, 2), JAXHOPHASI_CLIENT_EVENT(0, 2),
        JAXHOPHASI_CLIENT_EVENT(0, 3), JAXHOPHASI_CLIENT_EVENT(2, 0), JAXHOPHASI_CLIENT_EVENT(1, 4),
        JAXHOPHASI_CLIENT_EVENT(1, 0),
    };
    /* client 0: state 1, three came in and went out; client 1: Page held from place 0, and Sign */
    static const uint8_t put_out[] = { 0, 2, 3, 0 }, after[80] = { 1, [32] = 3, [36] = 3, [40] = 1, 1, 2, [72] = 2, [76] = 1 };
    fresh_clients();
    same("RAN_SIZE", JAXHOPHASI_RAN_SIZE, WRITTEN(jaxhophasi_run_for(automaton, table, 14, clients, 2, day, 7, out, 6, lent)));
    same("a day of two clients", day_for(2, day, 7, 7), 0);
    same("bytes written for two clients", jaxhophasi_number_at(answer + JAXHOPHASI_RAN_LENGTH), 4);
    same("two clients' events refused", jaxhophasi_number_at(answer + JAXHOPHASI_RAN_REFUSED), 2);
    same_bytes("the output of two clients' day", out, put_out, 4);
    same_bytes("the list after the day", clients[0], after, 80);
    same("the next day, one held, no room", day_for(2, day, 0, 0), 16);
    same("the next day, one held", day_for(2, day, 0, 1), 0);
}

/* ---- a feed over the list, on W ---- */

static uint8_t expected[ROOM];

static void set_expected(uint8_t known, uint8_t low, uint8_t high)
{
    expected[JAXHOPHASI_EXPECTED_KNOWN] = known;
    expected[JAXHOPHASI_EXPECTED_SERIAL] = low;
    expected[JAXHOPHASI_EXPECTED_SERIAL + 1] = high;
}

static void same_expected(const char *what, uint8_t known, uint8_t low, uint8_t high)
{
    same(what, expected[JAXHOPHASI_EXPECTED_KNOWN], known);
    same(what, expected[JAXHOPHASI_EXPECTED_SERIAL], low);
    same(what, expected[JAXHOPHASI_EXPECTED_SERIAL + 1], high);
}

static uint8_t feed(size_t count, const uint8_t *bytes, size_t length)
{
    return jaxhophasi_feed(automaton, table, 14, clients, count, bytes, length, expected, answer);
}

#define FEED(count, ...) feed(count, (const uint8_t[]){ __VA_ARGS__ }, sizeof(const uint8_t[]){ __VA_ARGS__ })

/* Where 0x5555 is expected, and where 0xaaaa is, 0xb000 lets both go on to 0xb001. */
static void check_fed_sizes(void)
{
    static const uint8_t cut[] = { 5 }, ahead[] = { 128, 224, 2, 0, 0 };
    fresh_clients();
    same("FED_SIZE", JAXHOPHASI_FED_SIZE, WRITTEN(jaxhophasi_feed(automaton, table, 14, clients, 3, cut, 1, expected, lent)));
    same("EXPECTED_SIZE", JAXHOPHASI_EXPECTED_SIZE,
        WRITTEN(jaxhophasi_feed(automaton, table, 14, clients, 3, ahead, 5, lent, answer)));
}

/* Client 1 of three: Page with serial 3, the first; Receipt with 4, in turn; Sign with 305, after
 * a loss of 300. */
static void check_fed(void)
{
    static const uint8_t emitted[] = { 0, 2, 3, 0, 0, 0, 0 };
    static const uint32_t from[] = { 2, 0, 1, 0, 0, 0, 0 };
    fresh_clients();
    set_expected(0, 9, 9);
    same("the first record", FEED(3, 3, 1, 2), 0);
    same_expected("after the first record", 1, 4, 0);
    same("the second record", FEED(3, 4, 1, 3), 0);
    same("no loss", jaxhophasi_number_at(answer + JAXHOPHASI_FED_LOSS), 0);
    same("a record after a loss", FEED(3, 177, 2, 1, 0), 0);
    same("the loss", jaxhophasi_number_at(answer + JAXHOPHASI_FED_LOSS), 300);
    same("no place", jaxhophasi_number_at(answer + JAXHOPHASI_FED_PLACE), 0);
    same_expected("after the loss", 1, 50, 1);
    same_bytes("what the record puts out", answer + JAXHOPHASI_RECEIVED_EMITTED, emitted, 7);
    same("how many the record puts out", answer[JAXHOPHASI_RECEIVED_COUNT], 3);
    same("guarded after the record", answer[JAXHOPHASI_RECEIVED_WINNING], 1);
    same_places("where it came from, by the record", answer + JAXHOPHASI_RECEIVED_PLACES, from, 7);
    same("state of client 1 after the record", clients[1][JAXHOPHASI_CONFIGURATION_STATE], 1);
    same("a record cut short", FEED(3, 179, 2, 1), 1);
    same("its loss", jaxhophasi_number_at(answer + JAXHOPHASI_FED_LOSS), 0);
    same("its place", jaxhophasi_number_at(answer + JAXHOPHASI_FED_PLACE), 3);
    same_expected("after a record cut short", 1, 50, 1);
    same("a record with a kind that W does not have", FEED(3, 179, 2, 1, 4), 14);
    same("its loss", jaxhophasi_number_at(answer + JAXHOPHASI_FED_LOSS), 1);
    same_expected("after a record with a kind that W does not have", 1, 52, 1);
}

/* ---- numbers of refusal ---- */

/* The documents' number, the header's name for it, and a call that gives it. */
static void row(unsigned document, unsigned header, uint8_t call)
{
    char what[32];
    snprintf(what, sizeof what, "row %u", document);
    same(what, header, document);
    same(what, call, document);
}

#define READ(...) read_sheet((const uint8_t[]){ __VA_ARGS__ }, sizeof(const uint8_t[]){ __VA_ARGS__ })

static void check_rows_of_reading(void)
{
    row(0, JAXHOPHASI_FINE, read_sheet(v, sizeof v));
    row(1, JAXHOPHASI_ENDS_EARLY, READ(3, 2));
    row(2, JAXHOPHASI_LONG_NUMBER, READ(128, 128, 128));
    row(3, JAXHOPHASI_BAD_STATES, READ(33));
    row(4, JAXHOPHASI_BAD_SYMBOLS, READ(3, 0));
    row(5, JAXHOPHASI_BAD_CAPACITY, READ(3, 2, 7));
    row(6, JAXHOPHASI_BAD_INITIAL, READ(3, 2, 1, 3));
    row(7, JAXHOPHASI_BAD_FLAG, READ(3, 2, 1, 0, 2));
    row(8, JAXHOPHASI_MANY_CONTROLLABLE, READ(1, 9, 1, 0, 1, 1, 1, 1, 1, 1, 1, 1, 1));
    row(9, JAXHOPHASI_BAD_NEXT, READ(3, 2, 1, 0, 0, 1, 1, 0, 1, 1, 0, 1, 2, 2, 3));
    row(10, JAXHOPHASI_BYTES_LEFT, READ(3, 2, 1, 0, 0, 1, 1, 0, 1, 1, 0, 1, 2, 2, 2, 0));
}

static void check_rows_of_calls(void)
{
    static const uint32_t queries[] = { 0, 0 };
    read_sheet(v, sizeof v);
    automaton[0] = 40;
    row(11, JAXHOPHASI_BAD_AUTOMATON, jaxhophasi_buffers_count(automaton, number));
    read_sheet(v, sizeof v);
    row(12, JAXHOPHASI_SHORT_TABLE, jaxhophasi_solve(automaton, table, 3, number));
    jaxhophasi_solve(automaton, table, 4, number);
    set_configuration(3, 0, 0, 0);
    row(13, JAXHOPHASI_BAD_CONFIGURATION, jaxhophasi_winning(automaton, table, 4, configuration, answer));
    jaxhophasi_initial(automaton, configuration);
    row(14, JAXHOPHASI_BAD_EVENT, jaxhophasi_receive(automaton, table, 4, configuration, 2, answer));
    row(16, JAXHOPHASI_SHORT_OUTPUT, jaxhophasi_run(automaton, table, 4, configuration, queries, 2, out, 1, answer));
    /* Answer opens V's full hold: the held one goes, the newcomer is held in its stead; then at
     * the end */
    set_configuration(0, 1, 1, 5);
    row(0, JAXHOPHASI_FINE, jaxhophasi_receive(automaton, table, 4, configuration, 1, answer));
    same("how many leave a full hold", answer[JAXHOPHASI_RECEIVED_COUNT], 1);
    same("guarded after a full hold", answer[JAXHOPHASI_RECEIVED_WINNING], 1);
    same("held after a full hold", configuration[JAXHOPHASI_CONFIGURATION_HELD], 1);
    same_counts("counts after a full hold", configuration, 6, 5);
    set_configuration(0, 1, 1, end);
    row(23, JAXHOPHASI_INPUT_COUNT_END, jaxhophasi_receive(automaton, table, 4, configuration, 1, answer));
    solve_w();
    event(2);
    event(2);
    row(15, JAXHOPHASI_BUFFER_FULL, event(2));
    set_configuration(0, 1, 2, end);
    row(23, JAXHOPHASI_INPUT_COUNT_END, event(2));
    row(23, JAXHOPHASI_INPUT_COUNT_END, event(0));
    row(14, JAXHOPHASI_BAD_EVENT, event(4));
    set_configuration(0, 2, 2, end);
    row(15, JAXHOPHASI_BUFFER_FULL, event(2));
    row(23, JAXHOPHASI_INPUT_COUNT_END, event(1));
    READ(5, 1, 1, 0, 0, 1, 1, 1, 1, 1, 0, 0, 0, 0, 0);
    jaxhophasi_initial(automaton, configuration);
    row(17, JAXHOPHASI_TOO_LARGE, jaxhophasi_judge(automaton, configuration, answer));
    fresh_clients();
    row(19, JAXHOPHASI_NO_CLIENT, event_for(3, 3, 0));
    row(20, JAXHOPHASI_BAD_COUNT, event_for(0, 0, 0));
    row(20, JAXHOPHASI_BAD_COUNT, day_for(0, queries, 2, 2));
}

static void check_rows_of_feeds(void)
{
    fresh_clients();
    set_expected(1, 5, 0);
    row(20, JAXHOPHASI_BAD_COUNT, FEED(0, 5, 0, 0));
    row(1, JAXHOPHASI_ENDS_EARLY, FEED(3, 5, 0));
    row(2, JAXHOPHASI_LONG_NUMBER, FEED(3, 133, 128, 128, 0, 0));
    row(10, JAXHOPHASI_BYTES_LEFT, FEED(3, 5, 0, 0, 0));
    row(21, JAXHOPHASI_BAD_SERIAL, FEED(3, 128, 128, 4, 0, 0));
    row(22, JAXHOPHASI_LATE_SERIAL, FEED(3, 4, 0, 0));
    row(0, JAXHOPHASI_FINE, FEED(3, 5, 0, 2));
    row(19, JAXHOPHASI_NO_CLIENT, FEED(3, 6, 3, 0));
    row(14, JAXHOPHASI_BAD_EVENT, FEED(3, 7, 0, 4));
    row(0, JAXHOPHASI_FINE, FEED(3, 8, 0, 2));
    row(15, JAXHOPHASI_BUFFER_FULL, FEED(3, 9, 0, 2));
    put_configuration(clients[1], 0, 0, 0, end);
    row(23, JAXHOPHASI_INPUT_COUNT_END, FEED(3, 10, 1, 0));
    clients[0][JAXHOPHASI_CONFIGURATION_STATE] = 4;
    row(13, JAXHOPHASI_BAD_CONFIGURATION, FEED(3, 11, 0, 0));
    automaton[0] = 40;
    row(11, JAXHOPHASI_BAD_AUTOMATON, FEED(3, 12, 0, 0));
}

/* ---- two sheets merged ---- */

/* A sheet with V's kinds: no Answer is to go out. */
static const uint8_t silent[] = { 2, 2, 1, 0, 0, 1, 1, 0, 0, 1, 1, 1 };

static uint8_t one[ROOM], other[ROOM];

static void read_two(const uint8_t *bytes, size_t length, const uint8_t *other_bytes, size_t other_length)
{
    same("the first sheet", jaxhophasi_read(bytes, length, one, number), 0);
    same("the second sheet", jaxhophasi_read(other_bytes, other_length, other, number), 0);
}

/* The product of the two over bytes that are not 0; what is lent besides stays. */
static uint8_t merge(void)
{
    static uint8_t kept_one[564], kept_other[564];
    memcpy(kept_one, one, 564);
    memcpy(kept_other, other, 564);
    memset(automaton, 0x55, ROOM);
    uint8_t row = jaxhophasi_product(one, other, automaton);
    same("the byte behind the product", automaton[564], 0x55);
    same_bytes("the first record", one, kept_one, 564);
    same_bytes("the second record", other, kept_other, 564);
    return row;
}

/* Pairs of V's states and silent's, 0 0 to 2 1; and of silent's and V's, 0 0 to 1 2. */
static void check_product(void)
{
    static const uint8_t v_silent[564] = { 6, 2, 1, 0, [5] = 1, [20] = 1, [24] = 1,
        [52] = 2, 1, [68] = 3, 1, [84] = 2, 5, [100] = 3, 5, [116] = 4, 5, [132] = 5, 5 };
    static const uint8_t silent_v[564] = { 6, 2, 1, 0, [5] = 1, [20] = 1, [22] = 1,
        [52] = 1, 3, [68] = 1, 5, [84] = 2, 5, [100] = 4, 3, [116] = 4, 5, [132] = 5, 5 };
    read_two(v, sizeof v, silent, sizeof silent);
    same("AUTOMATON_SIZE of a product", JAXHOPHASI_AUTOMATON_SIZE, WRITTEN(jaxhophasi_product(one, other, lent)));
    same("V and silent", merge(), 0);
    same_bytes("V and silent", automaton, v_silent, 564);
    read_two(silent, sizeof silent, v, sizeof v);
    same("silent and V", merge(), 0);
    same_bytes("silent and V", automaton, silent_v, 564);
    /* by the header's offsets: other starts, and another hold for each of the two */
    for (uint8_t hold = 3; hold < 6; hold += 2) {
        one[JAXHOPHASI_AUTOMATON_INITIAL] = 1;
        other[JAXHOPHASI_AUTOMATON_INITIAL] = 2;
        one[JAXHOPHASI_AUTOMATON_CAPACITY] = hold;
        other[JAXHOPHASI_AUTOMATON_CAPACITY] = 4;
        same("silent and V, other starts and holds", merge(), 0);
        same("the start of a product", automaton[JAXHOPHASI_AUTOMATON_INITIAL], 5);
        same("the hold of a product", automaton[JAXHOPHASI_AUTOMATON_CAPACITY], hold == 3 ? 3 : 4);
    }
    same("V twice, lent once", jaxhophasi_product(other, other, automaton), 0);
    same("pairs of V and V", automaton[JAXHOPHASI_AUTOMATON_STATES], 9);
    same("V twice is a sheet", jaxhophasi_buffers_count(automaton, number), 0);
}

/* With Answer held in state 0 each of the two may rest, and their product may not. */
static void check_apart_not_together(void)
{
    read_two(v, sizeof v, silent, sizeof silent);
    merge();
    const uint8_t *const records[] = { one, other, automaton };
    for (int i = 0; i < 3; i++) {
        set_configuration(0, 1, 1, 1);
        same("a table of 4 places", jaxhophasi_solve(records[i], table, 4, number), 0);
        same("winning with Answer held", jaxhophasi_winning(records[i], table, 4, configuration, answer), 0);
        same("guarded with Answer held", answer[0], i < 2);
    }
}

/* A refused product is all zeros. */
static void refused_product(unsigned document, unsigned header)
{
    static const uint8_t zeros[564];
    row(document, header, merge());
    same_bytes("a refused product", automaton, zeros, 564);
}

/* Plain sheets with so many states and kinds each. */
static void plain_two(unsigned n, unsigned m, unsigned other_n, unsigned other_m)
{
    static uint8_t sheet[ROOM], other_sheet[ROOM];
    size_t length = plain_sheet(sheet, n, m), other_length = plain_sheet(other_sheet, other_n, other_m);
    read_two(sheet, length, other_sheet, other_length);
}

static void check_rows_of_products(void)
{
    read_two(v, sizeof v, silent, sizeof silent);
    one[0] = 40;
    refused_product(11, JAXHOPHASI_BAD_AUTOMATON);
    read_two(v, sizeof v, silent, sizeof silent);
    other[563] = 1;
    refused_product(11, JAXHOPHASI_BAD_AUTOMATON);
    read_two(v, sizeof v, w, sizeof w);
    refused_product(24, JAXHOPHASI_SYMBOLS_DIFFER);
    other[0] = 40; /* 11 before 24 */
    refused_product(11, JAXHOPHASI_BAD_AUTOMATON);
    read_two(v, sizeof v, silent, sizeof silent);
    other[JAXHOPHASI_AUTOMATON_CLASSES] = 1;
    refused_product(24, JAXHOPHASI_SYMBOLS_DIFFER);
    plain_two(2, 1, 2, 2); /* all 16 places of the classes agree */
    refused_product(24, JAXHOPHASI_SYMBOLS_DIFFER);
    plain_two(6, 1, 6, 2); /* 24 before 25 */
    refused_product(24, JAXHOPHASI_SYMBOLS_DIFFER);
    plain_two(3, 2, 11, 2);
    refused_product(25, JAXHOPHASI_MANY_PAIRS);
    plain_two(32, 16, 8, 16); /* 256 pairs */
    refused_product(25, JAXHOPHASI_MANY_PAIRS);
    plain_two(4, 16, 8, 16);
    row(0, JAXHOPHASI_FINE, merge());
    same("32 pairs", automaton[JAXHOPHASI_AUTOMATON_STATES], JAXHOPHASI_MAX_STATES);
    plain_two(1, 16, 32, 16);
    row(0, JAXHOPHASI_FINE, merge());
    same_bytes("one state and 32", automaton, other, 564);
}

/* Row 13's new parts, each broken by the header's offsets in a carried state that passed. */
static void broken(const char *what, size_t offset, uint8_t value)
{
    uint8_t kept = configuration[offset];
    same("before it was broken", jaxhophasi_winning(automaton, table, 14, configuration, answer), 0);
    configuration[offset] = value;
    same(what, jaxhophasi_winning(automaton, table, 14, configuration, answer), 13);
    configuration[offset] = kept;
}

static void check_broken_places(void)
{
    const size_t places = JAXHOPHASI_CONFIGURATION_PLACES, size = JAXHOPHASI_PLACE_SIZE;
    solve_w();
    set_configuration(0, 2, 2, 9); /* in the places 7 and 8 */
    broken("two equal places", places, 8);
    broken("places that fall", places + size, 6);
    broken("a place at the input count", places + size, 9);
    broken("a place above it", places + size + 3, 1);
    broken("a place where nothing is held", places + 2 * size, 1);
    broken("the last place where nothing is held", places + 6 * size - 1, 1);
    broken("an input count too high", JAXHOPHASI_CONFIGURATION_RECEIVED, 10);
    broken("an output count too high", JAXHOPHASI_CONFIGURATION_EMITTED, 8);
    broken("an output count too low", JAXHOPHASI_CONFIGURATION_EMITTED, 6);
    broken("an output count far too high", JAXHOPHASI_CONFIGURATION_EMITTED + 3, 1);
    /* 4294967295 and one held, against an input count of 0 */
    set_configuration(0, 1, 2, 0);
    same("a sum that would come round", jaxhophasi_winning(automaton, table, 14, configuration, answer), 13);
}

int main(void)
{
    table = malloc(sizeof *table * 600000);
    if (!table) {
        puts("tests/header.c: no memory");
        return 1;
    }
    check_automaton();
    check_names();
    check_numbers();
    check_table();
    check_configuration();
    check_places();
    check_received();
    check_ran();
    check_status_and_verdict();
    check_client_events();
    check_received_for();
    check_ran_for();
    check_fed_sizes();
    check_fed();
    check_rows_of_reading();
    check_rows_of_calls();
    check_rows_of_feeds();
    check_product();
    check_apart_not_together();
    check_rows_of_products();
    check_broken_places();
    free(table);
    return different;
}
