/*
 * The release gate for C and for whatever calls C.
 *
 * Link target/staticlib/libjaxhophasi.a, which `./build jaxhophasi` writes (Linux on x86-64).
 *
 * Every function returns the number of refusal, 0 where nothing is refused. In a refused call's
 * answer every count, length, place in the input and yes-or-no is 0; the lent carried state or
 * list of them, expected serial, table and output keep their contents (the same bytes may be
 * stored again). A refused call that answers with a sheet's record, jaxhophasi_read or
 * jaxhophasi_product, leaves an all-zero record there, and the read the place of the fault. One
 * exception: where 19, 13, 14, 15 or 23 refuses the event of a feed's record, that record was let
 * in, so the answer has its loss and the lent expected serial moves on.
 *
 * What is lent: a fixed array is a plain pointer to as many bytes as its constant says; a list is
 * a pointer and then the number of its elements. A list may be of any length and all of it may
 * hold anything. No pointer is null, also where a list is empty. Lists of uint32_t are aligned as
 * C wants them, and so are lists of carried states, to 4 bytes; a fixed array may begin anywhere.
 * What a call may write (a pointer without const) overlaps nothing else that is lent to the same
 * call. Nothing is kept after the call and nothing is allocated. Calls may run at the same time
 * where none writes what another is lent: a record and a table may be shared by all that only read
 * them; a list of carried states is lent whole, so no two calls at a time on one list, also for
 * different clients.
 */
#ifndef JAXHOPHASI_H
#define JAXHOPHASI_H

#include <stddef.h>
#include <stdint.h>

#ifdef __cplusplus
extern "C" {
#endif

/* The version of this interface: the first number is raised where a caller must change something
 * or may see another answer, the second where calls are added, the third at every other change.
 * The three are also one number, 10000 for 1.0.0 and 10203 for 1.2.3. */
#define JAXHOPHASI_VERSION_MAJOR 3
#define JAXHOPHASI_VERSION_MINOR 1
#define JAXHOPHASI_VERSION_PATCH 0
#define JAXHOPHASI_VERSION \
    (JAXHOPHASI_VERSION_MAJOR * 10000 + JAXHOPHASI_VERSION_MINOR * 100 + JAXHOPHASI_VERSION_PATCH)

/* The record of a sheet. The next state of state q under kind e stands at
 * JAXHOPHASI_AUTOMATON_NEXT + q * JAXHOPHASI_MAX_SYMBOLS + e. Unused places are 0. */
#define JAXHOPHASI_AUTOMATON_SIZE 564
#define JAXHOPHASI_AUTOMATON_STATES 0     /* n, 1 to 32 */
#define JAXHOPHASI_AUTOMATON_SYMBOLS 1    /* kinds of event m, 1 to 16 */
#define JAXHOPHASI_AUTOMATON_CAPACITY 2   /* the hold B, 1 to 6 */
#define JAXHOPHASI_AUTOMATON_INITIAL 3    /* the start, below n */
#define JAXHOPHASI_AUTOMATON_CLASSES 4    /* 16: 0 uncontrollable, 1 controllable */
#define JAXHOPHASI_AUTOMATON_ACCEPTING 20 /* 32: 1 acceptable, 0 not */
#define JAXHOPHASI_AUTOMATON_NEXT 52      /* 32 * 16 */
#define JAXHOPHASI_MAX_STATES 32
#define JAXHOPHASI_MAX_SYMBOLS 16

/* A place in the input, and a count of events: four bytes, low byte first. The accepted events are
 * counted from 0, so the place of an accepted event is how many were accepted before it; a refused
 * event has none. */
#define JAXHOPHASI_PLACE_SIZE 4

/* The place or the count that stands there. */
static inline uint32_t jaxhophasi_place_at(const uint8_t *bytes)
{
    return bytes[0] | (uint32_t)bytes[1] << 8 | (uint32_t)bytes[2] << 16 | (uint32_t)bytes[3] << 24;
}

/* The carried state. The held places rise strictly and are below the input count; what was put out
 * (passed events too) and what is held make up the input count. Unused places of the hold are 0,
 * and so is the place in the input of each. A fresh one has both counts 0. */
#define JAXHOPHASI_CONFIGURATION_SIZE 40
#define JAXHOPHASI_CONFIGURATION_STATE 0
#define JAXHOPHASI_CONFIGURATION_HELD 1      /* how many are held */
#define JAXHOPHASI_CONFIGURATION_BUFFER 2    /* 6: the held kinds, first in first */
#define JAXHOPHASI_CONFIGURATION_PLACES 8    /* 6 * 4: the place in the input of each of them */
#define JAXHOPHASI_CONFIGURATION_RECEIVED 32 /* 4: the input count, how many were accepted */
#define JAXHOPHASI_CONFIGURATION_EMITTED 36  /* 4: the output count, how many were put out */

/* Many clients (growers) share one sheet and one table; each has a carried state of its own, with
 * counts of its own, in one lent list. The carried states lie one after the other, forty bytes
 * each, the first client's first: that of client c is configurations[c], which begins c *
 * JAXHOPHASI_CONFIGURATION_SIZE bytes on, and has its parts at the six offsets above. They are
 * records with 4-byte numbers inside, so the list begins at an address that 4 divides: memory from
 * malloc does, an array of bytes is declared with _Alignas(4) (in C++ alignas(4)). The list's
 * length is the number of clients (not of bytes), 1 to JAXHOPHASI_MAX_CLIENTS. A fresh list has at
 * each place what jaxhophasi_initial gives. (Zeros alone are no fresh list: state 0 need not be
 * the start, and no row refuses it.) */
#define JAXHOPHASI_MAX_CLIENTS 500

/* An event of a day over such a list: which client's, and its kind, each 0 to 65,535. Nothing
 * checks that here: a larger kind makes it another client's event, and client 65,536 is client 0.
 * Every 32-bit number is some client's event, and 19 refuses it where the list has no such
 * client. */
#define JAXHOPHASI_CLIENT_EVENT(client, kind) ((uint32_t)(client) * 65536 + (uint32_t)(kind))

/* The expected serial of a feed, lent to jaxhophasi_feed and written by it: three zeros before the
 * first record, then kept as each call leaves it. Each feed has its own.
 *
 * The records of a feed are numbered, and after 65,535 comes 0. How far the serial of a record is
 * forward of the expected one, round that ring, tells how many records were lost before it, 0 to
 * 32,767; from 32,768 on the record is late or a repeat, and 22 refuses it. As serials come round
 * again, they cannot tell all:
 * - A loss of 1 to 32,767 records is reported right. A longer one looks late, or shorter by whole
 *   turns of 65,536: after a loss of 32,768 the next record looks late (and so do those behind it,
 *   until the expected serial comes round), after one of 65,537 a loss of 1 is reported, and one
 *   of 65,536 is not seen.
 * - A record late by 1 to 32,768 is refused. One that is later can look new: late by 32,769 it is
 *   let in with a loss of 32,767, late by 65,536 it looks in turn; and then the records in turn
 *   look late, until the expected serial comes round.
 * - The first record is let in whatever its serial is; what was lost before it nobody can tell. */
#define JAXHOPHASI_EXPECTED_SIZE 3
#define JAXHOPHASI_EXPECTED_KNOWN 0  /* 0: none is expected, whatever the other two bytes are; any
                                      * other number: one is (1 where the call wrote it) */
#define JAXHOPHASI_EXPECTED_SERIAL 1 /* 2: the serial, low byte first */

/* A number in an answer, if it is no place in the input: eight bytes, low byte first. */
#define JAXHOPHASI_NUMBER_SIZE 8

/* The number that stands there. */
static inline uint64_t jaxhophasi_number_at(const uint8_t *bytes)
{
    uint64_t value = 0;
    for (int i = JAXHOPHASI_NUMBER_SIZE; i-- > 0;)
        value = value << 8 | bytes[i];
    return value;
}

/* What jaxhophasi_winning answers: 1 guarded, 0 not. */
#define JAXHOPHASI_STATUS_SIZE 1

/* What jaxhophasi_receive and jaxhophasi_receive_for answer. */
#define JAXHOPHASI_RECEIVED_SIZE 37
#define JAXHOPHASI_RECEIVED_EMITTED 0 /* 7: the kinds put out; 0 past their count */
#define JAXHOPHASI_RECEIVED_COUNT 7   /* how many are put out */
#define JAXHOPHASI_RECEIVED_WINNING 8 /* 1 guarded, 0 not */
#define JAXHOPHASI_RECEIVED_PLACES 9  /* 7 * 4: the place in the input of each kind put out; 0 past
                                       * their count */

/* What jaxhophasi_run and jaxhophasi_run_for answer: two numbers. */
#define JAXHOPHASI_RAN_SIZE 16
#define JAXHOPHASI_RAN_LENGTH 0  /* bytes of output written */
#define JAXHOPHASI_RAN_REFUSED 8 /* events refused by 14, 15 or 23, over a list also by 19 or 13 */

/* What jaxhophasi_feed answers: 37 bytes as jaxhophasi_receive_for, by the offsets of those, and
 * then two numbers (FED_PLACE is a place in the record's bytes, none in the input). */
#define JAXHOPHASI_FED_SIZE 53
#define JAXHOPHASI_FED_LOSS 37  /* how many records were lost before this one */
#define JAXHOPHASI_FED_PLACE 45 /* where in the bytes the fault of row 1, 2 or 10 is; 0 else */

/* What jaxhophasi_judge answers: 1 yes, 0 no. */
#define JAXHOPHASI_VERDICT_SIZE 2
#define JAXHOPHASI_VERDICT_MAY_REST 0 /* may rest where it is */
#define JAXHOPHASI_VERDICT_CAN_REST 1 /* can come to rest, there or by a release */

/* Places of the table for T held lists, and of the largest sheet's. */
#define JAXHOPHASI_TABLE_LENGTH(T) (2 * (T))
#define JAXHOPHASI_MAX_TABLE 599186

/* The longest sheet that jaxhophasi_write writes: 4 + 16 + 32 + 32 * 16. */
#define JAXHOPHASI_MAX_SHEET 564

/* The same four limits by their older names. */
#define JAXHOPHASI_STATES_MOST JAXHOPHASI_MAX_STATES
#define JAXHOPHASI_SYMBOLS_MOST JAXHOPHASI_MAX_SYMBOLS
#define JAXHOPHASI_TABLE_MOST JAXHOPHASI_MAX_TABLE
#define JAXHOPHASI_SHEET_MOST JAXHOPHASI_MAX_SHEET

/* Numbers of refusal. A read goes left to right, every other call checks its own in this order
 * (product 11 of the first record and of the second, 24, 25), but that receive_for and run_for
 * check 20 and 19 after 12, and feed 11, 12, 20, then its record (1 and 2 left to right, 10, 21,
 * 22), then the event (19, 13, 14, 15, 23); the first that holds is given. (18 is the programs'
 * own.) */
enum {
    JAXHOPHASI_FINE = 0,
    JAXHOPHASI_ENDS_EARLY = 1,         /* read, feed: the bytes end before the sheet or the feed's
                                        * record does */
    JAXHOPHASI_LONG_NUMBER = 2,        /* read, feed: the third byte of a number has its top bit
                                        * set */
    JAXHOPHASI_BAD_STATES = 3,         /* read: n not 1 to 32 */
    JAXHOPHASI_BAD_SYMBOLS = 4,        /* read: m not 1 to 16 */
    JAXHOPHASI_BAD_CAPACITY = 5,       /* read: B not 1 to 6 */
    JAXHOPHASI_BAD_INITIAL = 6,        /* read: start not below n */
    JAXHOPHASI_BAD_FLAG = 7,           /* read: a class or flag above 1 */
    JAXHOPHASI_MANY_CONTROLLABLE = 8,  /* read: a ninth controllable kind */
    JAXHOPHASI_BAD_NEXT = 9,           /* read: next state not below n */
    JAXHOPHASI_BYTES_LEFT = 10,        /* read, feed: bytes after the sheet or the feed's record */
    JAXHOPHASI_BAD_AUTOMATON = 11,     /* a sheet's record that breaks 3 to 9, or a nonzero unused
                                        * place */
    JAXHOPHASI_SHORT_TABLE = 12,       /* solve, winning, receive, run, receive_for, run_for, feed:
                                        * table shorter than 2 T */
    JAXHOPHASI_BAD_CONFIGURATION = 13, /* winning, receive, run, judge, receive_for and feed (that
                                        * client's alone; run_for passes over the event and counts
                                        * it): state not below n, over B held, a held event that is
                                        * no controllable kind, a nonzero unused place, held places
                                        * that do not rise strictly, one not below the input count,
                                        * or an output count plus held that is not the input count
                                        * (the sum does not come round: 4,294,967,295 and one held
                                        * against an input count of 0 is 13) */
    JAXHOPHASI_BAD_EVENT = 14,         /* receive, receive_for, feed: event not below m (a day
                                        * passes over it and counts it) */
    JAXHOPHASI_BUFFER_FULL = 15,       /* receive, receive_for, feed: controllable event, hold
                                        * full, and no front part of the hold with the event
                                        * behind it may go (the empty one does not count); by the
                                        * table's bits (a day passes over it and counts it) */
    JAXHOPHASI_SHORT_OUTPUT = 16,      /* write: buffer too short; run: output shorter than events
                                        * plus held; run_for: shorter than all the day's events
                                        * plus what all clients hold, a carried state that 13
                                        * refuses counting as holding nothing (events plus 6 for
                                        * each client always suffice) */
    JAXHOPHASI_TOO_LARGE = 17,         /* judge: over 4 states, 2 uncontrollable kinds or 3 held */
    JAXHOPHASI_NO_CLIENT = 19,         /* receive_for, feed: client not below the list's length
                                        * (run_for passes over the event and counts it) */
    JAXHOPHASI_BAD_COUNT = 20,         /* receive_for, run_for, feed: a list of no client or of
                                        * over 500 */
    JAXHOPHASI_BAD_SERIAL = 21,        /* feed: serial above 65,535 */
    JAXHOPHASI_LATE_SERIAL = 22,       /* feed: late or a repeat: a serial 32,768 or more forward
                                        * of the expected one */
    JAXHOPHASI_INPUT_COUNT_END = 23,   /* receive, receive_for, feed: an event of any class that
                                        * would be accepted, but the input count is at its end,
                                        * 4,294,967,295 (a day passes over it and counts it) */
    JAXHOPHASI_SYMBOLS_DIFFER = 24,    /* product: the kinds of the two records differ in number,
                                        * or one of them in its class */
    JAXHOPHASI_MANY_PAIRS = 25         /* product: more than 32 pairs of states (n of the first
                                        * times n of the second) */
};

/* Reads and checks a sheet. Rows 1 to 10, left to right; place is where the faulty number begins,
 * 0 where there is none. */
uint8_t jaxhophasi_read(const uint8_t *bytes, size_t bytes_length, uint8_t automaton[JAXHOPHASI_AUTOMATON_SIZE],
    uint8_t place[JAXHOPHASI_NUMBER_SIZE]);

/* Writes a sheet at the front of out, in the fewest bytes; length is how many. Rows 11, 16. */
uint8_t jaxhophasi_write(const uint8_t automaton[JAXHOPHASI_AUTOMATON_SIZE], uint8_t *out, size_t out_length,
    uint8_t length[JAXHOPHASI_NUMBER_SIZE]);

/* How many held lists there are: T. Row 11. */
uint8_t jaxhophasi_buffers_count(const uint8_t automaton[JAXHOPHASI_AUTOMATON_SIZE], uint8_t count[JAXHOPHASI_NUMBER_SIZE]);

/* Solves a sheet into the first 2 T places of table; rounds is how many struck a state. Rows 11,
 * 12. */
uint8_t jaxhophasi_solve(const uint8_t automaton[JAXHOPHASI_AUTOMATON_SIZE], uint32_t *table, size_t table_length,
    uint8_t rounds[JAXHOPHASI_NUMBER_SIZE]);

/* The fresh carried state, with both counts 0, into configuration. Row 11; refused, configuration
 * stays as it was. */
uint8_t jaxhophasi_initial(const uint8_t automaton[JAXHOPHASI_AUTOMATON_SIZE],
    uint8_t configuration[JAXHOPHASI_CONFIGURATION_SIZE]);

/* Whether a carried state is guarded. Rows 11, 12, 13. */
uint8_t jaxhophasi_winning(const uint8_t automaton[JAXHOPHASI_AUTOMATON_SIZE], const uint32_t *table, size_t table_length,
    const uint8_t configuration[JAXHOPHASI_CONFIGURATION_SIZE], uint8_t answer[JAXHOPHASI_STATUS_SIZE]);

/* One event: configuration becomes the next carried state. Rows 11 to 15, 23. The answer has the
 * place in the input of each kind put out: of the event itself, if it is put out, the input count
 * as it was before; of a released one the place that it had in the hold. With W's Page, Receipt
 * and Sign, Sign puts out 0 2 3 from the places 2 0 1. The input count grows by 1, the output
 * count by how many are put out.
 *
 * A controllable event with the hold full (B held) stands behind the held ones. If a front part of
 * these B + 1, of one event or more, leads to a state where the gate may rest with the others, by
 * the table, the event is accepted, the longest such part goes (all seven, with a hold of six, if
 * they may), and the gate is guarded; else it is 15. With V's Answer held, a second one lets the
 * first go and is held itself. Where it would be accepted but the input count is at its end, it is
 * 23. So it is in every call that takes events. */
uint8_t jaxhophasi_receive(const uint8_t automaton[JAXHOPHASI_AUTOMATON_SIZE], const uint32_t *table, size_t table_length,
    uint8_t configuration[JAXHOPHASI_CONFIGURATION_SIZE], uint32_t event, uint8_t answer[JAXHOPHASI_RECEIVED_SIZE]);

/* A whole day: configuration becomes the next carried state, and out begins with the kinds put
 * out. Rows 11, 12, 13, 16; an event that 14, 15 or 23 refuses is passed over and counted. (Places
 * and counts of the carried state move on as by jaxhophasi_receive, but neither out nor the answer
 * says where a kind came from; who must know that calls jaxhophasi_receive for each event.) */
uint8_t jaxhophasi_run(const uint8_t automaton[JAXHOPHASI_AUTOMATON_SIZE], const uint32_t *table, size_t table_length,
    uint8_t configuration[JAXHOPHASI_CONFIGURATION_SIZE], const uint32_t *events, size_t events_length, uint8_t *out,
    size_t out_length, uint8_t answer[JAXHOPHASI_RAN_SIZE]);

/* One event for a client: its carried state in the list becomes the next one, all others stay.
 * Rows 11, 12, 20, 19, then 13 of that carried state alone, 14, 15, 23. The places in the answer
 * are among that client's own accepted events. */
uint8_t jaxhophasi_receive_for(const uint8_t automaton[JAXHOPHASI_AUTOMATON_SIZE], const uint32_t *table, size_t table_length,
    uint8_t configurations[][JAXHOPHASI_CONFIGURATION_SIZE], size_t configurations_length, uint32_t client, uint32_t event,
    uint8_t answer[JAXHOPHASI_RECEIVED_SIZE]);

/* A whole day over the list, each event a JAXHOPHASI_CLIENT_EVENT: the carried states become the
 * next ones, and out begins with the kinds put out, in the order of the day's events. Rows 11, 12,
 * 20, 16; an event that 19, 13, 14, 15 or 23 refuses is passed over and counted. (out does not say
 * whose a kind is or where it came from, nor the answer which events were refused; who must know
 * that calls jaxhophasi_receive_for for each event.) */
uint8_t jaxhophasi_run_for(const uint8_t automaton[JAXHOPHASI_AUTOMATON_SIZE], const uint32_t *table, size_t table_length,
    uint8_t configurations[][JAXHOPHASI_CONFIGURATION_SIZE], size_t configurations_length, const uint32_t *events,
    size_t events_length, uint8_t *out, size_t out_length, uint8_t answer[JAXHOPHASI_RAN_SIZE]);

/* One record of a feed over the list: serial, client and kind, each in one to three groups of
 * seven bits as a sheet's numbers, and nothing behind them. If the expected serial lets it in, it
 * is an event for its client, as by jaxhophasi_receive_for; expected becomes the serial after its
 * own, and the answer has how many records were lost before it (0 where none was expected). Rows
 * 11, 12, 20; of the record 1 and 2, left to right, at the place where the number begins, 10 at
 * the first byte left, 21, 22; of the event 19, then 13 of that client's carried state alone, 14,
 * 15, 23. Where one of the last five refuses the event, loss and expected are as if it had been
 * accepted; where any other row refuses, the loss is 0 and expected stays, byte for byte. */
uint8_t jaxhophasi_feed(const uint8_t automaton[JAXHOPHASI_AUTOMATON_SIZE], const uint32_t *table, size_t table_length,
    uint8_t configurations[][JAXHOPHASI_CONFIGURATION_SIZE], size_t configurations_length, const uint8_t *bytes,
    size_t bytes_length, uint8_t expected[JAXHOPHASI_EXPECTED_SIZE], uint8_t answer[JAXHOPHASI_FED_SIZE]);

/* The second judge: may the gate rest where it is, can it come to rest? By the rules' words,
 * without a table; for small sheets. Rows 11, 13, 17. */
uint8_t jaxhophasi_judge(const uint8_t automaton[JAXHOPHASI_AUTOMATON_SIZE],
    const uint8_t configuration[JAXHOPHASI_CONFIGURATION_SIZE], uint8_t answer[JAXHOPHASI_VERDICT_SIZE]);

/* Two sheets, both to be obeyed, become one: their product, into automaton. Its states are pairs:
 * state p of the first and state q of the second are state p * n + q, with n of the second. It
 * starts in the pair of both starts, a pair is acceptable where both its states are, each kind
 * leads from a pair to the pair of where it leads in both, and the hold is the smaller one. Kinds
 * and classes are those of both. Rows 11 of the first, 11 of the second, 24, 25; refused,
 * automaton becomes all zeros. (first and second may be the same record; automaton overlaps
 * neither.)
 *
 * A list of events ends in an acceptable state of the product exactly where it does in both. Over
 * solved tables, where the product is guarded so is each of the two, in its state of the pair and
 * with the same held list. But both may be guarded where the product is not: with Answer held V is
 * in state 0, and so is 2 2 1 0, 0 1, 1 0, 0 1, 1 1 (no Answer may go out), but their product is
 * not in the pair of these, for after a Query the one needs the Answer to go, the other to
 * stay. */
uint8_t jaxhophasi_product(const uint8_t first[JAXHOPHASI_AUTOMATON_SIZE], const uint8_t second[JAXHOPHASI_AUTOMATON_SIZE],
    uint8_t automaton[JAXHOPHASI_AUTOMATON_SIZE]);

#ifdef __cplusplus
}
#endif

#endif
