/*
 * Compares the archive with the C version of the same rules, and measures both.
 *
 *   driver compare COUNT   COUNT rounds of every call on sheets, records, tables, states, days,
 *                          feeds and pairs of sheets, valid and damaged; stops at the first
 *                          difference; then prints how often a controllable event came to a full
 *                          hold, and what came of it, and how often each kind of pair was met
 *   driver time            the solver, one event and a day, then a day over lists of clients, then
 *                          one event and one record of a feed over such a list, then the product
 *                          of two sheets, both in turn, best of several
 */
#include <stdio.h>
#include <stdlib.h>
#include <string.h>
#include <time.h>

#include "jaxhophasi.h"
#include "reference.h"

/* The greatest number in seven-bit groups; bytes of a feed's record, and one more. */
enum { GUARD = 16, EVENTS = 1000000, MAX_NUMBER = 2097151, FEED_BYTES = 10 };

/* Random numbers: the same on every machine. */
static uint64_t seed;

static uint32_t any(void)
{
    seed = seed * 6364136223846793005u + 1442695040888963407u;
    uint64_t x = seed ^ seed >> 33;
    return (uint32_t)(x * 0xff51afd7ed558ccdu >> 32);
}

static uint32_t below(uint32_t limit)
{
    return (uint32_t)((uint64_t)any() * limit >> 32);
}

static void *room(size_t size)
{
    void *p = malloc(size ? size : 1);
    if (!p) {
        puts("no memory");
        exit(1);
    }
    return p;
}

/* ---- making inputs ---- */

/* The first four numbers of a record, all else 0. */
static void make_head(uint8_t *r, unsigned n, unsigned m, unsigned b)
{
    memset(r, 0, JAXHOPHASI_AUTOMATON_SIZE);
    r[0] = (uint8_t)n;
    r[1] = (uint8_t)m;
    r[2] = (uint8_t)b;
    r[3] = (uint8_t)below(n);
}

/* Its states, once it has classes. So many of the first are acceptable, and the uncontrollable
 * kinds stay among them. */
static void make_states(uint8_t *r, unsigned inside)
{
    unsigned n = r[0], m = r[1];
    for (unsigned q = 0; q < n; q++)
        r[20 + q] = q < inside || below(2);
    for (unsigned q = 0; q < n; q++)
        for (unsigned e = 0; e < m; e++)
            r[52 + q * 16 + e] = (uint8_t)(q < inside && !r[4 + e] && below(64) ? below(inside) : below(n));
}

/* How many states are of the core, where there is one: then S is not empty. */
static unsigned make_inside(unsigned n, int core)
{
    return core ? 1 + below(n) : 0;
}

/* A valid record, perhaps with a core. */
static void make_record(uint8_t *r, unsigned n, unsigned m, unsigned b, unsigned k, int core)
{
    unsigned inside = make_inside(n, core);
    make_head(r, n, m, b);
    for (unsigned left = k; left;) {
        unsigned e = below(m);
        left -= !r[4 + e];
        r[4 + e] = 1;
    }
    make_states(r, inside);
}

/* Another record with the kinds and classes of a valid one. */
static void make_alike(uint8_t *r, const uint8_t *other, unsigned n, unsigned b, int core)
{
    unsigned inside = make_inside(n, core);
    make_head(r, n, other[1], b);
    memcpy(r + 4, other + 4, 16);
    make_states(r, inside);
}

static unsigned least(unsigned a, unsigned b)
{
    return a < b ? a : b;
}

/* A record of any size up to the limits, with at most so many held lists. */
static void make_any_record(uint8_t *r, uint32_t most)
{
    for (;;) {
        unsigned m = 1 + below(16);
        make_record(r, 1 + below(below(3) ? 6 : 32), m, 1 + below(6), below(least(m, 8) + 1), (int)below(3));
        uint8_t count[8];
        if (ref_buffers_count(r, count) == 0 && jaxhophasi_number_at(count) <= most)
            return;
    }
}

/* One place of a record is changed: any byte, sometimes to a value that still stands, or one that
 * lies just past what may stand. */
static void damage_record(uint8_t *r)
{
    static const uint16_t start[] = { 0, 1, 2, 3, 4, 20, 52 }, size[] = { 1, 1, 1, 1, 16, 32, 512 };
    unsigned n = r[0], m = r[1], q = below(n), e = below(m), part = below(7);
    switch (below(14)) {
    case 0: r[0] = 33; break;
    case 1: r[1] = 17; break;
    case 2: r[2] = 7; break;
    case 3: r[3] = r[0]; break;
    case 4: r[4 + e] = 2; break;
    case 5: r[20 + q] = 2; break;
    case 6: r[52 + q * 16 + e] = r[0]; break;
    case 7: memset(r + 4, 1, m); break; /* perhaps nine controllable kinds */
    case 8: r[m < 16 ? 4 + m : 563] = 1; break;
    case 9: r[n < 32 ? 20 + n : 563] = 1; break;
    case 10: r[n < 32 ? 52 + n * 16 : 563] = 1; break;
    case 11: r[m < 16 ? 52 + q * 16 + m : 563] = 1; break;
    case 12: r[563] ^= 1; break;
    default: r[start[part] + below(size[part])] = (uint8_t)(below(2) ? below(4) : below(4) ? below(40) : any());
    }
}

/* How many states each of two sheets has: few pairs, as many as there may be, or more. */
static void make_sizes(unsigned *first, unsigned *second)
{
    static const uint8_t most[] = { 1, 2, 4, 8, 16, 32 };
    /* 33 pairs, 34, 36; and over 255, as many as 0 or 5 in eight bits */
    static const uint8_t over[][2] = { { 3, 11 }, { 11, 3 }, { 2, 17 }, { 6, 6 }, { 8, 32 }, { 32, 32 }, { 29, 9 }, { 9, 29 } };
    unsigned i = below(6), j = below(8);
    switch (below(4)) {
    case 0: *first = most[i], *second = most[5 - i]; break;
    case 1: *first = over[j][0], *second = over[j][1]; break;
    default: *first = 1 + below(6), *second = 1 + below(32 / *first);
    }
}

/* Two records to be merged: often with the same kinds; then one is the other, or one or both are
 * changed, so that they are damaged or their kinds differ in number or class. */
static void make_two(uint8_t *r, uint8_t *s)
{
    unsigned m = 1 + below(below(4) ? 5 : 16), n, other_n;
    make_sizes(&n, &other_n);
    make_record(r, n, m, 1 + below(below(4) ? 2 : 6), below(least(m, 8) + 1), (int)below(3));
    make_alike(s, r, other_n, 1 + below(below(4) ? 2 : 6), (int)below(3));
    switch (below(12)) {
    case 0: memcpy(s, r, JAXHOPHASI_AUTOMATON_SIZE); break;
    case 1: damage_record(r); break;
    case 2: damage_record(s); break;
    case 3:
        damage_record(r);
        damage_record(s);
        break;
    case 4: make_record(s, other_n, 1 + below(16), 1 + below(6), 0, 1); break;
    case 5: /* one kind more, of class 0, so that all 16 places of the classes agree */
        if (m < 16)
            (below(2) ? r : s)[1]++;
        break;
    case 6: /* the class of one kind, often the last */
        (below(2) ? r : s)[4 + (below(2) ? m - 1 : below(m))] ^= 1;
        break;
    }
}

/* A number below 2,097,152 in seven-bit groups, perhaps padded. */
static size_t put_number(uint8_t *bytes, uint32_t value, int padded)
{
    unsigned last = value > 16383 ? 2 : value > 127, more = padded ? below(8) : 0;
    if (more < 3 && more > last)
        last = more;
    for (unsigned i = 0; i <= last; i++)
        bytes[i] = (uint8_t)((value >> 7 * i & 127) | (i < last ? 128 : 0));
    return last + 1;
}

/* The numbers of a record, which need not be a valid one, as bytes. */
static size_t make_bytes(const uint8_t *r, uint8_t *bytes, int padded)
{
    size_t used = 0;
    unsigned n = least(r[0], 32), m = least(r[1], 16);
    for (unsigned i = 0; i < 4; i++)
        used += put_number(bytes + used, r[i], padded);
    for (unsigned e = 0; e < m; e++)
        used += put_number(bytes + used, r[4 + e], padded);
    for (unsigned q = 0; q < n; q++)
        used += put_number(bytes + used, r[20 + q], padded);
    for (unsigned q = 0; q < n; q++)
        for (unsigned e = 0; e < m; e++)
            used += put_number(bytes + used, r[52 + q * 16 + e], padded);
    return used;
}

/* Bytes are cut off, added or changed. */
static size_t damage_bytes(uint8_t *bytes, size_t used)
{
    switch (below(5)) {
    case 0:
        return below((uint32_t)used + 1);
    case 1:
        bytes[used] = (uint8_t)any();
        return used + 1;
    case 2:
        bytes[below(least((unsigned)used, 6) + 1)] = (uint8_t)any();
        return used;
    default:
        bytes[below((uint32_t)used + 1)] = (uint8_t)(below(2) ? below(4) : any());
        return used;
    }
}

/* Where a carried state has its two counts, and the place of a held event. */
enum { RECEIVED = JAXHOPHASI_CONFIGURATION_RECEIVED, EMITTED = JAXHOPHASI_CONFIGURATION_EMITTED };

static void put_place(uint8_t *bytes, uint32_t value)
{
    for (unsigned i = 0; i < JAXHOPHASI_PLACE_SIZE; i++)
        bytes[i] = (uint8_t)(value >> 8 * i);
}

static uint8_t *held_place(uint8_t *c, unsigned i)
{
    return c + JAXHOPHASI_CONFIGURATION_PLACES + i * JAXHOPHASI_PLACE_SIZE;
}

/* The counts of a carried state with so many held, and a place for each, rising below the input
 * count: just above the last one, the highest that leaves room for those to come, or any between.
 * The input count is often low, sometimes at its end or a day's part before it. */
static void make_counts(uint8_t *c, unsigned held)
{
    uint32_t received = held + below(below(2) ? 4 : 100), lowest = 0;
    switch (below(8)) {
    case 0: received = UINT32_MAX; break;
    case 1: received = UINT32_MAX - below(3); break;
    case 2: received = UINT32_MAX - below(40); break;
    case 3: received = held + below(UINT32_MAX - held); break;
    }
    put_place(c + RECEIVED, received);
    put_place(c + EMITTED, received - held);
    for (unsigned i = 0; i < held; i++) {
        uint32_t highest = received - (held - i), place = below(3) ? lowest : highest;
        if (below(3) == 0)
            place = lowest + below(highest - lowest + 1);
        put_place(held_place(c, i), place);
        lowest = place + 1;
    }
}

/* The places or the counts of a carried state are changed, so that row 13 refuses it (but where
 * nothing is held, or all of the hold is used, some of these change nothing). */
static void damage_counts(uint8_t *c)
{
    unsigned held = least(c[JAXHOPHASI_CONFIGURATION_HELD], 6), i = below(held ? held : 1);
    uint8_t *place = held_place(c, i), kept[JAXHOPHASI_PLACE_SIZE];
    uint32_t received = jaxhophasi_place_at(c + RECEIVED), emitted = jaxhophasi_place_at(c + EMITTED);
    switch (below(9)) {
    case 0: /* not rising: two change places */
        if (i + 1 < held) {
            memcpy(kept, place, sizeof kept);
            memcpy(place, held_place(c, i + 1), sizeof kept);
            memcpy(held_place(c, i + 1), kept, sizeof kept);
        }
        break;
    case 1: /* two equal ones */
        if (i + 1 < held)
            memcpy(held_place(c, i + 1), place, sizeof kept);
        break;
    case 2: /* the last at the input count, above it, or the highest number */
        if (held)
            put_place(held_place(c, held - 1), below(2) ? received : below(2) ? received + 1 : UINT32_MAX);
        break;
    case 3: /* an unused one that is not 0: a place like any other, or a single bit */
        if (held < 6)
            put_place(held_place(c, held + below(6 - held)), below(2) ? received - 1 : 1u << below(32));
        break;
    case 4: put_place(c + EMITTED, below(2) ? emitted + 1 : emitted - 1); break;
    case 5: put_place(c + RECEIVED, below(2) ? received + 1 : received - 1); break;
    case 6: put_place(c + EMITTED, received); break; /* as if nothing was held */
    case 7: /* the sum is right but for a carry out of 32 bits */
        put_place(c + RECEIVED, below(held ? held : 1));
        put_place(c + EMITTED, jaxhophasi_place_at(c + RECEIVED) - held);
        break;
    default: put_place(held_place(c, below(8)), any()); /* a place, or a count behind them */
    }
}

/* A carried state of the sheet, often with a full hold, or a damaged one. */
static void make_configuration(const uint8_t *r, uint8_t *c, int damaged)
{
    uint8_t symbols[16];
    unsigned k = 0;
    for (unsigned e = 0; e < 16; e++)
        if (r[4 + e] == 1)
            symbols[k++] = (uint8_t)e;
    memset(c, 0, JAXHOPHASI_CONFIGURATION_SIZE);
    c[0] = (uint8_t)below(r[0] ? r[0] : 1);
    c[1] = (uint8_t)(k ? below(3) ? below(r[2] + 1u) : r[2] : 0);
    for (unsigned i = 0; i < c[1] && i < 6; i++)
        c[2 + i] = symbols[below(k)];
    make_counts(c, least(c[1], 6));
    if (damaged && below(2))
        damage_counts(c);
    else if (damaged)
        c[below(below(2) ? 8 : JAXHOPHASI_CONFIGURATION_SIZE)] = (uint8_t)(below(2) ? below(20) : any());
}

static uint32_t make_event(const uint8_t *r)
{
    static const uint32_t far[] = { 256, 257, 65536, 65537, 0x80000000u, 0xffffffffu };
    return below(16) ? below(r[1] + 1u) : below(4) ? below(20) : far[below(6)];
}

/* The number of clients of a list: often few, sometimes none or near the limit. */
static size_t make_count(void)
{
    static const uint16_t limits[] = { 0, 499, 500, 501 };
    return below(8) ? 1 + below(6) : limits[below(4)];
}

/* A client's carried state: fresh, any of the sheet, a damaged one, or one that says that it holds
 * 200. */
static void make_client(const uint8_t *r, uint8_t *c)
{
    unsigned choice = below(16);
    make_configuration(r, c, choice == 0 || choice == 2);
    if (choice == 1)
        c[JAXHOPHASI_CONFIGURATION_HELD] = 200;
    if (choice > 9)
        ref_initial(r, c);
}

/* A client of so many, often one of the first few, sometimes the first that is not there. */
static uint32_t make_client_number(size_t count)
{
    static const uint32_t far[] = { 256, 512, 65535, 65536, 0xffffffffu };
    uint32_t clients = (uint32_t)count;
    switch (below(16)) {
    case 0: return clients;
    case 1: return far[below(5)];
    case 2: return clients ? clients - 1 : 0;
    default: return below(below(2) ? least(clients, 3) : clients);
    }
}

/* An event of a day over so many clients. */
static uint32_t make_client_event(const uint8_t *r, size_t count)
{
    static const uint32_t far[] = { 255, 256, 65535 };
    uint32_t kind = below(16) ? below(r[1] + 1u) : far[below(3)];
    if (below(64) == 0)
        return below(2) ? any() : 0xffffffffu;
    return JAXHOPHASI_CLIENT_EVENT(make_client_number(count), kind);
}

/* The expected serial of a feed: none, with anything behind the 0, one, or any three bytes. */
static void make_expected(uint8_t *expected)
{
    for (unsigned i = 0; i < JAXHOPHASI_EXPECTED_SIZE; i++)
        expected[i] = (uint8_t)(below(4) ? any() : below(2) * 255);
    if (below(3))
        expected[JAXHOPHASI_EXPECTED_KNOWN] = (uint8_t)below(2);
}

/* A serial: often the one expected or a little further on, the last that is lost, the first that
 * is late or the one before what is expected; sometimes at the ends of what it may be. */
static uint32_t make_serial(const uint8_t *expected)
{
    static const uint32_t steps[] = { 0, 0, 0, 1, 2, 32766, 32767, 32768, 32769, 65534, 65535 };
    static const uint32_t ends[] = { 0, 1, 32767, 32768, 65534, 65535, 65536, 65537, 131072, MAX_NUMBER };
    uint32_t from = expected[JAXHOPHASI_EXPECTED_SERIAL] + 256u * expected[JAXHOPHASI_EXPECTED_SERIAL + 1];
    switch (below(8)) {
    case 0: return ends[below(10)];
    case 1: return below(below(4) ? 65536 : MAX_NUMBER + 1);
    default: return (from + steps[below(11)]) % 65536;
    }
}

/* The bytes of a feed's record: three numbers, perhaps padded, perhaps one that goes on into the
 * next or is too long, perhaps cut off, with bytes behind them or changed. */
static size_t make_feed_record(const uint8_t *r, size_t count, const uint8_t *expected, uint8_t bytes[FEED_BYTES])
{
    uint32_t numbers[] = { make_serial(expected), make_client_number(count), make_event(r) };
    size_t used = 0;
    int padded = below(4) == 0;
    for (unsigned i = 0; i < 3; i++) {
        used += put_number(bytes + used, numbers[i] & MAX_NUMBER, padded);
        if (below(32) == 0)
            bytes[used - 1] |= 128;
    }
    return below(4) ? used : damage_bytes(bytes, used);
}

/* ---- comparing ---- */

static unsigned long round_now, calls;
static const char *call_now;

static void same(const char *what, const void *ours, const void *theirs, size_t size)
{
    calls++;
    if (memcmp(ours, theirs, size) == 0)
        return;
    size_t i = 0;
    while (((const uint8_t *)ours)[i] == ((const uint8_t *)theirs)[i])
        i++;
    printf("DIFFERENT: round %lu, %s: %s differs at byte %zu: %u, C says %u\n", round_now, call_now, what, i,
        ((const uint8_t *)ours)[i], ((const uint8_t *)theirs)[i]);
    exit(1);
}

/* Two copies of lent memory with the same contents, longer than what is lent, so that a byte
 * written past it shows. */
typedef struct {
    uint8_t *ours, *theirs;
    size_t size;
} twin;

static twin twins(size_t lent, int zero)
{
    twin t = { room(lent + GUARD), room(lent + GUARD), lent + GUARD };
    for (size_t i = 0; i < t.size; i++)
        t.ours[i] = zero ? 0 : (uint8_t)any();
    memcpy(t.theirs, t.ours, t.size);
    return t;
}

static void same_twins(const char *what, twin t)
{
    same(what, t.ours, t.theirs, t.size);
}

static void drop_twins(twin t)
{
    free(t.ours);
    free(t.theirs);
}

static void set_twins(twin t, const void *from, size_t size)
{
    memcpy(t.ours, from, size);
    memcpy(t.theirs, from, size);
}

static void same_row(uint8_t ours, uint8_t theirs)
{
    same("the refusal", &ours, &theirs, 1);
}

/* Controllable events that came to a full hold, one by one: over a table that is not solved or is,
 * by the hold B, and by what came of them. */
enum { OPENED, SHUT, OPENED_AT_END, SHUT_AT_END, MET };
static unsigned long met[2][7][MET];
static int solved_now;

/* Counts an event that was given row 0, 15 or 23 in a carried state that no row refuses. */
static void meet(const uint8_t *r, const uint8_t *c, uint32_t event, uint8_t row)
{
    unsigned held = c[JAXHOPHASI_CONFIGURATION_HELD];
    int at_end = jaxhophasi_place_at(c + RECEIVED) == UINT32_MAX;
    if ((row == 0 || row == 15 || row == 23) && r[4 + event] && held == r[2])
        met[solved_now][held][row == 0 ? OPENED : row == 23 ? OPENED_AT_END : at_end ? SHUT_AT_END : SHUT]++;
}

/* Prints the counts; from 20,000 rounds on there must be some of each. */
static int met_all(unsigned long count)
{
    static const char *const names[MET] = { "opened", "shut", "opened at the count's end", "shut at the count's end" };
    int all = 1;
    for (int solved = 0; solved < 2; solved++)
        for (unsigned what = 0; what < MET; what++) {
            printf("full holds of 1 to 6, %s table, %s:", solved ? "solved" : "any", names[what]);
            for (unsigned b = 1; b <= 6; b++) {
                printf(" %lu", met[solved][b][what]);
                all &= met[solved][b][what] > 0;
            }
            puts("");
        }
    if (!all && count >= 20000)
        puts("NOT MET: some of these");
    return all || count < 20000;
}

static void compare_read(const uint8_t *bytes, size_t length)
{
    twin source = twins(length, 0), record = twins(JAXHOPHASI_AUTOMATON_SIZE, 0), place = twins(JAXHOPHASI_NUMBER_SIZE, 0);
    call_now = "read";
    set_twins(source, bytes, length);
    same_row(jaxhophasi_read(source.ours, length, record.ours, place.ours),
        ref_read(source.theirs, length, record.theirs, place.theirs));
    same_twins("the sheet", source);
    same_twins("the record", record);
    same_twins("the place", place);
    drop_twins(source);
    drop_twins(record);
    drop_twins(place);
}

static void compare_write(twin record, size_t lent)
{
    twin out = twins(lent, 0), length = twins(JAXHOPHASI_NUMBER_SIZE, 0);
    call_now = "write";
    same_row(jaxhophasi_write(record.ours, out.ours, lent, length.ours),
        ref_write(record.theirs, out.theirs, lent, length.theirs));
    same_twins("the record", record);
    same_twins("the output", out);
    same_twins("the length", length);
    drop_twins(out);
    drop_twins(length);
}

static void compare_count_and_initial(twin record)
{
    twin count = twins(JAXHOPHASI_NUMBER_SIZE, 0), first = twins(JAXHOPHASI_CONFIGURATION_SIZE, 0);
    call_now = "buffers_count";
    same_row(jaxhophasi_buffers_count(record.ours, count.ours), ref_buffers_count(record.theirs, count.theirs));
    same_twins("the count", count);
    call_now = "initial";
    same_row(jaxhophasi_initial(record.ours, first.ours), ref_initial(record.theirs, first.theirs));
    same_twins("the state", first);
    same_twins("the record", record);
    drop_twins(count);
    drop_twins(first);
}

static void compare_solve(twin record, twin table, size_t places)
{
    twin rounds = twins(JAXHOPHASI_NUMBER_SIZE, 0);
    call_now = "solve";
    ref_remember = (int)below(2);
    same_row(jaxhophasi_solve(record.ours, (uint32_t *)table.ours, places, rounds.ours),
        ref_solve(record.theirs, (uint32_t *)table.theirs, places, rounds.theirs));
    same_twins("the record", record);
    same_twins("the table", table);
    same_twins("the rounds", rounds);
    drop_twins(rounds);
}

static void compare_winning(twin record, twin table, size_t places, twin state)
{
    twin answer = twins(JAXHOPHASI_STATUS_SIZE, 0);
    call_now = "winning";
    same_row(jaxhophasi_winning(record.ours, (uint32_t *)table.ours, places, state.ours, answer.ours),
        ref_winning(record.theirs, (uint32_t *)table.theirs, places, state.theirs, answer.theirs));
    same_twins("the state", state);
    same_twins("the answer", answer);
    drop_twins(answer);
}

static void compare_judge(twin record, twin state)
{
    twin answer = twins(JAXHOPHASI_VERDICT_SIZE, 0);
    call_now = "judge";
    same_row(jaxhophasi_judge(record.ours, state.ours, answer.ours), ref_judge(record.theirs, state.theirs, answer.theirs));
    same_twins("the state", state);
    same_twins("the answer", answer);
    drop_twins(answer);
}

static void compare_receive(twin record, twin table, size_t places, twin state, uint32_t event)
{
    twin answer = twins(JAXHOPHASI_RECEIVED_SIZE, 0);
    uint8_t before[JAXHOPHASI_CONFIGURATION_SIZE];
    call_now = "receive";
    memcpy(before, state.theirs, sizeof before);
    uint8_t row = ref_receive(record.theirs, (uint32_t *)table.theirs, places, state.theirs, event, answer.theirs);
    same_row(jaxhophasi_receive(record.ours, (uint32_t *)table.ours, places, state.ours, event, answer.ours), row);
    meet(record.theirs, before, event, row);
    same_twins("the state", state);
    same_twins("the answer", answer);
    drop_twins(answer);
}

static void compare_run(twin record, twin table, size_t places, twin state, size_t count)
{
    size_t held = state.ours[JAXHOPHASI_CONFIGURATION_HELD];
    size_t lent = below(2) ? count + held : below(2) ? count + held + below(9) : below((uint32_t)(count + held) + 1);
    twin events = twins(4 * count, 0), out = twins(lent, 0), answer = twins(JAXHOPHASI_RAN_SIZE, 0);
    uint32_t *list = (uint32_t *)events.ours;
    call_now = "run";
    for (size_t i = 0; i < count; i++)
        list[i] = make_event(record.ours);
    memcpy(events.theirs, events.ours, events.size);
    same_row(jaxhophasi_run(record.ours, (uint32_t *)table.ours, places, state.ours, list, count, out.ours, lent, answer.ours),
        ref_run(record.theirs, (uint32_t *)table.theirs, places, state.theirs, (uint32_t *)events.theirs, count, out.theirs, lent,
            answer.theirs));
    same_twins("the events", events);
    same_twins("the state", state);
    same_twins("the output", out);
    same_twins("the answer", answer);
    drop_twins(events);
    drop_twins(out);
    drop_twins(answer);
}

/* Calls in a row from one state, events and days mixed. */
static void compare_calls(twin record, twin table, size_t places, twin state)
{
    for (unsigned i = below(40); i > 0; i--) {
        compare_winning(record, table, places, state);
        compare_judge(record, state);
        if (below(8))
            compare_receive(record, table, places, state, make_event(record.ours));
        else
            compare_run(record, table, places, state, below(8) ? below(30) : below(2000));
        if (below(32) == 0) {
            make_configuration(record.ours, state.ours, (int)below(2));
            memcpy(state.theirs, state.ours, JAXHOPHASI_CONFIGURATION_SIZE);
        }
    }
    call_now = "the calls";
    same_twins("the record", record);
    same_twins("the table", table);
}

/* A list of clients as the calls take it. */
typedef uint8_t (*list_of_clients)[JAXHOPHASI_CONFIGURATION_SIZE];

/* Gives a client some carried state, the same in both copies. */
static void set_client(twin record, twin list, size_t client)
{
    size_t at = client * JAXHOPHASI_CONFIGURATION_SIZE;
    make_client(record.ours, list.ours + at);
    memcpy(list.theirs + at, list.ours + at, JAXHOPHASI_CONFIGURATION_SIZE);
}

static void compare_receive_for(twin record, twin table, size_t places, twin list, size_t count)
{
    uint32_t client = make_client_number(count), event = make_event(record.ours);
    twin answer = twins(JAXHOPHASI_RECEIVED_SIZE, 0);
    call_now = "receive_for";
    same_row(jaxhophasi_receive_for(record.ours, (uint32_t *)table.ours, places, (list_of_clients)list.ours, count, client, event,
                 answer.ours),
        ref_receive_for(record.theirs, (uint32_t *)table.theirs, places, (list_of_clients)list.theirs, count, client, event,
            answer.theirs));
    same_twins("the list", list);
    same_twins("the answer", answer);
    drop_twins(answer);
}

/* A record of a feed, whose expected serial goes on from call to call. */
static void compare_feed(twin record, twin table, size_t places, twin list, size_t count, twin expected)
{
    uint8_t made[FEED_BYTES] = { 0 };
    size_t used = make_feed_record(record.ours, count, expected.ours, made);
    twin bytes = twins(used, 0), answer = twins(JAXHOPHASI_FED_SIZE, 0);
    call_now = "feed";
    set_twins(bytes, made, used);
    same_row(jaxhophasi_feed(record.ours, (uint32_t *)table.ours, places, (list_of_clients)list.ours, count, bytes.ours, used,
                 expected.ours, answer.ours),
        ref_feed(record.theirs, (uint32_t *)table.theirs, places, (list_of_clients)list.theirs, count, bytes.theirs, used,
            expected.theirs, answer.theirs));
    same_twins("the record's bytes", bytes);
    same_twins("the list", list);
    same_twins("the expected serial", expected);
    same_twins("the answer", answer);
    drop_twins(bytes);
    drop_twins(answer);
}

/* How many events the clients hold whose carried states are no fault. */
static size_t held_in_list(twin record, twin table, size_t places, twin list, size_t count)
{
    size_t held = 0;
    for (size_t i = 0; i < count; i++) {
        uint8_t *c = list.theirs + i * JAXHOPHASI_CONFIGURATION_SIZE, status;
        if (ref_winning(record.theirs, (uint32_t *)table.theirs, places, c, &status) == 0)
            held += c[JAXHOPHASI_CONFIGURATION_HELD];
    }
    return held;
}

/* A day over the list, into exactly the room that it needs, one byte less, more, or any. */
static void compare_run_for(twin record, twin table, size_t places, twin list, size_t count, size_t many)
{
    size_t lent = many + held_in_list(record, table, places, list, count);
    switch (below(8)) {
    case 0: lent -= lent > 0; break;
    case 1: lent += below(300); break;
    case 2: lent = below((uint32_t)lent + 1); break;
    }
    twin events = twins(4 * many, 0), out = twins(lent, 0), answer = twins(JAXHOPHASI_RAN_SIZE, 0);
    uint32_t *day = (uint32_t *)events.ours;
    call_now = "run_for";
    for (size_t i = 0; i < many; i++)
        day[i] = make_client_event(record.ours, count);
    memcpy(events.theirs, events.ours, events.size);
    same_row(jaxhophasi_run_for(record.ours, (uint32_t *)table.ours, places, (list_of_clients)list.ours, count, day, many,
                 out.ours, lent, answer.ours),
        ref_run_for(record.theirs, (uint32_t *)table.theirs, places, (list_of_clients)list.theirs, count,
            (uint32_t *)events.theirs, many, out.theirs, lent, answer.theirs));
    same_twins("the events", events);
    same_twins("the list", list);
    same_twins("the output", out);
    same_twins("the answer", answer);
    drop_twins(events);
    drop_twins(out);
    drop_twins(answer);
}

/* Gives a feed some expected serial, the same in both copies. */
static void set_expected(twin expected)
{
    make_expected(expected.ours);
    memcpy(expected.theirs, expected.ours, JAXHOPHASI_EXPECTED_SIZE);
}

/* Calls in a row over one list of clients, events, days and records of a feed mixed. */
static void compare_list(twin record, twin table, size_t places)
{
    size_t count = make_count();
    twin list = twins(count * JAXHOPHASI_CONFIGURATION_SIZE, 0), expected = twins(JAXHOPHASI_EXPECTED_SIZE, 0);
    for (size_t i = 0; i < count; i++)
        set_client(record, list, i);
    set_expected(expected);
    for (unsigned i = below(60); i > 0; i--) {
        if (below(2))
            compare_feed(record, table, places, list, count, expected);
        else if (below(4))
            compare_receive_for(record, table, places, list, count);
        else
            compare_run_for(record, table, places, list, count, below(8) ? below(60) : below(2000));
        if (count && below(16) == 0)
            set_client(record, list, below((uint32_t)count));
        if (below(8) == 0)
            set_expected(expected);
    }
    call_now = "the calls over a list";
    same_twins("the record", record);
    same_twins("the table", table);
    drop_twins(list);
    drop_twins(expected);
}

/* What was met of two sheets to be merged; and the lines that say it, each up to its last one. */
enum {
    BAD_FIRST, BAD_SECOND, BAD_BOTH, BAD_BEFORE_OTHERS,
    OTHER_NUMBER, OTHER_NUMBER_ALONE, OTHER_CLASS, OTHER_LAST_CLASS, OTHER_BEFORE_MANY,
    PAIRS_33, PAIRS_OVER_33, PAIRS_OVER_255,
    PAIRS_UNDER_32, PAIRS_1_32, PAIRS_32_1, PAIRS_32, TWICE_THE_SAME,
    FIRST_SMALLER, SECOND_SMALLER, SAME_HOLD,
    ENDS_IN_NEITHER, ENDS_IN_SECOND, ENDS_IN_FIRST, ENDS_IN_BOTH,
    RESTS_NOT_IN_BOTH, RESTS_IN_BOTH, RESTS_IN_ALL,
    MET_OF_TWO
};
static const struct {
    const char *names;
    unsigned last;
} lines_of_two[] = {
    { "11 of the first, the second, both, and before 24 or 25", BAD_BEFORE_OTHERS },
    { "24 by the number of kinds, with the same classes, by a class, by the last one, and before 25", OTHER_BEFORE_MANY },
    { "25 with 33 pairs, with more, and with more than 255", PAIRS_OVER_255 },
    { "merged, under 32 pairs, 1 and 32 states, 32 and 1, other 32 pairs, and one sheet twice", TWICE_THE_SAME },
    { "merged, the first's hold smaller, the second's, and neither's", SAME_HOLD },
    { "a list that ends acceptably in neither, in the second, in the first, and in both", ENDS_IN_BOTH },
    { "a held list where not both may rest, where both may and the product may not, and where all may", RESTS_IN_ALL },
};
static unsigned long met_of_two[MET_OF_TWO];

/* Counts two sheets that were given a row. */
static void meet_two(const uint8_t *r, const uint8_t *s, uint8_t row)
{
    uint8_t count[8];
    unsigned pairs = (unsigned)r[0] * s[0], m = least(r[1], 16), same_to = 0;
    int bad_first = ref_buffers_count(r, count) != 0, bad_second = ref_buffers_count(s, count) != 0;
    while (same_to < m && r[4 + same_to] == s[4 + same_to])
        same_to++;
    int differ = r[1] != s[1] || same_to < m;
    if (row == 11) {
        met_of_two[bad_first && bad_second ? BAD_BOTH : bad_first ? BAD_FIRST : BAD_SECOND]++;
        met_of_two[BAD_BEFORE_OTHERS] += differ || pairs > 32;
    } else if (row == 24) {
        met_of_two[r[1] != s[1] ? OTHER_NUMBER : OTHER_CLASS]++;
        met_of_two[OTHER_NUMBER_ALONE] += memcmp(r + 4, s + 4, 16) == 0;
        met_of_two[OTHER_LAST_CLASS] += r[1] == s[1] && same_to == m - 1;
        met_of_two[OTHER_BEFORE_MANY] += pairs > 32;
    } else if (row == 25) {
        met_of_two[pairs == 33 ? PAIRS_33 : PAIRS_OVER_33]++;
        met_of_two[PAIRS_OVER_255] += pairs > 255;
    } else {
        met_of_two[pairs < 32 ? PAIRS_UNDER_32 : r[0] == 1 ? PAIRS_1_32 : s[0] == 1 ? PAIRS_32_1 : PAIRS_32]++;
        met_of_two[TWICE_THE_SAME] += memcmp(r, s, JAXHOPHASI_AUTOMATON_SIZE) == 0;
        met_of_two[r[2] < s[2] ? FIRST_SMALLER : s[2] < r[2] ? SECOND_SMALLER : SAME_HOLD]++;
    }
}

/* Prints the counts; from 20,000 rounds on there must be some of each. */
static int met_all_of_two(unsigned long count)
{
    int all = 1;
    unsigned what = 0;
    for (unsigned line = 0; line < sizeof lines_of_two / sizeof *lines_of_two; line++) {
        printf("two sheets, %s:", lines_of_two[line].names);
        for (; what <= lines_of_two[line].last; what++) {
            printf(" %lu", met_of_two[what]);
            all &= met_of_two[what] > 0;
        }
        puts("");
    }
    if (!all && count >= 20000)
        puts("NOT MET: some of these");
    return all || count < 20000;
}

static void same_number(const char *what, unsigned ours, unsigned theirs)
{
    uint8_t one = (uint8_t)ours, other = (uint8_t)theirs;
    same(what, &one, &other, 1);
}

/* Where a list of kinds leads in a sheet from its start. */
static unsigned led_to(const uint8_t *r, const uint8_t *list, size_t length)
{
    unsigned q = r[3];
    for (size_t i = 0; i < length; i++)
        q = r[52 + q * 16 + list[i]];
    return q;
}

/* A list leads in the product to the pair of where it leads in both, and ends acceptably there
 * where it does in both. */
static void compare_ends(const uint8_t *r, const uint8_t *s, const uint8_t *product)
{
    uint8_t list[40];
    size_t length = below(sizeof list + 1);
    for (size_t i = 0; i < length; i++)
        list[i] = (uint8_t)below(r[1]);
    unsigned p = led_to(r, list, length), q = led_to(s, list, length), pair = led_to(product, list, length);
    same_number("where a list leads", pair, p * s[0] + q);
    same_number("whether a list ends acceptably", product[20 + pair], r[20 + p] && s[20 + q]);
    met_of_two[ENDS_IN_NEITHER + 2 * r[20 + p] + s[20 + q]]++;
}

/* The lowest bits: where the product's is set, both parts' are. */
static void compare_rest(const char *what, unsigned by_first, unsigned by_second, unsigned by_product, int counted)
{
    unsigned both = by_first & by_second & 1, all = by_product & 1;
    same_number(what, all, all & both);
    if (counted)
        met_of_two[all ? RESTS_IN_ALL : both ? RESTS_IN_BOTH : RESTS_NOT_IN_BOTH]++;
}

/* Where the product may rest with a held list, each part may, and where it must release, each
 * must: by solved tables, that of the product the same in C. (S and I of a list do not depend on
 * the hold, so the parts are solved with the smaller one.) */
static void compare_rests(const uint8_t *r, const uint8_t *s, twin product)
{
    uint8_t count[8], first[JAXHOPHASI_AUTOMATON_SIZE], second[JAXHOPHASI_AUTOMATON_SIZE];
    ref_buffers_count(product.ours, count);
    size_t places = 2 * jaxhophasi_number_at(count);
    if (places > 400)
        return;
    twin table = twins(4 * places, 0);
    uint32_t *by_product = (uint32_t *)table.ours, *by_first = room(4 * places), *by_second = room(4 * places);
    compare_solve(product, table, places);
    memcpy(first, r, sizeof first);
    memcpy(second, s, sizeof second);
    first[2] = second[2] = product.ours[2];
    call_now = "solve of two sheets and their product";
    same_row(jaxhophasi_solve(first, by_first, places, count), 0);
    same_row(jaxhophasi_solve(second, by_second, places, count), 0);
    for (size_t i = 0; i < places; i++)
        for (unsigned p = 0; p < r[0]; p++)
            for (unsigned q = 0; q < s[0]; q++)
                compare_rest(i % 2 ? "where all must release" : "where all may rest", by_first[i] >> p, by_second[i] >> q,
                    by_product[i] >> (p * s[0] + q), i % 2 == 0);
    drop_twins(table);
    free(by_first);
    free(by_second);
}

/* Two sheets, and what is true of their product. The same sheet is also lent twice. */
static void compare_product(void)
{
    uint8_t r[JAXHOPHASI_AUTOMATON_SIZE], s[JAXHOPHASI_AUTOMATON_SIZE];
    make_two(r, s);
    twin first = twins(sizeof r, 0), second = twins(sizeof s, 0), product = twins(JAXHOPHASI_AUTOMATON_SIZE, 0);
    set_twins(first, r, sizeof r);
    set_twins(second, s, sizeof s);
    call_now = "product";
    uint8_t row = ref_product(first.theirs, second.theirs, product.theirs);
    uint8_t *lent = memcmp(r, s, sizeof r) == 0 && below(2) ? first.ours : second.ours;
    same_row(jaxhophasi_product(first.ours, lent, product.ours), row);
    same_twins("the first record", first);
    same_twins("the second record", second);
    same_twins("the product", product);
    meet_two(r, s, row);
    if (row == 0) {
        compare_ends(r, s, product.ours);
        if (below(4) == 0)
            compare_rests(r, s, product);
    }
    drop_twins(first);
    drop_twins(second);
    drop_twins(product);
}

/* Leaves fewer bits in a table, sometimes, so that fewer front parts of a hold may go. */
static void thin_out(twin table, size_t places)
{
    unsigned times = below(4);
    for (size_t i = 0; i < places; i++)
        for (unsigned j = 0; j < times; j++)
            ((uint32_t *)table.ours)[i] &= any();
    memcpy(table.theirs, table.ours, table.size);
}

static void compare_round(uint32_t most)
{
    uint8_t r[JAXHOPHASI_AUTOMATON_SIZE], bytes[3 * JAXHOPHASI_MAX_SHEET + 8] = { 0 }, count[8];
    make_any_record(r, most);
    size_t used = make_bytes(r, bytes, (int)below(2));
    compare_read(bytes, used);
    for (unsigned i = below(4); i > 0; i--)
        used = damage_bytes(bytes, used);
    compare_read(bytes, used);
    ref_flat_check = (int)below(2);
    twin record = twins(JAXHOPHASI_AUTOMATON_SIZE, 0), state = twins(JAXHOPHASI_CONFIGURATION_SIZE, 0);
    if (below(4) == 0) {
        damage_record(r);
        compare_read(bytes, make_bytes(r, bytes, (int)below(2)));
    }
    set_twins(record, r, JAXHOPHASI_AUTOMATON_SIZE);
    size_t shortest = 4u + r[0] + r[1] + r[0] * r[1];
    compare_write(record, below(2) ? shortest : below(2) ? shortest + below(9) : below((uint32_t)shortest + 1));
    compare_count_and_initial(record);
    size_t needed = ref_buffers_count(r, count) ? below(20) : 2 * jaxhophasi_number_at(count);
    size_t places = below(4) ? needed : below(2) ? needed + below(9) : below((uint32_t)needed + 1);
    twin table = twins(4 * places, below(4) == 0);
    thin_out(table, places);
    solved_now = below(4) > 0;
    if (solved_now)
        compare_solve(record, table, places);
    make_configuration(r, state.ours, below(4) == 0);
    memcpy(state.theirs, state.ours, JAXHOPHASI_CONFIGURATION_SIZE);
    if (below(2) && ref_initial(r, state.theirs) == 0)
        memcpy(state.ours, state.theirs, JAXHOPHASI_CONFIGURATION_SIZE);
    memcpy(state.theirs, state.ours, JAXHOPHASI_CONFIGURATION_SIZE);
    compare_calls(record, table, places, state);
    compare_list(record, table, places);
    drop_twins(record);
    drop_twins(state);
    drop_twins(table);
    for (unsigned i = 0; i < 4; i++)
        compare_product();
}

static int compare(unsigned long count)
{
    for (round_now = 0; round_now < count; round_now++) {
        seed = round_now * 2 + 1;
        compare_round(round_now % 997 == 996 ? 299593 : round_now % 97 == 96 ? 20000 : 400);
    }
    printf("the same: %lu rounds, %lu comparisons\n", count, calls);
    int all = met_all(count), all_of_two = met_all_of_two(count);
    return all && all_of_two ? 0 : 1;
}

/* ---- measuring ---- */

static double now(void)
{
    struct timespec t;
    clock_gettime(CLOCK_PROCESS_CPUTIME_ID, &t);
    return t.tv_sec * 1e9 + t.tv_nsec;
}

static uint8_t record[JAXHOPHASI_AUTOMATON_SIZE];
static uint32_t *table, *table_by_c, *events;
static size_t places;
static uint8_t *output, *output_by_c;

typedef void (*work)(void);

/* The best times of several pieces of work that do the same, run in turn. */
static void best_of(int times, int many, const work *pieces, double *best)
{
    for (int i = 0; i < many; i++)
        best[i] = 1e18;
    for (int t = 0; t < times; t++)
        for (int i = 0; i < many; i++) {
            double from = now();
            pieces[i]();
            double took = now() - from;
            if (took < best[i])
                best[i] = took;
        }
}

static void equal(const char *what, const void *a, const void *b, size_t size)
{
    if (memcmp(a, b, size)) {
        printf("DIFFERENT: %s\n", what);
        exit(1);
    }
}

static uint8_t rounds[8], rounds_by_c[8];

/* A small table is solved many times in a row, so that one measurement is long beside the clock's
 * own time. */
static unsigned repeats;

static void solve_ours(void)
{
    for (unsigned i = 0; i < repeats; i++)
        jaxhophasi_solve(record, table, places, rounds);
}

static void solve_by_c(void)
{
    ref_remember = 0;
    for (unsigned i = 0; i < repeats; i++)
        ref_solve(record, table_by_c, places, rounds_by_c);
}

static void solve_by_c_remembering(void)
{
    ref_remember = 1;
    for (unsigned i = 0; i < repeats; i++)
        ref_solve(record, table_by_c, places, rounds_by_c);
}

static uint8_t state[JAXHOPHASI_CONFIGURATION_SIZE], state_by_c[JAXHOPHASI_CONFIGURATION_SIZE];
static uint8_t answer[JAXHOPHASI_FED_SIZE], answer_by_c[JAXHOPHASI_FED_SIZE];
static uint64_t emitted, emitted_by_c;

typedef uint8_t (*receive_call)(const uint8_t *, const uint32_t *, size_t, uint8_t *, uint32_t, uint8_t *);

/* So many of the events are also received one by one. */
enum { SINGLE = 200000 };

/* What calls one by one came to, summed: the refusal, how many symbols were put out, and the place
 * of the first. */
static uint64_t came_to(uint8_t row, const uint8_t *to)
{
    return row + ((uint64_t)to[JAXHOPHASI_RECEIVED_COUNT] << 32) + jaxhophasi_place_at(to + JAXHOPHASI_RECEIVED_PLACES);
}

/* Events one by one from a state on. */
static uint64_t one_after_another(receive_call receive, uint8_t *from, uint8_t *to)
{
    uint64_t sum = 0;
    for (size_t i = 0; i < SINGLE; i++)
        sum += came_to(receive(record, table, places, from, events[i], to), to);
    return sum;
}

static void events_ours(void)
{
    jaxhophasi_initial(record, state);
    emitted = one_after_another(jaxhophasi_receive, state, answer);
}

static void events_by_c(void)
{
    ref_initial(record, state_by_c);
    emitted_by_c = one_after_another(ref_receive, state_by_c, answer_by_c);
}

/* Calls one by one by C, whose check of row 11 leaves at the first fault or goes over whole
 * arrays. */
static work singles_by_c;

static void singles_by_c_early(void)
{
    ref_flat_check = 0;
    singles_by_c();
}

static void singles_by_c_flat(void)
{
    ref_flat_check = 1;
    singles_by_c();
}

static void best_of_singles(work ours, work by_c, double *best)
{
    const work pieces[] = { ours, singles_by_c_early, singles_by_c_flat };
    singles_by_c = by_c;
    best_of(9, 3, pieces, best);
    equal("what the calls one by one came to", &emitted, &emitted_by_c, 8);
}

static void run_ours(void)
{
    jaxhophasi_initial(record, state);
    jaxhophasi_run(record, table, places, state, events, EVENTS, output, EVENTS, answer);
}

static void run_by_c(void)
{
    ref_initial(record, state_by_c);
    ref_run(record, table, places, state_by_c, events, EVENTS, output_by_c, EVENTS, answer_by_c);
}

static void measure(const char *name)
{
    static const work solving[] = { solve_ours, solve_by_c, solve_by_c_remembering };
    static const work runs[] = { run_ours, run_by_c };
    double s[3], e[3], d[2];
    uint8_t count[8];
    ref_flat_check = 0;
    if (ref_buffers_count(record, count)) {
        puts("a bad record");
        exit(1);
    }
    places = 2 * jaxhophasi_number_at(count);
    repeats = 1 + (unsigned)(10000 / places);
    best_of(places > 100000 ? 15 : 200, 3, solving, s);
    equal("table", table, table_by_c, 4 * places);
    equal("rounds", rounds, rounds_by_c, 8);
    best_of_singles(events_ours, events_by_c, e);
    equal("state", state, state_by_c, sizeof state);
    best_of(30, 2, runs, d);
    equal("state", state, state_by_c, sizeof state);
    equal("answer", answer, answer_by_c, 16);
    equal("output", output, output_by_c, EVENTS);
    printf("%-12s | %6lu  %9.2f  %4.2f  %4.2f | %5.1f  %4.2f  %4.2f | %5.2f  %4.2f | %7lu %7lu\n", name, (unsigned long)places,
        s[0] / repeats / 1e3, s[0] / s[1], s[0] / s[2], e[0] / SINGLE, e[0] / e[1], e[0] / e[2], d[0] / EVENTS, d[0] / d[1],
        (unsigned long)jaxhophasi_number_at(answer), (unsigned long)jaxhophasi_number_at(answer + 8));
    fflush(stdout);
}

/* Any event, one in m + 1 of them refused by row 14. */
static void any_events(void)
{
    for (size_t i = 0; i < EVENTS; i++)
        events[i] = below(record[1] + 1u);
}

/* W's events with a Receipt behind each Page, so that requests flow: Sign, Withdraw, or Page and
 * Receipt. */
static void paired_events(void)
{
    for (size_t i = 0; i < EVENTS; i++) {
        events[i] = below(3);
        if (events[i] == 2 && i + 1 < EVENTS)
            events[++i] = 3;
    }
}

static void measure_any(const char *name)
{
    any_events();
    measure(name);
}

/* Random sheets with 32 states and 16 kinds, k of them controllable, and a hold of b. */
static void measure_random(void (*measure_sheet)(const char *), unsigned k, unsigned b, const unsigned *seeds,
                           unsigned many)
{
    char name[32];
    for (unsigned i = 0; i < many; i++) {
        seed = 1000 + seeds[i];
        make_record(record, 32, 16, b, k, 1);
        snprintf(name, sizeof name, "k %u B %u, %u", k, b, seeds[i]);
        measure_sheet(name);
    }
}

/* ---- measuring days over lists of clients ---- */

_Alignas(4) static uint8_t clients[JAXHOPHASI_MAX_CLIENTS][JAXHOPHASI_CONFIGURATION_SIZE];
_Alignas(4) static uint8_t clients_by_c[JAXHOPHASI_MAX_CLIENTS][JAXHOPHASI_CONFIGURATION_SIZE];
static uint8_t fresh[JAXHOPHASI_MAX_CLIENTS][JAXHOPHASI_CONFIGURATION_SIZE];
static uint32_t clients_now;

static void run_for_ours(void)
{
    memcpy(clients, fresh, sizeof fresh);
    jaxhophasi_run_for(record, table, places, clients, clients_now, events, EVENTS, output, EVENTS, answer);
}

static void run_for_by_c(void)
{
    memcpy(clients_by_c, fresh, sizeof fresh);
    ref_run_for(record, table, places, clients_by_c, clients_now, events, EVENTS, output_by_c, EVENTS, answer_by_c);
}

/* Any event of any client. */
static void any_client_events(void)
{
    for (size_t i = 0; i < EVENTS; i++)
        events[i] = JAXHOPHASI_CLIENT_EVENT(below(clients_now), below(record[1] + 1u));
}

/* W's events of any client; a client's next event after its Page is the Receipt. */
static void paired_client_events(void)
{
    static uint8_t paging[JAXHOPHASI_MAX_CLIENTS];
    memset(paging, 0, sizeof paging);
    for (size_t i = 0; i < EVENTS; i++) {
        uint32_t client = below(clients_now), kind = paging[client] ? 3 : below(3);
        paging[client] = kind == 2;
        events[i] = JAXHOPHASI_CLIENT_EVENT(client, kind);
    }
}

/* Solves the sheet, and makes fresh clients. */
static void fresh_clients(void)
{
    uint8_t number[8];
    ref_buffers_count(record, number);
    places = 2 * jaxhophasi_number_at(number);
    jaxhophasi_solve(record, table, places, number);
    for (unsigned i = 0; i < JAXHOPHASI_MAX_CLIENTS; i++)
        jaxhophasi_initial(record, fresh[i]);
}

/* A day over 1, 10, 100 and 500 clients, and what became of the last one's events. */
static void measure_clients(const char *name, work make_events)
{
    static const uint16_t counts[] = { 1, 10, 100, 500 };
    static const work runs[] = { run_for_ours, run_for_by_c };
    double d[2];
    ref_flat_check = 0;
    fresh_clients();
    printf("%-12s |", name);
    for (unsigned i = 0; i < sizeof counts / sizeof *counts; i++) {
        clients_now = counts[i];
        make_events();
        best_of(15, 2, runs, d);
        equal("list", clients, clients_by_c, sizeof clients);
        equal("answer", answer, answer_by_c, 16);
        equal("output", output, output_by_c, EVENTS);
        printf(" %5.2f  %4.2f |", d[0] / EVENTS, d[0] / d[1]);
        fflush(stdout);
    }
    printf(" %7lu %7lu\n", (unsigned long)jaxhophasi_number_at(answer), (unsigned long)jaxhophasi_number_at(answer + 8));
    fflush(stdout);
}

static void measure_any_clients(const char *name)
{
    measure_clients(name, any_client_events);
}

/* ---- measuring single events for clients, and records of a feed ---- */

typedef uint8_t (*receive_for_call)(
    const uint8_t *, const uint32_t *, size_t, list_of_clients, size_t, uint32_t, uint32_t, uint8_t *);
typedef uint8_t (*feed_call)(
    const uint8_t *, const uint32_t *, size_t, list_of_clients, size_t, const uint8_t *, size_t, uint8_t *, uint8_t *);

/* The events one by one, each for its client. */
static uint64_t one_after_another_for(receive_for_call receive_for, list_of_clients list, uint8_t *to)
{
    uint64_t sum = 0;
    memcpy(list, fresh, sizeof fresh);
    for (size_t i = 0; i < SINGLE; i++)
        sum += came_to(
            receive_for(record, table, places, list, clients_now, events[i] / 65536, events[i] % 65536, to), to);
    return sum;
}

static void events_for_ours(void)
{
    emitted = one_after_another_for(jaxhophasi_receive_for, clients, answer);
}

static void events_for_by_c(void)
{
    emitted_by_c = one_after_another_for(ref_receive_for, clients_by_c, answer_by_c);
}

/* The same events as records of a feed: their bytes, where each begins and the last ends, the
 * expected serial, and how many records were lost. */
static uint8_t *feed, expected[JAXHOPHASI_EXPECTED_SIZE], expected_by_c[JAXHOPHASI_EXPECTED_SIZE];
static size_t *feed_at;
static uint64_t lost, lost_by_c;

/* One record in eight comes after a loss. */
static void make_feed(void)
{
    size_t used = 0;
    uint32_t serial = 0;
    for (size_t i = 0; i < SINGLE; i++) {
        feed_at[i] = used;
        used += put_number(feed + used, serial, 0);
        used += put_number(feed + used, events[i] / 65536, 0);
        used += put_number(feed + used, events[i] % 65536, 0);
        serial = (serial + (below(8) ? 1 : 2 + below(100))) % 65536;
    }
    feed_at[SINGLE] = used;
}

static uint64_t record_after_record(feed_call call, list_of_clients list, uint8_t *next, uint8_t *to, uint64_t *loss)
{
    uint64_t sum = 0;
    memcpy(list, fresh, sizeof fresh);
    memset(next, 0, JAXHOPHASI_EXPECTED_SIZE);
    *loss = 0;
    for (size_t i = 0; i < SINGLE; i++) {
        const uint8_t *bytes = feed + feed_at[i];
        sum += came_to(call(record, table, places, list, clients_now, bytes, feed_at[i + 1] - feed_at[i], next, to), to);
        *loss += jaxhophasi_number_at(to + JAXHOPHASI_FED_LOSS);
    }
    return sum;
}

static void feed_ours(void)
{
    emitted = record_after_record(jaxhophasi_feed, clients, expected, answer, &lost);
}

static void feed_by_c(void)
{
    emitted_by_c = record_after_record(ref_feed, clients_by_c, expected_by_c, answer_by_c, &lost_by_c);
}

/* One event for one of 100 clients, and one record of a feed over them. */
static void measure_singles(const char *name)
{
    double e[3], f[3];
    clients_now = 100;
    fresh_clients();
    any_client_events();
    make_feed();
    best_of_singles(events_for_ours, events_for_by_c, e);
    equal("list", clients, clients_by_c, sizeof clients);
    uint64_t events_came_to = emitted;
    best_of_singles(feed_ours, feed_by_c, f);
    equal("list", clients, clients_by_c, sizeof clients);
    equal("what events and records came to", &emitted, &events_came_to, 8);
    equal("expected serial", expected, expected_by_c, sizeof expected);
    equal("loss", &lost, &lost_by_c, 8);
    printf("%-12s | %5.1f  %4.2f  %4.2f | %5.1f  %4.2f  %4.2f |   %4.2f | %7lu\n", name, e[0] / SINGLE, e[0] / e[1], e[0] / e[2],
        f[0] / SINGLE, f[0] / f[1], f[0] / f[2], f[0] / e[0], (unsigned long)lost);
    fflush(stdout);
}

/* ---- measuring products ---- */

static uint8_t other_record[JAXHOPHASI_AUTOMATON_SIZE];
static uint8_t product[JAXHOPHASI_AUTOMATON_SIZE], product_by_c[JAXHOPHASI_AUTOMATON_SIZE];

enum { PRODUCTS = 2000 };

static void products_ours(void)
{
    emitted = 0;
    for (unsigned i = 0; i < PRODUCTS; i++)
        emitted += jaxhophasi_product(record, other_record, product) + (uint64_t)product[0];
}

static void products_by_c(void)
{
    emitted_by_c = 0;
    for (unsigned i = 0; i < PRODUCTS; i++)
        emitted_by_c += ref_product(record, other_record, product_by_c) + (uint64_t)product_by_c[0];
}

static void measure_product(const char *name)
{
    double p[3];
    best_of_singles(products_ours, products_by_c, p);
    equal("product", product, product_by_c, sizeof product);
    printf("%-12s | %3u  %7.1f  %4.2f  %4.2f\n", name, product[0], p[0] / PRODUCTS, p[0] / p[1], p[0] / p[2]);
    fflush(stdout);
}

/* Two random sheets with 16 kinds. */
static void measure_random_product(unsigned n, unsigned other_n)
{
    char name[32];
    seed = 1;
    make_record(record, n, 16, 6, 8, 1);
    make_alike(other_record, record, other_n, 6, 1);
    snprintf(name, sizeof name, "%u x %u, m 16", n, other_n);
    measure_product(name);
}

/* Sheet W of document 01, and the seeds of the random sheets. */
static const uint8_t w[] = { 4, 4, 2, 0, 0, 0, 1, 1, 1, 1, 0, 0, 1, 0, 3, 0, 1, 0, 2, 1, 2, 3, 3, 1, 3, 3, 3, 3 };
static const unsigned seeds[] = { 4, 18, 54, 8, 39 };

static void time_clients(void)
{
    uint8_t place[8];
    puts("\nday's event  |   1 client  |  10 clients | 100 clients | 500 clients | of 500 clients' events\n"
         "             |    ns    /C |    ns    /C |    ns    /C |    ns    /C | put out refused");
    seed = 1;
    jaxhophasi_read(w, sizeof w, record, place);
    measure_any_clients("W");
    measure_clients("W, paired", paired_client_events);
    measure_random(measure_any_clients, 0, 6, seeds, 1);
    measure_random(measure_any_clients, 1, 5, seeds, 1);
    measure_random(measure_any_clients, 8, 2, seeds, 2);
    measure_random(measure_any_clients, 8, 6, seeds, 3);
}

static void time_singles(void)
{
    uint8_t place[8];
    feed = room(SINGLE * FEED_BYTES);
    feed_at = room(sizeof *feed_at * (SINGLE + 1));
    puts("\n100 clients  |     one event     | one feed's record | record | records\n"
         "             |    ns    /C  /C-v |    ns    /C  /C-v | /event |    lost");
    seed = 1;
    jaxhophasi_read(w, sizeof w, record, place);
    measure_singles("W");
    measure_random(measure_singles, 0, 6, seeds, 1);
    measure_random(measure_singles, 8, 2, seeds, 2);
    measure_random(measure_singles, 8, 6, seeds, 2);
}

static void time_products(void)
{
    /* sheet V of document 01, and that of samples/silent.txt */
    static const uint8_t v[] = { 3, 2, 1, 0, 0, 1, 1, 0, 1, 1, 0, 1, 2, 2, 2 };
    static const uint8_t silent[] = { 2, 2, 1, 0, 0, 1, 1, 0, 0, 1, 1, 1 };
    uint8_t place[8];
    puts("\nproduct      | pairs    ns    /C  /C-v");
    jaxhophasi_read(v, sizeof v, record, place);
    jaxhophasi_read(silent, sizeof silent, other_record, place);
    measure_product("V, silent");
    measure_random_product(4, 8);
    measure_random_product(1, 32);
}

static int time_all(void)
{
    uint8_t place[8];
    table = room(4 * JAXHOPHASI_MAX_TABLE);
    table_by_c = room(4 * JAXHOPHASI_MAX_TABLE);
    events = room(4 * EVENTS);
    output = room(EVENTS);
    output_by_c = room(EVENTS);
    memset(output, 0, EVENTS);
    memset(output_by_c, 0, EVENTS);
    puts("             |            solving            |     one event     | day's event |  of the day's events\n"
         "             | places         us    /C  /C-r |    ns    /C  /C-v |    ns    /C | put out refused");
    seed = 1;
    jaxhophasi_read(w, sizeof w, record, place);
    measure_any("W");
    paired_events();
    measure("W, paired");
    measure_random(measure_any, 0, 6, seeds, 3);
    measure_random(measure_any, 1, 5, seeds, 3);
    for (unsigned b = 1; b < 5; b++)
        measure_random(measure_any, 8, b, seeds, 3);
    measure_random(measure_any, 8, 6, seeds, 5);
    time_clients();
    time_singles();
    time_products();
    return 0;
}

int main(int count, char **words)
{
    if (count == 3 && !strcmp(words[1], "compare"))
        return compare(strtoul(words[2], 0, 10));
    if (count == 2 && !strcmp(words[1], "time"))
        return time_all();
    fputs("usage: driver compare COUNT | driver time\n", stderr);
    return 2;
}
