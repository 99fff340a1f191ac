/* The rules of document 01, and of document 02's lists of growers, its feed, its places in the
 * input, its full hold and its two sheets merged, in plain C, to compare with and to measure
 * against. */
#include <string.h>

#include "reference.h"

int ref_flat_check = 0;
int ref_remember = 0;

/* What an event with room needs is compiled in line, what one at a full hold needs is not, as in
 * the archive. */
#define INLINE inline __attribute__((always_inline))
#define NO_INLINE __attribute__((noinline))

enum { STATES = 32, SYMBOLS = 16, CAPACITY = 6, CONTROLLABLE = 8, CLIENTS = 500, SERIALS = 65536 };

/* A record that row 11 lets pass (a sheet), and what follows from it; the lent table. */
struct automaton {
    unsigned n, m, b, initial;
    const uint8_t *classes, *accepting, *next;
    const uint32_t *table;
    unsigned k;                  /* controllable kinds */
    uint8_t symbol[CONTROLLABLE];  /* .. in rising order */
    uint8_t rank[SYMBOLS];         /* .. and the place of each among them */
    uint32_t first[CAPACITY + 1];    /* number of the first list of each length */
    uint32_t buffers;              /* T */
};

/* The carried state as it lies: the held kinds, their places in the input, how many events were
 * accepted and how many kinds put out. (x86-64 has the low byte of a number first. The records of
 * a list are used where they lie, though they are lent as bytes.) */
struct __attribute__((may_alias)) configuration {
    uint8_t state, held, buffer[CAPACITY];
    uint32_t places[CAPACITY], received, emitted;
};
_Static_assert(sizeof(struct configuration) == 40, "no gaps");

static void put(uint8_t *bytes, uint64_t value)
{
    for (int i = 0; i < 8; i++)
        bytes[i] = (uint8_t)(value >> 8 * i);
}

/* A day's answer: how many bytes it wrote, and how many events were refused. */
static void put_ran(uint8_t *answer, size_t used, size_t refused)
{
    put(answer, used);
    put(answer + 8, refused);
}

/* Row 11, left at the first fault. */
static int stands(const uint8_t *record)
{
    unsigned n = record[0], m = record[1], ones = 0;
    if (n < 1 || n > STATES || m < 1 || m > SYMBOLS || record[2] < 1 || record[2] > CAPACITY || record[3] >= n)
        return 0;
    for (unsigned e = 0; e < SYMBOLS; e++) {
        if (record[4 + e] > (e < m))
            return 0;
        ones += record[4 + e];
    }
    if (ones > CONTROLLABLE)
        return 0;
    for (unsigned q = 0; q < STATES; q++)
        if (record[20 + q] > (q < n))
            return 0;
    for (unsigned q = 0; q < STATES; q++)
        for (unsigned e = 0; e < SYMBOLS; e++)
            if (record[52 + q * SYMBOLS + e] >= (q < n && e < m ? n : 1))
                return 0;
    return 1;
}

/* Row 11 again, over whole arrays. */
static int stands_flat(const uint8_t *record)
{
    unsigned n = record[0], m = record[1], ones = 0, bad = 0;
    uint8_t limit[SYMBOLS];
    if (n < 1 || n > STATES || m < 1 || m > SYMBOLS || record[2] < 1 || record[2] > CAPACITY || record[3] >= n)
        return 0;
    for (unsigned e = 0; e < SYMBOLS; e++) {
        bad |= record[4 + e] > (e < m);
        ones += record[4 + e];
        limit[e] = e < m ? (uint8_t)n : 1;
    }
    for (unsigned q = 0; q < STATES; q++)
        bad |= record[20 + q] > (q < n);
    for (unsigned q = 0; q < n; q++)
        for (unsigned e = 0; e < SYMBOLS; e++)
            bad |= record[52 + q * SYMBOLS + e] >= limit[e];
    for (unsigned i = n * SYMBOLS; i < STATES * SYMBOLS; i++)
        bad |= record[52 + i] != 0;
    return !bad && ones <= CONTROLLABLE;
}

/* Whether row 11 lets a record pass. */
static int valid(const uint8_t *record)
{
    return ref_flat_check ? stands_flat(record) : stands(record);
}

/* Row 11: the sheet of a record, or 0. */
static int automaton_of(const uint8_t *record, struct automaton *s)
{
    if (!valid(record))
        return 0;
    s->n = record[0];
    s->m = record[1];
    s->b = record[2];
    s->initial = record[3];
    s->classes = record + 4;
    s->accepting = record + 20;
    s->next = record + 52;
    s->k = 0;
    for (unsigned e = 0; e < s->m; e++)
        if (s->classes[e]) {
            s->rank[e] = (uint8_t)s->k;
            s->symbol[s->k++] = (uint8_t)e;
        }
    uint32_t count = 1, sum = 0;
    for (unsigned length = 0; length <= s->b; length++) {
        s->first[length] = sum;
        sum += count;
        count *= s->k;
    }
    s->buffers = sum;
    return 1;
}

/* A number of one to three bytes of seven bits, low group first: row 1 or 2, or 0 with the place
 * after it. */
static uint8_t number(const uint8_t *bytes, size_t length, size_t *at, uint32_t *value)
{
    *value = 0;
    for (unsigned i = 0; i < 3; i++) {
        if (*at + i >= length)
            return 1;
        uint8_t byte = bytes[*at + i];
        *value |= (uint32_t)(byte & 127) << 7 * i;
        if (byte < 128) {
            *at += i + 1;
            return 0;
        }
    }
    return 2;
}

/* The next number, which lies from low to high; a fault is its row at the place where it began. */
static uint8_t within(const uint8_t *bytes, size_t length, size_t *at, uint32_t low, uint32_t high, uint8_t row, uint8_t *out)
{
    size_t after = *at;
    uint32_t value;
    uint8_t fault = number(bytes, length, &after, &value);
    if (fault)
        return fault;
    if (value < low || value > high)
        return row;
    *out = (uint8_t)value;
    *at = after;
    return 0;
}

static uint8_t read_numbers(const uint8_t *bytes, size_t length, uint8_t *r, size_t *at)
{
    uint8_t fault;
    if ((fault = within(bytes, length, at, 1, STATES, 3, r)) || (fault = within(bytes, length, at, 1, SYMBOLS, 4, r + 1)) ||
        (fault = within(bytes, length, at, 1, CAPACITY, 5, r + 2)) || (fault = within(bytes, length, at, 0, r[0] - 1u, 6, r + 3)))
        return fault;
    unsigned ones = 0;
    for (unsigned e = 0; e < r[1]; e++) {
        size_t before = *at;
        if ((fault = within(bytes, length, at, 0, 1, 7, r + 4 + e)))
            return fault;
        ones += r[4 + e];
        if (ones > CONTROLLABLE) {
            *at = before;
            return 8;
        }
    }
    for (unsigned q = 0; q < r[0]; q++)
        if ((fault = within(bytes, length, at, 0, 1, 7, r + 20 + q)))
            return fault;
    for (unsigned q = 0; q < r[0]; q++)
        for (unsigned e = 0; e < r[1]; e++)
            if ((fault = within(bytes, length, at, 0, r[0] - 1u, 9, r + 52 + q * SYMBOLS + e)))
                return fault;
    return *at < length ? 10 : 0;
}

uint8_t ref_read(const uint8_t *bytes, size_t bytes_length, uint8_t *automaton, uint8_t *place)
{
    size_t at = 0;
    memset(automaton, 0, 564);
    uint8_t row = read_numbers(bytes, bytes_length, automaton, &at);
    if (row)
        memset(automaton, 0, 564);
    put(place, row ? at : 0);
    return row;
}

/* A number in the fewest bytes. */
static size_t written(uint8_t *out, uint32_t value)
{
    size_t i = 0;
    for (; value > 127; value >>= 7)
        out[i++] = (uint8_t)(value & 127) | 128;
    out[i++] = (uint8_t)value;
    return i;
}

uint8_t ref_write(const uint8_t *automaton, uint8_t *out, size_t out_length, uint8_t *length)
{
    struct automaton s;
    uint8_t bytes[564 * 3];
    size_t used = 0;
    put(length, 0);
    if (!automaton_of(automaton, &s))
        return 11;
    for (unsigned i = 0; i < 4; i++)
        used += written(bytes + used, automaton[i]);
    for (unsigned e = 0; e < s.m; e++)
        used += written(bytes + used, s.classes[e]);
    for (unsigned q = 0; q < s.n; q++)
        used += written(bytes + used, s.accepting[q]);
    for (unsigned q = 0; q < s.n; q++)
        for (unsigned e = 0; e < s.m; e++)
            used += written(bytes + used, s.next[q * SYMBOLS + e]);
    if (out_length < used)
        return 16;
    memcpy(out, bytes, used);
    put(length, used);
    return 0;
}

uint8_t ref_buffers_count(const uint8_t *automaton, uint8_t *count)
{
    struct automaton s;
    put(count, 0);
    if (!automaton_of(automaton, &s))
        return 11;
    put(count, s.buffers);
    return 0;
}

/* What the scan of a round goes over. */
struct scan {
    const uint8_t *next;
    unsigned n, count;
    uint32_t accepting;
    uint8_t symbol[SYMBOLS]; /* the uncontrollable kinds */
};

static struct scan scan_of(const struct automaton *s)
{
    struct scan c = { .next = s->next, .n = s->n };
    for (unsigned e = 0; e < s->m; e++)
        if (!s->classes[e])
            c.symbol[c.count++] = (uint8_t)e;
    for (unsigned q = 0; q < s->n; q++)
        c.accepting |= (uint32_t)s->accepting[q] << q;
    return c;
}

/* S of a list: rounds of striking until one strikes nothing. */
static uint32_t settled(const struct scan *c, uint32_t must, uint32_t *rounds)
{
    uint32_t set = c->accepting;
    for (;;) {
        uint32_t kept = 0, into = set | must;
        for (unsigned q = 0; q < c->n; q++) {
            if (!(set >> q & 1))
                continue;
            unsigned i = 0;
            while (i < c->count && into >> c->next[q * SYMBOLS + c->symbol[i]] & 1)
                i++;
            if (i == c->count)
                kept |= 1u << q;
        }
        if (kept == set)
            return set;
        ++*rounds;
        set = kept;
    }
}

/* The states that a kind takes into a set. */
static uint32_t leading(const struct scan *c, unsigned symbol, uint32_t set)
{
    uint32_t from = 0;
    for (unsigned q = 0; q < c->n; q++)
        from |= (set >> c->next[q * SYMBOLS + symbol] & 1) << q;
    return from;
}

uint8_t ref_solve(const uint8_t *automaton, uint32_t *table, size_t table_length, uint8_t *rounds)
{
    struct automaton s;
    put(rounds, 0);
    if (!automaton_of(automaton, &s))
        return 11;
    if (table_length < 2 * (size_t)s.buffers)
        return 12;
    struct scan c = scan_of(&s);
    uint64_t sum = 0;
    uint32_t count = 0;
    table[0] = settled(&c, 0, &count);
    table[1] = 0;
    sum += count;
    uint32_t at = 1;
    for (unsigned length = 1; length <= s.b; length++)
        for (unsigned a = 0; a < s.k; a++) {
            uint32_t known = 0, set = 0, must = 0;
            for (uint32_t w = s.first[length - 1]; w < s.first[length]; w++) {
                uint32_t goal = table[2 * w] | table[2 * w + 1];
                if (!ref_remember || w == s.first[length - 1] || goal != known) {
                    known = goal;
                    must = leading(&c, s.symbol[a], goal);
                    count = 0;
                    set = settled(&c, must, &count);
                }
                sum += count;
                table[2 * at] = set;
                table[2 * at + 1] = must;
                at++;
            }
        }
    put(rounds, sum);
    return 0;
}

uint8_t ref_initial(const uint8_t *automaton, uint8_t *configuration)
{
    struct automaton s;
    if (!automaton_of(automaton, &s))
        return 11;
    memset(configuration, 0, 40);
    configuration[0] = (uint8_t)s.initial;
    return 0;
}

/* Rows 11 and 12: the sheet and its table. */
static uint8_t opened(const uint8_t *automaton, const uint32_t *table, size_t table_length, struct automaton *s)
{
    if (!automaton_of(automaton, s))
        return 11;
    s->table = table;
    return table_length < 2 * (size_t)s->buffers ? 12 : 0;
}

/* Whether row 13 lets a carried state pass. */
static int consistent(const struct automaton *s, const struct configuration *c)
{
    uint64_t least = 0;
    if (c->state >= s->n || c->held > s->b || (uint64_t)c->emitted + c->held != c->received)
        return 0;
    for (unsigned i = 0; i < CAPACITY; i++) {
        unsigned e = c->buffer[i];
        uint32_t place = c->places[i];
        if (i < c->held ? e >= s->m || s->classes[e] != 1 || place < least || place >= c->received : e || place)
            return 0;
        least = (uint64_t)place + 1;
    }
    return 1;
}

/* Rows 11 to 13: the sheet, its table and the carried state. */
static uint8_t entered(const uint8_t *automaton, const uint32_t *table, size_t table_length, const uint8_t *configuration,
    struct automaton *s, struct configuration *c)
{
    uint8_t row = opened(automaton, table, table_length, s);
    memcpy(c, configuration, sizeof *c);
    return row ? row : consistent(s, c) ? 0 : 13;
}

/* The number of the held list. */
static uint32_t buffer_number(const struct automaton *s, const struct configuration *c)
{
    uint32_t value = 0;
    for (unsigned i = 0; i < c->held; i++)
        value = value * s->k + s->rank[c->buffer[i]];
    return s->first[c->held] + value;
}

uint8_t ref_winning(const uint8_t *automaton, const uint32_t *table, size_t table_length, const uint8_t *configuration,
    uint8_t *answer)
{
    struct automaton s;
    struct configuration c;
    answer[0] = 0;
    uint8_t row = entered(automaton, table, table_length, configuration, &s, &c);
    if (!row)
        answer[0] = table[2 * (size_t)buffer_number(&s, &c)] >> c.state & 1;
    return row;
}

/* Takes the first r events out of the hold, and leaves 0 where nothing is held any more. */
static void drop(struct configuration *c, unsigned r)
{
    unsigned left = c->held - r;
    for (unsigned i = 0; i < left; i++) {
        c->buffer[i] = c->buffer[i + r];
        c->places[i] = c->places[i + r];
    }
    for (unsigned i = left; i < c->held; i++) {
        c->buffer[i] = 0;
        c->places[i] = 0;
    }
    c->held = (uint8_t)left;
}

/* The longest front part of these events that brings the state into S of what is left: its length,
 * with the state that it leads to, or -1 where there is none. */
static INLINE int longest(const struct automaton *s, const uint8_t *events, unsigned count, unsigned *from)
{
    uint32_t left[CAPACITY + 1], value = 0, weight = 1;
    unsigned state[CAPACITY + 1];
    left[count] = 0;
    for (unsigned i = count; i-- > 0;) {
        value += s->rank[events[i]] * weight;
        weight *= s->k;
        left[i] = s->first[count - i] + value;
    }
    state[0] = *from;
    for (unsigned i = 0; i < count; i++)
        state[i + 1] = s->next[state[i] * SYMBOLS + events[i]];
    for (unsigned r = count + 1; r-- > 0;)
        if (s->table[2 * (size_t)left[r]] >> state[r] & 1) {
            *from = state[r];
            return (int)r;
        }
    return -1;
}

/* Puts out the first r events of the hold. Their places are written to `from`, if it is not
 * null. */
static void let_go(struct configuration *c, unsigned r, uint8_t *out, uint8_t *from)
{
    memcpy(out, c->buffer, r);
    if (from)
        memcpy(from, c->places, r * sizeof *c->places);
    drop(c, r);
}

/* An event with this place becomes the last of the hold. */
static void hold(struct configuration *c, uint8_t event, uint32_t place)
{
    c->places[c->held] = place;
    c->buffer[c->held++] = event;
}

/* What comes of an event: its row, 14, 15 or 23, or 0 with how many kinds are put out and whether
 * it is then guarded. */
struct outcome {
    uint8_t row, winning;
    unsigned count;
};

/* Row 23, where so many events were accepted, or 0. */
static uint8_t end_row(uint32_t received)
{
    return received == UINT32_MAX ? 23 : 0;
}

/* A controllable event at a full hold. Of the held events with it behind them the front parts are
 * tried from the longest, all of them, down to the first event alone: row 15 where none brings the
 * state into S of what it leaves. Nothing is written before the row is known. */
static NO_INLINE struct outcome step_full(const struct automaton *s, struct configuration *c, uint8_t event, uint32_t place,
    uint8_t *out, uint8_t *from)
{
    uint8_t events[CAPACITY + 1];
    unsigned state[CAPACITY + 2], r = s->b + 1;
    uint32_t value = 0, weight = 1;
    memcpy(events, c->buffer, s->b);
    events[s->b] = event;
    state[0] = c->state;
    for (unsigned i = 0; i <= s->b; i++)
        state[i + 1] = s->next[state[i] * SYMBOLS + events[i]];
    while (r > 0 && !(s->table[2 * (size_t)(s->first[s->b + 1 - r] + value)] >> state[r] & 1)) {
        r--;
        value += s->rank[events[r]] * weight;
        weight *= s->k;
    }
    uint8_t row = r == 0 ? 15 : end_row(place);
    if (row)
        return (struct outcome){ .row = row };
    let_go(c, 1, out, from);
    hold(c, event, place);
    let_go(c, r - 1, out + 1, from ? from + sizeof place : 0);
    c->state = (uint8_t)state[r];
    return (struct outcome){ .winning = 1, .count = r };
}

/* An event, where so many were accepted before it, which is its place in the input. The places of
 * the kinds put out are written to `from`, if it is not null. (The two counts are left to the
 * caller.) */
static INLINE struct outcome step(const struct automaton *s, struct configuration *c, uint32_t event, uint32_t place,
    uint8_t *out, uint8_t *from)
{
    unsigned count = 0;
    if (event >= s->m)
        return (struct outcome){ .row = 14 };
    if (s->classes[event] && c->held == s->b)
        return step_full(s, c, (uint8_t)event, place, out, from);
    if (end_row(place))
        return (struct outcome){ .row = end_row(place) };
    if (s->classes[event])
        hold(c, (uint8_t)event, place);
    else {
        out[count++] = (uint8_t)event;
        c->state = s->next[c->state * SYMBOLS + event];
        if (from) {
            memcpy(from, &place, sizeof place);
            from += sizeof place;
        }
    }
    unsigned state = c->state;
    int r = longest(s, c->buffer, c->held, &state);
    if (r > 0)
        let_go(c, (unsigned)r, out + count, from);
    c->state = (uint8_t)state;
    return (struct outcome){ .winning = r >= 0, .count = r > 0 ? count + (unsigned)r : count };
}

/* An event over an answer of zeros: rows 14, 15, 23, or 0. */
static uint8_t answered(const struct automaton *s, struct configuration *c, uint32_t event, uint8_t *answer)
{
    struct outcome came = step(s, c, event, c->received, answer, answer + 9);
    if (came.row)
        return came.row;
    c->received++;
    c->emitted += came.count;
    answer[7] = (uint8_t)came.count;
    answer[8] = came.winning;
    return 0;
}

uint8_t ref_receive(const uint8_t *automaton, const uint32_t *table, size_t table_length, uint8_t *configuration, uint32_t event,
    uint8_t *answer)
{
    struct automaton s;
    struct configuration c;
    memset(answer, 0, 37);
    uint8_t row = entered(automaton, table, table_length, configuration, &s, &c);
    if (row || (row = answered(&s, &c, event, answer)))
        return row;
    memcpy(configuration, &c, sizeof c);
    return 0;
}

uint8_t ref_run(const uint8_t *automaton, const uint32_t *table, size_t table_length, uint8_t *configuration,
    const uint32_t *events, size_t events_length, uint8_t *out, size_t out_length, uint8_t *answer)
{
    struct automaton s;
    struct configuration c;
    size_t used = 0, refused = 0;
    put_ran(answer, 0, 0);
    uint8_t row = entered(automaton, table, table_length, configuration, &s, &c);
    if (row)
        return row;
    if (out_length < c.held || out_length - c.held < events_length)
        return 16;
    uint32_t received = c.received;
    for (size_t i = 0; i < events_length; i++) {
        struct outcome came = step(&s, &c, events[i], received, out + used, 0);
        if (came.row)
            refused++;
        else
            received++;
        used += came.count;
    }
    c.received = received;
    c.emitted += (uint32_t)used;
    memcpy(configuration, &c, sizeof c);
    put_ran(answer, used, refused);
    return 0;
}

/* Rows 11, 12 and 20: the sheet that a list of clients shares, and its table. */
static uint8_t opened_for(const uint8_t *automaton, const uint32_t *table, size_t table_length, size_t clients,
    struct automaton *s)
{
    uint8_t row = opened(automaton, table, table_length, s);
    return row ? row : clients < 1 || clients > CLIENTS ? 20 : 0;
}

/* The carried states of a list of clients. */
static struct configuration *list_of(uint8_t (*configurations)[40])
{
    return (struct configuration *)(void *)configurations;
}

/* Row 19 of a client, then row 13 of its carried state, or 0. */
static uint8_t client_row(const struct automaton *s, const struct configuration *list, size_t clients, size_t client)
{
    return client >= clients ? 19 : consistent(s, &list[client]) ? 0 : 13;
}

/* An event for a client, over an answer of zeros: rows 19, 13, 14, 15, 23, or 0. */
static uint8_t answered_for(const struct automaton *s, struct configuration *list, size_t clients, uint32_t client,
    uint32_t event, uint8_t *answer)
{
    uint8_t row = client_row(s, list, clients, client);
    return row ? row : answered(s, &list[client], event, answer);
}

uint8_t ref_receive_for(const uint8_t *automaton, const uint32_t *table, size_t table_length, uint8_t (*configurations)[40],
    size_t configurations_length, uint32_t client, uint32_t event, uint8_t *answer)
{
    struct automaton s;
    memset(answer, 0, 37);
    uint8_t row = opened_for(automaton, table, table_length, configurations_length, &s);
    return row ? row : answered_for(&s, list_of(configurations), configurations_length, client, event, answer);
}

/* How many events all clients hold; a carried state that row 13 refuses holds none. The mark of
 * each, 1 where row 13 lets it pass and 0 where not, is stored at its place. */
static size_t held_by_all(const struct automaton *s, const struct configuration *list, size_t clients, uint8_t marks[CLIENTS])
{
    size_t held = 0;
    for (size_t i = 0; i < clients; i++) {
        marks[i] = (uint8_t)consistent(s, &list[i]);
        if (marks[i])
            held += list[i].held;
    }
    return held;
}

uint8_t ref_run_for(const uint8_t *automaton, const uint32_t *table, size_t table_length, uint8_t (*configurations)[40],
    size_t configurations_length, const uint32_t *events, size_t events_length, uint8_t *out, size_t out_length, uint8_t *answer)
{
    struct automaton s;
    struct configuration *list = list_of(configurations);
    uint8_t marks[CLIENTS];
    size_t used = 0, refused = 0;
    put_ran(answer, 0, 0);
    uint8_t row = opened_for(automaton, table, table_length, configurations_length, &s);
    if (row)
        return row;
    size_t held = held_by_all(&s, list, configurations_length, marks);
    if (out_length < held || out_length - held < events_length)
        return 16;
    for (size_t i = 0; i < events_length; i++) {
        uint32_t client = events[i] / 65536, event = events[i] % 65536;
        if (client >= configurations_length || !marks[client]) {
            refused++;
            continue;
        }
        struct configuration *c = &list[client];
        struct outcome came = step(&s, c, event, c->received, out + used, 0);
        if (came.row)
            refused++;
        else {
            c->received++;
            c->emitted += came.count;
            used += came.count;
        }
    }
    put_ran(answer, used, refused);
    return 0;
}

/* Serial, client and kind of a feed's record: rows 1 and 2 left to right, 10, or 0; `at` is where
 * the fault is. */
static uint8_t record_of(const uint8_t *bytes, size_t length, uint32_t numbers[3], size_t *at)
{
    *at = 0;
    for (unsigned i = 0; i < 3; i++) {
        uint8_t row = number(bytes, length, at, &numbers[i]);
        if (row)
            return row;
    }
    return *at < length ? 10 : 0;
}

/* Rows 21 and 22 of a serial, or 0 with how many records were lost before it. */
static uint8_t serial_row(const uint8_t *expected, uint32_t serial, uint32_t *lost)
{
    if (serial >= SERIALS)
        return 21;
    *lost = expected[0] ? (serial + SERIALS - (expected[1] + 256u * expected[2])) % SERIALS : 0;
    return *lost >= SERIALS / 2 ? 22 : 0;
}

uint8_t ref_feed(const uint8_t *automaton, const uint32_t *table, size_t table_length, uint8_t (*configurations)[40],
    size_t configurations_length, const uint8_t *bytes, size_t bytes_length, uint8_t *expected, uint8_t *answer)
{
    struct automaton s;
    uint32_t numbers[3], lost = 0;
    size_t at;
    memset(answer, 0, 53);
    uint8_t row = opened_for(automaton, table, table_length, configurations_length, &s);
    if (row)
        return row;
    row = record_of(bytes, bytes_length, numbers, &at);
    if (row) {
        put(answer + 45, at);
        return row;
    }
    row = serial_row(expected, numbers[0], &lost);
    if (row)
        return row;
    put(answer + 37, lost);
    uint32_t next = (numbers[0] + 1) % SERIALS;
    expected[0] = 1;
    expected[1] = (uint8_t)next;
    expected[2] = (uint8_t)(next >> 8);
    return answered_for(&s, list_of(configurations), configurations_length, numbers[1], numbers[2], answer);
}

static int can_rest(const struct automaton *s, const uint8_t *held, unsigned count, unsigned rounds, unsigned q);

/* The judge's questions, as document 01 words them. */
static int may_rest(const struct automaton *s, const uint8_t *held, unsigned count, unsigned rounds, unsigned q)
{
    if (!s->accepting[q])
        return 0;
    for (unsigned e = 0; rounds && e < s->m; e++)
        if (!s->classes[e] && !can_rest(s, held, count, rounds - 1, s->next[q * SYMBOLS + e]))
            return 0;
    return 1;
}

static int can_rest(const struct automaton *s, const uint8_t *held, unsigned count, unsigned rounds, unsigned q)
{
    return may_rest(s, held, count, rounds, q) ||
        (count && can_rest(s, held + 1, count - 1, s->n, s->next[q * SYMBOLS + held[0]]));
}

uint8_t ref_judge(const uint8_t *automaton, const uint8_t *configuration, uint8_t *answer)
{
    struct automaton s;
    struct configuration c;
    answer[0] = answer[1] = 0;
    uint8_t row = entered(automaton, 0, SIZE_MAX, configuration, &s, &c);
    if (row)
        return row;
    if (s.n > 4 || s.m - s.k > 2 || c.held > 3)
        return 17;
    answer[0] = (uint8_t)may_rest(&s, c.buffer, c.held, s.n, c.state);
    answer[1] = (uint8_t)can_rest(&s, c.buffer, c.held, s.n, c.state);
    return 0;
}

/* The rows of a product, in their order: 11 for each record, 24, 25, or 0. */
static uint8_t product_row(const uint8_t *first, const uint8_t *second)
{
    if (!valid(first) || !valid(second))
        return 11;
    if (first[1] != second[1])
        return 24;
    for (unsigned e = 0; e < first[1]; e++)
        if (first[4 + e] != second[4 + e])
            return 24;
    return (unsigned)first[0] * second[0] > STATES ? 25 : 0;
}

uint8_t ref_product(const uint8_t *first, const uint8_t *second, uint8_t *automaton)
{
    memset(automaton, 0, 564);
    uint8_t row = product_row(first, second);
    if (row)
        return row;
    unsigned m = first[1], n = second[0];
    automaton[0] = (uint8_t)(first[0] * n);
    automaton[1] = (uint8_t)m;
    automaton[2] = first[2] < second[2] ? first[2] : second[2];
    automaton[3] = (uint8_t)(first[3] * n + second[3]);
    memcpy(automaton + 4, first + 4, m);
    for (unsigned p = 0; p < first[0]; p++)
        for (unsigned q = 0; q < n; q++) {
            const uint8_t *from_p = first + 52 + p * SYMBOLS, *from_q = second + 52 + q * SYMBOLS;
            uint8_t *from = automaton + 52 + (p * n + q) * SYMBOLS;
            automaton[20 + p * n + q] = first[20 + p] && second[20 + q];
            for (unsigned e = 0; e < m; e++)
                from[e] = (uint8_t)(from_p[e] * n + from_q[e]);
        }
    return 0;
}
