/* Every export on random and damaged states: random words, small random words, and good states with one word changed.
 *
 *     states [COUNT [SEED]]      the defaults are 1000000 and 1
 *
 * Each call must answer with the refusal that the scope document's table gives, in its order of test; fit and the table are written
 * here once more, from the document and in C. With a refusal, state, store and output must be as before, byte for byte (7 alone
 * sets word 17 of the core to 0). After an accepted call the state must be fit and the answer must say what stands in the output.
 * No call changes the options. Only a timer call closes a bearer, only a connected call opens it, and on a closed one in strict mode
 * no call sends a request or a command.
 *
 * The sanitizers see this file and not the archive: state, store, output and every input lie against a page that may not be touched.
 * Prints what was tried and ends with 0; or prints the first failures and ends with 1. */
#define _DEFAULT_SOURCE
#include "barleyrope.h"

#include <stdio.h>
#include <stdlib.h>
#include <string.h>

#include "random.h"
#include "walled.h"

/* Nothing here allocates: the search for leaks at the end would take seconds and find none. */
const char *__asan_default_options(void);
const char *__asan_default_options(void) {
    return "detect_leaks=0";
}

/* ---- failures ---------------------------------------------------------------------------------------------------------------- */

static unsigned long failures, round_number;
static const char *calling = "nothing";

static void expect(bool ok, const char *what, int line) {
    if (ok)
        return;
    if (failures++ < 20)
        fprintf(stderr, "tests/c/states.c:%d: state %lu, %s: %s\n", line, round_number, calling, what);
}

#define EXPECT(ok) expect((ok), #ok, __LINE__)

#define EDGE62 (UINT64_C(1) << 62)
#define EDGE63 (UINT64_C(1) << 63)

/* Numbers at which something ends. */
static uint64_t edge(void) {
    static const uint64_t edges[] = {0,      1,          2,      3,          22,     23,           31,         32,         33,
                                     63,     64,         65,     127,        128,    129,          243,        244,        245,
                                     246,    247,        248,    250,        251,    252,          255,        256,        65535,
                                     65536,  4294967230, 4294967231,         4294967294, 4294967295, 4294967296, EDGE62 - 1, EDGE62,
                                     EDGE62 + 1,         EDGE62 + 63,        EDGE62 + 64, EDGE62 + 65, EDGE63 - 1, EDGE63, EDGE63 + 1,
                                     UINT64_MAX};
    return edges[below(sizeof edges / sizeof *edges)];
}

/* ---- memory, each part against a page that may not be touched ---------------------------------------------------------------- */

#define SPARE 64 /* an output may be longer than it must be */

static uint8_t *state_end, *store_end, *out_end, *told_end, *input_end, *steps_end;

#define STATE ((barleyrope_state *)(void *)(state_end - sizeof(barleyrope_state)))
#define STORE (store_end - BARLEYROPE_STORE_SIZE)
#define CORE (STATE->core)
#define TABLES (STATE->tables)

/* State, store and output as they must be. */
static struct {
    barleyrope_state state;
    uint8_t store[BARLEYROPE_STORE_SIZE];
    uint8_t out[BARLEYROPE_OUTPUT_SIZE + SPARE];
} was;

static void note(void) {
    memcpy(&was.state, STATE, sizeof was.state);
    memcpy(was.store, STORE, sizeof was.store);
    memcpy(was.out, out_end - sizeof was.out, sizeof was.out);
}

static void as_before(void) {
    EXPECT(memcmp(&was.state, STATE, sizeof was.state) == 0);
    EXPECT(memcmp(was.store, STORE, sizeof was.store) == 0);
    EXPECT(memcmp(was.out, out_end - sizeof was.out, sizeof was.out) == 0);
}

/* ---- fit, from 01: 'Fit means', and 02, One (the words: crates c_core and words) ----------------------------------------------- */

enum {
    DEADLINE = 0, LEN = 3, PHASE = 4, ACTIVE = 5, DATED = 6, KIND = 7, MTU_NAMED = 10, HELD = 17, MTU = 19, PENDING = 20, PRESENT = 22,
    NEXT_INDEX = 23, REFUSED_STEPS = 24, NOTIFIED = 25, WAIT_FROM = 26, WAITING = 27, RESULTS = 28, SERVICES = 29,
    CHARACTERISTICS = 30, NOTIFICATIONS = 31, REPORTS = 32, KEYS = 33, LINKS = 34, CLOSED = 35, OPTIONS = 36,
    T_RESULT = 320, T_CHARACTERISTIC = 608, T_NOTIFICATION_AT = 672, T_NOTIFICATION = 704, T_KEY = 928, T_LINK = 1056, T_HEARD = 1088
};

static bool is_set(size_t word) {
    return CORE[word] % 2 == 1;
}

static bool carries(uint64_t kind) {
    return kind == BARLEYROPE_STEP_WRITE || kind == BARLEYROPE_STEP_WAIT_NOTIFICATION;
}

static bool length_fits(uint64_t kind, uint64_t len) {
    return !carries(kind) || len <= 244;
}

static bool mtu_fits(uint64_t kind, uint64_t mtu) {
    return kind != BARLEYROPE_STEP_EXCHANGE_MTU || mtu <= 247;
}

/* Each clause, as 01 says it, in order; a state that breaks one of them alone shows that every call asks for it. */
enum clause {
    WAITING_SIZE, RESULTS_SIZE, SERVICES_SIZE, CHARACTERISTICS_SIZE, NOTIFICATIONS_SIZE, REPORTS_SIZE, KEYS_SIZE, VALUE_LENGTHS, MTUS_NAMED,
    RESULT_LENGTHS, NOTIFICATION_LENGTHS, NOTIFICATION_LINKS, HANDLES_RISE, ONE_RUNS, RUNNING_LENGTH, RUNNING_MTU, PHASES, DEADLINES, HELD_SIZE,
    LINK_MTU, PENDING_OPCODE, PENDING_STEP, KEPT_NOTIFIED, MOST_NOTIFIED, WAITS_FROM, MOST_REFUSED, INDEXES, MOST_LINKS, CLAUSES
};

static const char *const clause_says[CLAUSES] = {
    "at most 64 steps wait", "at most 64 results", "at most 32 services", "at most 64 characteristics", "at most 32 notifications",
    "at most 64 reports", "at most 128 asked advertisers", "a waiting step's value has at most 244 bytes", "a waiting step names an MTU of at most 247",
    "a result's value has at most 246 bytes", "a notification's value has at most 244 bytes", "a notification's link is counted",
    "characteristics rise", "no step waits while none runs", "the running step's value has at most 244 bytes",
    "the running step names an MTU of at most 247", "a phase is 0, 1 or 2", "a deadline is at most 2^63", "at most 251 bytes of a frame are held",
    "the link's MTU is 23 to 247", "what is awaited is one of our requests", "an ATT step awaits it", "no more kept than notified",
    "notified at most 2^62", "waits begin within what was notified", "refused steps at most 2^62 + 64", "indices stay below 2^32",
    "at most 2^62 links"};

static bool broken[CLAUSES];
static unsigned long alone[CLAUSES]; /* states that break it and no other */

static void must(enum clause which, bool holds) {
    broken[which] = broken[which] || !holds;
}

/* How many places to look at: a count may say more than there are. */
static size_t within(uint64_t count, size_t places) {
    return count < places ? (size_t)count : places;
}

static void judge_counts(void) {
    must(WAITING_SIZE, CORE[WAITING] <= 64);
    must(RESULTS_SIZE, CORE[RESULTS] <= 64);
    must(SERVICES_SIZE, CORE[SERVICES] <= 32);
    must(CHARACTERISTICS_SIZE, CORE[CHARACTERISTICS] <= 64);
    must(NOTIFICATIONS_SIZE, CORE[NOTIFICATIONS] <= 32);
    must(REPORTS_SIZE, CORE[REPORTS] <= 64);
    must(KEYS_SIZE, CORE[KEYS] <= 128);
}

static void judge_step(enum clause length, enum clause names, uint64_t kind, uint64_t len, uint64_t mtu) {
    must(length, length_fits(kind, len));
    must(names, mtu_fits(kind, mtu));
}

static void judge_tables(void) {
    size_t i;
    for (i = 0; i < within(CORE[WAITING], 64); i++)
        judge_step(VALUE_LENGTHS, MTUS_NAMED, TABLES[i] % 256, (TABLES[i] >> 48) % 256, TABLES[i] >> 48);
    for (i = 0; i < within(CORE[RESULTS], 64); i++)
        must(RESULT_LENGTHS, TABLES[T_RESULT + i] >> 56 <= 246);
    for (i = 0; i < within(CORE[NOTIFICATIONS], 32); i++) {
        must(NOTIFICATION_LENGTHS, TABLES[T_NOTIFICATION + i] >> 56 <= 244);
        must(NOTIFICATION_LINKS, TABLES[T_LINK + i] <= CORE[LINKS]);
    }
    for (i = 1; i < within(CORE[CHARACTERISTICS], 64); i++)
        must(HANDLES_RISE, TABLES[T_CHARACTERISTIC + i - 1] >> 48 < TABLES[T_CHARACTERISTIC + i] >> 48);
}

static void judge_running(void) {
    must(ONE_RUNS, is_set(ACTIVE) || CORE[WAITING] == 0);
    if (!is_set(ACTIVE))
        return;
    judge_step(RUNNING_LENGTH, RUNNING_MTU, CORE[KIND] % 256, CORE[LEN] % 256, CORE[MTU_NAMED] % 65536);
    must(PHASES, CORE[PHASE] % 256 <= 2);
    must(DEADLINES, !is_set(DATED) || CORE[DEADLINE] <= EDGE63);
}

/* A step runs that could send ATT. */
static bool runs_att(void) {
    uint64_t kind = CORE[KIND] % 256;
    return is_set(ACTIVE) && BARLEYROPE_STEP_EXCHANGE_MTU <= kind && kind <= BARLEYROPE_STEP_READ;
}

static bool is_request(uint64_t pending) {
    return pending == 0x02 || pending == 0x04 || pending == 0x08 || pending == 0x0A || pending == 0x10 || pending == 0x12;
}

static void judge_link(void) {
    uint64_t pending = CORE[PENDING] % 256, mtu = CORE[MTU] % 65536;
    if (!is_set(PRESENT))
        return;
    must(HELD_SIZE, CORE[HELD] <= 251);
    must(LINK_MTU, mtu >= 23 && mtu <= 247);
    must(PENDING_OPCODE, pending == 0 || is_request(pending));
    must(PENDING_STEP, pending == 0 || runs_att());
}

static void judge_counters(void) {
    must(KEPT_NOTIFIED, CORE[NOTIFICATIONS] <= CORE[NOTIFIED]);
    must(MOST_NOTIFIED, CORE[NOTIFIED] <= EDGE62);
    must(WAITS_FROM, CORE[WAIT_FROM] <= CORE[NOTIFIED]);
    must(MOST_REFUSED, CORE[REFUSED_STEPS] <= EDGE62 + 64);
    must(INDEXES, CORE[NEXT_INDEX] % 4294967296 + within(CORE[WAITING], 65) <= 4294967295);
    must(MOST_LINKS, CORE[LINKS] <= EDGE62);
}

/* How many clauses the state breaks. */
static size_t breaks(void) {
    size_t i, n = 0;
    memset(broken, 0, sizeof broken);
    judge_counts();
    judge_tables();
    judge_running();
    judge_link();
    judge_counters();
    for (i = 0; i < CLAUSES; i++)
        n += broken[i];
    return n;
}

static bool is_fit(void) {
    return breaks() == 0;
}

/* ---- a call's arguments, and the refusal that 01 gives them -------------------------------------------------------------------- */

static bool fit;              /* the state, as it stands now */
static uint8_t *store, *out;  /* what is lent */
static size_t store_size, out_size;
static uint64_t at, *told;
static uint64_t now_us;

/* 02, Four: whether the bearer is to be closed behind the call; whether the call may send no request and no command. */
static bool closed_then, barred_then;

/* Mostly as it should be. */
static void lend(bool spoil) {
    closed_then = is_set(CLOSED);
    barred_then = is_set(OPTIONS) && closed_then && !runs_att(); /* one that began before goes on: no call leaves one */
    store = STORE;
    store_size = BARLEYROPE_STORE_SIZE;
    out_size = BARLEYROPE_OUTPUT_SIZE + (one_in(4) ? SPARE : 0);
    at = now_us;
    if (spoil && one_in(16)) {
        store_size = one_in(2) ? below(BARLEYROPE_STORE_SIZE) : BARLEYROPE_STORE_SIZE + 1;
        if (one_in(4))
            store = NULL, store_size = 0;
    }
    if (spoil && one_in(16))
        out_size = one_in(2) ? BARLEYROPE_OUTPUT_SIZE - 1 : 0;
    if (spoil && one_in(16))
        at = one_in(2) ? edge() : any();
    out = out_size == 0 ? NULL : out_end - out_size;
}

static int shared_refusal(bool sends, bool timed) {
    if (!fit)
        return 1;
    if (store_size != BARLEYROPE_STORE_SIZE || (sends && out_size < BARLEYROPE_OUTPUT_SIZE))
        return 2;
    return timed && at > EDGE62 ? 3 : 0;
}

/* Bytes against the wall. */
static const uint8_t *input(size_t len) {
    size_t i;
    for (i = 0; i < len; i++)
        input_end[-1 - (ptrdiff_t)i] = (uint8_t)any();
    return len == 0 ? NULL : input_end - len;
}

/* ---- what an answer must be ----------------------------------------------------------------------------------------------------- */

static bool thorough; /* compare all bytes after each call, not only where some may have changed */
static unsigned long calls, by_refusal[9];

static void refused_by(int refusal, size_t words) {
    size_t i;
    EXPECT(told[0] == (uint64_t)refusal);
    calls++;
    by_refusal[refusal]++;
    if (refusal == 0)
        return;
    for (i = 1; i < words; i++)
        EXPECT(told[i] == 0);
    if (refusal == 7)
        was.state.core[HELD] = 0;
    if (thorough)
        as_before();
}

/* A frame that carries an ATT request or command. */
static bool asks(const uint8_t *frame) {
    return frame[2] == 4 && frame[3] == 0 && frame[4] % 2 == 0 && frame[4] != 0x1E;
}

/* What a call that may send tells of its output. */
static void sent_well(void) {
    size_t bytes = (size_t)told[2], frames = 0, walked = 0, tail;
    EXPECT(told[1] <= 65 && told[2] <= BARLEYROPE_OUTPUT_SIZE && told[3] <= 2);
    if (told[2] > BARLEYROPE_OUTPUT_SIZE)
        return;
    while (walked + 4 <= bytes) {
        EXPECT(!(barred_then && asks(out + walked)));
        walked += barleyrope_frame_size(out + walked);
        frames++;
    }
    EXPECT(walked == bytes && frames == told[1]);
    tail = out_size - bytes;
    EXPECT(memcmp(out_end - tail, was.out + sizeof was.out - tail, tail) == 0);
    EXPECT(told[3] == 1 || (told[4] == 0 && told[5] == 0 && told[6] == 0));
    EXPECT(told[3] == 2 || told[7] == 0);
}

static unsigned long closings, barred; /* calls that closed a bearer, and calls on a closed one */
static uint64_t more_links; /* those that the call is to count: an accepted connected call counts one */

/* After a call with this refusal: an accepted one leaves a fit state. */
static void changed_by(int refusal, bool sends) {
    refused_by(refusal, 8);
    if (refusal != 0)
        return;
    if (sends)
        sent_well();
    else
        EXPECT(memcmp(was.out, out_end - sizeof was.out, sizeof was.out) == 0);
    EXPECT(is_fit());
    EXPECT(CORE[LINKS] - was.state.core[LINKS] == more_links);
    EXPECT(is_set(CLOSED) == closed_then && is_set(OPTIONS) == (was.state.core[OPTIONS] % 2 == 1));
    closings += closed_then && was.state.core[CLOSED] % 2 == 0;
    barred += barred_then;
    note();
}

/* Bytes that are told lie in the store. */
static void inside(uint64_t place, uint64_t len) {
    EXPECT(place <= BARLEYROPE_STORE_SIZE && len <= BARLEYROPE_STORE_SIZE - place);
}

/* ---- the calls ------------------------------------------------------------------------------------------------------------------ */

static barleyrope_uuid known[4]; /* services and characteristics that heads of this test have */

static barleyrope_uuid some_uuid(void) {
    return known[below(4)];
}

/* One of 200 advertisers. */
static barleyrope_address someone(void) {
    return barleyrope_address_of(below(100), one_in(2));
}

static barleyrope_step some_step(size_t values, bool spoil) {
    size_t len = one_in(2) || values == 0 ? 0 : below(values < 244 ? values : 244);
    size_t place = values == 0 ? 0 : below(values - len);
    uint32_t ms = (uint32_t)(one_in(8) ? any() : below(3000));
    if (spoil && one_in(64))
        len = one_in(2) ? 245 : (size_t)any();
    if (spoil && one_in(64))
        place = one_in(2) ? values : (size_t)any();
    switch (below(16)) {
    case 0: return barleyrope_scan(ms);
    case 1: return barleyrope_connect_any(24, 0, 100, ms);
    case 2: return barleyrope_connect_address(someone(), 24, 0, 100, ms);
    case 3: return barleyrope_connect_service(some_uuid(), 24, 0, 100, ms);
    case 4: return barleyrope_exchange_mtu((uint16_t)(spoil && one_in(32) ? 248 + below(65288) : below(248)));
    case 5: return barleyrope_discover_services();
    case 6: return barleyrope_discover_characteristics(some_uuid());
    case 7: return barleyrope_subscribe(some_uuid(), one_in(2));
    case 8: return barleyrope_write(some_uuid(), one_in(2), place, len);
    case 9: return barleyrope_read(some_uuid());
    case 10: return barleyrope_wait_notification(some_uuid(), ms, place, len);
    case 11: return barleyrope_wait(ms);
    case 12: return barleyrope_disconnect();
    case 13: return barleyrope_capture(one_in(2));
    case 14: return barleyrope_capture_secrets(one_in(2));
    default: return barleyrope_wait_notification_aged(some_uuid(), ms, place, len, (uint32_t)(one_in(4) ? any() : below(1000)));
    }
}

/* Of the lent steps alone: one that is not lent is a scan. */
static int batch_refusal(const barleyrope_step *steps, size_t lent, size_t count, size_t values) {
    size_t i;
    if (count > 64)
        return 4;
    for (i = 0; i < count && i < lent; i++) {
        uint64_t kind = steps[i].kind % 256, len = steps[i].value_len;
        if (!length_fits(kind, len) || !mtu_fits(kind, steps[i].mtu % 65536))
            return 4;
        if (carries(kind) && (len > values || steps[i].value_at > values - len))
            return 4;
    }
    return CORE[NEXT_INDEX] % 4294967296 + CORE[WAITING] + count > 4294967295 || CORE[REFUSED_STEPS] >= EDGE62 ? 5 : 0;
}

static void push_steps(bool spoil) {
    size_t i, n = below(300), count = one_in(4) ? below(65) : below(6), lent = count, wild;
    const uint8_t *values = input(n);
    barleyrope_step *steps;
    int refusal;
    calling = "push_steps";
    if (spoil && one_in(16))
        count = one_in(2) ? 65 : (size_t)any();
    if (spoil && one_in(16))
        lent = below(66);
    steps = (barleyrope_step *)(void *)(steps_end - lent * sizeof *steps);
    for (i = 0; i < lent; i++)
        steps[i] = some_step(n, spoil);
    wild = spoil && one_in(16) ? lent : 0; /* any word is one of a step */
    for (i = 0; i < wild; i++)
        ((uint64_t *)(void *)steps)[below(lent * BARLEYROPE_STEP_WORDS)] = one_in(2) ? any() : edge();
    refusal = shared_refusal(true, true);
    if (refusal == 0)
        refusal = batch_refusal(steps, lent, count, n);
    barleyrope_push_steps_words(CORE, TABLES, store, store_size, out, out_size, at, lent == 0 ? NULL : (uint64_t *)(void *)steps,
                                BARLEYROPE_STEP_WORDS * lent, count, values, n, told);
    changed_by(refusal, true);
}

static void on_timer(void) {
    int refusal = shared_refusal(true, true);
    bool due = is_set(ACTIVE) && is_set(DATED) && CORE[DEADLINE] <= at, awaited = is_set(PRESENT) && CORE[PENDING] % 256 != 0;
    calling = "on_timer";
    closed_then = closed_then || (is_set(OPTIONS) && due && runs_att() && awaited);
    barred_then = is_set(OPTIONS) && closed_then;
    barleyrope_on_timer_words(CORE, TABLES, store, store_size, out, out_size, at, told);
    changed_by(refusal, true);
}

static void on_connected(void) {
    int refusal = shared_refusal(true, true);
    calling = "on_connected";
    if (refusal == 0 && CORE[LINKS] == EDGE62)
        refusal = 5;
    barleyrope_on_connected_words(CORE, TABLES, store, store_size, out, out_size, (uint16_t)any(), at, told);
    more_links = 1;
    closed_then = barred_then = false;
    changed_by(refusal, true);
    more_links = 0;
}

static void on_disconnected(void) {
    int refusal = shared_refusal(false, true);
    calling = "on_disconnected";
    barleyrope_on_disconnected_words(CORE, TABLES, store, store_size, at, told);
    changed_by(refusal, false);
}

static int fragment_refusal(bool start, size_t len) {
    bool dropped = !is_set(PRESENT) || (!start && CORE[HELD] == 0);
    if (CORE[NOTIFIED] >= EDGE62)
        return 5;
    return !dropped && (start ? 0 : CORE[HELD]) + len > 251 ? 7 : 0;
}

static void hear(bool start, const uint8_t *fragment, size_t len) {
    int refusal = shared_refusal(true, true);
    calling = "on_fragment";
    if (refusal == 0)
        refusal = fragment_refusal(start, len);
    barleyrope_on_fragment_words(CORE, TABLES, store, store_size, out, out_size, at, start, fragment, len, told);
    changed_by(refusal, true);
}

/* The bytes of an answer with n entries of a width, of a head that has some of the known UUIDs. */
static size_t entries(uint8_t *pdu, size_t head, size_t width, uint64_t *handle) {
    size_t n = below(5), i, len = head;
    for (i = 0; i < n && len + width <= 240; i++, len += width) {
        size_t k;
        for (k = 0; k < width; k++)
            pdu[len + k] = (uint8_t)any();
        *handle += 1 + below(3);
        pdu[len] = (uint8_t)*handle;
        pdu[len + 1] = (uint8_t)(*handle >> 8);
        if (head == 2 && width == 6) { /* a service of a few handles */
            pdu[len + 2] = (uint8_t)(*handle + 6);
            pdu[len + 3] = (uint8_t)((*handle + 6) >> 8);
        }
        if (head == 2 && width == 7) { /* a characteristic's value stands behind its declaration */
            pdu[len + 3] = (uint8_t)(*handle + 1);
            pdu[len + 4] = (uint8_t)((*handle + 1) >> 8);
        }
        pdu[len + width - 2] = (uint8_t)below(4); /* 0x2800 to 0x2803: the known ones */
        pdu[len + width - 1] = 0x28;
        if (width == 4)
            pdu[len + 2] = 0x02, pdu[len + 3] = 0x29;
    }
    return len;
}

/* An ATT PDU that may come in now: mostly the answer to what is awaited. */
static size_t some_pdu(uint8_t *pdu) {
    uint64_t handle = below(8);
    size_t len = 1 + below(60), i;
    for (i = 0; i < len; i++)
        pdu[i] = (uint8_t)any();
    pdu[0] = (uint8_t)(one_in(4) ? any() : CORE[PENDING] + 1);
    switch (pdu[0]) {
    case 0x11: pdu[1] = 6; return entries(pdu, 2, 6, &handle);
    case 0x09: pdu[1] = 7; return entries(pdu, 2, 7, &handle);
    case 0x05: pdu[1] = 1; return entries(pdu, 2, 4, &handle);
    case 0x01: pdu[1] = (uint8_t)CORE[PENDING]; pdu[4] = one_in(2) ? 0x0A : (uint8_t)any(); return 5;
    case 0x1B:
    case 0x1D: pdu[1] = (uint8_t)below(12); pdu[2] = 0; return len < 3 ? 3 : len;
    default: return len;
    }
}

static void on_fragment(bool spoil) {
    uint8_t frame[300];
    size_t len;
    const uint8_t *fragment;
    if (one_in(4) && spoil) {
        len = below(300);
        hear(one_in(2), input(len), len);
        return;
    }
    if (one_in(3)) { /* a notification, of a handle that is likely to be known */
        frame[4] = one_in(4) ? 0x1D : 0x1B, frame[5] = (uint8_t)below(12), frame[6] = 0;
        for (len = 3; len < 3 + below(40); len++)
            frame[4 + len] = (uint8_t)below(4);
    } else {
        len = some_pdu(frame + 4);
    }
    frame[0] = (uint8_t)len, frame[1] = 0, frame[2] = (uint8_t)(one_in(8) ? 4 + below(3) : 4), frame[3] = 0;
    len += 4;
    memcpy(input_end - len, frame, len);
    fragment = input_end - len;
    hear(true, fragment, one_in(8) ? below(len) : len);
}

static bool is_key(uint64_t key) {
    size_t i;
    for (i = 0; i < CORE[KEYS]; i++)
        if (TABLES[T_KEY + i] == key)
            return true;
    return false;
}

static void on_advertising(bool spoil) {
    size_t len = spoil && one_in(8) ? below(64) : below(32);
    const uint8_t *data = input(len);
    uint8_t pdu = (uint8_t)(one_in(16) ? any() : below(7));
    uint64_t key = barleyrope_address_word(spoil && one_in(4) ? barleyrope_address_of(any(), one_in(2)) : someone());
    int refusal = shared_refusal(false, true);
    calling = "on_advertising";
    if (refusal == 0 && len > 31)
        refusal = 6;
    if (refusal == 0 && is_set(ACTIVE) && CORE[KIND] % 256 == BARLEYROPE_STEP_SCAN && (pdu == 0 || pdu == 6) && CORE[KEYS] == 128 &&
        !is_key(key))
        refusal = 8;
    barleyrope_on_advertising_words(CORE, TABLES, store, store_size, at, (uint8_t)any(), pdu, key, data, len, one_in(2), told);
    EXPECT(told[1] <= 2 && (told[1] == 2 || (told[2] == 0 && told[3] == 0 && told[4] == 0)));
    changed_by(refusal, false);
}

static void on_scan_response(bool spoil) {
    size_t len = spoil && one_in(8) ? below(64) : below(32);
    const uint8_t *data = input(len);
    int refusal = shared_refusal(false, true);
    calling = "on_scan_response";
    if (refusal == 0 && len > 31)
        refusal = 6;
    barleyrope_on_scan_response_words(CORE, TABLES, store, store_size, at, barleyrope_address_word(someone()), data, len, told);
    changed_by(refusal, false);
}

/* ---- the calls that only read, and the views -------------------------------------------------------------------------------------- */

static void read_timer(void) {
    bool there = is_set(ACTIVE) && is_set(DATED);
    int refusal = shared_refusal(false, false);
    calling = "timer_us";
    barleyrope_timer_us_words(CORE, TABLES, store, store_size, told);
    refused_by(refusal, 8);
    if (refusal == 0)
        EXPECT(told[1] == there && told[2] == (there ? CORE[DEADLINE] : 0));
}

static void read_handle(void) {
    bool there = is_set(PRESENT);
    int refusal = shared_refusal(false, false);
    calling = "connected_handle";
    barleyrope_connected_handle_words(CORE, TABLES, store, store_size, told);
    refused_by(refusal, 8);
    if (refusal == 0)
        EXPECT(told[1] == there && told[2] == (there ? CORE[18] % 65536 : 0));
}

static void read_result(void) {
    uint32_t index = (uint32_t)(one_in(4) ? any() : CORE[NEXT_INDEX] - below(70));
    int refusal = shared_refusal(false, false);
    size_t i, n = 0;
    calling = "result";
    barleyrope_result_words(CORE, TABLES, store, store_size, index, told);
    refused_by(refusal, 8);
    if (refusal != 0)
        return;
    for (i = 0; i < CORE[RESULTS]; i++)
        n += TABLES[T_RESULT + i] % 4294967296 == index;
    EXPECT(told[1] == (n != 0) && told[3] <= 8 && told[4] <= 255 && told[6] <= 246);
    inside(told[5], told[6]);
}

/* Of a kept result that names a notification, if there is one. */
static uint32_t naming_index(void) {
    size_t k, i = below(64);
    for (k = 0; k < 64; k++, i = (i + 1) % 64)
        if (i < CORE[RESULTS] && TABLES[T_HEARD + i] != 0)
            return (uint32_t)TABLES[T_RESULT + i];
    return (uint32_t)(CORE[NEXT_INDEX] - below(70));
}

static unsigned long passed_on;

/* The kept notification that the result of an index names: those kept have the numbers from `first` on. */
static void read_passed_on(void) {
    uint32_t index = one_in(4) ? (uint32_t)any() : naming_index();
    int refusal = shared_refusal(false, false);
    uint64_t want[8] = {0}, heard = 0, first = CORE[NOTIFIED] - CORE[NOTIFICATIONS];
    size_t i;
    calling = "passed_on";
    barleyrope_passed_on_words(CORE, TABLES, store, store_size, index, told);
    refused_by(refusal, 8);
    if (refusal != 0)
        return;
    for (i = (size_t)CORE[RESULTS]; i-- > 0;)
        if (TABLES[T_RESULT + i] % 4294967296 == index)
            heard = TABLES[T_HEARD + i];
    if (heard > first && heard <= CORE[NOTIFIED]) {
        i = (size_t)(heard - 1 - first);
        want[1] = 1, want[2] = TABLES[T_NOTIFICATION_AT + i], want[3] = TABLES[T_LINK + i];
        want[4] = TABLES[T_NOTIFICATION + i] % 65536, want[5] = TABLES[T_NOTIFICATION + i] >> 16 & 1;
        want[6] = 31604 + 244 * i, want[7] = TABLES[T_NOTIFICATION + i] >> 56;
        passed_on++;
    }
    EXPECT(memcmp(told, want, sizeof want) == 0);
    inside(told[6], told[7]);
}

static void read_report(void) {
    size_t i = one_in(8) ? (size_t)any() : below(66);
    int refusal = shared_refusal(false, false);
    calling = "report";
    barleyrope_report_words(CORE, TABLES, store, store_size, i, told);
    refused_by(refusal, 12);
    if (refusal == 0) {
        EXPECT(told[1] == (i < CORE[REPORTS]) && told[3] <= 255 && told[4] <= 255 && told[7] <= 31 && told[8] <= 1 && told[10] <= 31);
        inside(told[6], told[7]);
        inside(told[9], told[10]);
    }
}

typedef void view(const uint64_t *, const uint64_t *, const uint8_t *, size_t, size_t, uint64_t *);

static void read_part(const char *name, view *part) {
    size_t i = one_in(8) ? (size_t)any() : below(66);
    int refusal = shared_refusal(false, false);
    calling = name;
    part(CORE, TABLES, store, store_size, i, told);
    refused_by(refusal, 8);
    if (refusal == 0) {
        EXPECT(told[1] <= (i < CORE[REPORTS]) && told[3] <= 31);
        inside(told[2], told[3]);
    }
}

static void report_body(const uint64_t *c, const uint64_t *t, const uint8_t *s, size_t n, size_t i, uint64_t *into) {
    barleyrope_uuid service = some_uuid();
    barleyrope_report_body_words(c, t, s, n, i, service.low, service.high, into);
}

/* The view and the search with no state tell the same of the report's own bytes. */
static void read_presence(void) {
    size_t i = one_in(8) ? (size_t)any() : below(66);
    int refusal = shared_refusal(false, false);
    barleyrope_uuid service = some_uuid();
    uint64_t report[12], want[8] = {0};
    calling = "report_presence";
    barleyrope_report_presence_words(CORE, TABLES, store, store_size, i, service.low, service.high, told);
    refused_by(refusal, 8);
    if (refusal != 0)
        return;
    barleyrope_report_words(CORE, TABLES, store, store_size, i, report);
    if (report[1] == 1) {
        want[1] = 1;
        want[2] = barleyrope_service_presence(store + report[6], (size_t)report[7], store + report[9], (size_t)report[10], service.low,
                                              service.high);
    }
    EXPECT(memcmp(told, want, sizeof want) == 0);
    EXPECT(want[2] <= BARLEYROPE_UNKNOWN);
}

/* ---- one call of each, in some order ------------------------------------------------------------------------------------------------ */

#define EXPORTS 16

static void call(size_t which, bool spoil) {
    lend(spoil);
    told = (uint64_t *)(void *)(told_end - 8 * (which == 10 ? 12 : 8));
    told[0] = 99;
    switch (which) {
    case 0: push_steps(spoil); break;
    case 1: on_timer(); break;
    case 2: on_connected(); break;
    case 3: on_disconnected(); break;
    case 4: on_fragment(spoil); break;
    case 5: on_advertising(spoil); break;
    case 6: on_scan_response(spoil); break;
    case 7: read_timer(); break;
    case 8: read_handle(); break;
    case 9: read_result(); break;
    case 10: read_report(); break;
    case 11: read_part("report_data", barleyrope_report_data_words); break;
    case 12: read_part("report_response", barleyrope_report_response_words); break;
    case 13: read_part("report_body", report_body); break;
    case 14: read_presence(); break;
    default: read_passed_on(); break;
    }
}

static void call_each(void) {
    size_t i, first = below(EXPORTS), stride = 1 + 2 * below(3); /* 1, 3 or 5: none shares a divisor with 16 */
    for (i = 0; i < EXPORTS; i++)
        call((first + i * stride) % EXPORTS, true);
    calling = "all of them";
    as_before();
}

/* ---- states ----------------------------------------------------------------------------------------------------------------------- */

#define GOOD 64
static struct {
    barleyrope_state state;
    uint8_t store[BARLEYROPE_STORE_SIZE];
    uint64_t now_us;
} good[GOOD];

/* So many calls on a good state, as a head and a program may bring them about. */
static void play(size_t n) {
    static const size_t often[] = {0, 0, 1, 2, 2, 3, 4, 4, 4, 4, 4, 4, 4, 4, 5, 5, 5, 6};
    fit = true;
    note();
    while (n-- > 0) {
        size_t which = often[below(sizeof often / sizeof *often)];
        if (which == 3 && !one_in(4))
            which = 4;
        now_us += below(one_in(8) ? 40000000 : 300000);
        call(which, false);
    }
}

static void load(size_t i) {
    memcpy(STATE, &good[i].state, sizeof good[i].state);
    memcpy(STORE, good[i].store, sizeof good[i].store);
    now_us = good[i].now_us;
}

static void save(size_t i) {
    memcpy(&good[i].state, STATE, sizeof good[i].state);
    memcpy(good[i].store, STORE, sizeof good[i].store);
    good[i].now_us = now_us;
}

static uint64_t damaged(uint64_t word) {
    switch (below(6)) {
    case 0: return any();
    case 1: return word + 1;
    case 2: return word - 1;
    case 3: return word ^ (UINT64_C(1) << below(64));
    case 4: return edge();
    default: return below(300);
    }
}

/* A result names a notification, one that is not kept or one that is still to come; or one's link is the last, or the next. */
static void rename_one(void) {
    if (one_in(2))
        TABLES[T_HEARD + below((size_t)CORE[RESULTS] + 1) % 64] = CORE[NOTIFIED] + 1 - below(36);
    else
        TABLES[T_LINK + below(32)] = CORE[LINKS] + 1 - below(3);
}

/* Bits 48 to 55 of a step's word: the length of its value, or the lower half of the MTU that it names. */
static uint64_t with_size(uint64_t word, uint64_t size) {
    return (word & ~(UINT64_C(255) << 48)) | size << 48;
}

/* What damage to one word seldom does: a value about as long as one may be; characteristics that rise in all places, or one too many. */
static void aim(void) {
    size_t i;
    switch (below(3)) {
    case 0: CORE[KIND] = BARLEYROPE_STEP_WRITE, CORE[LEN] = 240 + below(16); break;
    case 1:
        i = below((size_t)CORE[WAITING] + 1) % 64;
        TABLES[i] = with_size(TABLES[i], 240 + below(16));
        break;
    default:
        for (i = 0; i < 64; i++)
            TABLES[T_CHARACTERISTIC + i] = (TABLES[T_CHARACTERISTIC + i] & (UINT64_MAX >> 16)) | (uint64_t)(3 + 4 * i) << 48;
        CORE[CHARACTERISTICS] = 64 + below(2);
    }
}

static void damage_one_word(void) {
    size_t i = below(2 * BARLEYROPE_TABLE_WORDS);
    if (one_in(8))
        rename_one();
    else if (one_in(16))
        aim();
    else if (one_in(8)) /* the mode, and whether the bearer is closed */
        CORE[OPTIONS] = any(), CORE[CLOSED] = any();
    else if (i < BARLEYROPE_TABLE_WORDS)
        TABLES[i] = damaged(TABLES[i]);
    else
        CORE[i % BARLEYROPE_CORE_WORDS] = damaged(CORE[i % BARLEYROPE_CORE_WORDS]);
}

static void random_words(bool small) {
    size_t i;
    for (i = 0; i < BARLEYROPE_CORE_WORDS; i++)
        CORE[i] = !small ? any() : one_in(3) ? 0 : one_in(2) ? below(32) : edge();
    for (i = 0; i < BARLEYROPE_TABLE_WORDS; i++)
        TABLES[i] = small && one_in(2) ? any() >> 8 : any();
}

static void one_state(void) {
    size_t i = below(GOOD), n;
    load(i);
    if (one_in(4)) {
        random_words(one_in(2));
        now_us = one_in(2) ? below(1000000) : any() >> 2;
    } else {
        damage_one_word();
    }
    n = breaks();
    fit = n == 0;
    for (i = 0; i < CLAUSES && n == 1; i++)
        alone[i] += broken[i];
    note();
    call_each();
}

/* A scan that has asked 128 advertisers: more than 64 reports too. */
static void crowd(void) {
    barleyrope_step scan = barleyrope_scan(UINT32_MAX);
    uint64_t number, heard[8];
    barleyrope_push_steps(STATE, STORE, BARLEYROPE_STORE_SIZE, out_end - BARLEYROPE_OUTPUT_SIZE, BARLEYROPE_OUTPUT_SIZE, now_us, &scan, 1,
                          NULL, 0);
    for (number = 0; number < 128; number++)
        barleyrope_on_advertising_words(CORE, TABLES, STORE, BARLEYROPE_STORE_SIZE, now_us, 37, BARLEYROPE_ADV_IND, number, NULL, 0, false,
                                        heard);
}

/* Good states change: another is played further, from nothing now and then. */
static void refresh(size_t i) {
    load(i);
    if (one_in(8)) {
        barleyrope_fresh_with(STATE, any());
        now_us = below(1000000);
        if (one_in(2))
            crowd();
    }
    play(100);
    save(i);
}

int main(int argc, char **argv) {
    unsigned long count = argc > 1 ? strtoul(argv[1], NULL, 10) : 1000000, fits = 0;
    size_t i;
    seed = argc > 2 ? strtoull(argv[2], NULL, 10) : 1;
    state_end = walled(sizeof(barleyrope_state));
    store_end = walled(BARLEYROPE_STORE_SIZE);
    out_end = walled(sizeof was.out);
    told_end = walled(12 * 8);
    input_end = walled(512);
    steps_end = walled(65 * sizeof(barleyrope_step));
    for (i = 0; i < 4; i++)
        known[i] = barleyrope_short_uuid((uint32_t)(0x2800 + i));
    for (i = 0; i < GOOD; i++) {
        barleyrope_fresh_with(STATE, i); /* strict every other time */
        now_us = 0;
        play(100);
        save(i);
    }
    for (round_number = 0; round_number < count && failures == 0; round_number++) {
        thorough = round_number % 128 == 0;
        if (round_number % 64 == 0)
            refresh(below(GOOD));
        one_state();
        fits += fit;
    }
    printf("%lu states, %lu of them fit, each given to %d exports: %lu calls, %lu accepted, refused", round_number, fits, EXPORTS, calls,
           by_refusal[0]);
    for (i = 1; i < 9; i++)
        printf("%s by %u: %lu", i == 1 ? "" : ",", (unsigned)i, by_refusal[i]);
    printf("; %lu notifications told that a wait passed on; %lu calls that closed a bearer, %lu on a closed one\n", passed_on, closings, barred);
    puts("states that break one clause of fit and no other, each refused by 1 by every export:");
    calling = "no call";
    for (i = 0; i < CLAUSES; i++) {
        printf("%8lu  %s\n", alone[i], clause_says[i]);
        if (count >= 1000000)
            EXPECT(alone[i] > 0);
    }
    printf("%lu failures\n", failures);
    return failures == 0 ? 0 : 1;
}
