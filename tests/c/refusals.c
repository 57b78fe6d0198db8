/* Refusal 2 in every call and every view: a store one byte short, one byte long, or none, and an output one byte short, or none, in
 * the four calls that lend one. The same call is accepted with the right sizes and then changes what it is there to change; refused,
 * it tells 2 and nothing else, and every byte lent is as before. Refusal 1 comes before it, 3 and the others behind it.
 * And the count of links: every call refuses one above 2^62, and a kept notification of a link that is not counted yet, by 1; a
 * connected call refuses 2^62 by 5.
 *
 * The sanitizers see this file and not the archive: what is lent lies against a page that may not be touched.
 * Prints what was tried and ends with 0; or prints the failures and ends with 1. */
#define _DEFAULT_SOURCE
#include "barleyrope.h"

#include <stdio.h>
#include <stdlib.h>
#include <string.h>

#include "walled.h"

/* Nothing here allocates: the search for leaks at the end would take seconds and find none. */
const char *__asan_default_options(void);
const char *__asan_default_options(void) {
    return "detect_leaks=0";
}

static unsigned long checks, failures;
static const char *calling = "nothing";

static void expect(bool ok, const char *what, int line) {
    checks++;
    if (ok)
        return;
    failures++;
    fprintf(stderr, "tests/c/refusals.c:%d: %s: %s\n", line, calling, what);
}

#define EXPECT(ok) expect((ok), #ok, __LINE__)

/* ---- memory ------------------------------------------------------------------------------------------------------------------- */

#define STORE_SIZE BARLEYROPE_STORE_SIZE
#define OUTPUT_SIZE BARLEYROPE_OUTPUT_SIZE
#define SEAL 0xA5 /* stands in the output, and behind the bytes of the store */

static barleyrope_state state;                      /* what is lent */
static uint8_t *store_end, *out_end;                /* what is lent ends there */
static struct { barleyrope_state state; uint8_t store[STORE_SIZE]; } good; /* a state in which every call has something to do */

/* The good state's bytes, as far as they go, in a store of this size. */
static uint8_t *lent_store(size_t size) {
    uint8_t *store = store_end - size;
    memset(store, SEAL, size);
    memcpy(store, good.store, size < STORE_SIZE ? size : STORE_SIZE);
    return size == 0 ? NULL : store;
}

static uint8_t *lent_output(size_t size) {
    memset(out_end - size, SEAL, size);
    return size == 0 ? NULL : out_end - size;
}

static bool sealed(const uint8_t *from, size_t size) {
    size_t i;
    for (i = 0; i < size; i++)
        if (from[i] != SEAL)
            return false;
    return true;
}

/* ---- the calls ---------------------------------------------------------------------------------------------------------------- */

/* What is lent, and the time; `wrong` makes the other arguments ones that a later refusal is for. */
typedef struct lent {
    uint8_t *store, *out;
    size_t store_size, out_size;
    uint64_t at;
    bool wrong;
} lent;

static const barleyrope_address head = {UINT64_C(0xC20000000001), true};
static const uint8_t listing[] = {0x03, 0x03, 0x0F, 0x18};
#define FAR_US UINT64_C(100000000) /* behind the scan's deadline */
#define MOST_LINKS (UINT64_C(1) << 62)
enum { AGED = 2 };                         /* the number of the aged wait that passed */
enum { PHASE = 4, HELD = 17, LINKS = 34 }; /* words of the core */
enum { T_LINK = 1056 };                    /* of the tables: the link of the first notification */

static void push_steps(const lent *l, uint64_t *told) {
    barleyrope_step steps[65];
    size_t i;
    for (i = 0; i < 65; i++)
        steps[i] = barleyrope_wait(1);
    barleyrope_push_steps_words(state.core, state.tables, l->store, l->store_size, l->out, l->out_size, l->at,
                                (const uint64_t *)(const void *)steps, sizeof steps / 8, l->wrong ? 65 : 1, NULL, 0, told);
}

static void on_timer(const lent *l, uint64_t *told) {
    barleyrope_on_timer_words(state.core, state.tables, l->store, l->store_size, l->out, l->out_size, l->at, told);
}

static void on_connected(const lent *l, uint64_t *told) {
    barleyrope_on_connected_words(state.core, state.tables, l->store, l->store_size, l->out, l->out_size, 65, l->at, told);
}

/* A request of the peer, which is answered; or more bytes than are held. */
static void on_fragment(const lent *l, uint64_t *told) {
    static const uint8_t asked[] = {3, 0, 4, 0, 0x02, 0xF7, 0};
    static const uint8_t longest[252] = {0xF8, 0, 4, 0, 0x1B};
    barleyrope_on_fragment_words(state.core, state.tables, l->store, l->store_size, l->out, l->out_size, l->at, true,
                                 l->wrong ? longest : asked, l->wrong ? sizeof longest : sizeof asked, told);
}

static void on_disconnected(const lent *l, uint64_t *told) {
    barleyrope_on_disconnected_words(state.core, state.tables, l->store, l->store_size, l->at, told);
}

static void on_advertising(const lent *l, uint64_t *told) {
    static const uint8_t longer[32];
    barleyrope_on_advertising_words(state.core, state.tables, l->store, l->store_size, l->at, 38, BARLEYROPE_ADV_IND,
                                    barleyrope_address_word(head), l->wrong ? longer : listing,
                                    l->wrong ? sizeof longer : sizeof listing, false, told);
}

static void on_scan_response(const lent *l, uint64_t *told) {
    static const uint8_t longer[32];
    barleyrope_on_scan_response_words(state.core, state.tables, l->store, l->store_size, l->at, barleyrope_address_word(head),
                                      l->wrong ? longer : listing + 1, l->wrong ? sizeof longer : 1, told);
}

static void timer_us(const lent *l, uint64_t *told) {
    barleyrope_timer_us_words(state.core, state.tables, l->store, l->store_size, told);
}

static void connected_handle(const lent *l, uint64_t *told) {
    barleyrope_connected_handle_words(state.core, state.tables, l->store, l->store_size, told);
}

static void result(const lent *l, uint64_t *told) {
    barleyrope_result_words(state.core, state.tables, l->store, l->store_size, 0, told);
}

static void passed_on(const lent *l, uint64_t *told) {
    barleyrope_passed_on_words(state.core, state.tables, l->store, l->store_size, AGED, told);
}

static void report(const lent *l, uint64_t *told) {
    barleyrope_report_words(state.core, state.tables, l->store, l->store_size, 0, told);
}

static void report_data(const lent *l, uint64_t *told) {
    barleyrope_report_data_words(state.core, state.tables, l->store, l->store_size, 0, told);
}

static void report_response(const lent *l, uint64_t *told) {
    barleyrope_report_response_words(state.core, state.tables, l->store, l->store_size, 0, told);
}

static void report_body(const lent *l, uint64_t *told) {
    barleyrope_uuid battery = barleyrope_short_uuid(0x180F);
    barleyrope_report_body_words(state.core, state.tables, l->store, l->store_size, 0, battery.low, battery.high, told);
}

static void report_presence(const lent *l, uint64_t *told) {
    barleyrope_uuid battery = barleyrope_short_uuid(0x180F);
    barleyrope_report_presence_words(state.core, state.tables, l->store, l->store_size, 0, battery.low, battery.high, told);
}

/* A later refusal than 2 that the call has for its own arguments; 0 for none. */
static const struct call {
    const char *name;
    void (*make)(const lent *, uint64_t *);
    size_t words;
    bool sends, reads;
    uint64_t later;
} all[] = {
    {"push_steps", push_steps, 8, true, false, 4},
    {"on_timer", on_timer, 8, true, false, 0},
    {"on_connected", on_connected, 8, true, false, 0},
    {"on_fragment", on_fragment, 8, true, false, 7},
    {"on_disconnected", on_disconnected, 8, false, false, 0},
    {"on_advertising", on_advertising, 8, false, false, 6},
    {"on_scan_response", on_scan_response, 8, false, false, 6},
    {"timer_us", timer_us, 8, false, true, 0},
    {"connected_handle", connected_handle, 8, false, true, 0},
    {"result", result, 8, false, true, 0},
    {"passed_on", passed_on, 8, false, true, 0},
    {"report", report, 12, false, true, 0},
    {"report_data", report_data, 8, false, true, 0},
    {"report_response", report_response, 8, false, true, 0},
    {"report_body", report_body, 8, false, true, 0},
    {"report_presence", report_presence, 8, false, true, 0},
};

/* ---- one call with what is lent to it ----------------------------------------------------------------------------------------- */

static unsigned long refused;

/* Makes the call on the state as it stands and hands back its refusal; with one, everything must be as it was. */
static uint64_t made_here(const struct call *c, size_t store_size, size_t out_size, uint64_t at, bool wrong) {
    uint64_t told[12];
    barleyrope_state before;
    lent l;
    size_t i, bytes = store_size < STORE_SIZE ? store_size : STORE_SIZE;
    bool same;
    before = state;
    l.store = lent_store(store_size), l.store_size = store_size;
    l.out = lent_output(out_size), l.out_size = out_size;
    l.at = at, l.wrong = wrong;
    calling = c->name;
    memset(told, 0xFF, sizeof told);
    c->make(&l, told);
    for (i = c->words; i < 12; i++)
        EXPECT(told[i] == UINT64_MAX);
    if (told[0] == 7) /* what is held of a frame goes, and nothing else */
        before.core[HELD] = 0;
    same = memcmp(&before, &state, sizeof state) == 0 && (bytes == 0 || memcmp(l.store, good.store, bytes) == 0) &&
           sealed(store_end - (store_size - bytes), store_size - bytes) && sealed(out_end - out_size, out_size);
    if (told[0] == 0) {
        /* a call changes something, a reader has something to tell */
        EXPECT(c->reads ? same && told[1] == 1 : !same);
        return 0;
    }
    refused++;
    for (i = 1; i < c->words; i++)
        EXPECT(told[i] == 0);
    EXPECT(same);
    return told[0];
}

/* On the good state, or on one that is not fit. */
static uint64_t made(const struct call *c, size_t store_size, size_t out_size, uint64_t at, bool wrong, bool fit) {
    state = good.state;
    if (!fit)
        state.core[PHASE] = 3;
    return made_here(c, store_size, out_size, at, wrong);
}

/* On the good state with so many links counted, a kept notification of this one, and a place behind it that is not in use. */
static uint64_t made_linked(const struct call *c, size_t store_size, uint64_t at, uint64_t links, uint64_t link) {
    state = good.state;
    state.core[LINKS] = links;
    state.tables[T_LINK] = link;
    state.tables[T_LINK + 1] = UINT64_MAX;
    return made_here(c, store_size, OUTPUT_SIZE, at, false);
}

static void try_links(const struct call *c) {
    const uint64_t late = MOST_LINKS + 1, full = c->make == on_connected ? 5 : 0;
    EXPECT(made_linked(c, STORE_SIZE, FAR_US, MOST_LINKS - 1, MOST_LINKS - 1) == 0);
    EXPECT(made_linked(c, STORE_SIZE, FAR_US, MOST_LINKS - 1, MOST_LINKS) == 1);
    EXPECT(made_linked(c, STORE_SIZE, FAR_US, MOST_LINKS, MOST_LINKS) == full);
    EXPECT(made_linked(c, STORE_SIZE, FAR_US, MOST_LINKS, 0) == full);
    EXPECT(made_linked(c, STORE_SIZE, FAR_US, MOST_LINKS + 1, 0) == 1);
    EXPECT(made_linked(c, STORE_SIZE, FAR_US, UINT64_MAX, UINT64_MAX) == 1);
    EXPECT(made_linked(c, STORE_SIZE, FAR_US, 0, 0) == 0);
    EXPECT(made_linked(c, STORE_SIZE, FAR_US, 0, 1) == 1);
    /* 1, 2 and 3 come before 5 */
    EXPECT(made_linked(c, STORE_SIZE - 1, late, MOST_LINKS, MOST_LINKS + 1) == 1);
    EXPECT(made_linked(c, STORE_SIZE - 1, late, MOST_LINKS, MOST_LINKS) == 2);
    if (!c->reads)
        EXPECT(made_linked(c, STORE_SIZE, late, MOST_LINKS, MOST_LINKS) == 3);
}

static void try_sizes(const struct call *c) {
    static const size_t stores[] = {STORE_SIZE - 1, STORE_SIZE + 1, 0, 1, STORE_SIZE / 2};
    static const size_t outputs[] = {OUTPUT_SIZE - 1, 0};
    const uint64_t late = (UINT64_C(1) << 62) + 1;
    size_t i;
    EXPECT(made(c, STORE_SIZE, OUTPUT_SIZE, FAR_US, false, true) == 0);
    EXPECT(made(c, STORE_SIZE, OUTPUT_SIZE + 1, FAR_US, false, true) == 0);
    for (i = 0; i < sizeof stores / sizeof *stores; i++) {
        EXPECT(made(c, stores[i], OUTPUT_SIZE, FAR_US, false, true) == 2);
        /* before 3, before the call's own, behind 1 */
        EXPECT(made(c, stores[i], OUTPUT_SIZE, late, false, true) == 2);
        EXPECT(made(c, stores[i], OUTPUT_SIZE, FAR_US, true, true) == 2);
        EXPECT(made(c, stores[i], OUTPUT_SIZE, FAR_US, false, false) == 1);
    }
    for (i = 0; i < sizeof outputs / sizeof *outputs; i++) {
        /* who lends no output does not ask for its size */
        EXPECT(made(c, STORE_SIZE, outputs[i], FAR_US, false, true) == (c->sends ? 2 : 0));
        EXPECT(made(c, STORE_SIZE, outputs[i], FAR_US, true, true) == (c->sends ? 2 : c->later));
        EXPECT(made(c, STORE_SIZE, outputs[i], late, false, true) == (c->sends ? 2 : c->reads ? 0 : 3));
        EXPECT(made(c, STORE_SIZE - 1, outputs[i], FAR_US, false, true) == 2);
        EXPECT(made(c, STORE_SIZE, outputs[i], FAR_US, false, false) == 1);
    }
    /* with the right sizes it is the later one */
    if (c->later != 0)
        EXPECT(made(c, STORE_SIZE, OUTPUT_SIZE, FAR_US, true, true) == c->later);
    if (!c->reads)
        EXPECT(made(c, STORE_SIZE, OUTPUT_SIZE, late, false, true) == 3);
}

static uint8_t frames[OUTPUT_SIZE];

static void begins(uint64_t at, barleyrope_step step) {
    EXPECT(barleyrope_push_steps(&good.state, good.store, STORE_SIZE, frames, OUTPUT_SIZE, at, &step, 1, NULL, 0).refusal == 0);
}

static void comes(uint64_t at, const uint8_t *frame, size_t size) {
    EXPECT(barleyrope_on_fragment(&good.state, good.store, STORE_SIZE, frames, OUTPUT_SIZE, at, true, frame, size).refusal == 0);
}

/* Steps 0 to AGED: a link, a characteristic that is discovered, and an aged wait that passes on what it notifies. */
static void pass_on(void) {
    static const uint8_t service[] = {8, 0, 4, 0, 0x11, 6, 1, 0, 0xFF, 0xFF, 0x0F, 0x18};
    static const uint8_t characteristic[] = {9, 0, 4, 0, 0x09, 7, 2, 0, 0x12, 3, 0, 0x19, 0x2A};
    static const uint8_t no_more[] = {5, 0, 4, 0, 0x01, 0x08, 3, 0, 0x0A}, no_descriptor[] = {5, 0, 4, 0, 0x01, 0x04, 4, 0, 0x0A};
    static const uint8_t notified[] = {4, 0, 4, 0, 0x1B, 3, 0, 7};
    begins(0, barleyrope_connect_any(24, 0, 200, 5000));
    EXPECT(barleyrope_on_connected(&good.state, good.store, STORE_SIZE, frames, OUTPUT_SIZE, 64, 10).refusal == 0);
    begins(11, barleyrope_discover_characteristics(barleyrope_short_uuid(0x180F)));
    comes(12, service, sizeof service);
    comes(13, characteristic, sizeof characteristic);
    comes(14, no_more, sizeof no_more);
    comes(15, no_descriptor, sizeof no_descriptor);
    begins(16, barleyrope_wait_notification_aged(barleyrope_short_uuid(0x2A19), 1000, 0, 0, 0));
    comes(17, notified, sizeof notified);
    EXPECT(barleyrope_steps_ended(&good.state) == AGED + 1 && good.state.core[LINKS] == 1 && good.state.tables[T_LINK] == 1);
}

/* A link with a frame begun, three results, a scan that runs, and a report that lists 180F and has a scan response. */
static void prepare(void) {
    static const uint8_t begun[] = {9, 0, 4, 0, 0x1B};
    calling = "prepare";
    pass_on();
    begins(20, barleyrope_scan(60000));
    EXPECT(barleyrope_on_advertising(&good.state, good.store, STORE_SIZE, 30, 37, BARLEYROPE_ADV_IND, head, listing, sizeof listing,
                                     false)
               .refusal == 0);
    EXPECT(barleyrope_on_scan_response(&good.state, good.store, STORE_SIZE, 40, head, listing, sizeof listing) == 0);
    comes(50, begun, sizeof begun);
    EXPECT(good.state.core[HELD] == sizeof begun);
}

int main(void) {
    size_t i;
    store_end = walled(STORE_SIZE + 1);
    out_end = walled(OUTPUT_SIZE + 1);
    prepare();
    for (i = 0; i < sizeof all / sizeof *all; i++) {
        try_sizes(&all[i]);
        try_links(&all[i]);
    }
    printf("%u calls and views with other sizes lent and other counts of links: %lu refused, %lu checks, %lu failures\n",
           (unsigned)(sizeof all / sizeof *all), refused, checks, failures);
    return failures == 0 ? 0 : 1;
}
