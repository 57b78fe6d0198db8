/*
 * One bay's whole script, from the first advertisement to the reading:
 *
 *     cc examples/collector.c $(pkg-config --cflags --libs barleyrope) -o collector && ./collector
 *
 * The radio is simulated (head.h): put your own in its place. State, store and output are static, so
 * all of it runs on 24 KiB of stack.
 */
#include <barleyrope.h>

#include <stdio.h>

#include "head.h"

static barleyrope_state state;               /* all zero: a fresh one */
static uint8_t store[BARLEYROPE_STORE_SIZE]; /* belongs to the state */
static uint8_t out[BARLEYROPE_OUTPUT_SIZE];  /* frames to send */

static int act_on(barleyrope_answer a);
static int handle(const radio_event *e);
static void tell(uint32_t index, const barleyrope_step *step);
static int tell_reading(uint32_t index);

int main(void)
{
    enum { STEPS = 9, READ = 7 };
    barleyrope_uuid bay, occupancy;
    barleyrope_step steps[STEPS];
    uint32_t seen = 0; /* results told so far */
    int refusal;

    if (!barleyrope_uuid_from_text("6E400001-B5A3-F393-E0A9-E50E24DCCA9E", &bay) ||
        !barleyrope_uuid_from_text("6E400003-B5A3-F393-E0A9-E50E24DCCA9E", &occupancy))
        return 2;
    steps[0] = barleyrope_scan(1000);                             /* for 1 s */
    steps[1] = barleyrope_connect_service(bay, 24, 0, 100, 5000); /* to a head that lists the service, within 5 s */
    steps[2] = barleyrope_exchange_mtu(185);
    steps[3] = barleyrope_discover_services();
    steps[4] = barleyrope_discover_characteristics(bay);
    steps[5] = barleyrope_subscribe(occupancy, false);
    steps[6] = barleyrope_wait_notification(occupancy, 5000, 0, 0);
    steps[READ] = barleyrope_read(occupancy);
    steps[8] = barleyrope_disconnect();

    refusal = act_on(barleyrope_push_steps(&state, store, sizeof store, out, sizeof out, 0, steps, STEPS, NULL, 0));
    while (refusal == BARLEYROPE_ACCEPTED && seen < STEPS) {
        barleyrope_timer timer = barleyrope_get_timer(&state, store, sizeof store);
        radio_event e = radio_wait(timer.is_set ? timer.at_us : UINT64_C(3600000000));
        refusal = handle(&e); /* one event, one call */
        for (; seen < barleyrope_steps_ended(&state); seen++)
            tell(seen, &steps[seen]);
    }
    if (refusal != BARLEYROPE_ACCEPTED) {
        printf("refused: %s\n", barleyrope_refusal_text(refusal));
        return 1;
    }
    return tell_reading(READ);
}

/* What a call asks for is done at once. Returns its refusal, as do the next two. */
static int act_on(barleyrope_answer a)
{
    size_t at, len;
    for (at = 0; at < a.bytes; at += len) {
        len = barleyrope_frame_size(out + at);
        radio_send(out + at, len);
    }
    if (a.request == BARLEYROPE_REQUEST_TERMINATE)
        radio_terminate();
    return a.refusal; /* this head asks for no BARLEYROPE_REQUEST_UPDATE */
}

static int hear_advertisement(const radio_event *e)
{
    barleyrope_address head = barleyrope_address_of(HEAD_ADDRESS, true);
    barleyrope_advertised a = barleyrope_on_advertising(&state, store, sizeof store, e->at_us, 37,
                                                        BARLEYROPE_ADV_IND, head, e->bytes, e->len, false);
    if (a.action == BARLEYROPE_ACTION_SCAN_REQUEST)
        radio_scan_request();
    if (a.action == BARLEYROPE_ACTION_CONNECT)
        radio_connect();
    return a.refusal;
}

static int handle(const radio_event *e)
{
    barleyrope_address head = barleyrope_address_of(HEAD_ADDRESS, true);
    switch (e->what) {
    case RADIO_ADVERTISEMENT:
        return hear_advertisement(e);
    case RADIO_SCAN_RESPONSE:
        return barleyrope_on_scan_response(&state, store, sizeof store, e->at_us, head, e->bytes, e->len);
    case RADIO_CONNECTED:
        return act_on(barleyrope_on_connected(&state, store, sizeof store, out, sizeof out, HEAD_LINK, e->at_us));
    case RADIO_FRAGMENT:
        return act_on(barleyrope_on_fragment(&state, store, sizeof store, out, sizeof out, e->at_us, e->start,
                                             e->bytes, e->len));
    case RADIO_DISCONNECTED:
        return barleyrope_on_disconnected(&state, store, sizeof store, e->at_us);
    default:
        return act_on(barleyrope_on_timer(&state, store, sizeof store, out, sizeof out, e->at_us));
    }
}

static void tell(uint32_t index, const barleyrope_step *step)
{
    barleyrope_result r = barleyrope_get_result(&state, store, sizeof store, index);
    printf("step %u, %s: %s, at %llu ms\n", (unsigned)index, barleyrope_kind_text(step->kind),
           barleyrope_status_text(r.status), (unsigned long long)(r.at_us / 1000));
}

/* The value that a read got: one byte, 0 for a free bay. Returns 0 if there is one. */
static int tell_reading(uint32_t index)
{
    barleyrope_result r = barleyrope_get_result(&state, store, sizeof store, index);
    if (!r.is_kept || r.status != BARLEYROPE_OK || r.value_len != 1) {
        printf("no reading\n");
        return 1;
    }
    printf("the bay is %s\n", r.value[0] != 0 ? "taken" : "free");
    return 0;
}
