/*
 * A simulated radio with one bay head in its reach, for examples/collector.c: what a program has its
 * Bluetooth controller for. Time is simulated too, so a play of seconds is over at once.
 *
 *   1 bay service, 6E400001-B5A3-F393-E0A9-E50E24DCCA9E
 *   2   occupancy, 6E400003-B5A3-F393-E0A9-E50E24DCCA9E: may be read, and notifies
 *   3     its value: 1 is taken
 *   4     its configuration
 */
#ifndef HEAD_H
#define HEAD_H

#include <stdbool.h>
#include <stddef.h>
#include <stdint.h>
#include <string.h>

#define HEAD_ADDRESS UINT64_C(0xC21122334455) /* a random one */
#define HEAD_LINK 0x40                        /* the controller's handle of the link */

enum { RADIO_TIMER, RADIO_ADVERTISEMENT, RADIO_SCAN_RESPONSE, RADIO_CONNECTED, RADIO_FRAGMENT, RADIO_DISCONNECTED };

/* Something happened. */
typedef struct radio_event {
    int what;
    uint64_t at_us;
    bool start; /* of a fragment: a frame begins with it */
    size_t len;
    uint8_t bytes[31];
} radio_event;

/* ---- the radio's memory: what is going to happen, in no order -------------------------------- */

#define RADIO_ROOM 16
static radio_event radio_coming[RADIO_ROOM];
static size_t radio_count;
static uint64_t radio_now_us;
static bool radio_linked;
static uint8_t head_occupancy;

static void radio_happens(int what, uint64_t after_us, bool start, const uint8_t *bytes, size_t len)
{
    radio_event *e = &radio_coming[radio_count];
    if (radio_count == RADIO_ROOM || len > sizeof e->bytes)
        return;
    radio_count++;
    e->what = what;
    e->at_us = radio_now_us + after_us;
    e->start = start;
    e->len = len;
    if (len != 0)
        memcpy(e->bytes, bytes, len);
}

/* ---- the head -------------------------------------------------------------------------------- */

/* An ATT PDU goes out as an L2CAP frame, in fragments of 27 bytes as a link layer carries them. */
static void head_sends(const uint8_t *pdu, size_t len, uint64_t after_us)
{
    uint8_t frame[64] = {0, 0, 0x04, 0x00};
    size_t at, size = 4 + len;
    frame[0] = (uint8_t)len;
    memcpy(frame + 4, pdu, len);
    for (at = 0; at < size; at += 27)
        radio_happens(RADIO_FRAGMENT, after_us + at, at == 0, frame + at, size - at < 27 ? size - at : 27);
}

/* The answer to a request, 10 ms later; or an error of this code. */
static void head_answers(bool can, const uint8_t *answer, size_t len, const uint8_t *request, uint8_t code)
{
    uint8_t error[5] = {0x01, 0, 0, 0, 0};
    memcpy(error + 1, request, 3);
    error[4] = code;
    if (can)
        head_sends(answer, len, 10000);
    else
        head_sends(error, sizeof error, 10000);
}

/* A car comes 700 ms after the head was asked to notify. */
static void head_configured(const uint8_t *pdu)
{
    static const uint8_t taken[] = {0x1B, 3, 0, 1};
    if ((pdu[3] & 1) == 0)
        return;
    head_occupancy = 1;
    head_sends(taken, sizeof taken, 700000);
}

/* The head has heard a whole frame. */
static void head_hears(const uint8_t *frame, size_t len)
{
    static const uint8_t mtu[] = {0x03, 64, 0};
    static const uint8_t service[] = {0x11, 20, 1, 0, 4, 0, 0x9E, 0xCA, 0xDC, 0x24, 0x0E, 0xE5, 0xA9, 0xE0,
                                      0x93, 0xF3, 0xA3, 0xB5, 0x01, 0x00, 0x40, 0x6E};
    static const uint8_t characteristic[] = {0x09, 21,   2,    0,    0x12, 3,    0,    0x9E, 0xCA, 0xDC, 0x24, 0x0E,
                                             0xE5, 0xA9, 0xE0, 0x93, 0xF3, 0xA3, 0xB5, 0x03, 0x00, 0x40, 0x6E};
    static const uint8_t descriptor[] = {0x05, 1, 4, 0, 0x02, 0x29};
    static const uint8_t written[] = {0x13};
    uint8_t value[2] = {0x0B, 0};
    const uint8_t *pdu = frame + 4;
    unsigned handle;
    if (len < 7 || frame[2] != 0x04 || frame[3] != 0x00)
        return; /* not on the ATT channel, or no request */
    handle = pdu[1] + 256u * pdu[2];
    value[1] = head_occupancy;
    switch (pdu[0]) {
    case 0x02:
        head_sends(mtu, sizeof mtu, 10000);
        return;
    case 0x10: /* services, characteristics, descriptors from a handle on */
        head_answers(handle <= 1, service, sizeof service, pdu, 0x0A);
        return;
    case 0x08:
        head_answers(handle <= 2, characteristic, sizeof characteristic, pdu, 0x0A);
        return;
    case 0x04:
        head_answers(handle <= 4, descriptor, sizeof descriptor, pdu, 0x0A);
        return;
    case 0x0A:
        head_answers(handle == 3, value, sizeof value, pdu, 0x01);
        return;
    case 0x12:
        head_answers(handle == 4 && len == 9, written, sizeof written, pdu, 0x03);
        if (handle == 4 && len == 9)
            head_configured(pdu);
        return;
    default:
        return;
    }
}

/* ---- what a program does with its radio ------------------------------------------------------- */

static inline void radio_send(const uint8_t *frame, size_t len)
{
    if (radio_linked)
        head_hears(frame, len);
}

static inline void radio_scan_request(void)
{
    static const uint8_t name[] = {8, 0x09, 'B', 'a', 'y', ' ', '0', '4', '2'};
    radio_happens(RADIO_SCAN_RESPONSE, 500, false, name, sizeof name);
}

static inline void radio_connect(void)
{
    if (!radio_linked)
        radio_happens(RADIO_CONNECTED, 1000, false, NULL, 0);
    radio_linked = true;
}

static inline void radio_terminate(void)
{
    radio_happens(RADIO_DISCONNECTED, 10000, false, NULL, 0);
    radio_linked = false;
}

/*
 * Waits for the next event, until a time at most: that is a RADIO_TIMER. With no link the head
 * advertises every 150 ms.
 */
static inline radio_event radio_wait(uint64_t until_us)
{
    static const uint8_t data[] = {2, 0x01, 0x06, 17, 0x07, 0x9E, 0xCA, 0xDC, 0x24, 0x0E, 0xE5, 0xA9, 0xE0,
                                   0x93, 0xF3, 0xA3, 0xB5, 0x01, 0x00, 0x40, 0x6E};
    radio_event e = {RADIO_TIMER, 0, false, 0, {0}};
    size_t i, first = 0;
    if (radio_count == 0 && !radio_linked)
        radio_happens(RADIO_ADVERTISEMENT, 150000, false, data, sizeof data);
    for (i = 1; i < radio_count; i++)
        if (radio_coming[i].at_us < radio_coming[first].at_us)
            first = i;
    if (radio_count == 0 || until_us <= radio_coming[first].at_us) {
        e.at_us = until_us;
    } else {
        e = radio_coming[first];
        radio_coming[first] = radio_coming[--radio_count];
    }
    if (radio_now_us < e.at_us)
        radio_now_us = e.at_us;
    return e;
}

#endif /* HEAD_H */
