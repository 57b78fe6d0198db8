/*
 * A simulated HCI controller at the other end of a serial line, for examples/uart.c: it speaks H4 with the
 * program and has the head of head.h in its radio's reach. The line is a socket pair.
 */
#ifndef CONTROLLER_H
#define CONTROLLER_H

#include <barleyrope.h>

#include <fcntl.h>
#include <sys/socket.h>
#include <unistd.h>

#include "head.h"

/* The HCI commands that it knows (Vol 4 Part E 7). */
enum {
    HCI_DISCONNECT = 0x0406,
    HCI_RESET = 0x0C03,
    HCI_SET_SCAN_PARAMETERS = 0x200B,
    HCI_SET_SCAN_ENABLE = 0x200C,
    HCI_CREATE_CONNECTION = 0x200D
};

/* The events that it sends, and the subevents of LE Meta (7.7). */
enum {
    HCI_DISCONNECTION_COMPLETE = 0x05,
    HCI_COMMAND_COMPLETE = 0x0E,
    HCI_COMMAND_STATUS = 0x0F,
    HCI_NUMBER_OF_COMPLETED_PACKETS = 0x13,
    HCI_LE_META = 0x3E,
    HCI_LE_CONNECTION_COMPLETE = 0x01,
    HCI_LE_ADVERTISING_REPORT = 0x02
};

static int line_of_program = -1, line_of_controller = -1;
static barleyrope_h4_stream controller_stream;
static bool controller_scans;
static uint8_t controller_frame[256]; /* what has come of a frame for the head */
static size_t controller_framed;

/* ---- what it sends --------------------------------------------------------------------------- */

static void controller_sends(const uint8_t *packet, barleyrope_h4_built built)
{
    if (built.refusal == BARLEYROPE_ACCEPTED && write(line_of_controller, packet, built.bytes) < 0)
        return; /* the program is gone */
}

/* A report of what was heard: of event type 0, ADV_IND, or 4, a scan response. */
static void controller_reports(uint8_t type, const uint8_t *data, size_t len)
{
    uint8_t params[9 + 31 + 1] = {1, 0, 1, 0x55, 0x44, 0x33, 0x22, 0x11, 0xC2, 0}, packet[64];
    params[1] = type;
    params[9] = (uint8_t)len;
    memcpy(params + 10, data, len);
    params[10 + len] = 0xC8; /* -56 dBm */
    if (controller_scans)
        controller_sends(packet, barleyrope_h4_le_meta(packet, sizeof packet, HCI_LE_ADVERTISING_REPORT, params, 11 + len));
    if (controller_scans && type == 0)
        radio_scan_request(); /* an active scan asks by itself */
}

/* What happened on the air becomes a packet. */
static void controller_tells(const radio_event *e)
{
    static const uint8_t connected[18] = {0, HEAD_LINK, 0, 0, 1, 0x55, 0x44, 0x33, 0x22, 0x11, 0xC2, 24, 0, 0, 0, 100, 0, 0};
    static const uint8_t disconnected[4] = {0, HEAD_LINK, 0, 0x16}; /* ended by this side */
    uint8_t packet[64];
    switch (e->what) {
    case RADIO_ADVERTISEMENT:
        controller_reports(0, e->bytes, e->len);
        return;
    case RADIO_SCAN_RESPONSE:
        controller_reports(4, e->bytes, e->len);
        return;
    case RADIO_CONNECTED:
        controller_sends(packet, barleyrope_h4_le_meta(packet, sizeof packet, HCI_LE_CONNECTION_COMPLETE, connected,
                                                       sizeof connected));
        return;
    case RADIO_FRAGMENT:
        controller_sends(packet, barleyrope_h4_acl(packet, sizeof packet, HEAD_LINK, e->start ? 2 : 1, e->bytes, e->len));
        return;
    case RADIO_DISCONNECTED:
        controller_sends(packet, barleyrope_h4_event(packet, sizeof packet, HCI_DISCONNECTION_COMPLETE, disconnected,
                                                     sizeof disconnected));
        return;
    default:
        return;
    }
}

/* ---- what it is told ------------------------------------------------------------------------- */

static void controller_obeys(uint16_t opcode, const uint8_t *params, size_t len)
{
    uint8_t packet[16], status = 0;
    if (opcode == HCI_CREATE_CONNECTION || opcode == HCI_DISCONNECT) {
        controller_sends(packet, barleyrope_h4_command_status(packet, sizeof packet, 1, 0, opcode));
        if (opcode == HCI_CREATE_CONNECTION)
            radio_connect();
        else
            radio_terminate();
        return;
    }
    if (opcode == HCI_SET_SCAN_ENABLE && len > 0)
        controller_scans = params[0] == 1;
    else if (opcode != HCI_RESET && opcode != HCI_SET_SCAN_PARAMETERS)
        status = 0x01; /* unknown HCI command */
    controller_sends(packet, barleyrope_h4_command_complete(packet, sizeof packet, 1, opcode, &status, 1));
}

/* A part of a frame for the head. Once it is on the air, the program may send one packet more. */
static void controller_carries(const barleyrope_h4_acl_parts *acl)
{
    const barleyrope_h4_completed one = {HEAD_LINK, 1};
    uint8_t packet[16];
    if (acl->flag == 0)
        controller_framed = 0;
    if (acl->data_len > sizeof controller_frame - controller_framed)
        return;
    memcpy(controller_frame + controller_framed, acl->data, acl->data_len);
    controller_framed += acl->data_len;
    if (controller_framed >= 4 && controller_framed == barleyrope_frame_size(controller_frame))
        radio_send(controller_frame, controller_framed);
    controller_sends(packet, barleyrope_h4_number_of_completed_packets(packet, sizeof packet, &one, 1));
}

static void controller_takes(const uint8_t *packet, size_t len)
{
    barleyrope_h4_acl_parts acl = barleyrope_h4_split_acl(packet, len);
    if (acl.is_acl && acl.handle == HEAD_LINK)
        controller_carries(&acl);
    else if (packet[0] == BARLEYROPE_H4_COMMAND)
        controller_obeys((uint16_t)(packet[1] + 256 * packet[2]), packet + 4, len - 4);
}

static void controller_hears(void)
{
    static uint8_t in[512], packets[BARLEYROPE_H4_MAX_PACKET + sizeof in];
    size_t at, len;
    ssize_t n;
    while ((n = read(line_of_controller, in, sizeof in)) > 0) {
        barleyrope_h4_fed fed = barleyrope_h4_feed(&controller_stream, in, (size_t)n, packets, sizeof packets);
        for (at = 0; at < fed.bytes; at += len) {
            len = barleyrope_h4_packet_len(packets + at, fed.bytes - at).len;
            controller_takes(packets + at, len);
        }
    }
}

/* ---- what a program does with its serial port ------------------------------------------------- */

/* Opens the line. Returns whether it could. */
static inline bool line_open(void)
{
    int ends[2];
    if (socketpair(AF_UNIX, SOCK_STREAM, 0, ends) != 0)
        return false;
    line_of_program = ends[0];
    line_of_controller = ends[1];
    return fcntl(ends[0], F_SETFL, O_NONBLOCK) == 0 && fcntl(ends[1], F_SETFL, O_NONBLOCK) == 0;
}

static inline bool line_write(const uint8_t *bytes, size_t len)
{
    return write(line_of_program, bytes, len) == (ssize_t)len;
}

/*
 * Waits for bytes, at most so many, until a time at most: then there are none. The controller does its work
 * meanwhile. *now_us is the time when it returns.
 */
static inline size_t line_read(uint8_t *bytes, size_t most, uint64_t until_us, uint64_t *now_us)
{
    for (;;) {
        radio_event e;
        ssize_t n;
        controller_hears();
        n = read(line_of_program, bytes, most);
        *now_us = radio_now_us;
        if (n > 0)
            return (size_t)n;
        e = radio_wait(until_us);
        *now_us = radio_now_us;
        if (e.what == RADIO_TIMER)
            return 0;
        controller_tells(&e);
    }
}

/* A disturbance: a whole packet comes, and then a byte that begins none. */
static inline void line_disturb(void)
{
    uint8_t packet[16];
    barleyrope_h4_built built = barleyrope_h4_command_status(packet, sizeof packet, 1, 0, 0);
    packet[built.bytes++] = 0xFF;
    controller_sends(packet, built);
}

#endif /* CONTROLLER_H */
