/*
 * One bay's whole script over a serial line: the radio is an HCI controller on a UART.
 *
 *     cc examples/uart.c $(pkg-config --cflags --libs barleyrope) -o uart && ./uart
 *
 * What comes in is cut into packets; events and ACL packets become calls; frames go out as ACL packets. The
 * controller is simulated (controller.h): put your serial port in place of its line.
 */
#define _POSIX_C_SOURCE 200809L
#include <barleyrope.h>

#include <stdio.h>

#include "controller.h"

#define UART_FIFO 16 /* bytes that come at once */
#define ACL_SIZE 27  /* bytes of data that this controller takes in a packet */

static barleyrope_state state;               /* all zero: a fresh one */
static uint8_t store[BARLEYROPE_STORE_SIZE]; /* belongs to the state */
static uint8_t out[BARLEYROPE_OUTPUT_SIZE];  /* frames to send */
static barleyrope_h4_stream stream;          /* what comes in; all zero too */
static uint64_t now_us;
static bool connecting;
static size_t reads, packets_in, bytes_in;

/* ---- to the controller ------------------------------------------------------------------------- */

static void command(uint16_t opcode, const char *what, const uint8_t *params, uint8_t len)
{
    uint8_t packet[4 + 32] = {BARLEYROPE_H4_COMMAND, 0, 0, 0};
    packet[1] = (uint8_t)opcode, packet[2] = (uint8_t)(opcode >> 8), packet[3] = len;
    if (len != 0)
        memcpy(packet + 4, params, len);
    printf("%4u ms  > command: %s\n", (unsigned)(now_us / 1000), what);
    line_write(packet, (size_t)4 + len);
}

static void scan(bool on)
{
    uint8_t enable[2] = {0, 0};
    enable[0] = on ? 1 : 0;
    command(HCI_SET_SCAN_ENABLE, on ? "begin to scan" : "end the scan", enable, sizeof enable);
}

/* Own address public, intervals and timeouts as the script has them. */
static void connect_to(const uint8_t address[6], const barleyrope_advertised *a)
{
    uint8_t p[25] = {0x60, 0, 0x30, 0, 0, 1};
    memcpy(p + 6, address, 6);
    p[13] = p[15] = (uint8_t)a->interval, p[14] = p[16] = (uint8_t)(a->interval >> 8);
    p[17] = (uint8_t)a->latency, p[18] = (uint8_t)(a->latency >> 8);
    p[19] = (uint8_t)a->timeout, p[20] = (uint8_t)(a->timeout >> 8);
    scan(false);
    command(HCI_CREATE_CONNECTION, "connect", p, sizeof p);
    connecting = true;
}

/* A frame goes out in ACL packets: the first begins it, the others go on with it. */
static void send_frame(uint16_t handle, const uint8_t *frame, size_t size)
{
    uint8_t packet[5 + ACL_SIZE];
    size_t at, n;
    printf("%4u ms  > frame of %u bytes on link %u\n", (unsigned)(now_us / 1000), (unsigned)size, handle);
    for (at = 0; at < size; at += n) {
        n = size - at < ACL_SIZE ? size - at : ACL_SIZE;
        line_write(packet, barleyrope_h4_acl(packet, sizeof packet, handle, at == 0 ? 0 : 1, frame + at, n).bytes);
    }
}

/* What a call asks for is done at once. Returns its refusal, as do all below. */
static int act_on(barleyrope_answer a)
{
    uint16_t handle = barleyrope_get_link(&state, store, sizeof store).handle;
    uint8_t end[3];
    size_t at, len;
    for (at = 0; at < a.bytes; at += len) {
        len = barleyrope_frame_size(out + at);
        send_frame(handle, out + at, len);
    }
    end[0] = (uint8_t)handle, end[1] = (uint8_t)(handle >> 8), end[2] = a.reason;
    if (a.request == BARLEYROPE_REQUEST_TERMINATE)
        command(HCI_DISCONNECT, "disconnect", end, sizeof end);
    return a.refusal; /* this head asks for no BARLEYROPE_REQUEST_UPDATE */
}

/* ---- from the controller ----------------------------------------------------------------------- */

/* LE Advertising Report: its count (always 1 here), type, address type, address, length, data, RSSI. */
static int on_report(const uint8_t *params, size_t len)
{
    barleyrope_advertised a;
    barleyrope_address head;
    if (len < 11 || len < (size_t)11 + params[9])
        return BARLEYROPE_ACCEPTED;
    head = barleyrope_address_from_octets(params + 3, params[2] == 1);
    printf("%4u ms  < %s, %u bytes\n", (unsigned)(now_us / 1000), params[1] == 4 ? "scan response" : "advertisement",
           params[9]);
    if (params[1] == 4)
        return barleyrope_on_scan_response(&state, store, sizeof store, now_us, head, params + 10, params[9]);
    a = barleyrope_on_advertising(&state, store, sizeof store, now_us, 0, barleyrope_pdu_of_hci(params[1]), head,
                                  params + 10, params[9], false);
    if (a.action == BARLEYROPE_ACTION_CONNECT && !connecting)
        connect_to(params + 3, &a);
    return a.refusal;
}

/* LE Meta. */
static int on_le(const uint8_t *params, size_t len)
{
    uint16_t handle;
    if (len >= 1 && params[0] == HCI_LE_ADVERTISING_REPORT)
        return on_report(params + 1, len - 1);
    if (len < 19 || params[0] != HCI_LE_CONNECTION_COMPLETE || params[1] != 0)
        return BARLEYROPE_ACCEPTED;
    handle = (uint16_t)(params[2] + 256 * params[3]);
    printf("%4u ms  < connected: link %u\n", (unsigned)(now_us / 1000), handle);
    return act_on(barleyrope_on_connected(&state, store, sizeof store, out, sizeof out, handle, now_us));
}

static int on_event(uint8_t code, const uint8_t *params, size_t len)
{
    switch (code) {
    case HCI_LE_META:
        return on_le(params, len);
    case HCI_DISCONNECTION_COMPLETE:
        printf("%4u ms  < disconnected\n", (unsigned)(now_us / 1000));
        return barleyrope_on_disconnected(&state, store, sizeof store, now_us);
    case HCI_COMMAND_COMPLETE:
        printf("%4u ms  < command %s\n", (unsigned)(now_us / 1000), len > 3 && params[3] == 0 ? "done" : "failed");
        return BARLEYROPE_ACCEPTED;
    case HCI_COMMAND_STATUS:
        printf("%4u ms  < command %s\n", (unsigned)(now_us / 1000), len > 0 && params[0] == 0 ? "begun" : "failed");
        return BARLEYROPE_ACCEPTED;
    default:
        return BARLEYROPE_ACCEPTED; /* completed packets: one frame at a time needs no count */
    }
}

static int on_packet(const uint8_t *packet, size_t len)
{
    barleyrope_link link = barleyrope_get_link(&state, store, sizeof store);
    barleyrope_h4_fragment f = barleyrope_h4_fragment_of(packet, len, link.handle);
    packets_in++;
    if (packet[0] == BARLEYROPE_H4_EVENT)
        return on_event(packet[1], packet + 3, len - 3);
    if (!link.is_up || !f.is_there)
        return BARLEYROPE_ACCEPTED;
    printf("%4u ms  < %s of %u bytes on link %u\n", (unsigned)(now_us / 1000), f.start ? "start" : "more",
           (unsigned)f.data_len, link.handle);
    return act_on(barleyrope_on_fragment(&state, store, sizeof store, out, sizeof out, now_us, f.start, f.data,
                                         f.data_len));
}

/* Bytes come, as many as the UART has; the packets that are whole are taken. */
static int on_bytes(const uint8_t *bytes, size_t n)
{
    static uint8_t packets[BARLEYROPE_H4_MAX_PACKET + UART_FIFO];
    barleyrope_h4_fed fed = barleyrope_h4_feed(&stream, bytes, n, packets, sizeof packets);
    size_t at, len;
    int refusal = BARLEYROPE_ACCEPTED;
    reads++, bytes_in += n;
    for (at = 0; at < fed.bytes && refusal == BARLEYROPE_ACCEPTED; at += len) {
        len = barleyrope_h4_packet_len(packets + at, fed.bytes - at).len;
        refusal = on_packet(packets + at, len);
    }
    return fed.refusal != BARLEYROPE_ACCEPTED ? fed.refusal : refusal;
}

/* Waits for bytes or for the running step's deadline. */
static int wait_once(void)
{
    barleyrope_timer timer = barleyrope_get_timer(&state, store, sizeof store);
    uint8_t bytes[UART_FIFO];
    size_t n = line_read(bytes, sizeof bytes, timer.is_set ? timer.at_us : now_us + 1000000, &now_us);
    if (n != 0)
        return on_bytes(bytes, n);
    return timer.is_set ? act_on(barleyrope_on_timer(&state, store, sizeof store, out, sizeof out, now_us))
                        : BARLEYROPE_ACCEPTED;
}

/* ---- the script -------------------------------------------------------------------------------- */

static void tell(uint32_t index, const barleyrope_step *step)
{
    barleyrope_result r = barleyrope_get_result(&state, store, sizeof store, index);
    printf("%4u ms  step %u, %s: %s\n", (unsigned)(r.at_us / 1000), (unsigned)index, barleyrope_kind_text(step->kind),
           barleyrope_status_text(r.status));
}

/* A byte of noise loses the stream; a reset of both sides finds it again. */
static int survive_noise(void)
{
    int refusal;
    line_disturb();
    do
        refusal = wait_once();
    while (refusal == BARLEYROPE_ACCEPTED);
    printf("%4u ms  refused: %s\n", (unsigned)(now_us / 1000), barleyrope_refusal_text(refusal));
    barleyrope_h4_reset(&stream);
    command(HCI_RESET, "reset", NULL, 0);
    return wait_once();
}

int main(void)
{
    enum { STEPS = 9, READ = 7 };
    static const uint8_t active[7] = {1, 0x10, 0, 0x10, 0, 0, 0};
    barleyrope_uuid bay, occupancy;
    barleyrope_step steps[STEPS];
    barleyrope_result r;
    uint32_t seen = 0; /* results told so far */
    int refusal;

    if (!line_open() || !barleyrope_uuid_from_text("6E400001-B5A3-F393-E0A9-E50E24DCCA9E", &bay) ||
        !barleyrope_uuid_from_text("6E400003-B5A3-F393-E0A9-E50E24DCCA9E", &occupancy))
        return 2;
    steps[0] = barleyrope_scan(1000);
    steps[1] = barleyrope_connect_service(bay, 24, 0, 100, 5000);
    steps[2] = barleyrope_exchange_mtu(185);
    steps[3] = barleyrope_discover_services();
    steps[4] = barleyrope_discover_characteristics(bay);
    steps[5] = barleyrope_subscribe(occupancy, false);
    steps[6] = barleyrope_wait_notification_aged(occupancy, 5000, 0, 0, 1000);
    steps[READ] = barleyrope_read(occupancy);
    steps[8] = barleyrope_disconnect();

    command(HCI_RESET, "reset", NULL, 0);
    command(HCI_SET_SCAN_PARAMETERS, "scan actively", active, sizeof active);
    scan(true);
    refusal = act_on(barleyrope_push_steps(&state, store, sizeof store, out, sizeof out, now_us, steps, STEPS, NULL, 0));
    while (refusal == BARLEYROPE_ACCEPTED && seen < STEPS) {
        refusal = wait_once();
        for (; seen < barleyrope_steps_ended(&state); seen++)
            tell(seen, &steps[seen]);
    }
    if (refusal == BARLEYROPE_ACCEPTED)
        refusal = survive_noise();
    if (refusal != BARLEYROPE_ACCEPTED) {
        printf("refused: %s\n", barleyrope_refusal_text(refusal));
        return 1;
    }
    printf("%u bytes came in %u reads: %u packets\n", (unsigned)bytes_in, (unsigned)reads, (unsigned)packets_in);
    r = barleyrope_get_result(&state, store, sizeof store, READ);
    printf("the bay is %s\n", r.status != BARLEYROPE_OK || r.value_len != 1 ? "not known" : r.value[0] != 0 ? "taken" : "free");
    return r.status == BARLEYROPE_OK && r.value_len == 1 ? 0 : 1;
}
