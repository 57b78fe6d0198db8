/*
 * barleyrope.h - a scripted Bluetooth LE central, for C
 *
 * You own a state, a store and an output buffer. You tell the library what happened (a batch of
 * steps, a timer, a link, a fragment, an advertisement), and it writes the frames to send to your
 * output buffer and tells you what else to do. It never waits, sleeps, sends or allocates.
 *
 *     static barleyrope_state state;                       // all zero is a fresh one
 *     static uint8_t store[BARLEYROPE_STORE_SIZE];         // any contents
 *     static uint8_t out[BARLEYROPE_OUTPUT_SIZE];
 *
 *     barleyrope_step steps[] = { barleyrope_scan(1000), barleyrope_connect_any(24, 0, 100, 5000) };
 *     barleyrope_answer a = barleyrope_push_steps(&state, store, sizeof store, out, sizeof out,
 *                                                 now_us, steps, 2, NULL, 0);
 *     if (a.refusal) puts(barleyrope_refusal_text(a.refusal));
 *
 * docs/COLLECTOR.md goes from an empty file to a first reading, and examples/collector.c is one. Link
 * with libbarleyrope.a; of the C library it needs memcpy, memmove and memset at most.
 *
 * Every call
 *   - answers on every state, store and argument: there is no errno, no abort, no undefined result.
 *     What can't be done gets a refusal (below), and state, store and output are as they were.
 *     Refusal 7 alone also drops the bytes held of the frame that is too long;
 *   - allocates nothing, keeps no pointer after it returns, and has no global state: calls on
 *     different states may run in different threads at the same time;
 *   - needs the state, the store and every buffer to be apart: none may overlap another;
 *   - takes NULL for a buffer of length 0, and for nothing else;
 *   - is proved equal to a definition (docs/TRACEABILITY.md). The static functions in this file are plain C
 *     around the proved ones: they turn numbers into structs, and tests/c tries them.
 *
 * Any bytes may be handed in as a state: one that is not fit (a count, a length or a number out of its
 * range) gets refusal 1, every other an ordinary answer. That is no checksum: a state that was
 * overwritten may still be fit. A state may be saved and restored as bytes, together with its store, by
 * the same version of the library on a machine of the same byte order.
 */
#ifndef BARLEYROPE_H
#define BARLEYROPE_H

#include <stdbool.h>
#include <stddef.h>
#include <stdint.h>

#ifdef __cplusplus
extern "C" {
#endif

#define BARLEYROPE_VERSION_MAJOR 1
#define BARLEYROPE_VERSION_MINOR 2
#define BARLEYROPE_VERSION "1.2"

/* The store has exactly this size; the output has at least this one. */
#define BARLEYROPE_STORE_SIZE 43631
#define BARLEYROPE_OUTPUT_SIZE 16315

#define BARLEYROPE_CORE_WORDS 37
#define BARLEYROPE_TABLE_WORDS 1152

/* 9,512 bytes. All zero is a fresh state: nothing queued, kept, heard or linked, no option chosen. */
typedef struct barleyrope_state {
    uint64_t core[BARLEYROPE_CORE_WORDS];
    uint64_t tables[BARLEYROPE_TABLE_WORDS];
} barleyrope_state;

/* ---- refusals: why a call did nothing -------------------------------------------------------- */

enum {
    BARLEYROPE_ACCEPTED = 0,
    BARLEYROPE_UNFIT = 1,        /* the state is not one that calls leave; of a stream: over 1,024 bytes held */
    BARLEYROPE_WRONG_SIZE = 2,   /* the store is not of its size, or the output is too short */
    BARLEYROPE_LATE_TIME = 3,    /* the time is above 2^62 microseconds */
    BARLEYROPE_BAD_BATCH = 4,    /* over 64 steps; an MTU over 247; a value over 244 bytes or outside values */
    BARLEYROPE_COUNTER_FULL = 5, /* no more steps, notifications or links can be counted: begin a new state */
    BARLEYROPE_LONG_DATA = 6,    /* advertising or scan response data over 31 bytes */
    BARLEYROPE_LONG_FRAME = 7,   /* a frame over 251 bytes; what was held of it is dropped */
    BARLEYROPE_KEYS_FULL = 8,    /* a Scan has asked 128 advertisers already */
    BARLEYROPE_BAD_INDICATOR = 9, /* a byte from the UART begins no packet: the stream is lost until a reset */
    BARLEYROPE_LONG_PACKET = 10   /* a packet over 1,024 bytes, or an event over 255 parameter bytes */
};

/* One line in English for a log; never NULL. */
static inline const char *barleyrope_refusal_text(int refusal)
{
    switch (refusal) {
    case BARLEYROPE_ACCEPTED: return "accepted";
    case BARLEYROPE_UNFIT: return "the state is not fit: it was not left by a call";
    case BARLEYROPE_WRONG_SIZE: return "the store is not 43631 bytes, or the output is too short";
    case BARLEYROPE_LATE_TIME: return "the time is above 2^62 microseconds";
    case BARLEYROPE_BAD_BATCH: return "over 64 steps, an MTU over 247, or a value too long or outside values";
    case BARLEYROPE_COUNTER_FULL: return "no more steps, notifications or links can be counted";
    case BARLEYROPE_LONG_DATA: return "advertising or scan response data over 31 bytes";
    case BARLEYROPE_LONG_FRAME: return "a frame over 251 bytes; the bytes held of it are dropped";
    case BARLEYROPE_KEYS_FULL: return "the running scan has asked 128 advertisers already";
    case BARLEYROPE_BAD_INDICATOR: return "no packet begins with this byte; the stream is lost until a reset";
    case BARLEYROPE_LONG_PACKET: return "a packet over 1024 bytes, or an event over 255 parameter bytes";
    default: return "no such refusal";
    }
}

/* ---- how a step ended ------------------------------------------------------------------------ */

enum {
    BARLEYROPE_OK = 0,
    BARLEYROPE_TIMEOUT = 1,
    BARLEYROPE_NOT_CONNECTED = 2,
    BARLEYROPE_NOT_FOUND = 3,
    BARLEYROPE_ATT_ERROR = 4, /* the head's error code stands beside it */
    BARLEYROPE_TOO_LONG = 5,
    BARLEYROPE_DISCONNECTED = 6,
    BARLEYROPE_TABLE_FULL = 7,
    BARLEYROPE_BEARER_CLOSED = 8 /* in strict mode: an earlier request on this link got no answer */
};

static inline const char *barleyrope_status_text(int status)
{
    switch (status) {
    case BARLEYROPE_OK: return "ok";
    case BARLEYROPE_TIMEOUT: return "no answer in time";
    case BARLEYROPE_NOT_CONNECTED: return "there is no link";
    case BARLEYROPE_NOT_FOUND: return "no such service, characteristic or descriptor is known";
    case BARLEYROPE_ATT_ERROR: return "the head answered with an error";
    case BARLEYROPE_TOO_LONG: return "the value is longer than the link's MTU allows";
    case BARLEYROPE_DISCONNECTED: return "the link was lost";
    case BARLEYROPE_TABLE_FULL: return "the head has more services or characteristics than there are places";
    case BARLEYROPE_BEARER_CLOSED: return "an earlier request on this link got no answer: connect again";
    default: return "no such status";
    }
}

/* ---- UUIDs ----------------------------------------------------------------------------------- */

/*
 * A UUID is two 64-bit halves of its 128-bit number. In the usual text form
 *
 *     6E400001-B5A3-F393-E0A9-E50E24DCCA9E
 *     \----- high -----/ \----- low -----/
 *
 *     high = 0x6E400001B5A3F393   the first 16 hex digits, bits 64 to 127
 *     low  = 0xE0A9E50E24DCCA9E   the last 16 hex digits, bits 0 to 63
 *
 * so a half is a plain number and nobody has to think about byte order. (In a packet the 16 octets
 * stand least significant first: there low is octets 0 to 7 and high octets 8 to 15.)
 *
 * In every call low comes BEFORE high.
 */
typedef struct barleyrope_uuid {
    uint64_t low;
    uint64_t high;
} barleyrope_uuid;

/*
 * The halves of a 16-bit or 32-bit UUID, such as 0x180F for the Battery Service: the Bluetooth Base
 * UUID 00000000-0000-1000-8000-00805F9B34FB with the number in its first 32 bits.
 *
 *     barleyrope_lists_service(data, len, BARLEYROPE_SHORT_LOW, BARLEYROPE_SHORT_HIGH(0x180F))
 */
#define BARLEYROPE_SHORT_LOW UINT64_C(0x800000805F9B34FB)
#define BARLEYROPE_SHORT_HIGH(number) (((uint64_t)(uint32_t)(number) << 32) | UINT64_C(0x1000))

/* The UUID of two halves, of a 16-bit or 32-bit number; whether two are one. */
static inline barleyrope_uuid barleyrope_uuid_of(uint64_t high, uint64_t low)
{
    barleyrope_uuid uuid;
    uuid.low = low;
    uuid.high = high;
    return uuid;
}

static inline barleyrope_uuid barleyrope_short_uuid(uint32_t number)
{
    return barleyrope_uuid_of(BARLEYROPE_SHORT_HIGH(number), BARLEYROPE_SHORT_LOW);
}

static inline bool barleyrope_same_uuid(barleyrope_uuid one, barleyrope_uuid other)
{
    return one.low == other.low && one.high == other.high;
}

/* The value of a hex digit, or -1. */
static inline int barleyrope_hex_value(char digit)
{
    if (digit >= '0' && digit <= '9')
        return digit - '0';
    if (digit >= 'A' && digit <= 'F')
        return digit - 'A' + 10;
    if (digit >= 'a' && digit <= 'f')
        return digit - 'a' + 10;
    return -1;
}

/*
 * Reads a UUID: 4 hex digits ("180F"), or 36 characters with hyphens at 8, 13, 18 and 23. Letters of
 * either case; nothing before or after.
 *
 *   text   ends with a NUL; NULL is no UUID
 *   uuid   on true, set; on false, left alone
 *
 * Returns whether the text is a UUID.
 */
static inline bool barleyrope_uuid_from_text(const char *text, barleyrope_uuid *uuid)
{
    uint64_t half[2] = {0, 0}; /* high, low */
    unsigned at, digits = 0;
    if (text == NULL)
        return false;
    for (at = 0; at < 36 && text[at] != '\0'; at++) {
        int value = barleyrope_hex_value(text[at]);
        if (at == 8 || at == 13 || at == 18 || at == 23) {
            if (text[at] != '-')
                return false;
            continue;
        }
        if (value < 0)
            return false;
        half[digits / 16] = (half[digits / 16] << 4) | (uint64_t)value;
        digits++;
    }
    if (at == 4) {
        *uuid = barleyrope_short_uuid((uint32_t)half[0]);
        return true;
    }
    if (at != 36 || text[36] != '\0')
        return false;
    *uuid = barleyrope_uuid_of(half[0], half[1]);
    return true;
}

/* The room for a UUID's text, with its NUL. */
#define BARLEYROPE_UUID_TEXT 37

/*
 * Writes a UUID as 4 upper case hex digits if it is a 16-bit one, else as 36 characters, and a NUL.
 * barleyrope_uuid_from_text reads it back. Returns text.
 */
static inline char *barleyrope_uuid_to_text(barleyrope_uuid uuid, char text[BARLEYROPE_UUID_TEXT])
{
    const char *hex = "0123456789ABCDEF";
    const bool is_short = uuid.low == BARLEYROPE_SHORT_LOW &&
                          (uuid.high & UINT64_C(0xFFFF0000FFFFFFFF)) == UINT64_C(0x1000);
    unsigned at = 0, digit;
    for (digit = is_short ? 4 : 0; digit < (is_short ? 8U : 32U); digit++) {
        uint64_t half = digit < 16 ? uuid.high : uuid.low;
        if (!is_short && (digit == 8 || digit == 12 || digit == 16 || digit == 20))
            text[at++] = '-';
        text[at++] = hex[(half >> (60 - 4 * (digit % 16))) & 15];
    }
    text[at] = '\0';
    return text;
}

/* ---- device addresses ------------------------------------------------------------------------ */

/*
 * A device address is a 48-bit number and its type. AA:BB:CC:DD:EE:FF is 0xAABBCCDDEEFF. Two
 * addresses of one number and different types are different devices.
 */
typedef struct barleyrope_address {
    uint64_t number; /* the low 48 bits count */
    bool random;     /* a random address; otherwise a public one */
} barleyrope_address;

static inline barleyrope_address barleyrope_address_of(uint64_t number, bool random)
{
    barleyrope_address address;
    address.number = number & UINT64_C(0xFFFFFFFFFFFF);
    address.random = random;
    return address;
}

/* From the 6 octets of a packet or an HCI event, where FF of the text form comes first. */
static inline barleyrope_address barleyrope_address_from_octets(const uint8_t octets[6], bool random)
{
    uint64_t number = 0;
    int i;
    for (i = 5; i >= 0; i--)
        number = (number << 8) | octets[i];
    return barleyrope_address_of(number, random);
}

/*
 * Reads an address: AA:BB:CC:DD:EE:FF, letters of either case, nothing before or after. The text
 * does not say the type.
 *
 *   text      ends with a NUL; NULL is no address
 *   address   on true, set; on false, left alone
 *
 * Returns whether the text is an address.
 */
static inline bool barleyrope_address_from_text(const char *text, bool random, barleyrope_address *address)
{
    uint64_t number = 0;
    unsigned at;
    if (text == NULL)
        return false;
    for (at = 0; at < 17; at++) {
        int value = barleyrope_hex_value(text[at]);
        if (at % 3 == 2 ? text[at] != ':' : value < 0)
            return false; /* at the NUL of a shorter text too */
        if (at % 3 != 2)
            number = (number << 4) | (uint64_t)value;
    }
    if (text[17] != '\0')
        return false;
    *address = barleyrope_address_of(number, random);
    return true;
}

/* The room for an address's text, with its NUL. */
#define BARLEYROPE_ADDRESS_TEXT 18

/* Writes AA:BB:CC:DD:EE:FF, in upper case, and a NUL. Returns text. */
static inline char *barleyrope_address_to_text(barleyrope_address address, char text[BARLEYROPE_ADDRESS_TEXT])
{
    const char *hex = "0123456789ABCDEF";
    unsigned at;
    for (at = 0; at < 17; at++)
        text[at] = at % 3 == 2 ? ':' : hex[(address.number >> (44 - 4 * (at - at / 3))) & 15];
    text[17] = '\0';
    return text;
}

/* The address as the exports take it: bit 48 says that it is random. */
static inline uint64_t barleyrope_address_word(barleyrope_address address)
{
    return (address.number & UINT64_C(0xFFFFFFFFFFFF)) | ((uint64_t)(address.random ? 1 : 0) << 48);
}

/* ---- steps ----------------------------------------------------------------------------------- */

enum {
    BARLEYROPE_STEP_SCAN = 0,
    BARLEYROPE_STEP_CONNECT = 1,
    BARLEYROPE_STEP_EXCHANGE_MTU = 2,
    BARLEYROPE_STEP_DISCOVER_SERVICES = 3,
    BARLEYROPE_STEP_DISCOVER_CHARACTERISTICS = 4,
    BARLEYROPE_STEP_SUBSCRIBE = 5,
    BARLEYROPE_STEP_WRITE = 6,
    BARLEYROPE_STEP_READ = 7,
    BARLEYROPE_STEP_WAIT_NOTIFICATION = 8,
    BARLEYROPE_STEP_WAIT = 9,
    BARLEYROPE_STEP_DISCONNECT = 10,
    BARLEYROPE_STEP_CAPTURE = 11,
    BARLEYROPE_STEP_CAPTURE_SECRETS = 12
};

static inline const char *barleyrope_kind_text(uint64_t kind)
{
    switch (kind) {
    case BARLEYROPE_STEP_SCAN: return "scan";
    case BARLEYROPE_STEP_CONNECT: return "connect";
    case BARLEYROPE_STEP_EXCHANGE_MTU: return "exchange MTU";
    case BARLEYROPE_STEP_DISCOVER_SERVICES: return "discover services";
    case BARLEYROPE_STEP_DISCOVER_CHARACTERISTICS: return "discover characteristics";
    case BARLEYROPE_STEP_SUBSCRIBE: return "subscribe";
    case BARLEYROPE_STEP_WRITE: return "write";
    case BARLEYROPE_STEP_READ: return "read";
    case BARLEYROPE_STEP_WAIT_NOTIFICATION: return "wait for a notification";
    case BARLEYROPE_STEP_WAIT: return "wait";
    case BARLEYROPE_STEP_DISCONNECT: return "disconnect";
    case BARLEYROPE_STEP_CAPTURE: return "capture";
    case BARLEYROPE_STEP_CAPTURE_SECRETS: return "capture secrets";
    default: return "no such step";
    }
}

/*
 * One step of a script. It is data: nothing happens until barleyrope_push_steps takes it, and then
 * when its turn comes. The functions below make one; its fields need not be known.
 *
 * Steps run one at a time, in the order taken in, and each gets exactly one result. Beside the
 * statuses named below, every step that needs a link ends with
 *   NOT_CONNECTED   at once, if there is no link when its turn comes
 *   DISCONNECTED    if the link is lost while it runs
 * and each that asks the head something (exchange, both discoveries, subscribe, write with
 * response, read) with
 *   ATT_ERROR       if the head answers with an error (but for 0A, attribute not found, at the end of
 *                   what is discovered)
 *   TIMEOUT         30 seconds after the last request, by a timer call
 */
typedef struct barleyrope_step {
    uint64_t kind, flag, ms, mtu, low, high, aim, latency, timeout, interval, value_at, value_len;
} barleyrope_step;

#define BARLEYROPE_STEP_WORDS 12
#define BARLEYROPE_MAX_STEPS 64  /* of a batch, and waiting */
#define BARLEYROPE_MAX_VALUE 244 /* bytes to write, or to wait for */
#define BARLEYROPE_MAX_MTU 247

typedef char barleyrope_step_is_its_words[sizeof(barleyrope_step) == 8 * BARLEYROPE_STEP_WORDS ? 1 : -1];

static inline barleyrope_step barleyrope_step_of(uint64_t kind, bool flag, uint32_t ms, barleyrope_uuid uuid)
{
    barleyrope_step step = {0, 0, 0, 0, 0, 0, 0, 0, 0, 0, 0, 0};
    step.kind = kind;
    step.flag = flag ? 1 : 0;
    step.ms = ms;
    step.low = uuid.low;
    step.high = uuid.high;
    return step;
}

/* Collects reports of advertisers for ms milliseconds. Ends OK. Needs no link. */
static inline barleyrope_step barleyrope_scan(uint32_t ms)
{
    return barleyrope_step_of(BARLEYROPE_STEP_SCAN, false, ms, barleyrope_uuid_of(0, 0));
}

static inline barleyrope_step barleyrope_connect_to(uint64_t aim, barleyrope_uuid to, uint16_t interval,
                                                    uint16_t latency, uint16_t timeout, uint32_t within_ms)
{
    barleyrope_step step = barleyrope_step_of(BARLEYROPE_STEP_CONNECT, false, within_ms, to);
    step.aim = aim;
    step.interval = interval;
    step.latency = latency;
    step.timeout = timeout;
    return step;
}

/*
 * Connects to the first connectable advertiser that is heard: to any, to the one of an address, or
 * to one that lists a service in its advertising data or scan response. A link that is there
 * already will do, whoever it is to: disconnect first.
 *
 *   interval    between connection events, in units of 1.25 ms: 24 is 30 ms
 *   latency     events that the head may skip
 *   timeout     after which a silent link is lost, in units of 10 ms: 100 is 1 s
 *   within_ms   how long to try
 *
 * The first three are handed to you again with BARLEYROPE_ACTION_CONNECT, unchecked:
 * barleyrope_params_good(interval, interval, latency, timeout) tells whether they may be used.
 * Ends OK with barleyrope_on_connected, or TIMEOUT. Needs no link.
 */
static inline barleyrope_step barleyrope_connect_any(uint16_t interval, uint16_t latency, uint16_t timeout,
                                                     uint32_t within_ms)
{
    return barleyrope_connect_to(0, barleyrope_uuid_of(0, 0), interval, latency, timeout, within_ms);
}

static inline barleyrope_step barleyrope_connect_address(barleyrope_address address, uint16_t interval,
                                                         uint16_t latency, uint16_t timeout, uint32_t within_ms)
{
    return barleyrope_connect_to(1, barleyrope_uuid_of(0, barleyrope_address_word(address)), interval, latency,
                                 timeout, within_ms);
}

static inline barleyrope_step barleyrope_connect_service(barleyrope_uuid service, uint16_t interval,
                                                         uint16_t latency, uint16_t timeout, uint32_t within_ms)
{
    return barleyrope_connect_to(2, service, interval, latency, timeout, within_ms);
}

/*
 * Offers the head an MTU, at most 247; under 23 means 23. From its answer on, the link's MTU is the
 * smaller of both sides'. A new link begins with 23. Ends OK.
 */
static inline barleyrope_step barleyrope_exchange_mtu(uint16_t mtu)
{
    barleyrope_step step =
        barleyrope_step_of(BARLEYROPE_STEP_EXCHANGE_MTU, false, 0, barleyrope_uuid_of(0, 0));
    step.mtu = mtu;
    return step;
}

/*
 * Forgets all services and characteristics, and finds the head's services (32 at most). They are
 * kept over a lost link. Ends OK, or TABLE_FULL.
 */
static inline barleyrope_step barleyrope_discover_services(void)
{
    return barleyrope_step_of(BARLEYROPE_STEP_DISCOVER_SERVICES, false, 0, barleyrope_uuid_of(0, 0));
}

/*
 * Finds the characteristics of a service (64 at most, of all services) and where each is
 * configured; first the services, where this one is not known. Ends OK, NOT_FOUND if the head has
 * no such service, or TABLE_FULL.
 */
static inline barleyrope_step barleyrope_discover_characteristics(barleyrope_uuid service)
{
    return barleyrope_step_of(BARLEYROPE_STEP_DISCOVER_CHARACTERISTICS, false, 0, service);
}

/*
 * Asks the head to notify a characteristic, or to indicate it. Ends OK, or NOT_FOUND if no such
 * characteristic, or no place to configure it, was discovered.
 */
static inline barleyrope_step barleyrope_subscribe(barleyrope_uuid characteristic, bool indicate)
{
    return barleyrope_step_of(BARLEYROPE_STEP_SUBSCRIBE, indicate, 0, characteristic);
}

/*
 * Writes a value: value_len bytes (244 at most) from value_at on, of the values handed in with the
 * batch. With response it ends when the head has answered, else at once. Ends OK, NOT_FOUND if the
 * characteristic was not discovered, or TOO_LONG if value_len + 3 exceeds the link's MTU.
 */
static inline barleyrope_step barleyrope_write(barleyrope_uuid characteristic, bool with_response,
                                               size_t value_at, size_t value_len)
{
    barleyrope_step step = barleyrope_step_of(BARLEYROPE_STEP_WRITE, with_response, 0, characteristic);
    step.value_at = value_at;
    step.value_len = value_len;
    return step;
}

/*
 * Reads a value; the result has it, as much as one answer holds (the link's MTU - 1 bytes at most).
 * Ends OK, or NOT_FOUND if the characteristic was not discovered.
 */
static inline barleyrope_step barleyrope_read(barleyrope_uuid characteristic)
{
    return barleyrope_step_of(BARLEYROPE_STEP_READ, false, 0, characteristic);
}

/*
 * Waits until a characteristic was notified or indicated, within_ms at most. With contains_len = 0
 * any notification will do; else the values of all that count, joined, must contain the
 * contains_len bytes (244 at most) from contains_at on, of the values handed in with the batch.
 *
 * What counts is every kept notification (the newest 32) that came after the last wait passed. IT
 * MAY BE OLD: one that came before this step began counts, even one of an earlier link. The result
 * has no value, and its time is when the wait ended, not when the notification came. A wait with an
 * age (below) counts no old ones; a read behind the wait gives a value that is the head's own answer
 * on this link (docs/COLLECTOR.md).
 *
 * Ends OK, TIMEOUT, or NOT_FOUND if the characteristic was not discovered. Passing uses up every
 * notification heard so far, of other characteristics too; a wait that does not pass uses up none.
 */
static inline barleyrope_step barleyrope_wait_notification(barleyrope_uuid characteristic, uint32_t within_ms,
                                                           size_t contains_at, size_t contains_len)
{
    barleyrope_step step =
        barleyrope_step_of(BARLEYROPE_STEP_WAIT_NOTIFICATION, false, within_ms, characteristic);
    step.value_at = contains_at;
    step.value_len = contains_len;
    return step;
}

/*
 * The same wait with a greatest age. Of the notifications that would count, only those do that
 *   - came on the present link, not on an earlier one;
 *   - came at most age_ms before now, to the microsecond, and not after now (a clock may run back).
 * The others are skipped; the values of those that count are joined, as above. A notification came at
 * the now_us of the barleyrope_on_fragment that completed it. Now is the now_us of the call that looks:
 * the one that begins the step, and each barleyrope_on_fragment that brings a notification, of whatever
 * characteristic. The present link is the one of that call, too.
 *
 *   age_ms   any number; with 0, only what came at this very microsecond counts
 *
 * Ends as the wait above does. Passing, too, uses up every notification heard so far: those that were
 * too old, and those of other characteristics. barleyrope_passed_on tells which one it passed on.
 */
static inline barleyrope_step barleyrope_wait_notification_aged(barleyrope_uuid characteristic,
                                                                uint32_t within_ms, size_t contains_at,
                                                                size_t contains_len, uint32_t age_ms)
{
    barleyrope_step step = barleyrope_wait_notification(characteristic, within_ms, contains_at, contains_len);
    step.flag = 1; /* an age is there: in two halves, where a connect has its latency and timeout */
    step.latency = age_ms & 0xFFFF;
    step.timeout = age_ms >> 16;
    return step;
}

/* Lets ms milliseconds pass. Ends OK. Needs no link, and goes on when one is lost. */
static inline barleyrope_step barleyrope_wait(uint32_t ms)
{
    return barleyrope_step_of(BARLEYROPE_STEP_WAIT, false, ms, barleyrope_uuid_of(0, 0));
}

/*
 * Asks you to end the link (BARLEYROPE_REQUEST_TERMINATE), and ends OK with
 * barleyrope_on_disconnected. It has no deadline: call that also when the link is lost otherwise.
 */
static inline barleyrope_step barleyrope_disconnect(void)
{
    return barleyrope_step_of(BARLEYROPE_STEP_DISCONNECT, false, 0, barleyrope_uuid_of(0, 0));
}

/* For scripts that carry them: these two do nothing here and end OK at once. Need no link. */
static inline barleyrope_step barleyrope_capture(bool enabled)
{
    return barleyrope_step_of(BARLEYROPE_STEP_CAPTURE, enabled, 0, barleyrope_uuid_of(0, 0));
}

static inline barleyrope_step barleyrope_capture_secrets(bool secrets)
{
    return barleyrope_step_of(BARLEYROPE_STEP_CAPTURE_SECRETS, secrets, 0, barleyrope_uuid_of(0, 0));
}

/* ---- options: chosen when a state is made ---------------------------------------------------- */

/*
 * Or them together for barleyrope_fresh_with. A bit without a name counts for nothing.
 *
 * BARLEYROPE_STRICT: once a step has ended TIMEOUT while its ATT request was still unanswered, nothing
 * more is asked on that link (Core Vol 3 Part F 3.3.3): each ExchangeMtu, discovery, Subscribe, Write
 * and Read ends BEARER_CLOSED at once, until the next barleyrope_on_connected. So a late answer is
 * never taken for another step's. Waits run, and what the head asks is answered. Without it the next
 * step asks at once, and may take the late answer of the one before.
 */
enum {
    BARLEYROPE_STRICT = 1
};

/* ---- the exports ----------------------------------------------------------------------------- */

/*
 * What libbarleyrope.a has for the functions below, which are easier to call: you need not read
 * this part. core and tables are those of a state. Every call writes all of told; told[0] is the
 * refusal, and words that an answer does not use are 0.
 */

/* Writes all of both. */
void barleyrope_fresh_with_words(uint64_t core[37], uint64_t tables[1152], uint64_t options);

/* told: refusal, frames, bytes, request, interval, latency, timeout, reason.
 * steps_len is in words, BARLEYROPE_STEP_WORDS times count. */
void barleyrope_push_steps_words(uint64_t core[37], uint64_t tables[1152], uint8_t *store, size_t store_len,
                                 uint8_t *out, size_t out_len, uint64_t at, const uint64_t *steps,
                                 size_t steps_len, size_t count, const uint8_t *values, size_t values_len,
                                 uint64_t told[8]);
void barleyrope_on_timer_words(uint64_t core[37], uint64_t tables[1152], uint8_t *store, size_t store_len,
                               uint8_t *out, size_t out_len, uint64_t at, uint64_t told[8]);
void barleyrope_on_connected_words(uint64_t core[37], uint64_t tables[1152], uint8_t *store, size_t store_len,
                                   uint8_t *out, size_t out_len, uint16_t handle, uint64_t at,
                                   uint64_t told[8]);
void barleyrope_on_fragment_words(uint64_t core[37], uint64_t tables[1152], uint8_t *store, size_t store_len,
                                  uint8_t *out, size_t out_len, uint64_t at, bool start,
                                  const uint8_t *fragment, size_t fragment_len, uint64_t told[8]);

/* told: refusal. */
void barleyrope_on_disconnected_words(uint64_t core[37], uint64_t tables[1152], uint8_t *store,
                                      size_t store_len, uint64_t at, uint64_t told[8]);
void barleyrope_on_scan_response_words(uint64_t core[37], uint64_t tables[1152], uint8_t *store,
                                       size_t store_len, uint64_t at, uint64_t address, const uint8_t *data,
                                       size_t data_len, uint64_t told[8]);

/* told: refusal, action, interval, latency, timeout. */
void barleyrope_on_advertising_words(uint64_t core[37], uint64_t tables[1152], uint8_t *store,
                                     size_t store_len, uint64_t at, uint8_t channel, uint8_t pdu,
                                     uint64_t address, const uint8_t *data, size_t data_len, bool to_central,
                                     uint64_t told[8]);

/* told: refusal, 1 if there is one, the deadline; or the handle. */
void barleyrope_timer_us_words(const uint64_t core[37], const uint64_t tables[1152], const uint8_t *store,
                               size_t store_len, uint64_t told[8]);
void barleyrope_connected_handle_words(const uint64_t core[37], const uint64_t tables[1152],
                                       const uint8_t *store, size_t store_len, uint64_t told[8]);

/* told: refusal, 1 if it is kept, time, status, ATT error code, place and length in the store. */
void barleyrope_result_words(const uint64_t core[37], const uint64_t tables[1152], const uint8_t *store,
                             size_t store_len, uint32_t index, uint64_t told[8]);

/* told: refusal, 1 if there is one, time, link, handle, 1 for an indication, place and length in the store. */
void barleyrope_passed_on_words(const uint64_t core[37], const uint64_t tables[1152], const uint8_t *store,
                                size_t store_len, uint32_t index, uint64_t told[8]);

/* told: refusal, 1 if it is kept, time, channel, PDU type, address, place and length of the data, 1 if
 * there is a scan response, its place and length. */
void barleyrope_report_words(const uint64_t core[37], const uint64_t tables[1152], const uint8_t *store,
                             size_t store_len, size_t i, uint64_t told[12]);

/* told: refusal, 1 if they are there, place and length in the store. */
void barleyrope_report_data_words(const uint64_t core[37], const uint64_t tables[1152], const uint8_t *store,
                                  size_t store_len, size_t i, uint64_t told[8]);
void barleyrope_report_response_words(const uint64_t core[37], const uint64_t tables[1152],
                                      const uint8_t *store, size_t store_len, size_t i, uint64_t told[8]);
void barleyrope_report_body_words(const uint64_t core[37], const uint64_t tables[1152], const uint8_t *store,
                                  size_t store_len, size_t i, uint64_t low, uint64_t high, uint64_t told[8]);
void barleyrope_report_presence_words(const uint64_t core[37], const uint64_t tables[1152],
                                      const uint8_t *store, size_t store_len, size_t i, uint64_t low,
                                      uint64_t high, uint64_t told[8]);

/* ---- a fresh state --------------------------------------------------------------------------- */

/* A fresh state with these options, whatever it was; with options 0 it is all zero. The store stays. */
static inline void barleyrope_fresh_with(barleyrope_state *state, uint64_t options)
{
    barleyrope_fresh_with_words(state->core, state->tables, options);
}

/* ---- calls: something happened --------------------------------------------------------------- */

/* What a call asks of the link, at most one thing. */
enum {
    BARLEYROPE_REQUEST_NONE = 0,
    BARLEYROPE_REQUEST_UPDATE = 1,   /* give the link interval, latency and timeout */
    BARLEYROPE_REQUEST_TERMINATE = 2 /* end the link, for this reason (0x13) */
};

/*
 * The answer of a call that may send. Send the frames in their order before the next call. Each is
 * a whole L2CAP frame with its header:
 *
 *     size_t at, len;
 *     for (at = 0; at < a.bytes; at += len) {
 *         len = barleyrope_frame_size(out + at);
 *         your_radio_send(handle, out + at, len);
 *     }
 *
 * Bytes of out behind a.bytes are as they were.
 */
typedef struct barleyrope_answer {
    int refusal;       /* BARLEYROPE_ACCEPTED, or why nothing was done; all others are 0 then */
    size_t frames;     /* how many frames are in out, 65 at most */
    size_t bytes;      /* and their bytes */
    int request;       /* BARLEYROPE_REQUEST_.. */
    uint16_t interval; /* of an update: in units of 1.25 ms, */
    uint16_t latency;  /* in connection events, */
    uint16_t timeout;  /* in units of 10 ms */
    uint8_t reason;    /* of a termination */
} barleyrope_answer;

/* The bytes of the frame that begins here. */
static inline size_t barleyrope_frame_size(const uint8_t *frame)
{
    return (size_t)4 + frame[0] + ((size_t)frame[1] << 8);
}

static inline barleyrope_answer barleyrope_answer_of(const uint64_t told[8])
{
    barleyrope_answer answer;
    answer.refusal = (int)told[0];
    answer.frames = (size_t)told[1];
    answer.bytes = (size_t)told[2];
    answer.request = (int)told[3];
    answer.interval = (uint16_t)told[4];
    answer.latency = (uint16_t)told[5];
    answer.timeout = (uint16_t)told[6];
    answer.reason = (uint8_t)told[7];
    return answer;
}

/*
 * All calls below have these in common:
 *
 *   state        read and changed
 *   store        read and changed; store_size is BARLEYROPE_STORE_SIZE exactly, or refusal 2. It belongs
 *                to its state: give both the same calls, and keep, copy and restore them together.
 *   out          written from its start; out_size is at least BARLEYROPE_OUTPUT_SIZE, or refusal 2
 *   now_us       the time in microseconds, on a clock of yours that may begin anywhere; at most 2^62, or
 *                refusal 3. It may run back: deadlines then come late.
 *   refusal 1    the state is not one that calls leave: begin a new one, all zero
 */

/*
 * Takes in a batch of steps, behind those that wait, and lets the script go on.
 *
 *   steps, count   at most 64
 *   values         the bytes that writes and waits of the batch name by place and length; copied
 *
 * Where 64 steps wait, further ones are not taken in, with no refusal: barleyrope_dropped_steps counts
 * them. barleyrope_steps_waiting tells the room before.
 *
 * Refusals: 1, 2, 3; 4 over 64 steps, an MTU over 247, a value over 244 bytes or not within values;
 * 5 results would be numbered beyond 2^32 - 1, or 2^62 steps were dropped: begin a new state.
 */
static inline barleyrope_answer barleyrope_push_steps(barleyrope_state *state, uint8_t *store, size_t store_size,
                                                      uint8_t *out, size_t out_size, uint64_t now_us,
                                                      const barleyrope_step *steps, size_t count,
                                                      const uint8_t *values, size_t values_size)
{
    uint64_t told[8];
    /* a batch that is too long is refused by its count: its steps are not looked at */
    size_t words = count <= BARLEYROPE_MAX_STEPS ? BARLEYROPE_STEP_WORDS * count : 0;
    barleyrope_push_steps_words(state->core, state->tables, store, store_size, out, out_size, now_us,
                                (const uint64_t *)(const void *)steps, words, count, values, values_size, told);
    return barleyrope_answer_of(told);
}

/*
 * The clock reached a time. A running step whose deadline is now or before ends, and the script goes on.
 * Call it when barleyrope_get_timer says; earlier does no harm and does nothing.
 *
 * Refusals: 1, 2, 3.
 */
static inline barleyrope_answer barleyrope_on_timer(barleyrope_state *state, uint8_t *store, size_t store_size,
                                                    uint8_t *out, size_t out_size, uint64_t now_us)
{
    uint64_t told[8];
    barleyrope_on_timer_words(state->core, state->tables, store, store_size, out, out_size, now_us, told);
    return barleyrope_answer_of(told);
}

/*
 * A link came up. It takes the place of one that was there. A running connect ends OK. Links are counted
 * over the life of a state, and each has a number, the first 1 (barleyrope_links_counted).
 *
 *   handle   the controller's handle of the link; kept for barleyrope_get_link
 *
 * Refusals: 1, 2, 3; 5 after 2^62 links: begin a new state.
 */
static inline barleyrope_answer barleyrope_on_connected(barleyrope_state *state, uint8_t *store,
                                                        size_t store_size, uint8_t *out, size_t out_size,
                                                        uint16_t handle, uint64_t now_us)
{
    uint64_t told[8];
    barleyrope_on_connected_words(state->core, state->tables, store, store_size, out, out_size, handle, now_us,
                                  told);
    return barleyrope_answer_of(told);
}

/*
 * The link is gone. A running disconnect ends OK, another step that needs the link DISCONNECTED, and each
 * next one NOT_CONNECTED, up to one that needs none. What was discovered and notified is kept. Nothing is
 * sent, so no output is lent.
 *
 * Returns the refusal: 0, 1, 2 or 3.
 */
static inline int barleyrope_on_disconnected(barleyrope_state *state, uint8_t *store, size_t store_size,
                                             uint64_t now_us)
{
    uint64_t told[8];
    barleyrope_on_disconnected_words(state->core, state->tables, store, store_size, now_us, told);
    return (int)told[0];
}

/*
 * Bytes came in on the link: a whole L2CAP frame or a part of one, as the controller hands them out.
 * Requests of the head are answered, whatever step runs.
 *
 *   start      a frame begins here (HCI packet boundary flag 0 or 2); else the last one goes on (1).
 *              With no link, or going on where nothing began, the bytes are dropped, with no refusal.
 *   fragment   only read; fragment_len may be 0
 *
 * Refusals: 1, 2, 3; 5 after 2^62 notifications: begin a new state; 7 the frame would have over 251
 * bytes: it is dropped (the state's count of bytes held becomes 0), the link goes on with the next start.
 */
static inline barleyrope_answer barleyrope_on_fragment(barleyrope_state *state, uint8_t *store,
                                                       size_t store_size, uint8_t *out, size_t out_size,
                                                       uint64_t now_us, bool start, const uint8_t *fragment,
                                                       size_t fragment_len)
{
    uint64_t told[8];
    barleyrope_on_fragment_words(state->core, state->tables, store, store_size, out, out_size, now_us, start,
                                 fragment, fragment_len, told);
    return barleyrope_answer_of(told);
}

/*
 * Types of advertising PDUs ON THE AIR (Core Specification Vol 6 Part B 2.3), which the calls take. HCI's
 * advertising report numbers them otherwise: barleyrope_pdu_of_hci turns one into the other.
 */
enum {
    BARLEYROPE_ADV_IND = 0,
    BARLEYROPE_ADV_DIRECT_IND = 1,
    BARLEYROPE_ADV_NONCONN_IND = 2,
    BARLEYROPE_ADV_SCAN_IND = 6
};

/* Of HCI LE Advertising Report event types 0 to 3; others (4 is a scan response) stay as they are. */
static inline uint8_t barleyrope_pdu_of_hci(uint8_t event_type)
{
    if (event_type == 2)
        return BARLEYROPE_ADV_SCAN_IND;
    if (event_type == 3)
        return BARLEYROPE_ADV_NONCONN_IND;
    return event_type;
}

/* What to do about an advertiser, at once. */
enum {
    BARLEYROPE_ACTION_NONE = 0,
    BARLEYROPE_ACTION_SCAN_REQUEST = 1, /* ask it for its scan response; an active HCI scan does so itself */
    BARLEYROPE_ACTION_CONNECT = 2       /* connect to it with interval, latency and timeout */
};

typedef struct barleyrope_advertised {
    int refusal;
    int action;        /* BARLEYROPE_ACTION_.. */
    uint16_t interval; /* of a connection: in units of 1.25 ms, */
    uint16_t latency;  /* in connection events, */
    uint16_t timeout;  /* in units of 10 ms */
} barleyrope_advertised;

/*
 * An advertisement was heard. While a scan or a connect runs, its advertiser's report is made or
 * replaced (64 are kept; the oldest goes). A scan asks each scannable advertiser once; a connect names the
 * advertiser to connect to, each time it is heard until barleyrope_on_connected. Otherwise nothing happens.
 *
 *   channel      where it was heard, 37 to 39; only kept. Any number, 0 where the controller doesn't say.
 *   pdu          BARLEYROPE_ADV_..
 *   data         the AD structures, data_len bytes, at most 31; only read, and copied
 *   to_central   an ADV_DIRECT_IND is addressed to us; of no effect on other types
 *
 * Refusals: 1, 2, 3; 6 data over 31 bytes; 8 the running scan has asked 128 advertisers: nothing is kept of
 * this one, others go on.
 */
static inline barleyrope_advertised barleyrope_on_advertising(barleyrope_state *state, uint8_t *store,
                                                              size_t store_size, uint64_t now_us,
                                                              uint8_t channel, uint8_t pdu,
                                                              barleyrope_address address, const uint8_t *data,
                                                              size_t data_len, bool to_central)
{
    uint64_t told[8];
    barleyrope_advertised advertised;
    barleyrope_on_advertising_words(state->core, state->tables, store, store_size, now_us, channel, pdu,
                                    barleyrope_address_word(address), data, data_len, to_central, told);
    advertised.refusal = (int)told[0];
    advertised.action = (int)told[1];
    advertised.interval = (uint16_t)told[2];
    advertised.latency = (uint16_t)told[3];
    advertised.timeout = (uint16_t)told[4];
    return advertised;
}

/*
 * A scan response was heard. It goes to its advertiser's report, and is dropped where there is none.
 *
 * Returns the refusal: 0, 1, 2, 3, or 6 if the data is over 31 bytes.
 */
static inline int barleyrope_on_scan_response(barleyrope_state *state, uint8_t *store, size_t store_size,
                                              uint64_t now_us, barleyrope_address address, const uint8_t *data,
                                              size_t data_len)
{
    uint64_t told[8];
    barleyrope_on_scan_response_words(state->core, state->tables, store, store_size, now_us,
                                      barleyrope_address_word(address), data, data_len, told);
    return (int)told[0];
}

/* ---- reading: these change nothing ----------------------------------------------------------- */

/*
 * Refusals of all below: 1 and 2. Pointers that they hand out point into store, and what they point at
 * stays until the next call that changes the state.
 */

/* When to call barleyrope_on_timer. */
typedef struct barleyrope_timer {
    int refusal;
    bool is_set;    /* whether there is a deadline */
    uint64_t at_us; /* it; may be in the past */
} barleyrope_timer;

/* The deadline of the running step, if it has one. Ask after every call: each may change it. */
static inline barleyrope_timer barleyrope_get_timer(const barleyrope_state *state, const uint8_t *store,
                                                    size_t store_size)
{
    uint64_t told[8];
    barleyrope_timer timer;
    barleyrope_timer_us_words(state->core, state->tables, store, store_size, told);
    timer.refusal = (int)told[0];
    timer.is_set = told[1] == 1;
    timer.at_us = told[2];
    return timer;
}

typedef struct barleyrope_link {
    int refusal;
    bool is_up;
    uint16_t handle;
} barleyrope_link;

/* The link, if there is one. */
static inline barleyrope_link barleyrope_get_link(const barleyrope_state *state, const uint8_t *store,
                                                  size_t store_size)
{
    uint64_t told[8];
    barleyrope_link link;
    barleyrope_connected_handle_words(state->core, state->tables, store, store_size, told);
    link.refusal = (int)told[0];
    link.is_up = told[1] == 1;
    link.handle = (uint16_t)told[2];
    return link;
}

/* The place in the store, or NULL where there is none. */
static inline const uint8_t *barleyrope_place(const uint8_t *store, bool is_there, uint64_t place)
{
    return is_there ? store + (size_t)place : NULL;
}

/* How a step ended. */
typedef struct barleyrope_result {
    int refusal;
    bool is_kept;         /* false: the step has not ended, or 64 have ended since; the rest is 0 then */
    uint64_t at_us;       /* the time of the call that ended it */
    int status;           /* BARLEYROPE_OK, .. */
    uint8_t att_code;     /* with BARLEYROPE_ATT_ERROR, the head's error code (Vol 3 Part F 3.4.1.1) */
    const uint8_t *value; /* of a read that ended OK, value_len bytes */
    size_t value_len;     /* 0 for every other */
} barleyrope_result;

/* The result of a step. Steps are numbered from 0 on over the life of a state, in the order taken in. */
static inline barleyrope_result barleyrope_get_result(const barleyrope_state *state, const uint8_t *store,
                                                      size_t store_size, uint32_t index)
{
    uint64_t told[8];
    barleyrope_result result;
    barleyrope_result_words(state->core, state->tables, store, store_size, index, told);
    result.refusal = (int)told[0];
    result.is_kept = told[1] == 1;
    result.at_us = told[2];
    result.status = (int)told[3];
    result.att_code = (uint8_t)told[4];
    result.value = barleyrope_place(store, result.is_kept, told[5]);
    result.value_len = (size_t)told[6];
    return result;
}

/* What an aged wait passed on. */
typedef struct barleyrope_notification {
    int refusal;
    bool is_kept;         /* false: see below; the rest is 0 then */
    uint64_t at_us;       /* when it came: the time of the call that completed it */
    uint64_t link;        /* the number of the link that heard it (barleyrope_links_counted) */
    uint16_t handle;      /* of the characteristic's value */
    bool is_indication;   /* otherwise a notification */
    const uint8_t *value; /* value_len bytes */
    size_t value_len;
} barleyrope_notification;

/*
 * The notification that an aged wait passed on, by the number of the step: of those that counted when it
 * ended OK, the newest. Where several were joined, the others came before it. Time, link and value are the
 * notification's own.
 *
 * is_kept is false
 *   - if no result of that number is kept (barleyrope_get_result);
 *   - if it is not the result of an aged wait that ended OK;
 *   - if the notification has been dropped since: the newest 32 are kept. No other one is told in its place.
 * Ask right after the call that ended the wait: then it is still there.
 */
static inline barleyrope_notification barleyrope_passed_on(const barleyrope_state *state, const uint8_t *store,
                                                           size_t store_size, uint32_t index)
{
    uint64_t told[8];
    barleyrope_notification notification;
    barleyrope_passed_on_words(state->core, state->tables, store, store_size, index, told);
    notification.refusal = (int)told[0];
    notification.is_kept = told[1] == 1;
    notification.at_us = told[2];
    notification.link = told[3];
    notification.handle = (uint16_t)told[4];
    notification.is_indication = told[5] == 1;
    notification.value = barleyrope_place(store, notification.is_kept, told[6]);
    notification.value_len = (size_t)told[7];
    return notification;
}

/*
 * How many steps have ended: results 0 to this - 1 were given, the last 64 of them are kept. With it no
 * result is missed:
 *
 *     for (; seen < barleyrope_steps_ended(&state); seen++)
 *         your_result(seen, barleyrope_get_result(&state, store, sizeof store, seen));
 *
 * This and the next four read single words of the state; of an unfit state they say nothing.
 */
static inline uint32_t barleyrope_steps_ended(const barleyrope_state *state)
{
    return (uint32_t)(state->core[23] - state->core[5] % 2);
}

/* How many steps wait behind the running one; 64 less this is the room for a batch. */
static inline size_t barleyrope_steps_waiting(const barleyrope_state *state)
{
    return (size_t)state->core[27];
}

/* The number that the next step taken in will have: ask before barleyrope_push_steps. */
static inline uint32_t barleyrope_next_index(const barleyrope_state *state)
{
    return (uint32_t)(state->core[23] + state->core[27]);
}

/* How many steps were ever handed in while 64 waited: they were not taken in. */
static inline uint64_t barleyrope_dropped_steps(const barleyrope_state *state)
{
    return state->core[24];
}

/* How many links there were. It is the number of the present link; of the last one, where there is none. */
static inline uint64_t barleyrope_links_counted(const barleyrope_state *state)
{
    return state->core[34];
}

/* What was heard of an advertiser. */
typedef struct barleyrope_report {
    int refusal;
    bool is_kept; /* false: there are not so many reports; the rest is 0 then */
    uint64_t at_us;
    uint8_t channel;
    uint8_t pdu; /* BARLEYROPE_ADV_.. */
    barleyrope_address address;
    const uint8_t *data;
    size_t data_len;
    const uint8_t *response; /* the scan response, or NULL */
    size_t response_len;
} barleyrope_report;

/*
 * Report i, the oldest being 0. Reports are kept from scan to scan:
 *
 *     for (i = 0; (r = barleyrope_get_report(&state, store, sizeof store, i)).is_kept; i++) ..
 */
static inline barleyrope_report barleyrope_get_report(const barleyrope_state *state, const uint8_t *store,
                                                      size_t store_size, size_t i)
{
    uint64_t told[12];
    barleyrope_report report;
    barleyrope_report_words(state->core, state->tables, store, store_size, i, told);
    report.refusal = (int)told[0];
    report.is_kept = told[1] == 1;
    report.at_us = told[2];
    report.channel = (uint8_t)told[3];
    report.pdu = (uint8_t)told[4];
    report.address = barleyrope_address_of(told[5], (told[5] >> 48) != 0);
    report.data = barleyrope_place(store, report.is_kept, told[6]);
    report.data_len = (size_t)told[7];
    report.response = barleyrope_place(store, told[8] == 1, told[9]);
    report.response_len = (size_t)told[10];
    return report;
}

/* Bytes of the store. */
typedef struct barleyrope_part {
    int refusal;
    const uint8_t *data; /* NULL where there are none */
    size_t len;
} barleyrope_part;

static inline barleyrope_part barleyrope_part_of(const uint8_t *store, const uint64_t told[8])
{
    barleyrope_part part;
    part.refusal = (int)told[0];
    part.data = barleyrope_place(store, told[1] == 1, told[2]);
    part.len = (size_t)told[3];
    return part;
}

/* The advertising data of report i alone. */
static inline barleyrope_part barleyrope_get_report_data(const barleyrope_state *state, const uint8_t *store,
                                                         size_t store_size, size_t i)
{
    uint64_t told[8];
    barleyrope_report_data_words(state->core, state->tables, store, store_size, i, told);
    return barleyrope_part_of(store, told);
}

/* Its scan response alone. */
static inline barleyrope_part barleyrope_get_report_response(const barleyrope_state *state,
                                                             const uint8_t *store, size_t store_size, size_t i)
{
    uint64_t told[8];
    barleyrope_report_response_words(state->core, state->tables, store, store_size, i, told);
    return barleyrope_part_of(store, told);
}

/* The list of UUIDs in which report i names a service, of its data or else of its scan response. */
static inline barleyrope_part barleyrope_find_in_report(const barleyrope_state *state, const uint8_t *store,
                                                        size_t store_size, size_t i, barleyrope_uuid service)
{
    uint64_t told[8];
    barleyrope_report_body_words(state->core, state->tables, store, store_size, i, service.low, service.high,
                                 told);
    return barleyrope_part_of(store, told);
}

/*
 * What an advertiser tells of a service, by its advertising data and its scan response.
 *
 * UNKNOWN IS NOT FALSE. A head whose list is incomplete, or whose data is cut, may offer the service
 * all the same. So compare with these names: `if (presence)` takes 'unknown' for yes, and
 * `presence == BARLEYROPE_LISTED`, used as 'ours or not ours', takes it for no. What to do on unknown:
 * ask for a scan response, or connect and discover the services. A Connect step to a service goes on
 * listed alone.
 */
enum {
    BARLEYROPE_ABSENT = 0, /* not listed, though all lists are complete and all data was read */
    BARLEYROPE_LISTED = 1,
    BARLEYROPE_UNKNOWN = 2 /* not listed, and a list is incomplete (types 02, 04, 06) or a structure is cut off */
};

/* One line in English for a log; never NULL. */
static inline const char *barleyrope_presence_text(int presence)
{
    switch (presence) {
    case BARLEYROPE_ABSENT: return "absent: the advertiser does not list the service";
    case BARLEYROPE_LISTED: return "listed: the advertiser lists the service";
    case BARLEYROPE_UNKNOWN: return "unknown: a list is incomplete or the data is cut, so the service may be there";
    default: return "no such answer";
    }
}

/* What a report tells of a service. */
typedef struct barleyrope_presence {
    int refusal;
    bool is_kept; /* false: there are not so many reports; presence means nothing then */
    int presence; /* BARLEYROPE_ABSENT, BARLEYROPE_LISTED or BARLEYROPE_UNKNOWN */
} barleyrope_presence;

/* Whether report i lists a service, does not, or cannot tell. */
static inline barleyrope_presence barleyrope_presence_in_report(const barleyrope_state *state,
                                                                const uint8_t *store, size_t store_size,
                                                                size_t i, barleyrope_uuid service)
{
    uint64_t told[8];
    barleyrope_presence answer;
    barleyrope_report_presence_words(state->core, state->tables, store, store_size, i, service.low,
                                     service.high, told);
    answer.refusal = (int)told[0];
    answer.is_kept = told[1] == 1;
    answer.presence = (int)told[2];
    return answer;
}

/* ---- with no state: advertising data, connection parameters ---------------------------------- */

/*
 * Whether advertising data (or scan response data) lists a service.
 *
 * The data is a run of AD structures (Core Specification Supplement, Part A): a length octet, a
 * type octet and length - 1 octets of body. Types 02/03, 04/05 and 06/07 list services as UUIDs of
 * 16, 32 and 128 bits. All three forms of one UUID are the same UUID here. A structure of length 0,
 * or one that runs past the end, ends the reading: what stands before it still counts. A rest that
 * is too short for one more UUID is skipped.
 *
 *   data   the octets, only read. Any alignment.
 *   len    how many there are; any number, and not only the 31 of legacy advertising.
 *          With 0, data is not looked at and may be anything, NULL included; the answer is false.
 *   low    bits 0 to 63 of the UUID
 *   high   bits 64 to 127 of the UUID
 *
 * Returns true if some structure lists the UUID. False is not 'the service is not there': for that ask
 * barleyrope_service_presence.
 */
bool barleyrope_lists_service(const uint8_t *data, size_t len, uint64_t low, uint64_t high);

/*
 * The same search, which also tells where: the body of the FIRST structure that lists the UUID.
 * The body is the whole list of that structure (all of its UUIDs, without length and type octet),
 * not only the UUID that was equal.
 *
 *   data, len, low, high   as above
 *   start   on true, set to the index in data of the body's first octet; on false, left alone
 *   count   on true, set to the number of octets of the body; on false, left alone
 *           start and count must each point to a size_t of the caller. The two must differ and must
 *           not lie within data. NULL is not allowed.
 *
 * Returns true if some structure lists the UUID; then 2 <= *start and *start + *count <= len.
 * Always the same answer as barleyrope_lists_service.
 */
bool barleyrope_find_service(const uint8_t *data, size_t len, uint64_t low, uint64_t high,
                             size_t *start, size_t *count);

/*
 * The same search over advertising data and scan response, with three answers. Unknown is not false:
 * see BARLEYROPE_UNKNOWN above.
 *
 *   data, len, low, high     as above
 *   response, response_len   the scan response data, likewise; NULL and 0 where there is none
 *
 * Returns BARLEYROPE_LISTED if either lists the UUID; else BARLEYROPE_UNKNOWN if either has a list of
 * type 02, 04 or 06 or ends in a structure that runs past its end; else BARLEYROPE_ABSENT. A length of 0
 * ends the data and is no such end. It is BARLEYROPE_LISTED exactly where barleyrope_lists_service is true of
 * one of the two.
 */
uint32_t barleyrope_service_presence(const uint8_t *data, size_t len, const uint8_t *response,
                                     size_t response_len, uint64_t low, uint64_t high);

/*
 * Whether the numbers of a connection parameter update request (Core Specification Vol 3 Part A
 * 4.20) may be granted.
 *
 *   min       least connection interval, in units of 1.25 ms
 *   max       greatest connection interval, in units of 1.25 ms
 *   latency   peripheral latency, in connection events
 *   timeout   supervision timeout, in units of 10 ms
 *
 * Returns true if 6 <= min <= max <= 3200, latency <= 499, 10 <= timeout <= 3200, and the timeout is
 * longer than two latent intervals: 4 * timeout > (1 + latency) * max.
 */
bool barleyrope_params_good(uint16_t min, uint16_t max, uint16_t latency, uint16_t timeout);

/* ---- H4: HCI packets over a UART ------------------------------------------------------------- */

/*
 * A controller on a UART speaks H4 (Core Specification Vol 4 Part A): packet behind packet, each with an
 * indicator in front and its length in its header (Vol 4 Part E 5.4). These functions cut what comes in
 * into whole packets, turn ACL packets into calls of barleyrope_on_fragment, and build ACL packets and
 * events. They need no state but a stream. examples/uart.c has both ends of a UART.
 *
 *     static barleyrope_h4_stream stream;                  // all zero is a fresh one
 *     uint8_t in[256], packets[BARLEYROPE_H4_MAX_PACKET + sizeof in];
 *
 *     size_t n = your_uart_read(in, sizeof in), at, len;
 *     barleyrope_h4_fed fed = barleyrope_h4_feed(&stream, in, n, packets, sizeof packets);
 *     for (at = 0; at < fed.bytes; at += len) {
 *         len = barleyrope_h4_packet_len(packets + at, fed.bytes - at).len;
 *         your_packet(packets + at, len);
 *     }
 *     if (fed.refusal) your_uart_reopen(), barleyrope_h4_reset(&stream);
 */

enum {
    BARLEYROPE_H4_COMMAND = 1,
    BARLEYROPE_H4_ACL = 2,
    BARLEYROPE_H4_SCO = 3,
    BARLEYROPE_H4_EVENT = 4,
    BARLEYROPE_H4_ISO = 5
};

#define BARLEYROPE_H4_MAX_PACKET 1024 /* bytes, indicator and header counted; a stream takes and holds no more */
#define BARLEYROPE_H4_MAX_ACL 1019    /* bytes of data in an ACL packet */
#define BARLEYROPE_H4_MAX_PARAMS 255  /* parameter bytes of an event */

/* What libbarleyrope.a has for the functions below: you need not read this part. Every call writes all of
 * told; words that an answer does not use are 0. stream and held are those of a barleyrope_h4_stream. */

/* told: refusal, 1 if the length is known, the length, an undefined indicator. */
void barleyrope_h4_packet_len_words(const uint8_t *bytes, size_t bytes_len, uint64_t told[4]);
void barleyrope_h4_reset_words(uint64_t stream[2]);

/* told: 0, bytes held. */
void barleyrope_h4_buffered_words(const uint64_t stream[2], uint64_t told[4]);

/* told: refusal, packets, their bytes. */
void barleyrope_h4_feed_words(uint64_t stream[2], uint8_t held[1024], const uint8_t *bytes, size_t bytes_len,
                              uint8_t *out, size_t out_len, uint64_t told[4]);

/* told: refusal, bytes of the packet. pairs_len is in numbers, two for each pair. */
void barleyrope_h4_acl_words(uint8_t *out, size_t out_len, uint16_t handle, uint8_t flag, const uint8_t *data,
                             size_t data_len, uint64_t told[4]);
void barleyrope_h4_event_words(uint8_t *out, size_t out_len, uint8_t code, const uint8_t *params,
                               size_t params_len, uint64_t told[4]);
void barleyrope_h4_command_complete_words(uint8_t *out, size_t out_len, uint8_t num, uint16_t opcode,
                                          const uint8_t *returned, size_t returned_len, uint64_t told[4]);
void barleyrope_h4_command_status_words(uint8_t *out, size_t out_len, uint8_t num, uint8_t status,
                                        uint16_t opcode, uint64_t told[4]);
void barleyrope_h4_number_of_completed_packets_words(uint8_t *out, size_t out_len, const uint16_t *pairs,
                                                     size_t pairs_len, uint64_t told[4]);
void barleyrope_h4_le_meta_words(uint8_t *out, size_t out_len, uint8_t subevent, const uint8_t *params,
                                 size_t params_len, uint64_t told[4]);

/* told: 1 if it is an ACL packet, handle, boundary flag, place and length of its data. */
void barleyrope_h4_acl_parts_words(const uint8_t *packet, size_t packet_len, uint64_t told[5]);

/* told: 1 if there is a fragment, 1 if a frame begins, place and length of its bytes. */
void barleyrope_h4_fragment_words(const uint8_t *packet, size_t packet_len, uint16_t handle, uint64_t told[4]);

/* How long a packet is. */
typedef struct barleyrope_h4_length {
    int refusal;   /* 9: the first byte is no indicator */
    bool is_known; /* false, with no refusal: its header is not all there */
    size_t len;    /* indicator and header counted: up to 65,540, also where a stream would refuse it */
} barleyrope_h4_length;

/* Of the packet that begins here; of its bytes, the first len are looked at. */
static inline barleyrope_h4_length barleyrope_h4_packet_len(const uint8_t *bytes, size_t len)
{
    uint64_t told[4];
    barleyrope_h4_length length;
    barleyrope_h4_packet_len_words(bytes, len, told);
    length.refusal = (int)told[0];
    length.is_known = told[1] == 1;
    length.len = (size_t)told[2];
    return length;
}

/*
 * What comes in from a UART: 1,040 bytes. All zero is a fresh stream. Any bytes may be handed in as one;
 * refusal 1 is for a count over 1,024 alone.
 */
typedef struct barleyrope_h4_stream {
    uint64_t words[2]; /* bytes held of a packet that is not whole; 0, or the 9 or 10 that every feed gets */
    uint8_t held[BARLEYROPE_H4_MAX_PACKET];
} barleyrope_h4_stream;

/* Makes a stream a fresh one: what it held is dropped, and bytes are taken again. */
static inline void barleyrope_h4_reset(barleyrope_h4_stream *stream)
{
    barleyrope_h4_reset_words(stream->words);
}

/* How many bytes it holds. */
static inline size_t barleyrope_h4_buffered(const barleyrope_h4_stream *stream)
{
    uint64_t told[4];
    barleyrope_h4_buffered_words(stream->words, told);
    return (size_t)told[1];
}

typedef struct barleyrope_h4_fed {
    int refusal;    /* BARLEYROPE_ACCEPTED, or why the rest of the bytes was not taken */
    size_t packets; /* whole packets, in out end to end; with a refusal of 9 or 10 too */
    size_t bytes;   /* and their bytes */
} barleyrope_h4_fed;

/*
 * Bytes came in, any number of them: the packets that are whole now go to out, one behind another, oldest
 * first. What is left of an unfinished one is held for the next feed. How the bytes are cut into feeds makes
 * no difference to the packets, nor to the refusal.
 *
 *   bytes   len of them, only read
 *   out     written from its start; out_size is at least what is held and len, or refusal 2. With
 *           BARLEYROPE_H4_MAX_PACKET + len it always is. Bytes behind the packets are as they were.
 *
 * Refusals, in this order:
 *   1    over 1,024 bytes are held: the stream is not one that a feed left
 *   2    out_size; nothing is taken, and the same bytes may be fed again
 *   9    where a packet should begin stands none of the five indicators
 *   10   a packet says that it is over 1,024 bytes; told when its header is there, before its body
 * With 9 and 10 the packets before that place are given. The stream is lost then: it holds nothing, drops
 * what comes, and every later feed gets the same refusal, until barleyrope_h4_reset.
 */
static inline barleyrope_h4_fed barleyrope_h4_feed(barleyrope_h4_stream *stream, const uint8_t *bytes, size_t len,
                                                   uint8_t *out, size_t out_size)
{
    uint64_t told[4];
    barleyrope_h4_fed fed;
    barleyrope_h4_feed_words(stream->words, stream->held, bytes, len, out, out_size, told);
    fed.refusal = (int)told[0];
    fed.packets = (size_t)told[1];
    fed.bytes = (size_t)told[2];
    return fed;
}

/* What an ACL packet has in it. */
typedef struct barleyrope_h4_acl_parts {
    bool is_acl;         /* false: another packet, or not all of its bytes are there; the rest is 0 then */
    uint16_t handle;     /* 12 bits */
    uint8_t flag;        /* the packet boundary flag, 0 to 3 */
    const uint8_t *data; /* data_len bytes, in packet */
    size_t data_len;
} barleyrope_h4_acl_parts;

static inline barleyrope_h4_acl_parts barleyrope_h4_split_acl(const uint8_t *packet, size_t len)
{
    uint64_t told[5];
    barleyrope_h4_acl_parts parts;
    barleyrope_h4_acl_parts_words(packet, len, told);
    parts.is_acl = told[0] == 1;
    parts.handle = (uint16_t)told[1];
    parts.flag = (uint8_t)told[2];
    parts.data = parts.is_acl ? packet + (size_t)told[3] : NULL;
    parts.data_len = (size_t)told[4];
    return parts;
}

/* What barleyrope_on_fragment takes. */
typedef struct barleyrope_h4_fragment {
    bool is_there;       /* false: no ACL packet, of another link, or of boundary flag 3; the rest is 0 then */
    bool start;          /* boundary flag 0 or 2; else 1 */
    const uint8_t *data; /* data_len bytes, in packet */
    size_t data_len;
} barleyrope_h4_fragment;

/*
 * The fragment that a packet brings to the link of a handle:
 *
 *     barleyrope_h4_fragment f = barleyrope_h4_fragment_of(packet, len, handle);
 *     if (f.is_there)
 *         barleyrope_on_fragment(&state, store, sizeof store, out, sizeof out, now_us, f.start, f.data, f.data_len);
 */
static inline barleyrope_h4_fragment barleyrope_h4_fragment_of(const uint8_t *packet, size_t len, uint16_t handle)
{
    uint64_t told[4];
    barleyrope_h4_fragment fragment;
    barleyrope_h4_fragment_words(packet, len, handle, told);
    fragment.is_there = told[0] == 1;
    fragment.start = told[1] == 1;
    fragment.data = fragment.is_there ? packet + (size_t)told[2] : NULL;
    fragment.data_len = (size_t)told[3];
    return fragment;
}

/*
 * The builders write one packet to the start of out; bytes behind it are as they were. Refusals, in this
 * order, with nothing written:
 *   2    out_size is under the packet's length
 *   10   over 1,019 bytes of ACL data, or over 255 parameter bytes in all of an event
 */
typedef struct barleyrope_h4_built {
    int refusal;
    size_t bytes; /* of the packet; 0 if refused */
} barleyrope_h4_built;

static inline barleyrope_h4_built barleyrope_h4_built_of(const uint64_t told[4])
{
    barleyrope_h4_built built;
    built.refusal = (int)told[0];
    built.bytes = (size_t)told[1];
    return built;
}

/*
 * An ACL packet: of the handle the low 12 bits, of the flag the low 2. To a controller, a frame's first
 * packet has flag 0 and the others flag 1; each has at most as many bytes of data as the controller takes.
 */
static inline barleyrope_h4_built barleyrope_h4_acl(uint8_t *out, size_t out_size, uint16_t handle, uint8_t flag,
                                                    const uint8_t *data, size_t len)
{
    uint64_t told[4];
    barleyrope_h4_acl_words(out, out_size, handle, flag, data, len, told);
    return barleyrope_h4_built_of(told);
}

/* An event of a code and its parameters. The rest are events that have their own form. */
static inline barleyrope_h4_built barleyrope_h4_event(uint8_t *out, size_t out_size, uint8_t code,
                                                      const uint8_t *params, size_t len)
{
    uint64_t told[4];
    barleyrope_h4_event_words(out, out_size, code, params, len, told);
    return barleyrope_h4_built_of(told);
}

/* Command Complete (Vol 4 Part E 7.7.14): how many commands may be sent, and what a command returned, its
 * status first, at most 252 bytes. */
static inline barleyrope_h4_built barleyrope_h4_command_complete(uint8_t *out, size_t out_size, uint8_t num,
                                                                 uint16_t opcode, const uint8_t *returned,
                                                                 size_t len)
{
    uint64_t told[4];
    barleyrope_h4_command_complete_words(out, out_size, num, opcode, returned, len, told);
    return barleyrope_h4_built_of(told);
}

/* Command Status (7.7.15). */
static inline barleyrope_h4_built barleyrope_h4_command_status(uint8_t *out, size_t out_size, uint8_t num,
                                                               uint8_t status, uint16_t opcode)
{
    uint64_t told[4];
    barleyrope_h4_command_status_words(out, out_size, num, status, opcode, told);
    return barleyrope_h4_built_of(told);
}

/* Of a link: how many of its packets the controller has sent. */
typedef struct barleyrope_h4_completed {
    uint16_t handle;
    uint16_t packets;
} barleyrope_h4_completed;

typedef char barleyrope_h4_completed_is_two_numbers[sizeof(barleyrope_h4_completed) == 4 ? 1 : -1];

/* Number Of Completed Packets (7.7.19), of count links, at most 63. */
static inline barleyrope_h4_built barleyrope_h4_number_of_completed_packets(uint8_t *out, size_t out_size,
                                                                            const barleyrope_h4_completed *links,
                                                                            size_t count)
{
    uint64_t told[4];
    /* twice the count must be a size, and no output is as long as so many links' packet: refusal 2 */
    if (count > SIZE_MAX / 4)
        count = SIZE_MAX / 4;
    barleyrope_h4_number_of_completed_packets_words(out, out_size, (const uint16_t *)(const void *)links, 2 * count,
                                                    told);
    return barleyrope_h4_built_of(told);
}

/* LE Meta (7.7.65): a subevent and its parameters, at most 254 bytes. */
static inline barleyrope_h4_built barleyrope_h4_le_meta(uint8_t *out, size_t out_size, uint8_t subevent,
                                                        const uint8_t *params, size_t len)
{
    uint64_t told[4];
    barleyrope_h4_le_meta_words(out, out_size, subevent, params, len, told);
    return barleyrope_h4_built_of(told);
}

#ifdef __cplusplus
}
#endif

#endif /* BARLEYROPE_H */
