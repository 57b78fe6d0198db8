/* The serial transport from C: bytes in random cuttings, the builders with room and without, packets cut at every place.
 *
 *     serial [BYTES [SEED]]      the defaults are 2000000 and 1
 *
 * Half of the bytes are good packets of all five kinds with rare faults, half are noise; after each 9 or 10 come a few feeds more,
 * which must get the same, and a reset. What a feed must do is written here once more, from request Three of 02 and the Core
 * Specification, and in C: refusal, packets, bytes held, and that no other byte lent has changed.
 *
 * The sanitizers see this file and not the archive: what is lent lies against a page that may not be touched.
 * Prints what was tried and ends with 0; or prints the first failures and ends with 1. */
#define _DEFAULT_SOURCE
#include "barleyrope.h"

#include <stdio.h>
#include <stdlib.h>
#include <string.h>

#include "random.h"
#include "walled.h"

/* Nothing here allocates: the search for leaks at the end would take seconds and find none. */
const char *__asan_default_options(void);
const char *__asan_default_options(void) {
    return "detect_leaks=0";
}

static unsigned long checks, failures;

static void expect(bool ok, const char *what, int line) {
    checks++;
    if (!ok && failures++ < 20)
        fprintf(stderr, "tests/c/serial.c:%d: %s\n", line, what);
}

#define EXPECT(ok) expect((ok), #ok, __LINE__)

/* ---- memory: each part ends at a page that may not be touched ------------------------------------------------------------------ */

#define MOST 4096 /* bytes of a feed */
#define SPARE 40  /* an output may be longer than it must be */
#define SEAL 0xA5 /* stands in the output */
#define OUTPUT (MOST + BARLEYROPE_H4_MAX_PACKET + SPARE)

static uint8_t *in_end, *out_end;
static barleyrope_h4_stream *stream;

/* Bytes that end at the wall; none are NULL. */
static uint8_t *input(const uint8_t *bytes, size_t n) {
    if (n != 0)
        memcpy(in_end - n, bytes, n);
    return n == 0 ? NULL : in_end - n;
}

/* The output holds the seal between calls. */
static uint8_t *output(size_t n) {
    return n == 0 ? NULL : out_end - n;
}

static bool sealed(const uint8_t *from, const uint8_t *to) {
    for (; from < to; from++)
        if (*from != SEAL)
            return false;
    return true;
}

/* ---- a feed, from 02: what must come of the bytes held and fed ------------------------------------------------------------------ */

static struct {
    size_t count;
    int lost;
    uint8_t held[BARLEYROPE_H4_MAX_PACKET];
} model;

/* The length of the packet that begins here: 0 if its header is not there, or -1 if it begins with no indicator. */
static long packet_len(const uint8_t *s, size_t n) {
    if (n == 0)
        return 0;
    switch (s[0]) {
    case 1: /* opcode, length */
    case 3: /* handle, length */
        return n < 4 ? 0 : 4 + s[3];
    case 2: /* handle, length of two bytes */
        return n < 5 ? 0 : 5 + s[3] + 256 * s[4];
    case 4: /* code, length */
        return n < 3 ? 0 : 3 + s[2];
    case 5: /* handle, length of 14 bits */
        return n < 5 ? 0 : 5 + s[3] + 256 * (s[4] & 0x3F);
    default:
        return -1;
    }
}

static unsigned long given, refused[11];

/* A feed with so much room, and all that it may write. */
static void feed(const uint8_t *bytes, size_t n, size_t room) {
    static uint8_t all[OUTPUT];
    barleyrope_h4_stream was = *stream;
    size_t total = model.count + n, at = 0, packets = 0;
    uint8_t *out = output(room);
    barleyrope_h4_fed fed = barleyrope_h4_feed(stream, input(bytes, n), n, out, room);
    int why = model.lost;
    if (room < total) {
        EXPECT(fed.refusal == BARLEYROPE_WRONG_SIZE && fed.packets == 0 && fed.bytes == 0);
        EXPECT(memcmp(&was, stream, sizeof was) == 0 && sealed(out_end - OUTPUT, out_end));
        refused[BARLEYROPE_WRONG_SIZE]++;
        return;
    }
    memcpy(all, model.held, model.count);
    if (n != 0)
        memcpy(all + model.count, bytes, n);
    while (why == 0) {
        long len = packet_len(all + at, total - at);
        if (len < 0)
            why = BARLEYROPE_BAD_INDICATOR;
        else if (len > BARLEYROPE_H4_MAX_PACKET)
            why = BARLEYROPE_LONG_PACKET;
        else if (len == 0 || (size_t)len > total - at)
            break;
        else
            at += (size_t)len, packets++;
    }
    model.lost = why;
    model.count = why == 0 ? total - at : 0;
    memcpy(model.held, all + at, model.count);
    EXPECT(fed.refusal == why && fed.packets == packets && fed.bytes == at);
    EXPECT(at == 0 || memcmp(out, all, at) == 0);
    if (room != 0)
        memset(out, SEAL, at);
    EXPECT(sealed(out_end - room, out_end));
    EXPECT(stream->words[0] == model.count && stream->words[1] == (uint64_t)why && barleyrope_h4_buffered(stream) == model.count);
    EXPECT(memcmp(stream->held, model.held, model.count) == 0);
    EXPECT(memcmp(stream->held + model.count, was.held + model.count, sizeof was.held - model.count) == 0);
    given += packets;
    refused[why]++;
}

static void reset(void) {
    barleyrope_h4_reset(stream);
    model.count = 0;
    model.lost = 0;
    EXPECT(stream->words[0] == 0 && stream->words[1] == 0);
}

/* ---- bytes to feed ------------------------------------------------------------------------------------------------------------- */

/* A packet, in few cases with a fault: another indicator, or a stated length over the longest. Its length. */
static size_t packet(uint8_t *to) {
    static const size_t sizes[] = {2, 9, 30, 256};
    bool fault = one_in(2000);
    uint8_t kind = (uint8_t)(1 + below(5));
    bool wide = kind == 2 || kind == 5;
    size_t size = below(sizes[below(4)]), i, header = kind == 4 ? 3 : wide ? 5 : 4;
    if (wide && one_in(20))
        size = one_in(4) ? BARLEYROPE_H4_MAX_ACL : below(BARLEYROPE_H4_MAX_ACL);
    for (i = 0; i < header + size; i++)
        to[i] = (uint8_t)any();
    to[0] = kind;
    to[header - 1] = (uint8_t)size;
    if (wide)
        to[3] = (uint8_t)size, to[4] = (uint8_t)((size >> 8) | (kind == 5 ? any() & 0xC0 : 0));
    if (fault && wide && one_in(2))
        to[3] = 0xFC, to[4] |= 0x07; /* 1,020 or more */
    else if (fault)
        to[0] = one_in(2) ? 0 : (uint8_t)(6 + below(250));
    return header + size;
}

/* What is left of the packet that was begun. */
static struct {
    uint8_t bytes[2 * BARLEYROPE_H4_MAX_PACKET];
    size_t at, size;
} left;

/* The next n bytes: of packets, or of noise. */
static void some(uint8_t *to, size_t n, bool noise) {
    size_t i;
    for (i = 0; i < n; i++) {
        /* one byte in four of the noise is an indicator: otherwise few packets would begin */
        if (noise) {
            to[i] = (uint8_t)(one_in(4) ? 1 + below(5) : any());
            continue;
        }
        if (left.at == left.size)
            left.at = 0, left.size = packet(left.bytes);
        to[i] = left.bytes[left.at++];
    }
}

/* Noise loses the stream soon: most of its feeds are small. */
static size_t feed_size(bool noise) {
    static const size_t sizes[] = {1, 2, 17, 65, 600, MOST + 1};
    return one_in(20) ? 1 : below(sizes[below(noise && !one_in(50) ? 4 : 6)]);
}

static void feeds(unsigned long bytes, bool noise) {
    static uint8_t fed[MOST];
    unsigned long i;
    size_t n, lost = 0;
    for (i = 0; i < bytes; i += n) {
        n = feed_size(noise);
        some(fed, n, noise);
        if (one_in(50) && model.count + n != 0)
            feed(fed, n, below(model.count + n));
        feed(fed, n, model.count + n + (one_in(4) ? below(SPARE) : 0));
        /* behind a reset a packet begins */
        if (model.lost != 0 && lost++ == 2)
            lost = 0, left.at = left.size, reset();
        if (n == 0)
            i++;
    }
    reset();
}

/* Streams that no feed left: a count over 1,024; whole packets in what is held; a lost one that holds bytes. */
static void odd_streams(void) {
    static const uint64_t counts[] = {1025, 1026, UINT64_C(1) << 32, UINT64_MAX};
    static const uint64_t words[] = {0, 1, 8, 9, 10, 11, UINT64_C(9) << 32, UINT64_MAX};
    uint8_t byte = 4;
    size_t i, j;
    for (i = 0; i < 4; i++) {
        barleyrope_h4_stream was;
        barleyrope_h4_fed fed;
        stream->words[0] = counts[i], stream->words[1] = words[i];
        was = *stream;
        fed = barleyrope_h4_feed(stream, input(&byte, 1), 1, output(i), i);
        EXPECT(fed.refusal == BARLEYROPE_UNFIT && fed.packets == 0 && fed.bytes == 0);
        EXPECT(memcmp(&was, stream, sizeof was) == 0 && sealed(out_end - OUTPUT, out_end));
        EXPECT(barleyrope_h4_buffered(stream) == (size_t)counts[i]);
        refused[BARLEYROPE_UNFIT]++;
    }
    for (i = 0; i < 8; i++)
        for (j = 0; j <= BARLEYROPE_H4_MAX_PACKET; j += 1 + below(60)) {
            memset(model.held, 0, sizeof model.held);
            some(model.held, j, false);
            model.count = j;
            memcpy(stream->held, model.held, j);
            stream->words[0] = j, stream->words[1] = words[i];
            model.lost = words[i] == 0 ? 0 : words[i] == 9 ? 9 : 10; /* any other word is a 10 */
            if (j != 0)
                feed(&byte, 1, j);
            feed(&byte, 1, j + 1);
            feed(NULL, 0, model.count);
        }
    reset();
}

/* ---- builders ------------------------------------------------------------------------------------------------------------------ */

static uint8_t bytes[1200];

/* What a builder answered that was to write these: a head, and n bytes behind it; with so much room. */
static void built(barleyrope_h4_built b, const uint8_t *head, size_t head_len, size_t n, bool fits, size_t room) {
    size_t len = head_len + n;
    int why = room < len ? BARLEYROPE_WRONG_SIZE : fits ? BARLEYROPE_ACCEPTED : BARLEYROPE_LONG_PACKET;
    uint8_t *out = out_end - room;
    EXPECT(b.refusal == why && b.bytes == (why == 0 ? len : 0));
    if (why == 0) {
        EXPECT(memcmp(out, head, head_len) == 0 && (n == 0 || memcmp(out + head_len, bytes, n) == 0));
        memset(out, SEAL, len);
    }
    EXPECT(sealed(out_end - OUTPUT, out_end));
}

/* Each builder with n bytes of the caller's, in so much room more or less than the packet needs. */
static void build(size_t n, long more) {
    const uint8_t *data = input(bytes, n);
    uint8_t a = (uint8_t)any(), b = (uint8_t)any(), head[8];
    uint16_t w = (uint16_t)any();
#define ROOM(head_len) ((long)(head_len) + (long)n + more < 0 ? 0 : (size_t)((long)(head_len) + (long)n + more))
#define LO (uint8_t)w
#define HI (uint8_t)(w >> 8)
    head[0] = 2, head[1] = LO, head[2] = (uint8_t)((HI & 0x0F) | ((a & 3) << 4)), head[3] = (uint8_t)n, head[4] = (uint8_t)(n >> 8);
    built(barleyrope_h4_acl(output(ROOM(5)), ROOM(5), w, a, data, n), head, 5, n, n <= 1019, ROOM(5));
    head[0] = 4, head[1] = a, head[2] = (uint8_t)n;
    built(barleyrope_h4_event(output(ROOM(3)), ROOM(3), a, data, n), head, 3, n, n <= 255, ROOM(3));
    head[1] = 0x0E, head[2] = (uint8_t)(n + 3), head[3] = a, head[4] = LO, head[5] = HI;
    built(barleyrope_h4_command_complete(output(ROOM(6)), ROOM(6), a, w, data, n), head, 6, n, n <= 252, ROOM(6));
    head[1] = 0x3E, head[2] = (uint8_t)(n + 1), head[3] = a;
    built(barleyrope_h4_le_meta(output(ROOM(4)), ROOM(4), a, data, n), head, 4, n, n <= 254, ROOM(4));
    if (n % 4 == 0) { /* on a little-endian machine the pairs are the bytes */
        head[1] = 0x13, head[2] = (uint8_t)(n + 1), head[3] = (uint8_t)(n / 4);
        built(barleyrope_h4_number_of_completed_packets(output(ROOM(4)), ROOM(4), (const barleyrope_h4_completed *)(const void *)data,
                                                        n / 4),
              head, 4, n, n / 4 <= 63, ROOM(4));
    }
    if (n == 0) {
        head[1] = 0x0F, head[2] = 4, head[3] = b, head[4] = a, head[5] = LO, head[6] = HI;
        built(barleyrope_h4_command_status(output(ROOM(7)), ROOM(7), a, b, w), head, 7, 0, true, ROOM(7));
    }
}

static void builders(void) {
    static const long more[] = {-2000, -8, -1, 0, 1, SPARE};
    size_t n, i;
    for (n = 0; n <= sizeof bytes; n++)
        for (i = 0; i < 6; i++)
            if (n <= 300 || n % 50 == 0 || (n >= 1010 && n <= 1030))
                build(n, more[i]);
    /* counts that no array has are refused unread */
    built(barleyrope_h4_number_of_completed_packets(output(99), 99, NULL, SIZE_MAX), bytes, 99, 1, true, 99);
    built(barleyrope_h4_number_of_completed_packets(output(99), 99, NULL, SIZE_MAX / 4), bytes, 99, 1, true, 99);
}

/* ---- packets cut at every place, and every first byte -------------------------------------------------------------------------- */

static void reads(const uint8_t *packet_at, size_t n, uint16_t link) {
    const uint8_t *p = input(packet_at, n);
    long len = packet_len(packet_at, n);
    barleyrope_h4_length l = barleyrope_h4_packet_len(p, n);
    barleyrope_h4_acl_parts parts = barleyrope_h4_split_acl(p, n);
    barleyrope_h4_fragment f = barleyrope_h4_fragment_of(p, n, link);
    bool acl = n > 0 && packet_at[0] == 2 && len > 0 && (size_t)len <= n;
    uint16_t handle = acl ? (uint16_t)(packet_at[1] + 256 * (packet_at[2] & 0x0F)) : 0;
    uint8_t flag = acl ? (packet_at[2] >> 4) & 3 : 0;
    bool is_fragment = acl && handle == link && flag != 3;
    EXPECT(l.refusal == (len < 0 ? BARLEYROPE_BAD_INDICATOR : 0) && l.is_known == (len > 0) && l.len == (len > 0 ? (size_t)len : 0));
    EXPECT(parts.is_acl == acl && parts.handle == handle && parts.flag == flag);
    EXPECT(parts.data == (acl ? p + 5 : NULL) && parts.data_len == (acl ? (size_t)len - 5 : 0));
    EXPECT(f.is_there == is_fragment && f.start == (is_fragment && flag != 1));
    EXPECT(f.data == (is_fragment ? p + 5 : NULL) && f.data_len == (is_fragment ? (size_t)len - 5 : 0));
}

static void readers(void) {
    uint8_t one[2 * BARLEYROPE_H4_MAX_PACKET];
    size_t i, n, len;
    for (i = 0; i < 256; i++)
        for (n = 0; n <= 8; n++) {
            some(one, n, true);
            one[0] = (uint8_t)i;
            reads(one, n, 0);
        }
    for (i = 0; i < 2000; i++) {
        len = packet(one);
        one[len] = (uint8_t)any();
        for (n = 0; n <= len + 1; n += n < 8 || len - n < 8 ? 1 : len / 4)
            reads(one, n < len + 1 ? n : len + 1, (uint16_t)(one[1] + 256 * (one_in(4) ? one[2] : one[2] & 0x0F)));
    }
}

int main(int argc, char **argv) {
    unsigned long count = argc > 1 ? strtoul(argv[1], NULL, 10) : 2000000;
    seed = argc > 2 ? strtoul(argv[2], NULL, 10) : 1;
    in_end = walled(MOST);
    out_end = walled(OUTPUT);
    stream = (barleyrope_h4_stream *)(void *)(walled(sizeof *stream) - sizeof *stream);
    memset(out_end - OUTPUT, SEAL, OUTPUT);
    some(bytes, sizeof bytes, true);
    feeds(count / 2, false);
    feeds(count - count / 2, true);
    odd_streams();
    builders();
    readers();
    printf("%lu bytes fed, %lu packets; feeds accepted %lu, refused by 1 %lu, by 2 %lu, by 9 %lu, by 10 %lu; %lu checks, %lu failed\n", count,
           given, refused[0], refused[1], refused[2], refused[9], refused[10], checks, failures);
    return failures == 0 && given != 0 && refused[9] != 0 && refused[10] != 0 ? 0 : 1;
}
