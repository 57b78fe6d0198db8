/* The C exports as the collector calls them: sample rows, bad input, and places that must be left alone.
 * Compiled with -Wall -Wextra -Werror and run under the address and undefined-behaviour sanitizers.
 * The sanitizers see the reads of this file and not those of the archive, so every payload is laid against a page that
 * may not be read: one byte read past its end, or before its start, ends the program with a signal.
 * Prints the number of checks and ends with 0, or prints the failed checks and ends with 1. */
#define _DEFAULT_SOURCE
#include "barleyrope.h"

#include <stdio.h>
#include <stdlib.h>
#include <string.h>
#include <sys/mman.h>
#include <unistd.h>

#define BATTERY BARLEYROPE_SHORT_LOW, BARLEYROPE_SHORT_HIGH(0x180F)
#define UNTOUCHED ((size_t)0x5EED)

static unsigned long checks, failures;

static void expect(bool ok, const char *what, int line) {
    checks++;
    if (!ok) {
        failures++;
        if (failures <= 20)
            fprintf(stderr, "tests/c/collector.c:%d: %s\n", line, what);
    }
}

#define EXPECT(ok) expect((ok), #ok, __LINE__)

/* One page that may be read between two that may not. */
static uint8_t *page;
static size_t page_size;

static void lay_out(void) {
    page_size = (size_t)sysconf(_SC_PAGESIZE);
    uint8_t *all = mmap(NULL, 3 * page_size, PROT_NONE, MAP_PRIVATE | MAP_ANONYMOUS, -1, 0);
    if (all == MAP_FAILED || mprotect(all + page_size, page_size, PROT_READ | PROT_WRITE) != 0) {
        perror("mmap");
        exit(2);
    }
    page = all + page_size;
}

struct found {
    bool is;
    size_t start, count;
};

/* Whether a service that is not listed may be there all the same, as 02 has it: a list of an even kind was read, or the last length is cut. */
static bool may_be_there(const uint8_t *bytes, size_t len) {
    bool incomplete = false;
    size_t at = 0;
    while (at < len && bytes[at] != 0 && bytes[at] < len - at) {
        const uint8_t kind = bytes[at + 1];
        incomplete = incomplete || kind == 2 || kind == 4 || kind == 6;
        at += (size_t)1 + bytes[at];
    }
    return incomplete || (at < len && bytes[at] != 0);
}

/* All three searches, on the bytes laid against the end of the page and against its start. All must agree; the place is told
 * on a match and left alone otherwise, and the bytes are as they were. */
static struct found look(const uint8_t *bytes, size_t len, uint64_t low, uint64_t high) {
    struct found told[2];
    for (int i = 0; i < 2; i++) {
        uint8_t *data = i == 0 ? page + page_size - len : page;
        struct found f = {false, UNTOUCHED, UNTOUCHED};
        memcpy(data, bytes, len);
        f.is = barleyrope_find_service(data, len, low, high, &f.start, &f.count);
        EXPECT(f.is == barleyrope_lists_service(data, len, low, high));
        const uint32_t want = f.is ? BARLEYROPE_LISTED : may_be_there(bytes, len) ? BARLEYROPE_UNKNOWN : BARLEYROPE_ABSENT;
        EXPECT(barleyrope_service_presence(data, len, NULL, 0, low, high) == want);
        EXPECT(barleyrope_service_presence(NULL, 0, data, len, low, high) == want);
        EXPECT(barleyrope_service_presence(data, len, data, len, low, high) == want);
        EXPECT(memcmp(data, bytes, len) == 0);
        if (f.is)
            EXPECT(2 <= f.start && f.count <= len && f.start <= len - f.count);
        else
            EXPECT(f.start == UNTOUCHED && f.count == UNTOUCHED);
        told[i] = f;
    }
    EXPECT(told[0].is == told[1].is && told[0].start == told[1].start && told[0].count == told[1].count);
    return told[0];
}

static bool at(struct found f, size_t start, size_t count) {
    return f.is && f.start == start && f.count == count;
}

#define LOOK(low_high, ...) look((const uint8_t[]){__VA_ARGS__}, sizeof((const uint8_t[]){__VA_ARGS__}), low_high)

static void samples(void) {
    /* P1 to P4 of the sample table. */
    EXPECT(at(LOOK(BATTERY, 0x03, 0x03, 0x0F, 0x18), 2, 2));
    EXPECT(at(LOOK(BATTERY, 0x02, 0x01, 0x06, 0x03, 0x02, 0x0F, 0x18), 5, 2));
    EXPECT(!LOOK(BATTERY, 0x00, 0x03, 0x03, 0x0F, 0x18).is);
    EXPECT(!LOOK(BATTERY, 0x03, 0x03, 0x0F).is);
    /* The same service in each width, alone, second in its list, and with a remainder. */
    EXPECT(at(LOOK(BATTERY, 5, 4, 0x0F, 0x18, 0, 0), 2, 4));
    EXPECT(at(LOOK(BATTERY, 17, 7, 0xFB, 0x34, 0x9B, 0x5F, 0x80, 0, 0, 0x80, 0, 0x10, 0, 0, 0x0F, 0x18, 0, 0), 2, 16));
    EXPECT(at(LOOK(BATTERY, 5, 2, 0x10, 0x18, 0x0F, 0x18), 2, 4));
    EXPECT(at(LOOK(BATTERY, 4, 2, 0x0F, 0x18, 0x0F), 2, 3));
    EXPECT(!LOOK(BATTERY, 4, 2, 0x00, 0x0F, 0x18).is);
    /* The first structure that matches is the one. */
    EXPECT(at(LOOK(BATTERY, 3, 2, 0x10, 0x18, 3, 3, 0x0F, 0x18, 5, 2, 0x0F, 0x18, 0x0F, 0x18), 6, 2));
    /* A structure that runs past the end hides itself and not those before it. */
    EXPECT(at(LOOK(BATTERY, 3, 2, 0x0F, 0x18, 9, 2, 0), 2, 2));
    EXPECT(!LOOK(BATTERY, 9, 2, 0x0F, 0x18).is);
    EXPECT(!LOOK(BATTERY, 3, 9, 0x0F, 0x18).is);
}

static void halves(void) {
    /* 6E400001-B5A3-F393-E0A9-E50E24DCCA9E as it stands in a packet, least significant octet first. */
    static const uint8_t uart[] = {17,   6,    0x9E, 0xCA, 0xDC, 0x24, 0x0E, 0xE5, 0xA9,
                                   0xE0, 0x93, 0xF3, 0xA3, 0xB5, 0x01, 0x00, 0x40, 0x6E};
    const uint64_t low = UINT64_C(0xE0A9E50E24DCCA9E), high = UINT64_C(0x6E400001B5A3F393);
    EXPECT(at(look(uart, sizeof uart, low, high), 2, 16));
    EXPECT(!look(uart, sizeof uart, high, low).is);
    EXPECT(!look(uart, sizeof uart, low, low).is);
    for (int bit = 0; bit < 64; bit++) {
        EXPECT(!look(uart, sizeof uart, low ^ UINT64_C(1) << bit, high).is);
        EXPECT(!look(uart, sizeof uart, low, high ^ UINT64_C(1) << bit).is);
    }
    for (uint32_t n = 0; n <= 0xFFFF; n++) {
        const uint8_t list[] = {3, 3, (uint8_t)n, (uint8_t)(n >> 8)};
        EXPECT(look(list, 4, BARLEYROPE_SHORT_LOW, BARLEYROPE_SHORT_HIGH(n)).is);
        EXPECT(!look(list, 4, BARLEYROPE_SHORT_LOW, BARLEYROPE_SHORT_HIGH(n ^ 0x10000)).is);
    }
}

static void nothing_there(void) {
    const uint8_t *nowhere[] = {NULL, (const uint8_t *)1, (const uint8_t *)UINTPTR_MAX, page - 1, page + page_size};
    for (size_t i = 0; i < sizeof nowhere / sizeof *nowhere; i++) {
        size_t start = UNTOUCHED, count = UNTOUCHED;
        EXPECT(!barleyrope_lists_service(nowhere[i], 0, BATTERY));
        EXPECT(!barleyrope_find_service(nowhere[i], 0, BATTERY, &start, &count));
        EXPECT(start == UNTOUCHED && count == UNTOUCHED);
        EXPECT(barleyrope_service_presence(nowhere[i], 0, nowhere[i], 0, BATTERY) == BARLEYROPE_ABSENT);
    }
}

/* Rows of the table that is proved (adv_presence/specs/Samples.antt). */
static void presences(void) {
    static const uint8_t has[] = {3, 3, 0x0F, 0x18}, has_not[] = {3, 3, 0x0A, 0x18}, incomplete[] = {3, 2, 0x0A, 0x18};
    static const uint8_t cut[] = {5, 3, 0x0A, 0x18}, alone[] = {1}, empty[] = {1, 2}, ended[] = {3, 2, 0x0A, 0x18, 0, 3, 3, 0x0F, 0x18};
    EXPECT(barleyrope_service_presence(has, 4, NULL, 0, BATTERY) == BARLEYROPE_LISTED);
    EXPECT(barleyrope_service_presence(has_not, 4, NULL, 0, BATTERY) == BARLEYROPE_ABSENT);
    EXPECT(barleyrope_service_presence(incomplete, 4, NULL, 0, BATTERY) == BARLEYROPE_UNKNOWN);
    EXPECT(barleyrope_service_presence(cut, 4, NULL, 0, BATTERY) == BARLEYROPE_UNKNOWN);
    EXPECT(barleyrope_service_presence(alone, 1, NULL, 0, BATTERY) == BARLEYROPE_UNKNOWN);
    EXPECT(barleyrope_service_presence(empty, 2, NULL, 0, BATTERY) == BARLEYROPE_UNKNOWN);
    EXPECT(barleyrope_service_presence(ended, 9, NULL, 0, BATTERY) == BARLEYROPE_UNKNOWN);
    EXPECT(barleyrope_service_presence(ended + 4, 5, NULL, 0, BATTERY) == BARLEYROPE_ABSENT);
    EXPECT(barleyrope_service_presence(incomplete, 4, has, 4, BATTERY) == BARLEYROPE_LISTED);
    EXPECT(barleyrope_service_presence(has_not, 4, incomplete, 4, BATTERY) == BARLEYROPE_UNKNOWN);
    EXPECT(barleyrope_service_presence(incomplete, 4, has_not, 4, BATTERY) == BARLEYROPE_UNKNOWN);
    EXPECT(barleyrope_service_presence(has_not, 4, has_not, 4, BATTERY) == BARLEYROPE_ABSENT);
}

/* Every first byte over every length up to 300, of each kind that lists services and some that do not, with bodies that match throughout. */
static void first_bytes(void) {
    static const uint8_t kinds[] = {0, 1, 2, 3, 4, 5, 6, 7, 8, 9, 0x16, 0xFF};
    uint8_t bytes[300];
    for (size_t k = 0; k < sizeof kinds; k++) {
        const size_t width = kinds[k] < 2 || 7 < kinds[k] ? 0 : kinds[k] < 4 ? 2 : kinds[k] < 6 ? 4 : 16;
        for (size_t first = 0; first < 256; first++) {
            for (size_t len = 0; len <= sizeof bytes; len += len < 40 ? 1 : 13) {
                memset(bytes, 0, sizeof bytes);
                bytes[0] = (uint8_t)first;
                bytes[1] = kinds[k];
                const bool whole = first != 0 && first + 1 <= len;
                const bool want = whole && width != 0 && width <= first - 1;
                struct found f = width == 16 ? look(bytes, len, 0, 0)
                                             : look(bytes, len, BARLEYROPE_SHORT_LOW, BARLEYROPE_SHORT_HIGH(0));
                EXPECT(f.is == want);
                EXPECT(!want || at(f, 2, first - 1));
            }
        }
    }
}

/* Any bytes at all: an answer, never a fault. */
static void noise(void) {
    uint8_t bytes[260];
    uint64_t state = 1;
    for (int i = 0; i < 20000; i++) {
        for (size_t j = 0; j < sizeof bytes; j++) {
            state = state * UINT64_C(6364136223846793005) + UINT64_C(1442695040888963407);
            bytes[j] = (uint8_t)(state >> 56);
            if (i % 2 && bytes[j] > 24)
                bytes[j] %= 8;
        }
        (void)look(bytes, (size_t)i % (sizeof bytes + 1), BARLEYROPE_SHORT_LOW, BARLEYROPE_SHORT_HIGH(bytes[7]));
    }
}

static bool good(uint32_t min, uint32_t max, uint32_t latency, uint32_t timeout) {
    return 6 <= min && min <= max && max <= 3200 && latency <= 499 && 10 <= timeout && timeout <= 3200 &&
           4 * timeout > (1 + latency) * max;
}

static void parameters(void) {
    static const uint16_t edges[] = {0,   1,   5,   6,    7,    9,    10,   11,     498,    499,   500,
                                     750, 751, 800, 801, 3199, 3200, 3201, 0x7FFF, 0x8000, 0xFFFF};
    const size_t n = sizeof edges / sizeof *edges;
    /* P6 and P7 of the sample table. */
    EXPECT(!barleyrope_params_good(6, 3200, 0, 800));
    EXPECT(barleyrope_params_good(6, 3200, 0, 801));
    EXPECT(!barleyrope_params_good(6, 6, 499, 750));
    EXPECT(barleyrope_params_good(6, 6, 499, 751));
    for (size_t i = 0; i < n * n * n * n; i++) {
        const uint16_t a = edges[i % n], b = edges[i / n % n], c = edges[i / n / n % n], d = edges[i / n / n / n];
        EXPECT(barleyrope_params_good(a, b, c, d) == good(a, b, c, d));
    }
}

int main(void) {
    lay_out();
    samples();
    halves();
    nothing_there();
    presences();
    first_bytes();
    noise();
    parameters();
    printf("C test: %lu checks, %lu failed\n", checks, failures);
    return failures != 0;
}
