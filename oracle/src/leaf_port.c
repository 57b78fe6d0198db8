/* The leaves of the port as a program: requests on standard input, an answer to each on standard output, in order.
 *
 * A request is a tag, two lengths of 16 bits, two words of 64 bits, and the bytes of both lengths. An answer is a word (a
 * Boolean, or a length) and the places that the call may write to, as the call left them. Numbers stand lowest byte first.
 * Answers go out when the requests that have come in are all answered, so that a caller may send many before it reads.
 * Ends with 0 at the end of the input, and with 1 where the input ends inside a request or has another tag. */
#include "barleyrope.h"

#include <string.h>
#include <unistd.h>

bool leaf_parse(const uint8_t *text, size_t len, uint64_t *low, uint64_t *high);
bool leaf_from_att(const uint8_t *bytes, size_t len, uint64_t *low, uint64_t *high);
size_t leaf_to_att(uint64_t low, uint64_t high, uint8_t *out, size_t room);
bool leaf_local_name(const uint8_t *data, size_t len, size_t *start, size_t *count);
size_t leaf_listed_body(const uint8_t *data, size_t len, const uint8_t *response, size_t response_len, uint64_t low,
                        uint64_t high, uint8_t *out, size_t room);

/* What stands in a place before the call; the caller of this program knows it too. */
#define UNTOUCHED UINT64_C(0x5EED5EED)
#define UNTOUCHED_BYTE 0xA5
#define ATT_ROOM 20
#define BODY_ROOM 256

enum tag { PARSE, FROM_ATT, TO_ATT, LISTS_SERVICE, FIND_SERVICE, LISTED_BODY, LOCAL_NAME, PARAMS_GOOD, SERVICE_PRESENCE };

#define HEADER ((size_t)21)
#define ROOM ((size_t)1 << 20)

static uint8_t in[ROOM], out[ROOM];
static size_t in_at, in_end, out_end;

static void flush(void) {
    for (size_t at = 0; at < out_end;) {
        ssize_t n = write(STDOUT_FILENO, out + at, out_end - at);
        if (n <= 0)
            _exit(1);
        at += (size_t)n;
    }
    out_end = 0;
}

/* Whether the next n bytes have come in; they stand at in + in_at. Only the end of the input leaves some out. */
static bool have(size_t n) {
    while (in_end - in_at < n) {
        flush();
        memmove(in, in + in_at, in_end - in_at);
        in_end -= in_at;
        in_at = 0;
        ssize_t got = read(STDIN_FILENO, in + in_end, ROOM - in_end);
        if (got <= 0)
            return false;
        in_end += (size_t)got;
    }
    return true;
}

static void tell(const void *bytes, size_t n) {
    if (ROOM - out_end < n)
        flush();
    memcpy(out + out_end, bytes, n);
    out_end += n;
}

static void tell_words(uint64_t told, uint64_t first, uint64_t second) {
    const uint64_t words[] = {told, first, second};
    tell(words, sizeof words);
}

static void tell_bytes(uint64_t told, const uint8_t *bytes, size_t room) {
    tell(&told, sizeof told);
    tell(bytes, room);
}

struct request {
    uint8_t tag;
    const uint8_t *data, *response;
    uint16_t len, response_len;
    uint64_t low, high;
};

static bool answer(const struct request *r) {
    uint64_t low = UNTOUCHED, high = UNTOUCHED, told;
    size_t start = UNTOUCHED, count = UNTOUCHED;
    uint8_t bytes[BODY_ROOM];
    switch (r->tag) {
    case PARSE:
        told = leaf_parse(r->data, r->len, &low, &high);
        tell_words(told, low, high);
        return true;
    case FROM_ATT:
        told = leaf_from_att(r->data, r->len, &low, &high);
        tell_words(told, low, high);
        return true;
    case TO_ATT:
        memset(bytes, UNTOUCHED_BYTE, ATT_ROOM);
        told = leaf_to_att(r->low, r->high, bytes, ATT_ROOM);
        tell_bytes(told, bytes, ATT_ROOM);
        return true;
    case LISTS_SERVICE:
        told = barleyrope_lists_service(r->data, r->len, r->low, r->high);
        tell(&told, sizeof told);
        return true;
    case FIND_SERVICE:
        told = barleyrope_find_service(r->data, r->len, r->low, r->high, &start, &count);
        tell_words(told, start, count);
        return true;
    case LISTED_BODY:
        memset(bytes, UNTOUCHED_BYTE, BODY_ROOM);
        told = leaf_listed_body(r->data, r->len, r->response, r->response_len, r->low, r->high, bytes, BODY_ROOM);
        tell_bytes(told, bytes, BODY_ROOM);
        return true;
    case LOCAL_NAME:
        told = leaf_local_name(r->data, r->len, &start, &count);
        tell_words(told, start, count);
        return true;
    case PARAMS_GOOD:
        told = barleyrope_params_good((uint16_t)r->low, (uint16_t)(r->low >> 16), (uint16_t)(r->low >> 32),
                                      (uint16_t)(r->low >> 48));
        tell(&told, sizeof told);
        return true;
    case SERVICE_PRESENCE:
        told = barleyrope_service_presence(r->data, r->len, r->response, r->response_len, r->low, r->high);
        tell(&told, sizeof told);
        return true;
    default:
        return false;
    }
}

int main(void) {
    while (have(HEADER)) {
        struct request r = {.tag = in[in_at]};
        memcpy(&r.len, in + in_at + 1, 2);
        memcpy(&r.response_len, in + in_at + 3, 2);
        memcpy(&r.low, in + in_at + 5, 8);
        memcpy(&r.high, in + in_at + 13, 8);
        const size_t whole = HEADER + r.len + r.response_len;
        if (!have(whole))
            return 1;
        r.data = in + in_at + HEADER;
        r.response = r.data + r.len;
        if (!answer(&r))
            return 1;
        in_at += whole;
    }
    flush();
    return in_at != in_end;
}
