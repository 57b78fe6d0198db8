/* The plain C of include/barleyrope.h: texts of UUIDs and addresses both ways, steps, and structs that say what the words say, the
 * serial transport's too.
 * Compiled as C99 and as C++11. Prints the number of checks and ends with 0, or prints the failed checks and ends with 1. */
#include "barleyrope.h"

#include <stdio.h>
#include <string.h>

static unsigned long checks, failures;

static void expect(bool ok, const char *what, int line)
{
    checks++;
    if (ok)
        return;
    failures++;
    fprintf(stderr, "tests/c/header.c:%d: %s\n", line, what);
}

#define EXPECT(ok) expect((ok), #ok, __LINE__)

/* ---- texts ----------------------------------------------------------------------------------- */

static bool is_uuid(const char *text, uint64_t high, uint64_t low, const char *again)
{
    barleyrope_uuid uuid = barleyrope_uuid_of(1, 2);
    char back[BARLEYROPE_UUID_TEXT];
    return barleyrope_uuid_from_text(text, &uuid) && uuid.high == high && uuid.low == low &&
           strcmp(barleyrope_uuid_to_text(uuid, back), again) == 0;
}

static bool is_no_uuid(const char *text)
{
    barleyrope_uuid uuid = barleyrope_uuid_of(1, 2);
    return !barleyrope_uuid_from_text(text, &uuid) && uuid.high == 1 && uuid.low == 2;
}

static void uuids(void)
{
    static const char whole[] = "6E400001-B5A3-F393-E0A9-E50E24DCCA9E";
    char text[64];
    size_t i;
    EXPECT(is_uuid(whole, UINT64_C(0x6E400001B5A3F393), UINT64_C(0xE0A9E50E24DCCA9E), whole));
    EXPECT(is_uuid("6e400001-b5a3-f393-e0a9-e50e24dcca9e", UINT64_C(0x6E400001B5A3F393), UINT64_C(0xE0A9E50E24DCCA9E), whole));
    EXPECT(is_uuid("180f", BARLEYROPE_SHORT_HIGH(0x180F), BARLEYROPE_SHORT_LOW, "180F"));
    EXPECT(is_uuid("0000180F-0000-1000-8000-00805F9B34FB", BARLEYROPE_SHORT_HIGH(0x180F), BARLEYROPE_SHORT_LOW, "180F"));
    EXPECT(is_uuid("0001180F-0000-1000-8000-00805F9B34FB", BARLEYROPE_SHORT_HIGH(0x1180F), BARLEYROPE_SHORT_LOW,
                   "0001180F-0000-1000-8000-00805F9B34FB"));
    EXPECT(is_uuid("00000000-0000-0000-0000-000000000000", 0, 0, "00000000-0000-0000-0000-000000000000"));
    EXPECT(is_uuid("FFFFFFFF-FFFF-FFFF-FFFF-FFFFFFFFFFFF", UINT64_MAX, UINT64_MAX, "FFFFFFFF-FFFF-FFFF-FFFF-FFFFFFFFFFFF"));
    EXPECT(is_no_uuid(NULL) && is_no_uuid("") && is_no_uuid("180") && is_no_uuid("180F0") && is_no_uuid("+80F"));
    EXPECT(is_no_uuid("180G") && is_no_uuid(" 180F") && is_no_uuid("180F ") && is_no_uuid("0x180F"));
    EXPECT(is_no_uuid("6E400001B5A3F393E0A9E50E24DCCA9E"));
    EXPECT(is_no_uuid("6E400001-B5A3-F393-E0A9-E50E24DCCA9E0"));
    /* cut anywhere but at 4, or with one character spoilt, it is none */
    for (i = 0; i < 36; i++) {
        memcpy(text, whole, sizeof whole);
        text[i] = '\0';
        EXPECT(i == 4 ? !is_no_uuid(text) : is_no_uuid(text));
        text[i] = whole[i] == '-' ? '0' : '-';
        EXPECT(is_no_uuid(text));
    }
    EXPECT(barleyrope_same_uuid(barleyrope_short_uuid(0x180F), barleyrope_short_uuid(0x180F)));
    EXPECT(!barleyrope_same_uuid(barleyrope_short_uuid(0x180F), barleyrope_short_uuid(0x180A)));
}

static bool is_no_address(const char *text)
{
    barleyrope_address address = barleyrope_address_of(7, true);
    return !barleyrope_address_from_text(text, false, &address) && address.number == 7 && address.random;
}

static void addresses(void)
{
    static const char whole[] = "C2:11:22:33:44:5F";
    static const uint8_t octets[6] = {0x5F, 0x44, 0x33, 0x22, 0x11, 0xC2};
    barleyrope_address address = barleyrope_address_of(0, false);
    char text[BARLEYROPE_ADDRESS_TEXT + 1];
    size_t i;
    EXPECT(barleyrope_address_from_text("c2:11:22:33:44:5f", true, &address));
    EXPECT(address.number == UINT64_C(0xC2112233445F) && address.random);
    EXPECT(barleyrope_address_word(address) == UINT64_C(0x1C2112233445F));
    EXPECT(strcmp(barleyrope_address_to_text(address, text), whole) == 0);
    address = barleyrope_address_from_octets(octets, false);
    EXPECT(address.number == UINT64_C(0xC2112233445F) && !address.random);
    EXPECT(barleyrope_address_word(address) == UINT64_C(0xC2112233445F));
    EXPECT(barleyrope_address_of(UINT64_MAX, false).number == UINT64_C(0xFFFFFFFFFFFF));
    EXPECT(is_no_address(NULL) && is_no_address("") && is_no_address("C2-11-22-33-44-5F"));
    EXPECT(is_no_address("C2:11:22:33:44:5F:00") && is_no_address("C2:11:22:33:44:5F ") && is_no_address("C211:22:33:44:5F0"));
    for (i = 0; i < 17; i++) {
        memcpy(text, whole, sizeof whole);
        text[i] = '\0';
        EXPECT(is_no_address(text));
        text[i] = whole[i] == ':' ? '0' : ':';
        EXPECT(is_no_address(text));
    }
}

static void numbers_in_words(void)
{
    int i;
    for (i = 0; i <= 10; i++)
        EXPECT(strcmp(barleyrope_refusal_text(i), "no such refusal") != 0);
    EXPECT(strcmp(barleyrope_refusal_text(11), "no such refusal") == 0 && barleyrope_refusal_text(-1) != NULL);
    for (i = BARLEYROPE_ABSENT; i <= BARLEYROPE_UNKNOWN; i++)
        EXPECT(strcmp(barleyrope_presence_text(i), "no such answer") != 0);
    EXPECT(strcmp(barleyrope_presence_text(3), "no such answer") == 0 && barleyrope_presence_text(-1) != NULL);
    for (i = 0; i <= 8; i++)
        EXPECT(strcmp(barleyrope_status_text(i), "no such status") != 0);
    EXPECT(strcmp(barleyrope_status_text(9), "no such status") == 0);
    for (i = 0; i <= 12; i++)
        EXPECT(strcmp(barleyrope_kind_text((uint64_t)i), "no such step") != 0);
    EXPECT(strcmp(barleyrope_kind_text(13), "no such step") == 0);
    EXPECT(barleyrope_pdu_of_hci(0) == BARLEYROPE_ADV_IND && barleyrope_pdu_of_hci(1) == BARLEYROPE_ADV_DIRECT_IND);
    EXPECT(barleyrope_pdu_of_hci(2) == BARLEYROPE_ADV_SCAN_IND && barleyrope_pdu_of_hci(3) == BARLEYROPE_ADV_NONCONN_IND);
}

/* ---- steps: the words of each, in their order ------------------------------------------------- */

static bool has_words(barleyrope_step step, const uint64_t words[12])
{
    return memcmp(&step, words, sizeof step) == 0;
}

static void steps(void)
{
    const barleyrope_uuid u = barleyrope_uuid_of(5, 4); /* high, low */
    const uint64_t words[18][12] = {
        {0, 0, 9, 0, 0, 0, 0, 0, 0, 0, 0, 0},           {1, 0, 9, 0, 0, 0, 0, 2, 3, 1, 0, 0},
        {1, 0, 9, 0, (UINT64_C(1) << 48) + 6, 0, 1, 2, 3, 1, 0, 0}, {1, 0, 9, 0, 4, 5, 2, 2, 3, 1, 0, 0},
        {2, 0, 0, 185, 0, 0, 0, 0, 0, 0, 0, 0},         {3, 0, 0, 0, 0, 0, 0, 0, 0, 0, 0, 0},
        {4, 0, 0, 0, 4, 5, 0, 0, 0, 0, 0, 0},           {5, 1, 0, 0, 4, 5, 0, 0, 0, 0, 0, 0},
        {6, 1, 0, 0, 4, 5, 0, 0, 0, 0, 7, 8},           {7, 0, 0, 0, 4, 5, 0, 0, 0, 0, 0, 0},
        {8, 0, 9, 0, 4, 5, 0, 0, 0, 0, 7, 8},           {9, 0, 9, 0, 0, 0, 0, 0, 0, 0, 0, 0},
        {10, 0, 0, 0, 0, 0, 0, 0, 0, 0, 0, 0},          {11, 1, 0, 0, 0, 0, 0, 0, 0, 0, 0, 0},
        {12, 1, 0, 0, 0, 0, 0, 0, 0, 0, 0, 0},          {8, 1, 9, 0, 4, 5, 0, 0x5678, 0x1234, 0, 7, 8},
        {8, 1, 9, 0, 4, 5, 0, 0, 0, 0, 7, 8},           {8, 1, 9, 0, 4, 5, 0, 0xFFFF, 0xFFFF, 0, 7, 8}};
    EXPECT(has_words(barleyrope_scan(9), words[0]));
    EXPECT(has_words(barleyrope_connect_any(1, 2, 3, 9), words[1]));
    EXPECT(has_words(barleyrope_connect_address(barleyrope_address_of(6, true), 1, 2, 3, 9), words[2]));
    EXPECT(has_words(barleyrope_connect_service(u, 1, 2, 3, 9), words[3]));
    EXPECT(has_words(barleyrope_exchange_mtu(185), words[4]));
    EXPECT(has_words(barleyrope_discover_services(), words[5]));
    EXPECT(has_words(barleyrope_discover_characteristics(u), words[6]));
    EXPECT(has_words(barleyrope_subscribe(u, true), words[7]));
    EXPECT(has_words(barleyrope_write(u, true, 7, 8), words[8]));
    EXPECT(has_words(barleyrope_read(u), words[9]));
    EXPECT(has_words(barleyrope_wait_notification(u, 9, 7, 8), words[10]));
    EXPECT(has_words(barleyrope_wait(9), words[11]));
    EXPECT(has_words(barleyrope_disconnect(), words[12]));
    EXPECT(has_words(barleyrope_capture(true), words[13]));
    EXPECT(has_words(barleyrope_capture_secrets(true), words[14]));
    EXPECT(has_words(barleyrope_wait_notification_aged(u, 9, 7, 8, 0x12345678), words[15]));
    EXPECT(has_words(barleyrope_wait_notification_aged(u, 9, 7, 8, 0), words[16]));
    EXPECT(has_words(barleyrope_wait_notification_aged(u, 9, 7, 8, UINT32_MAX), words[17]));
}

/* ---- calls: a short play, in which each wrapper says what happened ------------------------------ */

static barleyrope_state state;
static uint8_t store[BARLEYROPE_STORE_SIZE], out[BARLEYROPE_OUTPUT_SIZE];

#define HELD &state, store, sizeof store
#define LENT HELD, out, sizeof out

/* What a report tells of a service. */
static bool tells(size_t i, uint16_t service, int presence)
{
    const barleyrope_presence told = barleyrope_presence_in_report(HELD, i, barleyrope_short_uuid(service));
    return told.refusal == 0 && told.is_kept && told.presence == presence;
}

/* A scan hears one advertiser, with a scan response. */
static void hears(void)
{
    static const uint8_t data[] = {3, 0x03, 0x0F, 0x18}, response[] = {3, 0x03, 0x0A, 0x18}, incomplete[] = {3, 0x02, 0x0A, 0x18};
    const barleyrope_address who = barleyrope_address_of(UINT64_C(0xC21122334455), true);
    const barleyrope_address other = barleyrope_address_of(UINT64_C(0xC21122334456), true);
    const barleyrope_step script[] = {barleyrope_scan(100), barleyrope_connect_address(who, 24, 1, 100, 1000)};
    barleyrope_advertised heard;
    barleyrope_report report;
    barleyrope_part part;
    EXPECT(!barleyrope_get_timer(HELD).is_set && !barleyrope_get_link(HELD).is_up && !barleyrope_get_report(HELD, 0).is_kept);
    EXPECT(barleyrope_next_index(&state) == 0);
    EXPECT(barleyrope_push_steps(LENT, 1000, script, 2, NULL, 0).refusal == 0);
    EXPECT(barleyrope_next_index(&state) == 2 && barleyrope_steps_waiting(&state) == 1 && barleyrope_steps_ended(&state) == 0);
    EXPECT(barleyrope_get_timer(HELD).is_set && barleyrope_get_timer(HELD).at_us == 101000);
    heard = barleyrope_on_advertising(HELD, 2000, 38, BARLEYROPE_ADV_IND, who, data, sizeof data, false);
    EXPECT(heard.refusal == 0 && heard.action == BARLEYROPE_ACTION_SCAN_REQUEST);
    EXPECT(barleyrope_get_report(HELD, 0).response == NULL && barleyrope_get_report_response(HELD, 0).data == NULL);
    EXPECT(barleyrope_on_scan_response(HELD, 3000, who, response, sizeof response) == 0);
    report = barleyrope_get_report(HELD, 0);
    EXPECT(report.is_kept && report.at_us == 3000 && report.channel == 38 && report.pdu == BARLEYROPE_ADV_IND);
    EXPECT(report.address.number == who.number && report.address.random);
    EXPECT(report.data_len == sizeof data && memcmp(report.data, data, sizeof data) == 0);
    EXPECT(report.response_len == sizeof response && memcmp(report.response, response, sizeof response) == 0);
    EXPECT(barleyrope_get_report_data(HELD, 0).data == report.data && barleyrope_get_report_response(HELD, 0).data == report.response);
    part = barleyrope_find_in_report(HELD, 0, barleyrope_short_uuid(0x180A));
    EXPECT(part.refusal == 0 && part.data == report.response + 2 && part.len == 2);
    EXPECT(barleyrope_find_in_report(HELD, 0, barleyrope_short_uuid(0x1800)).data == NULL);
    EXPECT(barleyrope_on_advertising(HELD, 4000, 38, BARLEYROPE_ADV_IND, other, incomplete, sizeof incomplete, false).refusal == 0);
    EXPECT(tells(0, 0x180F, BARLEYROPE_LISTED) && tells(0, 0x180A, BARLEYROPE_LISTED) && tells(0, 0x1800, BARLEYROPE_ABSENT));
    EXPECT(tells(1, 0x180A, BARLEYROPE_LISTED) && tells(1, 0x180F, BARLEYROPE_UNKNOWN));
    EXPECT(!barleyrope_presence_in_report(HELD, 2, barleyrope_short_uuid(0x180F)).is_kept);
    EXPECT(barleyrope_presence_in_report(&state, store, sizeof store - 1, 0, barleyrope_short_uuid(0x180F)).refusal == BARLEYROPE_WRONG_SIZE);
    EXPECT(barleyrope_on_timer(LENT, 101000).refusal == 0 && barleyrope_steps_ended(&state) == 1);
    heard = barleyrope_on_advertising(HELD, 102000, 38, BARLEYROPE_ADV_IND, who, data, sizeof data, false);
    EXPECT(heard.action == BARLEYROPE_ACTION_CONNECT && heard.interval == 24 && heard.latency == 1 && heard.timeout == 100);
}

/* On the link, the head asks for other parameters; a read finds nothing; the link ends. */
static void talks(void)
{
    static const uint8_t update[] = {12, 0, 5, 0, 0x12, 7, 8, 0, 6, 0, 12, 0, 0, 0, 200, 0};
    static const uint8_t granted[] = {6, 0, 5, 0, 0x13, 7, 2, 0, 0, 0};
    const barleyrope_step script[] = {barleyrope_read(barleyrope_short_uuid(0x2A19)), barleyrope_disconnect()};
    barleyrope_answer a = barleyrope_on_connected(LENT, 0x40, 110000);
    barleyrope_result r = barleyrope_get_result(HELD, 1);
    EXPECT(a.refusal == 0 && a.frames == 0 && r.is_kept && r.status == BARLEYROPE_OK && r.at_us == 110000 && r.value_len == 0);
    EXPECT(barleyrope_get_link(HELD).is_up && barleyrope_get_link(HELD).handle == 0x40);
    a = barleyrope_on_fragment(LENT, 120000, true, update, sizeof update);
    EXPECT(a.refusal == 0 && a.frames == 1 && a.bytes == sizeof granted && memcmp(out, granted, sizeof granted) == 0);
    EXPECT(barleyrope_frame_size(out) == sizeof granted);
    EXPECT(a.request == BARLEYROPE_REQUEST_UPDATE && a.interval == 12 && a.latency == 0 && a.timeout == 200 && a.reason == 0);
    a = barleyrope_push_steps(LENT, 130000, script, 2, NULL, 0);
    EXPECT(a.refusal == 0 && a.request == BARLEYROPE_REQUEST_TERMINATE && a.reason == 0x13);
    EXPECT(barleyrope_get_result(HELD, 2).status == BARLEYROPE_NOT_FOUND && !barleyrope_get_result(HELD, 3).is_kept);
    EXPECT(barleyrope_on_disconnected(HELD, 140000) == 0 && barleyrope_get_result(HELD, 3).status == BARLEYROPE_OK);
    EXPECT(barleyrope_steps_ended(&state) == 4 && barleyrope_dropped_steps(&state) == 0);
}

/* ---- waits with an age ---------------------------------------------------------------------------- */

#define LEVEL barleyrope_short_uuid(0x2A19) /* its value stands at handle 3 */

/* A step begins at a time; its number. */
static uint32_t begins(uint64_t now_us, barleyrope_step step)
{
    uint32_t index = barleyrope_next_index(&state);
    EXPECT(barleyrope_push_steps(LENT, now_us, &step, 1, NULL, 0).refusal == 0);
    return index;
}

/* How a step ended, or -1. */
static int ended(uint32_t index)
{
    barleyrope_result r = barleyrope_get_result(HELD, index);
    return r.is_kept ? r.status : -1;
}

static void comes(uint64_t now_us, const uint8_t *frame, size_t size)
{
    EXPECT(barleyrope_on_fragment(LENT, now_us, true, frame, size).refusal == 0);
}

/* The head notifies a byte, or indicates it. */
static void notifies(uint64_t now_us, uint8_t opcode, uint8_t value)
{
    uint8_t frame[] = {4, 0, 4, 0, 0, 3, 0, 0};
    frame[4] = opcode, frame[7] = value;
    comes(now_us, frame, sizeof frame);
}

static bool passed_on(uint32_t index, uint64_t at_us, uint64_t link, bool is_indication, uint8_t value)
{
    barleyrope_notification n = barleyrope_passed_on(HELD, index);
    return n.refusal == 0 && n.is_kept && n.at_us == at_us && n.link == link && n.handle == 3 &&
           n.is_indication == is_indication && n.value_len == 1 && n.value[0] == value;
}

static bool passed_on_nothing(uint32_t index)
{
    barleyrope_notification n = barleyrope_passed_on(HELD, index);
    return n.refusal == 0 && !n.is_kept && n.at_us == 0 && n.link == 0 && n.handle == 0 && !n.is_indication &&
           n.value == NULL && n.value_len == 0;
}

/* The second link; 180F and 2A19 are discovered. */
static void discovers(void)
{
    static const uint8_t service[] = {8, 0, 4, 0, 0x11, 6, 1, 0, 0xFF, 0xFF, 0x0F, 0x18};
    static const uint8_t characteristic[] = {9, 0, 4, 0, 0x09, 7, 2, 0, 0x12, 3, 0, 0x19, 0x2A};
    static const uint8_t no_more[] = {5, 0, 4, 0, 0x01, 0x08, 3, 0, 0x0A}, no_descriptor[] = {5, 0, 4, 0, 0x01, 0x04, 4, 0, 0x0A};
    uint32_t index;
    EXPECT(barleyrope_links_counted(&state) == 1);
    EXPECT(barleyrope_on_connected(LENT, 0x41, 150000).refusal == 0 && barleyrope_links_counted(&state) == 2);
    index = begins(150000, barleyrope_discover_characteristics(barleyrope_short_uuid(0x180F)));
    comes(160000, service, sizeof service);
    comes(170000, characteristic, sizeof characteristic);
    comes(180000, no_more, sizeof no_more);
    comes(190000, no_descriptor, sizeof no_descriptor);
    EXPECT(ended(index) == BARLEYROPE_OK);
}

/* What came at 200,000 us counts up to its age, to the microsecond; passing uses it up, not passing does not. */
static void ages(void)
{
    uint32_t late, early, plain;
    notifies(200000, 0x1B, 7);
    late = begins(210001, barleyrope_wait_notification_aged(LEVEL, 1, 0, 0, 10));
    EXPECT(ended(late) == -1 && barleyrope_on_timer(LENT, 211001).refusal == 0);
    EXPECT(ended(late) == BARLEYROPE_TIMEOUT && passed_on_nothing(late));
    early = begins(199999, barleyrope_wait_notification_aged(LEVEL, 0, 0, 0, UINT32_MAX)); /* the clock ran back */
    EXPECT(ended(early) == -1 && barleyrope_on_timer(LENT, 199999).refusal == 0 && ended(early) == BARLEYROPE_TIMEOUT);
    late = begins(210000, barleyrope_wait_notification_aged(LEVEL, 1, 0, 0, 10));
    EXPECT(ended(late) == BARLEYROPE_OK && passed_on(late, 200000, 2, false, 7));
    plain = begins(220000, barleyrope_wait_notification(LEVEL, 1000, 0, 0));
    EXPECT(ended(plain) == -1 && passed_on_nothing(plain));
    notifies(230000, 0x1D, 8);
    EXPECT(ended(plain) == BARLEYROPE_OK && passed_on_nothing(plain) && passed_on(late, 200000, 2, false, 7));
    late = begins(240000, barleyrope_wait_notification_aged(LEVEL, 1000, 0, 0, 0));
    notifies(250000, 0x1D, 9); /* with an age of 0, what comes now */
    EXPECT(ended(late) == BARLEYROPE_OK && passed_on(late, 250000, 2, true, 9));
}

/* What an earlier link heard does not count, and what is dropped is told no more. */
static void other_links(void)
{
    uint32_t index;
    int i;
    notifies(260000, 0x1B, 10);
    EXPECT(barleyrope_on_disconnected(HELD, 270000) == 0 && barleyrope_links_counted(&state) == 2);
    EXPECT(barleyrope_on_connected(LENT, 0x42, 280000).refusal == 0 && barleyrope_links_counted(&state) == 3);
    index = begins(290000, barleyrope_wait_notification_aged(LEVEL, 1000, 0, 0, UINT32_MAX));
    EXPECT(ended(index) == -1);
    notifies(300000, 0x1B, 11);
    EXPECT(ended(index) == BARLEYROPE_OK && passed_on(index, 300000, 3, false, 11));
    for (i = 0; i < 31; i++)
        notifies(310000, 0x1B, 12);
    EXPECT(passed_on(index, 300000, 3, false, 11));
    notifies(310000, 0x1B, 12);
    EXPECT(ended(index) == BARLEYROPE_OK && passed_on_nothing(index));
    EXPECT(passed_on_nothing(UINT32_MAX) && barleyrope_passed_on(&state, store, sizeof store - 1, index).refusal == BARLEYROPE_WRONG_SIZE);
    EXPECT(barleyrope_on_disconnected(HELD, 320000) == 0);
}

static void refusals(void)
{
    static uint8_t big[252];
    const barleyrope_step wrong[] = {barleyrope_exchange_mtu(248), barleyrope_write(barleyrope_short_uuid(1), true, 0, 1)};
    const barleyrope_step wait = barleyrope_wait(1000);
    static barleyrope_step many[BARLEYROPE_MAX_STEPS + 1];
    size_t i;
    EXPECT(barleyrope_on_timer(HELD, out, sizeof out - 1, 0).refusal == BARLEYROPE_WRONG_SIZE);
    EXPECT(barleyrope_on_timer(&state, NULL, 0, out, sizeof out, 0).refusal == BARLEYROPE_WRONG_SIZE);
    EXPECT(barleyrope_on_timer(LENT, (UINT64_C(1) << 62) + 1).refusal == BARLEYROPE_LATE_TIME);
    EXPECT(barleyrope_push_steps(LENT, 0, &wrong[0], 1, NULL, 0).refusal == BARLEYROPE_BAD_BATCH);
    EXPECT(barleyrope_push_steps(LENT, 0, &wrong[1], 1, NULL, 0).refusal == BARLEYROPE_BAD_BATCH);
    EXPECT(barleyrope_push_steps(LENT, 0, many, BARLEYROPE_MAX_STEPS + 1, NULL, 0).refusal == BARLEYROPE_BAD_BATCH);
    EXPECT(barleyrope_push_steps(LENT, 0, NULL, SIZE_MAX, NULL, 0).refusal == BARLEYROPE_BAD_BATCH);
    EXPECT(barleyrope_push_steps(LENT, 0, NULL, 0, NULL, 0).refusal == BARLEYROPE_ACCEPTED);
    EXPECT(barleyrope_on_scan_response(HELD, 0, barleyrope_address_of(1, false), big, 32) == BARLEYROPE_LONG_DATA);
    EXPECT(barleyrope_on_connected(LENT, 1, 0).refusal == 0);
    EXPECT(barleyrope_on_fragment(LENT, 0, true, big, sizeof big).refusal == BARLEYROPE_LONG_FRAME);
    /* one runs, 64 wait, one is dropped */
    for (i = 0; i < BARLEYROPE_MAX_STEPS; i++)
        many[i] = wait;
    EXPECT(barleyrope_push_steps(LENT, 0, &wait, 1, NULL, 0).refusal == 0);
    EXPECT(barleyrope_push_steps(LENT, 0, many, BARLEYROPE_MAX_STEPS, NULL, 0).refusal == 0);
    EXPECT(barleyrope_steps_waiting(&state) == BARLEYROPE_MAX_STEPS && barleyrope_dropped_steps(&state) == 0);
    EXPECT(barleyrope_push_steps(LENT, 0, &wait, 1, NULL, 0).refusal == 0 && barleyrope_dropped_steps(&state) == 1);
    /* the last link that can be counted; then one more than that */
    state.core[34] = (UINT64_C(1) << 62) - 1;
    EXPECT(barleyrope_on_connected(LENT, 1, 0).refusal == 0 && barleyrope_links_counted(&state) == UINT64_C(1) << 62);
    EXPECT(barleyrope_on_connected(LENT, 1, 0).refusal == BARLEYROPE_COUNTER_FULL && barleyrope_on_timer(LENT, 0).refusal == 0);
    state.core[34]++;
    EXPECT(barleyrope_on_timer(LENT, 0).refusal == BARLEYROPE_UNFIT && barleyrope_passed_on(HELD, 0).refusal == BARLEYROPE_UNFIT);
    state.core[34]--;
    state.core[27] = 65;
    EXPECT(barleyrope_on_timer(LENT, 0).refusal == BARLEYROPE_UNFIT && barleyrope_get_timer(HELD).refusal == BARLEYROPE_UNFIT);
}

/* ---- the serial transport -------------------------------------------------------------------------- */

static barleyrope_h4_stream serial; /* all zero: a fresh one */

/* Two packets and a byte of a third, then the rest of it and a byte that begins none. */
static void feeds(void)
{
    static const uint8_t first[] = {4, 0x0E, 1, 7, 2, 0x40, 0x20, 2, 0, 8, 9, 1}, second[] = {3, 12, 0, 0xFF};
    uint8_t packets[32];
    barleyrope_h4_fed fed = barleyrope_h4_feed(&serial, first, sizeof first, packets, sizeof first - 1);
    EXPECT(fed.refusal == BARLEYROPE_WRONG_SIZE && fed.packets == 0 && fed.bytes == 0 && barleyrope_h4_buffered(&serial) == 0);
    fed = barleyrope_h4_feed(&serial, first, sizeof first, packets, sizeof first);
    EXPECT(fed.refusal == 0 && fed.packets == 2 && fed.bytes == 11 && memcmp(packets, first, 11) == 0);
    EXPECT(barleyrope_h4_buffered(&serial) == 1);
    fed = barleyrope_h4_feed(&serial, second, sizeof second, packets, sizeof packets);
    EXPECT(fed.refusal == BARLEYROPE_BAD_INDICATOR && fed.packets == 1 && fed.bytes == 4 && packets[0] == 1 && packets[3] == 0);
    fed = barleyrope_h4_feed(&serial, first, sizeof first, packets, sizeof packets);
    EXPECT(fed.refusal == BARLEYROPE_BAD_INDICATOR && fed.packets == 0 && barleyrope_h4_buffered(&serial) == 0);
    barleyrope_h4_reset(&serial);
    EXPECT(barleyrope_h4_feed(&serial, first, 4, packets, sizeof packets).packets == 1);
    EXPECT(barleyrope_h4_feed(&serial, NULL, 0, NULL, 0).refusal == 0);
}

/* 1,024 bytes are a packet; 1,025 are too long as soon as the header is there. */
static void lengths(void)
{
    static const uint8_t most[] = {2, 0, 0, 0xFB, 3}, more[] = {5, 0, 0, 0xFC, 0xC3}, none[] = {6};
    static uint8_t rest[1019], packets[1024];
    barleyrope_h4_length l = barleyrope_h4_packet_len(most, sizeof most);
    EXPECT(l.refusal == 0 && l.is_known && l.len == BARLEYROPE_H4_MAX_PACKET);
    l = barleyrope_h4_packet_len(more, sizeof more);
    EXPECT(l.refusal == 0 && l.is_known && l.len == 1025);
    EXPECT(!barleyrope_h4_packet_len(most, 4).is_known && barleyrope_h4_packet_len(most, 4).refusal == 0);
    EXPECT(barleyrope_h4_packet_len(none, 1).refusal == BARLEYROPE_BAD_INDICATOR && !barleyrope_h4_packet_len(NULL, 0).is_known);
    EXPECT(barleyrope_h4_feed(&serial, most, sizeof most, packets, sizeof packets).bytes == 0);
    EXPECT(barleyrope_h4_feed(&serial, rest, sizeof rest, packets, sizeof packets).bytes == sizeof packets);
    EXPECT(barleyrope_h4_feed(&serial, more, 4, packets, sizeof packets).refusal == 0);
    EXPECT(barleyrope_h4_feed(&serial, more + 4, 1, packets, sizeof packets).refusal == BARLEYROPE_LONG_PACKET);
    serial.words[0] = 1025;
    EXPECT(barleyrope_h4_feed(&serial, rest, 1, packets, sizeof packets).refusal == BARLEYROPE_UNFIT);
}

static bool is_built(barleyrope_h4_built built, const uint8_t *packet, const uint8_t *wanted, size_t size)
{
    return built.refusal == 0 && built.bytes == size && memcmp(packet, wanted, size) == 0;
}

static void packets(void)
{
    static const uint8_t data[] = {7, 8}, acl[] = {2, 0x42, 0x20, 2, 0, 7, 8}, event[] = {4, 5, 2, 7, 8},
                         complete[] = {4, 0x0E, 5, 1, 3, 0x0C, 7, 8}, status[] = {4, 0x0F, 4, 9, 1, 6, 4},
                         completed[] = {4, 0x13, 9, 2, 0x40, 0, 1, 0, 0x41, 0, 2, 1}, meta[] = {4, 0x3E, 3, 1, 7, 8};
    static const barleyrope_h4_completed links[] = {{0x40, 1}, {0x41, 0x102}};
    uint8_t p[16];
    barleyrope_h4_acl_parts parts = barleyrope_h4_split_acl(acl, sizeof acl);
    barleyrope_h4_fragment f = barleyrope_h4_fragment_of(acl, sizeof acl, 0x42);
    EXPECT(is_built(barleyrope_h4_acl(p, sizeof p, 0xF042, 2, data, 2), p, acl, sizeof acl));
    EXPECT(is_built(barleyrope_h4_event(p, sizeof p, 5, data, 2), p, event, sizeof event));
    EXPECT(is_built(barleyrope_h4_command_complete(p, sizeof p, 1, 0x0C03, data, 2), p, complete, sizeof complete));
    EXPECT(is_built(barleyrope_h4_command_status(p, sizeof p, 1, 9, 0x0406), p, status, sizeof status));
    EXPECT(is_built(barleyrope_h4_number_of_completed_packets(p, sizeof p, links, 2), p, completed, sizeof completed));
    EXPECT(is_built(barleyrope_h4_le_meta(p, sizeof p, 1, data, 2), p, meta, sizeof meta));
    EXPECT(barleyrope_h4_event(p, 4, 5, data, 2).refusal == BARLEYROPE_WRONG_SIZE && barleyrope_h4_event(p, 4, 5, data, 2).bytes == 0);
    EXPECT(parts.is_acl && parts.handle == 0x42 && parts.flag == 2 && parts.data == acl + 5 && parts.data_len == 2);
    EXPECT(f.is_there && f.start && f.data == acl + 5 && f.data_len == 2);
    EXPECT(!barleyrope_h4_fragment_of(acl, sizeof acl, 0x43).is_there && barleyrope_h4_fragment_of(acl, sizeof acl, 0x43).data == NULL);
    EXPECT(!barleyrope_h4_split_acl(acl, sizeof acl - 1).is_acl && !barleyrope_h4_split_acl(event, sizeof event).is_acl);
}

/* ---- options ---------------------------------------------------------------------------------------- */

/* From whatever state was there: a read times out behind which another waits, and is answered a second later. How the other ended. */
static int late_answer(uint64_t options)
{
    static const uint8_t answer[] = {2, 0, 4, 0, 0x0B, 7};
    uint32_t first, second;
    barleyrope_fresh_with(&state, options);
    EXPECT(barleyrope_next_index(&state) == 0 && barleyrope_links_counted(&state) == 0 && !barleyrope_get_link(HELD).is_up);
    EXPECT(barleyrope_on_connected(LENT, 0x40, 0).refusal == 0);
    discovers();
    first = begins(200000, barleyrope_read(LEVEL));
    second = begins(200001, barleyrope_read(LEVEL));
    EXPECT(barleyrope_on_timer(LENT, 30200000).refusal == 0 && ended(first) == BARLEYROPE_TIMEOUT);
    comes(31200000, answer, sizeof answer);
    return ended(second);
}

/* The old mode takes the late answer; strict mode asks nothing more until the next link, and lets a wait pass. */
static void options(void)
{
    static barleyrope_state none; /* all zero */
    uint32_t index;
    barleyrope_fresh_with(&state, 0);
    EXPECT(memcmp(&state, &none, sizeof state) == 0);
    EXPECT(late_answer(0) == BARLEYROPE_OK && late_answer(~(uint64_t)BARLEYROPE_STRICT) == BARLEYROPE_OK);
    EXPECT(late_answer(UINT64_MAX) == BARLEYROPE_BEARER_CLOSED && late_answer(BARLEYROPE_STRICT) == BARLEYROPE_BEARER_CLOSED);
    index = begins(32000000, barleyrope_wait_notification(LEVEL, 1000, 0, 0));
    notifies(32000001, 0x1D, 9);
    EXPECT(ended(index) == BARLEYROPE_OK);
    EXPECT(ended(begins(33000000, barleyrope_write(LEVEL, false, 0, 0))) == BARLEYROPE_BEARER_CLOSED);
    EXPECT(barleyrope_on_disconnected(HELD, 34000000) == 0);
    EXPECT(ended(begins(35000000, barleyrope_read(LEVEL))) == BARLEYROPE_NOT_CONNECTED);
    EXPECT(barleyrope_on_connected(LENT, 0x42, 36000000).refusal == 0);
    EXPECT(ended(begins(37000000, barleyrope_write(LEVEL, false, 0, 0))) == BARLEYROPE_OK);
}

int main(void)
{
    uuids();
    addresses();
    numbers_in_words();
    steps();
    hears();
    talks();
    discovers();
    ages();
    other_links();
    refusals();
    feeds();
    lengths();
    packets();
    options();
    printf("%lu checks, %lu failed\n", checks, failures);
    return failures == 0 ? 0 : 1;
}
