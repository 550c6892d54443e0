/* The C interface, held to the rules: document 01's session, every refusal number, the map, the manifest, the switch points, many events on one state. */
#include "board.h"

#define Q(...) ((struct monitor_request){__VA_ARGS__})
#define EVENT(...) event(Q(__VA_ARGS__), "", 0)
static bool said(struct monitor_reply a, int kind, size_t value) { return a.number == 0 && a.kind == kind && a.value == value; }
static bool no(struct monitor_reply a, int number) { return a.number == number && a.kind == MONITOR_REFUSED && a.value == 0; }

/* code page 2, param page 3, one entry at 8192 with 4 bytes in and out */
static const uint8_t manifest[40] = {1, 0, 1, 0, 2, 0, 0, 0, 4, 0, 1, 0, 3, 0, 0, 0, 0, 0x20, 0, 0, 4, 0, 4, 0, 'S', 'S', 'C', 'B', 1, 2, 1, 0, 24, 0, 0, 0, 8, 0, 0, 0};

static void session(void) {
    begin(8, 1);
    CHECK(said(event(Q(.kind = MONITOR_WRITE, .address = 100), "abcd", 4), MONITOR_DONE, 0));
    CHECK(no(event(Q(.kind = MONITOR_REGISTER, .mark = 7), manifest, 32), 3));
    CHECK(said(event(Q(.kind = MONITOR_REGISTER, .mark = 7), manifest, 40), MONITOR_SLOT, 0));
    CHECK(no(EVENT(.kind = MONITOR_READ, .address = 8192, .length = 1), 5));
    CHECK(no(event(Q(.kind = MONITOR_DEVICE_WRITE, .address = 12288), "\0", 1), 5));
    CHECK(said(EVENT(.kind = MONITOR_CALL, .mark = 7, .address = 8192, .input = 100, .output = 200), MONITOR_ENTERED, 0));
    CHECK(state.m.mode == 1 && state.m.running.slot == 0 && state.m.running.out == 200 && state.m.running.length == 4);
    CHECK(said(EVENT(.kind = MONITOR_READ, .address = 12288, .length = 4), MONITOR_FILLED, 4) && memcmp(answered(), "abcd", 4) == 0);
    CHECK(said(event(Q(.kind = MONITOR_WRITE, .address = 14336), "zzzz", 4), MONITOR_DONE, 0));
    CHECK(no(event(Q(.kind = MONITOR_WRITE, .address = 8192), "\0", 1), 5));
    CHECK(said(EVENT(.kind = MONITOR_RETURN), MONITOR_LEFT, 4));
    CHECK(state.m.mode == 0 && state.m.running.slot == 0 && state.m.running.out == 0 && state.m.running.length == 0);
    CHECK(said(EVENT(.kind = MONITOR_READ, .address = 200, .length = 4), MONITOR_FILLED, 4) && memcmp(answered(), "zzzz", 4) == 0);
    CHECK(no(EVENT(.kind = MONITOR_UNREGISTER, .mark = 9, .slot = 0), 8));
    CHECK(said(EVENT(.kind = MONITOR_UNREGISTER, .mark = 7, .slot = 0), MONITOR_DONE, 0));
    CHECK(said(EVENT(.kind = MONITOR_READ, .address = 14336, .length = 4), MONITOR_FILLED, 4) && memcmp(answered(), "\0\0\0\0", 4) == 0);
}

static void refusals(void) {
    begin(8, 1);
    /* 1: each on a state or memory that is spoilt in one place */
    state.m.pages = 9;
    CHECK(no(EVENT(.kind = MONITOR_READ, .length = 1), 1));
    state.m.pages = 8;
    for (size_t n = 0; n <= memory_length; n += MONITOR_PAGE) {
        size_t whole = memory_length;
        memory_length = n;
        CHECK(n == whole || no(EVENT(.kind = MONITOR_READ, .length = 1), 1));
        memory_length = whole;
    }
    for (int k = 1; k < 300; k++) { /* a mode that no registered slot has, the greatest number too */
        state.m.mode = k < 299 ? (size_t)k : SIZE_MAX;
        CHECK(no(EVENT(.kind = MONITOR_RETURN), 1));
        CHECK(state.m.mode == (k < 299 ? (size_t)k : SIZE_MAX));
    }
    state.m.mode = 0;
    state.m.owner[1023] = 1;
    CHECK(no(EVENT(.kind = MONITOR_READ, .length = 1), 1));
    state.m.owner[1023] = 0;
    state.m.slots[7].pcrs[7].bytes[19] = 1;
    CHECK(no(EVENT(.kind = MONITOR_READ, .length = 1), 1));
    state.m.slots[7].pcrs[7].bytes[19] = 0;
    /* 2 */
    CHECK(no(EVENT(.kind = MONITOR_RETURN), 2));
    CHECK(no(EVENT(.kind = MONITOR_EXTEND, .source = MONITOR_FROM_PAYLOAD), 2));
    CHECK(no(EVENT(.kind = MONITOR_PCR_READ), 2));
    /* 4 and 5 in legacy mode */
    CHECK(no(EVENT(.kind = MONITOR_READ, .address = 4095, .length = 2), 4) && no(EVENT(.kind = MONITOR_READ, .address = 0, .length = 0), 4));
    CHECK(no(EVENT(.kind = MONITOR_READ, .address = 0, .length = (size_t)1 << 32 | 1), 4) && no(EVENT(.kind = MONITOR_READ, .address = SIZE_MAX, .length = 1), 4));
    CHECK(no(EVENT(.kind = MONITOR_JUMP, .address = 32768), 4) && no(EVENT(.kind = MONITOR_READ, .address = 32767, .length = 1), 5));
    CHECK(no(EVENT(.kind = MONITOR_DEVICE_READ, .address = 32767, .length = 1), 5) && no(EVENT(.kind = MONITOR_WRITE), 4));
    /* 9, with a buffer one byte too short, and none at all */
    buffer_length = 15;
    CHECK(no(EVENT(.kind = MONITOR_READ, .length = 16), 9));
    buffer_length = 0;
    CHECK(no(EVENT(.kind = MONITOR_READ, .length = 1), 9));
    buffer_length = ROOM;
    /* 3, 6, 8 and a codeblock that takes its place */
    uint8_t spoilt[40];
    memcpy(spoilt, manifest, 40);
    spoilt[32] = 16;
    CHECK(no(event(Q(.kind = MONITOR_REGISTER), spoilt, 40), 3) && no(EVENT(.kind = MONITOR_REGISTER), 3));
    CHECK(said(event(Q(.kind = MONITOR_REGISTER, .mark = 7), manifest, 40), MONITOR_SLOT, 0));
    CHECK(no(event(Q(.kind = MONITOR_REGISTER, .mark = 8), manifest, 40), 6));
    CHECK(no(EVENT(.kind = MONITOR_CALL, .mark = 8, .address = 8192), 8) && no(EVENT(.kind = MONITOR_CALL, .mark = 7, .address = 8193), 8));
    CHECK(no(EVENT(.kind = MONITOR_UNREGISTER, .mark = 7, .slot = 256), 8));
    CHECK(no(EVENT(.kind = MONITOR_CALL, .mark = 7, .address = 8192, .input = 4093, .output = 200), 4));
    CHECK(no(EVENT(.kind = MONITOR_CALL, .mark = 7, .address = 8192, .input = 100, .output = 8192), 5));
    CHECK(said(EVENT(.kind = MONITOR_CALL, .mark = 7, .address = 8192, .input = 100, .output = 200), MONITOR_ENTERED, 0));
    /* 2 and 10 in secure mode */
    CHECK(no(event(Q(.kind = MONITOR_REGISTER), manifest, 40), 2) && no(EVENT(.kind = MONITOR_UNREGISTER, .mark = 7), 2) && no(EVENT(.kind = MONITOR_CALL, .mark = 7), 2));
    CHECK(no(EVENT(.kind = MONITOR_PCR_READ, .index = 8), 10) && no(EVENT(.kind = MONITOR_PCR_READ, .index = 256), 10));
    CHECK(no(EVENT(.kind = MONITOR_EXTEND, .index = 8, .source = MONITOR_FROM_MEMORY), 10));
    static const uint8_t long_payload[4097];
    CHECK(no(event(Q(.kind = MONITOR_EXTEND, .source = MONITOR_FROM_PAYLOAD), long_payload, 4097), 4));
    CHECK(no(EVENT(.kind = MONITOR_EXTEND, .source = MONITOR_FROM_MEMORY, .address = 100, .length = 4), 5));
    CHECK(said(event(Q(.kind = MONITOR_EXTEND, .index = 7, .source = MONITOR_FROM_PAYLOAD), long_payload, 4096), MONITOR_DONE, 0));
    CHECK(said(EVENT(.kind = MONITOR_PCR_READ, .index = 7), MONITOR_FILLED, 20) && memcmp(answered(), state.m.slots[0].pcrs[7].bytes, 20) == 0);
    buffer_length = 19;
    CHECK(no(EVENT(.kind = MONITOR_PCR_READ, .index = 7), 9));
    buffer_length = ROOM;
    /* the interface's own number: kinds that are none, a source that is neither */
    for (size_t kind = 0; kind < 600; kind++)
        if (kind < 1 || kind > 11) CHECK(no(EVENT(.kind = kind), MONITOR_NO_REQUEST));
    CHECK(no(EVENT(.kind = SIZE_MAX), MONITOR_NO_REQUEST) && no(EVENT(.kind = (size_t)1 << 32 | MONITOR_READ, .length = 1), MONITOR_NO_REQUEST));
    for (size_t source = 0; source < 300; source++)
        if (source != 1 && source != 2) CHECK(no(EVENT(.kind = MONITOR_EXTEND, .source = source), MONITOR_NO_REQUEST));
    /* a jump out ends it */
    CHECK(said(EVENT(.kind = MONITOR_JUMP, .address = 8200), MONITOR_DONE, 0) && said(EVENT(.kind = MONITOR_JUMP, .address = SIZE_MAX), MONITOR_TERMINATED, 0));
    CHECK(state.m.mode == 0 && !state.m.slots[0].card.registered);
    /* start out of range: 4, and a state that no event accepts */
    CHECK(monitor_start(&state.m, 0, 0) == 4 && state.m.pages == 0 && no(EVENT(.kind = MONITOR_READ, .length = 1), 1));
}

static void eight_slots(void) { /* 7, and the map, on the largest board */
    static uint8_t mem[1024 * MONITOR_PAGE];
    struct monitor_reply a = {0};
    uint8_t m[40], out[20];
    CHECK(monitor_start(&state.m, 1024, 1) == 0);
    for (int k = 0; k < 9; k++) {
        memcpy(m, manifest, 40);
        m[4] = (uint8_t)(2 + 2 * k), m[12] = (uint8_t)(3 + 2 * k), m[17] = (uint8_t)(16 * (2 + 2 * k));
        if (16 * (2 + 2 * k) > 255) m[18] = 1;
        a = monitor_event(&state.m, Q(.kind = MONITOR_REGISTER, .mark = 7), m, 40, mem, sizeof mem, out, sizeof out);
        CHECK(k == 8 ? no(a, 7) : said(a, MONITOR_SLOT, (size_t)k));
    }
    uint8_t map[129];
    memset(map, 0x3C, sizeof map);
    CHECK(said(monitor_device_map(state.m, map, sizeof map), MONITOR_FILLED, 128) && map[0] == 0xFC && map[2] == 0x03 && map[127] == 0x80 && map[128] == 0x3C);
}

static void map(void) {
    uint8_t bits[2] = {0x3C, 0x3C};
    begin(8, 1);
    CHECK(said(monitor_device_map(state.m, bits, 2), MONITOR_FILLED, 1) && bits[0] == 0x80 && bits[1] == 0x3C); /* E7 */
    CHECK(said(event(Q(.kind = MONITOR_REGISTER, .mark = 7), manifest, 40), MONITOR_SLOT, 0));
    CHECK(said(monitor_device_map(state.m, bits, 1), MONITOR_FILLED, 1) && bits[0] == 0x8C); /* E8 */
    CHECK(no(monitor_device_map(state.m, bits, 0), 9) && bits[0] == 0x8C);
    begin(2, 1);
    CHECK(said(monitor_device_map(state.m, bits, 1), MONITOR_FILLED, 1) && bits[0] == 0xFE); /* E9 */
    state.m.owner[0] = 1;
    CHECK(no(monitor_device_map(state.m, bits, 1), 1));
}

static void manifests(void) {
    uint8_t out[41];
    memset(out, 0x3C, sizeof out);
    struct monitor_reading x = monitor_manifest_read(manifest, 40);
    CHECK(x.refusal == 0 && x.fields.r == 2 && x.fields.e == 1 && x.fields.runs[0].kind == MONITOR_CODE && x.fields.runs[0].first == 2 && x.fields.runs[1].kind == MONITOR_PARAM);
    CHECK(x.fields.entries[0].address == 8192 && x.fields.entries[0].input == 4 && x.fields.entries[0].output == 4);
    CHECK(no(monitor_manifest_write(x.fields, out, 39), 9) && out[0] == 0x3C);
    CHECK(said(monitor_manifest_write(x.fields, out, sizeof out), MONITOR_FILLED, 40) && memcmp(out, manifest, 40) == 0 && out[40] == 0x3C);
    x.fields.entries[7].output = 1; /* an unused place */
    CHECK(no(monitor_manifest_write(x.fields, out, sizeof out), 3));
    x = monitor_manifest_read(manifest, 39);
    struct monitor_fields zero = {0};
    CHECK(x.refusal == 3 && same_fields(&x.fields, &zero));
}

static void switches(void) { /* where the record stands in the state: nothing beside it moves */
    begin(8, 1);
    struct monitor was = state.m;
    guard_all();
    monitor_enter(&state.m.running, 6, 0x8877665544332211u, 2048);
    guarded_all();
    CHECK(state.m.running.slot == 6 && state.m.running.out == 0x8877665544332211u && state.m.running.length == 2048);
    struct monitor_running r = monitor_leave(&state.m.running);
    CHECK(r.slot == 6 && r.out == 0x8877665544332211u && r.length == 2048 && same_state(&state.m, &was));
    monitor_enter(&state.m.running, 3, 77, 0);
    CHECK(state.m.running.slot == 3 && state.m.running.out == 0 && state.m.running.length == 0);
}

static void many(void) { /* one state over 3,000 calls, registered anew every ten */
    begin(8, 1);
    for (int i = 0; i < 3000; i++) {
        uint8_t in[4] = {(uint8_t)i, (uint8_t)(i >> 8), 1, 2}, back[4] = {2, 1, (uint8_t)(i >> 8), (uint8_t)i};
        if (i % 10 == 0) CHECK(said(event(Q(.kind = MONITOR_REGISTER, .mark = 7), manifest, 40), MONITOR_SLOT, 0));
        CHECK(said(event(Q(.kind = MONITOR_WRITE, .address = 100), in, 4), MONITOR_DONE, 0));
        CHECK(said(EVENT(.kind = MONITOR_CALL, .mark = 7, .address = 8192, .input = 100, .output = 200), MONITOR_ENTERED, 0));
        CHECK(said(EVENT(.kind = MONITOR_READ, .address = 12288, .length = 4), MONITOR_FILLED, 4) && memcmp(answered(), in, 4) == 0);
        CHECK(said(event(Q(.kind = MONITOR_WRITE, .address = 14336), back, 4), MONITOR_DONE, 0));
        CHECK(said(EVENT(.kind = MONITOR_RETURN), MONITOR_LEFT, 4));
        CHECK(said(EVENT(.kind = MONITOR_READ, .address = 200, .length = 4), MONITOR_FILLED, 4) && memcmp(answered(), back, 4) == 0);
        if (i % 10 == 9) CHECK(said(EVENT(.kind = MONITOR_UNREGISTER, .mark = 7, .slot = 0), MONITOR_DONE, 0));
    }
}

int main(void) {
    session(), refusals(), eight_slots(), map(), manifests(), switches(), many();
    printf("the session, every refusal number, the map, manifests, the switch points and 18,600 events on one state: as the rules say\n");
    return 0;
}
