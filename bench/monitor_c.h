/* A plain C monitor with the rules of document 01: what the proved one is measured against. Nothing of it is proved;
   bench/check-c.sh compares its answers with the second monitor's. */
#ifndef MONITOR_C_H
#define MONITOR_C_H
#include <stdbool.h>
#include <stddef.h>
#include <stdint.h>

enum { PLAIN_PAGE = 4096, PLAIN_HALF = 2048, PLAIN_PAGES = 1024, PLAIN_SLOTS = 8, PLAIN_PCRS = 8, PLAIN_DIGEST = 20, PLAIN_HELD = 64, PLAIN_RUNS = 4, PLAIN_ENTRIES = 8 };

struct plain_run { uint8_t kind; uint16_t count; uint32_t first; };
struct plain_entry { uint32_t address; uint16_t input, output; };
struct plain_fields { size_t r, e; struct plain_run runs[PLAIN_RUNS]; struct plain_entry entries[PLAIN_ENTRIES]; };
struct plain_card { bool registered; uint64_t mark; struct plain_fields fields; };
struct plain_slot { struct plain_card card; uint8_t pcrs[PLAIN_PCRS][PLAIN_DIGEST]; };
struct plain_running { size_t slot, out, length; };

/* mode: 0 legacy, k + 1 secure in slot k */
struct plain_state {
    size_t pages, kept;
    uint8_t owner[PLAIN_PAGES];
    struct plain_slot slots[PLAIN_SLOTS];
    size_t mode;
    struct plain_running running;
};

enum plain_kind { PLAIN_REGISTER = 1, PLAIN_UNREGISTER, PLAIN_CALL, PLAIN_RETURN, PLAIN_JUMP, PLAIN_READ, PLAIN_WRITE, PLAIN_DEVICE_READ, PLAIN_DEVICE_WRITE, PLAIN_EXTEND, PLAIN_PCR_READ };
enum plain_source { PLAIN_PAYLOAD = 1, PLAIN_MEMORY = 2 };
struct plain_request { size_t kind; uint64_t mark; size_t slot, address, length, input, output, index, source; };

/* number: of the refusal, or 0, and then the kind and value of the answer */
enum plain_answer { PLAIN_REFUSED, PLAIN_DONE, PLAIN_SLOT, PLAIN_ENTERED, PLAIN_LEFT, PLAIN_TERMINATED, PLAIN_FILLED };
struct plain_reply { uint8_t number, kind; size_t value; };

struct plain_bytes { const uint8_t *at; size_t n; };

uint8_t plain_start(struct plain_state *s, size_t pages, size_t kept);
struct plain_reply plain_event(struct plain_state *s, const struct plain_request *q, struct plain_bytes payload, uint8_t *memory, size_t size, uint8_t *buffer, size_t room);
#endif
