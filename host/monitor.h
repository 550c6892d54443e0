/* The monitor's interface for firmware in C11. Link libhost.a (host/archive.sh), x86-64, System V calling convention.
 *
 * What every function owes you: it ends, touches nothing but what it is lent, and answers as the rules say; each contract below is proved
 * (crates/host, start_c, manifest_c, devicemap_c, switch). No function keeps a pointer after it returns, allocates, or has state of its own, so
 * several monitors may stand side by side.
 *
 * What you owe every function:
 *  - a pointer is never NULL, also where the length beside it is 0, and is valid for that many bytes, initialised, while the call runs;
 *  - what is lent to one call does not overlap: state, payload, memory and buffer are four separate objects, and nothing else reads or writes
 *    them meanwhile (one call at a time on one state: take a lock if you have several processors);
 *  - a bool holds 0 or 1. A state that is static, or `= {0}`, or was filled by monitor_start, is fine.
 * Nothing else is owed: any number in any other field is met with an answer, not with harm.
 */
#ifndef MONITOR_H
#define MONITOR_H

#include <stdbool.h>
#include <stddef.h>
#include <stdint.h>

#ifdef __cplusplus
extern "C" {
#endif

#define MONITOR_PAGE 4096u        /* bytes in a page */
#define MONITOR_MOST_PAGES 1024u  /* P is 2 to this */
#define MONITOR_SLOTS 8u
#define MONITOR_PCRS 8u
#define MONITOR_DIGEST 20u        /* bytes in a microPCR */

/* ---- The state. You keep it, in memory that nobody else reaches; the fields are yours to read, and the functions' to write. */

/* Pages first .. first + count - 1 of one kind. */
struct monitor_run {
    uint8_t kind;   /* enum monitor_run_kind */
    uint16_t count;
    uint32_t first;
};
enum monitor_run_kind { MONITOR_CODE = 1, MONITOR_DATA = 2, MONITOR_STACK = 3, MONITOR_PARAM = 4 };

/* A place where a codeblock may be entered, and how many bytes go in and come out. */
struct monitor_entry {
    uint32_t address;
    uint16_t input, output;
};

/* A manifest's fields: r runs and e entries, from the front on; unused places are zero. */
struct monitor_fields {
    size_t r, e;
    struct monitor_run runs[4];
    struct monitor_entry entries[8];
};

/* What is public of a slot. */
struct monitor_card {
    bool registered;
    uint64_t mark;  /* who registered it: the caller's CR3, or any number that names it */
    struct monitor_fields fields;
};

struct monitor_pcr {
    uint8_t bytes[MONITOR_DIGEST];
};

struct monitor_slot {
    struct monitor_card card;
    struct monitor_pcr pcrs[MONITOR_PCRS];
};

/* The running call: its slot, and where its output goes. All zero when none runs. */
struct monitor_running {
    size_t slot, out, length;
};

struct monitor {
    size_t pages;                       /* P */
    size_t kept;                        /* M: the top M pages are the monitor's */
    uint8_t owner[MONITOR_MOST_PAGES];  /* 0 open, slot + 1, 255 the monitor's */
    struct monitor_slot slots[MONITOR_SLOTS];
    size_t mode;                        /* 0 legacy, n + 1 secure in slot n */
    struct monitor_running running;
};

/* ---- Events and answers. */

enum monitor_kind {
    MONITOR_REGISTER = 1,      /* mark; payload: the manifest. Answers MONITOR_SLOT */
    MONITOR_UNREGISTER = 2,    /* mark, slot. MONITOR_DONE */
    MONITOR_CALL = 3,          /* mark, address, input, output. MONITOR_ENTERED */
    MONITOR_RETURN = 4,        /* MONITOR_LEFT */
    MONITOR_JUMP = 5,          /* address. MONITOR_DONE, or MONITOR_TERMINATED */
    MONITOR_READ = 6,          /* address, length. MONITOR_FILLED */
    MONITOR_WRITE = 7,         /* address; payload: the bytes. MONITOR_DONE */
    MONITOR_DEVICE_READ = 8,   /* as read, for a device */
    MONITOR_DEVICE_WRITE = 9,  /* as write, for a device */
    MONITOR_EXTEND = 10,       /* index, source; from memory: address, length. MONITOR_DONE */
    MONITOR_PCR_READ = 11      /* index. MONITOR_FILLED */
};
enum monitor_source { MONITOR_FROM_PAYLOAD = 1, MONITOR_FROM_MEMORY = 2 };

/* An event. Fields that the kind does not name are not looked at: write { .kind = .., .mark = .. } and leave the rest. */
struct monitor_request {
    size_t kind;    /* enum monitor_kind */
    uint64_t mark;
    size_t slot;
    size_t address; /* addresses are byte offsets into memory */
    size_t length;
    size_t input;   /* call: where the input lies */
    size_t output;  /* call: where the output goes */
    size_t index;   /* of a microPCR, 0 to 7 */
    size_t source;  /* enum monitor_source */
};

enum monitor_answer {
    MONITOR_REFUSED = 0,    /* number says why; nothing has changed: not the state, not memory, not the buffer */
    MONITOR_DONE = 1,
    MONITOR_SLOT = 2,       /* value: the slot taken */
    MONITOR_ENTERED = 3,    /* value: the slot entered */
    MONITOR_LEFT = 4,       /* value: how many bytes went to the out address */
    MONITOR_TERMINATED = 5, /* value: the slot that was released, its pages zero */
    MONITOR_FILLED = 6      /* value: how many bytes of the buffer were filled, from its front; the others are kept */
};

struct monitor_reply {
    uint8_t number; /* 0, or the number given for no (enum monitor_no) */
    uint8_t kind;   /* enum monitor_answer */
    size_t value;   /* 0 where the kind has none */
};

enum monitor_no {
    MONITOR_YES = 0,
    MONITOR_NO_STATE = 1,     /* the state is not well formed, or memory is not 4,096 * P bytes */
    MONITOR_NO_MODE = 2,      /* not allowed in this mode */
    MONITOR_NO_MANIFEST = 3,  /* the manifest or its fields break a rule */
    MONITOR_NO_RANGE = 4,     /* not a range of 1 to 4,096 bytes in one page of memory, or P or M out of range */
    MONITOR_NO_PAGE = 5,      /* a page may not be reached that way */
    MONITOR_NO_OPEN = 6,      /* the manifest names a page that is not open */
    MONITOR_NO_SLOT = 7,      /* all eight slots are registered */
    MONITOR_NO_ENTRY = 8,     /* no such entry or slot under that mark */
    MONITOR_NO_ROOM = 9,      /* the buffer is too short */
    MONITOR_NO_INDEX = 10,    /* microPCR index above 7 */
    MONITOR_NO_REQUEST = 255  /* the kind is none of the eleven, or an extend's source neither of the two */
};

/* ---- The functions. */

/* Start: fills *m with the fresh state of `pages` pages, of which the top `kept` are the monitor's, all slots free, in legacy mode; 0.
 * Where pages is not 2 to 1,024, or kept not 1 to pages - 1: an all-zero state, and 4. */
uint8_t monitor_start(struct monitor *m, size_t pages, size_t kept);

/* One event, on the state where it stands. `memory` is the machine's memory from page 0 on, exactly 4,096 * P bytes, else 1. The payload is read
 * by register, write, the device's write and an extend from the payload; other events do not look at it. Reads fill the buffer.
 * reply.number is 0 exactly when the event was accepted. Otherwise the state, memory and the buffer are as they came, byte for byte. */
struct monitor_reply monitor_event(struct monitor *m, struct monitor_request q, const uint8_t *payload, size_t payload_length,
                                   uint8_t *memory, size_t memory_length, uint8_t *buffer, size_t buffer_length);

/* The device map: bit p % 8 of byte p / 8 is 1 (shut) unless page p is open; spare high bits of the last byte are 1. MONITOR_FILLED with
 * P / 8 bytes, rounded up; or 1, or 9. Ask for it after every event that can change an owner: register, unregister and a jump that terminates. */
struct monitor_reply monitor_device_map(struct monitor m, uint8_t *buffer, size_t buffer_length);

/* A manifest's fields, read from its bytes: refusal 0 and the fields, or 3 and all zero. */
struct monitor_reading {
    uint8_t refusal;
    struct monitor_fields fields;
};
struct monitor_reading monitor_manifest_read(const uint8_t *bytes, size_t length);

/* The bytes of the manifest that has these fields: MONITOR_FILLED with 8 * (r + e) + 16 bytes; or 3 (an unused place that is not zero, too), or 9. */
struct monitor_reply monitor_manifest_write(struct monitor_fields fields, uint8_t *buffer, size_t buffer_length);

/* The two switch points. An accepted call has done what monitor_enter does, on m->running, and an accepted return what monitor_leave does; these are for
 * a host that keeps the record of the running call in a place of its own as well.
 * Entering: *running becomes slot, out and length; out is kept as 0 where length is 0. */
void monitor_enter(struct monitor_running *running, size_t slot, size_t out, size_t length);
/* Leaving: gives the record as it was, and *running becomes zero. */
struct monitor_running monitor_leave(struct monitor_running *running);

/* ---- The layout, as the archive has it. */
#ifdef __cplusplus
}
#define MONITOR_ASSERT static_assert
#else
#define MONITOR_ASSERT _Static_assert
#endif
#define MONITOR_SIZE(type, size) MONITOR_ASSERT(sizeof(struct type) == (size), "size of " #type)
#define MONITOR_AT(type, field, at) MONITOR_ASSERT(offsetof(struct type, field) == (at), "place of " #type "." #field)
MONITOR_ASSERT(sizeof(size_t) == 8 && sizeof(void *) == 8 && sizeof(bool) == 1, "a 64-bit machine");
MONITOR_SIZE(monitor_run, 8);
MONITOR_AT(monitor_run, kind, 0);
MONITOR_AT(monitor_run, count, 2);
MONITOR_AT(monitor_run, first, 4);
MONITOR_SIZE(monitor_entry, 8);
MONITOR_AT(monitor_entry, address, 0);
MONITOR_AT(monitor_entry, input, 4);
MONITOR_AT(monitor_entry, output, 6);
MONITOR_SIZE(monitor_fields, 112);
MONITOR_AT(monitor_fields, r, 0);
MONITOR_AT(monitor_fields, e, 8);
MONITOR_AT(monitor_fields, runs, 16);
MONITOR_AT(monitor_fields, entries, 48);
MONITOR_SIZE(monitor_card, 128);
MONITOR_AT(monitor_card, registered, 0);
MONITOR_AT(monitor_card, mark, 8);
MONITOR_AT(monitor_card, fields, 16);
MONITOR_SIZE(monitor_pcr, 20);
MONITOR_AT(monitor_pcr, bytes, 0);
MONITOR_SIZE(monitor_slot, 288);
MONITOR_AT(monitor_slot, card, 0);
MONITOR_AT(monitor_slot, pcrs, 128);
MONITOR_SIZE(monitor_running, 24);
MONITOR_AT(monitor_running, slot, 0);
MONITOR_AT(monitor_running, out, 8);
MONITOR_AT(monitor_running, length, 16);
MONITOR_SIZE(monitor, 3376);
MONITOR_AT(monitor, pages, 0);
MONITOR_AT(monitor, kept, 8);
MONITOR_AT(monitor, owner, 16);
MONITOR_AT(monitor, slots, 1040);
MONITOR_AT(monitor, mode, 3344);
MONITOR_AT(monitor, running, 3352);
MONITOR_SIZE(monitor_request, 72);
MONITOR_AT(monitor_request, kind, 0);
MONITOR_AT(monitor_request, mark, 8);
MONITOR_AT(monitor_request, slot, 16);
MONITOR_AT(monitor_request, address, 24);
MONITOR_AT(monitor_request, length, 32);
MONITOR_AT(monitor_request, input, 40);
MONITOR_AT(monitor_request, output, 48);
MONITOR_AT(monitor_request, index, 56);
MONITOR_AT(monitor_request, source, 64);
MONITOR_SIZE(monitor_reply, 16);
MONITOR_AT(monitor_reply, number, 0);
MONITOR_AT(monitor_reply, kind, 1);
MONITOR_AT(monitor_reply, value, 8);
MONITOR_SIZE(monitor_reading, 120);
MONITOR_AT(monitor_reading, refusal, 0);
MONITOR_AT(monitor_reading, fields, 8);
#undef MONITOR_SIZE
#undef MONITOR_AT
#undef MONITOR_ASSERT

#endif
