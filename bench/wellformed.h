// The state as C sees it: the layout of crates/state, with the mode as a number (0 legacy, n + 1 secure in slot n).
#include <stdbool.h>
#include <stddef.h>
#include <stdint.h>
#define PAGES 1024

struct run { uint8_t kind; uint16_t count; uint32_t first; };
struct entry { uint32_t address; uint16_t input, output; };
struct fields { size_t r, e; struct run runs[4]; struct entry entries[8]; };
struct card { bool registered; uint64_t mark; struct fields fields; };
struct digest { uint8_t bytes[20]; };
struct slot { struct card card; struct digest pcrs[8]; };
struct running { size_t slot, out, length; };
struct state { size_t pages, kept; uint8_t owner[PAGES]; struct slot slots[8]; size_t mode; struct running running; };

bool plain_well_formed(struct state s, size_t length);
bool guddaroox_well_formed(struct state s, size_t length);
