/* Firmware in small: it keeps a ledger and a table, makes the calls of document 01's example and prints their lines. */
#include <inttypes.h>
#include <stdio.h>

#include "roadbellow.h"

static uint32_t ledger[ROADBELLOW_LEDGER_WORDS];
static uint8_t table[16 * ROADBELLOW_RECORD_BYTES];

int main(void) {
    static const uint64_t calls[][3] = {
        {33, 1, 16},          {1, 0x80000000, 8}, {5, 0x80000000, 0x80004000}, {3, 0, 0}, {5, 0x80000000, 0x80004000},
        {5, 0x80000000, 0x80004000}, {2, 0x80005000, 3}, {1, 0x80005000, 0},
    };
    for (unsigned i = 0; i < sizeof calls / sizeof calls[0]; i++) {
        const uint64_t *c = calls[i];
        roadbellow_reply r = roadbellow_call(ledger, table, sizeof table, c[0], 0, c[1], c[2], 0, 0, 0, 0);
        printf("%u %" PRIu64 " %" PRId64 " %" PRIu64 "\n", i + 1, c[0], r.error, r.value);
    }
    return 0;
}
