/* The program `roadbellow` over the C entry: reads a tape from standard input and prints a line for each record (document 01, "The tape and its
 * printer"). board/test compares it with the proved program, line for line. */
#include <inttypes.h>
#include <stdio.h>

#include "roadbellow.h"

enum { TAPE = 64 * 1024, RECORD = 52, ARGUMENTS = 6 };

static uint8_t tape[TAPE + 1]; /* a byte more, so that a longer tape is seen to be longer */
static uint32_t ledger[ROADBELLOW_LEDGER_WORDS];
static uint8_t table[ROADBELLOW_PAGES_MAX * ROADBELLOW_RECORD_BYTES];

static uint64_t argument(const uint8_t *record, int i) {
    uint64_t x = 0;
    for (int k = 7; k >= 0; k--)
        x = x << 8 | record[4 + 8 * i + k];
    return x;
}

static void print(size_t number, const uint8_t *record, size_t table_bytes) {
    uint64_t a[ARGUMENTS];
    for (int i = 0; i < ARGUMENTS; i++)
        a[i] = argument(record, i);
    roadbellow_reply r = roadbellow_call(ledger, table, table_bytes, record[2], record[3], a[0], a[1], a[2], a[3], a[4], a[5]);
    printf("%zu %u %" PRId64 " %" PRIu64 "\n", number, record[2], r.error, r.value);
}

int main(void) {
    const size_t length = fread(tape, 1, sizeof tape, stdin);
    if (length > TAPE) {
        puts("long");
        return 0;
    }
    const uint64_t pages = length < RECORD ? 0 : argument(tape, 1);
    const size_t table_bytes = pages > ROADBELLOW_PAGES_MAX ? 0 : pages * ROADBELLOW_RECORD_BYTES;
    size_t number = 1;
    for (size_t at = 0; at < length; at += RECORD, number++) {
        const uint8_t *record = tape + at;
        if (length - at < RECORD || record[0] != 0x43 || record[1] != 0x56) {
            printf("%zu %s\n", number, length - at < RECORD ? "short" : "mark");
            return 0;
        }
        print(number, record, table_bytes);
    }
    return 0;
}
