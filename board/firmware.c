/* Firmware in small, with no C library: it keeps a ledger and a table, has memory.c's memset, and makes the calls of document 01's example on the library
 * for firmware. Where each is answered as the document says it ends with status 0, else with the number of the call. What starts and ends it is Linux's,
 * so that the emulator runs it; a board has its own in that place. */
#include "roadbellow.h"

static uint32_t ledger[ROADBELLOW_LEDGER_WORDS];
static uint8_t table[16 * ROADBELLOW_RECORD_BYTES];

static int example(void) {
    static const struct {
        uint64_t number, a0, a1;
        int64_t error;
        uint64_t value;
    } calls[] = {
        {33, 1, 16, 0, 0},
        {1, 0x80000000, 8, 0, 0},
        {5, 0x80000000, 0x80004000, -1, 7},
        {3, 0, 0, 0, 0},
        {5, 0x80000000, 0x80004000, 0, 0},
        {5, 0x80000000, 0x80004000, -5, 6},
        {2, 0x80005000, 3, 0, 0},
        {1, 0x80005000, 0, -3, 4},
    };
    for (int i = 0; i < (int)(sizeof calls / sizeof calls[0]); i++) {
        roadbellow_reply r = roadbellow_call(ledger, table, sizeof table, calls[i].number, 0, calls[i].a0, calls[i].a1, 0, 0, 0, 0);
        if (r.error != calls[i].error || r.value != calls[i].value)
            return i + 1;
    }
    return 0;
}

__attribute__((noreturn, used)) static void begin(void) {
    register long status __asm__("a0") = example();
    register long exit_group __asm__("a7") = 94;
    __asm__ volatile("ecall" : : "r"(status), "r"(exit_group));
    __builtin_unreachable();
}

__asm__(".text\n.globl _start\n_start:\n.option push\n.option norelax\nla gp, __global_pointer$\n.option pop\ncall begin\n");
