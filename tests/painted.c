/* How deep a call goes: each record of the tapes named is one call on a stack of its own that was painted before. Prints the deepest of all calls in
 * bytes, with the entry's own return address where a call pushes it, that call's number, and how many calls there were. */
#include <stdio.h>
#include <stdlib.h>
#include <string.h>
#include <ucontext.h>

#include "roadbellow.h"

enum { STACK = 1 << 14, PAINT = 0xA5, RECORD = 52 };

/* What the call itself pushes: RISC-V has the return address in a register. */
#ifdef __riscv
enum { PUSHED = 0 };
#else
enum { PUSHED = sizeof(void *) };
#endif

static uint8_t stack[STACK] __attribute__((aligned(16)));
static uint32_t ledger[ROADBELLOW_LEDGER_WORDS];
static uint8_t table[ROADBELLOW_PAGES_MAX * ROADBELLOW_RECORD_BYTES];
static size_t table_bytes;
static uint64_t call[8];
static ucontext_t here, there;

typedef roadbellow_reply entry(uint32_t *, uint8_t *, size_t, uint64_t, uint64_t, uint64_t, uint64_t, uint64_t, uint64_t, uint64_t, uint64_t);

static roadbellow_reply nothing(uint32_t *l, uint8_t *t, size_t n, uint64_t c, uint64_t h, uint64_t a, uint64_t b, uint64_t d, uint64_t e, uint64_t f, uint64_t g) {
    (void)l, (void)t, (void)n, (void)c, (void)h, (void)a, (void)b, (void)d, (void)e, (void)f, (void)g;
    return (roadbellow_reply){0, 0};
}

static entry *volatile callee;

static void on_stack(void) {
    callee(ledger, table, table_bytes, call[0], call[1], call[2], call[3], call[4], call[5], call[6], call[7]);
}

static size_t depth_of(entry *f) {
    callee = f;
    memset(stack, PAINT, STACK);
    getcontext(&there);
    there.uc_stack.ss_sp = stack;
    there.uc_stack.ss_size = STACK;
    there.uc_link = &here;
    makecontext(&there, on_stack, 0);
    swapcontext(&here, &there);
    size_t low = 0;
    while (low < STACK && stack[low] == PAINT)
        low++;
    return STACK - low;
}

static uint64_t word(const uint8_t *p) {
    uint64_t x = 0;
    for (int i = 7; i >= 0; i--)
        x = x << 8 | p[i];
    return x;
}

int main(int argc, char **argv) {
    const size_t own = depth_of(nothing) - PUSHED;
    size_t deepest = 0, calls = 0;
    uint64_t deepest_call = 0;
    for (int i = 1; i < argc; i++) {
        FILE *f = fopen(argv[i], "rb");
        if (!f) {
            perror(argv[i]);
            return 1;
        }
        memset(ledger, 0, sizeof ledger);
        memset(table, 0, sizeof table);
        uint8_t r[RECORD];
        for (size_t n = 0; fread(r, RECORD, 1, f) == 1; n++) {
            call[0] = r[2];
            call[1] = r[3];
            for (int k = 0; k < 6; k++)
                call[2 + k] = word(r + 4 + 8 * k);
            if (n == 0)
                table_bytes = call[3] <= ROADBELLOW_PAGES_MAX ? call[3] * ROADBELLOW_RECORD_BYTES : 0;
            size_t d = depth_of(roadbellow_call) - own;
            calls++;
            if (d > deepest) {
                deepest = d;
                deepest_call = call[0];
            }
        }
        fclose(f);
    }
    printf("%zu %llu %zu\n", deepest, (unsigned long long)deepest_call, calls);
    return 0;
}
