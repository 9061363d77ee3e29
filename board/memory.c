/* memset and memcpy for a host that has no C library, eight bytes at a time where they may. Compiled with -fno-tree-loop-distribute-patterns, or the
 * compiler takes a loop that does memset's work for a call of memset. */
#include <stddef.h>
#include <stdint.h>

typedef uint64_t __attribute__((may_alias)) word;

static int is_at_word(const void *p) { return (uintptr_t)p % sizeof(word) == 0; }

void *memset(void *to, int byte, size_t n) {
    unsigned char *p = to;
    const word w = UINT64_C(0x0101010101010101) * (unsigned char)byte;
    for (; n && !is_at_word(p); n--)
        *p++ = (unsigned char)byte;
    for (; n >= sizeof w; n -= sizeof w, p += sizeof w)
        *(word *)p = w;
    for (; n; n--)
        *p++ = (unsigned char)byte;
    return to;
}

void *memcpy(void *restrict to, const void *restrict from, size_t n) {
    unsigned char *p = to;
    const unsigned char *q = from;
    for (; n >= sizeof(word) && is_at_word(p) && is_at_word(q); n -= sizeof(word), p += sizeof(word), q += sizeof(word))
        *(word *)p = *(const word *)q;
    for (; n; n--)
        *p++ = *q++;
    return to;
}
