/* The page ledger of a RISC-V confidential-VM security manager: who has which 4 KiB page.
 *
 * Firmware keeps the ledger and the table of page records in its own memory and calls roadbellow_call for each call of
 * the host. The library keeps nothing itself, allocates nothing and calls nothing but memset and memcpy, which the host
 * must supply. A ledger of zeros is one that is not open; open is call 33. One call at a time: the caller holds whatever
 * lock keeps others away from the ledger and the table.
 *
 * What a call answers, and what it makes of the ledger and the table, is proved to be what the project's definitions
 * say, for every call number, hart and argument and whatever the words and bytes hold. */
#ifndef ROADBELLOW_H
#define ROADBELLOW_H

#include <stddef.h>
#include <stdint.h>

#define ROADBELLOW_LEDGER_WORDS 426 /* of 32 bits */
#define ROADBELLOW_RECORD_BYTES 8   /* of the table, for each page of memory */
#define ROADBELLOW_PAGES_MAX 4096
#define ROADBELLOW_HARTS_MAX 8
#define ROADBELLOW_PAGE_BYTES 4096
#define ROADBELLOW_MEMORY 0x80000000u /* the address of the first page */

/* An SBI error (0 where the call is accepted), and the value: of a refused call, the number of the refusal. */
typedef struct {
    int64_t error;
    uint64_t value;
} roadbellow_reply;

/* ledger: ROADBELLOW_LEDGER_WORDS words. table: table_bytes bytes, ROADBELLOW_RECORD_BYTES for each page. The two do
 * not overlap, and neither pointer is null. */
roadbellow_reply roadbellow_call(uint32_t *ledger, uint8_t *table, size_t table_bytes, uint64_t number, uint64_t hart,
                                 uint64_t a0, uint64_t a1, uint64_t a2, uint64_t a3, uint64_t a4, uint64_t a5);

#endif
