/* AQUA row quarantine engine, one rank: the calls for firmware in C.
 *
 * Link target/staticlib/librank.a, which bin/staticlib proves and writes. It is for x86-64 and needs memcpy and
 * memset of the C library. A read or a write needs at most 6,400 bytes of stack, its arguments and its return address
 * included, and every other call at most 768, where memcpy and memset are those of glibc; this is measured (lab/c/stack.c)
 * and not proved. Every call takes any argument and answers by a number, 0 where it is accepted. A call that is refused
 * leaves the control record, everything lent and the read buffer as they were.
 *
 * The caller lends, at each call the same memory as the last call left it:
 *   store    (n + q) * w bytes
 *   forward  n 16-bit numbers       reverse  q 16-bit numbers
 *   rows     b * k 16-bit numbers   counts   b * k 32-bit numbers
 * A length counts elements, not bytes. What the caller must keep to, since no call can test it: a pointer is not null, also
 * where its length is 0; at it lie at least as many elements as its length says; what is lent does not overlap; and nobody
 * else writes it while a call runs.
 *
 * Physical rows are the homes, 0 to n - 1, and after them the slots: slot s is physical row n + s. Physical row p is of
 * bank p % b. Each bank has a tracker of its own: bank c has the entries c * k to c * k + k - 1 of rows and counts. An
 * access counts in the bank of its place, the physical row that it opens; for a row that is in a slot, this is the
 * slot's bank and not that of the row's home.
 *
 * Refusal numbers, the first that applies:
 *   1  a setting is outside its range        2  l is a * (k + 1) or more
 *   3  something lent has another length     4  the control record or the tracker counts of a bank are unsound
 *   5  the row is n or more                  6  the read buffer is not w long, or the write runs past w
 *   7  the pointers of the row, or of the slot that it would move to, are unsound
 *   8  l accesses of the bank of the row's place were accepted in this epoch
 *   9  the row would have to move, and in this epoch each slot is gone by or worn (below)
 */
#ifndef AQUA_H
#define AQUA_H

#include <stddef.h>
#include <stdint.h>

#ifdef __cplusplus
extern "C" {
#endif

#define AQUA_NONE 65535u
#define AQUA_BANKS 16 /* the most banks; the control record has a place for each */

/* Fixed from one set-up to the next. */
typedef struct {
    uint32_t n; /* visible rows, 1 to 60,000 */
    uint32_t q; /* quarantine slots, 2 to 5,500 */
    uint32_t w; /* bytes in a row, 1 to 8,192 */
    uint32_t k; /* tracker entries of each bank, 1 to 4,096 */
    uint32_t a; /* threshold, 1 to 65,535 */
    uint32_t l; /* accesses allowed per epoch in each bank, 1 to 1,360,000; less than a * (k + 1) */
    uint32_t b; /* banks, 1 to 16 */
} aqua_settings;

/* The control record. Only the calls write it. Its places for banks from b on are 0 after set-up; no other call looks at
 * them or changes them. The record is unsound, number 4, where head is q or more, or passed is above q, or where in some bank
 * below b acts is above l, spill is above acts, spill is a or more, or one of the bank's counts is above its acts.
 *
 * A row that moves goes to the first slot from head on, round q, that is not worn, of whatever bank, and head goes by the
 * worn ones and by that slot. A slot is worn where the lowest entry of the slot's bank that names its physical row, n +
 * slot, has a count of a or more once the access is counted; the slot that the row leaves always is. */
typedef struct {
    uint32_t head;   /* next slot */
    uint32_t passed; /* slots the head has gone by this epoch, the worn ones among them */
    uint32_t spill[AQUA_BANKS];
    uint32_t acts[AQUA_BANKS]; /* accepted accesses of each bank this epoch */
} aqua_control;

/* The answer of a read or a write. In a refusal place and estimate are 0, and slot and row are AQUA_NONE. */
typedef struct {
    uint32_t number;   /* 0, or the refusal's number */
    uint32_t slot;     /* the slot that the row was moved to, or AQUA_NONE */
    uint32_t row;      /* the row that was sent home for it, or AQUA_NONE */
    uint32_t estimate; /* the tracker's estimate of place after the access, or 0 where only spill rose */
    uint64_t place;    /* the physical row that was opened */
} aqua_outcome;

/* What the estimate of an accepted access tells, whatever calls were made since set-up. It is at most settings.a, and the
 * row was moved exactly where it is settings.a. After an estimate e other than 0 accesses open place at most settings.a - e
 * times more in this epoch, and the (settings.a - e)-th of them moves its row. Accesses opened place in this epoch, this
 * one included, at most estimate times and at least estimate - spill times; where the estimate is 0, at most spill times.
 * Here spill is that of the bank of place, control.spill[place % settings.b], as the access left it; it is below
 * settings.a. */

/* Where a part of the store lies. */
typedef struct {
    size_t start;
    size_t length;
} aqua_span;

/* The answer of a sizing sum: number 1 and value 0 where an argument is outside its range. */
typedef struct {
    uint32_t number;
    uint64_t value;
} aqua_sum;

/* Begins a new history: tables and trackers empty, the whole control record 0. The store is left as it is. */
uint32_t aqua_set_up(aqua_control *control, aqua_settings settings, const uint8_t *store, size_t store_length,
                     uint16_t *forward, size_t forward_length, uint16_t *reverse, size_t reverse_length,
                     uint16_t *rows, size_t rows_length, uint32_t *counts, size_t counts_length);

/* Reads a row into a buffer of exactly w bytes. */
aqua_outcome aqua_read(aqua_control *control, aqua_settings settings, uint32_t row, uint8_t *buffer,
                       size_t buffer_length, uint8_t *store, size_t store_length, uint16_t *forward,
                       size_t forward_length, uint16_t *reverse, size_t reverse_length, uint16_t *rows,
                       size_t rows_length, uint32_t *counts, size_t counts_length);

/* Writes bytes into a row from a column on; column plus count may be at most w. No bytes are still an access. */
aqua_outcome aqua_write(aqua_control *control, aqua_settings settings, uint32_t row, size_t column,
                        const uint8_t *bytes, size_t bytes_length, uint8_t *store, size_t store_length,
                        uint16_t *forward, size_t forward_length, uint16_t *reverse, size_t reverse_length,
                        uint16_t *rows, size_t rows_length, uint32_t *counts, size_t counts_length);

/* Ends the epoch: the trackers of all banks start anew, with passed and each bank's spill and acts 0; head, pointers and
 * store remain. To be called once for each refresh window, and never less than one refresh window after the last tick:
 * then a row is opened at most 2 * settings.a + 5 times before its refresh comes round, whenever that falls. */
uint32_t aqua_tick(aqua_control *control, aqua_settings settings, const uint8_t *store, size_t store_length,
                   const uint16_t *forward, size_t forward_length, const uint16_t *reverse, size_t reverse_length,
                   uint16_t *rows, size_t rows_length, uint32_t *counts, size_t counts_length);

/* Inspect opens nothing and counts nothing. Its number: */
uint32_t aqua_inspect_number(const aqua_control *control, aqua_settings settings, uint32_t row, const uint8_t *store,
                             size_t store_length, const uint16_t *forward, size_t forward_length,
                             const uint16_t *reverse, size_t reverse_length, const uint16_t *rows, size_t rows_length,
                             const uint32_t *counts, size_t counts_length);

/* and where the row lies in the store at present: w bytes from start on, 0 and 0 where the number is not 0. */
aqua_span aqua_inspect_span(const aqua_control *control, aqua_settings settings, uint32_t row, const uint8_t *store,
                            size_t store_length, const uint16_t *forward, size_t forward_length,
                            const uint16_t *reverse, size_t reverse_length, const uint16_t *rows, size_t rows_length,
                            const uint32_t *counts, size_t counts_length);

/* tREFW * B / (A * tRC + B * tmov), rounded up; times in nanoseconds. This B, banks, is 1 to 1,024. */
aqua_sum aqua_least_size(uint64_t trefw, uint64_t trc, uint64_t tmov, uint64_t banks, uint64_t threshold);

/* tREFW * (tREFI - tRFC) / (tREFI * tRC), rounded down; times in nanoseconds. */
aqua_sum aqua_most_activations(uint64_t trefw, uint64_t trc, uint64_t trefi, uint64_t trfc);

#ifdef __cplusplus
}
#endif

#endif
