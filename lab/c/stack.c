/* Measures the stack that the calls need, and fails where one needs more than the header says. Each call is made on a stack
 * of its own that is filled with a pattern; counted is how far below the caller's frame the pattern is gone. So the
 * arguments, the caller's place for the answer and the return address are in it, and what memcpy and memset of the C
 * library need; room that is reserved and never written is not. It is linked with `-z now`: otherwise the first call of
 * memcpy or memset would have the dynamic linker on the stack.
 *
 * The calls are those of random histories: rows of many lengths are read, written, moved, sent home and inspected, and
 * some calls are refused. In some histories rows move past runs of worn slots, for which the library's search takes
 * another way after the sixteenth, or find nothing after a run; runs have up to 2,750 slots, with the most slots and
 * entries. Half of the histories have more than one bank. */
#include <stdio.h>
#include <stdlib.h>
#include <string.h>
#include <ucontext.h>

#include "aqua.h"

enum { STATED = 768, STATED_ACCESS = 6400 }; /* the header's figures; the second is that of reads and writes */

enum { ROOM = 65536, FILLED = 16384, PATTERN = 0xa5 };
enum { ROWS = 40, SLOTS = 20, LONGEST = 8192, ENTRIES = 200, HISTORIES = 2000, CALLS = 200 };
enum { MOST_ROWS = 5500, MOST_SLOTS = 5500, MOST_ENTRIES = 4096, MANY = 16 }; /* entries of one bank */

static uint8_t store[(ROWS + SLOTS) * LONGEST], bytes[LONGEST + 1]; /* one more than a row, for refused reads */
static uint16_t forward[MOST_ROWS], reverse[MOST_SLOTS], rows[AQUA_BANKS * MOST_ENTRIES];
static uint32_t counts[AQUA_BANKS * MOST_ENTRIES];
static aqua_control control;
static aqua_settings s;

/* the arguments and the answer of the call at hand */
static size_t store_length, column, length;
static uint32_t row, number;
static aqua_outcome outcome;
static aqua_span span;
static aqua_sum sum;

static uint32_t accepted, refused, moved, sent_home; /* how many of the calls */
static uint32_t past_many, none_left;                /* moves past more than MANY slots, and 9 after as many */

#define LENT store, store_length, forward, s.n, reverse, s.q, rows, s.b * s.k, counts, s.b * s.k

static uint8_t *frame; /* of the caller */
#define CALLER(name, call)                                                                                             \
    static void name(void) {                                                                                           \
        frame = __builtin_frame_address(0);                                                                            \
        call;                                                                                                          \
    }
CALLER(set_up, number = aqua_set_up(&control, s, LENT))
CALLER(read_row, outcome = aqua_read(&control, s, row, bytes, length, LENT); number = outcome.number)
CALLER(write_row, outcome = aqua_write(&control, s, row, column, bytes, length, LENT); number = outcome.number)
CALLER(tick, number = aqua_tick(&control, s, LENT))
CALLER(inspect_number, number = aqua_inspect_number(&control, s, row, LENT))
CALLER(inspect_span, span = aqua_inspect_span(&control, s, row, LENT); number = span.length != s.w)
CALLER(least_size, sum = aqua_least_size(64000000, 45, 1370, 16, s.a); number = sum.number)
CALLER(most_activations, sum = aqua_most_activations(64000000, 45, 7800, 350 + s.a); number = sum.number)

enum { SET_UP, READ, WRITE, TICK, INSPECT_NUMBER, INSPECT_SPAN, LEAST_SIZE, MOST_ACTIVATIONS, FUNCTIONS };
static const struct {
    const char *name;
    void (*call)(void);
} functions[FUNCTIONS] = {
    {"aqua_set_up", set_up},
    {"aqua_read", read_row},
    {"aqua_write", write_row},
    {"aqua_tick", tick},
    {"aqua_inspect_number", inspect_number},
    {"aqua_inspect_span", inspect_span},
    {"aqua_least_size", least_size},
    {"aqua_most_activations", most_activations},
};
static size_t most[FUNCTIONS];

static _Alignas(64) uint8_t stack[ROOM];
static ucontext_t here, there;

static void measure(int function) {
    uint8_t *from = stack + ROOM - FILLED, *lowest = from;
    uint32_t passed = control.passed;
    memset(from, PATTERN, FILLED);
    getcontext(&there);
    there.uc_stack.ss_sp = stack;
    there.uc_stack.ss_size = ROOM;
    there.uc_link = &here;
    makecontext(&there, functions[function].call, 0);
    swapcontext(&here, &there);
    while (*lowest == PATTERN)
        lowest++;
    size_t need = frame - lowest;
    if (need > most[function])
        most[function] = need;
    if (number == 0)
        accepted++;
    else
        refused++;
    if (number == 0 && (function == READ || function == WRITE)) {
        moved += outcome.slot != AQUA_NONE;
        sent_home += outcome.row != AQUA_NONE;
        past_many += outcome.slot != AQUA_NONE && control.passed - passed > MANY + 1;
    }
    if (number == 9)
        none_left += s.q - passed > MANY;
}

static uint32_t below(uint32_t n) {
    static uint64_t state = 88172645463325252u; /* Marsaglia's xorshift64 (2003), with his shifts 13, 7 and 17 */
    state ^= state << 13;
    state ^= state >> 7;
    state ^= state << 17;
    return (uint32_t)(state >> 20) % n;
}

static void history(void) {
    static const uint32_t widths[] = {1, 16, 64, 255, 256, 257, 1000, 4095, 4096, 4097, 5000, 8191, 8192};
    s.n = 1 + below(ROWS);
    s.q = 2 + below(SLOTS - 1);
    s.w = widths[below(sizeof widths / sizeof *widths)];
    s.k = 1 + below(below(2) ? 8 : ENTRIES);
    s.a = 1 + below(4);
    s.l = s.a * (s.k + 1) - 1;
    s.b = below(2) ? 1 : 2 + below(AQUA_BANKS - 1);
    store_length = (size_t)(s.n + s.q) * s.w;
    measure(LEAST_SIZE);
    measure(MOST_ACTIVATIONS);
    measure(SET_UP);
    for (int i = 0; i < CALLS; i++) {
        row = below(s.n + 1);
        length = below(20) ? s.w : below(s.w + 2);
        column = 0;
        switch (below(16)) {
        case 0:
            measure(TICK);
            break;
        case 1:
            measure(INSPECT_NUMBER);
            measure(INSPECT_SPAN);
            break;
        case 2:
        case 3:
        case 4:
            length = below(s.w + 1);
            column = below(s.w + 2 - (uint32_t)length);
            measure(WRITE);
            break;
        default:
            measure(READ);
        }
    }
}

static void access_row(uint32_t which) {
    row = which;
    length = s.w;
    column = 0;
    measure(below(2) ? READ : WRITE);
}

/* With A = 1 each access moves its row. Rows 0 to q - 1 fill the slots. Then those in the slots from half on leave them
 * worn, but for the last `spared` slots, for the slots from 0 on. Other rows take what is left before the worn slots, and
 * go past these; where none was spared, that is a 9. */
static void worn(uint32_t q, uint32_t w, uint32_t k, uint32_t b, uint32_t spared) {
    uint32_t half = q / 2;
    s = (aqua_settings){.n = q, .q = q, .w = w, .k = k, .a = 1, .l = k, .b = b};
    store_length = (size_t)(s.n + s.q) * s.w;
    measure(SET_UP);
    for (uint32_t i = 0; i < q; i++) {
        if (control.acts[i % s.b] == s.l)
            measure(TICK);
        access_row(i);
    }
    measure(TICK);
    for (uint32_t i = half; i < q - spared; i++)
        access_row(i);
    for (uint32_t i = 0; i < spared + 2; i++)
        access_row(i);
}

int main(void) {
    int right = 1;
    for (int i = 0; i < HISTORIES; i++)
        history();
    for (uint32_t i = 0; i < 100; i++)
        worn(36 + i % 23, i % 3 ? 1 : LONGEST / 2, ENTRIES, i % 2 ? 1 : 1 + i / 2 % AQUA_BANKS, i % 4);
    for (uint32_t spared = 0; spared < 3; spared++) {
        worn(MOST_SLOTS, 1, MOST_ENTRIES, 1, spared);
        worn(MOST_SLOTS, 1, MOST_ENTRIES, AQUA_BANKS, spared);
    }
    printf("stack: %u calls accepted, %u refused, %u rows moved, %u sent home\n", accepted, refused, moved, sent_home);
    printf("stack: %u rows moved past more than %d slots, %u refused with 9 while more than %d were left\n", past_many,
           MANY, none_left, MANY);
    for (int f = 0; f < FUNCTIONS; f++) {
        int stated = f == READ || f == WRITE ? STATED_ACCESS : STATED;
        printf("stack: %-21s %4zu bytes\n", functions[f].name, most[f]);
        if (most[f] > (size_t)stated) {
            fprintf(stderr, "wrong: %s needs more than %d bytes of stack\n", functions[f].name, stated);
            right = 0;
        }
    }
    if (refused == 0 || sent_home == 0 || past_many == 0 || none_left == 0) {
        fprintf(stderr, "wrong: the calls leave out what they are to try\n");
        right = 0;
    }
    return right ? EXIT_SUCCESS : EXIT_FAILURE;
}
