/* A whole caller of the engine, through the header. It makes the steps of a trace file on standard input and prints a
 * line for each, as the trace program does; lab/c/run gives it document 01's session and compares the lines. Then it
 * writes and inspects a row, asks for the sizing sums, and makes a short session with two banks. It says which answers
 * are wrong, and then fails. */
#include <stdio.h>
#include <string.h>

#include "aqua.h"

_Static_assert(sizeof(aqua_settings) == 28 && sizeof(aqua_control) == 136, "the layouts that the library was built for");

/* The memory that is lent has the session's sizes; set-up answers 3 to settings that ask for others. */
enum { N = 4, Q = 2, W = 1, K = 2, TICK = 65535 };

static uint8_t store[(N + Q) * W];
static uint16_t forward[N], reverse[Q], rows[2 * K]; /* the tracker entries of up to two banks */
static uint32_t counts[2 * K];
static size_t entries = K; /* as many as are lent */
static aqua_control control;
static aqua_settings settings;
static int failures;

static void expect(int right, const char *what) {
    if (!right) {
        failures++;
        fprintf(stderr, "wrong: %s\n", what);
    }
}

static aqua_outcome read_row(uint32_t row, uint8_t *buffer) {
    return aqua_read(&control, settings, row, buffer, W, store, sizeof store, forward, N, reverse, Q, rows, entries,
                     counts, entries);
}

static uint32_t set_up(aqua_settings s) {
    return aqua_set_up(&control, s, store, sizeof store, forward, N, reverse, Q, rows, entries, counts, entries);
}

static uint32_t tick(void) {
    return aqua_tick(&control, settings, store, sizeof store, forward, N, reverse, Q, rows, entries, counts, entries);
}

static aqua_span inspect_span(uint32_t row) {
    return aqua_inspect_span(&control, settings, row, store, sizeof store, forward, N, reverse, Q, rows, entries, counts,
                             entries);
}

/* a number, or a dash for none */
static void field(int some, uint64_t value) {
    if (some)
        printf(" %llu", (unsigned long long)value);
    else
        printf(" -");
}

/* a trace file: 6 and the settings, with one bank; then a count of steps, each a row to read or TICK */
static void session(void) {
    uint32_t count = 0, step = 0, row;
    expect(scanf(" 6 %u %u %u %u %u %u %u", &settings.n, &settings.q, &settings.w, &settings.k, &settings.a,
                 &settings.l, &count) == 7, "a trace file begins with the settings and a count");
    settings.b = 1;
    memset(forward, 7, sizeof forward); /* garbage, of which set-up leaves nothing */
    memset(counts, 7, sizeof counts);
    memset(&control, 7, sizeof control);
    expect(set_up(settings) == 0, "set-up is accepted");
    /* the estimate of each step: 0 where only spill rises (5, 12), in a refusal (6, 11), and at a tick (7, 13) */
    static const uint32_t estimates[] = {1, 2, 1, 2, 0, 0, 0, 1, 2, 1, 0, 0, 0, 1, 2, 1, 2};
    while (scanf("%u", &row) == 1) {
        printf("%u", ++step);
        if (row == TICK) {
            printf(" %u - - -\n", tick());
        } else {
            uint8_t buffer[W];
            aqua_outcome o = read_row(row, buffer);
            printf(" %u", o.number);
            field(o.number == 0, o.place);
            field(o.slot != AQUA_NONE, o.slot);
            field(o.row != AQUA_NONE, o.row);
            printf("\n");
            expect(step <= sizeof estimates / sizeof *estimates && o.estimate == estimates[step - 1],
                   "the session's estimates");
        }
    }
    expect(step == count, "a trace file has as many steps as it says");
}

/* what is written is read back, wherever the row has gone */
static void bytes(void) {
    uint8_t value = 42, buffer[W] = {0};
    expect(set_up(settings) == 0, "set-up is accepted again");
    aqua_outcome o = aqua_write(&control, settings, 1, 0, &value, 1, store, sizeof store, forward, N, reverse, Q, rows,
                                entries, counts, entries);
    expect(o.number == 0 && o.place == 1 && o.estimate == 1, "a write at home");
    o = aqua_write(&control, settings, 1, W, &value, 1, store, sizeof store, forward, N, reverse, Q, rows, entries,
                   counts, entries);
    expect(o.number == 6 && o.place == 0 && o.slot == AQUA_NONE && o.row == AQUA_NONE && o.estimate == 0,
           "a write past W gets 6");
    o = read_row(1, buffer);
    expect(o.number == 0 && o.slot == 0 && o.estimate == settings.a && buffer[0] == 42,
           "the read that moves the row returns the byte");
    expect(aqua_inspect_number(&control, settings, 1, store, sizeof store, forward, N, reverse, Q, rows, entries, counts,
                               entries) == 0, "inspect is accepted");
    aqua_span span = inspect_span(1);
    expect(span.length == W && span.start == (N + 0) * W && store[span.start] == 42, "the row lies in slot 0");
    span = inspect_span(N);
    expect(span.length == 0 && span.start == 0, "row N lies nowhere");
    expect(read_row(N, buffer).number == 5, "row N gets 5");
}

static void sums(void) {
    aqua_sum s = aqua_least_size(64000000, 45, 1370, 16, 1000);
    expect(s.number == 0 && s.value == 15302, "1000 gives 15302");
    s = aqua_most_activations(64000000, 45, 7800, 350);
    expect(s.number == 0 && s.value == 1358404, "the second sum is 1358404");
    s = aqua_most_activations(64000000, 45, 0, 0);
    expect(s.number == 1 && s.value == 0, "tREFI 0 is refused");
    aqua_settings edge = settings;
    edge.l = 6;
    expect(set_up(edge) == 2, "L = 6 is refused 2");
    edge = settings;
    edge.q = 1;
    expect(set_up(edge) == 1, "Q = 1 is refused 1");
    edge = settings;
    edge.b = 0;
    expect(set_up(edge) == 1, "B = 0 is refused 1");
    edge.b = AQUA_BANKS + 1;
    expect(set_up(edge) == 1, "B = 17 is refused 1");
    edge.b = 2;
    expect(set_up(edge) == 3, "two banks need twice as many entries as are lent");
}

/* Two banks, each with two entries and three accesses in an epoch. Rows 0 and 2 and slot 0, which is physical row 4, are of
 * bank 0; rows 1 and 3 and slot 1, which is physical row 5, are of bank 1. */
static void two_banks(void) {
    static const struct {
        uint32_t row, number, place, slot, estimate;
    } steps[] = {
        {1, 0, 1, AQUA_NONE, 1}, /* bank 1 */
        {1, 0, 1, 0, 2},         /* A is 2: row 1 moves to slot 0, which is of the other bank */
        {1, 0, 4, AQUA_NONE, 1}, /* and counts in bank 0 from now on */
        {0, 0, 0, AQUA_NONE, 1}, /* bank 0's second entry */
        {2, 0, 2, AQUA_NONE, 0}, /* bank 0 has no count of 0 left, so its spill rises; these were its three accesses */
        {1, 8, 0, AQUA_NONE, 0}, /* 8 by the bank of slot 0, where row 1 is; that of its home has had only two accesses */
        {3, 0, 3, AQUA_NONE, 1}, /* which is why row 3 is read */
        {3, 8, 0, AQUA_NONE, 0}, /* and now bank 1 has had three too */
    };
    uint8_t buffer[W];
    settings.l = 3;
    settings.b = 2;
    entries = 2 * K;
    memset(&control, 7, sizeof control);
    expect(set_up(settings) == 0, "set-up is accepted with two banks");
    for (int bank = 0; bank < AQUA_BANKS; bank++)
        expect(control.spill[bank] == 0 && control.acts[bank] == 0, "set-up clears the places of all banks");
    for (size_t i = 0; i < sizeof steps / sizeof *steps; i++) {
        aqua_outcome o = read_row(steps[i].row, buffer);
        expect(o.number == steps[i].number && o.place == steps[i].place && o.slot == steps[i].slot
                   && o.row == AQUA_NONE && o.estimate == steps[i].estimate, "the steps with two banks");
    }
    expect(control.acts[0] == 3 && control.acts[1] == 3, "each bank counts its own accesses");
    expect(control.spill[0] == 1 && control.spill[1] == 0, "each bank has its own spill");
    expect(rows[0] == 4 && rows[1] == 0 && rows[K] == 1 && rows[K + 1] == 3, "each bank has its own entries");
    expect(tick() == 0 && control.acts[0] == 0 && control.acts[1] == 0 && control.spill[0] == 0,
           "a tick begins an epoch in every bank");
    expect(control.head == 1, "a tick leaves the head");
    expect(read_row(1, buffer).place == N, "and the places");
}

int main(void) {
    session();
    bytes();
    sums();
    two_banks();
    return failures != 0;
}
