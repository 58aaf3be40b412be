// A list of calls for the program of crates/measure: every kind of call, accepted and refused, numbers out of
// range among them. The generator begins anew for each list, so that every run measures the same one.
#include <stdbool.h>
#include <stddef.h>
#include <stdint.h>

enum { CALLS = 2048, CALL_WORDS = 4 };
enum { GRID, PLANT, SOURCE, DROP_PLANT, DROP_SOURCE, REPORT };

static uint32_t state;

// A number below n. C does not say which argument of a call is worked out first, so at most one of them draws.
static uint32_t below(uint32_t n) {
    state = state * 1664525u + 1013904223u;
    return (uint32_t)(((uint64_t)state * n) >> 32);
}

// True once in sixteen times: where an entry or a drop has something out of range.
static bool odd_one(void) { return below(16) == 0; }

static void put_call(uint32_t *words, uint32_t kind, uint32_t number, uint32_t fields, uint32_t first, uint32_t last) {
    words[0] = kind + 10 * number;
    words[1] = fields;
    words[2] = first;
    words[3] = last;
}

// Half of the plants have heat, in MJ, which a line of 1,000 units has, and the odd one more than any plant has.
static void put_plant(uint32_t *words, uint32_t number) {
    uint32_t site = below(4), count = 1 + below(4), quantity = 1000 + below(1000), generation = 70000;
    uint32_t fields = site + 10 * count, heat = below(2) ? 1 + below(43000) : 0;
    if (odd_one()) fields = below(100);
    if (odd_one()) generation = below(110000000);
    if (odd_one()) heat = 1000000;
    put_call(words, PLANT, number, fields + 100 * heat, generation, quantity);
}

// Captive supplies carry no loss, the others a measured one or the default that is open to the side always.
static uint32_t source_loss(uint32_t side, uint32_t supply) {
    if (supply == 2 || supply == 3) return 0;
    if (below(8)) return 1;
    return side == 2 ? 3 : 2;
}

static void put_source(uint32_t *words, uint32_t number) {
    uint32_t side = below(3), supply = below(5), site = below(4), count = 1 + below(4), meters = below(10), ratio = 1 + below(80);
    uint32_t fields = side + 10 * supply + 100 * site + 1000 * source_loss(side, supply) + 10000 * count + 100000 * meters;
    uint32_t first = 0x42f6e979 + below(1 << 20), last = 0x47f12080 + below(1 << 20);
    if (odd_one()) fields = below(1000000);
    if (odd_one()) last = below(0xffffffff);
    if (odd_one()) ratio = 0;
    put_call(words, SOURCE, number, fields + 1000000 * ratio, first, last);
}

// A stated factor or two margins, whose weights sum to 100 but for the odd one.
static void put_grid(uint32_t *words) {
    uint32_t kind = below(2), form = below(2), first = below(11000000), last = below(11000000);
    uint32_t operating = 1 + below(99), build = 100 - operating;
    if (odd_one()) build = below(100);
    put_call(words, GRID, 0, kind + 10 * form + 100 * operating + 10000 * build, first, last);
}

static void put_any_call(uint32_t *words) {
    static const uint32_t kinds[16] = {GRID, PLANT, PLANT, SOURCE, SOURCE, SOURCE, SOURCE, SOURCE, SOURCE, DROP_PLANT, DROP_SOURCE, DROP_SOURCE,
                                       REPORT, REPORT, REPORT, REPORT};
    uint32_t kind = kinds[below(16)], plant = below(8), source = below(32);
    if (odd_one()) plant = source = below(256);
    switch (kind) {
    case GRID: put_grid(words); break;
    case PLANT: put_plant(words, plant); break;
    case SOURCE: put_source(words, source); break;
    case DROP_PLANT: put_call(words, kind, plant, 0, 0, 0); break;
    default: put_call(words, kind, source, 0, 0, 0);
    }
}

// The list begins with a grid and a plant at each site, as whoever fills a ledger does.
static void put_calls(uint32_t *words) {
    state = 1;
    put_call(words, GRID, 0, 0, 812400, 0);
    for (uint32_t i = 1; i <= 4; i++) put_call(words + CALL_WORDS * i, PLANT, i, i - 1 + 40, 70000, 1000 + i);
    for (uint32_t i = 5; i < CALLS; i++) put_any_call(words + CALL_WORDS * i);
}
