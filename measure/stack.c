// Prints the peak of the stack of the program, of each operation on one record and of a report, the caller's
// ledger included: each is run on a stack of its own that was painted before, and what is no longer painted was
// used. Prints the size of each record too: what holding twice as many takes more, over how many more they are.
#include <stdio.h>
#include <stdlib.h>
#include <string.h>
#include <ucontext.h>
#include "calls.h"
#include "ledgers.h"

typedef uint64_t on_words(const uint32_t *, size_t, uint32_t);
on_words owner_grid, owner_plant, owner_drop_plant, owner_drop_source;
on_words hold_64_sources, hold_128_sources, hold_64_plants, hold_128_plants, hold_8_ledgers, hold_16_ledgers;
uint64_t owner_source(const uint32_t *, size_t, uint32_t, uint32_t, uint32_t, uint32_t);
uint64_t owner_program(const uint32_t *, size_t);
uint64_t measure_new(uint32_t);
uint64_t measure_report(const uint32_t *, size_t, uint32_t, uint32_t);

// The number of the call, or how often a loop goes round.
static volatile uint32_t one = 1;
static uint32_t words[32], calls[CALLS * CALL_WORDS];

static uint64_t new_ledger(const uint32_t *w, size_t n, uint32_t at) { return (void)w, (void)n, measure_new(at); }
static uint64_t owner_singles(const uint32_t *w, size_t n, uint32_t times) { return owner_source(w, n, times, 0x42f6e979, 0x47f12080, MEASURED_RATIO); }
static uint64_t one_report(const uint32_t *w, size_t n, uint32_t times) { return measure_report(w, n, SOME_SITES, times); }
static uint64_t owner_calls(const uint32_t *w, size_t n, uint32_t times) { return (void)w, (void)n, (void)times, owner_program(calls, CALLS * CALL_WORDS); }

// ---- a painted stack

enum { SIZE = 1 << 20 };
static ucontext_t back, measured;
static on_words *operation;
static volatile uint64_t answer;

static void nothing(void) {}
static void operate(void) { answer = operation(words, 32, one); }

static size_t no_longer_painted(void (*run)(void), int paint) {
    unsigned char *stack = malloc(SIZE);
    memset(stack, paint, SIZE);
    getcontext(&measured);
    measured.uc_stack.ss_sp = stack;
    measured.uc_stack.ss_size = SIZE;
    measured.uc_link = &back;
    makecontext(&measured, run, 0);
    swapcontext(&back, &measured);
    size_t free_bytes = 0;
    while (free_bytes < SIZE && stack[free_bytes] == paint) free_bytes++;
    free(stack);
    return SIZE - free_bytes;
}

// With two paints, since the last byte may have the colour of one by chance.
static size_t peak(void (*run)(void)) {
    size_t first = no_longer_painted(run, 0xA5), second = no_longer_painted(run, 0x5B);
    return first > second ? first : second;
}

static size_t used(on_words *measured_operation) {
    operation = measured_operation;
    return peak(operate) - peak(nothing);
}

// ---- the list of calls

static void stop(const char *what) {
    printf("%s\n", what);
    exit(1);
}

// The answers to grid entries: those accepted of each form, and those refused 2 and 15.
struct grid_answers { size_t stated, mean, limit, weights; };

static void count_grid(struct grid_answers *g, uint32_t fields, uint32_t told) {
    if (told == 2) g->limit++;
    else if (told == 15) g->weights++;
    else if (fields / 10 % 10) g->mean++;
    else g->stated++;
}

static void show_grid(const struct grid_answers *g) {
    printf("its grid entries: %zu of a factor and %zu of margins accepted, %zu refused 2, %zu refused 15\n", g->stated, g->mean, g->limit,
           g->weights);
    if (!g->stated || !g->mean || !g->limit || !g->weights) stop("a kind of answer to a grid entry is missing");
}

// The answers to source entries by a ratio: those accepted, and those by a ratio of 0, all of which are refused.
struct ratio_answers { size_t accepted, refused; };

static void count_ratio(struct ratio_answers *r, uint32_t ratio, uint32_t told) {
    if (ratio == 0 && !told) stop("a ratio of 0 is accepted");
    if (ratio == 0) r->refused++;
    if (ratio > 1 && !told) r->accepted++;
}

static void show_ratios(const struct ratio_answers *r) {
    printf("its source entries: %zu by a ratio above 1 accepted, %zu by a ratio of 0 refused\n", r->accepted, r->refused);
    if (!r->accepted || !r->refused) stop("a kind of answer to a ratio is missing");
}

// The answers to plant entries with heat: those accepted, and those refused 17.
struct heat_answers { size_t accepted, refused; };

static void count_heat(struct heat_answers *h, uint32_t heat, uint32_t told) {
    if (heat == 0) return;
    if (told == 17) h->refused++;
    if (!told) h->accepted++;
}

static void show_heat(const struct heat_answers *h) {
    printf("its plant entries: %zu with heat accepted, %zu refused 17\n", h->accepted, h->refused);
    if (!h->accepted || !h->refused) stop("a kind of answer to heat is missing");
}

// The answer to a call is what the program's answers to the list up to it and to the list before it differ by:
// 0 or the number of a refusal, and for a report its grams.
static void count_answers(void) {
    size_t accepted = 0, refused = 0, given = 0, not_given = 0;
    struct grid_answers grid = {0, 0, 0, 0};
    struct ratio_answers ratios = {0, 0};
    struct heat_answers heat = {0, 0};
    uint64_t before = 0;
    for (size_t i = 0; i < CALLS; i++) {
        uint64_t sum = owner_program(calls, (i + 1) * CALL_WORDS);
        uint32_t told = (uint32_t)(sum - before);
        bool report = calls[i * CALL_WORDS] % 10 == REPORT;
        if (report && told == 1) stop("a report finds its ledger damaged");
        if (report && told > 1 && told < 256) not_given++;
        else if (report) given++;
        else if (told) refused++;
        else accepted++;
        if (calls[i * CALL_WORDS] % 10 == GRID) count_grid(&grid, calls[i * CALL_WORDS + 1], told);
        if (calls[i * CALL_WORDS] % 10 == PLANT) count_heat(&heat, calls[i * CALL_WORDS + 1] / 100, told);
        if (calls[i * CALL_WORDS] % 10 == SOURCE) count_ratio(&ratios, calls[i * CALL_WORDS + 1] / 1000000, told);
        before = sum;
    }
    printf("the program's list: %d calls; %zu entries and drops accepted, %zu refused; %zu reports given, %zu refused\n", CALLS, accepted,
           refused, given, not_given);
    if (!accepted || !refused || !given || !not_given) stop("a kind of answer is missing");
    show_grid(&grid);
    show_ratios(&ratios);
    show_heat(&heat);
}

int main(void) {
    struct { const char *name; on_words *run; } stacks[] = {
        {"program", owner_calls},        {"enter grid", owner_grid},         {"enter plant", owner_plant},  {"enter source", owner_singles},
        {"drop plant", owner_drop_plant}, {"drop source", owner_drop_source}, {"report", one_report}, {"Ledger::new", new_ledger},
    };
    struct { const char *name; on_words *some, *twice; size_t count; } records[] = {
        {"source record", hold_64_sources, hold_128_sources, 64},
        {"plant record", hold_64_plants, hold_128_plants, 64},
        {"ledger", hold_8_ledgers, hold_16_ledgers, 8},
    };
    for (uint32_t i = 0; i < 32; i++) words[i] = 4 * one;
    // The call that each operation makes: it is accepted, whether it is read as an entry, of a grid by margins of
    // weights 75 and 25 or of a plant with 4 lines and heat, or as a drop.
    put_call(words + CALL_WORDS * one, PLANT, 1, 41 + 100 * 75 + 10000 * 25, 70000, 1000);
    put_calls(calls);
    count_answers();
    printf("stack, bytes\n");
    for (size_t i = 0; i < sizeof stacks / sizeof *stacks; i++) printf("%-14s %10zu\n", stacks[i].name, used(stacks[i].run));
    printf("size, bytes\n");
    for (size_t i = 0; i < sizeof records / sizeof *records; i++)
        printf("%-14s %10zu\n", records[i].name, (used(records[i].twice) - used(records[i].some)) / records[i].count);
    return 0;
}
