/* How much stack the calls of the C interface use, and the register and its trace by the entry points of crates/timing: each runs in a thread
 * of its own on a painted stack, and the deepest byte that lost its paint counts, from the frame of the caller down. Usage: stack_use
 * [LIMIT]; exit 1 if a call used more than LIMIT bytes or did not end as it should. */
#define _DEFAULT_SOURCE
#include "diverthrone.h"

#include <pthread.h>
#include <stdio.h>
#include <stdlib.h>
#include <string.h>
#include <sys/mman.h>

enum { TERMS = 128, STACK = 1 << 17, PAINT = 0xC3 };
enum {
    NOTHING,
    VERIFY,
    GENERATE,
    SYNTHESIZE,
    MADE,
    FOUND,
    SHOWN,
    READ_LINE,
    MERGE,
    GOLDEN,
    PERIOD,
    ENUMERATE,
    TALLY,
    BATCH_MADE,
    BATCH_FOUND,
    REGISTER,
    TRACE,
    KINDS
};

uint64_t timing_register(uint32_t m, uint32_t count, const uint32_t *terms, uint8_t *a, size_t a_len, uint8_t *b, size_t b_len);
uint64_t timing_trace(uint32_t m, uint32_t count, const uint32_t *terms, uint8_t *a, size_t a_len, uint8_t *b, size_t b_len);

static const char *const names[KINDS] = {"no call", "verify",     "generate",    "synthesize",   "look_up made",  "look_up found",
                                         "editor",  "read_line",  "merge",       "merge golden", "period_length", "enumerate",
                                         "tally",   "batch made", "batch found", "register",     "trace"};
static uint8_t *stack, *caller;
static uint8_t query[DIVERTHRONE_QUERY_BYTES], record[DIVERTHRONE_RECORD_BYTES], shelf[DIVERTHRONE_RECORD_BYTES], cells[2 * TERMS];
static uint8_t a_cells[DIVERTHRONE_A_BYTES], b_cells[DIVERTHRONE_B_BYTES];
static uint8_t line[1024], typed[DIVERTHRONE_QUERY_BYTES];
static size_t line_len;
static uint32_t modulus, terms[TERMS];
static uint64_t state = 1;

/* What the query is merged with, what the buffer holds after that and what it should hold, and the reply: in MERGE and in GOLDEN. */
static struct merge {
    uint8_t second[DIVERTHRONE_QUERY_BYTES], merged[DIVERTHRONE_QUERY_BYTES], want[DIVERTHRONE_QUERY_BYTES];
    uint64_t reply;
} merges[2];

/* A period of 64 digits, the most that there are, and the reply to it. */
static uint8_t period[TERMS];
static uint64_t period_reply;

/* So many terms, so many sequences of them; the query of the last one, and their tally. */
static uint32_t census_terms, sequences;
static uint8_t numbered[DIVERTHRONE_QUERY_BYTES], tallied[DIVERTHRONE_TALLY_BYTES];

/* The query as often as a batch may have it, with what is written for it. */
static uint8_t batch[DIVERTHRONE_MAX_QUERIES * DIVERTHRONE_QUERY_BYTES], batch_records[DIVERTHRONE_MAX_QUERIES * DIVERTHRONE_RECORD_BYTES];
static uint64_t batch_replies[DIVERTHRONE_MAX_QUERIES];

static uint32_t below(uint32_t n) {
    state = state * 6364136223846793005u + 1442695040888963407u;
    return (uint32_t)(state >> 33) % n;
}

static void put(uint8_t *s, size_t cell, uint32_t v) {
    s[2 * cell] = (uint8_t)(v % 256);
    s[2 * cell + 1] = (uint8_t)(v / 256);
}

static uint64_t enter(int kind) {
    const uint8_t *a = shelf + DIVERTHRONE_A_PLACE, *b = shelf + DIVERTHRONE_B_PLACE;
    uint32_t l = diverthrone_cell(shelf + DIVERTHRONE_LENGTH_PLACE, 0);
    switch (kind) {
    case VERIFY: return diverthrone_verify(query, sizeof query, a, DIVERTHRONE_A_BYTES, b, DIVERTHRONE_B_BYTES, l);
    case GENERATE: return diverthrone_generate(modulus, a, DIVERTHRONE_A_BYTES, b, DIVERTHRONE_B_BYTES, l, cells, sizeof cells);
    case SYNTHESIZE: return diverthrone_synthesize(query, sizeof query, record, sizeof record);
    case MADE: return diverthrone_look_up(query, sizeof query, shelf, 0, 0, record, sizeof record);
    case FOUND: return diverthrone_look_up(query, sizeof query, shelf, sizeof shelf, 0, record, sizeof record);
    case SHOWN: return diverthrone_look_up(query, sizeof query, shelf, sizeof shelf, DIVERTHRONE_EDITOR, record, sizeof record);
    case READ_LINE: return diverthrone_read_line(line, line_len, typed, sizeof typed);
    case MERGE: return diverthrone_merge(query, sizeof query, merges[0].second, sizeof query, merges[0].merged, sizeof query);
    case GOLDEN: return diverthrone_merge(query, sizeof query, merges[1].second, sizeof query, merges[1].merged, sizeof query);
    case PERIOD: return diverthrone_period_length(period, sizeof period);
    case ENUMERATE: return diverthrone_enumerate(modulus, census_terms, sequences - 1, numbered, sizeof numbered);
    case TALLY: return diverthrone_tally(modulus, census_terms, tallied, sizeof tallied);
    case BATCH_MADE:
    case BATCH_FOUND:
        return diverthrone_look_up_batch(batch, sizeof batch, shelf, kind == BATCH_MADE ? 0 : sizeof shelf, DIVERTHRONE_EDITOR, batch_records,
                                         sizeof batch_records, batch_replies, DIVERTHRONE_MAX_QUERIES);
    case REGISTER: return (uint32_t)timing_register(modulus, TERMS, terms, a_cells, sizeof a_cells, b_cells, sizeof b_cells) != l;
    case TRACE: return timing_trace(modulus, TERMS, terms, a_cells, sizeof a_cells, b_cells, sizeof b_cells) == 0;
    default: return 0;
    }
}

/* The reply to the next call. */
static uint64_t due;

static uint64_t due_to(int kind) {
    switch (kind) {
    case FOUND:
    case SHOWN: return 256;
    case MERGE: return merges[0].reply;
    case GOLDEN: return merges[1].reply;
    case PERIOD: return period_reply;
    case BATCH_MADE: return 256 * 256 * DIVERTHRONE_MAX_QUERIES;
    case BATCH_FOUND: return 256 * DIVERTHRONE_MAX_QUERIES;
    default: return 0;
    }
}

static void *run(void *argument) {
    int *kind = argument;
    caller = __builtin_frame_address(0);
    *kind = enter(*kind) == due;
    return NULL;
}

static void need(int holds, const char *what) {
    if (holds) return;
    fprintf(stderr, "stack_use: %s\n", what);
    exit(1);
}

static size_t depth(int kind) {
    pthread_t thread;
    pthread_attr_t attributes;
    int argument = kind;
    due = due_to(kind);
    memset(stack, PAINT, STACK);
    need(pthread_attr_init(&attributes) == 0 && pthread_attr_setstack(&attributes, stack, STACK) == 0, "no stack for the thread");
    need(pthread_create(&thread, &attributes, run, &argument) == 0 && pthread_join(thread, NULL) == 0, "no thread");
    pthread_attr_destroy(&attributes);
    need(argument == 1, names[kind]);
    uint8_t *lowest = stack;
    while (lowest < caller && *lowest == PAINT) lowest++;
    need(lowest > stack, "the stack is too small to measure");
    return (size_t)(caller - lowest);
}

/* Random terms, a short recurrence, or zeros before a last 1, whose register is as long as the sequence. */
static void make_query(int shape) {
    uint32_t x = below(modulus), y = below(modulus);
    put(query, 0, modulus);
    put(query, 1, TERMS);
    for (size_t i = 0; i < TERMS; i++) {
        uint32_t z = (x + y) % modulus;
        terms[i] = shape == 0 ? below(modulus) : shape == 1 ? z : i == TERMS - 1;
        put(query, 2 + i, terms[i]);
        x = y, y = z;
    }
}

/* The line of the same query, with every other term below zero. */
static void type_line(void) {
    char *text = (char *)line;
    line_len = (size_t)snprintf(text, sizeof line, "mod %u:", (unsigned)modulus);
    for (size_t i = 0; i < TERMS; i++) {
        long term = (long)terms[i] - (i % 2 == 0 ? 0 : (long)modulus);
        line_len += (size_t)snprintf(text + line_len, sizeof line - line_len, i == 0 ? "%ld" : ",%ld", term);
    }
    need(line_len < sizeof line, "the line is too long");
}

static uint32_t common_divisor(uint32_t x, uint32_t y) { return y == 0 ? x : common_divisor(y, x % y); }

/* A query of the same numbers modulo k, and the query of the numbers themselves if the multiple is in the limits. */
static void make_merge(struct merge *m, uint32_t k) {
    uint32_t multiple = modulus / common_divisor(modulus, k) * k, times = multiple / modulus;
    memset(m->merged, PAINT, sizeof query);
    memset(m->want, PAINT, sizeof query);
    m->reply = multiple > 4095 ? 30 : 0;
    put(m->second, 0, k), put(m->second, 1, TERMS);
    if (m->reply == 0) put(m->want, 0, multiple), put(m->want, 1, TERMS);
    for (uint32_t i = 0; i < TERMS; i++) {
        uint32_t number = terms[i] + modulus * (i % times);
        put(m->second, 2 + i, number % k);
        if (m->reply == 0) put(m->want, 2 + i, number);
    }
}

/* With the largest modulus that keeps the product in the limits, or with the same one; and with the golden section of the modulus, for which
 * Euclid's division has the most steps, whether the multiple is in the limits or not. */
static void make_merges(void) {
    uint32_t golden = (uint32_t)(modulus * 0.6180339887 + 0.5);
    make_merge(&merges[0], modulus <= 2047 ? 4095 / modulus : modulus);
    make_merge(&merges[1], golden < 2 ? 2 : golden);
}

/* The last half of the terms, modulo 2; its length is expected from the record of two such periods. */
static void make_period(void) {
    uint8_t twice[DIVERTHRONE_QUERY_BYTES], made[DIVERTHRONE_RECORD_BYTES];
    put(twice, 0, 2), put(twice, 1, TERMS);
    for (size_t i = 0; i < TERMS; i++) {
        size_t place = i % (TERMS / 2);
        uint32_t digit = terms[TERMS / 2 + place] % 2;
        put(twice, 2 + i, digit), put(period, place, digit);
    }
    need(diverthrone_synthesize(twice, sizeof twice, made, sizeof made) == 0, "a record of two periods");
    period_reply = 256 * (uint64_t)diverthrone_cell(made + DIVERTHRONE_LENGTH_PLACE, 0);
}

/* The most terms that the modulus may have, one less, or none. */
static void make_census(int shape) {
    uint32_t most = 0;
    for (sequences = modulus; sequences <= 4096; sequences *= modulus) most++;
    census_terms = shape == 2 ? 0 : most - (uint32_t)shape;
    sequences = 1;
    for (uint32_t i = 0; i < census_terms; i++) sequences *= modulus;
    memset(numbered, PAINT, sizeof numbered);
    memset(tallied, PAINT, sizeof tallied);
}

/* In the last sequence every term is m - 1, and the cells count each sequence once. */
static void check_census(void) {
    uint32_t counted = 0;
    for (size_t i = 0; i < TERMS; i++) need(diverthrone_cell(numbered, 2 + i) == (i < census_terms ? modulus - 1 : 0), "the last sequence");
    for (size_t i = 0; i < DIVERTHRONE_TALLY_BYTES / 2; i++) counted += diverthrone_cell(tallied, i);
    need(counted == sequences, "the sum of the tally");
}

static void make_batch(void) {
    for (size_t i = 0; i < DIVERTHRONE_MAX_QUERIES; i++) memcpy(batch + i * sizeof query, query, sizeof query);
}

/* The last batch found the record for each query. */
static void check_batch(void) {
    for (size_t i = 0; i < DIVERTHRONE_MAX_QUERIES; i++)
        need(batch_replies[i] == 256 && memcmp(batch_records + i * sizeof shelf, shelf, sizeof shelf) == 0, "the records of the batch");
}

/* The largest depths for one modulus go up into `most`. */
static void measure(uint32_t m, size_t most[KINDS]) {
    modulus = m;
    for (int shape = 0; shape < 3; shape++) {
        make_query(shape);
        type_line();
        make_merges();
        make_period();
        make_census(shape);
        make_batch();
        need(diverthrone_synthesize(query, sizeof query, shelf, sizeof shelf) == 0, "a record for the catalogue");
        for (int kind = 0; kind < KINDS; kind++) {
            size_t d = depth(kind);
            if (d > most[kind]) most[kind] = d;
        }
        need(memcmp(typed, query, sizeof query) == 0, "the query of the line");
        check_census();
        check_batch();
        for (int i = 0; i < 2; i++) need(memcmp(merges[i].merged, merges[i].want, sizeof query) == 0, "the merged query");
    }
}

static void print_row(const char *title, const size_t most[KINDS]) {
    printf("%-14s", title);
    for (int kind = 0; kind < KINDS; kind++) printf(" %13zu", most[kind]);
    putchar('\n');
}

int main(int argc, char **argv) {
    static const uint32_t shown[] = {2048, 2310, 3600, 4095};
    size_t all[KINDS] = {0}, deepest = 0;
    stack = mmap(NULL, STACK, PROT_READ | PROT_WRITE, MAP_PRIVATE | MAP_ANONYMOUS, -1, 0);
    need(stack != MAP_FAILED, "no memory");
    printf("%-14s", "bytes");
    for (int kind = 0; kind < KINDS; kind++) printf(" %13s", names[kind]);
    putchar('\n');
    for (size_t i = 0; i < sizeof shown / sizeof *shown; i++) {
        char title[16];
        size_t most[KINDS] = {0};
        measure(shown[i], most);
        snprintf(title, sizeof title, "m = %u", (unsigned)shown[i]);
        print_row(title, most);
    }
    for (uint32_t m = 2; m <= 4095; m++) measure(m, all);
    print_row("all moduli", all);
    for (int kind = 0; kind < KINDS; kind++)
        if (all[kind] > deepest) deepest = all[kind];
    printf("stack use: at most %zu bytes\n", deepest);
    return argc > 1 && deepest > strtoull(argv[1], NULL, 10);
}
