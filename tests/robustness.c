/* Many calls through the C interface, with every buffer at the edge of a page that nobody may touch.
 *
 *   robustness --back, robustness --front
 *       replays the script on standard input and writes the same text as the second program for verify, generate, synthesize, look_up,
 *       read_line, merge, period_length, enumerate, tally and look_up_batch; the other operations are passed over. --back puts the end of
 *       each buffer at the forbidden page, --front its start; every other call hands over NULL for its empty buffers, and the same buffer for
 *       two equal queries that are merged, and the others a number above 2^32 that ends like an editor's for a visitor.
 *       To standard error go how many records with an accession number were found for editors, and for visitors of such a number, alone and
 *       in batches; how many queries were merged with themselves in one buffer; and how many queries of batches were found, made and refused.
 *   robustness --expand SEED COPIES
 *       writes the script on standard input again, with so many altered copies behind each of these calls.
 *
 * Exit 0; 1 if the script is not whole or a byte outside the lent ones has changed; 2 for bad usage; 3 if a forbidden byte was touched. */
#define _DEFAULT_SOURCE
#include "diverthrone.h"

#include <signal.h>
#include <stdio.h>
#include <stdlib.h>
#include <string.h>
#include <sys/mman.h>
#include <unistd.h>

enum { VERIFY = 4, GENERATE = 5, SYNTHESIZE = 6, LOOK_UP = 7, FORGE = 8, READ_LINE = 10, PUSH_ALL = 11, MERGE = 12, PERIOD_LENGTH = 13 };
enum { ENUMERATE = 14, TALLY = 15, LOOK_UP_BATCH = 16 };
enum { HEADER = 16, WIDEST = 65535, PAINT = 0xC3, NEAR = 1024 };
enum { QUERY = DIVERTHRONE_QUERY_BYTES, A = DIVERTHRONE_A_BYTES, B = DIVERTHRONE_B_BYTES, RECORD = DIVERTHRONE_RECORD_BYTES };
enum { LENGTH_AT = DIVERTHRONE_LENGTH_PLACE, A_AT = DIVERTHRONE_A_PLACE, B_AT = DIVERTHRONE_B_PLACE, NUMBER_AT = DIVERTHRONE_NUMBER_PLACE };

static const char *const names[] = {"open",       "push",          "register",  "profile", "verify",       "generate",
                                    "synthesize", "look_up",       "forge",     "trace",   "read_line",    "push_all",
                                    "merge",      "period_length", "enumerate", "tally",   "look_up_batch"};
static const size_t input_counts[] = {0, 0, 0, 0, 3, 2, 1, 2, 1, 0, 1, 1, 2, 1, 0, 0, 2};

/* One call of a script; the inputs come first among its buffers, a buffer lent for writing follows them. Enumerate and tally have a count,
 * and enumerate which of the sequences is asked for. A batch has a fourth buffer, for l replies of eight bytes each. */
struct call {
    unsigned op, fill;
    uint32_t number, l, count;
    uint64_t which;
    size_t len[3];
    uint8_t bytes[3][WIDEST + 1];
};

static size_t inputs(const struct call *c) { return input_counts[c->op]; }

static int tested(const struct call *c) { return (c->op >= VERIFY && c->op <= LOOK_UP) || c->op == READ_LINE || c->op >= MERGE; }

static size_t buffers(const struct call *c) {
    if (c->op == LOOK_UP_BATCH) return 4;
    return c->op == VERIFY || c->op == PERIOD_LENGTH ? inputs(c) : inputs(c) + 1;
}

/* In bytes. */
static size_t length(const struct call *c, size_t i) { return i < 3 ? c->len[i] : 8 * (size_t)c->l; }

/* The cells of a period are only read, but the text has their hash. */
static int hashed(const struct call *c, size_t i) { return i >= inputs(c) || c->op == PERIOD_LENGTH; }

static void stop(int status, const char *why) {
    fflush(stdout);
    fprintf(stderr, "robustness: %s\n", why);
    exit(status);
}

/* ---- the script ---- */

static uint32_t number_at(const uint8_t *s, size_t bytes) {
    uint32_t v = 0;
    for (size_t i = bytes; i > 0; i--) v = v << 8 | s[i - 1];
    return v;
}

static void number_to(uint8_t *s, uint32_t v, size_t bytes) {
    for (size_t i = 0; i < bytes; i++) s[i] = (uint8_t)(v >> 8 * i);
}

/* What stands behind the header of enumerate and tally, in bytes. */
static size_t numbers_of(const struct call *c) { return c->op == ENUMERATE ? 12 : c->op == TALLY ? 4 : 0; }

/* The text ends as the second program's does, so that broken scripts can be compared too. */
static void broken(const char *how) {
    printf("script %s\n", how);
    stop(1, "the script is not whole");
}

/* The next call; 0 at the end. */
static int read_call(struct call *c) {
    uint8_t h[HEADER];
    char unknown[16];
    size_t got = fread(h, 1, HEADER, stdin);
    if (got == 0) return 0;
    if (got < HEADER) broken("cut short");
    snprintf(unknown, sizeof unknown, "unknown %u", (unsigned)h[0]);
    if (h[0] > LOOK_UP_BATCH) broken(unknown);
    c->op = h[0], c->fill = h[1], c->number = number_at(h + 4, 4), c->l = number_at(h + 14, 2);
    for (size_t i = 0; i < 3; i++) c->len[i] = number_at(h + 8 + 2 * i, 2);
    if (c->op == FORGE && c->len[0] != QUERY) broken("bad forge");
    for (size_t i = 0; i < inputs(c); i++)
        if (fread(c->bytes[i], 1, c->len[i], stdin) != c->len[i]) broken("cut short");
    uint8_t numbers[12] = {0};
    if (fread(numbers, 1, numbers_of(c), stdin) != numbers_of(c)) broken("cut short");
    c->count = number_at(numbers, 4), c->which = (uint64_t)number_at(numbers + 8, 4) << 32 | number_at(numbers + 4, 4);
    return 1;
}

static void write_call(const struct call *c) {
    uint8_t h[HEADER] = {(uint8_t)c->op, (uint8_t)c->fill};
    number_to(h + 4, c->number, 4);
    for (size_t i = 0; i < 3; i++) number_to(h + 8 + 2 * i, (uint32_t)c->len[i], 2);
    number_to(h + 14, c->l, 2);
    fwrite(h, 1, HEADER, stdout);
    for (size_t i = 0; i < inputs(c); i++) fwrite(c->bytes[i], 1, c->len[i], stdout);
    uint8_t numbers[12];
    number_to(numbers, c->count, 4), number_to(numbers + 4, (uint32_t)c->which, 4), number_to(numbers + 8, (uint32_t)(c->which >> 32), 4);
    fwrite(numbers, 1, numbers_of(c), stdout);
}

/* ---- the guarded areas ---- */

/* Pages that may be used between two that may not; painted wherever no buffer is lent. */
struct area {
    uint8_t *start;
    size_t size;
};

static struct area areas[4];
static int at_back;
static volatile unsigned long calls_made;

static void allow(const struct area *area, int how) {
    if (mprotect(area->start, area->size, how) != 0) stop(2, "the pages cannot be protected");
}

/* Room for so many bytes; pages begin and end where numbers may. */
static void map_area(struct area *area, size_t most) {
    size_t page = (size_t)sysconf(_SC_PAGESIZE);
    area->size = (most / page + 1) * page;
    uint8_t *all = mmap(NULL, area->size + 2 * page, PROT_NONE, MAP_PRIVATE | MAP_ANONYMOUS, -1, 0);
    if (all == MAP_FAILED) stop(2, "no memory");
    area->start = all + page;
    allow(area, PROT_READ | PROT_WRITE);
    memset(area->start, PAINT, area->size);
}

static uint8_t *place(const struct area *area, size_t len) { return at_back ? area->start + area->size - len : area->start; }

/* The side away from the guard page does not trap a write, so its paint is looked at. */
static void check_paint(const struct area *area, size_t len) {
    size_t left = area->size - len, some = left < NEAR ? left : NEAR;
    const uint8_t *near = at_back ? place(area, len) - some : place(area, len) + len;
    for (size_t i = 0; i < some; i++)
        if (near[i] != PAINT) stop(1, "a byte outside the lent ones has changed");
}

static void trapped(int signal_number) {
    char text[64];
    int size = snprintf(text, sizeof text, "robustness: signal %d in call %lu\n", signal_number, calls_made);
    if (size > 0 && write(STDERR_FILENO, text, (size_t)size) != size) _exit(4);
    _exit(3);
}

/* ---- the calls ---- */

/* A script has room for 32 bits. */
static uint64_t asker(const struct call *c) {
    uint64_t large = ((uint64_t)calls_made << 32) + DIVERTHRONE_EDITOR;
    return c->number != DIVERTHRONE_EDITOR && calls_made % 2 == 1 ? large : c->number;
}

/* Of single look-ups and of those in batches. */
static unsigned long editors_found[2], visitors_found[2];

/* A record with an accession number was found. */
static void count_found(const struct call *c, uint64_t reply) {
    uint64_t value = diverthrone_value(reply);
    if (diverthrone_refusal(reply) != 0 || value == 0 || value > c->len[1] / RECORD) return;
    const uint8_t *record = c->bytes[1] + (value - 1) * RECORD;
    if (number_at(record + NUMBER_AT, 2) == 0) return;
    editors_found[c->op == LOOK_UP_BATCH] += c->number == DIVERTHRONE_EDITOR;
    visitors_found[c->op == LOOK_UP_BATCH] += asker(c) > UINT32_MAX;
}

/* Queries of batches by their refusal; those that were found are counted at 255. */
static unsigned long batch_queries[256];

static void count_batch(const struct call *c, const uint64_t *replies) {
    for (size_t i = 0; i < c->l; i++) {
        unsigned refusal = diverthrone_refusal(replies[i]);
        count_found(c, replies[i]);
        batch_queries[refusal == 0 && replies[i] != 0 ? 255 : refusal]++;
    }
}

static unsigned long lent_twice;

/* Two equal queries may be one buffer. */
static void lend_twice(const struct call *c, uint8_t *given[4]) {
    if (c->op != MERGE || calls_made % 2 == 1) return;
    if (c->len[0] != c->len[1] || memcmp(c->bytes[0], c->bytes[1], c->len[0]) != 0) return;
    given[1] = given[0];
    lent_twice += c->len[0] == QUERY && c->len[2] == QUERY;
}

/* A buffer of replies begins where numbers may. */
static uint64_t *numbers(uint8_t *bytes) { return (uint64_t *)(void *)bytes; }

static uint64_t enter(const struct call *c, uint8_t *const p[4]) {
    const size_t *n = c->len;
    switch (c->op) {
    case VERIFY: return diverthrone_verify(p[0], n[0], p[1], n[1], p[2], n[2], c->number);
    case GENERATE: return diverthrone_generate(c->number, p[0], n[0], p[1], n[1], c->l, p[2], n[2]);
    case SYNTHESIZE: return diverthrone_synthesize(p[0], n[0], p[1], n[1]);
    case READ_LINE: return diverthrone_read_line(p[0], n[0], p[1], n[1]);
    case MERGE: return diverthrone_merge(p[0], n[0], p[1], n[1], p[2], n[2]);
    case PERIOD_LENGTH: return diverthrone_period_length(p[0], n[0]);
    case ENUMERATE: return diverthrone_enumerate(c->number, c->count, c->which, p[0], n[0]);
    case TALLY: return diverthrone_tally(c->number, c->count, p[0], n[0]);
    case LOOK_UP_BATCH: return diverthrone_look_up_batch(p[0], n[0], p[1], n[1], asker(c), p[2], n[2], numbers(p[3]), c->l);
    default: return diverthrone_look_up(p[0], n[0], p[1], n[1], asker(c), p[2], n[2]);
    }
}

static uint32_t hash(const uint8_t *s, size_t len) {
    uint32_t state = 0x811c9dc5;
    for (size_t i = 0; i < len; i++) state = (state ^ s[i]) * 0x01000193u;
    return state;
}

/* With refusals 3, 27, 28 and 31 the value is a place. A value where there should be none is written out, so that the comparison finds it. */
static void print_reply(unsigned op, uint64_t reply) {
    unsigned refusal = diverthrone_refusal(reply);
    unsigned long long value = diverthrone_value(reply);
    if (refusal == 3 || refusal == 27 || refusal == 28 || refusal == 31)
        printf("%s refused %u at %llu", names[op], refusal, value);
    else if (refusal != 0 && value != 0)
        printf("%s refused %u with the value %llu", names[op], refusal, value);
    else if (refusal != 0)
        printf("%s refused %u", names[op], refusal);
    else if (op == PERIOD_LENGTH)
        printf("%s length %llu", names[op], value);
    else if (op == LOOK_UP_BATCH)
        printf("%s found %llu made %llu refused %llu", names[op], value % 256, value / 256 % 256, value / 65536);
    else if (op == VERIFY || op == LOOK_UP)
        value == 0 ? printf("%s %s", names[op], op == VERIFY ? "yes" : "made")
                   : printf("%s %s %llu", names[op], op == VERIFY ? "no" : "found", value - 1);
    else
        value == 0 ? printf("%s ok", names[op]) : printf("%s ok with the value %llu", names[op], value);
}

static void lend(const struct call *c, uint8_t *p[4]) {
    for (size_t i = 0; i < buffers(c); i++) {
        p[i] = place(&areas[i], length(c, i));
        if (i >= inputs(c)) {
            memset(p[i], (int)c->fill, length(c, i));
            continue;
        }
        memcpy(p[i], c->bytes[i], c->len[i]);
        allow(&areas[i], PROT_READ);
    }
}

/* After a call: hashes of what it may write, in which the numbers have their low byte first as on the machines that the archive is for. */
static void take_back(const struct call *c, uint8_t *const p[4]) {
    for (size_t i = 0; i < buffers(c); i++) {
        size_t len = length(c, i);
        if (hashed(c, i)) printf(" %08x", (unsigned)hash(p[i], len));
        if (i < inputs(c) && memcmp(p[i], c->bytes[i], len) != 0) stop(1, "an input has changed");
        check_paint(&areas[i], len);
        allow(&areas[i], PROT_READ | PROT_WRITE);
        memset(p[i], PAINT, len);
    }
    putchar('\n');
}

static void make(const struct call *c) {
    uint8_t *p[4] = {NULL, NULL, NULL, NULL}, *given[4];
    lend(c, p);
    calls_made++;
    for (size_t i = 0; i < 4; i++) given[i] = length(c, i) == 0 && calls_made % 2 == 0 ? NULL : p[i];
    lend_twice(c, given);
    uint64_t reply = enter(c, given);
    print_reply(c->op, reply);
    if (c->op == LOOK_UP) count_found(c, reply);
    if (c->op == LOOK_UP_BATCH && diverthrone_refusal(reply) == 0) count_batch(c, numbers(p[3]));
    take_back(c, p);
}

static void print_counts(void) {
    static const unsigned refusals[] = {1, 2, 3, 4, 24};
    fprintf(stderr, "editors_found %lu\nvisitors_found %lu\n", editors_found[0], visitors_found[0]);
    fprintf(stderr, "batch_editors_found %lu\nbatch_visitors_found %lu\n", editors_found[1], visitors_found[1]);
    fprintf(stderr, "lent_twice %lu\nqueries_found %lu\nqueries_made %lu\n", lent_twice, batch_queries[255], batch_queries[0]);
    for (size_t i = 0; i < 5; i++) fprintf(stderr, "queries_%u %lu\n", refusals[i], batch_queries[refusals[i]]);
}

static int replay(struct call *c) {
    struct sigaction action;
    memset(&action, 0, sizeof action);
    action.sa_handler = trapped;
    if (sigaction(SIGSEGV, &action, NULL) != 0 || sigaction(SIGBUS, &action, NULL) != 0) stop(2, "no signal handler");
    for (size_t i = 0; i < 4; i++) map_area(&areas[i], i < 3 ? WIDEST : 8 * WIDEST);
    while (read_call(c))
        if (tested(c)) make(c);
    print_counts();
    return 0;
}

/* ---- altered copies ---- */

static uint64_t state;

/* Drawn in an order that C fixes, so that a seed gives the same script with every compiler. */
static uint32_t any(void) {
    uint64_t z = state += 0x9E3779B97F4A7C15u;
    z = (z ^ z >> 30) * 0xBF58476D1CE4E5B9u;
    z = (z ^ z >> 27) * 0x94D049BB133111EBu;
    return (uint32_t)(z >> 32);
}

static uint32_t below(size_t n) { return any() % (uint32_t)n; }

static uint32_t pick(const uint32_t *v, size_t n) { return v[below(n)]; }

static uint32_t cell(const uint8_t *s, size_t i) { return number_at(s + 2 * i, 2); }

static void set_cell(uint8_t *s, size_t i, uint32_t v) { number_to(s + 2 * i, v, 2); }

static uint32_t modulus(const struct call *c) {
    if (c->op == GENERATE) return c->number;
    return c->len[0] >= 2 ? cell(c->bytes[0], 0) : 0;
}

/* What is added to a buffer is zero, as it would be past a count or a length. */
static void set_length(struct call *c, size_t i, size_t len) {
    if (len > WIDEST) len = WIDEST;
    if (len > c->len[i]) memset(c->bytes[i] + c->len[i], 0, len - c->len[i]);
    c->len[i] = len;
}

static void one_byte(struct call *c) {
    size_t i = below(inputs(c));
    uint32_t bits = below(2) ? 1u << below(8) : 1 + below(255);
    if (c->len[i] > 0) c->bytes[i][below(c->len[i])] ^= (uint8_t)bits;
}

/* The first cells get more than their share, since there the short sequences and registers lie. */
static void one_cell(struct call *c) {
    size_t i = below(inputs(c)), cells = c->len[i] / 2;
    uint32_t m = modulus(c), r = any(), low = m ? r % m : 0, values[] = {0, 1, m - 1, m, m + 1, 255, 256, 65535, r, low, low};
    if (cells == 0) return;
    size_t at = below(1 + below(cells));
    set_cell(c->bytes[i], at, pick(values, sizeof values / sizeof *values));
}

/* The terms that a query has, 0 where it cannot be one. */
static uint32_t terms_of(const struct call *c) {
    if (c->op == GENERATE || c->len[0] != QUERY) return 0;
    uint32_t n = cell(c->bytes[0], 1);
    return modulus(c) == 0 || n > 128 ? 0 : n;
}

/* Often the records of the same query follow. */
static void set_term(struct call *c, size_t place, uint32_t term) {
    size_t records = c->op == LOOK_UP && below(2) ? c->len[1] / RECORD : 0;
    for (size_t i = 0; i < records; i++)
        if (memcmp(c->bytes[1] + i * RECORD, c->bytes[0], QUERY) == 0) set_cell(c->bytes[1] + i * RECORD, 2 + place, term);
    set_cell(c->bytes[0], 2 + place, term);
}

/* Another legal term anywhere in the sequence: a test that passed then fails there. */
static void one_term(struct call *c) {
    uint32_t n = terms_of(c);
    if (n == 0) return;
    size_t place = below(n);
    set_term(c, place, below(modulus(c)));
}

/* One or more terms that are not below the modulus, with more than their share at the ends: the first of them is told. */
static void wrong_terms(struct call *c) {
    uint32_t m = modulus(c), n = terms_of(c);
    if (n == 0) return;
    do {
        const uint32_t places[] = {0, n - 1, below(n)};
        size_t place = pick(places, 3);
        uint32_t r = any(), values[] = {m, m + 1, m + 256, 65535, m + r % (65536 - m)};
        set_term(c, place, pick(values, sizeof values / sizeof *values));
    } while (below(2));
}

/* Not that of replies. */
static void one_length(struct call *c) {
    size_t i = below(c->op == LOOK_UP_BATCH ? 3 : buffers(c)), len = c->len[i], less = len > 1 ? len - 2 : 0, r = any();
    const size_t lengths[] = {0, 1, less, less + 1, len + 1, len + 2, len + RECORD, len / 2, len / RECORD * NUMBER_AT, r % 1024, r % 258};
    set_length(c, i, lengths[below(sizeof lengths / sizeof *lengths)]);
}

static void other_fill(struct call *c) { c->fill = below(256); }

/* A record of a catalogue, mostly the first with the call's query, since it alone is tested; NULL where there is none. */
static uint8_t *some_record(struct call *c) {
    size_t records = c->op == LOOK_UP ? c->len[1] / RECORD : 0, i = 0;
    if (records == 0) return NULL;
    while (i < records && memcmp(c->bytes[1] + i * RECORD, c->bytes[0], QUERY) != 0) i++;
    if (i == records || below(4) == 0) i = below(records);
    return c->bytes[1] + i * RECORD;
}

/* The l of a claim, or the length in a record. */
static void other_l(struct call *c) {
    uint8_t *record = some_record(c);
    uint32_t l = c->op == VERIFY ? c->number : c->op == GENERATE ? c->l : record ? number_at(record + LENGTH_AT, 2) : 0, r = any();
    const uint32_t values[] = {l + 1, l - 1, 0, 127, 128, 129, l + 256, l + 65536, r % 129, r % 129, r};
    l = pick(values, sizeof values / sizeof *values);
    if (c->op == VERIFY) c->number = l;
    if (c->op == GENERATE) c->l = l % 65536;
    if (record) number_to(record + LENGTH_AT, l, 2);
}

/* The a_0 of a claim or in a record, often together with what comes before its refusal. */
static void other_lead(struct call *c) {
    uint8_t *record = some_record(c);
    uint32_t m = modulus(c), r = any(), values[] = {0, 2, m - 1, m, m + 1, 257, m ? r % m : 0, r};
    uint32_t lead = pick(values, sizeof values / sizeof *values);
    if (c->op == VERIFY) set_cell(c->bytes[1], 0, lead);
    if (c->op == GENERATE) set_cell(c->bytes[0], 0, lead);
    if (record) set_cell(record + A_AT, 0, lead);
    if (below(3) == 0) other_l(c);
    if (below(3) == 0) one_cell(c);
}

/* Who asks, or the accession number in a record. */
static void other_number(struct call *c) {
    uint8_t *record = some_record(c);
    uint32_t r = any();
    const uint32_t askers[] = {0, 1, 1, 1, 2, 256, 257, 65537, r}, values[] = {0, 1, 255, 256, 65280, 65535, r};
    if (c->op == LOOK_UP && below(2)) c->number = pick(askers, sizeof askers / sizeof *askers);
    if (record) number_to(record + NUMBER_AT, pick(values, sizeof values / sizeof *values), 2);
}

static void reduce(uint8_t *s, size_t from, size_t to, uint32_t m) {
    for (size_t i = from; i < to; i++) set_cell(s, i, cell(s, i) % m);
}

static void reduce_query(uint8_t *s, uint32_t m) {
    set_cell(s, 0, m);
    reduce(s, 2, QUERY / 2, m);
}

/* Another modulus, with every number brought below it: the call stays a legal one, at any modulus. Records of the same query follow. */
static void other_modulus(struct call *c) {
    uint32_t m = 2 + below(4094);
    size_t records = c->op == LOOK_UP ? c->len[1] / RECORD : 0, first = c->op == GENERATE ? 0 : 1;
    for (size_t i = first; c->op <= GENERATE && i < inputs(c); i++) reduce(c->bytes[i], 0, c->len[i] / 2, m);
    if (c->op == GENERATE) c->number = m;
    if (c->op == GENERATE || c->len[0] != QUERY) return;
    for (size_t i = 0; i < records; i++) {
        uint8_t *r = c->bytes[1] + i * RECORD;
        if (memcmp(r, c->bytes[0], QUERY) != 0) continue;
        reduce_query(r, m);
        reduce(r, A_AT / 2, NUMBER_AT / 2, m);
    }
    reduce_query(c->bytes[0], m);
}

static void wild_modulus(struct call *c) {
    uint32_t m = modulus(c), r = any(), values[] = {0, 1, 2, m - 1, m + 1, 4095, 4096, 65535, m + 65536, r % 4096, r};
    uint32_t v = pick(values, sizeof values / sizeof *values);
    if (c->op == GENERATE)
        c->number = v;
    else if (c->len[0] >= 2)
        set_cell(c->bytes[0], 0, v);
}

/* Half of the time the cells past the new count are cleared, so that it is a legal one. */
static void other_count(struct call *c) {
    if (c->op == GENERATE || c->len[0] < 4) return;
    uint32_t n = cell(c->bytes[0], 1), r = any(), values[] = {n - 1, n + 1, 0, 127, 128, 129, 256, n + 256, r % 129, r % 129, r};
    uint32_t v = pick(values, sizeof values / sizeof *values) % 65536;
    set_cell(c->bytes[0], 1, v);
    if (below(2))
        for (size_t i = 2 + v; i < c->len[0] / 2; i++) set_cell(c->bytes[0], i, 0);
}

/* A tested candidate becomes up to three records with its query. */
static void shelve(struct call *c) {
    uint8_t record[RECORD];
    memcpy(record, c->bytes[0], QUERY);
    number_to(record + LENGTH_AT, c->number, 2);
    memcpy(record + A_AT, c->bytes[1], A);
    memcpy(record + B_AT, c->bytes[2], B);
    number_to(record + NUMBER_AT, any(), 2);
    set_length(c, 1, RECORD * (1 + below(3)));
    for (size_t at = 0; at < c->len[1]; at += RECORD) memcpy(c->bytes[1] + at, record, RECORD);
    set_length(c, 2, RECORD);
    c->op = LOOK_UP, c->number = below(3);
}

static void run_candidate(struct call *c) {
    uint32_t m = modulus(c);
    c->op = GENERATE, c->l = c->number % 65536, c->number = m;
    memmove(c->bytes[0], c->bytes[1], A), c->len[0] = A;
    memmove(c->bytes[1], c->bytes[2], B), c->len[1] = B;
    c->len[2] = 2 * below(130);
}

static void test_record(struct call *c) {
    const uint8_t *r = c->bytes[1] + below(c->len[1] / RECORD) * RECORD;
    c->op = VERIFY, c->number = number_at(r + LENGTH_AT, 2);
    memcpy(c->bytes[2], r + B_AT, B), c->len[2] = B;
    memmove(c->bytes[1], r + A_AT, A), c->len[1] = A;
}

static void synthesize_query(struct call *c) { c->op = SYNTHESIZE, c->number = 0, c->len[1] = RECORD, c->len[2] = 0; }

static void look_up_in_none(struct call *c) { c->op = LOOK_UP, c->number = below(3), c->len[1] = 0, c->len[2] = RECORD; }

static size_t batch_size(const struct call *c) { return c->len[0] / QUERY; }

static size_t batch_records(const struct call *c) { return c->len[1] / RECORD; }

/* So many queries; those that are added are queries that were there, or of records. The other lengths follow. */
static void set_batch(struct call *c, size_t size) {
    size_t n = batch_size(c);
    set_length(c, 0, size * QUERY);
    c->len[2] = size * RECORD, c->l = (uint32_t)size;
    for (size_t i = n; i < size; i++) {
        uint8_t *query = c->bytes[0] + i * QUERY;
        if (n > 0 && below(2))
            memcpy(query, c->bytes[0] + below(n) * QUERY, QUERY);
        else if (batch_records(c) > 0)
            memcpy(query, c->bytes[1] + below(batch_records(c)) * RECORD, QUERY);
    }
}

static void look_up_in_batch(struct call *c) {
    c->op = LOOK_UP_BATCH;
    set_batch(c, 1 + below(16));
}

/* The same bytes in another operation, which brings the candidates into records and the records into tests. */
static void other_operation(struct call *c) {
    uint32_t kind = below(3);
    if (c->op == VERIFY && (c->len[1] != A || c->len[2] != B || c->len[0] != QUERY)) return;
    if (c->op == VERIFY) {
        if (kind == 0) shelve(c);
        if (kind == 1) run_candidate(c);
        if (kind == 2) synthesize_query(c);
    } else if (c->op == SYNTHESIZE) {
        look_up_in_none(c);
    } else if (c->op == LOOK_UP) {
        if (c->len[0] == QUERY && below(4) == 0)
            look_up_in_batch(c);
        else if (kind > 0 && c->len[1] >= RECORD)
            test_record(c);
        else
            synthesize_query(c);
    }
}

/* Puts a text into a line at a place, instead of so many of its bytes. */
static void splice(struct call *c, size_t at, size_t out, const char *text) {
    size_t in = strlen(text), rest = c->len[0] - at - out;
    if (at + in + rest > WIDEST) return;
    memmove(c->bytes[0] + at + in, c->bytes[0] + at + out, rest);
    memcpy(c->bytes[0] + at, text, in);
    c->len[0] = at + in + rest;
}

static const char *piece(void) {
    static const char *const pieces[] = {"0",  "1",  "9",  " ",  ",",  "-",  ":",  ",1",   ", -1", " ,0", "  ",
                                         "-0", "--", ",,", "1 ", "00", "+1", "\t", "\r\n", "mod ", "x",   "000000000000"};
    return pieces[below(sizeof pieces / sizeof *pieces)];
}

/* A piece put in, or put in place of one or two bytes; the ends get more than their share. */
static void one_piece(struct call *c) {
    size_t len = c->len[0], some = below(len + 1);
    const size_t places[] = {0, len, some, some};
    size_t at = places[below(4)], out = below(3);
    splice(c, at, at + out > len ? 0 : out, piece());
}

static int is_digit(uint8_t byte) { return byte >= '0' && byte <= '9'; }

/* Another digit in a number, which stays one. */
static void one_digit(struct call *c) {
    size_t at = below(c->len[0] + 1);
    while (at < c->len[0] && !is_digit(c->bytes[0][at])) at++;
    if (at < c->len[0]) c->bytes[0][at] = (uint8_t)('0' + below(10));
}

/* Numbers at the ends of the ranges and of types, and any others. */
static void one_number(struct call *c) {
    static const char *const ends[] = {"0",          "1",          "2",          "4095",       "4096",        "65538",
                                       "2147483646", "2147483647", "2147483648", "2147483649", "2147483650",  "2147483657",
                                       "4294967295", "4294967296", "4294967305", "9999999999", "21474836470", "18446744073709551625"};
    char text[48];
    size_t from = below(2) ? 4 : below(c->len[0] + 1), out = 0;
    while (from < c->len[0] && !is_digit(c->bytes[0][from])) from++;
    while (from + out < c->len[0] && is_digit(c->bytes[0][from + out])) out++;
    uint32_t r = any(), zeros = below(4) ? 0 : below(16), kind = below(3);
    snprintf(text, sizeof text, "%0*u", (int)zeros, kind == 1 ? r % 4096 : r);
    if (out > 0) splice(c, from, out, kind == 0 ? ends[r % (sizeof ends / sizeof *ends)] : text);
}

/* A minus before a number, or none where there was one. */
static void one_sign(struct call *c) {
    size_t at = below(c->len[0] + 1);
    while (at < c->len[0] && !is_digit(c->bytes[0][at])) at++;
    if (at == c->len[0] || at == 0) return;
    if (c->bytes[0][at - 1] == '-')
        splice(c, at - 1, 1, "");
    else
        splice(c, at, 0, "-");
}

static void shorter(struct call *c) {
    size_t few = 1 + below(3), any_length = below(c->len[0] + 1);
    c->len[0] = below(2) || few > c->len[0] ? any_length : c->len[0] - few;
}

/* A piece many times over: more than 128 terms, long numbers, many blanks. */
static void longer(struct call *c) {
    static const char *const more[] = {",1", ",-2", " ,3 ", ",4095", ",-2147483648", " ", "0", ",-0"};
    const char *text = more[below(sizeof more / sizeof *more)];
    for (size_t times = below(2) ? below(8) : 120 + below(16); times > 0; times--) splice(c, c->len[0], 0, text);
    if (below(3) == 0) splice(c, c->len[0], 0, piece());
}

/* The two queries of a merge, each in place of the other. */
static void change_places(struct call *c) {
    static uint8_t bytes[WIDEST + 1];
    size_t len = c->len[0];
    memcpy(bytes, c->bytes[0], len);
    memcpy(c->bytes[0], c->bytes[1], c->len[1]), c->len[0] = c->len[1];
    memcpy(c->bytes[1], bytes, len), c->len[1] = len;
}

/* The first query as both. */
static void twice(struct call *c) { memcpy(c->bytes[1], c->bytes[0], c->len[0]), c->len[1] = c->len[0]; }

/* A number's remainders in place of two terms, which then agree. */
static void set_pair(struct call *c, size_t place, uint32_t number) {
    for (size_t i = 0; i < 2; i++) {
        uint32_t m = cell(c->bytes[i], 0);
        if (m > 0) set_cell(c->bytes[i], 2 + place, number % m);
    }
}

static int two_queries(const struct call *c) { return c->len[0] == QUERY && c->len[1] == QUERY; }

static void one_pair(struct call *c) {
    uint32_t n = terms_of(c);
    if (n == 0 || !two_queries(c)) return;
    size_t place = below(n);
    set_pair(c, place, any());
}

/* The smaller of the two counts for both, or any; what is past it is cleared. */
static void same_count(struct call *c) {
    if (!two_queries(c)) return;
    uint32_t one = cell(c->bytes[0], 1), two = cell(c->bytes[1], 1), n = below(4) ? one < two ? one : two : below(129);
    for (size_t i = 0; i < 2; i++) {
        set_cell(c->bytes[i], 1, n);
        for (size_t at = 2 + n; at < QUERY / 2; at++) set_cell(c->bytes[i], at, 0);
    }
}

/* The same numbers modulo u g and v g, with a multiple up to twice the limit; often some of the second's terms from a place on are any. */
static void same_numbers(struct call *c) {
    uint32_t u = 1 + below(64), v = 1 + below(64), g = 1 + below(1 + 4095 / (u * v));
    if (!two_queries(c)) return;
    same_count(c);
    set_cell(c->bytes[0], 0, u * g), set_cell(c->bytes[1], 0, v * g);
    uint32_t n = terms_of(c), apart = below(3) ? n : below(n + 1);
    for (size_t at = 0; at < n; at++) {
        set_pair(c, at, any());
        if (at >= apart && below(2)) set_cell(c->bytes[1], 2 + at, below(v * g));
    }
}

/* What is done to the query of other calls, to either of the two. */
static void either(struct call *c) {
    static void (*const ways[])(struct call *) = {one_term,     one_term,    wrong_terms, other_modulus,   other_modulus,
                                                  wild_modulus, other_count, other_count, synthesize_query};
    int second = below(2) == 1;
    if (second) change_places(c);
    ways[below(sizeof ways / sizeof *ways)](c);
    if (second && c->op == MERGE) change_places(c);
}

/* Another digit of a period, 0 or 1. */
static void other_digit(struct call *c) {
    size_t n = c->len[0] / 2;
    if (n == 0) return;
    size_t at = below(n);
    set_cell(c->bytes[0], at, below(2));
}

/* One or more digits that are above 1, with more than their share at the ends: the first of them is told. */
static void wrong_digits(struct call *c) {
    uint32_t n = (uint32_t)(c->len[0] / 2);
    if (n == 0) return;
    do {
        const uint32_t places[] = {0, n - 1, below(n)};
        size_t place = pick(places, 3);
        uint32_t r = any(), values[] = {2, 3, 255, 256, 257, 65280, 65535, 2 + r % 65534};
        set_cell(c->bytes[0], place, pick(values, sizeof values / sizeof *values));
    } while (below(2));
}

/* Another number of cells, two times in three a legal one; where there are more, the digits come again. */
static void other_size(struct call *c) {
    static const uint32_t wrong[] = {0, 3, 5, 6, 7, 12, 31, 33, 48, 63, 65, 96, 127, 128, 129, 256, 1024};
    size_t n = c->len[0] / 2, size = below(3) ? (size_t)1 << below(7) : pick(wrong, sizeof wrong / sizeof *wrong);
    for (size_t i = n; i < size; i++) set_cell(c->bytes[0], i, n == 0 ? 0 : cell(c->bytes[0], i - n));
    c->len[0] = 2 * size;
}

/* From a place on each digit is the one so many places before, or the other one: halves that are equal or differ everywhere. */
static void repeated(struct call *c) {
    size_t n = c->len[0] / 2, part = (size_t)1 << below(6);
    uint32_t other = below(2);
    for (size_t i = part; i < n; i++) {
        uint32_t before = cell(c->bytes[0], i - part);
        set_cell(c->bytes[0], i, before > 1 ? before : before ^ other);
    }
}

/* Digits of any length, each as likely, since that of random digits is nearly always next to their number: a sum of sequences of the lengths
 * 1 .. l, the last of them among them. That of length j + 1 is 1 where the place has all the binary digits of j. */
static void any_length(struct call *c) {
    size_t n = c->len[0] / 2;
    if (n > 128) return;
    size_t l = below(n + 1);
    memset(c->bytes[0], 0, 2 * n);
    for (size_t j = 0; j < l; j++) {
        uint32_t taken = j + 1 == l ? 1 : below(2);
        for (size_t i = j; i < n; i++)
            if ((i & j) == j) set_cell(c->bytes[0], i, cell(c->bytes[0], i) ^ taken);
    }
}

/* Two periods as a query, whose record has the same length. */
static void query_of_period(struct call *c) {
    uint8_t query[QUERY] = {2};
    uint32_t n = (uint32_t)(c->len[0] / 2);
    if (n > 64) return;
    set_cell(query, 1, 2 * n);
    for (size_t i = 0; i < 2 * n; i++) set_cell(query, 2 + i, cell(c->bytes[0], i % n));
    memcpy(c->bytes[0], query, QUERY), c->len[0] = QUERY;
    synthesize_query(c);
}

/* How many sequences there are, 0 where they are too many or there are none. */
static uint32_t sequences(const struct call *c) {
    uint32_t p = 1;
    if (c->number < 2 || c->number > 4095 || c->count > 128) return 0;
    for (uint32_t i = 0; i < c->count && p > 0; i++) p = p * c->number > 4096 ? 0 : p * c->number;
    return p;
}

/* Another modulus, most often a small one, and a count that it may have, with any of the sequences. */
static void legal_census(struct call *c) {
    uint32_t r = any();
    const uint32_t moduli[] = {2 + r % 8, 2 + r % 8, 2 + r % 63, 2 + r % 4094};
    c->number = pick(moduli, 4), c->count = below(13);
    while (sequences(c) == 0) c->count--;
    c->which = below(sequences(c));
}

static void census_modulus(struct call *c) {
    uint32_t m = c->number, r = any(), values[] = {0, 1, 2, m - 1, m + 1, 64, 65, 4095, 4096, m + 65536, 2 + r % 63, r % 4096, r};
    c->number = pick(values, sizeof values / sizeof *values);
}

static void census_count(struct call *c) {
    uint32_t n = c->count, r = any(), values[] = {n - 1, n + 1, 0, 1, 12, 13, 128, 129, n + 256, n + 65536, r % 13, r % 129, r};
    c->count = pick(values, sizeof values / sizeof *values);
}

/* Numbers at the end of the sequences, and such that would be others if they were cut. */
static void other_sequence(struct call *c) {
    uint64_t w = c->which, p = sequences(c), high = any(), low = any(), legal = p ? low % p : low;
    const uint64_t values[] = {0, p - 1, p, p + 1, w + 1, w - 1, w + 65536, w + (high << 32), high << 32 | low, UINT64_MAX, legal, legal};
    c->which = values[below(sizeof values / sizeof *values)];
}

/* A tally becomes a question for a sequence; the other way one time in three, since a tally takes as long as all its sequences. */
static void other_question(struct call *c) {
    int numbered = c->op == ENUMERATE;
    if (numbered && below(3) > 0) return;
    c->op = numbered ? TALLY : ENUMERATE, c->len[0] = numbered ? DIVERTHRONE_TALLY_BYTES : QUERY;
    if (!numbered) other_sequence(c);
}

/* The sequence as a query, whose record is among those that a tally counts. */
static void query_of_sequence(struct call *c) {
    if (c->op != ENUMERATE || c->which >= sequences(c)) return;
    memset(c->bytes[0], 0, QUERY), c->len[0] = QUERY;
    set_cell(c->bytes[0], 0, c->number), set_cell(c->bytes[0], 1, c->count);
    for (uint32_t i = c->count; i > 0; c->which /= c->number, i--) set_cell(c->bytes[0], 1 + i, (uint32_t)(c->which % c->number));
    synthesize_query(c);
}

/* Something is done to one query, and to the records of the same query, as if it were looked up alone. */
static void one_query(struct call *c) {
    static void (*const ways[])(struct call *) = {one_cell,     one_term,    one_term, wrong_terms, other_modulus, other_modulus,
                                                  wild_modulus, other_count, other_l,  other_lead,  other_number,  other_number};
    static struct call alone;
    if (batch_size(c) == 0) return;
    uint8_t *query = c->bytes[0] + below(batch_size(c)) * QUERY;
    alone.op = LOOK_UP, alone.number = c->number, alone.len[0] = QUERY, alone.len[1] = c->len[1];
    memcpy(alone.bytes[0], query, QUERY), memcpy(alone.bytes[1], c->bytes[1], c->len[1]);
    ways[below(sizeof ways / sizeof *ways)](&alone);
    c->number = alone.number;
    memcpy(query, alone.bytes[0], QUERY), memcpy(c->bytes[1], alone.bytes[1], c->len[1]);
}

/* One query in place of another. */
static void repeat_query(struct call *c) {
    size_t n = batch_size(c);
    if (n == 0) return;
    size_t from = below(n), to = below(n);
    memmove(c->bytes[0] + to * QUERY, c->bytes[0] + from * QUERY, QUERY);
}

/* The query of a record in place of another, or the other way round. */
static void query_of_record(struct call *c) {
    if (batch_size(c) == 0 || batch_records(c) == 0) return;
    uint8_t *query = c->bytes[0] + below(batch_size(c)) * QUERY, *record = c->bytes[1] + below(batch_records(c)) * RECORD;
    if (below(4))
        memcpy(query, record, QUERY);
    else
        memcpy(record, query, QUERY);
}

/* One record in place of another, with a number of its own, and often with one other bit among the first 260 bytes or behind them. */
static void repeat_record(struct call *c) {
    size_t n = batch_records(c);
    if (n == 0) return;
    size_t from = below(n), to = below(n), kind = below(3), at = kind == 1 ? below(QUERY) : QUERY + below(RECORD - QUERY);
    uint32_t bit = below(8);
    uint8_t *record = c->bytes[1] + to * RECORD;
    memmove(record, c->bytes[1] + from * RECORD, RECORD);
    number_to(record + NUMBER_AT, any(), 2);
    if (kind > 0) record[at] ^= (uint8_t)(1u << bit);
}

static void other_batch(struct call *c) {
    size_t n = batch_size(c), sizes[] = {0, 1, n < 40 ? n + 1 : 40, n > 0 && n < 40 ? n - 1 : 2, 15, 16, 16, 17, 18, 32, below(17)};
    set_batch(c, sizes[below(sizeof sizes / sizeof *sizes)]);
}

/* Another number of records, each a copy of one that was there, or none. */
static void other_catalogue(struct call *c) {
    size_t n = batch_records(c), size = below(4) ? below(24) : 0;
    set_length(c, 1, size * RECORD);
    for (size_t i = n; n > 0 && i < size; i++) memcpy(c->bytes[1] + i * RECORD, c->bytes[1] + below(n) * RECORD, RECORD);
}

/* Another number of replies, or another length of one of the other buffers. */
static void batch_length(struct call *c) {
    uint32_t n = c->l, r = any(), values[] = {0, n + 1, n > 0 ? n - 1 : 1, 8 * n, 16, 17, r % 64, r % 4096};
    if (below(3) > 0)
        one_length(c);
    else
        c->l = pick(values, sizeof values / sizeof *values) % 65536;
}

/* One of its queries by itself. */
static void query_alone(struct call *c) {
    if (batch_size(c) == 0) return;
    memmove(c->bytes[0], c->bytes[0] + below(batch_size(c)) * QUERY, QUERY);
    c->op = LOOK_UP, c->l = 0, c->len[0] = QUERY, c->len[2] = RECORD;
}

/* One alteration in three is followed by another one, for the order of the refusals. */
static void alter(struct call *c) {
    static void (*const ways[])(struct call *) = {one_byte,        one_cell,        one_cell,      one_term,      one_term,     wrong_terms,
                                                  one_length,      other_fill,      other_modulus, other_modulus, wild_modulus, other_count,
                                                  other_operation, other_operation, other_l,       other_lead,    other_number};
    static void (*const line_ways[])(struct call *) = {one_byte,   one_piece, one_piece, one_digit, one_digit,  one_number,
                                                       one_number, one_sign,  shorter,   longer,    one_length, other_fill};
    static void (*const merge_ways[])(struct call *) = {one_byte,     one_cell,     one_length,   other_fill,   either, either,
                                                        either,       either,       one_pair,     one_pair,     twice,  same_count,
                                                        same_numbers, same_numbers, same_numbers, change_places};
    static void (*const period_ways[])(struct call *) = {one_byte,   other_digit, other_digit, wrong_digits,   wrong_digits, other_size,
                                                         other_size, repeated,    repeated,    any_length,     any_length,   any_length,
                                                         any_length, one_length,  one_length,  query_of_period};
    static void (*const census_ways[])(struct call *) = {legal_census, legal_census, legal_census,   census_modulus,   census_modulus,
                                                         census_count, census_count, other_sequence, other_sequence,   other_sequence,
                                                         one_length,   other_fill,   other_question, query_of_sequence};
    static void (*const batch_ways[])(struct call *) = {one_byte,      one_cell,     one_query,     one_query,       one_query,
                                                        one_query,     repeat_query, repeat_query,  query_of_record, query_of_record,
                                                        repeat_record, other_batch,  repeat_record, other_batch,     other_catalogue,
                                                        batch_length,  batch_length, other_fill,    query_alone};
    do {
        if (c->op == READ_LINE)
            line_ways[below(sizeof line_ways / sizeof *line_ways)](c);
        else if (c->op == MERGE)
            merge_ways[below(sizeof merge_ways / sizeof *merge_ways)](c);
        else if (c->op == PERIOD_LENGTH)
            period_ways[below(sizeof period_ways / sizeof *period_ways)](c);
        else if (c->op == LOOK_UP_BATCH)
            batch_ways[below(sizeof batch_ways / sizeof *batch_ways)](c);
        else if (c->op >= ENUMERATE)
            census_ways[below(sizeof census_ways / sizeof *census_ways)](c);
        else
            ways[below(sizeof ways / sizeof *ways)](c);
    } while (below(3) == 0);
}

static void copy(struct call *to, const struct call *from) {
    to->op = from->op, to->fill = from->fill, to->number = from->number, to->l = from->l, to->count = from->count, to->which = from->which;
    for (size_t i = 0; i < 3; i++) to->len[i] = from->len[i];
    for (size_t i = 0; i < inputs(from); i++) memcpy(to->bytes[i], from->bytes[i], from->len[i]);
}

static int expand(struct call *c, const char *seed, const char *copies) {
    static struct call altered;
    state = strtoull(seed, NULL, 10);
    while (read_call(c)) {
        write_call(c);
        for (unsigned long i = strtoul(copies, NULL, 10); tested(c) && i > 0; i--) {
            copy(&altered, c);
            alter(&altered);
            write_call(&altered);
        }
    }
    return 0;
}

int main(int argc, char **argv) {
    static struct call c;
    at_back = argc == 2 && strcmp(argv[1], "--back") == 0;
    if (at_back || (argc == 2 && strcmp(argv[1], "--front") == 0)) return replay(&c);
    if (argc == 4 && strcmp(argv[1], "--expand") == 0) return expand(&c, argv[2], argv[3]);
    fprintf(stderr, "usage: robustness --back | --front | --expand SEED COPIES\n");
    return 2;
}
