/* The C interface from C: every refusal with its place and order, every verdict, found and made, what editors and visitors see, every byte
 * at every place of a typed line, merged queries, periods, the census, batches, buffers of every wrong length, NULL for every slice, and that
 * a refusal changes no byte. Expected values are the scope's cases or follow from its words; guard bytes stand around every buffer. It is built
 * as C++ too.
 * Usage: host_test [whole]; without whole the census and batches make some of the calls that take longest under valgrind. */
#include "diverthrone.h"

#include <stdio.h>
#include <stdlib.h>
#include <string.h>

enum { GUARD = 16, ROOM = 4096 };
enum { QUERY = DIVERTHRONE_QUERY_BYTES, RECORD = DIVERTHRONE_RECORD_BYTES };

static int checks, failures;
static const char *called = "no call";

static void check(int ok, const char *what) {
    checks++;
    if (!ok) {
        failures++;
        printf("FAILED: %s (%s)\n", what, called);
    }
}

/* A buffer between guard bytes; `start` is where it begins, `given` what a call is handed for it. */
struct lent {
    uint8_t bytes[GUARD + ROOM + GUARD];
    uint8_t before[GUARD + ROOM + GUARD];
    size_t len;
    int null;
};

static uint8_t *start(struct lent *b) { return b->bytes + GUARD; }

static uint8_t *given(struct lent *b) { return b->null ? NULL : start(b); }

static void lend(struct lent *b, size_t len, uint8_t fill) {
    memset(b->bytes, 0xA5, sizeof b->bytes);
    memset(start(b), fill, len);
    b->len = len;
    b->null = 0;
}

static void lend_null(struct lent *b) {
    lend(b, 0, 0);
    b->null = 1;
}

static void keep(struct lent *b) { memcpy(b->before, b->bytes, sizeof b->bytes); }

static int unchanged(const struct lent *b) { return memcmp(b->before, b->bytes, sizeof b->bytes) == 0; }

static int guarded(const struct lent *b) {
    for (size_t i = 0; i < sizeof b->bytes; i++)
        if ((i < GUARD || i >= GUARD + b->len) && b->bytes[i] != 0xA5) return 0;
    return 1;
}

static void put(uint8_t *s, size_t cell, unsigned v) {
    s[2 * cell] = (uint8_t)(v % 256);
    s[2 * cell + 1] = (uint8_t)(v / 256);
}

static unsigned length_in(struct lent *r) { return diverthrone_cell(start(r) + DIVERTHRONE_LENGTH_PLACE, 0); }

static unsigned number_in(struct lent *r) { return diverthrone_cell(start(r) + DIVERTHRONE_NUMBER_PLACE, 0); }

static unsigned a_in(struct lent *r, size_t i) { return diverthrone_cell(start(r) + DIVERTHRONE_A_PLACE, i); }

static unsigned b_in(struct lent *r, size_t i) { return diverthrone_cell(start(r) + DIVERTHRONE_B_PLACE, i); }

static void put_all(struct lent *b, size_t cells, const unsigned *v, size_t n) {
    lend(b, 2 * cells, 0);
    for (size_t i = 0; i < n; i++) put(start(b), i, v[i]);
}

static void make_query(struct lent *q, unsigned m, const unsigned *terms, unsigned n) {
    lend(q, QUERY, 0);
    put(start(q), 0, m);
    put(start(q), 1, n);
    for (unsigned i = 0; i < n && i < 128; i++) put(start(q), 2 + i, terms[i]);
}

static uint64_t synthesize(struct lent *q, struct lent *r) {
    called = "synthesize";
    keep(q), keep(r);
    uint64_t reply = diverthrone_synthesize(given(q), q->len, given(r), r->len);
    check(unchanged(q), "synthesize leaves the query");
    check(guarded(r), "synthesize keeps to the record");
    return reply;
}

static uint64_t look_up_for(uint64_t who, struct lent *q, struct lent *c, struct lent *r) {
    called = "look_up";
    keep(q), keep(c), keep(r);
    uint64_t reply = diverthrone_look_up(given(q), q->len, given(c), c->len, who, given(r), r->len);
    check(unchanged(q) && unchanged(c), "look_up leaves the query and the catalogue");
    check(guarded(r), "look_up keeps to the record");
    check(diverthrone_refusal(reply) == 0 || unchanged(r), "look_up leaves the record where it refuses");
    return reply;
}

/* For an editor and then for a visitor: who asks does not change the reply. */
static uint64_t look_up(struct lent *q, struct lent *c, struct lent *r) {
    uint64_t editor = look_up_for(DIVERTHRONE_EDITOR, q, c, r), visitor = look_up_for(0, q, c, r);
    check(editor == visitor, "look_up replies the same to an editor and to a visitor");
    return visitor;
}

static uint64_t verify(struct lent *q, struct lent *a, struct lent *b, uint32_t l) {
    called = "verify";
    keep(q), keep(a), keep(b);
    uint64_t reply = diverthrone_verify(given(q), q->len, given(a), a->len, given(b), b->len, l);
    check(unchanged(q) && unchanged(a) && unchanged(b), "verify leaves what it is lent");
    return reply;
}

static uint64_t generate(uint32_t m, struct lent *a, struct lent *b, uint32_t l, struct lent *c) {
    called = "generate";
    keep(a), keep(b), keep(c);
    uint64_t reply = diverthrone_generate(m, given(a), a->len, given(b), b->len, l, given(c), c->len);
    check(unchanged(a) && unchanged(b), "generate leaves the candidate");
    check(guarded(c), "generate keeps to the cells");
    return reply;
}

static uint64_t read_line(struct lent *line, struct lent *query) {
    called = "read_line";
    keep(line), keep(query);
    uint64_t reply = diverthrone_read_line(given(line), line->len, given(query), query->len);
    check(unchanged(line), "read_line leaves the line");
    check(guarded(query), "read_line keeps to the query");
    return reply;
}

static uint64_t merge(struct lent *one, struct lent *two, struct lent *query) {
    called = "merge";
    keep(one), keep(two), keep(query);
    uint64_t reply = diverthrone_merge(given(one), one->len, given(two), two->len, given(query), query->len);
    check(unchanged(one) && unchanged(two), "merge leaves the two queries");
    check(guarded(query), "merge keeps to the query");
    return reply;
}

static uint64_t period_length(struct lent *digits) {
    called = "period_length";
    keep(digits);
    uint64_t reply = diverthrone_period_length(given(digits), digits->len);
    check(unchanged(digits), "period_length leaves the cells and what is around them");
    return reply;
}

static uint64_t enumerate(uint32_t m, uint32_t n, uint64_t number, struct lent *query) {
    called = "enumerate";
    keep(query);
    uint64_t reply = diverthrone_enumerate(m, n, number, given(query), query->len);
    check(guarded(query), "enumerate keeps to the query");
    return reply;
}

static uint64_t tally(uint32_t m, uint32_t n, struct lent *counts) {
    called = "tally";
    keep(counts);
    uint64_t reply = diverthrone_tally(m, n, given(counts), counts->len);
    check(guarded(counts), "tally keeps to the cells");
    return reply;
}

/* Case 3. */
static const unsigned nine[] = {6, 3, 1, 5, 6}, nine_a[] = {1, 4, 7, 1}, nine_b[] = {6, 0, 1};
static struct lent q, r, c, a, b, cells, other, merged;

/* The whole reply is compared: beside every refusal but 3, 27, 28 and 31 the value is 0. */
static void refused(uint64_t reply, uint64_t number, const struct lent *out, const char *what) {
    check(reply == number, what);
    check(out == NULL || unchanged(out), what);
}

/* Refusals 3, 27, 28 and 31: the value is the place itself. */
static void refused_at(uint64_t reply, unsigned number, size_t place, const struct lent *out, const char *what) {
    check(diverthrone_refusal(reply) == number && diverthrone_value(reply) == place, what);
    check(out == NULL || unchanged(out), what);
}

static void records(void) {
    const unsigned fib[] = {1, 1, 2, 3, 5, 1};
    make_query(&q, 9, nine, 5);
    lend(&r, RECORD, 0x5A);
    check(synthesize(&q, &r) == 0, "case 3 is made");
    check(memcmp(start(&r), start(&q), QUERY) == 0, "the record starts with the query");
    check(length_in(&r) == 3, "case 3 has length 3");
    check(number_in(&r) == 0, "case 3 has no accession number");
    for (size_t i = 0; i < 129; i++) check(a_in(&r, i) == (i < 4 ? nine_a[i] : 0), "case 3: a");
    for (size_t i = 0; i < 128; i++) check(b_in(&r, i) == (i < 3 ? nine_b[i] : 0), "case 3: b");
    make_query(&q, 2, NULL, 0);
    check(synthesize(&q, &r) == 0 && length_in(&r) == 0 && a_in(&r, 0) == 1, "case 1");
    make_query(&q, 7, fib, 6);
    check(synthesize(&q, &r) == 0 && length_in(&r) == 2 && a_in(&r, 1) == 6, "case 9");
}

static void query_refusals(void) {
    lend(&r, RECORD, 0x5A);
    static const unsigned bad[] = {0, 1, 4096, 65535};
    for (size_t i = 0; i < 4; i++) {
        make_query(&q, bad[i], nine, 5);
        refused(synthesize(&q, &r), 1, &r, "modulus outside the limits");
    }
    make_query(&q, 9, nine, 5);
    start(&q)[259] = 1;
    refused(synthesize(&q, &r), 4, &r, "a byte past the count");
    make_query(&q, 9, nine, 5);
    static const size_t lens[] = {0, 1, 259, 261, 520};
    for (size_t i = 0; i < 5; i++) {
        q.len = lens[i];
        refused(synthesize(&q, &r), 5, &r, "a query of another length");
    }
    q.len = QUERY;
    static const size_t outs[] = {0, 776, 777, 779};
    for (size_t i = 0; i < sizeof outs / sizeof *outs; i++) {
        lend(&r, outs[i], 0x5A);
        refused(synthesize(&q, &r), 5, &r, "a record of another length");
    }
}

/* What goes with a query: case 3's register as a candidate, no catalogue, a record to write; case 3 to merge it with, a query to write. */
static void lend_the_rest(void) {
    put_all(&a, 129, nine_a, 4), put_all(&b, 128, nine_b, 3);
    lend(&c, 0, 0), lend(&r, RECORD, 0x5A);
    make_query(&other, 9, nine, 5), lend(&merged, QUERY, 0x5A);
}

/* A merge with it as the first, as the second and as both. */
static void merges_refuse(uint64_t reply, const char *what) {
    refused(merge(&q, &other, &merged), reply, &merged, what);
    refused(merge(&other, &q, &merged), reply, &merged, what);
    refused(merge(&q, &q, &merged), reply, &merged, what);
}

/* What each call that takes a query refuses it with. */
static void all_refuse(unsigned number, const char *what) {
    refused(synthesize(&q, &r), number, &r, what);
    refused(look_up(&q, &c, &r), number, &r, what);
    refused(verify(&q, &a, &b, 3), number, NULL, what);
    merges_refuse(number, what);
}

static void all_refuse_at(unsigned place, const char *what) {
    refused_at(synthesize(&q, &r), 3, place, &r, what);
    refused_at(look_up(&q, &c, &r), 3, place, &r, what);
    refused_at(verify(&q, &a, &b, 3), 3, place, NULL, what);
    merges_refuse(3 + 256 * (uint64_t)place, what);
}

static void wrong_terms(void) {
    static const struct {
        unsigned m, n, terms[5], place;
        const char *what;
    } wrong[] = {{9, 5, {9, 3, 1, 5, 6}, 0, "the first term is m"},
                 {9, 5, {6, 3, 9, 5, 6}, 2, "a middle term is m"},
                 {9, 5, {6, 3, 1, 5, 9}, 4, "the last term is m"},
                 {9, 5, {8, 8, 8, 10, 8}, 3, "m - 1 four times and m + 1"},
                 {9, 5, {6, 3, 1, 65535, 6}, 3, "a term of 65,535"},
                 {9, 5, {6, 3, 256, 5, 6}, 2, "a term that is zero but for its high byte"},
                 {9, 5, {6, 12, 1, 9, 65535}, 1, "three wrong terms: the first counts, not the smallest"},
                 {9, 5, {6, 3, 9, 9, 9}, 2, "the last three are m"},
                 {6, 5, {6, 3, 1, 5, 6}, 0, "the first and the last term are m"},
                 {2, 5, {1, 0, 1, 2, 1}, 3, "m = 2"},
                 {9, 1, {9}, 0, "the only term is m"},
                 {4095, 1, {4095}, 0, "case 13 for queries: 4,095 alone"},
                 {4095, 2, {4094, 4095}, 1, "case 13 for queries: 4,095 behind 4,094"}};
    unsigned many[128];
    lend_the_rest();
    for (size_t i = 0; i < sizeof wrong / sizeof *wrong; i++) {
        make_query(&q, wrong[i].m, wrong[i].terms, wrong[i].n);
        all_refuse_at(wrong[i].place, wrong[i].what);
    }
    for (size_t i = 0; i < 128; i++) many[i] = 4094;
    many[127] = 4095;
    make_query(&q, 4095, many, 128);
    all_refuse_at(127, "the last of 128 terms is m");
    put(start(&q), 2 + 64, 4095);
    all_refuse_at(64, "the terms at 64 and 127 are m");
    put(start(&q), 1, 127), put(start(&q), 2 + 64, 4094);
    all_refuse(4, "the cell behind 127 terms is m");
}

/* A query to which several of 5, 1, 2, 3, 4 apply. */
static void order_in_queries(void) {
    lend_the_rest();
    make_query(&q, 9, nine, 5);
    put(start(&q), 2 + 5, 9);
    all_refuse(4, "4, however large: m right past the count");
    put(start(&q), 2 + 5, 0), put(start(&q), 2 + 127, 65535);
    all_refuse(4, "4, however large: 65,535 in the last cell");
    put(start(&q), 2 + 4, 9);
    all_refuse_at(4, "3 comes before 4");
    put(start(&q), 1, 0);
    all_refuse(4, "no terms, so 4 for the first cell too");
    put(start(&q), 1, 129);
    all_refuse(2, "2 comes before 3");
    put(start(&q), 0, 1);
    all_refuse(1, "1 comes before 2");
    q.len = 259;
    all_refuse(5, "5 comes before 1");
}

/* The query's own refusal, where the record found, the catalogue's length, or the candidate is wrong too. */
static void still(uint64_t reply, const char *what) {
    lend_the_rest();
    lend(&c, RECORD, 0);
    memcpy(start(&c), start(&q), QUERY);
    refused(look_up(&q, &c, &r), reply, &r, what);
    c.len = RECORD - 1;
    refused(look_up(&q, &c, &r), reply, &r, what);
    refused(verify(&q, &a, &b, 129), reply, NULL, what);
    refused(verify(&q, &a, &b, 2), reply, NULL, what);
    put(start(&a), 0, 2);
    refused(verify(&q, &a, &b, 3), reply, NULL, what);
}

static void order_behind_queries(void) {
    make_query(&q, 9, nine, 5);
    put(start(&q), 2 + 5, 9);
    still(4, "4 comes before 24, 23, 25, 6, 26");
    put(start(&q), 2 + 2, 9);
    still(3 + 256 * 2, "3 comes before 24, 23, 25, 6, 26");
}

/* Case 15 for queries: 128 terms are accepted, and a count of 129 is refused by each call that takes a query. */
static void case_15(void) {
    const unsigned same_a[] = {1, 4094}, same_b[] = {4094};
    unsigned many[128];
    for (size_t i = 0; i < 128; i++) many[i] = 4094;
    make_query(&q, 4095, many, 128);
    lend(&c, 0, 0), lend(&r, RECORD, 0x5A);
    put_all(&a, 129, same_a, 2), put_all(&b, 128, same_b, 1);
    check(synthesize(&q, &r) == 0 && length_in(&r) == 1, "case 15: synthesize accepts 128 terms");
    check(look_up(&q, &c, &r) == 0, "case 15: look_up accepts 128 terms");
    check(verify(&q, &a, &b, 1) == 0, "case 15: verify accepts 128 terms");
    lend(&merged, QUERY, 0x5A);
    check(merge(&q, &q, &merged) == 0, "case 15: merge accepts 128 terms");
    lend(&r, RECORD, 0x5A), lend(&merged, QUERY, 0x5A);
    make_query(&other, 4095, many, 128);
    put(start(&q), 1, 129);
    refused(synthesize(&q, &r), 2, &r, "case 15: synthesize refuses count 129 with 2");
    refused(look_up(&q, &c, &r), 2, &r, "case 15: look_up refuses count 129 with 2");
    refused(verify(&q, &a, &b, 1), 2, NULL, "case 15: verify refuses count 129 with 2");
    merges_refuse(2, "case 15: merge refuses count 129 with 2");
    put(start(&q), 1, 65535);
    refused(synthesize(&q, &r), 2, &r, "65,535 terms");
}

/* A catalogue of three: 9 with other terms, case 3 modulo 27, case 3. */
static void make_catalogue(void) {
    static const unsigned other[] = {6, 3, 1, 5, 7};
    struct lent one;
    lend(&c, 3 * RECORD, 0);
    for (size_t i = 0; i < 3; i++) {
        make_query(&q, i == 1 ? 27 : 9, i == 0 ? other : nine, 5);
        lend(&one, RECORD, 0);
        check(synthesize(&q, &one) == 0, "a record for the catalogue");
        memcpy(start(&c) + i * RECORD, start(&one), RECORD);
    }
}

static void catalogues(void) {
    make_catalogue();
    make_query(&q, 9, nine, 5);
    lend(&r, RECORD, 0x5A);
    uint64_t reply = look_up(&q, &c, &r);
    check(diverthrone_refusal(reply) == 0 && diverthrone_value(reply) == 3, "found at place 2, not the entry modulo 27");
    check(memcmp(start(&r), start(&c) + 2 * RECORD, RECORD) == 0, "the record found goes out");
    make_query(&q, 11, nine, 5);
    check(look_up(&q, &c, &r) == 0 && diverthrone_cell(start(&r), 0) == 11, "not found, made");
    c.len = 0;
    make_query(&q, 9, nine, 5);
    check(look_up(&q, &c, &r) == 0, "an empty catalogue");
    c.len = 3 * RECORD;
    lend(&r, RECORD, 0x5A);
    c.len = RECORD - 1;
    refused(look_up(&q, &c, &r), 23, &r, "a catalogue of 777 bytes");
    make_query(&q, 1, nine, 0);
    refused(look_up(&q, &c, &r), 1, &r, "1 comes before 23");
    q.len = 259;
    refused(look_up(&q, &c, &r), 5, &r, "5 comes before 1");
    make_catalogue();
    make_query(&q, 9, nine, 5);
    put(start(&c) + 2 * RECORD + DIVERTHRONE_A_PLACE, 3, 2);
    refused(look_up(&q, &c, &r), 24, &r, "a record that fails its test");
    c.len = 3 * RECORD + 1;
    refused(look_up(&q, &c, &r), 23, &r, "23 comes before 24");
    lend(&r, RECORD - 1, 0x5A);
    refused(look_up(&q, &c, &r), 5, &r, "a record of another length");
}

/* ---- accession numbers ---- */

/* Cut to 8, 16, 32 or 63 bits, some of these would be 1. */
static const uint64_t askers[] = {0,
                                  1,
                                  2,
                                  3,
                                  255,
                                  256,
                                  257,
                                  65537,
                                  UINT64_C(4294967295),
                                  UINT64_C(4294967297),
                                  UINT64_C(281474976710657),
                                  UINT64_C(9223372036854775809),
                                  UINT64_C(18446744073709551615)};
enum { ASKERS = sizeof askers / sizeof *askers };

/* Only the low byte, only the high byte, both, and none. */
static const unsigned numbers[] = {1, 255, 256, 65280, 258, 65535, 0};
enum { NUMBERS = sizeof numbers / sizeof *numbers };

/* Record i of the catalogue gets this number. */
static void number(size_t i, unsigned v) { put(start(&c) + i * RECORD + DIVERTHRONE_NUMBER_PLACE, 0, v); }

/* The record found has case 3's body, and the number as this one sees it. */
static void found_by(uint64_t who, unsigned v) {
    lend(&r, RECORD, 0x5A);
    uint64_t reply = look_up_for(who, &q, &c, &r);
    check(diverthrone_refusal(reply) == 0 && diverthrone_value(reply) == 3, "found at place 2, whatever the numbers");
    check(memcmp(start(&r), start(&c) + 2 * RECORD, RECORD - 2) == 0, "the body of the record found goes out");
    check(number_in(&r) == (who == 1 ? v : 0), "1 sees the number, any other 0");
}

static void found_by_all(void) {
    make_catalogue();
    make_query(&q, 9, nine, 5);
    for (size_t i = 0; i < NUMBERS; i++) {
        number(0, 7), number(1, 65535), number(2, numbers[i]);
        for (size_t j = 0; j < ASKERS; j++) found_by(askers[j], numbers[i]);
    }
}

/* Two records of the same query: the first goes out, with its own number. */
static void first_of_two(void) {
    make_catalogue();
    make_query(&q, 9, nine, 5);
    memcpy(start(&c), start(&c) + 2 * RECORD, RECORD);
    number(0, 513), number(2, 0);
    check(look_up_for(1, &q, &c, &r) == 256 && number_in(&r) == 513, "an editor sees the number of the first match");
    check(look_up_for(2, &q, &c, &r) == 256 && number_in(&r) == 0, "a visitor the same place");
}

/* A record that has other bytes than 0 right before its number: 128 terms, a = 1 and b the terms. */
static void up_to_the_number(void) {
    unsigned many[128];
    for (size_t i = 0; i < 128; i++) many[i] = 0x0E0D;
    make_query(&q, 4095, many, 128);
    lend(&c, RECORD, 0);
    memcpy(start(&c), start(&q), QUERY);
    put(start(&c) + DIVERTHRONE_LENGTH_PLACE, 0, 128), put(start(&c) + DIVERTHRONE_A_PLACE, 0, 1), number(0, 0x1234);
    for (size_t i = 0; i < 128; i++) put(start(&c) + DIVERTHRONE_B_PLACE, i, many[i]);
    for (size_t j = 0; j < ASKERS; j++) {
        lend(&r, RECORD, 0x5A);
        check(look_up_for(askers[j], &q, &c, &r) == 256, "a = 1 with b = S is found");
        check(memcmp(start(&r), start(&c), RECORD - 2) == 0, "all of b goes out to everyone");
        check(number_in(&r) == (askers[j] == 1 ? 0x1234u : 0u), "and the number behind it to 1 alone");
    }
}

/* A record made has 0 for everyone, whatever was lent. */
static void made_for_all(void) {
    make_catalogue();
    make_query(&q, 11, nine, 5);
    for (size_t i = 0; i < 3; i++) number(i, 65535);
    for (size_t j = 0; j < ASKERS; j++) {
        lend(&r, RECORD, 0x5A);
        check(look_up_for(askers[j], &q, &c, &r) == 0 && number_in(&r) == 0, "a record made has no number");
    }
    lend(&r, RECORD, 0x5A);
    check(synthesize(&q, &r) == 0 && number_in(&r) == 0, "nor has one that synthesize makes");
}

/* The test behind 24 does not look at the number, and 24 leaves it as lent. */
static void tested_without(void) {
    make_catalogue();
    make_query(&q, 9, nine, 5);
    put(start(&c) + 2 * RECORD + DIVERTHRONE_A_PLACE, 3, 2);
    for (size_t i = 0; i < NUMBERS; i++) {
        number(2, numbers[i]);
        lend(&r, RECORD, 0x5A);
        for (size_t j = 0; j < ASKERS; j++) refused(look_up_for(askers[j], &q, &c, &r), 24, &r, "24, whatever the number");
    }
}

/* Records of 776 bytes are none: neither one that is lent for writing nor those of a catalogue. */
static void old_sizes(void) {
    static const size_t records[] = {0, 776, 777, 779, 1556}, catalogues[] = {1, 776, 777, 779, 1552, 1555, 1557, 2328};
    make_catalogue();
    make_query(&q, 9, nine, 5);
    for (size_t i = 0; i < sizeof records / sizeof *records; i++) {
        lend(&r, records[i], 0x5A);
        refused(look_up(&q, &c, &r), 5, &r, "a record of another length than 778");
        refused(synthesize(&q, &r), 5, &r, "a record of another length than 778");
    }
    lend(&r, RECORD, 0x5A);
    for (size_t i = 0; i < sizeof catalogues / sizeof *catalogues; i++) {
        c.len = catalogues[i];
        refused(look_up(&q, &c, &r), 23, &r, "a catalogue whose length is not a multiple of 778");
    }
}

/* 776 * 389 bytes are 388 records of the new size, and taken as such. */
static void many_records(void) {
    static uint8_t large[776 * 389];
    uint8_t query[QUERY], record[RECORD];
    make_query(&q, 9, nine, 5);
    memcpy(query, start(&q), QUERY);
    check(diverthrone_synthesize(query, QUERY, record, RECORD) == 0, "the record of case 3");
    record[DIVERTHRONE_NUMBER_PLACE] = 9;
    memcpy(large + 387 * RECORD, record, RECORD);
    uint64_t reply = diverthrone_look_up(query, QUERY, large, sizeof large, 1, record, RECORD);
    check(reply == 256 * 388 && record[DIVERTHRONE_NUMBER_PLACE] == 9, "the last of 388 records, for an editor");
    reply = diverthrone_look_up(query, QUERY, large, sizeof large, 0, record, RECORD);
    check(reply == 256 * 388 && record[DIVERTHRONE_NUMBER_PLACE] == 0, "the last of 388 records, for a visitor");
}

static void verdicts(void) {
    const unsigned wrong[] = {1, 4, 7, 2};
    make_query(&q, 9, nine, 5);
    put_all(&b, 128, nine_b, 3);
    put_all(&a, 129, nine_a, 4);
    check(verify(&q, &a, &b, 3) == 0, "case 3's register passes");
    check(verify(&q, &a, &b, 128) == 0, "a longer length than the degrees is well formed");
    put_all(&a, 129, wrong, 4);
    uint64_t reply = verify(&q, &a, &b, 3);
    check(diverthrone_refusal(reply) == 0 && diverthrone_value(reply) == 4, "case 11: no, at place 3");
    a.len = 256;
    refused(verify(&q, &a, &b, 3), 5, NULL, "a of another length");
    a.len = 258;
    b.len = 0;
    refused(verify(&q, &a, &b, 3), 5, NULL, "b of another length");
    b.len = 256;
    make_query(&q, 9, NULL, 0);
    check(verify(&q, &a, &b, 3) == 0, "no terms: yes");
}

static void one_past(struct lent *where, size_t cell, const char *what) {
    put(start(where), cell, 1);
    lend(&cells, 10, 0x5A);
    refused(verify(&q, &a, &b, 3), 6, NULL, what);
    refused(generate(9, &a, &b, 3, &cells), 6, &cells, what);
    put(start(where), cell, 0);
}

/* One coefficient past the length, in a candidate that is well formed but for it. */
static void past_the_length(void) {
    make_query(&q, 9, nine, 5);
    put_all(&a, 129, nine_a, 4), put_all(&b, 128, nine_b, 3);
    one_past(&a, 4, "only a is nonzero past l, next to it");
    one_past(&a, 128, "only a is nonzero past l, in the last cell");
    one_past(&b, 3, "only b is nonzero past l - 1, next to it");
    one_past(&b, 127, "only b is nonzero past l - 1, in the last cell");
    check(verify(&q, &a, &b, 3) == 0, "nothing past the length");
    put_all(&a, 129, nine_a, 1), put_all(&b, 128, nine_b, 1);
    refused(verify(&q, &a, &b, 0), 6, NULL, "only b_0 is nonzero, with length 0");
}

/* The last coefficients with the longest length, which has nothing past it. */
static void longest(void) {
    make_query(&q, 9, nine, 5);
    put_all(&a, 129, nine_a, 4), put_all(&b, 128, nine_b, 3);
    put(start(&a), 128, 8), put(start(&b), 127, 8);
    lend(&cells, 10, 0x5A);
    check(verify(&q, &a, &b, 128) == 0 && generate(9, &a, &b, 128, &cells) == 0, "a_128 and b_127 are m - 1, with length 128");
    put(start(&a), 128, 9);
    refused(verify(&q, &a, &b, 128), 6, NULL, "a_128 is m, with length 128");
    refused(generate(9, &a, &b, 128, &cells), 6, &cells, "a_128 is m, with length 128");
    put(start(&a), 128, 8), put(start(&b), 127, 9);
    refused(verify(&q, &a, &b, 128), 6, NULL, "b_127 is m, with length 128");
    refused(generate(9, &a, &b, 128, &cells), 6, &cells, "b_127 is m, with length 128");
}

/* Candidates for case 3 that are malformed, with the refusal of each. */
static const struct {
    unsigned a[5], b[4], l, refusal;
    const char *what;
} flaws[] = {
    {{1, 4, 7, 1}, {6, 0, 1}, 129, 25, "the length is 129"},
    {{1, 4, 7, 1}, {6, 0, 1}, 256 + 3, 25, "the length is 259"},
    {{1, 4, 7, 1}, {6, 0, 1}, 65535, 25, "the length is 65,535"},
    {{1, 4, 9, 1}, {6, 0, 1}, 3, 6, "a_2 is m"},
    {{1, 4, 7, 10}, {6, 0, 1}, 3, 6, "a_3 is m + 1"},
    {{1, 65535, 7, 1}, {6, 0, 1}, 3, 6, "a_1 is 65,535"},
    {{1, 4, 7, 1}, {6, 9, 1}, 3, 6, "b_1 is m"},
    {{1, 4, 7, 1}, {15, 0, 1}, 3, 6, "b_0 is m too large"},
    {{1, 4, 7, 1, 1}, {6, 0, 1}, 3, 6, "a_4 is 1, past the length"},
    {{1, 4, 7, 1, 9}, {6, 0, 1}, 3, 6, "a_4 is m, past the length"},
    {{1, 4, 7, 1}, {6, 0, 1, 1}, 3, 6, "b_3 is 1, past the length"},
    {{1, 4, 7, 1}, {6, 0, 1}, 2, 6, "the length is one too small"},
    {{9, 4, 7, 1}, {6, 0, 1}, 3, 6, "a_0 is m"},
    {{10, 4, 7, 1}, {6, 0, 1}, 3, 6, "a_0 is m + 1"},
    {{257, 4, 7, 1}, {6, 0, 1}, 3, 6, "a_0 is 257, whose low byte is 1"},
    {{0, 4, 7, 1}, {6, 0, 1}, 3, 26, "a_0 is 0"},
    {{2, 4, 7, 1}, {6, 0, 1}, 3, 26, "a_0 is 2"},
    {{8, 4, 7, 1}, {6, 0, 1}, 3, 26, "a_0 is m - 1"},
    {{0}, {0}, 0, 26, "all is zero"},
    {{1, 4, 9, 1}, {6, 0, 1}, 129, 25, "25 comes before 6, for a_2"},
    {{1, 4, 7, 1}, {6, 9, 1}, 129, 25, "25 comes before 6, for b_1"},
    {{9, 4, 7, 1}, {6, 0, 1}, 129, 25, "25 comes before 6, for a_0"},
    {{2, 4, 7, 1}, {6, 0, 1}, 129, 25, "25 comes before 26"},
    {{0, 4, 9, 1}, {6, 0, 1}, 129, 25, "25 comes before 6 and 26"},
    {{2, 4, 9, 1}, {6, 0, 1}, 3, 6, "6 comes before 26, for a_2"},
    {{2, 4, 7, 1}, {6, 9, 1}, 3, 6, "6 comes before 26, for b_1"},
    {{0, 4, 7, 1, 1}, {6, 0, 1}, 3, 6, "6 comes before 26, for a past the length"},
    {{8, 4, 7, 1}, {6, 0, 1, 1}, 3, 6, "6 comes before 26, for b past the length"}};

/* Each of them when it is tested and when it is run, and 24 when it is found. */
static void malformed(void) {
    make_query(&q, 9, nine, 5);
    lend(&r, RECORD, 0x5A), lend(&cells, 10, 0x5A);
    for (size_t i = 0; i < sizeof flaws / sizeof *flaws; i++) {
        put_all(&a, 129, flaws[i].a, 5), put_all(&b, 128, flaws[i].b, 4);
        refused(verify(&q, &a, &b, flaws[i].l), flaws[i].refusal, NULL, flaws[i].what);
        refused(generate(9, &a, &b, flaws[i].l, &cells), flaws[i].refusal, &cells, flaws[i].what);
        lend(&c, RECORD, 0);
        memcpy(start(&c), start(&q), QUERY);
        put(start(&c) + DIVERTHRONE_LENGTH_PLACE, 0, flaws[i].l);
        memcpy(start(&c) + DIVERTHRONE_A_PLACE, start(&a), DIVERTHRONE_A_BYTES);
        memcpy(start(&c) + DIVERTHRONE_B_PLACE, start(&b), DIVERTHRONE_B_BYTES);
        refused(look_up(&q, &c, &r), 24, &r, flaws[i].what);
    }
}

/* What comes before 25, with a candidate to which each of 25, 6, 26 applies. */
static void before_25(void) {
    const unsigned bad[] = {2, 9};
    put_all(&a, 129, bad, 2), put_all(&b, 128, nine_b, 3);
    make_query(&q, 9, nine, 5);
    refused(verify(&q, &a, &b, 129), 25, NULL, "verify: 25, 6 and 26 apply");
    refused(verify(&q, &a, &b, 65539), 25, NULL, "verify: a length is not cut to 16 bits");
    start(&q)[259] = 1;
    refused(verify(&q, &a, &b, 129), 4, NULL, "verify: 4 comes before 25");
    put(start(&q), 1, 129);
    refused(verify(&q, &a, &b, 129), 2, NULL, "verify: 2 comes before 25");
    put(start(&q), 0, 4096);
    refused(verify(&q, &a, &b, 129), 1, NULL, "verify: 1 comes before 25");
    b.len = 255;
    refused(verify(&q, &a, &b, 129), 5, NULL, "verify: 5 comes before 25");
    b.len = 256;
    lend(&cells, 258, 0x5A);
    refused(generate(9, &a, &b, 129, &cells), 2, &cells, "generate: 2 comes before 25");
    refused(generate(4096, &a, &b, 129, &cells), 1, &cells, "generate: 1 comes before 25");
    lend(&cells, 9, 0x5A);
    refused(generate(9, &a, &b, 129, &cells), 5, &cells, "generate: 5 comes before 25");
    lend(&cells, 10, 0x5A);
    refused(generate(9, &a, &b, 129, &cells), 25, &cells, "generate: 25, 6 and 26 apply");
    refused(generate(9, &a, &b, 1, &cells), 6, &cells, "generate: 6 and 26 apply");
}

static void runs(void) {
    const unsigned fib_a[] = {1, 6, 6}, fib_b[] = {1, 0}, want[] = {1, 1, 2, 3, 5, 1};
    put_all(&a, 129, fib_a, 3);
    put_all(&b, 128, fib_b, 2);
    lend(&cells, 12, 0x5A);
    check(generate(7, &a, &b, 2, &cells) == 0, "case 10 runs");
    for (size_t i = 0; i < 6; i++) check(diverthrone_cell(start(&cells), i) == want[i], "case 10: cells");
    lend(&cells, 0, 0);
    check(generate(7, &a, &b, 2, &cells) == 0, "no cells are legal");
    lend(&cells, 256, 0x5A);
    check(generate(7, &a, &b, 2, &cells) == 0 && diverthrone_cell(start(&cells), 127) < 7, "128 cells");
    lend(&cells, 258, 0x5A);
    refused(generate(7, &a, &b, 2, &cells), 2, &cells, "129 cells");
    refused(generate(1, &a, &b, 2, &cells), 1, &cells, "1 comes before 2");
    lend(&cells, 257, 0x5A);
    refused(generate(1, &a, &b, 2, &cells), 5, &cells, "an odd number of bytes comes before 1");
    lend(&cells, 12, 0x5A);
    refused(generate(4096, &a, &b, 2, &cells), 1, &cells, "modulus 4,096");
    refused(generate(65543, &a, &b, 2, &cells), 1, &cells, "a modulus is not cut to 16 bits");
    refused(generate(7, &a, &b, 1, &cells), 6, &cells, "a coefficient past the length");
    refused(generate(7, &a, &b, 65538, &cells), 25, &cells, "a length is not cut to 16 bits");
    refused(generate(6, &a, &b, 2, &cells), 6, &cells, "a coefficient equal to m");
    a.len = 259;
    refused(generate(7, &a, &b, 2, &cells), 5, &cells, "a of another length");
}

/* ---- typed lines ---- */

static struct lent line, want;

static void type_bytes(const char *text, size_t len) {
    lend(&line, len, 0);
    memcpy(start(&line), text, len);
}

static void type(const char *text) { type_bytes(text, strlen(text)); }

/* The typed line is read, and its query is the one in `want`. */
static void line_read(const char *what) {
    lend(&q, QUERY, 0x5A);
    check(read_line(&line, &q) == 0, what);
    check(memcmp(start(&q), start(&want), QUERY) == 0, what);
}

/* The typed line is refused; with 1 and 2 the value is 0. */
static void line_refused(unsigned number, size_t place, const char *what) {
    lend(&q, QUERY, 0x5A);
    refused_at(read_line(&line, &q), number, place, &q, what);
}

/* Lines with the queries that they stand for; 2^31 is 2 modulo 9, 0 modulo 2,048 and 128 modulo 4,095. */
static const struct {
    const char *text;
    unsigned m, n, terms[5];
} good_lines[] = {
    {"mod 9: 6,3,1,-4,6", 9, 5, {6, 3, 1, 5, 6}},
    {"mod 9:6,3,1,-4,6", 9, 5, {6, 3, 1, 5, 6}},
    {"mod 9:  6 ,3   ,1 , -4,   6  ", 9, 5, {6, 3, 1, 5, 6}},
    {"mod 0009: 06,003,1,-0004,000000000000006", 9, 5, {6, 3, 1, 5, 6}},
    {"mod 9:", 9, 0, {0}},
    {"mod 9: ", 9, 0, {0}},
    {"mod 9:    ", 9, 0, {0}},
    {"mod 9:0", 9, 1, {0}},
    {"mod 9:-0,-00,0,00,1", 9, 5, {0, 0, 0, 0, 1}},
    {"mod 9:-1,-8,-9,-10,-18", 9, 5, {8, 1, 0, 8, 0}},
    {"mod 9:8,9,10,17,18", 9, 5, {8, 0, 1, 8, 0}},
    {"mod 2:-1,0,1,2,-2", 2, 5, {1, 0, 1, 0, 0}},
    {"mod 4095:4094,4095,4096,-4094,-4096", 4095, 5, {4094, 0, 1, 1, 4094}},
    {"mod 9:-2147483648,-2147483647,2147483646,2147483647", 9, 4, {7, 8, 0, 1}},
    {"mod 9:-00002147483648,00002147483647", 9, 2, {7, 1}},
    {"mod 2048:-2147483648,2147483647", 2048, 2, {0, 2047}},
    {"mod 4095:-2147483648,2147483647", 4095, 2, {3967, 127}},
    {"mod 00000000000000000002:-2147483648,2147483647", 2, 2, {0, 1}}};

static void lines_that_are_read(void) {
    for (size_t i = 0; i < sizeof good_lines / sizeof *good_lines; i++) {
        type(good_lines[i].text);
        make_query(&want, good_lines[i].m, good_lines[i].terms, good_lines[i].n);
        line_read(good_lines[i].text);
    }
}

/* Lines with one thing wrong, with the refusal and the place of each. */
static const struct {
    const char *text;
    unsigned refusal, place;
} bad_lines[] = {
    {"", 27, 0},
    {" mod 9:1", 27, 0},
    {"Mod 9:1", 27, 0},
    {"mo d 9:1", 27, 2},
    {"mod9:1", 27, 3},
    {"mod\t9:1", 27, 3},
    {"mod  9:1", 27, 4},
    {"mod -9:1", 27, 4},
    {"mod +9:1", 27, 4},
    {"mod :1", 27, 4},
    {"mod 9 :1", 27, 5},
    {"mod 9,1", 27, 5},
    {"mod 1 2:1", 27, 5},
    {"mod 9::1", 27, 6},
    {"mod 9:,1", 27, 6},
    {"mod 9: ,1", 27, 7},
    {"mod 9:+1", 27, 6},
    {"mod 9:- 1", 27, 7},
    {"mod 9:--1", 27, 7},
    {"mod 9:1-1", 27, 7},
    {"mod 9:1 -1", 27, 8},
    {"mod 9:1 1", 27, 8},
    {"mod 9:1,1 1", 27, 10},
    {"mod 9:1,,1", 27, 8},
    {"mod 9:1, ,1", 27, 9},
    {"mod 9:1;1", 27, 7},
    {"mod 9:1.", 27, 7},
    {"mod 9:1\t", 27, 7},
    {"mod 9:1\n", 27, 7},
    {"mod 9:1\r", 27, 7},
    {"mod 9:1\r\n", 27, 7},
    {"mod 9:\n", 27, 6},
    {"mod 9:1,", 27, 8},
    {"mod 9:1, ", 27, 9},
    {"mod 9:-", 27, 7},
    {"mod 9:1,-", 27, 9},
    {"mod 2147483648:", 28, 13},
    {"mod 2147483649:", 28, 13},
    {"mod 2147483650:", 28, 13},
    {"mod 21474836470:", 28, 14},
    {"mod 002147483648:", 28, 15},
    {"mod 4294967305:", 28, 13},
    {"mod 18446744073709551625:", 28, 14},
    {"mod 9:2147483648", 28, 15},
    {"mod 9:2147483650", 28, 15},
    {"mod 9:21474836470", 28, 16},
    {"mod 9:002147483648", 28, 17},
    {"mod 9:4294967296", 28, 15},
    {"mod 9:18446744073709551616", 28, 16},
    {"mod 9:-2147483649", 28, 16},
    {"mod 9:-2147483650", 28, 16},
    {"mod 9:-21474836480", 28, 17},
    {"mod 9:-002147483649", 28, 18},
    {"mod 9:-4294967296", 28, 16},
    {"mod 9:1, 9999999999 ,1", 28, 18},
    {"mod 0:1", 1, 0},
    {"mod 1:1", 1, 0},
    {"mod 001:", 1, 0},
    {"mod 4096:1", 1, 0},
    {"mod 4096:", 1, 0},
    {"mod 65545:1", 1, 0},
    {"mod 2147483646:1", 1, 0},
    {"mod 2147483647:1", 1, 0}};

static void lines_that_are_refused(void) {
    for (size_t i = 0; i < sizeof bad_lines / sizeof *bad_lines; i++) {
        type(bad_lines[i].text);
        line_refused(bad_lines[i].refusal, bad_lines[i].place, bad_lines[i].text);
    }
}

/* The query of a text that keeps the form, by C's own reading of numbers. */
static void want_by_strtol(const char *text) {
    const char *at = strchr(text, ':');
    long m = strtol(text + 4, NULL, 10);
    unsigned terms[128], n = 0;
    if (strpbrk(at, "0123456789") == NULL) at = NULL;
    for (; at != NULL; at = strchr(at + 1, ',')) terms[n++] = (unsigned)((strtol(at + 1, NULL, 10) % m + m) % m);
    make_query(&want, (unsigned)m, terms, n);
}

enum { READ = -1 };

/* The first bytes of a text as a line: it is read, or 27 comes with the place. */
static void becomes(const char *text, size_t len, int place, const char *what) {
    type_bytes(text, len);
    if (place != READ) {
        line_refused(27, (size_t)place, what);
        return;
    }
    want_by_strtol(text);
    line_read(what);
}

static const char twelve[] = "mod 12: -3 ,007";

/* From the words alone: what becomes of this line with another byte at a place, by the kind of the byte. */
static const int with_another[15][6] = {
    /* digit, blank, minus, comma, colon, any other */
    {0, 0, 0, 0, 0, 0},
    {1, 1, 1, 1, 1, 1},
    {2, 2, 2, 2, 2, 2},
    {3, READ, 3, 3, 3, 3},
    {READ, 4, 4, 4, 4, 4},
    {READ, 5, 5, 5, 6, 5},          /* "mod 1::" */
    {7, 6, 6, 6, READ, 6},          /* "mod 120 " */
    {8, READ, 8, 7, 7, 7},          /* ":0-", ":--" */
    {READ, READ, READ, 8, 8, 8},    /* ": 03", ":  3" */
    {READ, 9, 9, 9, 9, 9},          /* "-0" */
    {READ, READ, 10, 11, 10, 10},   /* "-30,", "-3,," */
    {11, 12, 11, READ, 11, 11},     /* "-3  0" */
    {READ, READ, READ, 12, 12, 12}, /* ",107", ", 07", ",-07" */
    {READ, 14, 13, READ, 13, 13},   /* "017", "0 7", "0,7" */
    {READ, READ, 14, 15, 14, 14}};  /* "001", "00 ", "00," */

static size_t kind_of(int byte) {
    static const char marks[] = " -,:";
    const char *mark = byte == 0 ? NULL : strchr(marks, byte);
    if (byte >= '0' && byte <= '9') return 0;
    return mark == NULL ? 5 : 1 + (size_t)(mark - marks);
}

static void every_byte_at_every_place(void) {
    for (size_t place = 0; place < 15; place++)
        for (int byte = 0; byte < 256; byte++) {
            char text[sizeof twelve], what[64];
            memcpy(text, twelve, sizeof twelve);
            text[place] = (char)byte;
            snprintf(what, sizeof what, "byte %d at place %u of %s", byte, (unsigned)place, twelve);
            becomes(text, 15, text[place] == twelve[place] ? READ : with_another[place][kind_of(byte)], what);
        }
}

/* For each length from 0 on whether a line so long is whole; if not, it ends too soon. */
static void every_prefix(void) {
    static const char *const lines[] = {twelve, "mod 9: 6,3,1,-4,6"}, *const whole[] = {"nnnnnnnyynyynyyy", "nnnnnnyyynynynnyny"};
    for (size_t i = 0; i < 2; i++)
        for (size_t len = 0; len <= strlen(lines[i]); len++) {
            char text[32] = "", what[64];
            memcpy(text, lines[i], len);
            snprintf(what, sizeof what, "the first %u bytes of %s", (unsigned)len, lines[i]);
            becomes(text, len, whole[i][len] == 'y' ? READ : (int)len, what);
        }
}

/* A line modulo m with n terms, those at odd places below zero, and then the text, whose place is given back; `want` gets the query. */
static size_t type_many(int m, unsigned n, const char *end) {
    static char text[ROOM];
    unsigned terms[128] = {0};
    size_t at = (size_t)snprintf(text, sizeof text, "mod %d:", m);
    for (unsigned i = 0; i < n; i++) {
        int term = i % 2 == 0 ? 37 * (int)i : -31 * (int)i;
        at += (size_t)snprintf(text + at, sizeof text - at, i == 0 ? "%d" : ",%d", term);
        if (i < 128) terms[i] = (unsigned)((term % m + m) % m);
    }
    snprintf(text + at, sizeof text - at, "%s", end);
    type(text);
    make_query(&want, (unsigned)m, terms, n);
    return at;
}

static void counts_of_terms(void) {
    static const unsigned few[] = {0, 1, 2, 127, 128}, many[] = {129, 200, 256, 257, 384};
    for (size_t i = 0; i < 5; i++) {
        type_many(4095, few[i], "");
        line_read("up to 128 terms");
        type_many(9, many[i], "");
        line_refused(2, 0, "more than 128 terms");
    }
}

/* 27 and 28 come before 1, and of the two the one with the lower place. */
static void order_in_lines(void) {
    static const struct {
        const char *text;
        unsigned refusal, place;
        const char *what;
    } pairs[] = {{"mod 1:x", 27, 6, "27 comes before 1"},
                 {"mod 4096:1,", 27, 11, "27 at the line's end comes before 1"},
                 {"mod 0:2147483648", 28, 15, "28 comes before 1"},
                 {"mod 2147483647:-2147483649", 28, 25, "28 of a term comes before 1"},
                 {"mod 9:x,2147483648", 27, 6, "27 comes before a later 28"},
                 {"mod 9:1 2147483648", 27, 8, "27 comes before a later 28, in the digits that pass"},
                 {"mod x2147483648:", 27, 4, "27 comes before a later 28, of the modulus"},
                 {"mod 9:2147483648,x", 28, 15, "28 comes before a later 27"},
                 {"mod 9:2147483648x", 28, 15, "28 comes before 27 in the next byte"},
                 {"mod 9:2147483648,", 28, 15, "28 comes before 27 at the line's end"},
                 {"mod 2147483648x", 28, 13, "28 of the modulus comes before 27 in the next byte"},
                 {"mod 2147483648", 28, 13, "28 of the modulus comes before 27 at the line's end"},
                 {"mod 9:x,x", 27, 6, "the first of two 27"},
                 {"mod 9:2147483648,-2147483649", 28, 15, "the first of two 28"}};
    for (size_t i = 0; i < sizeof pairs / sizeof *pairs; i++) {
        type(pairs[i].text);
        line_refused(pairs[i].refusal, pairs[i].place, pairs[i].what);
    }
}

/* Behind 129 terms, and with 129 terms in a line that is wrong before them. */
static void order_behind_many_terms(void) {
    size_t at = type_many(9, 129, "x");
    line_refused(27, at, "27 comes before 2");
    type_many(9, 129, ",");
    line_refused(27, at + 1, "27 at the line's end comes before 2");
    type_many(9, 129, ",2147483648");
    line_refused(28, at + 10, "28 comes before 2");
    type_many(9, 129, ",-2147483649 x");
    line_refused(28, at + 11, "28 comes before 2 and a later 27");
    type_many(1, 129, "");
    line_refused(1, 0, "1 comes before 2");
    at = type_many(4096, 129, "");
    line_refused(1, 0, "1 comes before 2, modulus 4,096");
    type_many(4096, 129, " x,2147483648");
    line_refused(27, at + 1, "27 comes before 1, 2 and a later 28");
    type_many(4096, 129, ",2147483648,x");
    line_refused(28, at + 10, "28 comes before 1, 2 and a later 27");
}

/* 5 comes before whatever the line gets. */
static void queries_of_other_lengths(void) {
    static const size_t lens[] = {0, 1, 259, 261, 520};
    static const char *const texts[] = {"mod 9: 6,3,1,-4,6", "", "mod 9:x", "mod 9:2147483648", "mod 1:"};
    for (size_t i = 0; i < 5; i++) {
        for (size_t j = 0; j < 5; j++) {
            type(texts[j]);
            lend(&q, lens[i], 0x5A);
            refused(read_line(&line, &q), 5, &q, "a query of another length");
        }
        type_many(9, 129, "");
        lend(&q, lens[i], 0x5A);
        refused(read_line(&line, &q), 5, &q, "5 comes before 2");
    }
}

enum { LONG = 100000, LONGEST = 131079 };

static uint8_t long_line[LONGEST], long_before[LONGEST];

/* A line of so many bytes: a head, two bytes in turn, the first of them at even places, and a tail. */
static uint64_t read_long(size_t len, const char *head, const char *turn, const char *tail) {
    for (size_t i = 0; i < len; i++) long_line[i] = (uint8_t)turn[i % 2];
    memcpy(long_line, head, strlen(head));
    memcpy(long_line + len - strlen(tail), tail, strlen(tail));
    memcpy(long_before, long_line, LONGEST);
    lend(&q, QUERY, 0x5A), keep(&q);
    called = "read_line, a long line";
    uint64_t reply = diverthrone_read_line(long_line, len, start(&q), q.len);
    check(memcmp(long_line, long_before, LONGEST) == 0 && guarded(&q), "the line, and what is around the query, stay");
    return reply;
}

static void long_line_read(const char *head, const char *turn, const char *tail, unsigned term) {
    make_query(&want, 9, &term, 1);
    check(read_long(LONG, head, turn, tail) == 0 && memcmp(start(&q), start(&want), QUERY) == 0, tail);
}

static void long_lines(void) {
    long_line_read("mod 9:", "  ", "-4", 5);
    long_line_read("mod 9:-4", "  ", " ", 5);
    long_line_read("mod 9:", "00", "7", 7);
    long_line_read("mod 9:-", "00", "2147483648 ", 7);
    long_line_read("mod ", "00", "9:3", 3);
    refused(read_long(LONG, "mod 9:", "1,", " "), 2, &q, "49,997 terms");
    refused(read_long(LONG, "mod 1:", "1,", " "), 1, &q, "49,997 terms modulo 1");
    refused(read_long(LONGEST, "mod 9:", "1,", ""), 2, &q, "65,537 terms: a count is not cut to 16 bits");
    refused_at(read_long(LONG, "mod 9:", "1,", "x"), 27, 99999, &q, "27 at the last byte");
    refused_at(read_long(LONG, "mod 9:", "1,", ""), 27, 100000, &q, "27 at the length");
    refused_at(read_long(LONG, "mod 9:1", "  ", "1"), 27, 99999, &q, "a second number behind blanks");
    refused_at(read_long(LONG, "mod 9:", "00", "2147483648"), 28, 99999, &q, "28 at the last byte");
    refused_at(read_long(LONG, "mod 9:-", "00", "2147483649x"), 28, 99998, &q, "28 at the last byte but one");
    refused_at(read_long(LONG, "mod ", "00", "2147483648:"), 28, 99998, &q, "28 of the modulus");
    refused_at(read_long(LONG, "mod 9:", "99", ""), 28, 15, &q, "28 long before the end");
    refused_at(read_long(LONG, "", "mo", ""), 27, 2, &q, "27 long before the end");
}

/* What is read is handed on like a query written by hand. */
static void handed_on(void) {
    static struct lent typed, made;
    make_catalogue();
    put_all(&a, 129, nine_a, 4), put_all(&b, 128, nine_b, 3);
    type("mod 9: 6,3,1,-4,6");
    make_query(&q, 9, nine, 5);
    lend(&typed, QUERY, 0x5A), lend(&r, RECORD, 0x5A), lend(&made, RECORD, 0);
    check(read_line(&line, &typed) == 0, "the line of case 3");
    check(synthesize(&q, &r) == 0 && synthesize(&typed, &made) == 0, "case 3, by hand and typed");
    check(memcmp(start(&r), start(&made), RECORD) == 0 && length_in(&made) == 3, "the same record");
    check(diverthrone_value(look_up(&typed, &c, &r)) == 3, "found at place 2");
    check(verify(&typed, &a, &b, 3) == 0, "its register passes");
    type_many(4095, 128, "");
    check(read_line(&line, &typed) == 0 && synthesize(&typed, &made) == 0, "128 typed terms");
}

/* ---- two queries ---- */

/* The queries in `q` and `other` are merged to the one in `want`, in either order. */
static void merged_to_want(const char *what) {
    lend(&merged, QUERY, 0x5A);
    check(merge(&q, &other, &merged) == 0, what);
    check(memcmp(start(&merged), start(&want), QUERY) == 0, what);
    lend(&merged, QUERY, 0xFF);
    check(merge(&other, &q, &merged) == 0, what);
    check(memcmp(start(&merged), start(&want), QUERY) == 0, what);
}

/* They are refused, in either order, with 29 and 30 with the value 0. */
static void merge_refused(unsigned number, size_t place, const char *what) {
    lend(&merged, QUERY, 0x5A);
    refused_at(merge(&q, &other, &merged), number, place, &merged, what);
    refused_at(merge(&other, &q, &merged), number, place, &merged, what);
}

/* Two moduli and their multiple, n terms modulo the first, modulo the second and modulo the multiple, by hand. */
static const struct {
    unsigned m[3], n, terms[3][6];
    const char *what;
} pairs_of_queries[] = {
    {{12, 18, 36}, 3, {{7, 2, 11}, {13, 2, 17}, {31, 2, 35}}, "12 and 18"},
    {{12, 18, 36}, 1, {{1}, {13}, {13}}, "12 and 18: 1 and 13 agree modulo 12 too"},
    {{12, 18, 36}, 1, {{0}, {12}, {12}}, "12 and 18: 0 and 12 agree modulo 12 too"},
    {{12, 18, 36}, 1, {{7}, {1}, {19}}, "12 and 18: 7 and 1 agree modulo 6 only"},
    {{12, 18, 36}, 6, {{1, 0, 7, 11, 0, 6}, {13, 12, 1, 5, 6, 0}, {13, 12, 19, 23, 24, 18}}, "12 and 18, six terms"},
    {{12, 18, 36}, 0, {{0}, {0}, {0}}, "12 and 18, no terms"},
    {{2, 3, 6}, 6, {{0, 1, 0, 1, 0, 1}, {0, 1, 2, 0, 1, 2}, {0, 1, 2, 3, 4, 5}}, "2 and 3, every number"},
    {{4, 9, 36}, 6, {{3, 0, 1, 0, 2, 3}, {8, 0, 0, 1, 7, 2}, {35, 0, 9, 28, 34, 11}}, "4 and 9, coprime"},
    {{9, 9, 9}, 5, {{6, 3, 1, 5, 6}, {6, 3, 1, 5, 6}, {6, 3, 1, 5, 6}}, "9 and 9, equal"},
    {{2, 2, 2}, 3, {{1, 0, 1}, {1, 0, 1}, {1, 0, 1}}, "2 and 2, equal"},
    {{2, 2, 2}, 0, {{0}, {0}, {0}}, "2 and 2, no terms"},
    {{4095, 4095, 4095}, 4, {{4094, 0, 1, 256}, {4094, 0, 1, 256}, {4094, 0, 1, 256}}, "4,095 and 4,095, equal"},
    {{2048, 2048, 2048}, 2, {{2047, 1024}, {2047, 1024}, {2047, 1024}}, "2,048 and 2,048: their product ends in 16 zero bits"},
    {{4, 12, 12}, 6, {{3, 0, 1, 2, 0, 3}, {11, 4, 5, 2, 8, 7}, {11, 4, 5, 2, 8, 7}}, "4 divides 12"},
    {{3, 9, 9}, 4, {{2, 0, 1, 0}, {8, 3, 7, 0}, {8, 3, 7, 0}}, "3 divides 9"},
    {{5, 4095, 4095}, 3, {{4, 0, 1}, {4094, 0, 256}, {4094, 0, 256}}, "5 divides 4,095"},
    {{1024, 2048, 2048}, 3, {{1023, 0, 1}, {2047, 1024, 1}, {2047, 1024, 1}}, "1,024 divides 2,048"},
    {{63, 65, 4095}, 6, {{62, 0, 1, 0, 1, 62}, {64, 0, 1, 1, 0, 0}, {4094, 0, 1, 2016, 2080, 2015}}, "63 and 65 give 4,095"},
    {{2047, 2, 4094}, 6, {{2046, 2046, 0, 0, 1, 1}, {0, 1, 1, 0, 0, 1}, {2046, 4093, 2047, 0, 2048, 1}}, "2,047 and 2 give 4,094"},
    {{64, 63, 4032}, 4, {{63, 0, 1, 0}, {62, 1, 0, 0}, {4031, 64, 3969, 0}}, "64 and 63 give 4,032"},
    {{1365, 819, 4095}, 5, {{1364, 0, 1, 1, 0}, {818, 273, 1, 274, 0}, {4094, 2730, 1, 2731, 0}}, "1,365 and 819 give 4,095"}};

static void queries_that_are_merged(void) {
    for (size_t i = 0; i < sizeof pairs_of_queries / sizeof *pairs_of_queries; i++) {
        const unsigned *m = pairs_of_queries[i].m, n = pairs_of_queries[i].n;
        make_query(&q, m[0], pairs_of_queries[i].terms[0], n);
        make_query(&other, m[1], pairs_of_queries[i].terms[1], n);
        make_query(&want, m[2], pairs_of_queries[i].terms[2], n);
        merged_to_want(pairs_of_queries[i].what);
        lend(&merged, QUERY, 0x5A);
        check(merge(&q, &q, &merged) == 0, "the same buffer as the first and the second");
        check(memcmp(start(&merged), start(&q), QUERY) == 0, "a query merged with itself is itself");
    }
}

/* All terms modulo two moduli, behind one that agrees: the number is found by looking at each below the multiple, or there is none. */
static void every_pair_of_terms(void) {
    static const unsigned moduli[][3] = {{12, 18, 36}, {4, 9, 36}, {6, 6, 6}, {4, 12, 12}, {8, 12, 24}, {2, 2, 2}, {10, 15, 30}};
    for (size_t i = 0; i < sizeof moduli / sizeof *moduli; i++) {
        const unsigned *m = moduli[i];
        for (unsigned pair = 0; pair < m[0] * m[1]; pair++) {
            unsigned x[] = {1, pair % m[0]}, y[] = {1, pair / m[0]}, z[] = {1, 0};
            char what[64];
            while (z[1] < m[2] && (z[1] % m[0] != x[1] || z[1] % m[1] != y[1])) z[1]++;
            snprintf(what, sizeof what, "%u modulo %u and %u modulo %u", x[1], m[0], y[1], m[1]);
            make_query(&q, m[0], x, 2), make_query(&other, m[1], y, 2), make_query(&want, m[2], z, 2);
            if (z[1] < m[2])
                merged_to_want(what);
            else
                merge_refused(31, 1, what);
        }
    }
}

/* 128 numbers below the multiple, which `want` gets; `q` and `other` get what they leave. */
static void split_many(const unsigned m[3]) {
    unsigned x[128], y[128], z[128];
    for (unsigned i = 0; i < 128; i++) {
        z[i] = i == 0 ? m[2] - 1 : (37 * i * i + 1009 * i + 5) % m[2];
        x[i] = z[i] % m[0], y[i] = z[i] % m[1];
    }
    make_query(&q, m[0], x, 128), make_query(&other, m[1], y, 128), make_query(&want, m[2], z, 128);
}

static void many_terms(void) {
    static const unsigned moduli[][3] = {{12, 18, 36},      {4, 9, 36},     {63, 65, 4095},    {2047, 2, 4094},    {4095, 4095, 4095},
                                         {819, 4095, 4095}, {64, 63, 4032}, {1365, 819, 4095}, {2048, 1024, 2048}, {2, 2, 2}};
    for (size_t i = 0; i < sizeof moduli / sizeof *moduli; i++) {
        split_many(moduli[i]);
        merged_to_want("128 terms");
        put(start(&q), 1, 127), put(start(&other), 1, 127), put(start(&want), 1, 127);
        put(start(&q), 2 + 127, 0), put(start(&other), 2 + 127, 0), put(start(&want), 2 + 127, 0);
        merged_to_want("127 terms");
    }
}

/* The term of `other` at a place becomes the next one, which agrees modulo no number but 1. */
static void shift(size_t place) {
    unsigned m = diverthrone_cell(start(&other), 0), term = diverthrone_cell(start(&other), 2 + place);
    put(start(&other), 2 + place, (term + 1) % m);
}

/* Terms that disagree, at one place or at several: the first is told. */
static void terms_that_disagree(void) {
    static const unsigned moduli[][3] = {{12, 18, 36}, {4095, 4095, 4095}, {1365, 819, 4095}};
    const unsigned seven[] = {7}, dozen[] = {12}, three[] = {3}, ten[] = {10};
    make_query(&q, 12, seven, 1), make_query(&other, 18, dozen, 1);
    merge_refused(31, 0, "12 and 18: 7 and 12 disagree modulo 6");
    make_query(&q, 4, three, 1), make_query(&other, 12, ten, 1);
    merge_refused(31, 0, "4 and 12: 3 and 10 disagree modulo 4");
    make_query(&q, 9, seven, 1), make_query(&other, 9, three, 1);
    merge_refused(31, 0, "9 and 9: 7 and 3");
    for (size_t i = 0; i < 3; i++) {
        for (size_t place = 0; place < 128; place++) {
            split_many(moduli[i]);
            shift(place);
            merge_refused(31, place, "one pair of 128 disagrees");
        }
        split_many(moduli[i]);
        shift(127), shift(126);
        merge_refused(31, 126, "the last two disagree");
        shift(64);
        merge_refused(31, 64, "64, 126 and 127 disagree");
        shift(1), shift(2), shift(3);
        merge_refused(31, 1, "1, 2, 3, 64, 126 and 127 disagree");
        for (size_t place = 0; place < 128; place++) shift(place);
        merge_refused(31, 0, "all disagree");
    }
}

/* Multiples above 4,095; 65,792 would be 256 if it were cut to 16 bits. */
static void multiples_above(void) {
    static const unsigned moduli[][2] = {{64, 65},     {17, 241},    {2049, 2},    {2, 4095},  {256, 257},   {2048, 3},  {4094, 4},
                                         {4093, 4091}, {4095, 4094}, {1365, 1364}, {2730, 52}, {2048, 2047}, {4092, 18}, {4095, 4092}};
    for (size_t i = 0; i < sizeof moduli / sizeof *moduli; i++) {
        char what[64];
        snprintf(what, sizeof what, "%u and %u have a multiple above 4,095", moduli[i][0], moduli[i][1]);
        for (unsigned n = 0; n <= 128; n += 64) {
            unsigned zeros[128] = {0};
            make_query(&q, moduli[i][0], zeros, n), make_query(&other, moduli[i][1], zeros, n);
            merge_refused(30, 0, what);
        }
    }
}

/* Zeros: what is past the counts is zero, so nothing but the counts differs. */
static void counts_that_differ(void) {
    static const unsigned counts[][2] = {{0, 1}, {1, 2}, {4, 5}, {0, 128}, {127, 128}, {64, 128}};
    unsigned zeros[128] = {0};
    for (size_t i = 0; i < sizeof counts / sizeof *counts; i++) {
        make_query(&q, 12, zeros, counts[i][0]), make_query(&other, 18, zeros, counts[i][1]);
        merge_refused(29, 0, "12 and 18, counts that differ");
        make_query(&other, 12, zeros, counts[i][1]);
        merge_refused(29, 0, "12 and 12, counts that differ");
    }
}

/* Two queries that are merged, and whatever can be wrong with them in the order of the refusals. No two places of terms are the same, and a
 * later refusal has a lower one. With the modulus 4,092 the multiple is 12,276, and the common divisor is still 6. */
static const unsigned first_terms[] = {7, 2, 11, 0, 4}, second_terms[] = {13, 2, 17, 6, 10};

enum fault {
    FIRST_LENGTH,
    SECOND_LENGTH,
    QUERY_LENGTH,
    FIRST_1,
    FIRST_2,
    FIRST_3,
    FIRST_4,
    SECOND_1,
    SECOND_2,
    SECOND_3,
    SECOND_4,
    COUNTS,
    MULTIPLE,
    DISAGREE,
    FAULTS
};

static const uint64_t fault_replies[FAULTS] = {5, 5, 5, 1, 2, 3 + 256 * 3, 4, 1, 2, 3 + 256 * 2, 4, 29, 30, 31 + 256 * 1};

static void make_fault(int fault) {
    switch (fault) {
    case FIRST_LENGTH: q.len = 259; break;
    case SECOND_LENGTH: other.len = 259; break;
    case QUERY_LENGTH: lend(&merged, 259, 0x5A); break;
    case FIRST_1: put(start(&q), 0, 4096); break;
    case FIRST_2: put(start(&q), 1, 129); break;
    case FIRST_3: put(start(&q), 2 + 3, 65535); break;
    case FIRST_4: put(start(&q), 2 + 127, 1); break;
    case SECOND_1: put(start(&other), 0, 1); break;
    case SECOND_2: put(start(&other), 1, 129); break;
    case SECOND_3: put(start(&other), 2 + 2, 65535); break;
    case SECOND_4: put(start(&other), 2 + 127, 1); break;
    case COUNTS: put(start(&other), 1, 4), put(start(&other), 2 + 4, 0); break;
    case MULTIPLE: put(start(&q), 0, 4092); break;
    default: put(start(&other), 2 + 1, 3); break;
    }
}

/* With these faults, one bit each, the first of them is told. The last are made first, since the first must stand. */
static void faults_told(unsigned faults) {
    char what[64];
    int least = FAULTS;
    make_query(&q, 12, first_terms, 5), make_query(&other, 18, second_terms, 5);
    lend(&merged, QUERY, 0x5A);
    for (int i = FAULTS - 1; i >= 0; i--)
        if (faults >> i & 1) make_fault(i), least = i;
    snprintf(what, sizeof what, "the faults with the bits %x", faults);
    uint64_t reply = merge(&q, &other, &merged);
    check(reply == (least == FAULTS ? 0 : fault_replies[least]), what);
    check(least == FAULTS || unchanged(&merged), what);
    if (least < FIRST_1 || least > SECOND_4) return;
    lend(&r, RECORD, 0x5A);
    uint64_t own = synthesize(&q, &r);
    check(least <= FIRST_4 ? own == reply : own == 0, "which of the two is meant, found as the header says");
}

/* Each fault alone, with each later one, and with all later ones. */
static void order_in_merges(void) {
    faults_told(0);
    for (int i = 0; i < FAULTS; i++) {
        for (int j = i; j < FAULTS; j++) faults_told(1u << i | 1u << j);
        faults_told((1u << FAULTS) - (1u << i));
    }
}

/* Each of the three buffers, and several of them, of each wrong length. */
static void merges_of_other_lengths(void) {
    static const size_t lens[] = {0, 1, 259, 261, 520};
    for (size_t i = 0; i < sizeof lens / sizeof *lens; i++)
        for (int wrong = 1; wrong < 8; wrong++) {
            make_query(&q, 12, first_terms, 5), make_query(&other, 18, second_terms, 5);
            lend(&merged, QUERY, 0x5A);
            if (wrong & 1) q.len = lens[i];
            if (wrong & 2) other.len = lens[i];
            if (wrong & 4) lend(&merged, lens[i], 0x5A);
            refused(merge(&q, &other, &merged), 5, &merged, "a buffer of another length than 260");
        }
}

/* The first k of n terms. */
static void first_of(struct lent *to, struct lent *from, unsigned k) {
    lend(to, QUERY, 0);
    memcpy(start(to), start(from), 4 + 2 * k);
    put(start(to), 1, k);
}

static unsigned length_of(struct lent *from, unsigned k) {
    static struct lent some;
    first_of(&some, from, k);
    lend(&r, RECORD, 0x5A);
    check(synthesize(&some, &r) == 0, "a register of the first terms");
    return length_in(&r);
}

/* `q` and `other` are merged; for every k the length of the first k terms is the larger of the two. */
static void lengths_are_larger(unsigned n, const char *what) {
    lend(&merged, QUERY, 0x5A);
    check(merge(&q, &other, &merged) == 0, what);
    for (unsigned k = 0; k <= n; k++) {
        unsigned one = length_of(&q, k), two = length_of(&other, k);
        check(length_of(&merged, k) == (one > two ? one : two), what);
    }
}

/* Two moduli, n terms modulo each of them, and the lengths of both. */
static const struct {
    unsigned m[2], n, terms[2][6], lengths[2];
    const char *what;
} two_lengths[] = {{{9, 7}, 5, {{6, 3, 1, 5, 6}, {1, 1, 2, 3, 5}}, {3, 2}, "case 3 and a beginning of case 9"},
                   {{4, 9}, 4, {{0, 0, 0, 0}, {1, 1, 2, 3}}, {0, 2}, "zeros and a recurrence"},
                   {{9, 4}, 6, {{5, 5, 5, 5, 5, 5}, {0, 0, 0, 0, 0, 1}}, {1, 6}, "a constant and a last 1"},
                   {{7, 2}, 6, {{1, 1, 2, 3, 5, 1}, {1, 1, 0, 1, 1, 0}}, {2, 2}, "Fibonacci numbers modulo 7 and modulo 2"},
                   {{12, 18}, 2, {{2, 2}, {2, 2}}, {1, 1}, "2,2 modulo 12 and modulo 18"},
                   {{12, 18}, 4, {{0, 0, 0, 6}, {0, 0, 0, 0}}, {4, 0}, "a last 6 and zeros, not coprime"},
                   {{9, 9}, 5, {{6, 3, 1, 5, 6}, {6, 3, 1, 5, 6}}, {3, 3}, "case 3 twice"},
                   {{3, 9}, 5, {{0, 0, 1, 2, 0}, {6, 3, 1, 5, 6}}, {3, 3}, "case 3 and what it leaves modulo 3"},
                   {{12, 18}, 0, {{0}, {0}}, {0, 0}, "no terms"}};

static void merged_lengths(void) {
    static const unsigned moduli[][3] = {{12, 18, 36}, {63, 65, 4095}, {2047, 2, 4094}};
    for (size_t i = 0; i < sizeof two_lengths / sizeof *two_lengths; i++) {
        unsigned n = two_lengths[i].n;
        make_query(&q, two_lengths[i].m[0], two_lengths[i].terms[0], n);
        make_query(&other, two_lengths[i].m[1], two_lengths[i].terms[1], n);
        check(length_of(&q, n) == two_lengths[i].lengths[0], two_lengths[i].what);
        check(length_of(&other, n) == two_lengths[i].lengths[1], two_lengths[i].what);
        lengths_are_larger(n, two_lengths[i].what);
    }
    for (size_t i = 0; i < 3; i++) {
        split_many(moduli[i]);
        lengths_are_larger(128, "128 terms and their beginnings");
    }
}

/* 2 + 2 a_1 = 0 has 5 and 11 modulo 12, and 17 and 35 modulo 36. Modulo 18 it has 8 and 17, but modulo 2 the terms are 0 and a is 1, so it
 * is 8. No number leaves 5 or 11 modulo 12 and 8 modulo 18. */
static void coefficients_apart(void) {
    const unsigned twice[] = {2, 2};
    make_query(&q, 12, twice, 2), make_query(&other, 18, twice, 2), make_query(&want, 36, twice, 2);
    merged_to_want("2,2 modulo 12 and modulo 18");
    lend(&r, RECORD, 0x5A);
    check(synthesize(&q, &r) == 0 && length_in(&r) == 1 && a_in(&r, 1) % 6 == 5, "2,2 modulo 12");
    check(synthesize(&other, &r) == 0 && length_in(&r) == 1 && a_in(&r, 1) == 8, "2,2 modulo 18");
    check(synthesize(&merged, &r) == 0 && length_in(&r) == 1 && a_in(&r, 1) % 18 == 17, "2,2 modulo 36");
}

/* What is merged is handed on like a query written by hand, to a further merge too. */
static void merged_again(void) {
    const unsigned x[] = {3, 1}, y[] = {2, 0}, z[] = {4, 2}, all[] = {59, 57};
    static struct lent third, both, made;
    make_query(&q, 4, x, 2), make_query(&other, 3, y, 2), make_query(&third, 5, z, 2), make_query(&want, 60, all, 2);
    lend(&both, QUERY, 0x5A), lend(&merged, QUERY, 0x5A);
    check(merge(&q, &other, &both) == 0 && merge(&both, &third, &merged) == 0, "4 and 3, then 5");
    check(memcmp(start(&merged), start(&want), QUERY) == 0, "4 and 3, then 5: 59, 57 modulo 60");
    lend(&both, QUERY, 0x5A), lend(&merged, QUERY, 0x5A);
    check(merge(&other, &third, &both) == 0 && merge(&q, &both, &merged) == 0, "4, and 3 with 5");
    check(memcmp(start(&merged), start(&want), QUERY) == 0, "4, and 3 with 5: 59, 57 modulo 60");
    lend(&c, RECORD, 0), lend(&made, RECORD, 0x5A);
    check(synthesize(&want, &c) == 0 && synthesize(&merged, &made) == 0, "records by hand and merged");
    check(memcmp(start(&c), start(&made), RECORD) == 0, "the same record");
    lend(&r, RECORD, 0x5A);
    check(look_up(&merged, &c, &r) == 256, "found at place 0");
}

/* ---- periods ---- */

/* Periods are told as bits, the first digit lowest. */
static unsigned digit(uint64_t bits, size_t i) { return (unsigned)(bits >> i & 1); }

static void lend_period(uint64_t bits, unsigned n) {
    lend(&cells, 2 * n, 0);
    for (unsigned i = 0; i < n; i++) put(start(&cells), i, digit(bits, i));
}

/* What a failure needs to be found again is put together only for one, since the checks are very many. */
static void check_length(int ok, uint64_t bits, unsigned n, unsigned length, const char *by) {
    char what[96] = "";
    if (!ok) snprintf(what, sizeof what, "%u digits with the bits %llx have length %u, %s", n, (unsigned long long)bits, length, by);
    check(ok, what);
}

/* The whole reply is compared: the value is the length itself. */
static void has_length(uint64_t bits, unsigned n, unsigned length) {
    lend_period(bits, n);
    check_length(period_length(&cells) == 256 * (uint64_t)length, bits, n, length, "by the call");
}

/* The length in the record of the sequence's first k terms. */
static unsigned length_in_record(uint64_t bits, unsigned n, unsigned k) {
    unsigned terms[128];
    for (unsigned i = 0; i < k; i++) terms[i] = digit(bits, i % n);
    make_query(&q, 2, terms, k);
    lend(&r, RECORD, 0x5A);
    check(synthesize(&q, &r) == 0, "a record of a period's terms");
    return length_in(&r);
}

/* The length by the call and in the record of two periods. */
static void both_have_length(uint64_t bits, unsigned n, unsigned length) {
    has_length(bits, n, length);
    check_length(length_in_record(bits, n, 2 * n) == length, bits, n, length, "in a record");
}

/* Whether two whole periods have a register of this length: every list of coefficients is tried. */
static int generated(uint64_t bits, unsigned n, unsigned l) {
    for (unsigned list = 0; list < 1u << l; list++) {
        unsigned sum = 0;
        for (unsigned place = l; place < 2 * n && sum == 0; place++) {
            sum = digit(bits, place % n);
            for (unsigned i = 1; i <= l; i++) sum ^= list >> (i - 1) & digit(bits, (place - i) % n);
        }
        if (sum == 0) return 1;
    }
    return 0;
}

static unsigned least_by_trying(uint64_t bits, unsigned n) {
    unsigned l = 0;
    while (!generated(bits, n, l)) l++;
    return l;
}

/* The least l for which the sequence from its place l on is a sum of those from 0 .. l - 1 on, as a register of length l says. What is left
 * of each of them stands where its first 1 is. */
static unsigned least_by_elimination(uint64_t bits, unsigned n) {
    uint64_t firsts[64] = {0};
    for (unsigned l = 0;; l++) {
        uint64_t left = bits;
        unsigned i = 0;
        for (; left != 0; i++) {
            if (digit(left, i) == 0) continue;
            if (firsts[i] == 0) break;
            left ^= firsts[i];
        }
        if (left == 0) return l;
        firsts[i] = left;
        bits = bits >> 1 | (bits & 1) << (n - 1);
    }
}

static void periods_by_hand(void) {
    static const struct {
        const char *digits;
        unsigned length;
    } periods[] = {{"0", 0},        {"1", 1},        {"00", 0},       {"11", 1},       {"01", 2},       {"10", 2},       {"0000", 0},
                   {"1111", 1},     {"0101", 2},     {"1100", 3},     {"0110", 3},     {"0001", 4},     {"1101", 4},     {"10011010", 7},
                   {"00000000", 0}, {"11111111", 1}, {"10101010", 2}, {"00110011", 3}, {"01000100", 4}, {"00001111", 5}, {"01011010", 5},
                   {"10100000", 6}, {"00000011", 7}, {"10010000", 7}, {"00000001", 8}, {"10000000", 8}, {"01111111", 8}};
    for (size_t i = 0; i < sizeof periods / sizeof *periods; i++) {
        uint64_t bits = 0;
        unsigned n = (unsigned)strlen(periods[i].digits);
        for (unsigned j = 0; j < n; j++) bits |= (uint64_t)(periods[i].digits[j] == '1') << j;
        has_length(bits, n, periods[i].length);
    }
    for (unsigned n = 1; n <= 64; n *= 2) {
        uint64_t ones = UINT64_MAX >> (64 - n);
        has_length(0, n, 0), has_length(ones, n, 1);
        for (unsigned i = 0; i < n; i++) has_length((uint64_t)1 << i, n, n);
        if (n > 1) has_length(ones >> n / 2, n, n / 2 + 1), has_length(ones / 3, n, 2);
    }
}

/* Every period of up to 8 digits, lent once and more than once; the records of two periods and of more terms. */
static void short_periods(void) {
    for (unsigned n = 1; n <= 8; n *= 2)
        for (uint64_t bits = 0; bits < (uint64_t)1 << n; bits++) {
            unsigned least = least_by_trying(bits, n);
            uint64_t repeated = bits;
            check_length(least_by_elimination(bits, n) == least, bits, n, least, "by elimination");
            for (unsigned k = n; k <= 64; repeated |= repeated << k % 64, k *= 2) has_length(repeated, k, least);
            const unsigned counts[] = {2 * n, 2 * n + 1, 3 * n, 128};
            for (size_t i = 0; i < 4; i++) check_length(length_in_record(bits, n, counts[i]) == least, bits, n, least, "in a record");
        }
}

/* Every period of 16 digits, one in 61 with the record of two. */
static void periods_of_16(void) {
    for (uint64_t bits = 0; bits < 65536; bits++) {
        unsigned least = least_by_elimination(bits, 16);
        if (bits % 61 == 0)
            both_have_length(bits, 16, least);
        else
            has_length(bits, 16, least);
    }
}

/* Up to 4 digits, for every number of terms: below two periods the length is never larger, and from there on the same. */
static void fewer_terms(void) {
    for (unsigned n = 1; n <= 4; n *= 2)
        for (uint64_t bits = 0; bits < (uint64_t)1 << n; bits++) {
            unsigned least = least_by_trying(bits, n);
            for (unsigned k = 0; k <= 24; k++) {
                unsigned length = length_in_record(bits, n, k);
                check(k < 2 * n ? length <= least : length == least, "some terms of a period");
            }
        }
    check(length_in_record(1, 2, 2) == 1 && length_in_record(1, 2, 4) == 2, "1,0 has length 1, 1,0,1,0 has 2");
}

static uint64_t some_bits(void) {
    static uint64_t state = 1;
    uint64_t z = state += UINT64_C(0x9E3779B97F4A7C15);
    z = (z ^ z >> 30) * UINT64_C(0xBF58476D1CE4E5B9);
    z = (z ^ z >> 27) * UINT64_C(0x94D049BB133111EB);
    return z ^ z >> 31;
}

/* Every length of every size. In how many ways j of i things can be taken, for i = 0, 1, .., is modulo 2 a sequence of length j + 1: its
 * differences are that for j - 1, and for j = 0 all terms are 1. Sums with smaller j have this length too. A term is odd where i has all the
 * binary digits of j. */
static void lengths_given(void) {
    for (unsigned n = 1; n <= 64; n *= 2)
        for (unsigned length = 0; length <= n; length++)
            for (unsigned times = 0; times < 4; times++) {
                uint64_t bits = 0, chosen = some_bits();
                for (unsigned j = 0; j < length; j++)
                    for (unsigned i = j; i < n && (j + 1 == length || digit(chosen, j)); i++) bits ^= (uint64_t)((i & j) == j) << i;
                check_length(least_by_elimination(bits, n) == length, bits, n, length, "by elimination");
                both_have_length(bits, n, length);
            }
}

static void random_periods(void) {
    for (unsigned times = 0; times < 400; times++)
        for (unsigned n = 32; n <= 64; n *= 2) {
            uint64_t bits = some_bits() >> (64 - n);
            both_have_length(bits, n, least_by_elimination(bits, n));
        }
}

/* What `generate` fills is handed on: with a = (1 + x)^l and b = 1 the sequence has the length l, and repeats after 64 terms. */
static void runs_as_periods(void) {
    for (unsigned l = 0; l <= 64; l++) {
        lend(&a, 2 * 129, 0), lend(&b, 2 * 128, 0), lend(&cells, 2 * 64, 0x5A);
        for (unsigned i = 0; i <= l; i++) put(start(&a), i, (l & i) == i);
        if (l > 0) put(start(&b), 0, 1);
        check(generate(2, &a, &b, l, &cells) == 0 && period_length(&cells) == 256 * l, "a run of 64 cells as a period");
    }
}

/* One digit above 1 at each place, several of them, and nothing but such; some have a low byte of 0 or 1. */
static void digits_above_1(void) {
    static const unsigned wrong[] = {2, 3, 255, 256, 257, 512, 32768, 65280, 65281, 65535};
    for (unsigned n = 1; n <= 64; n *= 2)
        for (unsigned place = 0; place < n; place++) {
            for (size_t i = 0; i < sizeof wrong / sizeof *wrong; i++) {
                lend_period(UINT64_C(0x9D3B6C5A271E84F1), n);
                put(start(&cells), place, wrong[i]);
                refused_at(period_length(&cells), 3, place, &cells, "one digit above 1");
            }
            put(start(&cells), n - 1, 2);
            refused_at(period_length(&cells), 3, place, &cells, "a digit above 1, and the last one");
            for (unsigned later = place; later < n; later++) put(start(&cells), later, 2 + n - later);
            refused_at(period_length(&cells), 3, place, &cells, "every digit from a place on is above 1");
        }
}

/* What the number of bytes alone says; 0 where it is a period's. */
static unsigned refusal_of_bytes(size_t len) {
    for (size_t n = 1; n <= 64; n *= 2)
        if (len == 2 * n) return 0;
    return len % 2 == 1 ? 5 : 32;
}

/* Every number of bytes up to 520, and some around powers of two: of zeros, and of digits that are all above 1, so that 5 comes before 32 and
 * 32 before 3. */
static void periods_of_other_lengths(void) {
    static const size_t larger[] = {1022, 1023, 1024, 1025, 1026, 2047, 2048, 2049, 2050, 4094, 4095, 4096};
    for (size_t i = 0; i <= 520 + sizeof larger / sizeof *larger; i++) {
        size_t len = i <= 520 ? i : larger[i - 521];
        unsigned refusal = refusal_of_bytes(len);
        char what[64];
        snprintf(what, sizeof what, "%u bytes as a period", (unsigned)len);
        lend(&cells, len, 0);
        refused(period_length(&cells), refusal, &cells, what);
        lend(&cells, len, 0xFF);
        refused(period_length(&cells), refusal == 0 ? 3 : refusal, &cells, what);
    }
}

/* Cut to 16 bits, these numbers of cells or of bytes would be a period's. */
static void very_many_cells(void) {
    static uint8_t zeros[2 * (65536 + 64) + 1];
    called = "period_length, very many cells";
    for (unsigned n = 1; n <= 64; n *= 2) {
        check(diverthrone_period_length(zeros, 2 * (65536 + n)) == 32, "65,536 cells more than a period");
        check(diverthrone_period_length(zeros, 65536 + 2 * n) == 32, "65,536 bytes more than a period");
        check(diverthrone_period_length(zeros, 2 * (65536 + n) + 1) == 5, "65,536 cells and a byte more than a period");
    }
    check(diverthrone_period_length(zeros, 131072) == 32 && diverthrone_period_length(zeros, 65536) == 32, "65,536 and 32,768 cells");
    check(zeros[0] == 0 && memcmp(zeros, zeros + 1, sizeof zeros - 1) == 0, "very many cells stay");
}

/* A period may begin at any address. */
static void at_odd_addresses(void) {
    static uint8_t room[GUARD + 128 + GUARD], before[sizeof room];
    called = "period_length, at an odd address";
    for (unsigned n = 1; n <= 64; n *= 2)
        for (size_t at = GUARD - 8; at <= GUARD + 8; at++) {
            uint64_t bits = some_bits() >> (64 - n);
            memset(room, 0xA5, sizeof room);
            for (unsigned i = 0; i < n; i++) put(room + at, i, digit(bits, i));
            memcpy(before, room, sizeof room);
            check(diverthrone_period_length(room + at, 2 * n) == 256 * least_by_elimination(bits, n), "a period at any address");
            check(memcmp(before, room, sizeof room) == 0, "a period at any address stays");
            put(room + at, n - 1, 256);
            check(diverthrone_period_length(room + at, 2 * n) == 3 + 256 * (n - 1), "its last digit is above 1");
        }
}

/* ---- the census ---- */

enum { TALLY = DIVERTHRONE_TALLY_BYTES, LENGTHS = TALLY / 2, MOST = 4096 };

/* Of the records of all sequences and of the tallies of one term, one in so many is made. */
static unsigned every = 16;

/* m^n, or 0 where it is above 4,096. */
static unsigned power(unsigned m, unsigned n) {
    unsigned p = 1;
    for (unsigned i = 0; i < n && p > 0; i++) p = p * m > MOST ? 0 : p * m;
    return p;
}

/* The next sequence in dictionary order; 0 after the last. */
static int next(unsigned m, unsigned n, unsigned *terms) {
    while (n > 0 && ++terms[n - 1] == m) terms[--n] = 0;
    return n > 0;
}

static void numbers_by_hand(void) {
    static const struct {
        unsigned m, n, number, terms[LENGTHS];
    } some[] = {
        {2, 0, 0, {0}},          {4095, 0, 0, {0}},           {2, 1, 0, {0}},       {2, 1, 1, {1}},        {4095, 1, 4094, {4094}},
        {4095, 1, 256, {256}},   {4093, 1, 255, {255}},       {2, 3, 0, {0, 0, 0}}, {2, 3, 1, {0, 0, 1}},  {2, 3, 3, {0, 1, 1}},
        {2, 3, 4, {1, 0, 0}},    {2, 3, 6, {1, 1, 0}},        {2, 3, 7, {1, 1, 1}}, {10, 3, 7, {0, 0, 7}}, {10, 3, 70, {0, 7, 0}},
        {10, 3, 275, {2, 7, 5}}, {10, 3, 999, {9, 9, 9}},     {64, 2, 63, {0, 63}}, {64, 2, 64, {1, 0}},   {64, 2, 4095, {63, 63}},
        {16, 3, 256, {1, 0, 0}}, {16, 3, 2748, {10, 11, 12}}, {2, 12, 2048, {1}},   {3, 7, 729, {1}},      {4, 6, 27, {0, 0, 0, 1, 2, 3}}};
    for (size_t i = 0; i < sizeof some / sizeof *some; i++) {
        char what[64];
        snprintf(what, sizeof what, "number %u of %u terms modulo %u", some[i].number, some[i].n, some[i].m);
        make_query(&want, some[i].m, some[i].terms, some[i].n);
        lend(&q, QUERY, 0x5A);
        check(enumerate(some[i].m, some[i].n, some[i].number, &q) == 0, what);
        check(memcmp(start(&q), start(&want), QUERY) == 0, what);
    }
}

/* For 6 and 12 the counts of lengths up to l are the products of those for the parts that are prime to each other, as for merged queries. */
static void tallies_by_hand(void) {
    static const struct {
        unsigned m, n, counts[LENGTHS];
    } some[] = {{2, 0, {1}},
                {4095, 0, {1}},
                {2, 1, {1, 1}},
                {4, 1, {1, 3}},
                {4095, 1, {1, 4094}},
                {2, 2, {1, 2, 1}},
                {3, 2, {1, 6, 2}},
                {4, 2, {1, 10, 5}},
                {6, 2, {1, 20, 15}},
                {12, 2, {1, 76, 67}},
                {61, 2, {1, 3660, 60}},
                {64, 2, {1, 2730, 1365}},
                {2, 3, {1, 2, 4, 1}},
                {3, 3, {1, 6, 18, 2}},
                {2, 4, {1, 2, 8, 4, 1}},
                {6, 4, {1, 20, 650, 514, 111}},
                {5, 5, {1, 20, 500, 2500, 100, 4}},
                {2, 12, {1, 2, 8, 32, 128, 512, 2048, 1024, 256, 64, 16, 4, 1}}};
    for (size_t i = 0; i < sizeof some / sizeof *some; i++) {
        char what[64];
        snprintf(what, sizeof what, "the tally of %u terms modulo %u", some[i].n, some[i].m);
        lend(&cells, TALLY, 0xFF);
        check(tally(some[i].m, some[i].n, &cells) == 0, what);
        for (size_t l = 0; l < LENGTHS; l++) check(diverthrone_cell(start(&cells), l) == some[i].counts[l], what);
    }
}

/* The census makes very many calls, so their buffer has less around it. `due` is what it should hold after one, with the bytes around it. */
static uint8_t room[GUARD + 2 * QUERY + GUARD], due[sizeof room];

static void lend_room(size_t len) {
    memset(due, 0xA5, sizeof due);
    memset(due + GUARD, 0x5A, len);
    memcpy(room, due, sizeof due);
}

/* What a failure needs to be found again is put together only for one. */
static void check_census(int ok, uint32_t m, uint32_t n, uint64_t number, const char *what) {
    char text[128] = "";
    if (!ok)
        snprintf(text, sizeof text, "%s: modulus %lu, count %lu, number %llu", what, (unsigned long)m, (unsigned long)n,
                 (unsigned long long)number);
    check(ok, text);
}

static void enumerate_in_room(uint64_t reply, uint32_t m, uint32_t n, uint64_t number, size_t len) {
    called = "enumerate";
    check_census(diverthrone_enumerate(m, n, number, room + GUARD, len) == reply, m, n, number, "the reply");
    check_census(memcmp(room, due, sizeof room) == 0, m, n, number, "the query and what is around it");
}

static void tally_in_room(uint64_t reply, uint32_t m, uint32_t n, size_t len) {
    called = "tally";
    check_census(diverthrone_tally(m, n, room + GUARD, len) == reply, m, n, 0, "the reply");
    check_census(memcmp(room, due, sizeof room) == 0, m, n, 0, "the cells and what is around them");
}

static void not_enumerated(unsigned refusal, uint32_t m, uint32_t n, uint64_t number, size_t len) {
    lend_room(len);
    enumerate_in_room(refusal, m, n, number, len);
}

static void not_tallied(unsigned refusal, uint32_t m, uint32_t n, size_t len) {
    lend_room(len);
    tally_in_room(refusal, m, n, len);
}

static void enumerated(unsigned m, unsigned n, unsigned number, const unsigned *terms) {
    lend_room(QUERY);
    memset(due + GUARD, 0, QUERY);
    put(due + GUARD, 0, m), put(due + GUARD, 1, n);
    for (unsigned i = 0; i < n; i++) put(due + GUARD, 2 + i, terms[i]);
    enumerate_in_room(0, m, n, number, QUERY);
}

static void tallied(unsigned m, unsigned n, const unsigned counts[LENGTHS]) {
    lend_room(TALLY);
    for (size_t l = 0; l < LENGTHS; l++) put(due + GUARD, l, counts[l]);
    tally_in_room(0, m, n, TALLY);
}

/* Whether from place l on each term is a sum of the l terms before it, with the same coefficients: every list of them is tried. */
static int has_register(unsigned m, unsigned n, const unsigned *terms, unsigned l) {
    unsigned list[LENGTHS] = {0};
    do {
        unsigned place = l, left = 0;
        for (; place < n && left == 0; place++) {
            left = terms[place];
            for (unsigned i = 0; i < l; i++) left += list[i] * terms[place - 1 - i];
            left %= m;
        }
        if (left == 0) return 1;
    } while (next(m, l, list));
    return 0;
}

static unsigned least_of_lists(unsigned m, unsigned n, const unsigned *terms) {
    unsigned l = 0;
    while (!has_register(m, n, terms, l)) l++;
    return l;
}

static int is_prime(unsigned m) {
    for (unsigned d = 2; d * d <= m; d++)
        if (m % d == 0) return 0;
    return 1;
}

static unsigned inverse(unsigned m, unsigned x) {
    unsigned y = 1;
    while (x * y % m != 1) y++;
    return y;
}

/* The least length modulo a prime by Massey's rule: where a fails, a multiple of b is taken off it, moved by so many places. b is the a that
 * failed when the length last grew. */
static unsigned least_of_prime(unsigned m, unsigned n, const unsigned *terms) {
    unsigned a[LENGTHS + 1] = {1}, b[LENGTHS + 1] = {1}, kept[LENGTHS + 1], l = 0, moved = 1, failed = 1;
    for (unsigned k = 0; k < n; k++, moved++) {
        unsigned off = 0;
        for (unsigned i = 0; i <= l; i++) off += a[i] * terms[k - i];
        off %= m;
        if (off == 0) continue;
        memcpy(kept, a, sizeof a);
        unsigned times = off * inverse(m, failed) % m;
        for (unsigned i = moved; i <= LENGTHS; i++) a[i] = (a[i] + (m - times) * b[i - moved]) % m;
        if (2 * l > k) continue;
        l = k + 1 - l, failed = off, moved = 0;
        memcpy(b, kept, sizeof b);
    }
    return l;
}

/* (m - 1) m^min(2n - 2l, 2l - 1) for a prime. */
static void meets_formula(unsigned m, unsigned n, const unsigned *counts) {
    for (unsigned l = 1; l <= n; l++) {
        unsigned e = 2 * n - 2 * l < 2 * l - 1 ? 2 * n - 2 * l : 2 * l - 1;
        check_census(counts[l] == (m - 1) * power(m, e), m, n, l, "the formula for a prime");
    }
}

static unsigned common(unsigned x, unsigned y) { return y == 0 ? x : common(y, x % y); }

/* Two terms have a length up to 1 where the second is a multiple of the first; x has m / gcd(x, m) multiples modulo m. */
static void meets_multiples(unsigned m, const unsigned *counts) {
    unsigned pairs = 0;
    for (unsigned x = 0; x < m; x++) pairs += m / common(x, m);
    check_census(counts[0] + counts[1] == pairs, m, 2, 0, "two terms, the second a multiple of the first");
}

static void meets_words(unsigned m, unsigned n, const unsigned *counts) {
    unsigned sum = 0;
    for (unsigned l = 0; l < LENGTHS; l++) sum += counts[l];
    check_census(sum == power(m, n) && counts[0] == 1, m, n, 0, "the sum and cell 0");
    if (is_prime(m)) meets_formula(m, n, counts);
    if (n == 2) meets_multiples(m, counts);
}

/* The sequence at its number, and that its query has a record, with the least length. */
static void one_sequence(unsigned m, unsigned n, unsigned number, const unsigned *terms, unsigned length) {
    uint8_t record[RECORD];
    enumerated(m, n, number, terms);
    if (is_prime(m)) check_census(least_of_prime(m, n, terms) == length, m, n, number, "the least length in two ways");
    if (number % every != 0) return;
    check_census(diverthrone_synthesize(room + GUARD, QUERY, record, RECORD) == 0, m, n, number, "its record");
    check_census(diverthrone_cell(record + DIVERTHRONE_LENGTH_PLACE, 0) == length, m, n, number, "the length in its record");
}

/* Every sequence in dictionary order, and then the tally. */
static void all_sequences(unsigned m, unsigned n) {
    unsigned terms[LENGTHS] = {0}, counts[LENGTHS] = {0}, number = 0;
    do {
        unsigned length = least_of_lists(m, n, terms);
        one_sequence(m, n, number, terms, length);
        counts[length]++, number++;
    } while (next(m, n, terms));
    meets_words(m, n, counts);
    tallied(m, n, counts);
}

/* Every modulus and count with more than one term, and one term modulo the largest prime and the largest modulus. */
static void whole_census(void) {
    for (unsigned m = 2; m <= 64; m++)
        for (unsigned n = 2; power(m, n) > 0; n++) all_sequences(m, n);
    all_sequences(4093, 1), all_sequences(4095, 1);
}

/* One term has length 0 where it is 0, else 1. */
static void one_term_tallied(unsigned m) {
    const unsigned counts[LENGTHS] = {1, m - 1};
    meets_words(m, 1, counts);
    tallied(m, 1, counts);
}

/* Modulo some primes or all of them, and modulo some other numbers. */
static void one_term(void) {
    static const unsigned others[] = {4, 6, 8, 9, 60, 64, 210, 256, 257 * 3, 2048, 2310, 3600, 4092, 4094};
    unsigned primes = 0;
    for (unsigned m = 2; m <= 4095; m++)
        if (is_prime(m) && (primes++ % every == 0 || m < 64)) one_term_tallied(m);
    for (size_t i = 0; i < sizeof others / sizeof *others; i++) one_term_tallied(others[i]);
}

static void no_terms(void) {
    const unsigned counts[LENGTHS] = {1};
    for (unsigned m = 2; m <= 4095; m++) {
        enumerated(m, 0, 0, counts);
        not_enumerated(33, m, 0, 1, QUERY);
        tallied(m, 0, counts);
    }
}

/* The first number, the last, and some past it; cut to 32 or 16 bits, these would be numbers of sequences. */
static void ends_of_numbers(void) {
    for (unsigned m = 2; m <= 4095; m++)
        for (unsigned n = 1; power(m, n) > 0; n++) {
            unsigned zeros[LENGTHS] = {0}, last[LENGTHS], p = power(m, n);
            const uint64_t past[] = {
                p, p + 1, 65536, 65536 + p - 1, UINT64_C(1) << 32, (UINT64_C(1) << 32) + p - 1, UINT64_C(1) << 63, UINT64_MAX};
            for (unsigned i = 0; i < LENGTHS; i++) last[i] = m - 1;
            enumerated(m, n, 0, zeros), enumerated(m, n, p - 1, last);
            for (size_t i = 0; i < (m <= 64 ? sizeof past / sizeof *past : 1); i++) not_enumerated(33, m, n, past[i], QUERY);
        }
}

/* Powers above 4,096; cut to some bits, many of them would be below it, and those of 2 would be 0. */
static void powers_above(void) {
    for (unsigned m = 2; m <= 4095; m++) {
        unsigned n = 2;
        while (power(m, n) > 0) n++;
        for (; n <= 128; n = m <= 64 ? n + 1 : 2 * n) not_enumerated(33, m, n, 0, QUERY), not_tallied(33, m, n, TALLY);
    }
}

/* The refusal in the order of the header; `wanted` is the length that the buffer should have. */
static unsigned census_refusal(size_t wanted, size_t len, uint32_t m, uint32_t n, uint64_t number) {
    if (len != wanted) return 5;
    if (m < 2 || m > 4095) return 1;
    if (n > 128) return 2;
    return number < power(m, n) ? 0 : 33;
}

/* Moduli, counts, numbers and lengths at their ends, and such that would be others if they were cut: each with each. */
static const uint32_t census_moduli[] = {0, 1, 2, 4, 16, 17, 64, 65, 4095, 4096, 65535, 65536, 65538, 0x80000002, 0xFFFFFFFF};
static const uint32_t census_counts[] = {0, 1, 2, 3, 12, 13, 128, 129, 130, 256, 259, 65536, 65539, 0x80000003, 0xFFFFFFFF};
static const uint64_t census_numbers[] = {0, 1, 7, 8, 4095, 4096, 65536, 65537, UINT64_C(4294967296), UINT64_C(4294967297), UINT64_MAX};
static const size_t census_lens[] = {0, 1, 13, 24, 25, 26, 27, 28, 52, 130, 258, 259, 260, 261, 262, 516, 520};

enum { MODULI = sizeof census_moduli / sizeof *census_moduli, COUNTS_TRIED = sizeof census_counts / sizeof *census_counts };

static void each_number(size_t len, uint32_t m, uint32_t n) {
    for (size_t i = 0; i < sizeof census_numbers / sizeof *census_numbers; i++) {
        unsigned refusal = census_refusal(QUERY, len, m, n, census_numbers[i]);
        if (refusal != 0) not_enumerated(refusal, m, n, census_numbers[i], len);
    }
}

static void census_refusals(void) {
    for (size_t i = 0; i < sizeof census_lens / sizeof *census_lens; i++)
        for (size_t j = 0; j < (size_t)MODULI * COUNTS_TRIED; j++) {
            uint32_t m = census_moduli[j / COUNTS_TRIED], n = census_counts[j % COUNTS_TRIED];
            unsigned refusal = census_refusal(TALLY, census_lens[i], m, n, 0);
            if (refusal != 0) not_tallied(refusal, m, n, census_lens[i]);
            each_number(census_lens[i], m, n);
        }
}

/* The order of the refusals by hand; a buffer is a byte short with 5. */
static void census_order(void) {
    static const struct {
        unsigned refusal;
        uint32_t m, n;
        uint64_t number;
    } some[] = {{5, 2, 3, 0},   {5, 1, 3, 0},      {5, 2, 129, 0},  {5, 2, 13, 0},   {5, 2, 3, 8},    {5, 1, 129, 8},     {1, 1, 3, 0},
                {1, 1, 13, 0},  {1, 0, 129, 0},    {1, 4096, 1, 0}, {1, 1, 3, 8},    {1, 4096, 2, 0}, {1, 1, 129, 8},     {2, 2, 129, 0},
                {2, 2, 129, 1}, {2, 4095, 129, 0}, {33, 2, 13, 0},  {33, 2, 128, 0}, {33, 65, 2, 0},  {33, 4095, 128, 0}, {33, 17, 3, 0}};
    for (size_t i = 0; i < sizeof some / sizeof *some; i++) {
        size_t less = some[i].refusal == 5;
        not_enumerated(some[i].refusal, some[i].m, some[i].n, some[i].number, QUERY - less);
        not_tallied(some[i].refusal, some[i].m, some[i].n, TALLY - less);
    }
    not_enumerated(33, 2, 3, 8, QUERY), not_enumerated(33, 2, 0, 1, QUERY), not_enumerated(33, 4095, 1, 4095, QUERY);
}

/* A query and the cells may begin at any address. */
static void census_at_odd_addresses(void) {
    static const uint8_t number_6[] = {2, 0, 3, 0, 1, 0, 1}, counts[] = {1, 0, 2, 0, 4, 0, 1};
    called = "enumerate and tally, at an odd address";
    for (size_t at = GUARD - 8; at <= GUARD + 8; at++) {
        memset(room, 0xA5, sizeof room), memset(due, 0xA5, sizeof due);
        memset(due + at, 0, QUERY), memcpy(due + at, number_6, sizeof number_6);
        check(diverthrone_enumerate(2, 3, 6, room + at, QUERY) == 0 && memcmp(room, due, sizeof room) == 0, "a query at any address");
        memset(room, 0xA5, sizeof room), memset(due, 0xA5, sizeof due);
        memset(due + at, 0, TALLY), memcpy(due + at, counts, sizeof counts);
        check(diverthrone_tally(2, 3, room + at, TALLY) == 0 && memcmp(room, due, sizeof room) == 0, "cells at any address");
    }
}

/* ---- batches ---- */

enum { BATCH = DIVERTHRONE_MAX_QUERIES, LENT = BATCH + 3, LENT_NUMBERS = 8 * LENT };

/* What a batch is lent. Guards stand around the two buffers that it writes; `due_records` and `due_replies` are what they should hold after
 * the call, with the guards. */
static struct {
    uint8_t queries[LENT * QUERY], records[GUARD + LENT * RECORD + GUARD], due_records[GUARD + LENT * RECORD + GUARD];
    uint64_t replies[GUARD + LENT_NUMBERS + GUARD], due_replies[GUARD + LENT_NUMBERS + GUARD];
    const uint8_t *catalogue;
    size_t queries_len, catalogue_len, records_len, replies_len;
} batch;

static uint8_t *query_at(size_t i) { return batch.queries + i * QUERY; }

static uint8_t *due_record(size_t i) { return batch.due_records + GUARD + i * RECORD; }

static size_t guarded_bytes(size_t len) { return GUARD + len + GUARD; }

/* Lengths are in bytes, but of the replies in numbers. Each byte lent for writing is `fill`, also in the numbers. */
static void lend_lengths(size_t queries_len, size_t records_len, size_t replies_len, int fill) {
    batch.queries_len = queries_len, batch.records_len = records_len, batch.replies_len = replies_len;
    memset(batch.due_records, 0xA5, guarded_bytes(records_len));
    memset(batch.due_records + GUARD, fill, records_len);
    memcpy(batch.records, batch.due_records, guarded_bytes(records_len));
    memset(batch.due_replies, 0xA5, 8 * guarded_bytes(replies_len));
    memset(batch.due_replies + GUARD, fill, 8 * replies_len);
    memcpy(batch.replies, batch.due_replies, 8 * guarded_bytes(replies_len));
}

static void lend_batch(size_t n, int fill) { lend_lengths(n * QUERY, n * RECORD, n, fill); }

/* The reply, what is only read, and both written buffers with what is around them. */
static void batch_replies(uint64_t who, uint64_t reply, const char *what) {
    static uint8_t queries[LENT * QUERY], catalogue[LENT * RECORD];
    size_t some = batch.catalogue_len < sizeof catalogue ? batch.catalogue_len : sizeof catalogue;
    called = "look_up_batch";
    memcpy(queries, batch.queries, batch.queries_len), memcpy(catalogue, batch.catalogue, some);
    uint64_t got = diverthrone_look_up_batch(batch.queries, batch.queries_len, batch.catalogue, batch.catalogue_len, who,
                                             batch.records + GUARD, batch.records_len, batch.replies + GUARD, batch.replies_len);
    check(got == reply, what);
    check(memcmp(batch.records, batch.due_records, guarded_bytes(batch.records_len)) == 0, what);
    check(memcmp(batch.replies, batch.due_replies, 8 * guarded_bytes(batch.replies_len)) == 0, what);
    check(memcmp(queries, batch.queries, batch.queries_len) == 0, "look_up_batch leaves the queries");
    check(memcmp(catalogue, batch.catalogue, some) == 0, "look_up_batch leaves the catalogue");
}

static uint64_t counted(uint64_t found, uint64_t made, uint64_t refusals) { return 256 * (found + 256 * made + 65536 * refusals); }

/* A record with its query, number by number. */
struct entry {
    unsigned m, n, terms[6], l, a[4], b[6], number;
};

static void write_entry(uint8_t *at, const struct entry *e) {
    memset(at, 0, RECORD);
    put(at, 0, e->m), put(at, 1, e->n);
    put(at + DIVERTHRONE_LENGTH_PLACE, 0, e->l), put(at + DIVERTHRONE_NUMBER_PLACE, 0, e->number);
    for (size_t i = 0; i < 6; i++) put(at, 2 + i, e->terms[i]), put(at + DIVERTHRONE_B_PLACE, i, e->b[i]);
    for (size_t i = 0; i < 4; i++) put(at + DIVERTHRONE_A_PLACE, i, e->a[i]);
}

/* Nothing here comes from another call: a catalogue of case 9 alone; then case 9 is found, case 3 made, a term refused, case 9 found again,
 * and a modulus refused. */
static void batch_by_hand(void) {
    static const struct entry on_it = {7, 6, {1, 1, 2, 3, 5, 1}, 2, {1, 6, 6}, {1, 0}, 0x0201},
                              case_3 = {9, 5, {6, 3, 1, 5, 6}, 3, {1, 4, 7, 1}, {6, 0, 1}, 0};
    static const uint64_t replies[] = {256, 0, 3 + 256 * 4, 256, 1};
    uint8_t one[RECORD], seen[RECORD], made[RECORD];
    write_entry(one, &on_it), write_entry(made, &case_3);
    for (int editor = 0; editor < 2; editor++) {
        batch.catalogue = one, batch.catalogue_len = RECORD;
        lend_batch(5, 0x5A);
        memcpy(seen, one, RECORD);
        if (!editor) memset(seen + 776, 0, 2);
        for (size_t i = 0; i < 5; i++) memcpy(query_at(i), i == 0 || i == 3 ? one : made, QUERY);
        query_at(2)[12] = 9, query_at(4)[0] = 1;
        memcpy(due_record(0), seen, RECORD), memcpy(due_record(1), made, RECORD), memset(due_record(2), 0, RECORD);
        memcpy(due_record(3), seen, RECORD), memset(due_record(4), 0, RECORD);
        memcpy(batch.due_replies + GUARD, replies, sizeof replies);
        batch_replies(editor ? 1 : 2, UINT64_C(33620480), "2 found, 1 made, 2 refused");
    }
    check(diverthrone_batch_found(33620480) == 2 && diverthrone_batch_made(33620480) == 1, "2 found and 1 made");
    check(diverthrone_batch_refused(33620480) == 2, "2 refused");
}

/* The catalogue that most batches are looked up in, by place; behind these stands a record of 128 terms. Some have a = 1 and b = S, which
 * passes the test but is not what would be made. */
static const struct entry entries[] = {
    {7, 6, {1, 1, 2, 3, 5, 1}, 2, {1, 6, 6}, {1, 0}, 7},
    {27, 5, {6, 3, 1, 5, 6}, 5, {1}, {6, 3, 1, 5, 6}, 65535},     /* case 3's terms modulo 27 */
    {9, 5, {6, 3, 1, 5, 6}, 3, {1, 4, 7, 1}, {6, 0, 1}, 0x1234},  /* case 3 */
    {9, 5, {6, 3, 1, 5, 6}, 5, {1}, {6, 3, 1, 5, 6}, 9},          /* and once more */
    {5, 2, {1, 2}, 1, {1, 2}, {1}, 255},                          /* fails its test */
    {5, 2, {1, 2}, 1, {1, 3}, {1}, 256},                          /* good, behind the one that fails */
    {5, 2, {1, 3}, 129, {1, 2}, {1}, 1},                          /* too long */
    {5, 2, {1, 4}, 1, {1, 6}, {1}, 2},                            /* a_1 is not below m, but fits modulo m */
    {5, 2, {2, 1}, 2, {2}, {4, 2}, 0},                            /* a_0 is 2 */
    {1, 1, {0}, 0, {1}, {0}, 3},                                  /* of queries that are refused */
    {9, 2, {6, 9}, 2, {1}, {6}, 4},
    {9, 2, {6, 3, 1}, 2, {1}, {6, 3}, 5},
    {2, 0, {0}, 0, {1}, {0}, 1}};

enum { ENTRIES = sizeof entries / sizeof *entries, SHELF = ENTRIES + 1 };

static uint8_t shelf[SHELF * RECORD];

/* Queries with their replies. The terms past the first six are `rest` up to the count; the last cell is `last` if that is not 0. */
static const struct kind {
    unsigned m, n, terms[6], rest, last;
    uint64_t reply;
    const char *what;
} kinds[] = {{7, 6, {1, 1, 2, 3, 5, 1}, 0, 0, 256 * 1, "found at the first place"},
             {27, 5, {6, 3, 1, 5, 6}, 0, 0, 256 * 2, "found by its modulus"},
             {9, 5, {6, 3, 1, 5, 6}, 0, 0, 256 * 3, "found at the first of two places"},
             {2, 0, {0}, 0, 0, 256 * 13, "no terms, found"},
             {4095, 128, {0x0E0D, 0x0E0D, 0x0E0D, 0x0E0D, 0x0E0D, 0x0E0D}, 0x0E0D, 0, 256 * 14, "128 terms, found at the last place"},
             {11, 5, {6, 3, 1, 5, 6}, 0, 0, 0, "made, with terms that are there by another modulus"},
             {9, 4, {6, 3, 1, 5}, 0, 0, 0, "made, with four terms that are there"},
             {9, 5, {6, 3, 1, 5, 7}, 0, 0, 0, "made, with another last term"},
             {3, 0, {0}, 0, 0, 0, "no terms, made"},
             {2, 128, {1, 1, 1, 1, 1, 1}, 1, 0, 0, "128 terms, made"},
             {0, 5, {6, 3, 1, 5, 6}, 0, 0, 1, "modulus 0"},
             {1, 1, {0}, 0, 0, 1, "modulus 1, and there is a record of it"},
             {4096, 5, {6, 3, 1, 5, 6}, 0, 0, 1, "modulus 4,096"},
             {65535, 0, {0}, 0, 0, 1, "modulus 65,535"},
             {9, 129, {6, 3, 1, 5, 6}, 0, 0, 2, "129 terms"},
             {9, 65535, {9}, 0, 0, 2, "65,535 terms"},
             {9, 5, {9, 3, 1, 5, 9}, 0, 0, 3, "the first term is m"},
             {9, 2, {6, 9}, 0, 0, 3 + 256 * 1, "the second term is m, and there is a record of it"},
             {9, 128, {8, 8, 8, 8, 8, 8}, 8, 9, 3 + 256 * 127, "the last of 128 terms is m"},
             {9, 2, {6, 3, 1}, 0, 0, 4, "a term past the count, and there is a record of it"},
             {9, 5, {6, 3, 1, 5, 6}, 0, 65535, 4, "the last cell past the count"},
             {5, 2, {1, 2}, 0, 0, 24, "the record found fails its test, and a good one is behind it"},
             {5, 2, {1, 3}, 0, 0, 24, "the record found is too long"},
             {5, 2, {1, 4}, 0, 0, 24, "the record found has a coefficient that is not below m"},
             {5, 2, {2, 1}, 0, 0, 24, "the record found has 2 for a_0"}};

enum { KINDS = sizeof kinds / sizeof *kinds };

static uint8_t kind_queries[KINDS][QUERY];

/* What each kind gets for its record, a visitor and an editor. */
static uint8_t kind_parts[2][KINDS][RECORD];

static void write_kind(uint8_t *at, const struct kind *k) {
    memset(at, 0, QUERY);
    put(at, 0, k->m), put(at, 1, k->n);
    for (size_t i = 0; i < 128; i++) put(at, 2 + i, i < 6 ? k->terms[i] : i < k->n ? k->rest : 0);
    if (k->last != 0) put(at, 2 + 127, k->last);
}

/* Zeros where it is refused, the record at its place where it is found, and what synthesize makes otherwise. */
static void write_part(uint8_t *at, size_t kind, int editor) {
    uint64_t reply = kinds[kind].reply;
    memset(at, 0, RECORD);
    if (reply == 0) check(diverthrone_synthesize(kind_queries[kind], QUERY, at, RECORD) == 0, kinds[kind].what);
    if (reply % 256 != 0 || reply == 0) return;
    memcpy(at, shelf + (reply / 256 - 1) * RECORD, RECORD);
    if (!editor) memset(at + DIVERTHRONE_NUMBER_PLACE, 0, 2);
}

/* Number i of the catalogue, in place of the one in its entry, if `numbered`. */
static void make_shelf(int numbered) {
    uint8_t *last = shelf + ENTRIES * RECORD;
    for (size_t i = 0; i < ENTRIES; i++) write_entry(shelf + i * RECORD, &entries[i]);
    memset(last, 0, RECORD);
    write_kind(last, &kinds[4]);
    put(last + DIVERTHRONE_LENGTH_PLACE, 0, 128), put(last + DIVERTHRONE_A_PLACE, 0, 1), put(last + DIVERTHRONE_NUMBER_PLACE, 0, 0x0100);
    for (size_t i = 0; i < 128; i++) put(last + DIVERTHRONE_B_PLACE, i, 0x0E0D);
    for (size_t i = 0; numbered && i < SHELF; i++) put(shelf + i * RECORD + DIVERTHRONE_NUMBER_PLACE, 0, (unsigned)(40000 - 77 * i));
}

/* Each kind gets by itself what is due to it in a batch, but for the zeros. */
static void kinds_alone(void) {
    for (size_t k = 0; k < KINDS; k++)
        for (int editor = 0; editor < 2; editor++) {
            uint8_t record[RECORD] = {0};
            called = "look_up";
            uint64_t reply = diverthrone_look_up(kind_queries[k], QUERY, shelf, sizeof shelf, editor ? 1 : 2, record, RECORD);
            check(reply == kinds[k].reply && memcmp(record, kind_parts[editor][k], RECORD) == 0, kinds[k].what);
        }
}

static void make_kinds(int numbered) {
    make_shelf(numbered);
    batch.catalogue = shelf, batch.catalogue_len = sizeof shelf;
    for (size_t k = 0; k < KINDS; k++) {
        write_kind(kind_queries[k], &kinds[k]);
        for (int editor = 0; editor < 2; editor++) write_part(kind_parts[editor][k], k, editor);
    }
    kinds_alone();
}

/* Lends a batch of these kinds, and room with `fill` in each byte; the reply that is due. */
static uint64_t lend_these(const unsigned *of, size_t n, uint64_t who, int fill) {
    uint64_t found = 0, made = 0, refusals = 0;
    lend_batch(n, fill);
    for (size_t i = 0; i < n; i++) {
        uint64_t reply = kinds[of[i]].reply;
        memcpy(query_at(i), kind_queries[of[i]], QUERY);
        memcpy(due_record(i), kind_parts[who == 1][of[i]], RECORD);
        batch.due_replies[GUARD + i] = reply;
        made += reply == 0, refusals += reply % 256 != 0, found += reply != 0 && reply % 256 == 0;
    }
    return counted(found, made, refusals);
}

static void batch_of(const unsigned *of, size_t n, uint64_t who, const char *what) { batch_replies(who, lend_these(of, n, who, 0x5A), what); }

/* Each kind at each place of 16, among queries that are all found, made, or refused. */
static void kinds_at_places(void) {
    static const unsigned others[] = {2, 8, 19};
    unsigned of[BATCH];
    for (unsigned k = 0; k < KINDS; k++)
        for (unsigned place = 0; place < BATCH; place++)
            for (unsigned other = 0; other < 3; other++) {
                if (every > 1 && (k + place) % 3 != other) continue;
                for (size_t i = 0; i < BATCH; i++) of[i] = i == place ? k : others[other];
                batch_of(of, BATCH, place % 2, kinds[k].what);
            }
}

/* Up to 16 times the same query; and each kind before and behind each. */
static void equal_queries(void) {
    unsigned of[BATCH];
    for (unsigned k = 0; k < KINDS; k++) {
        for (size_t i = 0; i < BATCH; i++) of[i] = k;
        batch_of(of, 2, 1, kinds[k].what), batch_of(of, BATCH, 1, kinds[k].what), batch_of(of, BATCH, 0, kinds[k].what);
        for (unsigned other = 0; other < KINDS; other++) {
            of[0] = k, of[1] = other;
            batch_of(of, 2, other % 2, kinds[k].what);
            of[2] = k;
            batch_of(of, 3, k % 2, kinds[k].what);
        }
    }
}

/* 0 to 16 queries, each kind among them, with an editor and a visitor; an empty batch with every catalogue. */
static void counts_of_queries(void) {
    unsigned of[BATCH];
    for (unsigned n = 0; n <= BATCH; n++)
        for (unsigned from = 0; from < KINDS; from += 4) {
            for (unsigned i = 0; i < n; i++) of[i] = (from + 7 * i) % KINDS;
            batch_of(of, n, 1, "so many queries, for an editor"), batch_of(of, n, 0, "so many queries, for a visitor");
        }
    for (size_t i = 0; i <= SHELF; i++) {
        batch.catalogue_len = i * RECORD;
        batch_of(of, 0, 1, "no query");
    }
}

/* Who asks changes no reply; the numbers in the records change nothing for a visitor, whose parts are those of the first catalogue. */
static void batches_for_all(void) {
    static uint8_t first[KINDS][RECORD];
    unsigned of[BATCH];
    memcpy(first, kind_parts[0], sizeof first);
    for (int numbered = 0; numbered < 2; numbered++) {
        make_kinds(numbered);
        check(memcmp(first, kind_parts[0], sizeof first) == 0, "a visitor's parts do not depend on the numbers");
        for (size_t j = 0; j < ASKERS; j++)
            for (unsigned from = 0; from < KINDS; from += 5) {
                for (unsigned i = 0; i < BATCH; i++) of[i] = (from + i) % KINDS;
                batch_of(of, BATCH, askers[j], "1 sees the numbers, any other 0");
            }
    }
    make_kinds(0);
}

/* What the two buffers held does not matter: any byte everywhere, or what another batch has left there. */
static void batches_in_any_room(void) {
    const int step = every > 1 ? 17 : 1;
    unsigned of[KINDS];
    for (unsigned i = 0; i < KINDS; i++) of[i] = i;
    for (int fill = 0; fill < 256; fill += step)
        for (size_t from = 0; from <= KINDS - BATCH; from += KINDS - BATCH)
            batch_replies(fill % 2, lend_these(of + from, BATCH, fill % 2, fill), "whatever was lent");
    for (size_t k = 0; k < KINDS; k++) {
        uint64_t reply = lend_these(of + k % (KINDS - BATCH + 1), BATCH, k % 2, 0);
        for (size_t i = 0; i < BATCH; i++) {
            batch.replies[GUARD + i] = kinds[(i + k) % KINDS].reply;
            memcpy(batch.records + GUARD + i * RECORD, kind_parts[1][(i + k) % KINDS], RECORD);
        }
        batch_replies(k % 2, reply, "in the room of another batch");
    }
}

/* Any kinds, any number of them, anyone. */
static void random_batches(void) {
    unsigned of[BATCH];
    for (unsigned round = 0; round < 2000 / every; round++) {
        uint64_t bits = some_bits();
        size_t n = bits % (BATCH + 1);
        for (size_t i = 0; i < n; i++) of[i] = (unsigned)(some_bits() >> 32) % KINDS;
        batch_of(of, n, round % 2 ? 1 : askers[bits >> 32 & 7], "random kinds");
    }
}

/* In a catalogue of one record or more the kinds of later ones are made. */
static void shorter_catalogues(void) {
    static const unsigned of[] = {0, 1, 2, 3, 4, 2};
    for (size_t records = 0; records <= SHELF; records++) {
        uint64_t found = 0;
        lend_batch(6, 0x5A);
        batch.catalogue_len = records * RECORD;
        for (size_t i = 0; i < 6; i++) {
            int there = kinds[of[i]].reply <= 256 * records;
            memcpy(query_at(i), kind_queries[of[i]], QUERY);
            if (there) memcpy(due_record(i), kind_parts[0][of[i]], RECORD);
            if (!there) check(diverthrone_synthesize(query_at(i), QUERY, due_record(i), RECORD) == 0, "the record that is made");
            batch.due_replies[GUARD + i] = there ? kinds[of[i]].reply : 0;
            found += there;
        }
        batch_replies(0, counted(found, 6 - found, 0), "so many records");
    }
    batch.catalogue_len = sizeof shelf;
}

/* 3 at every place of 128 terms, where those behind it are wrong too. */
static void wrong_terms_in_batches(void) {
    for (unsigned from = 0; from < 128; from += BATCH) {
        lend_batch(BATCH, 0x5A);
        for (unsigned i = 0; i < BATCH; i++) {
            write_kind(query_at(i), &kinds[9]);
            for (unsigned at = from + i; at < 128; at++) put(query_at(i), 2 + at, at % 2 ? 2 : 65535);
            memset(due_record(i), 0, RECORD);
            batch.due_replies[GUARD + i] = 3 + 256 * (from + i);
        }
        batch_replies(1, counted(0, 0, BATCH), "3 carries its place");
    }
}

/* Each malformed candidate of case 3 as the record found, and one that is good behind it. */
static void malformed_in_batches(void) {
    static uint8_t two[2 * RECORD];
    batch.catalogue = two, batch.catalogue_len = sizeof two;
    write_entry(two + RECORD, &entries[2]);
    for (size_t i = 0; i < sizeof flaws / sizeof *flaws; i++) {
        memset(two, 0, RECORD);
        memcpy(two, kind_queries[2], QUERY);
        put(two + DIVERTHRONE_LENGTH_PLACE, 0, flaws[i].l);
        for (size_t j = 0; j < 5; j++) put(two + DIVERTHRONE_A_PLACE, j, flaws[i].a[j]);
        for (size_t j = 0; j < 4; j++) put(two + DIVERTHRONE_B_PLACE, j, flaws[i].b[j]);
        lend_batch(3, 0x5A);
        for (size_t j = 0; j < 3; j++) {
            memcpy(query_at(j), kind_queries[j == 1 ? 5 : 2], QUERY);
            memcpy(due_record(j), kind_parts[0][j == 1 ? 5 : 21], RECORD);
            batch.due_replies[GUARD + j] = j == 1 ? 0 : 24;
        }
        batch_replies(i % 2, counted(0, 1, 2), flaws[i].what);
    }
    batch.catalogue = shelf, batch.catalogue_len = sizeof shelf;
}

/* Query j of 16 that have all terms but the last two in common, and its record: a = 1 and b = S. */
static void write_alike(uint8_t *record, unsigned j) {
    memset(record, 0, RECORD);
    put(record, 0, 4095), put(record, 1, 128);
    put(record + DIVERTHRONE_LENGTH_PLACE, 0, 128), put(record + DIVERTHRONE_A_PLACE, 0, 1);
    put(record + DIVERTHRONE_NUMBER_PLACE, 0, 600 + j);
    for (unsigned i = 0; i < 128; i++) {
        unsigned term = (37 * i * i + 300 * i + 259 + (i < 126 ? 0 : j)) % 4095;
        put(record, 2 + i, term), put(record + DIVERTHRONE_B_PLACE, i, term);
    }
}

/* Before the records of these queries, last first, stand one that has nothing but the first four terms (bytes 4 to 11) in common with query
 * 0, and for each byte one that differs from query 0 there alone. */
static void nearly_found(void) {
    enum { NEAR = 1 + QUERY };
    static uint8_t near_ones[(NEAR + BATCH) * RECORD];
    for (size_t i = 0; i < NEAR; i++) write_alike(near_ones + i * RECORD, 0);
    for (size_t i = 0; i < QUERY; i++)
        if (i < 4 || i >= 12) near_ones[i] ^= 0x55;
    for (size_t i = 0; i < QUERY; i++) near_ones[(1 + i) * RECORD + i] ^= 1;
    for (unsigned j = 0; j < BATCH; j++) write_alike(near_ones + (NEAR + BATCH - 1 - j) * RECORD, j);
    batch.catalogue = near_ones, batch.catalogue_len = sizeof near_ones;
    lend_batch(BATCH, 0x5A);
    for (unsigned j = 0; j < BATCH; j++) {
        write_alike(due_record(j), j);
        memcpy(query_at(j), due_record(j), QUERY);
        batch.due_replies[GUARD + j] = 256 * (NEAR + BATCH - j);
    }
    batch_replies(1, counted(BATCH, 0, 0), "found by all of 260 bytes");
    batch.catalogue_len = NEAR * RECORD;
    lend_batch(2, 0x5A);
    for (unsigned j = 0; j < 2; j++) {
        check(diverthrone_synthesize(query_at(j), QUERY, due_record(j), RECORD) == 0, "the record of a query that is nearly found");
        batch.due_replies[GUARD + j] = 0;
    }
    batch_replies(1, counted(0, 2, 0), "nearly found, and made");
    batch.catalogue = shelf, batch.catalogue_len = sizeof shelf;
}

/* One term t modulo 4,095 at place t, for each t: each is found at its own. */
static void many_first_terms(void) {
    enum { TERMS = 4095 };
    static uint8_t all[TERMS * RECORD];
    for (unsigned t = 0; t < TERMS; t++) {
        const struct entry e = {TERMS, 1, {t}, 1, {1}, {t}, 65535 - t};
        write_entry(all + t * RECORD, &e);
    }
    batch.catalogue = all, batch.catalogue_len = sizeof all;
    for (unsigned from = 0; from < TERMS; from += BATCH * every) {
        lend_batch(BATCH, 0x5A);
        for (unsigned i = 0; i < BATCH; i++) {
            unsigned t = (from + 256 * i) % TERMS;
            memcpy(query_at(i), all + t * RECORD, QUERY);
            memcpy(due_record(i), all + t * RECORD, RECORD);
            batch.due_replies[GUARD + i] = 256 * (1 + t);
        }
        batch_replies(1, counted(BATCH, 0, 0), "each term at its place");
    }
    batch.catalogue = shelf, batch.catalogue_len = sizeof shelf;
}

/* Terms x + 48 i, i modulo 4,095: as numbers to the base 65,536 they are the same modulo 4,099, which the walk divides by. All are found, by
 * a = 1 and b = S; a batch of every other one meets the records between them too. */
static void same_slot(unsigned x) {
    uint8_t all[2 * BATCH * RECORD];
    for (unsigned i = 0; i < 2 * BATCH; i++) {
        const struct entry e = {4095, 2, {x + 48 * i, i}, 2, {1}, {x + 48 * i, i}, 1 + i};
        write_entry(all + i * RECORD, &e);
    }
    batch.catalogue = all, batch.catalogue_len = sizeof all;
    for (unsigned step = 1; step < 3; step++) {
        lend_batch(BATCH, 0x5A);
        for (unsigned i = 0; i < BATCH; i++) {
            memcpy(query_at(i), all + step * i * RECORD, QUERY);
            memcpy(due_record(i), all + step * i * RECORD, RECORD);
            batch.due_replies[GUARD + i] = 256 * (1 + step * i);
        }
        batch_replies(1, counted(BATCH, 0, 0), "one slot for all");
    }
    batch.catalogue = shelf, batch.catalogue_len = sizeof shelf;
}

/* Case 3 as the last of so many records, which are zero but for it. */
static void last_of(uint8_t *records, size_t n) {
    memcpy(records + (n - 1) * RECORD, shelf + 2 * RECORD, RECORD);
    batch.catalogue = records, batch.catalogue_len = n * RECORD;
    lend_batch(3, 0x5A);
    for (size_t i = 0; i < 3; i++) {
        memcpy(query_at(i), kind_queries[i == 1 ? 5 : 2], QUERY);
        memcpy(due_record(i), kind_parts[1][i == 1 ? 5 : 2], RECORD);
        batch.due_replies[GUARD + i] = i == 1 ? 0 : 256 * n;
    }
    batch_replies(1, counted(2, 1, 0), "the last of many records");
    memset(records + (n - 1) * RECORD, 0, RECORD);
    batch.catalogue = shelf, batch.catalogue_len = sizeof shelf;
}

/* Places of more than 8 bits, 776 * 389 bytes as 388 records, and places of more than 16 bits. */
static void batches_in_many_records(void) {
    static const size_t few[] = {1, 15, 255, 256, 257, 388};
    const size_t very_many = 65540;
    uint8_t *records = (uint8_t *)calloc(very_many, RECORD);
    if (records == NULL) {
        check(0, "no memory for many records");
        return;
    }
    for (size_t i = 0; i < sizeof few / sizeof *few; i++) last_of(records, few[i]);
    if (every == 1) last_of(records, 65535), last_of(records, 65536), last_of(records, very_many);
    free(records);
}

/* The refusal of the whole call in the order of the header. */
static unsigned batch_refusal(size_t queries_len, size_t catalogue_len, size_t records_len, size_t replies_len) {
    size_t n = queries_len / QUERY;
    if (queries_len != n * QUERY || records_len != n * RECORD || replies_len != n) return 5;
    if (n > BATCH) return 34;
    return catalogue_len % RECORD == 0 ? 0 : 23;
}

/* The queries are of each kind in turn, so that most have a refusal of their own, which comes behind those of the call. */
static void lend_kinds(void) {
    for (size_t i = 0; i < LENT; i++) memcpy(query_at(i), kind_queries[(5 * i + 3) % KINDS], QUERY);
}

/* Lengths that are refused leave both buffers as they were. */
static void batch_refused(size_t queries_len, size_t catalogue_len, size_t records_len, size_t replies_len) {
    char what[128];
    unsigned refusal = batch_refusal(queries_len, catalogue_len, records_len, replies_len);
    if (refusal == 0) return;
    snprintf(what, sizeof what, "%u for lengths of %lu, %lu, %lu, %lu", refusal, (unsigned long)queries_len, (unsigned long)catalogue_len,
             (unsigned long)records_len, (unsigned long)replies_len);
    batch.catalogue_len = catalogue_len;
    lend_lengths(queries_len, records_len, replies_len, 0x5A);
    batch_replies(records_len % 2, refusal, what);
}

/* For 0 to 18 queries, lengths around each that fits, and such that would fit by another measure: each with each. */
static void batch_lengths(void) {
    static const size_t catalogues[] = {0, 778, 1, 776, 777, 779, 1552, 14 * 776, 14 * 778, 14 * 778 - 2};
    unsigned tried = 0;
    lend_kinds();
    for (size_t n = 0; n <= 18; n++) {
        const size_t q[] = {260 * n, 260 * n + 1, 260 * n + 2, 260 * n + 130, 260 * n + 259};
        const size_t fit = 778 * n, less = n > 0 ? fit - 778 : 0;
        const size_t r[] = {fit, fit + 1, fit + 2, fit + 777, fit + 778, less, less + 776, less + 777, 776 * n, 260 * n, n};
        const size_t p[] = {n, n + 1, n > 0 ? n - 1 : 2, 0, 8 * n, 2 * n};
        for (size_t i = 0; i < 5 * 11 * 6 * 10; i++)
            if (tried++ % (every > 1 ? 19 : 1) == 0) batch_refused(q[i / 660], catalogues[i % 10], r[i / 60 % 11], p[i / 10 % 6]);
    }
    batch.catalogue_len = sizeof shelf;
}

/* By hand: every set of faults with the first refusal in order. */
static void batch_order(void) {
    static const struct {
        unsigned refusal;
        size_t queries, catalogue, records, replies;
        const char *what;
    } some[] = {{5, 519, 1556, 1556, 2, "5: the queries are a byte short"},
                {5, 520, 1556, 1555, 2, "5: the records are a byte short"},
                {5, 520, 1556, 1556, 1, "5: a reply is missing"},
                {5, 520, 1556, 1556, 3, "5: a reply too many"},
                {5, 520, 1556, 1556, 16, "5: the replies counted in bytes"},
                {5, 0, 0, 0, 1, "5: a reply for no query"},
                {5, 0, 0, 778, 0, "5: a record for no query"},
                {5, 519, 1555, 1556, 2, "5 comes before 23, for the queries"},
                {5, 520, 1555, 1555, 2, "5 comes before 23, for the records"},
                {5, 520, 1555, 1556, 3, "5 comes before 23, for the replies"},
                {5, 4421, 1556, 13226, 17, "5 comes before 34, for the queries"},
                {5, 4420, 1556, 13225, 17, "5 comes before 34, for the records"},
                {5, 4420, 1556, 13226, 16, "5 comes before 34, for the replies"},
                {5, 4420, 1556, 12448, 16, "5: 17 queries with what 16 need"},
                {5, 4160, 1556, 13226, 17, "5: 16 queries with what 17 need"},
                {5, 4421, 1555, 13225, 16, "5 comes before 34 and 23, for all three"},
                {34, 4420, 1556, 13226, 17, "34: 17 queries"},
                {34, 4680, 1556, 14004, 18, "34: 18 queries"},
                {34, 4420, 0, 13226, 17, "34: 17 queries, and no record"},
                {34, 4420, 1555, 13226, 17, "34 comes before 23"},
                {23, 4160, 1555, 12448, 16, "23: 16 queries"},
                {23, 260, 776, 778, 1, "23: a catalogue of 776 bytes"},
                {23, 260, 779, 778, 1, "23: a catalogue of 779 bytes"},
                {23, 0, 1, 0, 0, "23: no query"}};
    lend_kinds();
    for (size_t i = 0; i < sizeof some / sizeof *some; i++)
        for (uint64_t who = 0; who < 2; who++) {
            batch.catalogue_len = some[i].catalogue;
            lend_lengths(some[i].queries, some[i].records, some[i].replies, 0x5A);
            batch_replies(who, some[i].refusal, some[i].what);
        }
    batch.catalogue_len = sizeof shelf;
}

/* 23 comes before each refusal that a query has of its own. */
static void catalogue_before_queries(void) {
    batch.catalogue_len = sizeof shelf - 1;
    for (unsigned k = 0; k < KINDS; k++) {
        lend_batch(BATCH, 0x5A);
        for (size_t i = 0; i < BATCH; i++) memcpy(query_at(i), kind_queries[k], QUERY);
        batch_replies(k % 2, 23, kinds[k].what);
    }
    batch.catalogue_len = sizeof shelf;
}

/* 34, and 5 where there is room for the low byte of their number. */
static void so_many(size_t n, uint8_t *bytes, uint64_t *numbers) {
    const size_t queries_len = n * QUERY, low = n % 256;
    uint8_t *records = bytes + queries_len;
    records[0] = 7, numbers[0] = 7;
    uint64_t reply = diverthrone_look_up_batch(bytes, queries_len, shelf, sizeof shelf, 1, records, n * RECORD, numbers, n);
    check(reply == 34 && records[0] == 7 && numbers[0] == 7, "34 for very many queries");
    reply = diverthrone_look_up_batch(bytes, queries_len, shelf, sizeof shelf, 1, records, low * RECORD, numbers, low);
    check(reply == (low == n ? 34 : 5) && records[0] == 7 && numbers[0] == 7, "5 for very many queries with less room");
    records[0] = 0;
}

/* Many queries, also such that would be 16 or less if their number were cut to 8 or 16 bits. */
static void far_too_many(void) {
    static const size_t counts[] = {17, 32, 255, 256, 257, 272, 65536, 65537, 65552};
    const size_t tried = every > 1 ? 6 : 9, most = counts[tried - 1];
    uint8_t *bytes = (uint8_t *)calloc(most, QUERY + RECORD);
    uint64_t *numbers = (uint64_t *)calloc(most, sizeof *numbers);
    called = "look_up_batch";
    check(bytes != NULL && numbers != NULL, "memory for very many queries");
    for (size_t i = 0; bytes != NULL && numbers != NULL && i < tried; i++) so_many(counts[i], bytes, numbers);
    free(bytes), free(numbers);
}

/* Queries, catalogue and records may begin at any address. */
static void batch_at_odd_addresses(void) {
    static const unsigned of[] = {2, 7, 14};
    static uint8_t in[GUARD + QUERY + GUARD], on[GUARD + 3 * RECORD + GUARD], out[GUARD + RECORD + GUARD], as_due[sizeof out];
    called = "look_up_batch, at an odd address";
    for (size_t at = GUARD - 8; at <= GUARD + 8; at++)
        for (size_t i = 0; i < 3; i++) {
            const uint64_t replies[] = {counted(1, 0, 0), counted(0, 1, 0), counted(0, 0, 1)};
            const size_t k = of[i];
            uint8_t *catalogue = on + 2 * GUARD - at;
            uint64_t reply = 5;
            memset(out, 0xA5, sizeof out), memset(as_due, 0xA5, sizeof as_due);
            memcpy(in + at, kind_queries[k], QUERY), memcpy(catalogue, shelf, 3 * RECORD), memcpy(as_due + at, kind_parts[1][k], RECORD);
            uint64_t answer = diverthrone_look_up_batch(in + at, QUERY, catalogue, 3 * RECORD, 1, out + at, RECORD, &reply, 1);
            check(answer == replies[i], kinds[k].what);
            check(reply == kinds[k].reply && memcmp(out, as_due, sizeof out) == 0, kinds[k].what);
        }
}

/* What is only read may overlap: the query of a record, where it stands. */
static void query_in_the_catalogue(void) {
    uint8_t record[RECORD];
    uint64_t reply;
    called = "look_up_batch, of a query in the catalogue";
    for (size_t i = 0; i < 3; i++) {
        memset(record, 0x5A, RECORD);
        reply = 5;
        uint64_t answer = diverthrone_look_up_batch(shelf + i * RECORD, QUERY, shelf, sizeof shelf, 1, record, RECORD, &reply, 1);
        check(answer == counted(1, 0, 0), "its record is found");
        check(reply == 256 * (1 + i) && memcmp(record, shelf + i * RECORD, RECORD) == 0, "at its place");
    }
}

/* ---- NULL ---- */

/* Each set of the four slices of a batch as NULL; the others are those of one query, which is found, and made where the catalogue is NULL. */
static void no_batch_lent(void) {
    static const size_t lens[] = {QUERY, sizeof shelf, RECORD, 1};
    called = "look_up_batch, with NULL";
    for (unsigned set = 0; set < 16; set++) {
        size_t n[4];
        for (size_t i = 0; i < 4; i++) n[i] = set >> i & 1 ? 0 : lens[i];
        const uint64_t answers[] = {counted(1, 0, 0), 5, counted(0, 1, 0), 5, 5, 5, 5, 5, 5, 5, 5, 5, 5, 0, 5, 0};
        uint8_t record[RECORD], as_due[RECORD];
        uint64_t reply = 7;
        memset(record, 0x5A, RECORD), memset(as_due, 0x5A, RECORD);
        if (set == 0) memcpy(as_due, kind_parts[1][2], RECORD);
        if (set == 2) check(diverthrone_synthesize(kind_queries[2], QUERY, as_due, RECORD) == 0, "its record");
        uint64_t answer = diverthrone_look_up_batch(n[0] > 0 ? kind_queries[2] : NULL, n[0], n[1] > 0 ? shelf : NULL, n[1], 1,
                                                    n[2] > 0 ? record : NULL, n[2], n[3] > 0 ? &reply : NULL, n[3]);
        check(answer == answers[set] && memcmp(record, as_due, RECORD) == 0, "some slices are NULL");
        check(reply == (set == 0 ? 256 * 3 : set == 2 ? 0 : 7), "some slices are NULL: the reply to the query");
    }
}

/* NULL with length 0 in each place of each call. */
static void nothing_lent(void) {
    const unsigned fib_a[] = {1, 6, 6}, fib_b[] = {1, 0};
    struct lent null;
    lend_null(&null);
    make_query(&q, 9, nine, 5);
    lend(&c, 0, 0), lend(&r, RECORD, 0x5A);
    refused(synthesize(&null, &r), 5, &r, "synthesize: NULL for the query");
    refused(synthesize(&q, &null), 5, &null, "synthesize: NULL for the record");
    refused(look_up(&null, &c, &r), 5, &r, "look_up: NULL for the query");
    refused(look_up(&q, &c, &null), 5, &null, "look_up: NULL for the record");
    check(look_up(&q, &null, &r) == 0 && length_in(&r) == 3, "look_up: NULL for the catalogue is the empty one");
    put_all(&a, 129, fib_a, 3), put_all(&b, 128, fib_b, 2);
    refused(verify(&null, &a, &b, 2), 5, NULL, "verify: NULL for the query");
    refused(verify(&q, &null, &b, 2), 5, NULL, "verify: NULL for a");
    refused(verify(&q, &a, &null, 2), 5, NULL, "verify: NULL for b");
    lend(&cells, 12, 0x5A);
    refused(generate(7, &null, &b, 2, &cells), 5, &cells, "generate: NULL for a");
    refused(generate(7, &a, &null, 2, &cells), 5, &cells, "generate: NULL for b");
    check(generate(7, &a, &b, 2, &null) == 0, "generate: NULL for the cells runs none");
    refused(generate(1, &a, &b, 2, &null), 1, &null, "generate: NULL for the cells, modulus 1");
    refused(generate(7, &a, &b, 129, &null), 25, &null, "generate: NULL for the cells, length 129");
    refused(generate(7, &a, &b, 1, &null), 6, &null, "generate: NULL for the cells, a coefficient past the length");
    put(start(&a), 0, 6);
    refused(generate(7, &a, &b, 2, &null), 26, &null, "generate: NULL for the cells, a_0 is m - 1");
    type("mod 9: 6,3,1,-4,6");
    lend(&q, QUERY, 0x5A);
    refused(read_line(&line, &null), 5, &null, "read_line: NULL for the query");
    refused_at(read_line(&null, &q), 27, 0, &q, "read_line: NULL for the line is the empty one");
    refused(read_line(&null, &null), 5, &null, "read_line: NULL for both");
    make_query(&q, 12, first_terms, 5), make_query(&other, 18, second_terms, 5), lend(&merged, QUERY, 0x5A);
    refused(merge(&null, &other, &merged), 5, &merged, "merge: NULL for the first");
    refused(merge(&q, &null, &merged), 5, &merged, "merge: NULL for the second");
    refused(merge(&q, &other, &null), 5, &null, "merge: NULL for the query");
    refused(merge(&null, &null, &merged), 5, &merged, "merge: NULL for the two queries");
    refused(merge(&null, &null, &null), 5, &null, "merge: NULL for all three");
    refused(period_length(&null), 32, &null, "period_length: NULL for the cells is none of them");
    refused(enumerate(2, 3, 6, &null), 5, &null, "enumerate: NULL for the query");
    refused(enumerate(1, 129, 8, &null), 5, &null, "enumerate: NULL for the query, and all else is wrong too");
    refused(tally(2, 3, &null), 5, &null, "tally: NULL for the cells");
    refused(tally(1, 129, &null), 5, &null, "tally: NULL for the cells, and all else is wrong too");
}

static void of_records(void) {
    records();
    query_refusals();
    wrong_terms();
    order_in_queries();
    order_behind_queries();
    case_15();
    catalogues();
    found_by_all();
    first_of_two();
    up_to_the_number();
    made_for_all();
    tested_without();
    old_sizes();
    many_records();
    verdicts();
    past_the_length();
    longest();
    malformed();
    before_25();
    runs();
}

static void of_lines(void) {
    lines_that_are_read();
    lines_that_are_refused();
    every_byte_at_every_place();
    every_prefix();
    counts_of_terms();
    order_in_lines();
    order_behind_many_terms();
    queries_of_other_lengths();
    long_lines();
    handed_on();
}

static void of_merges(void) {
    queries_that_are_merged();
    every_pair_of_terms();
    many_terms();
    terms_that_disagree();
    multiples_above();
    counts_that_differ();
    order_in_merges();
    merges_of_other_lengths();
    merged_lengths();
    coefficients_apart();
    merged_again();
}

static void of_periods(void) {
    periods_by_hand();
    short_periods();
    periods_of_16();
    fewer_terms();
    lengths_given();
    random_periods();
    runs_as_periods();
    digits_above_1();
    periods_of_other_lengths();
    very_many_cells();
    at_odd_addresses();
}

static void of_the_census(void) {
    numbers_by_hand();
    tallies_by_hand();
    whole_census();
    one_term();
    no_terms();
    ends_of_numbers();
    powers_above();
    census_refusals();
    census_order();
    census_at_odd_addresses();
}

static void of_batches(void) {
    batch_by_hand();
    make_kinds(0);
    kinds_at_places();
    equal_queries();
    counts_of_queries();
    batches_for_all();
    batches_in_any_room();
    random_batches();
    shorter_catalogues();
    wrong_terms_in_batches();
    malformed_in_batches();
    nearly_found();
    many_first_terms();
    for (unsigned x = 0; x < 8; x++) same_slot(x);
    batches_in_many_records();
    batch_lengths();
    batch_order();
    catalogue_before_queries();
    far_too_many();
    batch_at_odd_addresses();
    query_in_the_catalogue();
    no_batch_lent();
}

int main(int argc, char **argv) {
    if (argc > 1 && strcmp(argv[1], "whole") == 0) every = 1;
    of_records();
    of_lines();
    of_merges();
    of_periods();
    of_the_census();
    of_batches();
    nothing_lent();
    printf("host test: %d checks, %d failed\n", checks, failures);
    return failures != 0;
}
