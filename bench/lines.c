/* A typed line into a query in plain C, by descent and with the same refusals: for comparison with diverthrone_read_line. A second one
 * takes its numbers by strtol. */
#include <stdint.h>
#include <stdlib.h>
#include <string.h>

typedef struct {
    const uint8_t *at, *end;
    unsigned refused;
} reader;

static int is_digit(const reader *r) { return r->at < r->end && *r->at >= '0' && *r->at <= '9'; }

/* Digits up to a limit: 27 where there are none, 28 at the digit that passes it. */
static uint64_t number(reader *r, uint64_t limit) {
    uint64_t value = 0;
    if (!is_digit(r)) r->refused = 27;
    while (!r->refused && is_digit(r)) {
        value = 10 * value + (*r->at - '0');
        if (value > limit) r->refused = 28;
        else r->at++;
    }
    return value;
}

static void blanks(reader *r) {
    while (r->at < r->end && *r->at == ' ') r->at++;
}

static void meet(reader *r, const char *text) {
    for (; !r->refused && *text; text++)
        if (r->at < r->end && *r->at == (uint8_t)*text) r->at++;
        else r->refused = 27;
}

static int64_t term(reader *r) {
    blanks(r);
    int minus = r->at < r->end && *r->at == '-';
    r->at += minus;
    int64_t value = (int64_t)number(r, 2147483647u + (unsigned)minus);
    if (!r->refused) blanks(r);
    return minus ? -value : value;
}

static void put(uint8_t *query, unsigned cell, uint64_t value) {
    query[2 * cell] = (uint8_t)value;
    query[2 * cell + 1] = (uint8_t)(value >> 8);
}

static uint64_t finish(uint64_t modulus, const int32_t *terms, uint64_t count, uint8_t *query) {
    if (modulus < 2 || modulus > 4095) return 1;
    if (count > 128) return 2;
    memset(query, 0, 260);
    put(query, 0, modulus), put(query, 1, count);
    for (unsigned i = 0; i < count; i++) {
        int64_t rest = terms[i] % (int64_t)modulus;
        put(query, 2 + i, (uint64_t)(rest < 0 ? rest + (int64_t)modulus : rest));
    }
    return 0;
}

uint64_t plain_read_line(const uint8_t *line, size_t len, uint8_t *query) {
    reader r = {line, line + len, 0};
    int32_t terms[128];
    uint64_t count = 0, modulus;
    meet(&r, "mod ");
    modulus = r.refused ? 0 : number(&r, 2147483647);
    meet(&r, ":");
    if (!r.refused) blanks(&r);
    while (!r.refused && (count > 0 || r.at < r.end)) {
        int64_t value = term(&r);
        if (count < 128) terms[count] = (int32_t)value;
        count++;
        if (r.refused || r.at == r.end) break;
        meet(&r, ",");
    }
    if (r.refused) return r.refused + 256 * (uint64_t)(r.at - line);
    return finish(modulus, terms, count, query);
}

/* The text ends in a zero byte and is known to keep the form: no place, no check of it. */
uint64_t strtol_read_line(const char *line, uint8_t *query) {
    char *at;
    int32_t terms[128];
    uint64_t count = 0, modulus = strtoul(line + 4, &at, 10);
    do {
        long value = strtol(at + 1, &at, 10);
        if (count < 128) terms[count] = (int32_t)value;
        count++;
        while (*at == ' ') at++;
    } while (*at == ',');
    return finish(modulus, terms, count, query);
}
