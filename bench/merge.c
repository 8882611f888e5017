/* Two queries merged to one modulo the least common multiple of their moduli in plain C, with the same refusals in the same order: for
 * comparison with diverthrone_merge. One pass over the terms, the remainders by %, one inverse for the whole query. */
#include <stddef.h>
#include <stdint.h>
#include <string.h>

enum { TERMS = 128, BYTES = 260 };

static int cell(const uint8_t *query, int i) { return query[2 * i] + 256 * query[2 * i + 1]; }

static void put(uint8_t *query, int i, int value) {
    query[2 * i] = (uint8_t)value;
    query[2 * i + 1] = (uint8_t)(value >> 8);
}

/* What is wrong with one query: 1, 2, 3 with the place, 4; or 0. */
static uint64_t own_refusal(const uint8_t *query) {
    int modulus = cell(query, 0), count = cell(query, 1);
    if (modulus < 2 || modulus > 4095) return 1;
    if (count > TERMS) return 2;
    for (int i = 0; i < count; i++)
        if (cell(query, 2 + i) >= modulus) return 3 + 256 * (uint64_t)i;
    for (int i = count; i < TERMS; i++)
        if (cell(query, 2 + i) != 0) return 4;
    return 0;
}

static int common_divisor(int a, int b) {
    while (b != 0) {
        int rest = a % b;
        a = b;
        b = rest;
    }
    return a;
}

/* The inverse of a modulo m by Euclid's division; 0 modulo 1. */
static int inverse(int a, int m) {
    int r = m, s = a % m, u = 0, v = 1;
    while (s != 0) {
        int q = r / s, rest = r - q * s, w = u - q * v;
        r = s, s = rest;
        u = v, v = w;
    }
    return u < 0 ? u + m : u;
}

/* The terms go to a buffer of its own, so that the lent one holds what it held where a late pair disagrees. */
uint64_t plain_merge(const uint8_t *first, size_t first_len, const uint8_t *second, size_t second_len, uint8_t *query, size_t query_len) {
    if (first_len != BYTES || second_len != BYTES || query_len != BYTES) return 5;
    uint64_t refused = own_refusal(first);
    if (refused == 0) refused = own_refusal(second);
    if (refused != 0) return refused;
    int a = cell(first, 0), b = cell(second, 0), n = cell(first, 1);
    if (n != cell(second, 1)) return 29;
    int g = common_divisor(a, b), nu = b / g;
    if (a * nu > 4095) return 30;
    int unit = inverse(a / g, nu);
    uint8_t merged[BYTES] = {0};
    put(merged, 0, a * nu), put(merged, 1, n);
    for (int i = 0; i < n; i++) {
        int x = cell(first, 2 + i), apart = cell(second, 2 + i) - x;
        if (apart % g != 0) return 31 + 256 * (uint64_t)i;
        int k = apart / g * unit % nu;
        put(merged, 2 + i, x + a * (k < 0 ? k + nu : k));
    }
    memcpy(query, merged, BYTES);
    return 0;
}
