/* The same algorithm in C, for comparison: the steps at each prime power with only a kept, lengths by the law, the join, b at the end.
 * Compiled twice: as it is (PLAIN: remainders by %), and with TRICKS (remainders by two products, one division a call of the inverse). */
#include <stdint.h>
#include <string.h>

enum { ROWS = 15, CELLS = 129 };

typedef struct {
    uint32_t x, y;
} pair;

#ifdef TRICKS
#define NAME(f) tricks_##f
static inline uint32_t reduce(uint32_t x, uint32_t q, uint64_t scale) { return x - (uint32_t)((x * scale) >> 48) * q; }
static pair euclid(uint32_t a, uint32_t m) {
    if (a <= 1) return (pair){1, 1};
    uint32_t t = m / a, r = m - t * a;
    pair c = euclid(r, a);
    return (pair){m - (t * c.x + (r - c.y)), c.x};
}
static uint32_t inverse(uint32_t a, uint32_t m) { return euclid(a, m).x; }
#else
#define NAME(f) plain_##f
static inline uint32_t reduce(uint32_t x, uint32_t q, uint64_t scale) { (void)scale; return x % q; }
static uint32_t inverse(uint32_t a, uint32_t m) { return a <= 1 ? 1 : m - (m * inverse(m % a, a) - 1) / a; }
#endif

static uint32_t power(uint32_t p, int x) {
    uint32_t r = 1;
    while (x-- > 0) r *= p;
    return r;
}

static uint32_t coefficient(const uint32_t *a, const uint32_t *s, int l, int k, uint32_t q) {
    uint64_t sum = 0;
    for (int i = 0; i <= l; i++) sum += (uint64_t)a[i] * s[k - i];
    return (uint32_t)(sum % q);
}

static void steps(const uint32_t *restrict s, int n, uint32_t p, int e, uint32_t q, uint32_t *restrict a, uint32_t *restrict lens) {
    static _Thread_local uint32_t cur[ROWS][CELLS], old[ROWS][CELLS], saved[ROWS][CELLS];
    uint32_t mult[ROWS], theta[ROWS];
    int len[ROWS] = {0}, next[ROWS], when[ROWS], reach[ROWS], u[ROWS];
    uint64_t scale = ((uint64_t)1 << 48) / q + 1;
    memset(cur, 0, sizeof cur[0] * (size_t)e);
    for (int i = 0; i < e; i++) cur[i][0] = power(p, i);
    lens[0] = 0;
    for (int k = 0; k < n; k++) {
        for (int i = 0; i < e; i++) {
            uint32_t d = coefficient(cur[i], s, len[i], k, q);
            u[i] = d ? 0 : e;
            for (; d && d % p == 0; d /= p) u[i]++;
            theta[i] = d ? d : 1;
        }
        for (int i = 0; i < e; i++) {
            next[i] = len[i];
            if (u[i] == e) continue;
            int g = e - 1 - u[i];
            if (len[i] + len[g] > k) continue;
            next[i] = k + 1 - len[g];
            memcpy(saved[i], cur[g], sizeof(uint32_t) * (size_t)(len[g] + 1));
        }
        for (int i = 0; i < e; i++) {
            if (u[i] == e) continue;
            int g = e - 1 - u[i];
            if (len[g] == 0) continue;
            uint32_t f = q - theta[i] * mult[g] % q;
            uint32_t *restrict x = cur[i] + (k - when[g]);
            const uint32_t *restrict y = old[g];
            for (int j = 0; j <= reach[g]; j++) x[j] = reduce(x[j] + f * y[j], q, scale);
        }
        for (int i = 0; i < e; i++) {
            if (next[i] == len[i]) continue;
            int g = e - 1 - u[i];
            reach[i] = k + 1 - next[i];
            memcpy(old[i], saved[i], sizeof(uint32_t) * (size_t)(reach[i] + 1));
            len[i] = next[i];
            when[i] = k;
            mult[i] = inverse(theta[g], q) * power(p, e - 1 - i - u[g]) % q;
        }
        lens[k + 1] = (uint32_t)len[0];
    }
    memcpy(a, cur[0], sizeof cur[0]);
}

/* The register of the first n terms modulo m: a, b and the lengths. */
void NAME(register)(uint32_t m, const uint32_t *s, int n, uint32_t *a, uint32_t *b, uint32_t *lens) {
    uint32_t row[CELLS], row_lens[CELLS], big = 1, rest = m;
    memset(a, 0, CELLS * sizeof *a);
    memset(lens, 0, CELLS * sizeof *lens);
    for (uint32_t p = 2; rest > 1; p++) {
        if (p * p > rest) p = rest;
        if (rest % p) continue;
        uint32_t q = 1;
        int e = 0;
        for (; rest % p == 0; rest /= p, e++) q *= p;
        steps(s, n, p, e, q, row, row_lens);
        uint32_t unit = inverse(big % q ? big % q : 1, q);
        for (int i = 0; i < CELLS; i++)
            if (a[i] != row[i]) a[i] += big * ((row[i] + q - a[i] % q) * unit % q);
        for (int k = 0; k <= n; k++)
            if (lens[k] < row_lens[k]) lens[k] = row_lens[k];
        big *= q;
    }
    for (uint32_t j = 0; j < CELLS - 1; j++) b[j] = j < lens[n] ? coefficient(a, s, (int)j, (int)j, m) : 0;
}
