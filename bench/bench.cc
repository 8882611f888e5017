// How fast the proved code is, as ratios to other programs in the same run: medians of interleaved batches of CPU time.
// NTL and FLINT find the minimal polynomial of 128 terms modulo a prime; the C versions find the whole register and the lengths.
// Ours are calls with a full promise on every input, and each makes its checks: the register and the steps alone by crates/timing, records
// and looking up by the C interface. The register is the public call: unlike the C versions it also checks the sequence and writes a and b
// as cells. The steps alone start from the modulus: they include its prime power and a check of the terms. The trace is the register with
// its working: every record is read, and their numbers are added up. A column is pushed to a fresh sequence by one call and by single ones.
// Two queries are merged by the C interface. FLINT merges at coprime moduli only, from terms in its own form.
// The length of a binary sequence is found from one period by the C interface, and without that call from the terms of two.
// All sequences of n terms are tallied by one call of the C interface, and without it by a number and a record for each of them.
// 16 queries are looked up in one batch, and one by one.
#include <NTL/lzz_pX.h>
#include <diverthrone.h>
#include <flint/flint.h>
#include <flint/fmpz_poly.h>
#include <flint/nmod_poly.h>

#include <algorithm>
#include <cstdint>
#include <cstdio>
#include <cstdlib>
#include <cstring>
#include <ctime>
#include <functional>
#include <numeric>
#include <string>
#include <vector>

extern "C" {
bool timing_steps(uint32_t m, const uint32_t *s, size_t n, uint32_t *a, uint32_t *lens);
uint64_t timing_register(uint32_t m, uint32_t count, const uint32_t *terms, uint8_t *a, size_t a_len, uint8_t *b, size_t b_len);
uint64_t timing_trace(uint32_t m, uint32_t count, const uint32_t *terms, uint8_t *a, size_t a_len, uint8_t *b, size_t b_len);
uint32_t timing_push_all(uint32_t m, const uint8_t *list, size_t len, uint32_t *held);
uint32_t timing_pushes(uint32_t m, const uint8_t *list, size_t len, uint32_t *held);
void plain_register(uint32_t m, const uint32_t *s, int n, uint32_t *a, uint32_t *b, uint32_t *lens);
void tricks_register(uint32_t m, const uint32_t *s, int n, uint32_t *a, uint32_t *b, uint32_t *lens);
uint64_t plain_read_line(const uint8_t *line, size_t len, uint8_t *query);
uint64_t strtol_read_line(const char *line, uint8_t *query);
uint64_t plain_merge(const uint8_t *first, size_t first_len, const uint8_t *second, size_t second_len, uint8_t *query, size_t query_len);
uint64_t array_period_length(const uint8_t *cells, size_t cells_len);
uint64_t word_period_length(const uint8_t *cells, size_t cells_len);
void plain_batch(const uint8_t *queries, size_t count, const uint8_t *catalogue, size_t records, uint8_t *out, uint64_t *replies);
}

// A round times a batch of calls of each entry, all on the same sequences. Each round has other sequences and another order of the
// entries: in one fixed order, who came after whom moved the ratios between our own parts by 10 to 15%.
static const int BATCH = 16, POOL = 1024;
static uint32_t terms[POOL][128];
static uint8_t queries[POOL][260];
static uint32_t a[129], b[128], lens[129], a2[129], lens2[129];
static const size_t RECORD = DIVERTHRONE_RECORD_BYTES;
static uint8_t a_cells[258], b_cells[256], record[RECORD];

static uint64_t state = 1;
static uint32_t below(uint32_t m) {
    state = state * 6364136223846793005u + 1442695040888963407u;
    return (uint32_t)((state >> 33) % m);
}

static double now() {
    timespec t;
    clock_gettime(CLOCK_THREAD_CPUTIME_ID, &t);
    return t.tv_sec + 1e-9 * t.tv_nsec;
}

struct Entry {
    std::string name;
    std::function<void(int)> run;
};

// Medians in microseconds for one call of each.
static std::vector<double> measure(const std::vector<Entry> &entries, int rounds, int batch = BATCH) {
    std::vector<std::vector<double>> times(entries.size());
    std::vector<size_t> order(entries.size());
    for (size_t i = 0; i < order.size(); i++) order[i] = i;
    for (int r = 0; r < rounds; r++) {
        for (size_t i = order.size(); i > 1; i--) std::swap(order[i - 1], order[below((uint32_t)i)]);
        for (size_t i : order) {
            double start = now();
            for (int j = 0; j < batch; j++) entries[i].run((r * batch + j) % POOL);
            times[i].push_back(1e6 * (now() - start) / batch);
        }
    }
    std::vector<double> medians;
    for (auto &t : times) {
        std::sort(t.begin(), t.end());
        medians.push_back(t[t.size() / 2]);
    }
    return medians;
}

static void prepare(uint32_t m, int n) {
    for (int j = 0; j < POOL; j++) {
        memset(queries[j], 0, 260);
        uint32_t cells[130] = {m, (uint32_t)n};
        for (int i = 0; i < 128; i++) terms[j][i] = i < n ? below(m) : 0, cells[2 + i] = terms[j][i];
        for (int i = 0; i < 130; i++) queries[j][2 * i] = cells[i] & 255, queries[j][2 * i + 1] = cells[i] >> 8;
    }
}

static uint64_t reg(uint32_t m, int n, int j) { return timing_register(m, (uint32_t)n, terms[j], a_cells, sizeof a_cells, b_cells, sizeof b_cells); }

static uint64_t trace(uint32_t m, int n, int j) { return timing_trace(m, (uint32_t)n, terms[j], a_cells, sizeof a_cells, b_cells, sizeof b_cells); }

// The cells hold these coefficients.
static bool holds(const uint8_t *cells, const uint32_t *x, int count) {
    for (int i = 0; i < count; i++)
        if (cells[2 * i] + 256u * cells[2 * i + 1] != x[i]) return false;
    return true;
}

// Whether a register of length l is the only one, as the register's reply has it: 0 not told, 1 sole, 2 several.
static uint32_t told(uint32_t m, int n, uint32_t l) {
    for (uint32_t d = 2; d * d <= m; d++)
        if (m % d == 0) return 0;
    return 2 * l <= (uint32_t)n ? 1 : 2;
}

static bool agree(uint32_t m, int n) {
    for (int j = 0; j < BATCH; j++) {
        uint64_t reply = reg(m, n, j);
        plain_register(m, terms[j], n, a, b, lens);
        if ((uint32_t)reply != lens[n] || reply >> 32 != told(m, n, lens[n]) || !holds(a_cells, a, 129) || !holds(b_cells, b, 128)) return false;
        tricks_register(m, terms[j], n, a, b, lens2);
        if (memcmp(lens, lens2, sizeof lens) || !holds(a_cells, a, 129) || !holds(b_cells, b, 128)) return false;
    }
    return true;
}

// At a prime the steps alone give a and every length.
static bool steps_agree(uint32_t p, int n) {
    for (int j = 0; j < BATCH; j++) {
        plain_register(p, terms[j], n, a, b, lens);
        if (!timing_steps(p, terms[j], n, a2, lens2) || memcmp(a, a2, sizeof a) || memcmp(lens, lens2, sizeof lens)) return false;
    }
    return true;
}

// A trace writes what the register writes. Its records have their prime power, which is at least 2, so that the sum is no less than twice
// their number.
static bool trace_agrees(uint32_t m, int n) {
    for (int j = 0; j < BATCH; j++) {
        memset(a_cells, 255, sizeof a_cells), memset(b_cells, 255, sizeof b_cells);
        uint64_t sum = trace(m, n, j);
        plain_register(m, terms[j], n, a, b, lens);
        if (sum < 2u * (uint32_t)n || !holds(a_cells, a, 129) || !holds(b_cells, b, 128)) return false;
    }
    return true;
}

static std::vector<Entry> ours(uint32_t m, int n) {
    return {{"register", [=](int j) { reg(m, n, j); }},
            {"plain", [=](int j) { plain_register(m, terms[j], n, a, b, lens); }},
            {"tricks", [=](int j) { tricks_register(m, terms[j], n, a, b, lens); }}};
}

static void primes() {
    printf("prime moduli, 128 random terms: register / NTL, register / FLINT, record / register, register / steps without b, record / steps, us for a register\n");
    for (uint32_t p : {2u, 7u, 4093u}) {
        prepare(p, 128);
        if (!agree(p, 128) || !steps_agree(p, 128)) printf("%u: DIFFER\n", p);
        NTL::zz_p::init(p);
        static NTL::vec_zz_p v[POOL];
        static mp_limb_t points[POOL][128];
        for (int j = 0; j < POOL; j++) {
            v[j].SetLength(128);
            for (int i = 0; i < 128; i++) v[j][i] = (long)terms[j][i], points[j][i] = terms[j][i];
        }
        auto e = ours(p, 128);
        e.push_back({"ntl", [](int j) { NTL::zz_pX h; NTL::MinPolySeq(h, v[j], 64); }});
        e.push_back({"flint", [=](int j) {
                         nmod_berlekamp_massey_t B;
                         nmod_berlekamp_massey_init(B, p);
                         nmod_berlekamp_massey_add_points(B, points[j], 128);
                         nmod_berlekamp_massey_reduce(B);
                         nmod_berlekamp_massey_clear(B);
                     }});
        e.push_back({"record", [](int j) { diverthrone_synthesize(queries[j], 260, record, RECORD); }});
        e.push_back({"steps", [=](int j) { timing_steps(p, terms[j], 128, a, lens); }});
        auto t = measure(e, 1001);
        printf("%6u  %.2f  %.2f  %.2f  %.2f  %.2f  %.1f\n", p, t[0] / t[3], t[0] / t[4], t[5] / t[0], t[0] / t[6], t[5] / t[6], t[0]);
    }
}

static void composites() {
    printf("any moduli, 128 random terms: register / C with the same tricks, register / C with %%, us for a register\n");
    for (uint32_t m : {2u, 7u, 4093u, 2048u, 2187u, 3125u, 4095u, 2310u}) {
        prepare(m, 128);
        if (!agree(m, 128)) printf("%u: DIFFER\n", m);
        auto t = measure(ours(m, 128), 301);
        printf("%6u  %.2f  %.2f  %.1f\n", m, t[0] / t[2], t[0] / t[1], t[0]);
    }
}

static void working() {
    printf("any moduli, 128 random terms: trace / register, us for a trace, us for a register\n");
    for (uint32_t m : {2u, 7u, 97u, 4093u, 2048u, 2187u, 3125u, 4095u, 2310u}) {
        prepare(m, 128);
        if (!trace_agrees(m, 128)) printf("%u: DIFFER\n", m);
        auto t = measure({{"register", [=](int j) { reg(m, 128, j); }}, {"trace", [=](int j) { trace(m, 128, j); }}}, 601);
        printf("%6u  %.2f  %.1f  %.1f\n", m, t[1] / t[0], t[1], t[0]);
    }
}

static void growth() {
    printf("growth with n modulo 4093 and 2048: us for a register of 16, 32, 64, 128 terms\n");
    for (uint32_t m : {4093u, 2048u}) {
        printf("%6u", m);
        for (int n : {16, 32, 64, 128}) {
            prepare(m, n);
            printf("  %.1f", measure(ours(m, n), 51)[0]);
        }
        printf("\n");
    }
}

static uint64_t by_memcmp(const uint8_t *query, const uint8_t *catalogue, size_t count) {
    for (size_t i = 0; i < count; i++)
        if (memcmp(query, catalogue + RECORD * i, 260) == 0) return 1 + i;
    return 0;
}

static void look_up() {
    const size_t count = 20000;
    static std::vector<uint8_t> catalogue(RECORD * count);
    prepare(4093, 128);
    for (size_t i = 0; i < count; i++) {
        for (int j = 0; j < 128; j++) terms[0][j] = below(4093), queries[0][4 + 2 * j] = terms[0][j] & 255, queries[0][5 + 2 * j] = terms[0][j] >> 8;
        diverthrone_synthesize(queries[0], 260, &catalogue[RECORD * i], RECORD);
    }
    volatile uint64_t sink = 0;
    auto asked = [&](uint64_t who) { diverthrone_look_up(queries[0], 260, catalogue.data(), catalogue.size(), who, record, RECORD); };
    auto t = measure({{"visitor", [&](int) { asked(0); }},
                      {"editor", [&](int) { asked(1); }},
                      {"memcmp", [&](int) { sink += by_memcmp(queries[0], catalogue.data(), count); memcpy(record, &catalogue[RECORD * (count - 1)], RECORD); }}},
                     31);
    printf("look_up of the last of %zu records with the same modulus and count: / C loop over memcmp for a visitor, for an editor; us\n", count);
    printf("        %.2f  %.2f  %.1f\n", t[0] / t[2], t[1] / t[2], t[0]);
}

// A line of n terms of up to so many digits, every third negative, with a blank behind each comma.
static std::string typed(uint32_t m, int n, int digits) {
    uint32_t limit = 1;
    for (int i = 0; i < digits && limit < 1000000000; i++) limit *= 10;
    std::string line = "mod " + std::to_string(m) + ":";
    for (int i = 0; i < n; i++) line += (i ? ", " : " ") + std::string(below(3) ? "" : "-") + std::to_string(below(limit));
    return line;
}

static void lines() {
    printf("read_line, terms and digits: / C by descent, / strtol without checks of the form, / record of as many terms, us, bytes\n");
    const int shapes[][2] = {{5, 1}, {128, 1}, {128, 4}, {128, 9}};
    for (auto [n, digits] : shapes) {
        static std::vector<std::string> pool(POOL);
        static uint8_t ours[260], plain[260], by_strtol[260];
        size_t bytes = 0;
        prepare(4093, n);
        for (auto &line : pool) line = typed(4093, n, digits), bytes += line.size();
        auto at = [&](int i) { return (const uint8_t *)pool[i].data(); };
        for (int i = 0; i < POOL; i++) {
            uint64_t r = diverthrone_read_line(at(i), pool[i].size(), ours, 260);
            if (r || plain_read_line(at(i), pool[i].size(), plain) || strtol_read_line(pool[i].c_str(), by_strtol) || memcmp(ours, plain, 260) ||
                memcmp(ours, by_strtol, 260)) {
                printf("differs: %s\n", pool[i].c_str());
                return;
            }
        }
        auto t = measure({{"read_line", [&](int i) { diverthrone_read_line(at(i), pool[i].size(), ours, 260); }},
                          {"descent", [&](int i) { plain_read_line(at(i), pool[i].size(), plain); }},
                          {"strtol", [&](int i) { strtol_read_line(pool[i].c_str(), by_strtol); }},
                          {"record", [&](int i) { diverthrone_synthesize(queries[i], 260, record, RECORD); }}},
                         101);
        printf("  %3d  %d  %.2f  %.2f  %.2f  %.2f  %zu\n", n, digits, t[0] / t[1], t[0] / t[2], t[0] / t[3], t[0], bytes / POOL);
    }
}

// A column to a fresh sequence in C: the terms held then, and their number.
static uint32_t plain_column(uint32_t m, const uint8_t *list, size_t len, uint32_t *held) {
    memset(held, 0, 512);
    uint32_t count = 0;
    for (size_t i = 0; i + 1 < len; i += 2) {
        uint32_t t = list[i] + 256u * list[i + 1];
        if (count == 128 || t >= m) break;
        held[count++] = t;
    }
    return count;
}

static void columns() {
    printf("push_all of so many terms to a fresh sequence: / as many single pushes, / C loop, us for push_all, us for single pushes\n");
    static uint32_t ours[128], single[128], plain[128];
    for (int n : {1, 16, 32, 64, 128}) {
        prepare(4093, n);
        auto list = [&](int j) { return queries[j] + 4; };
        size_t len = 2 * (size_t)n;
        for (int j = 0; j < POOL; j++) {
            uint32_t k = timing_push_all(4093, list(j), len, ours);
            if (k != timing_pushes(4093, list(j), len, single) || k != plain_column(4093, list(j), len, plain) || k != (uint32_t)n ||
                memcmp(ours, single, 512) || memcmp(ours, plain, 512) || memcmp(ours, terms[j], 512)) {
                printf("%d: DIFFER\n", n);
                return;
            }
        }
        volatile uint32_t sink = 0;
        auto t = measure({{"push_all", [&](int j) { sink += timing_push_all(4093, list(j), len, ours); }},
                          {"pushes", [&](int j) { sink += timing_pushes(4093, list(j), len, single); }},
                          {"plain", [&](int j) { sink += plain_column(4093, list(j), len, plain); }}},
                         601);
        printf("  %3d  %.3f  %.2f  %.3f  %.3f\n", n, t[0] / t[1], t[0] / t[2], t[0], t[1]);
    }
}

// The query of the same sequence modulo m, which divides its modulus.
static void lower(const uint8_t *query, uint32_t m, uint8_t *out) {
    for (size_t i = 0; i < 130; i++) {
        uint32_t x = i == 0 ? m : i == 1 ? diverthrone_cell(query, 1) : diverthrone_cell(query, i) % m;
        out[2 * i] = x & 255, out[2 * i + 1] = x >> 8;
    }
}

// The pool is random sequences modulo the multiple, and the pairs are their remainders: what merges them must give the pool back. With
// `apart` the last terms disagree. FLINT merges vectors of equal length: fmpz_poly_CRT_ui of 2.9.0 would drop the terms past the last one
// of the second polynomial that is not 0. What a batch of nothing takes is taken off: reading the clock was a fifth of what C took for 16
// terms.
static void merge(uint32_t first_modulus, uint32_t second_modulus, int n, bool apart) {
    static uint8_t first[POOL][260], second[POOL][260], ours[260], plain[260], lent[260];
    static fmpz first_row[POOL][128], merged_row[128], modulus[1];
    static mp_limb_t second_row[POOL][128];
    const bool coprime = std::gcd(first_modulus, second_modulus) == 1;
    prepare(std::lcm(first_modulus, second_modulus), n);
    fmpz_set_ui(modulus, first_modulus);
    auto flint = [=](int j) {
        _fmpz_poly_CRT_ui(merged_row, first_row[j], n, modulus, second_row[j], n, second_modulus, n_preinvert_limb(second_modulus), 0);
    };
    memset(lent, 255, 260);
    for (int j = 0; j < POOL; j++) {
        lower(queries[j], first_modulus, first[j]), lower(queries[j], second_modulus, second[j]);
        if (apart) {
            uint32_t y = (diverthrone_cell(second[j], n + 1) + 1) % second_modulus;
            second[j][2 * n + 2] = y & 255, second[j][2 * n + 3] = y >> 8;
        }
        memcpy(ours, lent, 260), memcpy(plain, lent, 260);
        uint64_t r = diverthrone_merge(first[j], 260, second[j], 260, ours, 260);
        bool same = r == (apart ? 31 + 256 * (uint64_t)(n - 1) : 0) && r == plain_merge(first[j], 260, second[j], 260, plain, 260) &&
                    !memcmp(ours, plain, 260) && !memcmp(ours, apart ? lent : queries[j], 260);
        for (int i = 0; i < n; i++)
            fmpz_set_ui(&first_row[j][i], diverthrone_cell(first[j], i + 2)), second_row[j][i] = diverthrone_cell(second[j], i + 2);
        if (coprime) flint(j);
        for (int i = 0; coprime && i < n; i++) same = same && fmpz_equal_ui(&merged_row[i], terms[j][i]);
        if (!same) {
            printf("%u and %u: DIFFER\n", first_modulus, second_modulus);
            return;
        }
    }
    std::vector<Entry> e = {{"merge", [](int j) { diverthrone_merge(first[j], 260, second[j], 260, ours, 260); }},
                            {"plain", [](int j) { plain_merge(first[j], 260, second[j], 260, plain, 260); }},
                            {"record", [](int j) { diverthrone_synthesize(queries[j], 260, record, RECORD); }},
                            {"nothing", [](int) {}},
                            {"flint", flint}};
    if (!coprime) e.pop_back();
    auto t = measure(e, 401);
    double nothing = t[3];
    for (double &x : t) x -= nothing;
    char by_flint[16] = "   -";
    if (coprime) snprintf(by_flint, sizeof by_flint, "%.2f", t[0] / t[4]);
    printf("  %4u  %4u  %3d  %.2f  %s  %.3f  %.2f%s\n", first_modulus, second_modulus, n, t[0] / t[1], by_flint, t[0] / t[2], t[0],
           apart ? "  refused with 31 at the last place" : "");
}

static void merges() {
    printf("merge, both moduli and terms: / C with %%, / FLINT at coprime moduli, without checks and cells, / record of the merged query, us\n");
    const uint32_t moduli[][2] = {{12, 18}, {63, 65}, {64, 32}, {4095, 4095}, {2047, 2}};
    for (int n : {128, 16}) {
        for (auto &m : moduli) merge(m[0], m[1], n, false);
        merge(12, 18, n, true);
    }
}

// Each query of the pool is one period of `size` digits twice: the first `drawn` of them random and repeated to the period's end. With `apart`
// the period's last digit is then the other one: two equal halves come to differ there alone, and so do the halves of their sum, and so on.
static void prepare_periods(int size, int drawn, bool apart) {
    prepare(2, 2 * size);
    for (int j = 0; j < POOL; j++)
        for (int i = 0; i < 2 * size; i++) {
            uint32_t digit = terms[j][i % size % drawn] ^ (apart && i % size == size - 1);
            terms[j][i] = digit, queries[j][4 + 2 * i] = (uint8_t)digit;
        }
}

// One period, as the cells of the query's first half of terms.
static const uint8_t *period(int j) { return queries[j] + 4; }

// The length by every way that is timed.
static bool lengths_agree(int size, int j) {
    const size_t len = 2 * (size_t)size;
    uint64_t reply = diverthrone_period_length(period(j), len), length = diverthrone_value(reply);
    if (diverthrone_refusal(reply) || diverthrone_synthesize(queries[j], 260, record, RECORD)) return false;
    if (reply != array_period_length(period(j), len) || reply != word_period_length(period(j), len)) return false;
    if (length != diverthrone_cell(record + DIVERTHRONE_LENGTH_PLACE, 0) || length != (uint32_t)reg(2, 2 * size, j)) return false;
    return timing_steps(2, terms[j], len, a, lens) && length == lens[len];
}

// The C versions refuse the same, so that they make the same checks: every number of bytes up to a query's, and at every place the digits
// 2 and 256.
static bool refusals_agree() {
    static uint8_t cells[260];
    auto same = [](size_t len) {
        uint64_t reply = diverthrone_period_length(cells, len);
        return reply == array_period_length(cells, len) && reply == word_period_length(cells, len);
    };
    for (size_t len = 0; len <= sizeof cells; len++)
        if (!same(len)) return false;
    for (size_t len = 2; len <= 128; len *= 2)
        for (size_t i = 0; i < len; i++) {
            cells[i] = i % 2 ? 1 : 2;
            if (diverthrone_period_length(cells, len) != 3 + 256 * (i / 2) || !same(len)) return false;
            cells[i] = 0;
        }
    return true;
}

// What a batch of nothing takes is taken off, as for merges. The batches are longer: 16 calls of C with a word took 100 ns for 8 digits, and
// the clock went by tens.
static void periods_of(int size, int drawn, bool apart, const char *kind) {
    const size_t len = 2 * (size_t)size;
    prepare_periods(size, drawn, apart);
    for (int j = 0; j < POOL; j++)
        if (!lengths_agree(size, j)) printf("%d, %s: DIFFER\n", size, kind), exit(1);
    auto t = measure({{"period_length", [=](int j) { diverthrone_period_length(period(j), len); }},
                      {"record", [](int j) { diverthrone_synthesize(queries[j], 260, record, RECORD); }},
                      {"register", [=](int j) { reg(2, 2 * size, j); }},
                      {"steps", [=](int j) { timing_steps(2, terms[j], len, a, lens); }},
                      {"array", [=](int j) { array_period_length(period(j), len); }},
                      {"word", [=](int j) { word_period_length(period(j), len); }},
                      {"nothing", [](int) {}}},
                     401, 64);
    const double nothing = t.back();
    for (double &x : t) x -= nothing;
    printf("  %2d  %.4f  %.4f  %.4f  %.2f  %.2f  %.1f  %s\n", size, t[0] / t[1], t[0] / t[2], t[0] / t[3], t[0] / t[4], t[0] / t[5],
           1e3 * t[0], kind);
}

static void periods() {
    printf("period_length of so many digits: / record, / register, / steps without b of two periods, / C with an array, / C with a word, ns\n");
    if (!refusals_agree()) printf("refusals DIFFER\n"), exit(1);
    for (int size : {8, 16, 32, 64}) {
        periods_of(size, size, false, "random");
        periods_of(size, size / 2, false, "equal halves, each random");
        periods_of(size, 1, false, "all digits equal");
        periods_of(size, size / 2, true, "halves apart at the last digit alone");
    }
}

// ---- the census

static uint8_t tally_cells[DIVERTHRONE_TALLY_BYTES];
static uint32_t counts[13];

// The tally by single calls: for each number the query and its record.
static void tally_by_records(uint32_t m, uint32_t n, uint32_t all) {
    static uint8_t query[260];
    memset(counts, 0, sizeof counts);
    for (uint32_t x = 0; x < all; x++) {
        diverthrone_enumerate(m, n, x, query, sizeof query);
        diverthrone_synthesize(query, sizeof query, record, RECORD);
        counts[diverthrone_cell(record + DIVERTHRONE_LENGTH_PLACE, 0)]++;
    }
}

// The tally by the C versions, whose registers need no query: the next sequence is the last one with 1 added, digit by digit.
static void tally_in_c(uint32_t m, uint32_t n, uint32_t all, decltype(plain_register) *reg_of) {
    static uint32_t digits[128];
    memset(digits, 0, sizeof digits), memset(counts, 0, sizeof counts);
    for (uint32_t x = 0; x < all; x++) {
        reg_of(m, digits, (int)n, a, b, lens);
        counts[lens[n]]++;
        for (uint32_t i = n; i-- > 0 && ++digits[i] == m;) digits[i] = 0;
    }
}

static bool tallied(uint32_t m, uint32_t n) {
    if (diverthrone_tally(m, n, tally_cells, sizeof tally_cells)) return false;
    for (size_t l = 0; l < 13; l++)
        if (diverthrone_cell(tally_cells, l) != counts[l]) return false;
    return true;
}

static void census_of(uint32_t m, uint32_t n) {
    uint32_t all = 1;
    for (uint32_t i = 0; i < n; i++) all *= m;
    bool same = true;
    tally_by_records(m, n, all), same &= tallied(m, n);
    tally_in_c(m, n, all, plain_register), same &= tallied(m, n);
    tally_in_c(m, n, all, tricks_register), same &= tallied(m, n);
    if (!same) printf("tally of %u, %u: DIFFER\n", m, n), exit(1);
    static uint8_t query[260];
    auto t = measure({{"tally", [=](int) { diverthrone_tally(m, n, tally_cells, sizeof tally_cells); }},
                      {"records", [=](int) { tally_by_records(m, n, all); }},
                      {"plain", [=](int) { tally_in_c(m, n, all, plain_register); }},
                      {"tricks", [=](int) { tally_in_c(m, n, all, tricks_register); }},
                      {"numbers", [=](int) { for (uint32_t x = 0; x < all; x++) diverthrone_enumerate(m, n, x, query, sizeof query); }}},
                     21, 1);
    printf("  %4u^%-2u  %4u  %.2f  %.2f  %.2f  %.2f  %.2f  %.0f\n", m, n, all, t[0] / t[1], t[0] / t[2], t[0] / t[3], t[0] / 1e3, t[0] / all,
           1e3 * t[4] / all);
}

static void census() {
    printf("tally of so many sequences: / a number and a record for each, / C with %%, / C without %%, ms, us a sequence; a number's query, ns\n");
    census_of(2, 12), census_of(3, 7), census_of(4, 6), census_of(5, 5), census_of(8, 4), census_of(16, 3), census_of(61, 2), census_of(64, 2);
    census_of(2048, 1), census_of(2310, 1), census_of(4095, 1);
}

// ---- batches

static const size_t QUERIES = DIVERTHRONE_MAX_QUERIES, SHELF = 20000;
static std::vector<uint8_t> shelf(RECORD * SHELF);
static uint8_t bundle[QUERIES][260], records[QUERIES][RECORD], single_records[QUERIES][RECORD], plain_records[QUERIES][RECORD];
static uint64_t replies[QUERIES], single_replies[QUERIES], plain_replies[QUERIES];

static uint64_t by_batch(uint64_t who) {
    return diverthrone_look_up_batch(bundle[0], sizeof bundle, shelf.data(), shelf.size(), who, records[0], sizeof records, replies, QUERIES);
}

static void by_single_calls(uint64_t who) {
    for (size_t i = 0; i < QUERIES; i++)
        single_replies[i] = diverthrone_look_up(bundle[i], 260, shelf.data(), shelf.size(), who, single_records[i], RECORD);
}

static void by_plain_batch() { plain_batch(bundle[0], QUERIES, shelf.data(), SHELF, plain_records[0], plain_replies); }

// 128 random terms modulo 4093; with `shared` the first four are the same in every query.
static void random_query(uint8_t *query, bool shared) {
    for (size_t i = 0; i < 130; i++) {
        uint32_t x = i == 0 ? 4093 : i == 1 ? 128 : shared && i < 6 ? 1000 + (uint32_t)i : below(4093);
        query[2 * i] = x & 255, query[2 * i + 1] = x >> 8;
    }
}

// Each record has an accession number.
static void fill_shelf(bool shared) {
    for (size_t i = 0; i < SHELF; i++) {
        uint8_t query[260], *place = &shelf[RECORD * i];
        random_query(query, shared);
        diverthrone_synthesize(query, 260, place, RECORD);
        place[DIVERTHRONE_NUMBER_PLACE] = (uint8_t)(1 + i % 255);
    }
}

// Every reply and every byte of the batch is that of a single call; the C version finds the same records, with their numbers.
static bool batch_agrees(uint64_t who, size_t hits) {
    memset(records, 255, sizeof records), memset(single_records, 0, sizeof single_records), memset(plain_records, 0, sizeof plain_records);
    const uint64_t reply = by_batch(who);
    by_single_calls(who), by_plain_batch();
    if (reply != 256 * (hits + 256 * (QUERIES - hits)) || memcmp(records, single_records, sizeof records)) return false;
    if (memcmp(replies, single_replies, sizeof replies) || memcmp(replies, plain_replies, sizeof replies)) return false;
    for (size_t i = 0; i < QUERIES; i++)
        if (replies[i] && memcmp(records[i], plain_records[i], who == 1 ? RECORD : DIVERTHRONE_NUMBER_PLACE)) return false;
    return true;
}

// So many of the queries are found, so far apart, the first of them at the last record. A single call ends where it finds its record, so what
// single calls take depends on that.
static void batch_of(size_t hits, size_t apart, bool shared, const char *kind) {
    for (size_t i = 0; i < QUERIES; i++) {
        random_query(bundle[i], shared);
        if (i < hits) memcpy(bundle[i], &shelf[RECORD * (SHELF - 1 - i * apart)], 260);
    }
    if (!batch_agrees(0, hits) || !batch_agrees(1, hits)) printf("look_up_batch, %s: DIFFER\n", kind), exit(1);
    auto t = measure({{"batch", [](int) { by_batch(0); }},
                      {"single", [](int) { by_single_calls(0); }},
                      {"plain", [](int) { by_plain_batch(); }},
                      {"editor", [](int) { by_batch(1); }}},
                     41, 1);
    printf("  %2zu  %.2f  %.2f  %.2f  %.0f  %.0f  %s\n", hits, t[0] / t[1], t[0] / t[2], t[3] / t[0], t[0], t[1], kind);
}

static void batches() {
    printf("look_up_batch of %zu queries, so many found, in %zu records: / single look_ups, / C loop over memcmp, editor / visitor, us, us for single\n",
           QUERIES, SHELF);
    fill_shelf(false);
    batch_of(12, SHELF / 12, false, "spread over the catalogue, the others missing");
    batch_of(16, SHELF / 16, false, "spread over the catalogue");
    batch_of(16, 7, false, "at its end");
    batch_of(0, 0, false, "all missing");
    fill_shelf(true);
    batch_of(1, 0, false, "at its end, all records with that query's first four terms, the others missing");
    batch_of(12, SHELF / 12, true, "spread, all records with the first four terms of all queries");
    batch_of(0, 0, true, "all missing, all records with the first four terms of all queries");
}

int main() {
    primes();
    composites();
    working();
    growth();
    look_up();
    lines();
    columns();
    merges();
    periods();
    census();
    batches();
}
