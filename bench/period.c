/* The length of a binary sequence from one of its periods in plain C, by the same halving and with the same refusals in the same order: for
 * comparison with diverthrone_period_length. Once with an array of digits, and once with the digits as the bits of one word, the fastest way
 * that was tried. */
#include <stddef.h>
#include <stdint.h>
#include <string.h>

enum { MAX_PERIOD = 64 };

/* What is wrong with so many bytes: 5, 32; or 0. */
static uint64_t size_refusal(size_t len) {
    size_t n = len / 2;
    if (len % 2 != 0) return 5;
    return n == 0 || n > MAX_PERIOD || (n & (n - 1)) != 0 ? 32 : 0;
}

static unsigned cell(const uint8_t *cells, size_t i) { return cells[2 * i] + 256u * cells[2 * i + 1]; }

static uint64_t halve_array(uint8_t *digits, size_t n) {
    uint64_t length = 0;
    for (size_t h = n / 2; h > 0; h /= 2) {
        size_t same = 0;
        while (same < h && digits[same] == digits[h + same]) same++;
        if (same == h) continue;
        length += h;
        for (size_t i = 0; i < h; i++) digits[i] ^= digits[h + i];
    }
    return length + digits[0];
}

uint64_t array_period_length(const uint8_t *cells, size_t cells_len) {
    uint64_t refused = size_refusal(cells_len);
    if (refused != 0) return refused;
    size_t n = cells_len / 2;
    uint8_t digits[MAX_PERIOD];
    for (size_t i = 0; i < n; i++) {
        unsigned digit = cell(cells, i);
        if (digit > 1) return 3 + 256 * (uint64_t)i;
        digits[i] = (uint8_t)digit;
    }
    return 256 * halve_array(digits, n);
}

/* The first digit is the lowest bit. The sum of the halves modulo 2 is 0 where they are equal, and half a word is what is left then. */
static uint64_t halve_word(uint64_t digits, size_t n) {
    uint64_t length = 0;
    for (size_t h = n / 2; h > 0; h /= 2) {
        uint64_t first = digits & (((uint64_t)1 << h) - 1), sum = first ^ digits >> h;
        length += sum != 0 ? h : 0;
        digits = sum != 0 ? sum : first;
    }
    return length + digits;
}

/* The place of the first digit above 1, of which there is one. */
static uint64_t place_above_1(const uint8_t *cells) {
    uint64_t i = 0;
    while (cell(cells, i) <= 1) i++;
    return i;
}

/* Four cells are read at once, low byte first as on the machines that the archive is for. The product has the four digits side by side from
 * bit 48 on: digit i, at bit 16 i, is moved up by 48 - 15 i, and no other part of the product comes there. */
uint64_t word_period_length(const uint8_t *cells, size_t cells_len) {
    uint64_t refused = size_refusal(cells_len);
    if (refused != 0) return refused;
    size_t n = cells_len / 2;
    uint64_t digits = 0, above = 0;
    for (size_t i = 0; i < n; i += 4) {
        uint64_t four = 0;
        if (n < 4) memcpy(&four, cells, cells_len);
        else memcpy(&four, cells + 2 * i, 8);
        above |= four & ~UINT64_C(0x0001000100010001);
        digits |= (four * UINT64_C(0x0001000200040008) >> 48 & 15) << i;
    }
    if (above != 0) return 3 + 256 * place_above_1(cells);
    return 256 * halve_word(digits, n);
}
