/* Stand-ins for the archive's functions, for header_test.c: each keeps what it is handed and replies a number of its own. */
#include "diverthrone.h"

#undef diverthrone_synthesize
#undef diverthrone_look_up
#undef diverthrone_look_up_batch
#undef diverthrone_verify
#undef diverthrone_generate
#undef diverthrone_read_line
#undef diverthrone_merge
#undef diverthrone_period_length
#undef diverthrone_enumerate
#undef diverthrone_tally

const uint8_t *seen[4];
size_t seen_len[4];
uint32_t seen_number[2];
uint64_t seen_wide;

static void see(size_t i, const uint8_t *bytes, size_t len) { seen[i] = bytes, seen_len[i] = len; }

uint64_t diverthrone_synthesize(const uint8_t *query, size_t query_len, uint8_t *record, size_t record_len) {
    see(0, query, query_len), see(1, record, record_len);
    return 1;
}

uint64_t diverthrone_look_up(const uint8_t *query, size_t query_len, const uint8_t *catalogue, size_t catalogue_len, uint64_t who,
                             uint8_t *record, size_t record_len) {
    see(0, query, query_len), see(1, catalogue, catalogue_len), see(2, record, record_len);
    seen_wide = who;
    return 2;
}

uint64_t diverthrone_verify(const uint8_t *query, size_t query_len, const uint8_t *a, size_t a_len, const uint8_t *b, size_t b_len,
                            uint32_t length) {
    see(0, query, query_len), see(1, a, a_len), see(2, b, b_len);
    seen_number[0] = length;
    return 3;
}

uint64_t diverthrone_generate(uint32_t modulus, const uint8_t *a, size_t a_len, const uint8_t *b, size_t b_len, uint32_t length,
                              uint8_t *cells, size_t cells_len) {
    see(0, a, a_len), see(1, b, b_len), see(2, cells, cells_len);
    seen_number[0] = length, seen_number[1] = modulus;
    return 4;
}

uint64_t diverthrone_read_line(const uint8_t *line, size_t line_len, uint8_t *query, size_t query_len) {
    see(0, line, line_len), see(1, query, query_len);
    return 5;
}

uint64_t diverthrone_merge(const uint8_t *first, size_t first_len, const uint8_t *second, size_t second_len, uint8_t *query,
                           size_t query_len) {
    see(0, first, first_len), see(1, second, second_len), see(2, query, query_len);
    return 6;
}

uint64_t diverthrone_period_length(const uint8_t *cells, size_t cells_len) {
    see(0, cells, cells_len);
    return 7;
}

uint64_t diverthrone_enumerate(uint32_t modulus, uint32_t count, uint64_t number, uint8_t *query, size_t query_len) {
    see(0, query, query_len);
    seen_number[0] = count, seen_number[1] = modulus, seen_wide = number;
    return 8;
}

uint64_t diverthrone_tally(uint32_t modulus, uint32_t count, uint8_t *cells, size_t cells_len) {
    see(0, cells, cells_len);
    seen_number[0] = count, seen_number[1] = modulus;
    return 9;
}

/* Replies are numbers, lent by their address like all else. */
uint64_t diverthrone_look_up_batch(const uint8_t *queries, size_t queries_len, const uint8_t *catalogue, size_t catalogue_len, uint64_t who,
                                   uint8_t *records, size_t records_len, uint64_t *replies, size_t replies_len) {
    see(0, queries, queries_len), see(1, catalogue, catalogue_len), see(2, records, records_len);
    see(3, (const uint8_t *)replies, replies_len);
    seen_wide = who;
    return 10;
}
