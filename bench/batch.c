/* Up to 16 queries looked up in one pass over a catalogue in plain C, by memcmp: for comparison with diverthrone_look_up_batch. Each query
 * that is not found yet is compared with each record, and the first match is copied. Nothing is checked, tested, made or hidden. */
#include <stddef.h>
#include <stdint.h>
#include <string.h>

enum { QUERY = 260, RECORD = 778 };

/* Replies are 256 * (1 + the place) for a query that is found, and 0 otherwise. */
void plain_batch(const uint8_t *queries, size_t count, const uint8_t *catalogue, size_t records, uint8_t *out, uint64_t *replies) {
    memset(replies, 0, count * sizeof *replies);
    for (size_t j = 0; j < records; j++) {
        const uint8_t *record = catalogue + j * RECORD;
        for (size_t i = 0; i < count; i++) {
            if (replies[i] != 0 || memcmp(queries + i * QUERY, record, QUERY) != 0) continue;
            memcpy(out + i * RECORD, record, RECORD);
            replies[i] = 256 * (1 + (uint64_t)j);
        }
    }
}
