/* What the header hands on to the archive: an address in place of NULL with length 0, all else as it came, for every slice of every
 * function; and the numbers that it takes out of a reply. stand_in.c takes the archive's place; with it there are two translation units that
 * include the header. */
#include "diverthrone.h"

#include <stdio.h>
#include <string.h>

/* stand_in.c: what the last call was handed. */
extern const uint8_t *seen[4];
extern size_t seen_len[4];
extern uint32_t seen_number[2];
extern uint64_t seen_wide;

enum { LENGTH = 70000, MODULUS = 80000, COUNT = 90000 };

/* 2^32 + 1: cut to 32 bits it would be an editor, or the number of another sequence. */
#define WIDE UINT64_C(4294967297)

static uint64_t synthesize(uint8_t *const p[4], const size_t n[4]) { return diverthrone_synthesize(p[0], n[0], p[1], n[1]); }

static uint64_t look_up(uint8_t *const p[4], const size_t n[4]) { return diverthrone_look_up(p[0], n[0], p[1], n[1], WIDE, p[2], n[2]); }

static uint64_t verify(uint8_t *const p[4], const size_t n[4]) { return diverthrone_verify(p[0], n[0], p[1], n[1], p[2], n[2], LENGTH); }

static uint64_t generate(uint8_t *const p[4], const size_t n[4]) {
    return diverthrone_generate(MODULUS, p[0], n[0], p[1], n[1], LENGTH, p[2], n[2]);
}

static uint64_t read_line(uint8_t *const p[4], const size_t n[4]) { return diverthrone_read_line(p[0], n[0], p[1], n[1]); }

static uint64_t merge(uint8_t *const p[4], const size_t n[4]) { return diverthrone_merge(p[0], n[0], p[1], n[1], p[2], n[2]); }

static uint64_t period_length(uint8_t *const p[4], const size_t n[4]) { return diverthrone_period_length(p[0], n[0]); }

static uint64_t enumerate(uint8_t *const p[4], const size_t n[4]) { return diverthrone_enumerate(MODULUS, COUNT, WIDE, p[0], n[0]); }

static uint64_t tally(uint8_t *const p[4], const size_t n[4]) { return diverthrone_tally(MODULUS, COUNT, p[0], n[0]); }

/* The fourth slice is of numbers. */
static uint64_t look_up_batch(uint8_t *const p[4], const size_t n[4]) {
    return diverthrone_look_up_batch(p[0], n[0], p[1], n[1], WIDE, p[2], n[2], (uint64_t *)(void *)p[3], n[3]);
}

/* By its address, as from a host's table of functions. */
static uint64_t (*const address)(const uint8_t *, size_t, const uint8_t *, size_t, uint64_t, uint8_t *, size_t) = diverthrone_look_up;

static uint64_t by_address(uint8_t *const p[4], const size_t n[4]) { return address(p[0], n[0], p[1], n[1], WIDE, p[2], n[2]); }

/* What is handed on beside the slices: a length or a count, a modulus, and a number of 64 bits. */
struct call {
    const char *name;
    uint64_t (*make)(uint8_t *const p[4], const size_t n[4]);
    size_t slices;
    uint64_t reply;
    uint32_t number, modulus;
    uint64_t wide;
};

static const struct call calls[] = {{"synthesize", synthesize, 2, 1, 0, 0, 0},
                                    {"look_up", look_up, 3, 2, 0, 0, WIDE},
                                    {"verify", verify, 3, 3, LENGTH, 0, 0},
                                    {"generate", generate, 3, 4, LENGTH, MODULUS, 0},
                                    {"read_line", read_line, 2, 5, 0, 0, 0},
                                    {"merge", merge, 3, 6, 0, 0, 0},
                                    {"period_length", period_length, 1, 7, 0, 0, 0},
                                    {"enumerate", enumerate, 1, 8, COUNT, MODULUS, WIDE},
                                    {"tally", tally, 1, 9, COUNT, MODULUS, 0},
                                    {"look_up_batch", look_up_batch, 4, 10, 0, 0, WIDE},
                                    {"look_up by its address", by_address, 3, 2, 0, 0, WIDE}};

static int checks, failures;

static void check(int ok, const char *name, size_t slice) {
    checks++;
    if (ok) return;
    failures++;
    printf("FAILED: %s, slice %u\n", name, (unsigned)slice);
}

/* A number stands here behind as many bytes as its alignment. */
struct alignment {
    char byte;
    uint64_t number;
};

static int aligned(const uint8_t *address) { return (uintptr_t)address % offsetof(struct alignment, number) == 0; }

/* One slice is NULL or not, of length 0 or 5; the others are neither NULL nor empty. */
static void one_slice(const struct call *c, size_t slice, int null, size_t len) {
    static uint8_t bytes[3][5];
    static uint64_t numbers[5];
    uint8_t *p[4] = {bytes[0], bytes[1], bytes[2], (uint8_t *)numbers};
    size_t n[4] = {5, 5, 5, 5};
    if (null) p[slice] = NULL;
    n[slice] = len;
    memset(seen, 0, sizeof seen);
    memset(seen_number, 0, sizeof seen_number);
    seen_wide = 0;
    check(c->make(p, n) == c->reply && seen_number[0] == c->number && seen_number[1] == c->modulus, c->name, slice);
    check(seen_wide == c->wide, c->name, slice);
    for (size_t i = 0; i < c->slices; i++) {
        int put_in = i == slice && null && len == 0;
        check((put_in ? seen[i] != NULL : seen[i] == p[i]) && seen_len[i] == n[i], c->name, i);
        if (i == 3) check(aligned(seen[i]), c->name, i);
    }
}

/* 3 found, 4 made, 5 refused, and the most of each; a whole call that is refused has none. */
static void counts(void) {
    const uint64_t reply = 256 * (3 + 256 * 4 + UINT64_C(65536) * 5), all = 16;
    check(diverthrone_batch_found(reply) == 3 && diverthrone_batch_made(reply) == 4 && diverthrone_batch_refused(reply) == 5, "counts", 0);
    check(diverthrone_batch_found(256 * all) == 16 && diverthrone_batch_made(256 * all) == 0, "all found", 0);
    check(diverthrone_batch_made(65536 * all) == 16 && diverthrone_batch_refused(65536 * all) == 0, "all made", 0);
    check(diverthrone_batch_refused(16777216 * all) == 16 && diverthrone_batch_found(16777216 * all) == 0, "all refused", 0);
    check(diverthrone_batch_found(34) == 0 && diverthrone_batch_made(34) == 0 && diverthrone_batch_refused(34) == 0, "34", 0);
}

int main(void) {
    for (size_t i = 0; i < sizeof calls / sizeof *calls; i++)
        for (size_t slice = 0; slice < calls[i].slices; slice++)
            for (int kind = 0; kind < 4; kind++) one_slice(&calls[i], slice, kind % 2, kind < 2 ? 0 : 5);
    counts();
    printf("header test: %d checks, %d failed\n", checks, failures);
    return failures != 0;
}
