/* For a visitor no accession number is read, and for nobody before a record is found: the number of a lone record stands on a page that
 * cannot be touched. A batch copies a record out when a query meets it, before it is tested, so there an editor's is read for 24 too.
 * No promise says so: contracts do not speak of what a call reads on the way. */
#define _DEFAULT_SOURCE
#include "diverthrone.h"

#include <setjmp.h>
#include <signal.h>
#include <stdio.h>
#include <string.h>
#include <sys/mman.h>
#include <unistd.h>

enum { QUERY = DIVERTHRONE_QUERY_BYTES, RECORD = DIVERTHRONE_RECORD_BYTES, NUMBER_AT = DIVERTHRONE_NUMBER_PLACE };

static uint8_t query[QUERY] = {9, 0, 5, 0, 6, 0, 3, 0, 1, 0, 5, 0, 6, 0}, served[RECORD];
static uint8_t *catalogue;
static sigjmp_buf before;
static int checks, failures;

static void trapped(int signal_number) {
    (void)signal_number;
    siglongjmp(before, 1);
}

/* The last page of the record begins with its number. */
static int forbid(void) {
    size_t page = (size_t)sysconf(_SC_PAGESIZE);
    void *pages = mmap(NULL, 2 * page, PROT_READ | PROT_WRITE, MAP_PRIVATE | MAP_ANONYMOUS, -1, 0);
    if (pages == MAP_FAILED || diverthrone_synthesize(query, QUERY, served, RECORD) != 0) return 0;
    uint8_t *forbidden = (uint8_t *)pages + page;
    catalogue = forbidden - NUMBER_AT;
    memcpy(catalogue, served, NUMBER_AT);
    return mprotect(forbidden, page, PROT_NONE) == 0;
}

static uint64_t alone(uint64_t who) { return diverthrone_look_up(query, QUERY, catalogue, RECORD, who, served, RECORD); }

/* The query as the second of a batch of two; the first has no terms, and its record is made. */
static uint64_t in_batch(uint64_t who) {
    static uint8_t queries[2 * QUERY] = {2}, records[2 * RECORD];
    uint64_t replies[2];
    memcpy(queries + QUERY, query, QUERY);
    uint64_t reply = diverthrone_look_up_batch(queries, sizeof queries, catalogue, RECORD, who, records, sizeof records, replies, 2);
    return diverthrone_refusal(reply) == 0 && replies[0] == 0 ? replies[1] : UINT64_MAX;
}

/* Whether the call touches the number; if it does not, its reply must be this one. */
static void look_up(uint64_t (*call)(uint64_t), uint64_t who, int touches, uint64_t expected, const char *what) {
    volatile uint64_t reply = 0;
    volatile int touched = 1;
    memset(served, 7, RECORD);
    checks++;
    if (sigsetjmp(before, 1) == 0) {
        reply = call(who);
        touched = 0;
    }
    if (touched == touches && (touched || reply == expected)) return;
    failures++;
    printf("FAILED: %s, for %llu\n", what, (unsigned long long)who);
}

int main(void) {
    static const uint64_t visitors[] = {0, 2, 257, UINT64_C(4294967297)};
    struct sigaction action;
    memset(&action, 0, sizeof action);
    action.sa_handler = trapped;
    if (sigaction(SIGSEGV, &action, NULL) != 0 || sigaction(SIGBUS, &action, NULL) != 0 || !forbid()) return 2;
    for (size_t i = 0; i < 4; i++) {
        look_up(alone, visitors[i], 0, 256, "a visitor finds the record without its number");
        look_up(in_batch, visitors[i], 0, 256, "a visitor finds the record without its number, in a batch");
    }
    look_up(alone, 1, 1, 0, "an editor is shown the number");
    look_up(in_batch, 1, 1, 0, "an editor is shown the number in a batch");
    query[4] = 5;
    for (uint64_t who = 0; who < 2; who++) {
        look_up(alone, who, 0, 0, "a record is made past one whose number is not read");
        look_up(in_batch, who, 0, 0, "a record is made past one whose number is not read, in a batch");
    }
    query[4] = 6, catalogue[DIVERTHRONE_A_PLACE] = 2;
    for (uint64_t who = 0; who < 2; who++) look_up(alone, who, 0, 24, "24 without the number");
    for (size_t i = 0; i < 4; i++) look_up(in_batch, visitors[i], 0, 24, "24 for a visitor without the number, in a batch");
    query[0] = 1, catalogue[0] = 1;
    for (uint64_t who = 0; who < 2; who++) look_up(in_batch, who, 0, 1, "a query that is refused takes no record, in a batch");
    printf("unread test: %d checks, %d failed\n", checks, failures);
    return failures != 0;
}
