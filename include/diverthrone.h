/* Diverthrone: shortest linear recurrences modulo m, proved. C interface.
 *
 * Words. A query is 260 bytes: modulus, count n, then 128 terms, each number in two bytes, low byte first, zero past the count.
 * A register of length l is a_0 .. a_l with a_0 = 1 and b_0 .. b_(l-1); it generates the terms S when S * a and b agree modulo m in every
 * coefficient 0 .. n-1, so that from place l on each term is minus the sum of a_i times the term i places back.
 * The listing calls the length of a shortest register its start, and the degree of a, the last place of a that is not 0, its order; the order
 * is at most the start, and a is 0 past the order. Records keep the length.
 * Coefficients are lent as cells of two bytes: 129 cells (258 bytes) for a, 128 cells (256 bytes) for b, zero past the length.
 * A record is 778 bytes: the query (0..259), the length (260), a (262..519), b (520..775) and an accession number (776, 777), which is 0 in a
 * record just made. No function gives one: the host writes it into the record's last two bytes, low byte first, and any number is legal.
 * A catalogue is records end to end. Of its form only the length is looked at: one of old records, of 776 bytes without the number, would be
 * cut into 778s as well, so the host rewrites it first.
 *
 * Typed lines. A line is "mod ", the modulus in digits without a sign, a colon, then terms with commas between them, without an end mark:
 * "mod 9: 6,3,1,-4,6". A term is digits, with or without a minus before them. Blanks (byte 32) may stand around a term but not inside it,
 * leading zeros in the modulus and the terms; nothing or only blanks after the colon means no terms. A term may run from -2,147,483,648 to
 * 2,147,483,647 and stands for its remainder from 0 to m - 1: -1 is m - 1, and -0 is 0.
 *
 * Replies. Every function answers refusal + 256 * value; take them apart with diverthrone_refusal and diverthrone_value.
 * On a refusal every lent buffer holds what it held. There is one exception: where a batch is answered, each query that is refused in it gets
 * 778 zero bytes for its record.
 * With refusals 3, 27, 28 and 31 the value is a place, counted from 0 (above 2^56 - 1, which only a line could reach, it is told as
 * 2^56 - 1), with every other refusal it is 0.
 *
 *    refusal  meaning
 *       0     none
 *       1     the modulus is below 2 or above 4,095
 *       2     the count of terms, or of cells to run, is above 128
 *       3     one of a query's terms is not below its modulus, or a digit of a period is above 1; the value is the place of the first of them
 *       4     a query holds something other than zero past its count
 *       5     a lent buffer has another length than stated, the cells to run or the cells of a period are an odd number of bytes, or the
 *             queries of a batch no multiple of 260 bytes
 *       6     a candidate has a coefficient not below m, or a nonzero one past its end (a past the length, b from the length on)
 *      23     the catalogue's length is not a multiple of 778
 *      24     the record found is malformed (as in 25, 6, 26) or does not pass the test against the query
 *      25     a candidate's length is above 128
 *      26     a candidate's a_0 is not 1 (if it is not below m, 6 comes first)
 *      27     the line breaks its form; the value is the place of the first byte that no line of this form with the same bytes before it
 *             has there, or the line's length if it ends too soon
 *      28     a typed term is out of its range, or a typed modulus above 2,147,483,647; the value is the place of the digit that passes it
 *      29     the counts of the two queries differ
 *      30     the least common multiple of the two moduli is above 4,095
 *      31     two terms at the same place disagree modulo the greatest common divisor of the moduli, so that no number leaves both; the value
 *             is the place of the first such pair
 *      32     the number of cells lent as a period is none of 1, 2, 4, 8, 16, 32, 64
 *      33     the modulus to the power of the count is above 4,096, or the number of a sequence is not below that power
 *      34     a batch has more than 16 queries
 *
 * Where several apply the first is given, in the order that each function states.
 *
 * What the caller must grant. Each pointer is valid for its length; with length 0 it may be NULL or any address. The replies of a batch are
 * aligned as a uint64_t, as an array of them is, also where there are none; bytes need no alignment.
 * A written buffer overlaps no other buffer of the same call. Nothing else: any bytes, any lengths.
 * There is no allocation, no global state and no I/O, so calls from several threads need no lock. A call uses at most 35 KB of stack.
 */
#ifndef DIVERTHRONE_H
#define DIVERTHRONE_H

#include <stddef.h>
#include <stdint.h>

#ifdef __cplusplus
extern "C" {
#endif

#define DIVERTHRONE_QUERY_BYTES 260
#define DIVERTHRONE_A_BYTES 258
#define DIVERTHRONE_B_BYTES 256
#define DIVERTHRONE_RECORD_BYTES 778
#define DIVERTHRONE_TALLY_BYTES 26

/* The most queries in a batch. */
#define DIVERTHRONE_MAX_QUERIES 16

/* The places in a record, in bytes from its start; the query stands at 0. */
#define DIVERTHRONE_LENGTH_PLACE 260
#define DIVERTHRONE_A_PLACE 262
#define DIVERTHRONE_B_PLACE 520
#define DIVERTHRONE_NUMBER_PLACE 776

/* Who asks: an editor is this number, a visitor any other. */
#define DIVERTHRONE_EDITOR 1

/* Makes the record of a query: its shortest register. Value 0.
 * Refusals in order: 5 (query, record), 1, 2, 3, 4. */
uint64_t diverthrone_synthesize(const uint8_t *query, size_t query_len, uint8_t *record, size_t record_len);

/* Looks a query up in a catalogue by all of its 260 bytes. The first record with this query goes out if its register passes the test;
 * if there is none, a record is made. Value: 0 for a record made, 1 + its place for one found, counted from 0.
 * Refusals in order: 5 (query, record), 1, 2, 3, 4, 23, 24.
 * Who asks is one number, all 64 bits of it: 1 is an editor, who is served the record as it stands; any other number, 257 and 2^32 + 1 among
 * them, is a visitor, who sees 0 for the accession number. The call believes it: that only editors come as 1 is the host's to see to.
 * The reply does not depend on who asks, and matching and the test do not look at accession numbers: from two catalogues that differ in
 * nothing else a visitor gets the same reply and the same bytes. The time that a call takes is not promised. */
uint64_t diverthrone_look_up(const uint8_t *query, size_t query_len, const uint8_t *catalogue, size_t catalogue_len, uint64_t who,
                             uint8_t *record, size_t record_len);

/* Looks up a batch: up to 16 queries of 260 bytes end to end, in one walk along the catalogue, in which each record is passed once. Each query
 * gets what diverthrone_look_up would give it alone from the same catalogue for who asks; queries may be equal, and each is answered.
 * Of query i, counted from 0, replies[i] is that reply: 0 for a record made, 256 * (1 + its place) for one found, the number of a refusal,
 * with 256 * the place added for 3. The 778 bytes of records from 778 * i on are that record, or zeros where the query is refused.
 * records_len counts bytes, 778 for each query; replies_len counts numbers, one for each query.
 * Value: how many queries were found + 256 * how many were made + 65,536 * how many were refused; the three add up to the number of queries
 * and are taken out of a reply by diverthrone_batch_found, diverthrone_batch_made and diverthrone_batch_refused. A batch of none has value 0.
 * Refusals in order: 5 (queries, records, replies), 34, 23. They are of the whole call, and records and replies then hold what they held.
 * Neither the reply nor the replies depend on who asks, and from two catalogues that differ in accession numbers only a visitor gets the
 * same bytes. */
uint64_t diverthrone_look_up_batch(const uint8_t *queries, size_t queries_len, const uint8_t *catalogue, size_t catalogue_len, uint64_t who,
                                   uint8_t *records, size_t records_len, uint64_t *replies, size_t replies_len);

/* Tests a candidate register of this length against a query. Value: 0 for yes, 1 + the first place where the product and b differ for no.
 * Refusals in order: 5 (query, a, b), 1, 2, 3, 4, 25, 6, 26. */
uint64_t diverthrone_verify(const uint8_t *query, size_t query_len, const uint8_t *a, size_t a_len, const uint8_t *b, size_t b_len,
                            uint32_t length);

/* Runs a candidate register: fills the whole lent buffer of at most 128 cells with the terms that it generates. Value 0.
 * Refusals in order: 5 (a, b, an odd number of bytes), 1, 2, 25, 6, 26. */
uint64_t diverthrone_generate(uint32_t modulus, const uint8_t *a, size_t a_len, const uint8_t *b, size_t b_len, uint32_t length,
                              uint8_t *cells, size_t cells_len);

/* Reads a typed line into a query, the one that would be written by hand. Value 0. The line is read to its end before 1 and 2 are given.
 * Refusals in order: 5 (query), 27 or 28 (whichever is met first from left to right), 1, 2. */
uint64_t diverthrone_read_line(const uint8_t *line, size_t line_len, uint8_t *query, size_t query_len);

/* Merges two queries of the same sequence to one modulo the least common multiple of their moduli, with the same count. Each of its terms is
 * the one number below the multiple that leaves the first query's term modulo the first modulus and the second's modulo the second: 7,2,11
 * modulo 12 and 13,2,17 modulo 18 give 31,2,35 modulo 36. Value 0. The first and the second may be the same buffer.
 * For every k the least length of its first k terms is the larger of the least lengths of the two queries' first k terms, so its register's
 * length is the larger of theirs. Its register's coefficients need not leave those of the two registers, which may disagree.
 * Refusals in order: 5 (first, second, query), the first's 1, 2, 3, 4, the second's 1, 2, 3, 4, then 29, 30, 31.
 * 1, 2, 3 with its place, and 4 do not tell which of the two queries they mean: it is the first if diverthrone_synthesize refuses that one,
 * which it then does with the same reply, else the second. */
uint64_t diverthrone_merge(const uint8_t *first, size_t first_len, const uint8_t *second, size_t second_len, uint8_t *query,
                           size_t query_len);

/* Finds the least length modulo 2 of a sequence that repeats a period. A period is 1, 2, 4, 8, 16, 32 or 64 digits, each 0 or 1, lent once as
 * cells of two bytes, low byte first, which are only read; it need not be the shortest one. 1,0,0,1,1,0,1,0 over and over has length 7.
 * Value: the length itself, 0 to 64, not 1 + the length.
 * It is the least length of two whole periods and of any more terms of the sequence, so the length in the record of such a query with the
 * modulus 2. Fewer terms than two periods may have a smaller one: 1,0,1,0 has length 2, and 1,0 alone 1.
 * Refusals in order: 5 (an odd number of bytes), 32, 3. The refusal 2 is not given: more than 128 cells get 32, as 0 and 128 do. */
uint64_t diverthrone_period_length(const uint8_t *cells, size_t cells_len);

/* Writes the query of the sequence with this number, among all sequences of so many terms modulo the modulus. They are counted from 0 in
 * dictionary order by first term, so that the last term runs fastest and every sequence has exactly one number: number 0 is all zeros, and
 * modulo 2 with 3 terms number 1 is 0,0,1 and number 6 is 1,1,0. Value 0.
 * There are modulus^count of them, and the power may be at most 4,096: 12 terms modulo 2, 2 terms up to the modulus 64, one term up to 4,095.
 * No terms are one sequence, number 0. All 64 bits of the number are looked at: 2^32 + 6 is not 6.
 * The query is the one that would be written by hand, zero past the count, and diverthrone_synthesize refuses none of them.
 * Refusals in order: 5 (query), 1, 2, 33. */
uint64_t diverthrone_enumerate(uint32_t modulus, uint32_t count, uint64_t number, uint8_t *query, size_t query_len);

/* Tallies the least lengths of all these sequences in 13 cells of two bytes, low byte first: cell l gets how many of them have length l, and
 * past the count it is 0. Modulo 2 with 3 terms the cells are 1,2,4,1, modulo 4 with 2 terms 1,10,5, then zeros. Value 0.
 * The cells add up to modulus^count. Cell 0 is 1, since zeros alone have length 0. For a prime modulus m, n terms and l from 1 to n, cell l
 * is (m - 1) m^min(2n - 2l, 2l - 1).
 * Every sequence is looked at, so a call takes the time of up to 4,096 registers.
 * Refusals in order: 5 (cells), 1, 2, 33. */
uint64_t diverthrone_tally(uint32_t modulus, uint32_t count, uint8_t *cells, size_t cells_len);

static inline unsigned diverthrone_refusal(uint64_t reply) { return (unsigned)(reply % 256); }

static inline uint64_t diverthrone_value(uint64_t reply) { return reply / 256; }

/* The three numbers in the reply to a batch, of queries found, made and refused; each is 0 where the whole call is refused. */
static inline unsigned diverthrone_batch_found(uint64_t reply) { return (unsigned)(diverthrone_value(reply) % 256); }

static inline unsigned diverthrone_batch_made(uint64_t reply) { return (unsigned)(diverthrone_value(reply) / 256 % 256); }

static inline unsigned diverthrone_batch_refused(uint64_t reply) { return (unsigned)(diverthrone_value(reply) / 65536); }

/* The number in a cell of two bytes: of a query, of a register, of a tally, or at a place in a record. Cells count from 0. */
static inline unsigned diverthrone_cell(const uint8_t *bytes, size_t cell) { return bytes[2 * cell] + 256u * bytes[2 * cell + 1]; }

/* NULL with length 0. The archive's functions want an address for every slice. So each of their names is also a macro for a function below,
 * which puts an address in place of such a NULL and calls the archive's. The macros have no parameters, so that NULL is legal too where a
 * function is called by its address. After #undef a name means the archive's function itself, which takes no NULL; so a host's own inline
 * function with external linkage, which may not call static ones, can use it. */

/* The byte that stands in is neither read nor written. */
static inline const uint8_t *diverthrone_in(const uint8_t *bytes, size_t len) {
    static const uint8_t none = 0;
    return bytes == NULL && len == 0 ? &none : bytes;
}

static inline uint8_t *diverthrone_out(uint8_t *bytes, size_t len) {
    static uint8_t none = 0;
    return bytes == NULL && len == 0 ? &none : bytes;
}

/* A number where numbers are lent, since it is aligned as they are. */
static inline uint64_t *diverthrone_out_numbers(uint64_t *numbers, size_t len) {
    static uint64_t none = 0;
    return numbers == NULL && len == 0 ? &none : numbers;
}

static inline uint64_t diverthrone_synthesize_null(const uint8_t *query, size_t query_len, uint8_t *record, size_t record_len) {
    return diverthrone_synthesize(diverthrone_in(query, query_len), query_len, diverthrone_out(record, record_len), record_len);
}

static inline uint64_t diverthrone_look_up_null(const uint8_t *query, size_t query_len, const uint8_t *catalogue, size_t catalogue_len,
                                                uint64_t who, uint8_t *record, size_t record_len) {
    return diverthrone_look_up(diverthrone_in(query, query_len), query_len, diverthrone_in(catalogue, catalogue_len), catalogue_len, who,
                               diverthrone_out(record, record_len), record_len);
}

static inline uint64_t diverthrone_look_up_batch_null(const uint8_t *queries, size_t queries_len, const uint8_t *catalogue,
                                                      size_t catalogue_len, uint64_t who, uint8_t *records, size_t records_len,
                                                      uint64_t *replies, size_t replies_len) {
    return diverthrone_look_up_batch(diverthrone_in(queries, queries_len), queries_len, diverthrone_in(catalogue, catalogue_len),
                                     catalogue_len, who, diverthrone_out(records, records_len), records_len,
                                     diverthrone_out_numbers(replies, replies_len), replies_len);
}

static inline uint64_t diverthrone_verify_null(const uint8_t *query, size_t query_len, const uint8_t *a, size_t a_len, const uint8_t *b,
                                               size_t b_len, uint32_t length) {
    return diverthrone_verify(diverthrone_in(query, query_len), query_len, diverthrone_in(a, a_len), a_len, diverthrone_in(b, b_len), b_len,
                              length);
}

static inline uint64_t diverthrone_generate_null(uint32_t modulus, const uint8_t *a, size_t a_len, const uint8_t *b, size_t b_len,
                                                 uint32_t length, uint8_t *cells, size_t cells_len) {
    return diverthrone_generate(modulus, diverthrone_in(a, a_len), a_len, diverthrone_in(b, b_len), b_len, length,
                                diverthrone_out(cells, cells_len), cells_len);
}

static inline uint64_t diverthrone_read_line_null(const uint8_t *line, size_t line_len, uint8_t *query, size_t query_len) {
    return diverthrone_read_line(diverthrone_in(line, line_len), line_len, diverthrone_out(query, query_len), query_len);
}

static inline uint64_t diverthrone_merge_null(const uint8_t *first, size_t first_len, const uint8_t *second, size_t second_len,
                                              uint8_t *query, size_t query_len) {
    return diverthrone_merge(diverthrone_in(first, first_len), first_len, diverthrone_in(second, second_len), second_len,
                             diverthrone_out(query, query_len), query_len);
}

static inline uint64_t diverthrone_period_length_null(const uint8_t *cells, size_t cells_len) {
    return diverthrone_period_length(diverthrone_in(cells, cells_len), cells_len);
}

static inline uint64_t diverthrone_enumerate_null(uint32_t modulus, uint32_t count, uint64_t number, uint8_t *query, size_t query_len) {
    return diverthrone_enumerate(modulus, count, number, diverthrone_out(query, query_len), query_len);
}

static inline uint64_t diverthrone_tally_null(uint32_t modulus, uint32_t count, uint8_t *cells, size_t cells_len) {
    return diverthrone_tally(modulus, count, diverthrone_out(cells, cells_len), cells_len);
}

#define diverthrone_synthesize diverthrone_synthesize_null
#define diverthrone_look_up diverthrone_look_up_null
#define diverthrone_look_up_batch diverthrone_look_up_batch_null
#define diverthrone_verify diverthrone_verify_null
#define diverthrone_generate diverthrone_generate_null
#define diverthrone_read_line diverthrone_read_line_null
#define diverthrone_merge diverthrone_merge_null
#define diverthrone_period_length diverthrone_period_length_null
#define diverthrone_enumerate diverthrone_enumerate_null
#define diverthrone_tally diverthrone_tally_null

#ifdef __cplusplus
}
#endif

#endif
