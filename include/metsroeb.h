/* Metsroeb: the canonical inverse Lyndon factorization (ICFL) of a record, and what belongs to it.
 *
 * A record is a word of 1 to 4,096 bytes. Byte 255 is a mark, all other values are ordinary letters. Each mark is a
 * factor of both cuts by itself, with 1 in the start table, and belongs to no repetition; each nonempty stretch between
 * neighbouring marks or the record's edges is cut as a record by itself, and has the repetitions that it has by itself.
 * The comparison takes 255 for the largest letter, the test refuses it.
 * Places count from 0; an end is the place just past the last byte. A paired list has two entries for each factor: its
 * end, and a count; icfl gives there how many anti-Lyndon factors, those of the strict cut, are inside. Every function
 * returns a refusal number, 0 for a result, or a struct that holds it.
 *
 * The caller ensures, for every function:
 *   - every pointer is valid and not null, also where its length is 0, and aligned for its type;
 *   - every length is true: so many bytes or entries can be read, and written where the pointer is not const;
 *   - what can be written (a buffer, a number) overlaps no other argument.
 * Nothing else is asked: lengths, places, lists and piece numbers of every value are answered, by a refusal if need be.
 * No function keeps a pointer, allocates, recurses, or has a state of its own; calls may run at the same time on
 * different buffers.
 *
 * Refusals. A line is tried only when the lines above it have passed, and only by the functions it names.
 *
 *   1  all         record_len is 0
 *   2  all         record_len is above 4,096
 *   3  test        work_len is below record_len
 *      icfl, icfl_breaks   work_len is below 3 * record_len
 *   4  icfl, icfl_breaks, cfl_in, lyndon_table, runs   a result buffer has fewer entries than the answer;
 *                  two for each factor of icfl, five for each break, three for each repetition
 *   5  compare     first is not below end, or end is above record_len
 *   6  compare     start or other is below first, or not below end
 *   7  factor, summarize   pairs is empty or has an odd number of entries; its first end is 0, its ends do not rise
 *                  strictly, or the last is not record_len; or a count is 0 or above its factor's length
 *   8  factor      number is not below pairs_len / 2
 *   9  test        the record holds a mark
 *  10  icfl_batch  record_ends is empty, has more than 64 ends, falls somewhere, or its last end is not bytes_len;
 *                  before lines 1 to 4, which each record of the batch meets or passes by itself
 *
 * Beside a refusal the numbers written through pointers are 0, and every buffer is as it was; only icfl (also for a
 * record of a batch) and icfl_breaks have cleared their work buffer after 4 as after a result. Entries past those that a
 * function is said to write stay as they were.
 */
#ifndef METSROEB_H
#define METSROEB_H

#include <stddef.h>
#include <stdint.h>

#ifdef __cplusplus
extern "C" {
#endif

#define METSROEB_MOST 4096       /* the most bytes of a record */
#define METSROEB_MOST_RECORDS 64 /* the most records of a batch */

/* What the factors that a paired list marks come to. Beside a refusal all else is 0. */
typedef struct {
    uint8_t refusal;
    uint16_t count;     /* number of factors */
    uint16_t longest;   /* greatest length of a factor */
    uint16_t from;      /* first place of the latest factor of that length */
    uint16_t bands[13]; /* bands[k]: number of factors whose length has k + 1 binary digits */
} metsroeb_summary;

/* What icfl answers for a record of a batch: a refusal, or the number of its factors. */
typedef struct {
    uint8_t refusal;
    uint16_t count; /* 0 beside a refusal */
} metsroeb_reply;

/* What a batch comes to: a refusal of all of it, or a reply for each record, in their order. Places past the last
 * record, and all of them beside a refusal, hold a result of 0. */
typedef struct {
    uint8_t refusal;
    metsroeb_reply replies[METSROEB_MOST_RECORDS];
} metsroeb_batch;

/* The test. An inverse Lyndon record (nonempty, greater than each nonempty proper suffix): 0 in all three numbers.
 * Otherwise *failing is the length L of the shortest prefix that is not inverse Lyndon, *border the length of the
 * shortest r with which that prefix is r a u r b, a < b, and *prefix = L - *border - 1, the length of p.
 * work: at least record_len entries; after a result the first record_len are 0. Refusals 1, 2, 3, 9. */
uint8_t metsroeb_test(const uint8_t *record, size_t record_len, uint16_t *work, size_t work_len,
                      uint16_t *failing, uint16_t *prefix, uint16_t *border);

/* The piece cut, ICFL: writes two entries for each factor to pairs, from entry 0, its end and the number of anti-Lyndon
 * factors inside, and the number of factors to *count. The counts add up to the number of factors of the strict cut. A
 * mark is a factor, its count 1; a stretch is cut by itself, its ends in the record's places. 2 * record_len entries of
 * pairs are always enough.
 * work: at least 3 * record_len entries; after a result and after refusal 4 the first 3 * record_len are 0.
 * Refusals 1, 2, 3, 4. */
uint8_t metsroeb_icfl(const uint8_t *record, size_t record_len, uint16_t *work, size_t work_len,
                      uint16_t *pairs, size_t pairs_len, uint16_t *count);

/* The piece cut with its breaks: writes pairs and *count as icfl does, and to breaks, from entry 0 and from left to
 * right, every break that the cut considered, their number to *break_count. A step of the cut begins where a stretch
 * does or at the break before it and tests the stretch from there on; if that fails, the break is where the test's p
 * ends. It fills five entries: this place; the place where the step began; |r|; then, for a break that was kept, the
 * bytes a and b, which lie |r| past where the step began and |r| past the break; for one that was joined, 256 and |r|
 * less the length of the factor that was joined to p. All places are the record's. The ends are the places that were
 * kept, and the ends of marks and of stretches, which have no break.
 * 5 * record_len entries of breaks are always enough; an inverse Lyndon record has no break and needs none.
 * work: as for icfl. Refusals 1, 2, 3, 4 for pairs, 4 for breaks; after either 4 both are as they were. */
uint8_t metsroeb_icfl_breaks(const uint8_t *record, size_t record_len, uint16_t *work, size_t work_len,
                             uint16_t *pairs, size_t pairs_len, uint16_t *breaks, size_t breaks_len,
                             uint16_t *count, uint16_t *break_count);

/* The piece cut of a batch of up to 64 records that stand in bytes one after another; record_ends has the end of each
 * one there. Two equal neighbours, or a first end of 0, mean an empty record. Each record is cut as by icfl, with the
 * whole of work and with what is left of pairs; its reply is icfl's. The pairs of accepted records follow one another
 * from entry 0 without a gap, their ends counted from the first byte of their own record; a refused record uses no
 * entry, and the next one is still tried. 2 * bytes_len entries of pairs are always enough.
 * work: three times the bytes of the longest record that is to be cut. Zero afterwards are 3 * the bytes of the longest
 * record that was cut or refused by 4; other refusals change nothing in it.
 * Refusal 10, before any record: every reply is 0 then, and both buffers are as they were. In the replies: 1, 2, 3, 4. */
metsroeb_batch metsroeb_icfl_batch(const uint8_t *bytes, size_t bytes_len, const uint32_t *record_ends,
                                   size_t record_ends_len, uint16_t *work, size_t work_len, uint16_t *pairs,
                                   size_t pairs_len);

/* The strict cut, the Lyndon factorization in the inverse order (its factors are anti-Lyndon words): writes the ends
 * of the factors to ends, from entry 0, and their number to *count. A mark is a factor; a stretch is cut by itself, its
 * ends in the record's places. record_len entries are always enough. Refusals 1, 2, 4. */
uint8_t metsroeb_cfl_in(const uint8_t *record, size_t record_len, uint16_t *ends, size_t ends_len, uint16_t *count);

/* The start table: writes to lengths, for each place of the record from entry 0, the length of the longest anti-Lyndon
 * word that starts there within its stretch, 1 for a mark, and record_len to *count. Refusals 1, 2, 4. */
uint8_t metsroeb_lyndon_table(const uint8_t *record, size_t record_len, uint16_t *lengths, size_t lengths_len,
                              uint16_t *count);

/* The maximal repetitions: writes them to runs, from entry 0, by first place and then by period, and their number to
 * *count. Each fills three entries: its first place, its end, and its period, which is the smallest one and fits at
 * least twice; no byte can be added on either side with the period kept. Marks belong to none and end their neighbours.
 * A record has fewer of them than bytes, so that 3 * record_len entries are always enough; one that has none needs none.
 * No work buffer is lent: the call keeps a table of 8 KiB on the stack. Refusals 1, 2, 4. */
uint8_t metsroeb_runs(const uint8_t *record, size_t record_len, uint16_t *runs, size_t runs_len, uint16_t *count);

/* The comparison, in the inverse order, of the words from start to end and from other to end: *sign is -1 if the one
 * at start comes first, 0 if the starts are equal, 1 otherwise. In this order a proper prefix comes first, and
 * at a first difference the larger byte; 255 is the largest. The range is first to end, of any part of the record.
 * *common is how many leading bytes of the two words are equal: at most the length of the shorter one, end - start for
 * equal starts. Refusals 1, 2, 5, 6. */
uint8_t metsroeb_compare(const uint8_t *record, size_t record_len, size_t first, size_t end, size_t start, size_t other,
                         int8_t *sign, uint16_t *common);

/* The reader: factor number, from 0, of any paired list that line 7 accepts; its counts need not be the strict cut's.
 * Its bytes are record[*first] to record[*end - 1]. Refusals 1, 2, 7, 8. */
uint8_t metsroeb_factor(const uint8_t *record, size_t record_len, const uint16_t *pairs, size_t pairs_len,
                        size_t number, uint16_t *first, uint16_t *end);

/* The summary of the factors that any paired list marks that line 7 accepts. Refusals 1, 2, 7, in the field. */
metsroeb_summary metsroeb_summarize(const uint8_t *record, size_t record_len, const uint16_t *pairs, size_t pairs_len);

#ifdef __cplusplus
}
#endif

#endif
