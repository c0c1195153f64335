/* Calls each function on record H and compares the answers with paper 01's, and with request 108's counts; reader and summary also
 * with lists that are refused for their counts; the cut with its breaks on record I, as request 102 has it; the comparison also on
 * record G, whose starts agree past the end of its first piece, and on starts that agree on about eight bytes; the summary also where
 * two parts are equally long; test, cuts and table on a record with a mark; batches of records, with refusals among them and with
 * lists of record ends that are refused; the repetitions of request 107's record, with and without room for them, and beside marks. */
#include "metsroeb.h"

#include <stdio.h>
#include <string.h>

static int differed;

static void expect(const char *what, long got, long want)
{
    if (got != want) {
        printf("%s: %ld, not %ld\n", what, got, want);
        differed = 1;
    }
}

static void expect_entries(const char *what, const uint16_t *got, const uint16_t *want, size_t count)
{
    size_t i;
    for (i = 0; i < count; i++) {
        if (got[i] != want[i]) {
            printf("%s[%u]: %u, not %u\n", what, (unsigned)i, (unsigned)got[i], (unsigned)want[i]);
            differed = 1;
        }
    }
}

/* Two starts of a record of 20 bytes, in the range from 0 to the end. */
static void expect_comparison(const char *what, const uint8_t *record, size_t end, size_t start, size_t other, long sign,
                              long common)
{
    int8_t got_sign;
    uint16_t got_common;
    expect(what, metsroeb_compare(record, 20, 0, end, start, other, &got_sign, &got_common), 0);
    expect(what, got_sign, sign);
    expect(what, got_common, common);
}

/* Every place of the answer: these replies, then results of 0. */
static void expect_replies(const char *what, const metsroeb_batch *got, long refusal, const metsroeb_reply *want, size_t count)
{
    size_t k;
    expect(what, got->refusal, refusal);
    for (k = 0; k < METSROEB_MOST_RECORDS; k++) {
        if (got->replies[k].refusal != (k < count ? want[k].refusal : 0) ||
            got->replies[k].count != (k < count ? want[k].count : 0)) {
            printf("%s: place %u: refusal %u, count %u\n", what, (unsigned)k, (unsigned)got->replies[k].refusal,
                   (unsigned)got->replies[k].count);
            differed = 1;
        }
    }
}

/* The whole buffers: so many zeros in work, these entries, and all else as it was. */
static void expect_buffers(const char *what, const uint16_t *work, size_t zeros, const uint16_t *got, const uint16_t *pairs,
                           size_t entries)
{
    size_t i;
    for (i = 0; i < 40; i++) {
        expect(what, work[i], i < zeros ? 0 : 0x5a5a);
    }
    for (i = 0; i < 18; i++) {
        expect(what, got[i], i < entries ? pairs[i] : 0x5a5a);
    }
}

/* H, abc, an empty record, baba, I, ba, a record of 4,097 bytes, a mark between two b. */
static void batches(void)
{
    static const uint32_t record_ends[] = {9, 12, 12, 16, 33, 35, 4132, 4135};
    static const metsroeb_reply replies[] = {{0, 2}, {4, 0}, {1, 0}, {0, 1}, {3, 0}, {0, 1}, {2, 0}, {4, 0}};
    static const uint16_t packed[] = {5, 1, 9, 2, 4, 2, 2, 1};
    static const metsroeb_reply empty = {1, 0}, mark = {0, 3}, short_result = {4, 0};
    static const uint16_t mark_pairs[] = {1, 1, 2, 1, 3, 1};
    static const uint32_t lists[][3] = {{5, 4, 9}, {5, 9, 8}, {5, 8, 8}, {5, 9, 10}, {5, 9, 65545}, {5, 9, 4294967295u}, {0, 10, 9}};
    static uint8_t bytes[4135];
    uint32_t many[65];
    metsroeb_reply cut[64];
    uint16_t work[40], pairs[18];
    metsroeb_batch batch;
    size_t k;

    memset(bytes, 'a', sizeof bytes);
    memcpy(bytes, "cbabacbacabcbabacbabacaacbabacbacba", 35);
    memcpy(bytes + 4132, "b\377b", 3);
    memset(work, 0x5a, sizeof work);
    memset(pairs, 0x5a, sizeof pairs);
    batch = metsroeb_icfl_batch(bytes, 4135, record_ends, 8, work, 40, pairs, 8);
    expect_replies("icfl_batch", &batch, 0, replies, 8);
    expect_buffers("icfl_batch: buffers", work, 27, pairs, packed, 8);

    memset(work, 0x5a, sizeof work);
    memset(pairs, 0x5a, sizeof pairs);
    for (k = 0; k < sizeof lists / sizeof lists[0]; k++) {
        batch = metsroeb_icfl_batch(bytes, 9, lists[k], 3, work, 40, pairs, 18);
        expect_replies("icfl_batch, a faulty list", &batch, 10, replies, 0);
    }
    batch = metsroeb_icfl_batch(bytes, 9, lists[0], 0, work, 40, pairs, 18);
    expect_replies("icfl_batch, no end", &batch, 10, replies, 0);
    many[0] = 0;
    batch = metsroeb_icfl_batch(bytes, 0, many, 1, work, 40, pairs, 18);
    expect_replies("icfl_batch, an end of 0 and no byte", &batch, 0, &empty, 1);
    for (k = 0; k < 65; k++) {
        many[k] = (uint32_t)k + 1;
    }
    batch = metsroeb_icfl_batch(bytes, 65, many, 65, work, 40, pairs, 18);
    expect_replies("icfl_batch, 65 ends", &batch, 10, replies, 0);
    expect_buffers("icfl_batch, refused: buffers", work, 0, pairs, packed, 0);

    for (k = 0; k < 64; k++) {
        cut[k].refusal = k < 9 ? 0 : 4;
        cut[k].count = k < 9 ? 1 : 0;
    }
    batch = metsroeb_icfl_batch(bytes, 64, many, 64, work, 40, pairs, 18);
    expect_replies("icfl_batch, 64 ends", &batch, 0, cut, 64);

    memset(work, 0x5a, sizeof work);
    memset(pairs, 0x5a, sizeof pairs);
    many[0] = 3;
    batch = metsroeb_icfl_batch(bytes + 4132, 3, many, 1, work, 40, pairs, 5);
    expect_replies("icfl_batch, too few entries", &batch, 0, &short_result, 1);
    expect_buffers("icfl_batch, too few entries: buffers", work, 9, pairs, mark_pairs, 0);
    batch = metsroeb_icfl_batch(bytes + 4132, 3, many, 1, work, 40, pairs, 6);
    expect_replies("icfl_batch, a mark", &batch, 0, &mark, 1);
    expect_buffers("icfl_batch, a mark: buffers", work, 9, pairs, mark_pairs, 6);
}

/* The whole buffer: these entries, and all else as it was. */
static void expect_runs(const char *what, const char *record, size_t n, size_t room, long refusal, const uint16_t *want, size_t count)
{
    uint16_t runs[14], got = 77;
    size_t i;
    memset(runs, 0x5a, sizeof runs);
    expect(what, metsroeb_runs((const uint8_t *)record, n, runs, room, &got), refusal);
    expect(what, got, (long)count);
    for (i = 0; i < 14; i++) {
        expect(what, runs[i], i < 3 * count ? want[i] : 0x5a5a);
    }
}

static void repetitions(void)
{
    static const uint16_t four[] = {0, 2, 1, 0, 8, 3, 3, 5, 1, 6, 8, 1};
    static const uint16_t inside[] = {1, 8, 3, 2, 4, 1, 5, 7, 1, 8, 10, 1};
    static const uint16_t once[] = {2, 4, 1};
    static const uint16_t beside[] = {0, 4, 2, 6, 8, 1};
    static const uint16_t whole[] = {0, METSROEB_MOST, 2};
    static char longest[METSROEB_MOST + 1];
    size_t i;
    for (i = 0; i < sizeof longest; i++) {
        longest[i] = i % 2 ? 'a' : 'b';
    }
    expect_runs("runs", "aabaabaa", 8, 14, 0, four, 4);
    expect_runs("runs, just enough room", "aabaabaa", 8, 12, 0, four, 4);
    expect_runs("runs, an entry too few", "aabaabaa", 8, 11, 4, four, 0);
    expect_runs("runs, inside another", "mississippi", 11, 14, 0, inside, 4);
    expect_runs("runs, a period that fits once", "abaab", 5, 14, 0, once, 1);
    expect_runs("runs, none and no room", "abc", 3, 0, 0, four, 0);
    expect_runs("runs, one and no room", "aa", 2, 0, 4, four, 0);
    expect_runs("runs, marks", "abab\377\377aa\377a", 10, 14, 0, beside, 2);
    expect_runs("runs, marks alone", "\377\377\377\377", 4, 14, 0, four, 0);
    expect_runs("runs, no byte", "", 0, 14, 1, four, 0);
    expect_runs("runs, most bytes", longest, METSROEB_MOST, 3, 0, whole, 1);
    expect_runs("runs, a byte more", longest, METSROEB_MOST + 1, 14, 2, four, 0);
}

int main(void)
{
    static const uint8_t record[] = {'c', 'b', 'a', 'b', 'a', 'c', 'b', 'a', 'c'};
    static const uint8_t joined[] = "cbabacaacbabacbac";
    static const uint8_t agreeing[] = "bbabbabbb";
    static const uint8_t eights[] = "bbbbbbbbbabbbbbbbbba";
    static const uint8_t marked[] = {'b', 'a', 255, 'a', 'b'};
    static const uint16_t zeros[51];
    static const uint16_t pieces[] = {5, 1, 9, 2};
    static const uint16_t joined_pieces[] = {13, 2, 17, 2};
    static const uint16_t joined_breaks[] = {8, 0, 6, 256, 1, 13, 8, 3, 'b', 'c'};
    static const uint16_t marked_pieces[] = {2, 1, 3, 1, 4, 1, 5, 1};
    static const uint16_t marked_strict[] = {2, 3, 4, 5};
    static const uint16_t marked_break[] = {4, 3, 0, 'a', 'b'};
    static const uint16_t marked_table[] = {2, 1, 1, 1, 1};
    static const uint16_t strict[] = {5, 8, 9};
    static const uint16_t table[] = {5, 2, 1, 2, 1, 3, 2, 1, 1};
    static const uint16_t bands[13] = {0, 0, 2};
    static const uint16_t equal[] = {4, 4, 8, 1, 9, 1};
    static const uint16_t no_count[] = {5, 0, 9, 2}, above_length[] = {5, 1, 9, 5};
    const size_t n = sizeof record;
    uint16_t work[51], pairs[10], ends[9], breaks[10], lengths[9];
    uint16_t failing = 77, prefix = 77, border = 77, count = 77, break_count = 77, first = 77, end = 77;
    uint16_t common = 77;
    int8_t sign = 77;
    metsroeb_summary summary;

    memset(work, 0x5a, sizeof work);
    expect("test", metsroeb_test(record, n, work, 9, &failing, &prefix, &border), 0);
    expect("test: failing", failing, 9);
    expect("test: prefix", prefix, 5);
    expect("test: border", border, 3);
    expect_entries("test: work", work, zeros, 9);
    expect("test: work[9]", work[9], 0x5a5a);

    expect("cfl_in", metsroeb_cfl_in(record, n, ends, 9, &count), 0);
    expect("cfl_in: count", count, 3);
    expect_entries("cfl_in: ends", ends, strict, 3);

    memset(work, 0x5a, sizeof work);
    memset(pairs, 0x5a, sizeof pairs);
    expect("icfl, three entries", metsroeb_icfl(record, n, work, 27, pairs, 3, &count), 4);
    expect("icfl, three entries: count", count, 0);
    expect("icfl, three entries: pairs[0]", pairs[0], 0x5a5a);
    expect("icfl", metsroeb_icfl(record, n, work, 27, pairs, 4, &count), 0);
    expect("icfl: count", count, 2);
    expect_entries("icfl: pairs", pairs, pieces, 4);
    expect("icfl: pairs[4]", pairs[4], 0x5a5a);
    expect_entries("icfl: work", work, zeros, 27);

    memset(work, 0x5a, sizeof work);
    expect("icfl_breaks", metsroeb_icfl_breaks(joined, 17, work, 51, pairs, 4, breaks, 10, &count, &break_count), 0);
    expect("icfl_breaks: count", count, 2);
    expect("icfl_breaks: break_count", break_count, 2);
    expect_entries("icfl_breaks: pairs", pairs, joined_pieces, 4);
    expect_entries("icfl_breaks: breaks", breaks, joined_breaks, 10);
    expect_entries("icfl_breaks: work", work, zeros, 51);
    expect("icfl_breaks, three entries", metsroeb_icfl_breaks(joined, 17, work, 51, pairs, 3, breaks, 10, &count, &break_count), 4);
    expect("icfl_breaks, room for one", metsroeb_icfl_breaks(joined, 17, work, 51, pairs, 4, breaks, 9, &count, &break_count), 4);
    expect("icfl_breaks, room for one: count", count, 0);
    expect("icfl_breaks, room for one: break_count", break_count, 0);

    memset(work, 0x5a, sizeof work);
    expect("test, a mark", metsroeb_test(marked, 5, work, 5, &failing, &prefix, &border), 9);
    expect("test, a mark: failing", failing, 0);
    expect("test, a mark: work[0]", work[0], 0x5a5a);
    expect("test, a mark and too little work", metsroeb_test(marked, 5, work, 4, &failing, &prefix, &border), 3);
    expect("icfl_breaks, a mark", metsroeb_icfl_breaks(marked, 5, work, 15, pairs, 8, breaks, 5, &count, &break_count), 0);
    expect("icfl_breaks, a mark: count", count, 4);
    expect("icfl_breaks, a mark: break_count", break_count, 1);
    expect_entries("icfl_breaks, a mark: pairs", pairs, marked_pieces, 8);
    expect_entries("icfl_breaks, a mark: breaks", breaks, marked_break, 5);
    expect("icfl, a mark", metsroeb_icfl(marked, 5, work, 15, pairs, 10, &count), 0);
    expect("icfl, a mark: count", count, 4);
    expect_entries("icfl, a mark: pairs", pairs, marked_pieces, 8);
    expect("cfl_in, a mark", metsroeb_cfl_in(marked, 5, ends, 4, &count), 0);
    expect("cfl_in, a mark: count", count, 4);
    expect_entries("cfl_in, a mark: ends", ends, marked_strict, 4);
    expect("lyndon_table, a mark", metsroeb_lyndon_table(marked, 5, lengths, 5, &count), 0);
    expect_entries("lyndon_table, a mark: lengths", lengths, marked_table, 5);

    expect("lyndon_table", metsroeb_lyndon_table(record, n, lengths, 9, &count), 0);
    expect("lyndon_table: count", count, 9);
    expect_entries("lyndon_table: lengths", lengths, table, 9);

    expect("compare", metsroeb_compare(record, n, 0, 9, 0, 5, &sign, &common), 0);
    expect("compare: sign", sign, 1);
    expect("compare: common", common, 3);
    expect("compare, a start at the end", metsroeb_compare(record, n, 0, 9, 0, 9, &sign, &common), 6);
    expect("compare, a start at the end: sign", sign, 0);
    expect("compare, a start at the end: common", common, 0);
    expect("compare, equal starts", metsroeb_compare(record, n, 0, 9, 5, 5, &sign, &common), 0);
    expect("compare, equal starts: sign", sign, 0);
    expect("compare, equal starts: common", common, 4);
    expect("compare, over a first piece", metsroeb_compare(agreeing, 9, 0, 6, 0, 3, &sign, &common), 0);
    expect("compare, over a first piece: sign", sign, 1);
    expect("compare, over a first piece: common", common, 3);
    expect("compare, past it", metsroeb_compare(agreeing, 9, 0, 9, 0, 3, &sign, &common), 0);
    expect("compare, past it: sign", sign, 1);
    expect("compare, past it: common", common, 5);

    expect_comparison("compare, ninth byte", eights, 20, 0, 1, -1, 8);
    expect_comparison("compare, eighth byte", eights, 20, 0, 2, -1, 7);
    expect_comparison("compare, fifth byte, and another behind it", eights, 20, 5, 3, 1, 4);
    expect_comparison("compare, to the ninth byte", eights, 9, 0, 1, 1, 8);
    expect_comparison("compare, to an end that the starts agree past", eights, 17, 0, 10, 1, 7);

    expect("factor", metsroeb_factor(record, n, pieces, 4, 1, &first, &end), 0);
    expect("factor: first", first, 5);
    expect("factor: end", end, 9);
    expect("factor, as many as there are pairs", metsroeb_factor(record, n, pieces, 4, 2, &first, &end), 8);
    expect("factor, as many as there are pairs: end", end, 0);
    expect("factor, three entries", metsroeb_factor(record, n, pieces, 3, 0, &first, &end), 7);
    expect("factor, a count of 0", metsroeb_factor(record, n, no_count, 4, 0, &first, &end), 7);
    expect("factor, a count above its length", metsroeb_factor(record, n, above_length, 4, 0, &first, &end), 7);

    expect("summarize, three entries", metsroeb_summarize(record, n, pieces, 3).refusal, 7);
    expect("summarize, a count of 0", metsroeb_summarize(record, n, no_count, 4).refusal, 7);
    expect("summarize, a count above its length", metsroeb_summarize(record, n, above_length, 4).refusal, 7);
    summary = metsroeb_summarize(record, n, pieces, 4);
    expect("summarize", summary.refusal, 0);
    expect("summarize: count", summary.count, 2);
    expect("summarize: longest", summary.longest, 5);
    expect("summarize: from", summary.from, 0);
    expect_entries("summarize: bands", summary.bands, bands, 13);

    summary = metsroeb_summarize(record, n, equal, 6);
    expect("summarize: longest of 4, 4, 1", summary.longest, 4);
    expect("summarize: from, the latest of them", summary.from, 4);

    batches();
    repetitions();

    if (!differed) {
        puts("ok");
    }
    return differed;
}
