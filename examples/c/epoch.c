/* SPDX-License-Identifier: Apache-2.0 */
/* Times before the epoch and across it: a time stands for seconds * 10^9 + nanoseconds, with its sign. From these numbers
 * the answers are worked out here, for every pair of the times below, and compared with the library's: of the two reads, of
 * admit (outcomes 0, 1 and 2) and of autopurge. */
#include <inttypes.h>
#include <stdio.h>

#include "dcps_inline.h"

static const uint8_t key[DCPS_KEY_BYTES] = "pen-01", writer[DCPS_GUID_BYTES] = "plotter-1";
static struct dcps_small_state before, after;
static uint8_t sheet[DCPS_SHEET_BYTES], answer[DCPS_ANSWER_BYTES];
static unsigned answers, failed;

static int64_t value(struct dcps_time time)
{
    return (int64_t)time.sec * 1000000000 + time.nanosec;
}

static void expect(const char *what, int is, int said, struct dcps_time last, struct dcps_time next, uint64_t apart)
{
    answers++;
    if (is == said)
        return;
    failed++;
    fprintf(stderr, "epoch: %s: last (%" PRId32 ", %" PRIu32 "), then (%" PRId32 ", %" PRIu32 "), %" PRIu64 ": %d, not %d\n",
            what, last.sec, last.nanosec, next.sec, next.nanosec, apart, said, is);
}

/* Makes the call of the sheet on a copy of the state. */
static const uint8_t *made(void)
{
    after = before;
    if (dcps_small_state_call(&after, sheet, answer) != DCPS_ACCEPTED)
        failed++;
    return answer;
}

/* What a read tells, -1 where it is refused. */
static int told(uint32_t number, const uint8_t *read)
{
    return number == DCPS_ACCEPTED ? dcps_read_yes(read) : -1;
}

/* A sample was delivered at `last`, another has the time `next`. */
static void filters(struct dcps_time last, struct dcps_time next, uint64_t separation)
{
    int64_t gap = value(next) - value(last);
    int in_order = gap > 0, far = gap < 0 || (uint64_t)gap >= separation;
    uint8_t read[DCPS_READ_BYTES];
    uint32_t number;
    struct dcps_sample sample = dcps_sample_of(key, writer, last);
    dcps_small_state_fresh(&before);
    dcps_sheet_admit(sheet, &sample);
    made();
    before = after;

    number = dcps_should_deliver_under_destination_order(before.pens, sizeof before.pens, dcps_high(key), dcps_low(key),
                                                         next.sec, next.nanosec, 1, read, sizeof read);
    expect("order", in_order, told(number, read), last, next, separation);
    number = dcps_should_deliver_under_time_based_filter(before.pens, sizeof before.pens, dcps_high(key), dcps_low(key),
                                                         next.sec, next.nanosec, separation, read, sizeof read);
    expect("filter", far, told(number, read), last, next, separation);

    sample = dcps_sample_of(key, writer, next);
    sample.separation = separation;
    dcps_sheet_admit(sheet, &sample);
    expect("admit", far ? DCPS_ADMITTED : DCPS_FILTERED, dcps_answer_outcome(made()), last, next, separation);
    sample.by_source = 1;
    dcps_sheet_admit(sheet, &sample);
    expect("admit by source", in_order ? far ? DCPS_ADMITTED : DCPS_FILTERED : DCPS_OUT_OF_ORDER,
           dcps_answer_outcome(made()), last, next, separation);
}

/* One instance is disposed at a time, another loses its writer then; the purge goes by the one delay or by the other. Where
 * it comes earlier the gap is 0. */
static void purges(struct dcps_time ended, struct dcps_time now, uint64_t delay)
{
    static const uint8_t other[DCPS_KEY_BYTES] = "pen-02";
    int64_t gap = value(now) - value(ended);
    int due = delay != DCPS_NEVER && (gap < 0 ? 0 : (uint64_t)gap) >= delay;
    struct dcps_sample sample = dcps_sample_of(key, writer, ended);
    dcps_small_state_fresh(&before);
    dcps_sheet_admit(sheet, &sample), made(), before = after;
    dcps_sheet_part(sheet, writer, &ended), made(), before = after;
    sample = dcps_sample_of(other, writer, ended);
    dcps_sheet_admit(sheet, &sample), made(), before = after;
    dcps_sheet_dispose(sheet, dcps_answer_handle(answer), &ended), made(), before = after;

    dcps_sheet_autopurge(sheet, now, delay, DCPS_NEVER);
    expect("purge of a disposed one", due, (int)dcps_answer_count(made()), ended, now, delay);
    dcps_sheet_autopurge(sheet, now, DCPS_NEVER, delay);
    expect("purge of one without writers", due, (int)dcps_answer_count(made()), ended, now, delay);
}

int main(void)
{
    const struct dcps_time times[] = {
        dcps_time_of(INT32_MIN, 0),    dcps_time_of(-9, 8),         dcps_time_of(-3, 7), dcps_time_of(-2, 999999999),
        dcps_time_of(-1, 0),           dcps_time_of(-1, 500000000), dcps_time_of(-1, 999999999), dcps_time_of(0, 0),
        dcps_time_of(0, 1),            dcps_time_of(0, 999999999),  dcps_time_of(5, 0), dcps_time_of(INT32_MAX, 999999999)};
    const size_t count = sizeof times / sizeof *times;
    size_t i, j, k;
    for (i = 0; i < count; i++)
        for (j = 0; j < count; j++) {
            /* at the gap, one nanosecond below and above it, and at what does not go by it; of these a number below 0 becomes
             * one above 2^63, which no gap reaches */
            uint64_t gap = (uint64_t)(value(times[j]) - value(times[i]));
            const uint64_t apart[] = {gap - 1, gap, gap + 1, 0, 1, 1000000000, DCPS_NEVER};
            for (k = 0; k < sizeof apart / sizeof *apart; k++) {
                filters(times[i], times[j], apart[k]);
                purges(times[i], times[j], apart[k]);
            }
        }
    printf("epoch: %u answers on %zu times in pairs, before the epoch and after it, %u failed\n", answers, count, failed);
    return failed != 0;
}
