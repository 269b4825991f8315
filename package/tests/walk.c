/* walk N: N calls of every code with noise, on states of both sizes, one in a hundred on a damaged state; every 50 calls all
 * reads. Prints how many calls were accepted and refused, and a digest of every number, answer and list, and of the states
 * now and then: two builds of the library that agree print the same line. */
#include <stdio.h>
#include <stdlib.h>

#include "dcps_inline.h"

#define LIST_CALLS 20000 /* then a fresh state, of the other size */

static struct dcps_state bytes, kept;
static struct dcps_lent state;
static uint8_t sheet[DCPS_SHEET_BYTES], answer[DCPS_ANSWER_BYTES], read_answer[DCPS_READ_BYTES];

/* Xorshift. No expression asks twice where C leaves the order open, or two compilers would walk differently. */
static uint32_t noise(uint32_t below)
{
    static uint64_t x = 88172645463325252u;
    x ^= x << 13;
    x ^= x >> 7;
    x ^= x << 17;
    return (uint32_t)(x >> 16) % below;
}

static uint64_t digest = 0xcbf29ce484222325u;

/* 64-bit FNV-1a. */
static void eat(const uint8_t *b, size_t length)
{
    while (length-- > 0)
        digest = (digest ^ *b++) * 0x100000001b3u;
}

static void eat_number(uint32_t number)
{
    uint8_t b[4];
    dcps_put_u32(b, number);
    eat(b, sizeof b);
}

static void begin_list(long call)
{
    state = dcps_state_lent(&bytes);
    state.pens_bytes = call / LIST_CALLS % 2 ? DCPS_SMALL_PENS_BYTES : DCPS_PENS_BYTES;
    eat_number(dcps_lent_fresh(state));
}

/* A key or a GUID of a few. */
static void few(uint8_t *name, uint32_t prefixes, uint32_t middles, uint32_t ends)
{
    memset(name, 0, DCPS_KEY_BYTES);
    name[0] = (uint8_t)noise(prefixes);
    name[11] = (uint8_t)noise(middles);
    name[15] = (uint8_t)noise(ends);
}

/* Seconds that go on with the calls, now and then before the epoch; nanoseconds that are now and then too many. */
static void put_time(uint8_t *at, long call)
{
    dcps_put_u32(at, noise(50) ? (uint32_t)(call / 100) : 0u - noise(1000));
    dcps_put_u32(at + 4, noise(noise(50) ? 1000000000u : 1100000000u));
}

static uint8_t any_code(void)
{
    static const uint8_t ends[][2] = {{DCPS_CODE_REGISTER, DCPS_CODE_AUTOPURGE},
                                      {DCPS_CODE_MATCHED, DCPS_CODE_ACKNOWLEDGE},
                                      {DCPS_CODE_ADMIT, DCPS_CODE_DEPART}};
    const uint8_t *range = ends[noise(3)];
    return (uint8_t)(noise(300) ? range[0] + noise(range[1] - range[0] + 1u) : noise(256));
}

static void fill_sheet(long call)
{
    int i;
    memset(sheet, 0, sizeof sheet);
    few(sheet + DCPS_SHEET_KEY, 3, 1, 60);
    few(sheet + DCPS_SHEET_GUID, 2, 20, 8);
    dcps_put_u64(sheet + DCPS_SHEET_HANDLE, noise(8) ? noise(150) : (uint64_t)noise(~0u) << 32);
    put_time(sheet + DCPS_SHEET_TIME_1, call);
    put_time(sheet + DCPS_SHEET_TIME_2, call);
    dcps_put_u64(sheet + DCPS_SHEET_A, (uint64_t)call << noise(40));
    dcps_put_u64(sheet + DCPS_SHEET_B, noise(40) ? (uint64_t)noise(~0u) << 8 : DCPS_NEVER);
    dcps_put_i32(sheet + DCPS_SHEET_LIMIT, noise(4) ? -1 : (int32_t)noise(140));
    dcps_put_u32(sheet + DCPS_SHEET_STRENGTH, noise(6));
    sheet[DCPS_SHEET_BITS] = (uint8_t)noise(256);
    sheet[DCPS_SHEET_CODE] = any_code();
    dcps_put_u16(sheet + DCPS_SHEET_HOLDER_LENGTH, (uint16_t)noise(150));
    for (i = 0; i < 6; i++) {
        uint32_t at = noise(DCPS_HOLDER_PLACES);
        sheet[DCPS_SHEET_HOLDER + at] = (uint8_t)noise(256);
    }
}

/* One bit of the state turned. */
static void damage(void)
{
    uint8_t *parts[] = {state.head, state.pens, state.writers, state.lost};
    const uint32_t lengths[] = {DCPS_HEAD_BYTES, (uint32_t)state.pens_bytes, DCPS_WRITERS_BYTES, DCPS_LOST_BYTES};
    uint32_t part = noise(4), at = noise(lengths[part]);
    parts[part][at] ^= (uint8_t)(1u << noise(8));
}

static int make_call(long call)
{
    int damaged = noise(100) == 0;
    uint32_t number;
    fill_sheet(call);
    if (damaged) {
        kept = bytes;
        damage();
    }
    number = dcps_lent_call(state, sheet, answer);
    eat_number(number);
    eat(answer, sizeof answer);
    eat(state.out, dcps_answer_listed(answer) * (size_t)DCPS_GUID_BYTES); /* GUIDs, or handles of half the length */
    if (damaged)
        bytes = kept;
    return number == DCPS_ACCEPTED;
}

static void noted(uint32_t number)
{
    eat_number(number);
    eat(read_answer, sizeof read_answer);
}

/* The reads of instances, on any key or GUID. */
static void read_instances(void)
{
    const uint8_t *p = state.pens;
    size_t n = state.pens_bytes, answers = sizeof read_answer;
    uint8_t *a = read_answer, key[DCPS_KEY_BYTES], guid[DCPS_GUID_BYTES];
    int32_t sec = (int32_t)noise(~0u);
    uint32_t nanosec = noise(1100000000u), any = noise(~0u);
    uint64_t high, low;
    few(key, 3, 1, 60);
    few(guid, 2, 20, 8);
    high = dcps_high(key);
    low = dcps_low(key);
    noted(dcps_last_delivered_ts(p, n, high, low, a, answers));
    noted(dcps_should_deliver_under_time_based_filter(p, n, high, low, sec, nanosec, any, a, answers));
    noted(dcps_should_deliver_under_destination_order(p, n, high, low, sec, nanosec, (uint8_t)any, a, answers));
    noted(dcps_next_handle_after(p, n, noise(150), a, answers));
    noted(dcps_handle_at_position(p, n, noise(130), a, answers));
    noted(dcps_holder_in_force(p, n, high, low, a, answers));
    noted(dcps_writer_lookup(p, n, dcps_high(guid), dcps_low(guid), a, answers));
    noted(dcps_would_leave_writerless(p, n, guid, sizeof guid, noise(5), a, answers));
    noted(dcps_left_writerless(p, n, guid, sizeof guid, noise(5), state.out, DCPS_OUT_BYTES, a, answers));
    eat(state.out, dcps_read_listed(a) * (size_t)DCPS_HANDLE_BYTES);
}

/* The others. */
static void read_others(void)
{
    size_t answers = sizeof read_answer;
    uint32_t length = noise(300), fraction = noise(~0u);
    eat_number(dcps_status(state.head, DCPS_HEAD_BYTES, answer, sizeof answer));
    eat(answer, sizeof answer);
    noted(dcps_changes(state.head, DCPS_HEAD_BYTES, read_answer, answers));
    noted(dcps_key_hash(state.pens, length, noise(5000), read_answer, answers));
    noted(dcps_wire_fraction(noise(1100000000u), read_answer, answers));
    noted(dcps_wire_fraction(noise(1000) * 1000000, read_answer, answers));
    noted(dcps_wire_nanos(fraction, noise(~0u), read_answer, answers));
}

int main(int count, char **words)
{
    long calls = count > 1 ? atol(words[1]) : 100000, accepted = 0, call;
    eat_number(dcps_version());
    for (call = 0; call < calls; call++) {
        if (call % LIST_CALLS == 0)
            begin_list(call);
        accepted += make_call(call);
        if (call % 50 == 0) {
            read_instances();
            read_others();
        }
        if (call % 1000 == 0)
            eat((const uint8_t *)&bytes, sizeof bytes);
    }
    printf("walk: %ld calls accepted, %ld refused, digest %016llx\n", accepted, calls - accepted, (unsigned long long)digest);
    return 0;
}
