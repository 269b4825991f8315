/* SPDX-License-Identifier: Apache-2.0 */
/* How much stack the library takes: a thread's stack is painted, calls are made on it, and the paint that is gone below the
 * caller's frame is counted. Every code and every read, on a fresh, a full and a damaged state of either size; keys of many
 * lengths; stamps.
 * Fails where a call takes DCPS_STACK_BYTES, a stamp 8 KiB or another function 4 KiB. */
#define _POSIX_C_SOURCE 200809L
#include <pthread.h>
#include <stdio.h>
#include <stdlib.h>

#include "dcps_inline.h"

#define STACK (512 * 1024)
#define PAINT 0xa5
#define STAMPS 8192 /* what the header says of dcps_wire_fraction */
#define OTHERS 4096 /* and of all other functions but dcps_call */

static unsigned char *stack;
static struct dcps_state fresh_bytes, full_bytes, used_bytes; /* a state with 32 places takes the front of pens */
static struct dcps_lent fresh, full, used;
static uint8_t sheet[DCPS_SHEET_BYTES], answer[DCPS_ANSWER_BYTES], gone[DCPS_GONE_BYTES];
static unsigned which;

/* Of a full state: its keys count from 0 and its handles from 1, so this is its last position too, and the handle before its
 * last. */
static uint32_t last_key(void)
{
    return (uint32_t)(used.pens_bytes / DCPS_INSTANCE_BYTES - 1);
}

static void make_call(void)
{
    dcps_lent_call(used, sheet, answer);
}

static void make_read(void)
{
    const uint8_t *p = used.pens;
    size_t n = used.pens_bytes;
    uint64_t last = last_key();
    switch (which) {
    case 0: dcps_status(used.head, DCPS_HEAD_BYTES, answer, DCPS_ANSWER_BYTES); break;
    case 1: dcps_changes(used.head, DCPS_HEAD_BYTES, answer, DCPS_READ_BYTES); break;
    case 2: dcps_should_deliver_under_time_based_filter(p, n, 0, last, 3, 4, 5, answer, DCPS_READ_BYTES); break;
    case 3: dcps_should_deliver_under_destination_order(p, n, 0, last, 3, 4, 1, answer, DCPS_READ_BYTES); break;
    case 4: dcps_last_delivered_ts(p, n, 0, last, answer, DCPS_READ_BYTES); break;
    case 5: dcps_next_handle_after(p, n, last, answer, DCPS_READ_BYTES); break;
    case 6: dcps_handle_at_position(p, n, last, answer, DCPS_READ_BYTES); break;
    case 7: dcps_holder_in_force(p, n, 0, last, answer, DCPS_READ_BYTES); break;
    case 8: dcps_writer_lookup(p, n, 0, 5, answer, DCPS_READ_BYTES); break;
    case 9: dcps_would_leave_writerless(p, n, gone, sizeof gone, 3, answer, DCPS_READ_BYTES); break;
    case 10: dcps_left_writerless(p, n, gone, sizeof gone, 3, used.out, DCPS_OUT_BYTES, answer, DCPS_READ_BYTES); break;
    default: dcps_lent_fresh(used); break;
    }
}

static void make_stamp(void)
{
    switch (which) {
    case 0: dcps_wire_fraction(999000000, answer, DCPS_READ_BYTES); break;
    case 1: dcps_wire_fraction(999999999, answer, DCPS_READ_BYTES); break;
    default: dcps_wire_nanos(4294967291u, DCPS_REMAINDER_UNKNOWN, answer, DCPS_READ_BYTES); break;
    }
}

/* The hash of a key of so many bytes. */
static void make_key(void)
{
    static const uint8_t serialized[DCPS_KEY_LARGEST_BYTES];
    dcps_key_hash(serialized, which, DCPS_KEY_LARGEST_BYTES, answer, DCPS_READ_BYTES);
}

/* Paints what lies below this frame, makes the call, and looks how deep it went. */
static void *measure(void *make)
{
    volatile unsigned char here = 0;
    unsigned char *frame = (unsigned char *)(uintptr_t)&here, *top = frame, *p;
    __asm__ volatile("" : "+r"(top)); /* or the compiler would see one byte behind the pointer */
    top -= 512;
    for (p = stack; p < top; p++)
        *(volatile unsigned char *)p = PAINT;
    ((void (*)(void))(size_t)make)();
    for (p = stack; p < top && *(volatile unsigned char *)p == PAINT; p++)
        ;
    return (void *)(size_t)(frame - p);
}

static size_t depth(void (*make)(void))
{
    pthread_t thread;
    pthread_attr_t attributes;
    void *deep;
    pthread_attr_init(&attributes);
    if (pthread_attr_setstack(&attributes, stack, STACK) != 0 ||
        pthread_create(&thread, &attributes, measure, (void *)(size_t)make) != 0)
        abort();
    pthread_join(thread, &deep);
    pthread_attr_destroy(&attributes);
    return (size_t)deep;
}

static void name(uint8_t *guid, unsigned number)
{
    memset(guid, 0, DCPS_GUID_BYTES);
    dcps_put_u32(guid + 12, number);
}

static void made(void)
{
    if (dcps_lent_call(full, sheet, answer) != DCPS_ACCEPTED)
        abort();
}

/* An instance with its writers: 16 of them in the first half of the places, the lowest GUID last, as it takes over. */
static void fill_instance(unsigned i, unsigned places)
{
    uint8_t key[16], guid[16];
    unsigned j, writers = i < places / 2 ? 16 : 1;
    name(key, i);
    for (j = writers; j-- > 0;) {
        struct dcps_sample sample;
        name(guid, writers == 1 ? i : j);
        sample = dcps_sample_of(key, guid, dcps_time_of(1, 0));
        sample.holder = gone;
        sample.holder_length = 144;
        dcps_sheet_admit(sheet, &sample);
        made();
    }
}

/* As many instances as places, 128 writers, and all of these in lost. */
static void fill(unsigned places)
{
    uint8_t guid[16];
    uint64_t lease = 1;
    unsigned i;
    dcps_lent_fresh(full);
    for (i = 0; i < DCPS_WRITER_PLACES; i++) {
        name(guid, i);
        dcps_sheet_matched(sheet, guid, DCPS_AUTOMATIC, &lease, 1);
        made();
    }
    for (i = 0; i < places; i++)
        fill_instance(i, places);
    if (dcps_instance_set_size(full.pens) != DCPS_SET_PLACES)
        abort();
    name(guid, 0);
    memcpy(gone, full.pens + DCPS_INSTANCE_SET, 256);
    dcps_sheet_expire(sheet, 2);
    made();
    dcps_sheet_writer_asserted(sheet, guid, 3);
    made();
}

/* The deepest of keys without a rest in a last block, with one, and with one that leaves no room for the length. */
static size_t keys_depth(void)
{
    size_t deepest = 0, deep;
    for (which = 0; which <= DCPS_KEY_LARGEST_BYTES; which += 8) {
        deep = depth(make_key);
        deepest = deep > deepest ? deep : deepest;
    }
    return deepest;
}

/* The deepest of a whole millisecond, other nanoseconds and the way back. */
static size_t stamps_depth(void)
{
    size_t deepest = 0, deep;
    for (which = 0; which < 3; which++) {
        deep = depth(make_stamp);
        deepest = deep > deepest ? deep : deepest;
    }
    return deepest;
}

static void fill_sheet(unsigned code)
{
    memset(sheet, 0, sizeof sheet);
    dcps_put_u32(sheet + DCPS_SHEET_KEY + 12, last_key());
    dcps_put_u32(sheet + DCPS_SHEET_GUID + 12, 5);
    dcps_put_u64(sheet + DCPS_SHEET_HANDLE, 1);
    dcps_put_u64(sheet + DCPS_SHEET_A, 9);
    dcps_put_i32(sheet + DCPS_SHEET_TIME_2, 9);
    dcps_put_i32(sheet + DCPS_SHEET_LIMIT, code == DCPS_CODE_ACKNOWLEDGE ? 0 : -1);
    sheet[DCPS_SHEET_CODE] = (uint8_t)code;
}

/* The deepest call and the deepest read on a fresh, a full and a damaged state. */
static void states_depth(size_t *calls, size_t *reads)
{
    unsigned code, state;
    size_t deep;
    for (state = 0; state < 3; state++)
        for (code = 0; code < 256; code++) {
            used_bytes = state == 0 ? fresh_bytes : full_bytes;
            if (state == 2)
                used.pens[used.pens_bytes - 1] = 1;
            fill_sheet(code);
            deep = depth(make_call);
            if (state == 1 && dcps_answer_number(answer) == DCPS_REFUSED_INSTANCES)
                abort(); /* the key was not found */
            *calls = deep > *calls ? deep : *calls;
            which = code;
            if (code < 12) {
                used_bytes = state == 0 ? fresh_bytes : full_bytes;
                deep = depth(make_read);
                *reads = deep > *reads ? deep : *reads;
            }
        }
}

static void lend(size_t pens_bytes)
{
    fresh = dcps_state_lent(&fresh_bytes);
    full = dcps_state_lent(&full_bytes);
    used = dcps_state_lent(&used_bytes);
    fresh.pens_bytes = full.pens_bytes = used.pens_bytes = pens_bytes;
}

int main(void)
{
    static const unsigned places[] = {DCPS_SMALL_INSTANCE_PLACES, DCPS_INSTANCE_PLACES};
    size_t calls = 0, reads = 0, keys, stamps, i;
    void *area = NULL;
    if (posix_memalign(&area, 4096, STACK) != 0)
        abort();
    stack = (unsigned char *)area;
    for (i = 0; i < 2; i++) {
        lend(places[i] * DCPS_INSTANCE_BYTES);
        fill(places[i]);
        dcps_lent_fresh(fresh);
        states_depth(&calls, &reads);
    }
    keys = keys_depth();
    stamps = stamps_depth();
    printf("stack: %zu bytes for a call, %zu for a stamp, %zu for a read or fresh, %zu for a key; the header says %d, %d and %d\n",
           calls, stamps, reads, keys, DCPS_STACK_BYTES, STAMPS, OTHERS);
    free(area);
    return calls >= DCPS_STACK_BYTES || stamps >= STAMPS || reads >= OTHERS || keys >= OTHERS;
}
