/* SPDX-License-Identifier: Apache-2.0
 *
 * Functions that fill in sheets (builders) and that read answers, heads and records (accessors), over include/dcps.h. C99 and
 * C++, all static inline.
 *
 * Nothing here is proved. These functions only write and read bytes, as dcps.h says. A test compares each builder and each
 * accessor with the Rust bindings. Every call goes through dcps_call, which tests whatever a builder made.
 *
 *     static struct dcps_state s;    78,912 bytes, or 29,760 for a dcps_small_state: too much for a small stack
 *     uint8_t sheet[DCPS_SHEET_BYTES], answer[DCPS_ANSWER_BYTES];
 *     dcps_state_fresh(&s);
 *     dcps_sheet_register(sheet, key, holder, holder_length, NULL);
 *     if (dcps_state_call(&s, sheet, answer) != DCPS_ACCEPTED)
 *         puts(dcps_refusal_text(dcps_answer_number(answer)));
 *     DCPS_EACH_INSTANCE(r, s.head, s.pens)
 *         printf("%llu\n", (unsigned long long)dcps_instance_handle(r));
 *
 * Pointers: a sheet has 256 bytes, a key or a GUID 16, a prefix 12, an answer 72, the answer of a read 24. The head and the
 * buffers have the lengths of dcps.h. A pointer may be null only where a comment says so.
 */
#ifndef DCPS_INLINE_H
#define DCPS_INLINE_H

#include <string.h>

#include "dcps.h"

#ifdef __cplusplus
extern "C" {
#endif

/* ---- numbers in bytes, most significant byte first */

static inline uint16_t dcps_get_u16(const uint8_t *b)
{
    return (uint16_t)((uint16_t)b[0] << 8 | b[1]);
}

static inline uint32_t dcps_get_u32(const uint8_t *b)
{
    return (uint32_t)b[0] << 24 | (uint32_t)b[1] << 16 | (uint32_t)b[2] << 8 | (uint32_t)b[3];
}

static inline uint64_t dcps_get_u64(const uint8_t *b)
{
    return (uint64_t)dcps_get_u32(b) << 32 | dcps_get_u32(b + 4);
}

static inline int32_t dcps_get_i32(const uint8_t *b)
{
    uint32_t bits = dcps_get_u32(b);
    return bits < 0x80000000u ? (int32_t)bits : -(int32_t)(0xffffffffu - bits) - 1;
}

static inline void dcps_put_u16(uint8_t *b, uint16_t n)
{
    b[0] = (uint8_t)(n >> 8);
    b[1] = (uint8_t)(n & 0xff);
}

static inline void dcps_put_u32(uint8_t *b, uint32_t n)
{
    dcps_put_u16(b, (uint16_t)(n >> 16));
    dcps_put_u16(b + 2, (uint16_t)(n & 0xffff));
}

static inline void dcps_put_u64(uint8_t *b, uint64_t n)
{
    dcps_put_u32(b, (uint32_t)(n >> 32));
    dcps_put_u32(b + 4, (uint32_t)(n & 0xffffffffu));
}

static inline void dcps_put_i32(uint8_t *b, int32_t n)
{
    dcps_put_u32(b, (uint32_t)n);
}

/* ---- times */

struct dcps_time {
    int32_t sec;      /* rounded down: half a second before the epoch has -1 here */
    uint32_t nanosec; /* below 10^9, and added to sec: half a second before the epoch has 500000000 here */
};

static inline struct dcps_time dcps_time_of(int32_t sec, uint32_t nanosec)
{
    struct dcps_time time;
    time.sec = sec;
    time.nanosec = nanosec;
    return time;
}

static inline struct dcps_time dcps_get_time(const uint8_t *b)
{
    return dcps_time_of(dcps_get_i32(b), dcps_get_u32(b + 4));
}

static inline void dcps_put_time(uint8_t *b, struct dcps_time time)
{
    dcps_put_i32(b, time.sec);
    dcps_put_u32(b + 4, time.nanosec);
}

/* ---- a state with its out, and calls on it */

/* A state with places for 128 instances. */
struct dcps_state {
    uint8_t head[DCPS_HEAD_BYTES];
    uint8_t pens[DCPS_PENS_BYTES];
    uint8_t writers[DCPS_WRITERS_BYTES];
    uint8_t lost[DCPS_LOST_BYTES];
    uint8_t out[DCPS_OUT_BYTES]; /* not part of the state: the list of the latest call that had one */
};

/* A state with places for 32 instances. */
struct dcps_small_state {
    uint8_t head[DCPS_HEAD_BYTES];
    uint8_t pens[DCPS_SMALL_PENS_BYTES];
    uint8_t writers[DCPS_WRITERS_BYTES];
    uint8_t lost[DCPS_LOST_BYTES];
    uint8_t out[DCPS_OUT_BYTES];
};

/* Pointers to the bytes of a state of either size, and to its out. Use it for code that works with both sizes, and for a state
 * that is in neither of the two structs. */
struct dcps_lent {
    uint8_t *head, *pens, *writers, *lost, *out;
    size_t pens_bytes; /* DCPS_PENS_BYTES or DCPS_SMALL_PENS_BYTES */
};

static inline struct dcps_lent dcps_lent_of(uint8_t *head, uint8_t *pens, size_t pens_bytes, uint8_t *writers, uint8_t *lost,
                                            uint8_t *out)
{
    struct dcps_lent lent;
    lent.head = head;
    lent.pens = pens;
    lent.pens_bytes = pens_bytes;
    lent.writers = writers;
    lent.lost = lost;
    lent.out = out;
    return lent;
}

static inline struct dcps_lent dcps_state_lent(struct dcps_state *s)
{
    return dcps_lent_of(s->head, s->pens, sizeof s->pens, s->writers, s->lost, s->out);
}

static inline struct dcps_lent dcps_small_state_lent(struct dcps_small_state *s)
{
    return dcps_lent_of(s->head, s->pens, sizeof s->pens, s->writers, s->lost, s->out);
}

static inline uint32_t dcps_lent_fresh(struct dcps_lent s)
{
    uint32_t number = dcps_fresh(s.head, DCPS_HEAD_BYTES, s.pens, s.pens_bytes, s.writers, DCPS_WRITERS_BYTES, s.lost,
                                 DCPS_LOST_BYTES);
    if (number == DCPS_ACCEPTED)
        memset(s.out, 0, DCPS_OUT_BYTES);
    return number;
}

static inline uint32_t dcps_lent_call(struct dcps_lent s, const uint8_t *sheet, uint8_t *answer)
{
    return dcps_call(s.head, DCPS_HEAD_BYTES, sheet, DCPS_SHEET_BYTES, s.pens, s.pens_bytes, s.writers, DCPS_WRITERS_BYTES,
                     s.lost, DCPS_LOST_BYTES, s.out, DCPS_OUT_BYTES, answer, DCPS_ANSWER_BYTES);
}

static inline uint32_t dcps_state_fresh(struct dcps_state *s)
{
    return dcps_lent_fresh(dcps_state_lent(s));
}

static inline uint32_t dcps_state_call(struct dcps_state *s, const uint8_t *sheet, uint8_t *answer)
{
    return dcps_lent_call(dcps_state_lent(s), sheet, answer);
}

static inline uint32_t dcps_small_state_fresh(struct dcps_small_state *s)
{
    return dcps_lent_fresh(dcps_small_state_lent(s));
}

static inline uint32_t dcps_small_state_call(struct dcps_small_state *s, const uint8_t *sheet, uint8_t *answer)
{
    return dcps_lent_call(dcps_small_state_lent(s), sheet, answer);
}

/* ---- the fields of a sheet, for the builders below */

static inline void dcps_sheet_begin(uint8_t *sheet, enum dcps_code code)
{
    memset(sheet, 0, DCPS_SHEET_BYTES);
    sheet[DCPS_SHEET_CODE] = (uint8_t)code;
}

static inline void dcps_sheet_bit(uint8_t *sheet, unsigned bit)
{
    sheet[DCPS_SHEET_BITS] = (uint8_t)(sheet[DCPS_SHEET_BITS] | bit);
}

static inline void dcps_sheet_key(uint8_t *sheet, const uint8_t *key)
{
    memcpy(sheet + DCPS_SHEET_KEY, key, DCPS_KEY_BYTES);
}

static inline void dcps_sheet_guid(uint8_t *sheet, const uint8_t *guid)
{
    memcpy(sheet + DCPS_SHEET_GUID, guid, DCPS_GUID_BYTES);
}

static inline void dcps_sheet_prefix(uint8_t *sheet, const uint8_t *prefix)
{
    memcpy(sheet + DCPS_SHEET_GUID, prefix, DCPS_PREFIX_BYTES);
}

static inline void dcps_sheet_handle(uint8_t *sheet, uint64_t handle)
{
    dcps_put_u64(sheet + DCPS_SHEET_HANDLE, handle);
}

/* Time 1 of a call where it is optional. Null: no time. */
static inline void dcps_sheet_time_1(uint8_t *sheet, const struct dcps_time *time)
{
    if (time) {
        dcps_put_time(sheet + DCPS_SHEET_TIME_1, *time);
        dcps_sheet_bit(sheet, DCPS_BIT_TIME_1);
    }
}

/* A holder. Null with length 0: an empty holder, which is stored as an empty one. If the length is above 144, only the length
 * is written to the sheet, and the call is refused as 6. */
static inline void dcps_sheet_holder(uint8_t *sheet, const uint8_t *holder, size_t length)
{
    dcps_put_u16(sheet + DCPS_SHEET_HOLDER_LENGTH, (uint16_t)(length < 0xffff ? length : 0xffff));
    if (holder && length > 0 && length <= DCPS_HOLDER_PLACES)
        memcpy(sheet + DCPS_SHEET_HOLDER, holder, length);
}

/* B with its presence bit. Null: B is absent. */
static inline void dcps_sheet_optional_b(uint8_t *sheet, unsigned bit, const uint64_t *nanoseconds)
{
    if (nanoseconds) {
        dcps_put_u64(sheet + DCPS_SHEET_B, *nanoseconds);
        dcps_sheet_bit(sheet, bit);
    }
}

/* ---- a builder for each code; enum dcps_code says what each call does. `time` may be null: no time */

static inline void dcps_sheet_register(uint8_t *sheet, const uint8_t *key, const uint8_t *holder, size_t holder_length,
                                       const struct dcps_time *time)
{
    dcps_sheet_begin(sheet, DCPS_CODE_REGISTER);
    dcps_sheet_key(sheet, key);
    dcps_sheet_holder(sheet, holder, holder_length);
    dcps_sheet_time_1(sheet, time);
}

static inline void dcps_sheet_ensure_registered_limited(uint8_t *sheet, const uint8_t *key, int32_t limit)
{
    dcps_sheet_begin(sheet, DCPS_CODE_ENSURE_REGISTERED_LIMITED);
    dcps_sheet_key(sheet, key);
    dcps_put_i32(sheet + DCPS_SHEET_LIMIT, limit);
}

static inline void dcps_sheet_dispose(uint8_t *sheet, uint64_t handle, const struct dcps_time *time)
{
    dcps_sheet_begin(sheet, DCPS_CODE_DISPOSE);
    dcps_sheet_handle(sheet, handle);
    dcps_sheet_time_1(sheet, time);
}

static inline void dcps_sheet_unregister(uint8_t *sheet, uint64_t handle, const struct dcps_time *time)
{
    dcps_sheet_begin(sheet, DCPS_CODE_UNREGISTER);
    dcps_sheet_handle(sheet, handle);
    dcps_sheet_time_1(sheet, time);
}

static inline void dcps_sheet_unregister_writer(uint8_t *sheet, uint64_t handle, const uint8_t *guid,
                                                const struct dcps_time *time)
{
    dcps_sheet_begin(sheet, DCPS_CODE_UNREGISTER_WRITER);
    dcps_sheet_handle(sheet, handle);
    dcps_sheet_guid(sheet, guid);
    dcps_sheet_time_1(sheet, time);
}

static inline void dcps_sheet_note_writer(uint8_t *sheet, uint64_t handle, const uint8_t *guid)
{
    dcps_sheet_begin(sheet, DCPS_CODE_NOTE_WRITER);
    dcps_sheet_handle(sheet, handle);
    dcps_sheet_guid(sheet, guid);
}

static inline void dcps_sheet_drop_writer(uint8_t *sheet, const uint8_t *guid, const struct dcps_time *time)
{
    dcps_sheet_begin(sheet, DCPS_CODE_DROP_WRITER);
    dcps_sheet_guid(sheet, guid);
    dcps_sheet_time_1(sheet, time);
}

/* Null: no holder. For an empty holder pass any other pointer, and length 0. */
static inline void dcps_sheet_observe_lifecycle(uint8_t *sheet, const uint8_t *key, const uint8_t *holder,
                                                size_t holder_length, const struct dcps_time *time)
{
    dcps_sheet_begin(sheet, DCPS_CODE_OBSERVE_LIFECYCLE);
    dcps_sheet_key(sheet, key);
    if (holder) {
        dcps_sheet_holder(sheet, holder, holder_length);
        dcps_sheet_bit(sheet, DCPS_BIT_HOLDER);
    }
    dcps_sheet_time_1(sheet, time);
}

static inline void dcps_sheet_observe_admitted(uint8_t *sheet, const uint8_t *key, const uint8_t *holder,
                                               size_t holder_length, struct dcps_time sample, int32_t limit)
{
    dcps_sheet_begin(sheet, DCPS_CODE_OBSERVE_ADMITTED);
    dcps_sheet_key(sheet, key);
    dcps_sheet_holder(sheet, holder, holder_length);
    dcps_put_time(sheet + DCPS_SHEET_TIME_1, sample);
    dcps_put_i32(sheet + DCPS_SHEET_LIMIT, limit);
}

static inline void dcps_sheet_note_admitted(uint8_t *sheet, const uint8_t *key, struct dcps_time order,
                                            struct dcps_time filter, const uint8_t *guid)
{
    dcps_sheet_begin(sheet, DCPS_CODE_NOTE_ADMITTED);
    dcps_sheet_key(sheet, key);
    dcps_put_time(sheet + DCPS_SHEET_TIME_1, order);
    dcps_put_time(sheet + DCPS_SHEET_TIME_2, filter);
    dcps_sheet_guid(sheet, guid);
}

static inline void dcps_sheet_record_delivery(uint8_t *sheet, const uint8_t *key, struct dcps_time sample)
{
    dcps_sheet_begin(sheet, DCPS_CODE_RECORD_DELIVERY);
    dcps_sheet_key(sheet, key);
    dcps_put_time(sheet + DCPS_SHEET_TIME_1, sample);
}

static inline void dcps_sheet_note_taken(uint8_t *sheet, uint64_t handle, uint32_t n)
{
    dcps_sheet_begin(sheet, DCPS_CODE_NOTE_TAKEN);
    dcps_sheet_handle(sheet, handle);
    dcps_put_u32(sheet + DCPS_SHEET_STRENGTH, n);
}

static inline void dcps_sheet_mark_view_seen(uint8_t *sheet, uint64_t handle)
{
    dcps_sheet_begin(sheet, DCPS_CODE_MARK_VIEW_SEEN);
    dcps_sheet_handle(sheet, handle);
}

static inline void dcps_sheet_mark_view_new(uint8_t *sheet, const uint8_t *key)
{
    dcps_sheet_begin(sheet, DCPS_CODE_MARK_VIEW_NEW);
    dcps_sheet_key(sheet, key);
}

static inline void dcps_sheet_drain_samples(uint8_t *sheet, uint64_t handle, uint32_t n)
{
    dcps_sheet_begin(sheet, DCPS_CODE_DRAIN_SAMPLES);
    dcps_sheet_handle(sheet, handle);
    dcps_put_u32(sheet + DCPS_SHEET_STRENGTH, n);
}

/* `deadline` is in nanoseconds, and may be null: no deadline. */
static inline void dcps_sheet_accept_under_exclusive_ownership(uint8_t *sheet, const uint8_t *key, const uint8_t *guid,
                                                               int32_t strength, struct dcps_time now,
                                                               const uint64_t *deadline)
{
    dcps_sheet_begin(sheet, DCPS_CODE_ACCEPT_UNDER_EXCLUSIVE_OWNERSHIP);
    dcps_sheet_key(sheet, key);
    dcps_sheet_guid(sheet, guid);
    dcps_put_i32(sheet + DCPS_SHEET_STRENGTH, strength);
    dcps_put_time(sheet + DCPS_SHEET_TIME_2, now);
    dcps_sheet_optional_b(sheet, DCPS_BIT_DEADLINE, deadline);
}

static inline void dcps_sheet_update_owner_strength(uint8_t *sheet, const uint8_t *guid, int32_t strength)
{
    dcps_sheet_begin(sheet, DCPS_CODE_UPDATE_OWNER_STRENGTH);
    dcps_sheet_guid(sheet, guid);
    dcps_put_i32(sheet + DCPS_SHEET_STRENGTH, strength);
}

static inline void dcps_sheet_clear_owner_for_writer(uint8_t *sheet, const uint8_t *guid)
{
    dcps_sheet_begin(sheet, DCPS_CODE_CLEAR_OWNER_FOR_WRITER);
    dcps_sheet_guid(sheet, guid);
}

static inline void dcps_sheet_clear_owner_for_writer_prefix(uint8_t *sheet, const uint8_t *prefix)
{
    dcps_sheet_begin(sheet, DCPS_CODE_CLEAR_OWNER_FOR_WRITER_PREFIX);
    dcps_sheet_prefix(sheet, prefix);
}

static inline void dcps_sheet_release_owner_of(uint8_t *sheet, const uint8_t *key, const uint8_t *guid)
{
    dcps_sheet_begin(sheet, DCPS_CODE_RELEASE_OWNER_OF);
    dcps_sheet_key(sheet, key);
    dcps_sheet_guid(sheet, guid);
}

/* The delays are in nanoseconds. With DCPS_NEVER nothing is removed. */
static inline void dcps_sheet_autopurge(uint8_t *sheet, struct dcps_time now, uint64_t disposed_delay,
                                        uint64_t no_writers_delay)
{
    dcps_sheet_begin(sheet, DCPS_CODE_AUTOPURGE);
    dcps_put_time(sheet + DCPS_SHEET_TIME_2, now);
    dcps_put_u64(sheet + DCPS_SHEET_A, disposed_delay);
    dcps_put_u64(sheet + DCPS_SHEET_B, no_writers_delay);
}

/* Clock and lease are in nanoseconds. `lease` may be null: an infinite lease. A kind beyond the three is refused as 7. */
static inline void dcps_sheet_matched(uint8_t *sheet, const uint8_t *guid, enum dcps_liveliness kind,
                                      const uint64_t *lease, uint64_t clock)
{
    dcps_sheet_begin(sheet, DCPS_CODE_MATCHED);
    dcps_sheet_guid(sheet, guid);
    dcps_sheet_bit(sheet, (unsigned)kind < DCPS_BITS_KIND ? (unsigned)kind : DCPS_BITS_KIND);
    dcps_sheet_optional_b(sheet, DCPS_BIT_LEASE, lease);
    dcps_put_u64(sheet + DCPS_SHEET_A, clock);
}

static inline void dcps_sheet_unmatched(uint8_t *sheet, const uint8_t *guid)
{
    dcps_sheet_begin(sheet, DCPS_CODE_UNMATCHED);
    dcps_sheet_guid(sheet, guid);
}

static inline void dcps_sheet_lost_with_participant(uint8_t *sheet, const uint8_t *guid)
{
    dcps_sheet_begin(sheet, DCPS_CODE_LOST_WITH_PARTICIPANT);
    dcps_sheet_guid(sheet, guid);
}

static inline void dcps_sheet_writer_asserted(uint8_t *sheet, const uint8_t *guid, uint64_t clock)
{
    dcps_sheet_begin(sheet, DCPS_CODE_WRITER_ASSERTED);
    dcps_sheet_guid(sheet, guid);
    dcps_put_u64(sheet + DCPS_SHEET_A, clock);
}

/* `manual` is 0 for no, any other number for yes. */
static inline void dcps_sheet_participant_asserted(uint8_t *sheet, const uint8_t *prefix, int manual, uint64_t clock)
{
    dcps_sheet_begin(sheet, DCPS_CODE_PARTICIPANT_ASSERTED);
    dcps_sheet_prefix(sheet, prefix);
    if (manual)
        dcps_sheet_bit(sheet, DCPS_BIT_MANUAL);
    dcps_put_u64(sheet + DCPS_SHEET_A, clock);
}

static inline void dcps_sheet_expire(uint8_t *sheet, uint64_t clock)
{
    dcps_sheet_begin(sheet, DCPS_CODE_EXPIRE);
    dcps_put_u64(sheet + DCPS_SHEET_A, clock);
}

static inline void dcps_sheet_take_lost(uint8_t *sheet)
{
    dcps_sheet_begin(sheet, DCPS_CODE_TAKE_LOST);
}

static inline void dcps_sheet_take_status(uint8_t *sheet)
{
    dcps_sheet_begin(sheet, DCPS_CODE_TAKE_STATUS);
}

static inline void dcps_sheet_acknowledge(uint8_t *sheet, int32_t alive_change, int32_t not_alive_change)
{
    dcps_sheet_begin(sheet, DCPS_CODE_ACKNOWLEDGE);
    dcps_put_i32(sheet + DCPS_SHEET_LIMIT, alive_change);
    dcps_put_i32(sheet + DCPS_SHEET_STRENGTH, not_alive_change);
}

/* A received sample, and what the reader's QoS asks of it. dcps_sample_of sets the defaults: no order by source, no filter, no
 * limit, no deadline, strength 0.
 * Every sample asks for ownership. The writer of the sample that starts an instance owns it. Of two writers of equal strength
 * the one with the lower GUID takes the instance over, and the samples of the other one are then turned away (outcome 4).
 * On a SHARED topic let `deadline` point to 0, and never let `filter` go back: then every writer takes over. `filter` is your
 * own present time; dcps_sample_of takes the sample's time for it, so set it where writers have clocks of their own. */
struct dcps_sample {
    uint8_t key[DCPS_KEY_BYTES];
    uint8_t writer[DCPS_GUID_BYTES];
    const uint8_t *holder; /* null with length 0: an empty holder. It is stored if the instance has none, and then stays */
    size_t holder_length;
    struct dcps_time order;  /* time 1: of the sample, for last sample and the destination order */
    struct dcps_time filter; /* time 2: now, for the filter and ownership */
    int by_source;           /* 0 for no, any other number for yes */
    uint64_t separation;     /* nanoseconds; with 0 nothing is filtered */
    const uint64_t *deadline; /* nanoseconds; null: no deadline */
    int32_t limit;           /* the greatest number of instances; negative: no limit */
    int32_t strength;
};

static inline struct dcps_sample dcps_sample_of(const uint8_t *key, const uint8_t *writer, struct dcps_time time)
{
    struct dcps_sample sample;
    memset(&sample, 0, sizeof sample);
    memcpy(sample.key, key, sizeof sample.key);
    memcpy(sample.writer, writer, sizeof sample.writer);
    sample.holder = NULL;
    sample.order = time;
    sample.filter = time;
    sample.deadline = NULL;
    sample.limit = -1;
    return sample;
}

static inline void dcps_sheet_admit(uint8_t *sheet, const struct dcps_sample *sample)
{
    dcps_sheet_begin(sheet, DCPS_CODE_ADMIT);
    dcps_sheet_key(sheet, sample->key);
    dcps_sheet_guid(sheet, sample->writer);
    dcps_sheet_holder(sheet, sample->holder, sample->holder_length);
    dcps_put_time(sheet + DCPS_SHEET_TIME_1, sample->order);
    dcps_put_time(sheet + DCPS_SHEET_TIME_2, sample->filter);
    if (sample->by_source)
        dcps_sheet_bit(sheet, DCPS_BIT_BY_SOURCE);
    dcps_put_u64(sheet + DCPS_SHEET_A, sample->separation);
    dcps_sheet_optional_b(sheet, DCPS_BIT_DEADLINE, sample->deadline);
    dcps_put_i32(sheet + DCPS_SHEET_LIMIT, sample->limit);
    dcps_put_i32(sheet + DCPS_SHEET_STRENGTH, sample->strength);
}

static inline void dcps_sheet_lapse(uint8_t *sheet, uint64_t clock, const struct dcps_time *time)
{
    dcps_sheet_begin(sheet, DCPS_CODE_LAPSE);
    dcps_put_u64(sheet + DCPS_SHEET_A, clock);
    dcps_sheet_time_1(sheet, time);
}

static inline void dcps_sheet_part(uint8_t *sheet, const uint8_t *guid, const struct dcps_time *time)
{
    dcps_sheet_begin(sheet, DCPS_CODE_PART);
    dcps_sheet_guid(sheet, guid);
    dcps_sheet_time_1(sheet, time);
}

static inline void dcps_sheet_depart(uint8_t *sheet, const uint8_t *guid, const struct dcps_time *time)
{
    dcps_sheet_begin(sheet, DCPS_CODE_DEPART);
    dcps_sheet_guid(sheet, guid);
    dcps_sheet_time_1(sheet, time);
}

/* ---- the fields of answers, heads and records: one function for each, named after the field's offset in dcps.h */

#define DCPS_FIELD_u8(b, at) ((b)[at])
#define DCPS_FIELD_u16(b, at) dcps_get_u16((b) + (at))
#define DCPS_FIELD_u32(b, at) dcps_get_u32((b) + (at))
#define DCPS_FIELD_i32(b, at) dcps_get_i32((b) + (at))
#define DCPS_FIELD_u64(b, at) dcps_get_u64((b) + (at))
#define DCPS_ACCESSOR(name, kind, type, at)             \
    static inline type name(const uint8_t *bytes)       \
    {                                                   \
        return (type)DCPS_FIELD_##kind(bytes, at);      \
    }

/* Of an answer of 72 bytes. */
DCPS_ACCESSOR(dcps_answer_number, u8, uint8_t, DCPS_ANSWER_NUMBER)
DCPS_ACCESSOR(dcps_answer_outcome, u8, uint8_t, DCPS_ANSWER_OUTCOME)
DCPS_ACCESSOR(dcps_answer_yes, u8, uint8_t, DCPS_ANSWER_YES)
DCPS_ACCESSOR(dcps_answer_present, u8, uint8_t, DCPS_ANSWER_PRESENT)
DCPS_ACCESSOR(dcps_answer_view_new, u8, uint8_t, DCPS_ANSWER_VIEW_NEW)
DCPS_ACCESSOR(dcps_answer_kind, u8, uint8_t, DCPS_ANSWER_KIND)
DCPS_ACCESSOR(dcps_answer_next_due_present, u8, uint8_t, DCPS_ANSWER_NEXT_DUE_PRESENT)
DCPS_ACCESSOR(dcps_answer_handle, u64, uint64_t, DCPS_ANSWER_HANDLE)
DCPS_ACCESSOR(dcps_answer_samples, u32, uint32_t, DCPS_ANSWER_SAMPLES)
DCPS_ACCESSOR(dcps_answer_disposed_generations, u32, uint32_t, DCPS_ANSWER_DISPOSED_GENERATIONS)
DCPS_ACCESSOR(dcps_answer_no_writers_generations, u32, uint32_t, DCPS_ANSWER_NO_WRITERS_GENERATIONS)
DCPS_ACCESSOR(dcps_answer_count, u32, uint32_t, DCPS_ANSWER_COUNT)
DCPS_ACCESSOR(dcps_answer_listed, u32, uint32_t, DCPS_ANSWER_LISTED)
DCPS_ACCESSOR(dcps_answer_alive, u32, uint32_t, DCPS_ANSWER_ALIVE)
DCPS_ACCESSOR(dcps_answer_not_alive, u32, uint32_t, DCPS_ANSWER_NOT_ALIVE)
DCPS_ACCESSOR(dcps_answer_alive_change, i32, int32_t, DCPS_ANSWER_ALIVE_CHANGE)
DCPS_ACCESSOR(dcps_answer_not_alive_change, i32, int32_t, DCPS_ANSWER_NOT_ALIVE_CHANGE)
DCPS_ACCESSOR(dcps_answer_next_due, u64, uint64_t, DCPS_ANSWER_NEXT_DUE)
DCPS_ACCESSOR(dcps_answer_last_publication, u64, uint64_t, DCPS_ANSWER_LAST_PUBLICATION)

/* Of the answer of a read, 24 bytes. */
DCPS_ACCESSOR(dcps_read_number, u8, uint8_t, DCPS_READ_NUMBER)
DCPS_ACCESSOR(dcps_read_yes, u8, uint8_t, DCPS_READ_YES)
DCPS_ACCESSOR(dcps_read_present, u8, uint8_t, DCPS_READ_PRESENT)
DCPS_ACCESSOR(dcps_read_stored, u8, uint8_t, DCPS_READ_STORED)
DCPS_ACCESSOR(dcps_read_listed, u32, uint32_t, DCPS_READ_LISTED)
DCPS_ACCESSOR(dcps_read_length, u32, uint32_t, DCPS_READ_LENGTH)
DCPS_ACCESSOR(dcps_read_handle, u64, uint64_t, DCPS_READ_HANDLE)
DCPS_ACCESSOR(dcps_read_changes, u64, uint64_t, DCPS_READ_CHANGES)
DCPS_ACCESSOR(dcps_read_offset, u64, uint64_t, DCPS_READ_OFFSET)
DCPS_ACCESSOR(dcps_read_fraction, u32, uint32_t, DCPS_READ_FRACTION)
DCPS_ACCESSOR(dcps_read_remainder, u64, uint32_t, DCPS_READ_REMAINDER)
DCPS_ACCESSOR(dcps_read_wire_nanos, u32, uint32_t, DCPS_READ_WIRE_NANOS)

/* The key that dcps_key_hash made, 16 bytes. */
static inline const uint8_t *dcps_read_key_hash(const uint8_t *read)
{
    return read + DCPS_READ_KEY_HASH;
}

static inline struct dcps_time dcps_read_time(const uint8_t *read)
{
    return dcps_get_time(read + DCPS_READ_SECONDS);
}

/* Of a head. */
DCPS_ACCESSOR(dcps_head_instances, u32, uint32_t, DCPS_HEAD_INSTANCES)
DCPS_ACCESSOR(dcps_head_writers, u32, uint32_t, DCPS_HEAD_WRITERS)
DCPS_ACCESSOR(dcps_head_lost, u32, uint32_t, DCPS_HEAD_LOST)
DCPS_ACCESSOR(dcps_head_alive, u32, uint32_t, DCPS_HEAD_ALIVE)
DCPS_ACCESSOR(dcps_head_not_alive, u32, uint32_t, DCPS_HEAD_NOT_ALIVE)
DCPS_ACCESSOR(dcps_head_alive_change, i32, int32_t, DCPS_HEAD_ALIVE_CHANGE)
DCPS_ACCESSOR(dcps_head_not_alive_change, i32, int32_t, DCPS_HEAD_NOT_ALIVE_CHANGE)
DCPS_ACCESSOR(dcps_head_places, u16, uint16_t, DCPS_HEAD_PLACES)
DCPS_ACCESSOR(dcps_head_next_handle, u64, uint64_t, DCPS_HEAD_NEXT_HANDLE)
DCPS_ACCESSOR(dcps_head_changes, u64, uint64_t, DCPS_HEAD_CHANGES)

/* The length of the pens that fit the head, 16,384 or 65,536; 0 if the head's number of places is neither 32 nor 128. */
static inline size_t dcps_head_pens_bytes(const uint8_t *head)
{
    switch (dcps_head_places(head)) {
    case DCPS_SMALL_INSTANCE_PLACES: return DCPS_SMALL_PENS_BYTES;
    case DCPS_INSTANCE_PLACES: return DCPS_PENS_BYTES;
    default: return 0;
    }
}

/* Converts a head that version 0.2 or an earlier one stored. Such a head has 0 as its number of places; it gets 128, because its
 * pens have 65,536 bytes, and the function returns 1. Any other head stays as it is, and the function returns 0. */
static inline int dcps_carry_head(uint8_t *head)
{
    if (dcps_head_places(head) != 0)
        return 0;
    dcps_put_u16(head + DCPS_HEAD_PLACES, DCPS_INSTANCE_PLACES);
    return 1;
}

/* The GUID of the last writer, or null if there is none. */
static inline const uint8_t *dcps_head_last_writer(const uint8_t *head)
{
    return dcps_get_u16(head + DCPS_HEAD_LAST_WRITER_PRESENT) ? head + DCPS_HEAD_LAST_WRITER : NULL;
}

/* Of an instance's record. */
DCPS_ACCESSOR(dcps_instance_handle, u64, uint64_t, DCPS_INSTANCE_HANDLE)
DCPS_ACCESSOR(dcps_instance_flags, u16, uint16_t, DCPS_INSTANCE_FLAGS)
DCPS_ACCESSOR(dcps_instance_disposed_generations, u32, uint32_t, DCPS_INSTANCE_DISPOSED_GENERATIONS)
DCPS_ACCESSOR(dcps_instance_no_writers_generations, u32, uint32_t, DCPS_INSTANCE_NO_WRITERS_GENERATIONS)
DCPS_ACCESSOR(dcps_instance_writer_count, u32, uint32_t, DCPS_INSTANCE_WRITER_COUNT)
DCPS_ACCESSOR(dcps_instance_samples, u32, uint32_t, DCPS_INSTANCE_SAMPLES)

static inline const uint8_t *dcps_instance_key(const uint8_t *record)
{
    return record + DCPS_INSTANCE_KEY;
}

/* enum dcps_kind */
static inline uint8_t dcps_instance_kind(const uint8_t *record)
{
    return (uint8_t)(dcps_instance_flags(record) >> DCPS_FLAG_KIND_SHIFT);
}

static inline int dcps_instance_view_new(const uint8_t *record)
{
    return (dcps_instance_flags(record) & DCPS_FLAG_VIEW_NEW) != 0;
}

/* A time of the record. Returns 1, or 0 if it is absent. */
static inline int dcps_instance_time(const uint8_t *record, unsigned flag, size_t at, struct dcps_time *time)
{
    *time = dcps_get_time(record + at);
    return (dcps_instance_flags(record) & flag) != 0;
}

static inline int dcps_instance_last_sample(const uint8_t *record, struct dcps_time *time)
{
    return dcps_instance_time(record, DCPS_FLAG_LAST_SAMPLE, DCPS_INSTANCE_LAST_SAMPLE, time);
}

static inline int dcps_instance_last_delivered(const uint8_t *record, struct dcps_time *time)
{
    return dcps_instance_time(record, DCPS_FLAG_LAST_DELIVERED, DCPS_INSTANCE_LAST_DELIVERED, time);
}

static inline int dcps_instance_last_filter(const uint8_t *record, struct dcps_time *time)
{
    return dcps_instance_time(record, DCPS_FLAG_LAST_FILTER, DCPS_INSTANCE_LAST_FILTER, time);
}

static inline int dcps_instance_disposed_at(const uint8_t *record, struct dcps_time *time)
{
    return dcps_instance_time(record, DCPS_FLAG_DISPOSED_AT, DCPS_INSTANCE_DISPOSED_AT, time);
}

static inline int dcps_instance_no_writers_at(const uint8_t *record, struct dcps_time *time)
{
    return dcps_instance_time(record, DCPS_FLAG_NO_WRITERS_AT, DCPS_INSTANCE_NO_WRITERS_AT, time);
}

static inline int dcps_instance_owner_at(const uint8_t *record, struct dcps_time *time)
{
    return dcps_instance_time(record, DCPS_FLAG_OWNER_AT, DCPS_INSTANCE_OWNER_AT, time);
}

/* The owner's GUID, or null if there is no owner. */
static inline const uint8_t *dcps_instance_owner(const uint8_t *record)
{
    return dcps_instance_flags(record) & DCPS_FLAG_OWNER ? record + DCPS_INSTANCE_OWNER : NULL;
}

/* The owner's strength; 0 if there is no owner. */
DCPS_ACCESSOR(dcps_instance_strength, i32, int32_t, DCPS_INSTANCE_STRENGTH)

/* The holder, or null if none is stored. A stored holder may have length 0. */
static inline const uint8_t *dcps_instance_holder(const uint8_t *record, size_t *length)
{
    size_t stored = dcps_get_u16(record + DCPS_INSTANCE_HOLDER_LENGTH);
    *length = stored < DCPS_HOLDER_PLACES ? stored : DCPS_HOLDER_PLACES;
    return dcps_instance_flags(record) & DCPS_FLAG_HOLDER ? record + DCPS_INSTANCE_HOLDER : NULL;
}

/* The number of writers in its set, and the GUID at a place below that number. */
static inline size_t dcps_instance_set_size(const uint8_t *record)
{
    size_t size = dcps_instance_flags(record) & DCPS_FLAGS_SET_SIZE;
    return size < DCPS_SET_PLACES ? size : DCPS_SET_PLACES;
}

static inline const uint8_t *dcps_instance_set_guid(const uint8_t *record, size_t place)
{
    return record + DCPS_INSTANCE_SET + place * DCPS_GUID_BYTES;
}

/* Of a writer's record. */
DCPS_ACCESSOR(dcps_writer_flags, u8, uint8_t, DCPS_WRITER_FLAGS)
DCPS_ACCESSOR(dcps_writer_last_assertion, u64, uint64_t, DCPS_WRITER_LAST_ASSERTION)

static inline const uint8_t *dcps_writer_guid(const uint8_t *record)
{
    return record + DCPS_WRITER_GUID;
}

/* enum dcps_liveliness */
static inline uint8_t dcps_writer_kind(const uint8_t *record)
{
    return (uint8_t)(dcps_writer_flags(record) >> DCPS_WRITER_KIND_SHIFT);
}

/* enum dcps_standing */
static inline uint8_t dcps_writer_standing(const uint8_t *record)
{
    return (uint8_t)(dcps_writer_flags(record) >> DCPS_WRITER_STATE_SHIFT & 3);
}

/* The lease in nanoseconds. Returns 1, or 0 if the lease is infinite. */
static inline int dcps_writer_lease(const uint8_t *record, uint64_t *lease)
{
    *lease = dcps_get_u64(record + DCPS_WRITER_LEASE);
    return (dcps_writer_flags(record) & DCPS_WRITER_LEASE_BIT) != 0;
}

/* ---- the tables: the used records by place (in the order of keys or GUIDs), by key, by handle and by GUID
 *
 * These functions test no length: pens must have the dcps_head_pens_bytes of the head. If a state comes from elsewhere, pass it
 * to a call first; the call refuses a bad one as 1 or 3. */

/* The number of used records, at most the head's number of places; 0 if that is neither 32 nor 128. */
static inline size_t dcps_instance_records(const uint8_t *head)
{
    size_t count = dcps_head_instances(head), places = dcps_head_pens_bytes(head) / DCPS_INSTANCE_BYTES;
    return count < places ? count : places;
}

static inline const uint8_t *dcps_instance_at(const uint8_t *pens, size_t place)
{
    return pens + place * DCPS_INSTANCE_BYTES;
}

/* The number of used records, without a head, as the reads count them: those before the first one whose handle is 0. */
static inline size_t dcps_pens_records(const uint8_t *pens, size_t pens_bytes)
{
    size_t place = 0, places = pens_bytes / DCPS_INSTANCE_BYTES;
    while (place < places && dcps_instance_handle(dcps_instance_at(pens, place)) != 0)
        place++;
    return place;
}

static inline size_t dcps_writer_records(const uint8_t *head)
{
    size_t count = dcps_head_writers(head);
    return count < DCPS_WRITER_PLACES ? count : DCPS_WRITER_PLACES;
}

static inline const uint8_t *dcps_writer_at(const uint8_t *writers, size_t place)
{
    return writers + place * DCPS_WRITER_BYTES;
}

static inline const uint8_t *dcps_instances_end(const uint8_t *head, const uint8_t *pens)
{
    return dcps_instance_at(pens, dcps_instance_records(head));
}

static inline const uint8_t *dcps_writers_end(const uint8_t *head, const uint8_t *writers)
{
    return dcps_writer_at(writers, dcps_writer_records(head));
}

/* A loop over the used records: it declares `r`, a const uint8_t * to each record in turn. The number of records is read once,
 * before the first turn. A call in the body may move records, so collect the handles or GUIDs first. */
#define DCPS_EACH_INSTANCE(r, head, pens)                                                           \
    for (const uint8_t *r = (pens), *r##_end = dcps_instances_end((head), (pens)); r != r##_end;    \
         r += DCPS_INSTANCE_BYTES)
#define DCPS_EACH_WRITER(r, head, writers)                                                          \
    for (const uint8_t *r = (writers), *r##_end = dcps_writers_end((head), (writers)); r != r##_end; \
         r += DCPS_WRITER_BYTES)

/* The record of a key, of a handle, of a GUID; null if there is none. */
static inline const uint8_t *dcps_instance_by_key(const uint8_t *head, const uint8_t *pens, const uint8_t *key)
{
    DCPS_EACH_INSTANCE(r, head, pens)
        if (memcmp(dcps_instance_key(r), key, DCPS_KEY_BYTES) == 0)
            return r;
    return NULL;
}

static inline const uint8_t *dcps_instance_by_handle(const uint8_t *head, const uint8_t *pens, uint64_t handle)
{
    DCPS_EACH_INSTANCE(r, head, pens)
        if (dcps_instance_handle(r) == handle)
            return r;
    return NULL;
}

static inline const uint8_t *dcps_writer_by_guid(const uint8_t *head, const uint8_t *writers, const uint8_t *guid)
{
    DCPS_EACH_WRITER(r, head, writers)
        if (memcmp(dcps_writer_guid(r), guid, DCPS_GUID_BYTES) == 0)
            return r;
    return NULL;
}

/* ---- lists: the entry at a place below `listed` of the answer (in lost: below dcps_head_lost) */

static inline uint64_t dcps_out_handle(const uint8_t *out, size_t place)
{
    return dcps_get_u64(out + place * DCPS_HANDLE_BYTES);
}

static inline const uint8_t *dcps_out_guid(const uint8_t *out, size_t place)
{
    return out + place * DCPS_GUID_BYTES;
}

/* A loop over the first entries of out: it declares `h`, the uint64_t handle, or `g`, a const uint8_t * to the GUID. `listed` is
 * read once, before the first turn, so a call in the body may write to the same answer. A call that has a list needs another
 * out. */
#define DCPS_EACH_HANDLE(h, out, listed)                                                              \
    for (uint64_t h = 0, h##_place = 0, h##_end = (listed);                                           \
         h##_place < h##_end && ((h = dcps_out_handle((out), (size_t)h##_place)), 1); h##_place++)
#define DCPS_EACH_GUID(g, out, listed)                                                                \
    for (const uint8_t *g = (out), *g##_end = dcps_out_guid((out), (listed)); g != g##_end; g += DCPS_GUID_BYTES)

/* ---- keys, stamps, and GUIDs as numbers */

/* Makes the key of an instance from its serialized key, by dcps_key_hash. Returns its number. Test it: if it is not 0, key is 16
 * zeros, which could also be a key. */
static inline uint32_t dcps_key_of(uint8_t *key, const uint8_t *serialized, size_t length, uint64_t largest)
{
    uint8_t read[DCPS_READ_BYTES];
    uint32_t number = dcps_key_hash(serialized, length, largest, read, sizeof read);
    memcpy(key, dcps_read_key_hash(read), DCPS_KEY_BYTES);
    return number;
}

/* Makes the fraction of a stamp and its remainder from nanoseconds, by dcps_wire_fraction. Returns its number. Test it: if it is
 * not 0, both are 0, as they are for a whole second. Neither pointer may be null. */
static inline uint32_t dcps_fraction_of(uint32_t *fraction, uint32_t *remainder, uint32_t nanosec)
{
    uint8_t read[DCPS_READ_BYTES];
    uint32_t number = dcps_wire_fraction(nanosec, read, sizeof read);
    *fraction = dcps_read_fraction(read);
    *remainder = dcps_read_remainder(read);
    return number;
}

/* Makes nanoseconds from a fraction, by dcps_wire_nanos, which takes every fraction. If the stamp came over the wire, pass
 * DCPS_REMAINDER_UNKNOWN as the remainder. */
static inline uint32_t dcps_nanos_of(uint32_t fraction, uint32_t remainder)
{
    uint8_t read[DCPS_READ_BYTES];
    dcps_wire_nanos(fraction, remainder, read, sizeof read);
    return dcps_read_wire_nanos(read);
}

/* A key or a GUID as the reads take it: its first 8 bytes, and its last 8. */
static inline uint64_t dcps_high(const uint8_t *guid)
{
    return dcps_get_u64(guid);
}

static inline uint64_t dcps_low(const uint8_t *guid)
{
    return dcps_get_u64(guid + 8);
}

/* The handle by which a status names a writer (last publication): 64-bit FNV-1a of its GUID, or 1 if that is 0. */
static inline uint64_t dcps_handle_of_guid(const uint8_t *guid)
{
    uint64_t hash = ((uint64_t)0xcbf29ce4u << 32) | 0x84222325u;
    size_t place;
    for (place = 0; place < DCPS_GUID_BYTES; place++)
        hash = (hash ^ guid[place]) * (((uint64_t)0x100u << 32) | 0x1b3u);
    return hash ? hash : 1;
}

/* ---- words */

static inline const char *dcps_refusal_text(uint32_t number)
{
    switch (number) {
    case DCPS_ACCEPTED: return "accepted";
    case DCPS_REFUSED_LENGTH: return "a buffer length other than stated";
    case DCPS_REFUSED_CODE: return "unknown code";
    case DCPS_REFUSED_STATE: return "not well formed";
    case DCPS_REFUSED_NANOSECONDS: return "nanoseconds of 10^9 or more";
    case DCPS_REFUSED_CLOCK: return "clock or lease of 2^62 or more";
    case DCPS_REFUSED_HOLDER: return "holder above 144";
    case DCPS_REFUSED_KIND: return "kind 3 in matched";
    case DCPS_REFUSED_ACKNOWLEDGE: return "acknowledge taking count minus change beyond \xc2\xb1" "2^30";
    case DCPS_REFUSED_INSTANCES: return "new instance, all places taken";
    case DCPS_REFUSED_SET: return "new writer, 16 in that instance's set";
    case DCPS_REFUSED_WRITERS: return "new GUID, 128 writer records";
    case DCPS_REFUSED_LOST: return "expiries beyond 256 in Lost";
    case DCPS_REFUSED_HANDLES: return "new instance, next handle 2^63";
    case DCPS_REFUSED_KEY_LENGTH: return "serialized key longer than its stated largest size";
    case DCPS_REFUSED_LARGEST_SIZE: return "stated largest size above 4,096";
    default: return "a number unknown here";
    }
}

static inline const char *dcps_outcome_text(uint32_t outcome)
{
    switch (outcome) {
    case DCPS_ADMITTED: return "admitted";
    case DCPS_OUT_OF_ORDER: return "not later than the last sample delivered";
    case DCPS_FILTERED: return "too close to the last sample";
    case DCPS_AT_LIMIT: return "a new instance beyond the limit";
    case DCPS_NOT_OWNER: return "another writer owns the instance";
    default: return "an outcome unknown here";
    }
}

#ifdef __cplusplus
}
#endif

#endif
