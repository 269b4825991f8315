/* SPDX-License-Identifier: Apache-2.0 */
/* What a DDS reader sees, told to the library: one function for each event, in the order of docs/INTEGRATION.md. Each
 * recipe can be left out by its bit, so that tests can show what it is for. */
#ifndef FEED_H
#define FEED_H

#include <stdio.h>
#include <stdlib.h>

#include "dcps_inline.h"

/* Recipes that are left out. */
enum feed_without {
    WITHOUT_SHARED = 1,   /* admit as for a SHARED topic */
    WITHOUT_NOTE = 2,     /* note the writer of a sample that was turned away */
    WITHOUT_ASK = 4,      /* ask the owner before a dispose */
    WITHOUT_RELEASE = 8,  /* release the owner that unregisters */
    WITHOUT_UNKNOWN = 16, /* leave an unregister of an unknown key alone */
    WITHOUT_LAPSE = 32,   /* lapse, not expire alone */
    WITHOUT_ASSERT = 64,  /* a sample asserts its writer */
    WITHOUT_FORGET = 128, /* free the records of departed writers */
    WITHOUT_STATED = 256, /* state the largest size of the key's type */
    WITHOUT_REMAINDER = 512, /* let 999999999 stand for a remainder that is not known */
    WITHOUT_FLOOR = 1024     /* round the seconds of a time down */
};

struct feed {
    struct dcps_state state;
    uint8_t sheet[DCPS_SHEET_BYTES];
    uint8_t answer[DCPS_ANSWER_BYTES];
    int exclusive; /* the topic's OWNERSHIP */
    int by_source; /* the reader's DESTINATION_ORDER */
    unsigned without;
};

struct feed_writer {
    uint8_t guid[DCPS_GUID_BYTES];
    enum dcps_liveliness kind;
    int32_t strength;
};

/* Takes the sheet through the library. A refusal is a fault of the feed, but for those of a full table. */
static inline uint32_t feed_call(struct feed *f)
{
    uint32_t number = dcps_state_call(&f->state, f->sheet, f->answer);
    if (number != DCPS_ACCEPTED)
        fprintf(stderr, "code %u refused as %u: %s\n", f->sheet[DCPS_SHEET_CODE], (unsigned)number,
                dcps_refusal_text(number));
    return number;
}

/* The key of a sample that came without its KeyHash, from its serialized key. The type's largest size is stated, not the
 * length of this key. */
static inline uint32_t feed_key(const struct feed *f, uint8_t *key, const uint8_t *serialized, size_t length, uint64_t largest)
{
    return dcps_key_of(key, serialized, length, f->without & WITHOUT_STATED ? length : largest);
}

/* The time of a stamp that came over the wire, where the transport hands its fraction over and not nanoseconds. */
static inline struct dcps_time feed_time(const struct feed *f, int32_t sec, uint32_t fraction)
{
    return dcps_time_of(sec, dcps_nanos_of(fraction, f->without & WITHOUT_REMAINDER ? 0 : DCPS_REMAINDER_UNKNOWN));
}

/* The time of nanoseconds from the epoch on, negative before it. Its seconds are rounded down, and C rounds towards 0. */
static inline struct dcps_time feed_time_of(const struct feed *f, int64_t nanoseconds)
{
    int64_t sec = nanoseconds / 1000000000, nanosec = nanoseconds % 1000000000;
    if (nanosec < 0 && !(f->without & WITHOUT_FLOOR)) {
        sec -= 1;
        nanosec += 1000000000;
    }
    return dcps_time_of((int32_t)sec, (uint32_t)nanosec);
}

/* The record of a key, or null. */
static inline const uint8_t *feed_instance(const struct feed *f, const uint8_t *key)
{
    return dcps_instance_by_key(f->state.head, f->state.pens, key);
}

/* A writer matched. Its lease stays with the transport, which knows every assertion: for the library it is infinite. */
static inline uint32_t feed_matched(struct feed *f, const struct feed_writer *w, uint64_t clock)
{
    dcps_sheet_matched(f->sheet, w->guid, w->kind, NULL, clock);
    return feed_call(f);
}

/* The transport says that the lease of a writer has run out: it has a lease of 0 and lapses. */
static inline void feed_not_alive(struct feed *f, const struct feed_writer *w, uint64_t clock, struct dcps_time now)
{
    uint64_t none = 0;
    dcps_sheet_matched(f->sheet, w->guid, w->kind, &none, clock);
    feed_call(f);
    if (f->without & WITHOUT_LAPSE)
        dcps_sheet_expire(f->sheet, clock);
    else
        dcps_sheet_lapse(f->sheet, clock, &now);
    feed_call(f);
}

/* The transport says that a writer is alive: its lease is infinite again, and it asserts. */
static inline void feed_alive(struct feed *f, const struct feed_writer *w, uint64_t clock)
{
    feed_matched(f, w, clock);
    dcps_sheet_writer_asserted(f->sheet, w->guid, clock);
    feed_call(f);
}

/* A writer is gone: with its participant, or deleted in due form. */
static inline void feed_unmatched(struct feed *f, const struct feed_writer *w, int participant_gone, struct dcps_time now)
{
    if (participant_gone)
        dcps_sheet_depart(f->sheet, w->guid, &now);
    else
        dcps_sheet_part(f->sheet, w->guid, &now);
    feed_call(f);
}

/* A writer that was lost with its participant is not awaited: its departed record goes. A match that is not automatic makes
 * it not alive and asserts nobody, and such a record an unmatch takes out. */
static inline void feed_forgotten(struct feed *f, const uint8_t *guid)
{
    const uint8_t *r = dcps_writer_by_guid(f->state.head, f->state.writers, guid);
    if (!r || dcps_writer_standing(r) != DCPS_WRITER_DEPARTED || f->without & WITHOUT_FORGET)
        return;
    dcps_sheet_matched(f->sheet, guid, DCPS_BY_TOPIC, NULL, 0);
    feed_call(f);
    dcps_sheet_unmatched(f->sheet, guid);
    feed_call(f);
}

/* A sample. On a SHARED topic a deadline of 0 has always been missed, so that any writer takes over: `now` must not go
 * back. A sample that is turned away leaves its writer unknown, so it is noted while the instance is alive. */
static inline uint8_t feed_sample(struct feed *f, const struct feed_writer *w, const uint8_t *key,
                                  struct dcps_time source, struct dcps_time now, uint64_t clock)
{
    static const uint64_t none = 0;
    struct dcps_sample sample = dcps_sample_of(key, w->guid, source);
    if (!(f->without & WITHOUT_ASSERT)) {
        dcps_sheet_writer_asserted(f->sheet, w->guid, clock);
        feed_call(f);
    }
    sample.filter = now;
    sample.strength = w->strength;
    sample.by_source = f->by_source;
    if (!f->exclusive && !(f->without & WITHOUT_SHARED))
        sample.deadline = &none;
    dcps_sheet_admit(f->sheet, &sample);
    if (feed_call(f) != DCPS_ACCEPTED)
        return 0xff;
    uint8_t outcome = dcps_answer_outcome(f->answer);
    const uint8_t *r = feed_instance(f, key);
    if (outcome != DCPS_ADMITTED && r && dcps_instance_kind(r) == DCPS_ALIVE && !(f->without & WITHOUT_NOTE)) {
        dcps_sheet_note_writer(f->sheet, dcps_instance_handle(r), w->guid);
        feed_call(f);
    }
    return outcome;
}

/* The instance was read: it is new no longer. */
static inline void feed_seen(struct feed *f, const uint8_t *key)
{
    const uint8_t *r = feed_instance(f, key);
    if (!r)
        return;
    dcps_sheet_mark_view_seen(f->sheet, dcps_instance_handle(r));
    feed_call(f);
}

/* A dispose. It starts an instance that nobody has written; it records no writer; under exclusive ownership the owner
 * alone may dispose. */
static inline void feed_disposed(struct feed *f, const struct feed_writer *w, const uint8_t *key, struct dcps_time source,
                                 struct dcps_time now)
{
    if (f->exclusive && !(f->without & WITHOUT_ASK)) {
        dcps_sheet_accept_under_exclusive_ownership(f->sheet, key, w->guid, w->strength, now, NULL);
        if (feed_call(f) != DCPS_ACCEPTED || !dcps_answer_yes(f->answer))
            return;
    }
    dcps_sheet_observe_lifecycle(f->sheet, key, NULL, 0, NULL);
    if (feed_call(f) != DCPS_ACCEPTED)
        return;
    dcps_sheet_dispose(f->sheet, dcps_answer_handle(f->answer), &source);
    feed_call(f);
}

/* An unregister. One of an unknown key starts nothing; an owner that unregisters owns no longer. */
static inline void feed_unregistered(struct feed *f, const uint8_t *guid, const uint8_t *key, struct dcps_time source)
{
    const uint8_t *r = feed_instance(f, key);
    if (!r && !(f->without & WITHOUT_UNKNOWN))
        return;
    if (!r) {
        dcps_sheet_observe_lifecycle(f->sheet, key, NULL, 0, NULL);
        if (feed_call(f) != DCPS_ACCEPTED)
            return;
        r = feed_instance(f, key);
    }
    dcps_sheet_unregister_writer(f->sheet, dcps_instance_handle(r), guid, &source);
    feed_call(f);
    if (!(f->without & WITHOUT_RELEASE)) {
        dcps_sheet_release_owner_of(f->sheet, key, guid);
        feed_call(f);
    }
}

/* The reader says that an instance has no writers: all of its set have unregistered. */
static inline void feed_no_writers(struct feed *f, const uint8_t *key, struct dcps_time source)
{
    const uint8_t *r;
    while ((r = feed_instance(f, key)) != NULL && dcps_instance_set_size(r) > 0) {
        uint8_t guid[DCPS_GUID_BYTES];
        memcpy(guid, dcps_instance_set_guid(r, 0), sizeof guid);
        feed_unregistered(f, guid, key, source);
    }
}

#endif
