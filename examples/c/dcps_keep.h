/* SPDX-License-Identifier: Apache-2.0 */
/* Keeps a state where it outlives the process: two slots, each with a sequence number and a checksum. C99 and C++.
 *
 * A call is not atomic, so a state that is lent in place can be found half written, and well formed all the same. Here the
 * calls are made on a state in memory; after the answer, dcps_keep_save writes it to the older slot, first its bytes, then,
 * once they are synced, its header. Whenever that is cut, the other slot is whole: loading gives the state of the last save
 * that ended or of the one that was cut, and never anything else.
 *
 *     struct dcps_keep keep = dcps_keep_memory(area);              DCPS_KEEP_BYTES of them; or of a file
 *     int result = dcps_keep_load(&keep, &state);
 *     if (result == DCPS_KEEP_NONE_WHOLE && keep.damaged == 0)     nothing was kept
 *         result = dcps_keep_start(&keep, &state);                 from the fresh state
 *     if (result != DCPS_KEEP_OK)                                  DCPS_KEEP_OTHER_PLACES: dcps_keep_places tells how many
 *         return puts(keep.error);
 *     if (dcps_state_call(&state, sheet, answer) == DCPS_ACCEPTED)
 *         dcps_keep_save(&keep, &state);
 *
 * A slot, 74,880 bytes: 0 the eight characters "dcpskeep", 8 sequence number u64, 16 checksum u64, 24 zeros, 64 head, 128
 * pens, 65664 writers, 70784 lost; numbers most significant byte first. The area is slot 0 and then slot 1; crate dcps of
 * Rust reads and writes the same. The checksum tells a cut write, not a malicious one.
 *
 * A state with places for 32 instances is kept by the functions with _lent in their names, as dcps_small_state_lent lends it:
 * its slots have 25,728 bytes, with writers at 16512 and lost at 21632, and its area DCPS_KEEP_SMALL_BYTES, which in memory
 * dcps_keep_memory_of is told. An area keeps states of one size, which any whole slot tells. */
#ifndef DCPS_KEEP_H
#define DCPS_KEEP_H

#include "dcps_inline.h"

#ifdef __cplusplus
extern "C" {
#endif

#define DCPS_KEEP_HEADER_BYTES 64
#define DCPS_KEEP_STATE_BYTES (DCPS_HEAD_BYTES + DCPS_PENS_BYTES + DCPS_WRITERS_BYTES + DCPS_LOST_BYTES)
#define DCPS_KEEP_SLOT_BYTES (DCPS_KEEP_HEADER_BYTES + DCPS_KEEP_STATE_BYTES)
#define DCPS_KEEP_BYTES (2 * DCPS_KEEP_SLOT_BYTES)
#define DCPS_KEEP_SMALL_BYTES (DCPS_KEEP_BYTES - 2 * (DCPS_PENS_BYTES - DCPS_SMALL_PENS_BYTES))

enum dcps_keep_result {
    DCPS_KEEP_OK = 0,
    DCPS_KEEP_NONE_WHOLE = 1,  /* loading: neither slot is whole; the state is then the fresh one */
    DCPS_KEEP_FAILED = 2,      /* the area could not be written or synced, or is too short for the state */
    DCPS_KEEP_OTHER_PLACES = 3 /* the area keeps states of another number of places; a state to be loaded is the fresh one */
};

/* Where the area is: each function answers 0, or another number where it failed. `sync` returns when what was written is
 * where it stays. */
struct dcps_keep {
    int (*read)(void *place, size_t at, uint8_t *bytes, size_t length);
    int (*write)(void *place, size_t at, const uint8_t *bytes, size_t length);
    int (*sync)(void *place);
    void *place;
    unsigned slot;     /* the slot of the newest whole state, 0 or 1 */
    uint64_t sequence; /* its number; 0 before the first save */
    unsigned damaged;  /* after loading: bit 0 slot 0, bit 1 slot 1 is damaged. A slot never written is not */
    const char *error; /* a sentence, where the latest function failed */
    size_t pens_bytes; /* of the states that are kept; 0 before a load or save told it */
    size_t area_bytes; /* nothing behind them is read or written; 0 stands for DCPS_KEEP_BYTES */
};

/* ---- the area, within its length */

static inline int dcps_keep_inside(const struct dcps_keep *keep, size_t at, size_t length)
{
    return at + length <= (keep->area_bytes != 0 ? keep->area_bytes : DCPS_KEEP_BYTES);
}

static inline int dcps_keep_read(const struct dcps_keep *keep, size_t at, uint8_t *bytes, size_t length)
{
    return dcps_keep_inside(keep, at, length) ? keep->read(keep->place, at, bytes, length) : 1;
}

static inline int dcps_keep_write(const struct dcps_keep *keep, size_t at, const uint8_t *bytes, size_t length)
{
    return dcps_keep_inside(keep, at, length) ? keep->write(keep->place, at, bytes, length) : 1;
}

/* ---- the slots */

/* What a slot has behind its header, in this order. */
struct dcps_keep_part {
    uint8_t *bytes;
    size_t length;
};

static inline void dcps_keep_parts(struct dcps_keep_part *parts, struct dcps_lent s)
{
    parts[0].bytes = s.head;
    parts[0].length = DCPS_HEAD_BYTES;
    parts[1].bytes = s.pens;
    parts[1].length = s.pens_bytes;
    parts[2].bytes = s.writers;
    parts[2].length = DCPS_WRITERS_BYTES;
    parts[3].bytes = s.lost;
    parts[3].length = DCPS_LOST_BYTES;
}

/* Where a slot begins; of slot 1 it is the length of a slot. */
static inline size_t dcps_keep_at(unsigned slot, size_t pens_bytes)
{
    return slot * (DCPS_KEEP_SLOT_BYTES - DCPS_PENS_BYTES + pens_bytes);
}

static inline uint64_t dcps_keep_fold(uint64_t sum, const uint8_t *bytes, size_t length)
{
    size_t at;
    for (at = 0; at < length; at += 8) {
        sum = (sum ^ dcps_get_u64(bytes + at)) * (((uint64_t)0x9e3779b9u << 32) | 0x7f4a7c15u);
        sum ^= sum >> 32;
    }
    return sum;
}

/* Of the sequence number and the state, so that a slot with the number of another is not whole. */
static inline uint64_t dcps_keep_sum(uint64_t sequence, struct dcps_lent s)
{
    struct dcps_keep_part parts[4];
    uint8_t number[8];
    uint64_t sum;
    unsigned i;
    dcps_put_u64(number, sequence);
    sum = dcps_keep_fold(0, number, sizeof number);
    dcps_keep_parts(parts, s);
    for (i = 0; i < 4; i++)
        sum = dcps_keep_fold(sum, parts[i].bytes, parts[i].length);
    return sum;
}

static inline int dcps_keep_written(const uint8_t *header)
{
    size_t byte, used = 0;
    for (byte = 0; byte < DCPS_KEEP_HEADER_BYTES; byte++)
        used += header[byte] != 0;
    return used != 0;
}

/* As a save writes it, whatever its checksum is of. */
static inline int dcps_keep_marked(const uint8_t *header)
{
    size_t byte, used = 0;
    for (byte = 24; byte < DCPS_KEEP_HEADER_BYTES; byte++)
        used += header[byte] != 0;
    return used == 0 && memcmp(header, "dcpskeep", 8) == 0 && dcps_get_u64(header + 8) != 0;
}

/* ---- the size of the states that are kept */

/* Whether the checksum of the slot fits the state behind its header: no state is at hand to read it to. */
static inline int dcps_keep_fits(const struct dcps_keep *keep, size_t at, const uint8_t *header, size_t pens_bytes)
{
    uint8_t some[512];
    size_t end = at + dcps_keep_at(1, pens_bytes), length;
    uint64_t sum = dcps_keep_fold(0, header + 8, 8);
    for (at += DCPS_KEEP_HEADER_BYTES; at < end; at += length) {
        length = end - at < sizeof some ? end - at : sizeof some;
        if (dcps_keep_read(keep, at, some, length) != 0)
            return 0;
        sum = dcps_keep_fold(sum, some, length);
    }
    return sum == dcps_get_u64(header + 16);
}

/* The pens of the slot that begins there, by its own head, carried over: only where it is whole at that length, since one
 * damaged bit makes 0, which is carried over to 128, of 32. 0 where it is not whole. */
static inline size_t dcps_keep_told(const struct dcps_keep *keep, size_t at)
{
    uint8_t header[DCPS_KEEP_HEADER_BYTES], head[DCPS_HEAD_BYTES];
    size_t pens_bytes;
    if (dcps_keep_read(keep, at, header, sizeof header) != 0 || !dcps_keep_marked(header) ||
        dcps_keep_read(keep, at + sizeof header, head, sizeof head) != 0)
        return 0;
    dcps_carry_head(head);
    pens_bytes = dcps_head_pens_bytes(head);
    return pens_bytes != 0 && dcps_keep_fits(keep, at, header, pens_bytes) ? pens_bytes : 0;
}

/* The pens of the states that the area keeps, by slot 0, or else by slot 1 of either size; 0 where none is whole. */
static inline size_t dcps_keep_kept(const struct dcps_keep *keep)
{
    static const size_t sizes[] = {DCPS_SMALL_PENS_BYTES, DCPS_PENS_BYTES};
    size_t kept = dcps_keep_told(keep, 0), i;
    for (i = 0; kept == 0 && i < 2; i++)
        if (dcps_keep_told(keep, dcps_keep_at(1, sizes[i])) == sizes[i])
            kept = sizes[i];
    return kept;
}

/* How many places the states have that the area keeps, 32 or 128; 0 where no slot is whole. */
static inline unsigned dcps_keep_places(const struct dcps_keep *keep)
{
    return (unsigned)(dcps_keep_kept(keep) / DCPS_INSTANCE_BYTES);
}

static inline int dcps_keep_fail(struct dcps_keep *keep, enum dcps_keep_result result, const char *error)
{
    keep->error = error;
    return result;
}

static inline int dcps_keep_other_places(struct dcps_keep *keep)
{
    return dcps_keep_fail(keep, DCPS_KEEP_OTHER_PLACES, "the area keeps states of another number of places");
}

/* ---- saving */

static inline int dcps_keep_write_state(const struct dcps_keep *keep, size_t at, struct dcps_lent s)
{
    struct dcps_keep_part parts[4];
    unsigned i;
    dcps_keep_parts(parts, s);
    for (i = 0; i < 4; at += parts[i++].length)
        if (dcps_keep_write(keep, at, parts[i].bytes, parts[i].length) != 0)
            return 1;
    return keep->sync(keep->place);
}

/* The state goes to the older slot; on a failure the newest whole one stays, and saving may be tried again. It has as many
 * places as the one that was loaded or started with. */
static inline int dcps_keep_save_lent(struct dcps_keep *keep, struct dcps_lent s)
{
    unsigned slot = keep->slot ^ 1u;
    size_t at = dcps_keep_at(slot, s.pens_bytes);
    uint8_t header[DCPS_KEEP_HEADER_BYTES];
    if (keep->pens_bytes != 0 && keep->pens_bytes != s.pens_bytes)
        return dcps_keep_other_places(keep);
    if (!dcps_keep_inside(keep, at, dcps_keep_at(1, s.pens_bytes)) ||
        dcps_keep_write_state(keep, at + DCPS_KEEP_HEADER_BYTES, s) != 0)
        return dcps_keep_fail(keep, DCPS_KEEP_FAILED, "the slot could not be written");
    memset(header, 0, sizeof header);
    memcpy(header, "dcpskeep", 8);
    dcps_put_u64(header + 8, keep->sequence + 1);
    dcps_put_u64(header + 16, dcps_keep_sum(keep->sequence + 1, s));
    if (dcps_keep_write(keep, at, header, sizeof header) != 0 || keep->sync(keep->place) != 0)
        return dcps_keep_fail(keep, DCPS_KEEP_FAILED, "the slot's header could not be written");
    keep->pens_bytes = s.pens_bytes;
    keep->slot = slot;
    keep->sequence += 1;
    return DCPS_KEEP_OK;
}

/* Slot 1 of either size becomes one that was never written, where it was, and then slot 0. */
static inline int dcps_keep_clear(const struct dcps_keep *keep)
{
    static const uint8_t zeros[DCPS_KEEP_HEADER_BYTES] = {0};
    static const size_t sizes[] = {DCPS_PENS_BYTES, DCPS_SMALL_PENS_BYTES};
    uint8_t header[DCPS_KEEP_HEADER_BYTES];
    size_t i;
    for (i = 0; i < 2; i++) {
        size_t at = dcps_keep_at(1, sizes[i]);
        if (!dcps_keep_inside(keep, at, sizeof header))
            continue;
        if (dcps_keep_read(keep, at, header, sizeof header) != 0 ||
            (dcps_keep_written(header) && dcps_keep_write(keep, at, zeros, sizeof zeros) != 0))
            return 1;
    }
    return dcps_keep_write(keep, 0, zeros, sizeof zeros) != 0 || keep->sync(keep->place) != 0;
}

/* A new area, or one to be given up, also one of another number of places: no slot of either size stays whole, and the state
 * is saved. */
static inline int dcps_keep_start_lent(struct dcps_keep *keep, struct dcps_lent s)
{
    if (!dcps_keep_inside(keep, 0, 2 * dcps_keep_at(1, s.pens_bytes)) || dcps_keep_clear(keep) != 0)
        return dcps_keep_fail(keep, DCPS_KEEP_FAILED, "the area could not be written, or is too short");
    keep->pens_bytes = 0;
    keep->slot = 1;
    keep->sequence = 0;
    keep->damaged = 0;
    return dcps_keep_save_lent(keep, s);
}

/* ---- loading */

static inline int dcps_keep_read_state(const struct dcps_keep *keep, size_t at, struct dcps_lent s)
{
    struct dcps_keep_part parts[4];
    unsigned i;
    dcps_keep_parts(parts, s);
    for (i = 0; i < 4; at += parts[i++].length)
        if (dcps_keep_read(keep, at, parts[i].bytes, parts[i].length) != 0)
            return 1;
    return 0;
}

/* Whether a library takes the state: a call on handle 0 judges it and changes nothing. A head from before heads had the number
 * of places is carried over. */
static inline int dcps_keep_well_formed(struct dcps_lent s)
{
    uint8_t sheet[DCPS_SHEET_BYTES], answer[DCPS_ANSWER_BYTES];
    dcps_carry_head(s.head);
    dcps_sheet_mark_view_seen(sheet, 0);
    return dcps_lent_call(s, sheet, answer) == DCPS_ACCEPTED;
}

/* Loads the slot where it is whole: 1 and its number. `empty` is 1 where it was never written. */
static inline int dcps_keep_try(struct dcps_keep *keep, unsigned slot, struct dcps_lent s, uint64_t *sequence, int *empty)
{
    uint8_t header[DCPS_KEEP_HEADER_BYTES];
    size_t at = dcps_keep_at(slot, s.pens_bytes);
    *sequence = 0;
    *empty = 0;
    if (dcps_keep_read(keep, at, header, sizeof header) != 0)
        return 0;
    *empty = !dcps_keep_written(header);
    *sequence = dcps_get_u64(header + 8);
    return dcps_keep_marked(header) && dcps_keep_read_state(keep, at + DCPS_KEEP_HEADER_BYTES, s) == 0 &&
           dcps_get_u64(header + 16) == dcps_keep_sum(*sequence, s) && dcps_keep_well_formed(s);
}

/* The newest slot that is whole; `damaged` tells which is not. The state's out is not kept. */
static inline int dcps_keep_load_lent(struct dcps_keep *keep, struct dcps_lent s)
{
    uint64_t sequence[2];
    int whole[2], empty[2];
    unsigned slot;
    size_t kept = dcps_keep_kept(keep);
    keep->damaged = 0;
    if (kept != 0 && kept != s.pens_bytes) {
        keep->pens_bytes = kept; /* so that a save of this size is refused too */
        dcps_lent_fresh(s);
        return dcps_keep_other_places(keep);
    }
    for (slot = 0; slot < 2; slot++) {
        whole[slot] = dcps_keep_try(keep, slot, s, &sequence[slot], &empty[slot]);
        if (!whole[slot] && !empty[slot])
            keep->damaged |= 1u << slot;
    }
    slot = whole[1] && (!whole[0] || sequence[1] > sequence[0]);
    /* slot 1 was read last; slot 0 is read once more where it is the newest */
    if ((!whole[0] && !whole[1]) || (slot == 0 && !dcps_keep_try(keep, 0, s, &sequence[0], &empty[0]))) {
        dcps_lent_fresh(s);
        return dcps_keep_fail(keep, DCPS_KEEP_NONE_WHOLE, "neither slot is whole: start from a fresh state or from a copy");
    }
    keep->pens_bytes = s.pens_bytes;
    keep->slot = slot;
    keep->sequence = sequence[slot];
    return DCPS_KEEP_OK;
}

/* ---- the same of a state with places for 128 instances */

static inline int dcps_keep_save(struct dcps_keep *keep, const struct dcps_state *s)
{
    return dcps_keep_save_lent(keep, dcps_state_lent((struct dcps_state *)s)); /* it is only read */
}

static inline int dcps_keep_start(struct dcps_keep *keep, const struct dcps_state *s)
{
    return dcps_keep_start_lent(keep, dcps_state_lent((struct dcps_state *)s));
}

static inline int dcps_keep_load(struct dcps_keep *keep, struct dcps_state *s)
{
    return dcps_keep_load_lent(keep, dcps_state_lent(s));
}

/* ---- an area in memory: shared, mapped or battery-backed. Syncing it is the caller's, where it needs more than a store */

static inline int dcps_keep_memory_read(void *place, size_t at, uint8_t *bytes, size_t length)
{
    memcpy(bytes, (const uint8_t *)place + at, length);
    return 0;
}

static inline int dcps_keep_memory_write(void *place, size_t at, const uint8_t *bytes, size_t length)
{
    memcpy((uint8_t *)place + at, bytes, length);
    return 0;
}

static inline int dcps_keep_memory_sync(void *place)
{
    (void)place;
#if defined(__GNUC__)
    __sync_synchronize();
#endif
    return 0;
}

/* Of so many bytes: DCPS_KEEP_BYTES, or DCPS_KEEP_SMALL_BYTES for states with places for 32 instances. */
static inline struct dcps_keep dcps_keep_memory_of(uint8_t *area, size_t area_bytes)
{
    struct dcps_keep keep;
    memset(&keep, 0, sizeof keep);
    keep.read = dcps_keep_memory_read;
    keep.write = dcps_keep_memory_write;
    keep.sync = dcps_keep_memory_sync;
    keep.place = area;
    keep.area_bytes = area_bytes;
    keep.slot = 1;
    return keep;
}

static inline struct dcps_keep dcps_keep_memory(uint8_t *area)
{
    return dcps_keep_memory_of(area, DCPS_KEEP_BYTES);
}

/* ---- an area in a file, where POSIX is asked for (-D_POSIX_C_SOURCE=200809L with -std=c99) */

#if defined(_POSIX_C_SOURCE) && _POSIX_C_SOURCE >= 200809L
#include <unistd.h>

static inline int dcps_keep_file_read(void *place, size_t at, uint8_t *bytes, size_t length)
{
    while (length > 0) {
        ssize_t done = pread(*(const int *)place, bytes, length, (off_t)at);
        if (done < 0)
            return 1;
        if (done == 0) { /* behind the end: zeros, as of a slot never written */
            memset(bytes, 0, length);
            return 0;
        }
        bytes += done;
        at += (size_t)done;
        length -= (size_t)done;
    }
    return 0;
}

static inline int dcps_keep_file_write(void *place, size_t at, const uint8_t *bytes, size_t length)
{
    while (length > 0) {
        ssize_t done = pwrite(*(const int *)place, bytes, length, (off_t)at);
        if (done <= 0)
            return 1;
        bytes += done;
        at += (size_t)done;
        length -= (size_t)done;
    }
    return 0;
}

static inline int dcps_keep_file_sync(void *place)
{
    return fsync(*(const int *)place);
}

/* Over a file that is open to read and write; `fd` has to outlive the keeper. */
static inline struct dcps_keep dcps_keep_file(int *fd)
{
    struct dcps_keep keep = dcps_keep_memory(NULL);
    keep.read = dcps_keep_file_read;
    keep.write = dcps_keep_file_write;
    keep.sync = dcps_keep_file_sync;
    keep.place = fd;
    return keep;
}
#endif

#ifdef __cplusplus
}
#endif

#endif
