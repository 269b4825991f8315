/* SPDX-License-Identifier: Apache-2.0
 *
 * Two trackers for a DDS reader. One knows the instances of a topic, and whether each still has a writer. The other knows the
 * writers, and whether each is alive. This header is all that a caller needs; include/dcps_inline.h adds functions that fill
 * in sheets and read answers and records.
 *
 *     uint8_t head[DCPS_HEAD_BYTES], pens[DCPS_PENS_BYTES], writers[DCPS_WRITERS_BYTES], lost[DCPS_LOST_BYTES];
 *     uint8_t sheet[DCPS_SHEET_BYTES] = {0}, out[DCPS_OUT_BYTES], answer[DCPS_ANSWER_BYTES];
 *     dcps_fresh(head, sizeof head, pens, sizeof pens, writers, sizeof writers, lost, sizeof lost);
 *     sheet[DCPS_SHEET_CODE] = DCPS_CODE_REGISTER;    the key is 16 zeros here, the holder is empty
 *     dcps_call(head, sizeof head, sheet, sizeof sheet, pens, sizeof pens, writers, sizeof writers, lost, sizeof lost,
 *               out, sizeof out, answer, sizeof answer);    0, and the handle is in answer + DCPS_ANSWER_HANDLE
 *
 * How it works
 *     The caller owns all state. The state of one reader is a head and three buffers: pens, writers and lost. Make it once
 *     with dcps_fresh, then pass it to every call. It has places for 128 instances, or for 32 if pens has
 *     DCPS_SMALL_PENS_BYTES. dcps_fresh writes that number to the head, and no call changes it.
 *     To make a call, fill in a sheet of 256 bytes: it says which call to make, and with what. The call changes the state in
 *     place and writes its answer to answer. If the call has a list, it writes the list to the front of out; the rest of out
 *     keeps its bytes.
 *     An instance ("pen") is one keyed object of a topic. It is named by a key of 16 bytes, which dcps_key_hash makes from a
 *     serialized key of up to 4,096 bytes. The library gives each new instance a handle: 1, 2, 3 and so on. No handle is given
 *     twice. A writer is named by its GUID of 16 bytes. The first 12 bytes are the prefix, which names its participant.
 *
 * Words
 *     set         the writers of an instance, at most 16
 *     owner       the writer whose samples an instance takes, where ownership is exclusive
 *     holder      the bytes that a key was made from, stored so that they can be shown
 *     new         the reader has not seen the instance since it came, or since it came back
 *     generation  how often an instance came back after it was disposed, or after its last writer left
 *     abandoned   an instance of kind DCPS_NO_WRITERS: the last writer of its set left, or unregister counted the last one off
 *     asserted    a writer has shown that it is alive; its lease is how long that lasts
 *     count       in "yes: a count changed": alive or not alive of the head
 *     departed    a writer that was lost together with its participant
 *
 * Which call for which event
 *     a writer is discovered         matched; an automatic writer is alive at once, any other when it is asserted
 *     a writer is deleted            part; depart, if it is lost with its participant
 *     a sample arrives               writer_asserted first, because a sample shows that its writer is alive, and admit does
 *                                    not record that. Then admit, with the key that came with the sample, or else the key
 *                                    from dcps_key_hash. Then note_writer, if the outcome is 1, 2 or 4 and the instance is
 *                                    alive. If it has no writers, and must not be shown so while this one writes it:
 *                                    ensure_registered_limited, then note_writer
 *     a participant is heard from    participant_asserted
 *     a writer disposes an instance  under exclusive ownership accept_under_exclusive_ownership first; stop if it says no. Then
 *                                    observe_lifecycle, which answers the handle and counts 1 sample; then dispose
 *     a writer unregisters one       unregister_writer, then release_owner_of; neither of them, if the key is unknown
 *     you want a writer's instance   dcps_writer_lookup: the first alive one in the order of the keys
 *     time passes                    lapse, at fixed intervals, or at the time that its last answer has as next due. Matched
 *                                    and assertions can make that time earlier, and do not answer it: call lapse after a
 *                                    matched too. take_lost before lost has 256 entries; autopurge, to remove instances
 *                                    that are not alive
 *     samples are taken or seen      note_taken, mark_view_seen
 *     the status is asked for        take_status, or dcps_status
 *     The other calls are parts of these, for callers that decide more by themselves. docs/INTEGRATION.md (in the package
 *     share/doc/dcps) has recipes for a DDS reader: shared topics, owners, samples that are turned away, leases, crashes,
 *     keys, stamps.
 *
 * What is promised
 *     You can pass any bytes of any length to every function. It returns 0, or a number of enum dcps_refusal if it refuses.
 *     That number is also byte 0 of the answer. On a refusal the answer gets the number and zeros, and nothing else is
 *     written. If the length of the answer is wrong, nothing at all is written.
 *     A wrong length is refused as 1, with three exceptions. The length of a serialized key is judged by 15 and 14. A head of
 *     64 bytes whose number of places is neither 32 nor 128 is refused as 3 before any other length is looked at. And
 *     dcps_holder_in_force refuses no pens: it then answers that nothing is stored. Pens has to have 512 bytes for each place
 *     of the head.
 *     A function writes only within the lengths that it is given, and it always returns. What it writes is what the
 *     definitions say: crates/model/specs of the source; for keys crates/key_hash/specs and crates/md5_digest/specs; for wire
 *     time crates/wire_time/specs. This is proved for the source, not for the compiler that made the library. dcps_fresh has
 *     no answer, only its number. dcps_version takes nothing, and what it returns is no refusal.
 *
 * What is not covered
 *     A null pointer, even with length 0. A pointer to fewer bytes than its length says. Two pointers of one call whose bytes
 *     overlap, unless both are const. For instance, DCPS_CODE_TAKE_LOST writes GUIDs to out. Copy them before you pass them as
 *     `gone` to dcps_left_writerless with the same out. dcps_would_leave_writerless has no out, and can read them in place.
 *
 * Threads
 *     The library keeps nothing between calls: no globals, no thread-locals, no heap, no locks, no system calls. Calls on
 *     different states can run at the same time in any threads. Calls on the same state need a lock of yours, because a call
 *     writes the state; only reads can run at the same time. Every function is reentrant and calls nobody back. It can run in
 *     a signal handler, if no other call is using the same state at that moment.
 *
 * A call is not atomic
 *     If a process ends in the middle of a call, the state is half written. Some half-written states are well formed and still
 *     wrong. If you persist the state (in a file, in shared memory, in battery-backed memory), make each call on a copy, and
 *     switch to the copy after the answer. examples/c/dcps_keep.h (in the package share/dcps/examples) does that with two
 *     slots.
 *     After a restart the clock has to go on from where the stored state's clock was. If it starts again at 0, assertions come
 *     too early to count. And nobody was heard while you were down: call writer_asserted for each writer that is alive in
 *     the state before the first lapse, unless its lease is to count through.
 *
 * Alignment: no pointer needs any.
 * Byte order: numbers in the head, the sheet, the buffers, out and answers have their most significant byte first. Bits are
 *     counted the same way: bit 7 of a byte is the first. Signed numbers are in two's complement. You can move a state between
 *     machines as it is.
 * Stack: dcps_call needs less than 16 KiB below its caller's frame (DCPS_STACK_BYTES). dcps_wire_fraction has a table and
 *     needs less than 8 KiB. Every other function needs less than 4 KiB. This is measured, not proved: examples/c/stack.c of
 *     the source fills a thread's stack with a pattern, makes every call on empty and on full states, hashes keys of many
 *     lengths, converts stamps, and looks how much of the pattern is gone.
 * Platform: Linux on x86-64, aarch64 and riscv64, ELF, position-independent. The only symbols taken from elsewhere are memcpy,
 *     memmove and memset. The archive links into executables and shared objects, C, C++ and Rust. INTEGRATION.md, "Platforms",
 *     says what is proved and what is tested of each.
 * Times: a time is i32 seconds and u32 nanoseconds (below 10^9), from any epoch. Its value is seconds * 10^9 + nanoseconds. All
 *     calls and reads compare times by this value. A time before the epoch is negative: round the seconds down, and add the
 *     nanoseconds to them. So half a second before the epoch is (-1, 500000000), and one nanosecond before it is
 *     (-1, 999999999).
 *     Clocks and leases are u64 nanoseconds (below 2^62), of any clock that never goes back. They are never negative. Times
 *     and clocks need not agree. The library reads no clock.
 *     A stamp of RTPS has a 32-bit fraction of a second in the place of nanoseconds. dcps_wire_fraction makes the fraction from
 *     nanoseconds. dcps_wire_nanos makes nanoseconds from the fraction; pass it DCPS_REMAINDER_UNKNOWN if the stamp came over
 *     the wire.
 */
#ifndef DCPS_H
#define DCPS_H

#include <stddef.h>
#include <stdint.h>

#if defined(__SIZEOF_SIZE_T__) && __SIZEOF_SIZE_T__ != 8
#error "dcps: size_t has to have 64 bits, because the library takes 64-bit lengths; see Platforms in INTEGRATION.md"
#endif
#if defined(__BYTE_ORDER__) && __BYTE_ORDER__ != __ORDER_LITTLE_ENDIAN__
#error "dcps: the machine has to be little-endian, because the library is proved for such machines; see Platforms in INTEGRATION.md"
#endif

#ifdef __cplusplus
extern "C" {
#endif

/* ---- the version of this header; dcps_version() is that of the library
 *
 * What a number promises, as major.minor.patch:
 *     patch  Every call and every read answers the same bytes as before, and all layouts stay. A flaw that is mended is the one
 *            exception, and CHANGELOG.md names it.
 *     minor  While major is 0, a new minor number may change calls, answers, lengths and the layout of a state. From 1.0.0 on
 *            it only adds: what worked before works as before.
 *     major  From 1.0.0 on, only a new major number may change what worked before.
 * CHANGELOG.md says for each version what a caller has to change. While major is 0, use a header and a library whose major
 * and minor numbers are equal.
 *
 * Stored states: a state has no version number in it. If a version changes the layout of a state, it refuses every state of
 * the older layout as 3, and CHANGELOG.md says how to convert it. A stored state is never read as if it had another layout.
 * So pass a stored state to acknowledge with 0 and 0, which changes nothing: if it is not refused as 3, it needs no
 * conversion. The last change was in 0.3.0, in the head ("the head" below). */

#define DCPS_VERSION "0.3.0"
#define DCPS_VERSION_MAJOR 0
#define DCPS_VERSION_MINOR 3
#define DCPS_VERSION_PATCH 0
#define DCPS_VERSION_NUMBER (DCPS_VERSION_MAJOR * 65536u + DCPS_VERSION_MINOR * 256u + DCPS_VERSION_PATCH)

/* ---- lengths, in bytes */

#define DCPS_HEAD_BYTES 64
#define DCPS_SHEET_BYTES 256
#define DCPS_PENS_BYTES 65536   /* 128 records of 512 */
#define DCPS_SMALL_PENS_BYTES 16384 /* 32 records of 512; the other lengths are the same */
#define DCPS_WRITERS_BYTES 5120 /* 128 records of 40 */
#define DCPS_LOST_BYTES 4096    /* 256 GUIDs */
#define DCPS_OUT_BYTES 4096
#define DCPS_ANSWER_BYTES 72 /* of dcps_call and dcps_status */
#define DCPS_READ_BYTES 24   /* of every other function that answers */

#define DCPS_INSTANCE_BYTES 512
#define DCPS_WRITER_BYTES 40
#define DCPS_KEY_BYTES 16
#define DCPS_GUID_BYTES 16
#define DCPS_PREFIX_BYTES 12
#define DCPS_HANDLE_BYTES 8
#define DCPS_GONE_BYTES 4096 /* the longest list of GUIDs that a read takes */
#define DCPS_KEY_LARGEST_BYTES 4096 /* the greatest value of `largest` in dcps_key_hash */

#define DCPS_INSTANCE_PLACES 128      /* in DCPS_PENS_BYTES */
#define DCPS_SMALL_INSTANCE_PLACES 32 /* in DCPS_SMALL_PENS_BYTES */
#define DCPS_WRITER_PLACES 128
#define DCPS_LOST_PLACES 256
#define DCPS_SET_PLACES 16     /* writers in an instance's set */
#define DCPS_HOLDER_PLACES 144 /* bytes of a holder */

#define DCPS_STACK_BYTES 16384

/* ---- numbers: 0 accepted, else why it is refused; where several would do, the one that is tested first. Each function says
 * in which order:
 *
 *     number   tested after
 *     1        nothing: the head's length first; then its number of places, as 3; then the other lengths
 *     2        1
 *     3        1 and 2, but for the head's number of places
 *     4 to 13  all lower ones
 *     14       15
 *     15       1 */

enum dcps_refusal {
    DCPS_ACCEPTED = 0,
    DCPS_REFUSED_LENGTH = 1,      /* a length is not the stated one */
    DCPS_REFUSED_CODE = 2,        /* no call has this code */
    DCPS_REFUSED_STATE = 3,       /* the state is not well formed: "the head" and the records below say what that is */
    DCPS_REFUSED_NANOSECONDS = 4, /* nanoseconds of 10^9 or more, in a time that the call uses or in dcps_wire_fraction */
    DCPS_REFUSED_CLOCK = 5,       /* a clock or lease that the call uses is 2^62 or more */
    DCPS_REFUSED_HOLDER = 6,      /* a holder that the call uses is longer than 144 bytes */
    DCPS_REFUSED_KIND = 7,        /* matched with kind 3 */
    DCPS_REFUSED_ACKNOWLEDGE = 8, /* a count less its change would then be below -2^30 or above 2^30 */
    DCPS_REFUSED_INSTANCES = 9,   /* the instance is new, and all places are taken: 32 or 128, as the head says */
    DCPS_REFUSED_SET = 10,        /* the writer is new to the instance, and the instance's set has 16: remember it yourself */
    DCPS_REFUSED_WRITERS = 11,    /* the GUID is new, and there are 128 writer records, departed ones included: see code 34 */
    DCPS_REFUSED_LOST = 12,       /* more writers expire than there is room for in lost: call take_lost first */
    DCPS_REFUSED_HANDLES = 13,    /* the instance is new, and the next handle is 2^63 */
    DCPS_REFUSED_KEY_LENGTH = 14, /* the serialized key is longer than the stated largest size */
    DCPS_REFUSED_LARGEST_SIZE = 15 /* the stated largest size is above 4096; tested before 14 */
};

/* ---- what an instance, a writer and an admitted sample can be */

/* The kind of an instance. */
enum dcps_kind { DCPS_ALIVE = 0, DCPS_DISPOSED = 1, DCPS_NO_WRITERS = 2 };

/* The kind of a writer: what asserts it. */
enum dcps_liveliness {
    DCPS_AUTOMATIC = 0,      /* every assertion of its participant, and of every writer with its prefix */
    DCPS_BY_PARTICIPANT = 1, /* a manual assertion of its participant, and writer_asserted of every writer with its prefix */
    DCPS_BY_TOPIC = 2        /* only writer_asserted with its own GUID */
};

/* The state of a writer. */
enum dcps_standing {
    DCPS_WRITER_UNASSERTED = 0, /* matched, and not asserted yet; counts neither as alive nor as not alive */
    DCPS_WRITER_ALIVE = 1,      /* asserted, and no expire or lapse has found its lease run out since */
    DCPS_WRITER_NOT_ALIVE = 2,  /* its lease ran out; or it was departed, is matched again, and is not asserted since */
    DCPS_WRITER_DEPARTED = 3    /* lost with its participant, and not matched since; counts as not alive */
};

/* What DCPS_CODE_ADMIT did with a sample. Outcomes 1 to 4 change nothing, and their answers have no other field.
 * After outcomes 1, 2 and 4 the writer is not recorded: if it is not in the instance's set yet, it does not join it. So call
 * note_writer for it while the instance is alive (dcps_instance_by_key of dcps_inline.h finds the handle). Otherwise, when the
 * recorded writers leave, the instance is shown without writers, although this one still writes it. */
enum dcps_outcome {
    DCPS_ADMITTED = 0,
    DCPS_OUT_OF_ORDER = 1, /* the order is by source, and time 1 is not later than last delivered */
    DCPS_FILTERED = 2,     /* time 2 is less than the separation after the last time of the filter. A sample whose time 2 is
                            * before that last time is let in */
    DCPS_AT_LIMIT = 3,     /* the instance is new, and there are as many instances as the limit, or more */
    DCPS_NOT_OWNER = 4     /* another writer owns the instance, and this one does not take over */
};

/* View states, as a mask for dcps_would_leave_writerless and dcps_left_writerless. */
enum dcps_view { DCPS_VIEW_NEW = 1, DCPS_VIEW_NOT_NEW = 2, DCPS_VIEW_ANY = 3 };

/* ---- the sheet: what a call is told, 256 bytes
 *
 * Each call says which fields it uses (enum dcps_code). It uses a field in brackets only if the field's presence bit is set.
 * It ignores the rest of the sheet, whatever that holds. */

#define DCPS_SHEET_KEY 0     /* 16: the instance */
#define DCPS_SHEET_GUID 16   /* 16: the writer; a prefix is its first 12 */
#define DCPS_SHEET_HANDLE 32 /* u64: the instance, where a call goes by handle */
#define DCPS_SHEET_TIME_1 40 /* i32 seconds, u32 nanoseconds ("Times" above): when the sample was written, by its source. In
                              * calls that take writers out: now */
#define DCPS_SHEET_TIME_2 48 /* i32 seconds, u32 nanoseconds: now, also for the filter */
#define DCPS_SHEET_A 56      /* u64 nanoseconds: separation, disposed delay or clock */
#define DCPS_SHEET_B 64      /* u64 nanoseconds: deadline, no-writers delay or lease */
#define DCPS_SHEET_LIMIT 72  /* i32: the greatest number of instances. Negative: no limit. 0, as in a sheet of zeros: no new
                              * instance is let in. In acknowledge: what to take off alive change */
#define DCPS_SHEET_STRENGTH 76 /* i32: the writer's strength. In acknowledge: what to take off not alive change. In note_taken
                                * and drain_samples: n, a u32 */
#define DCPS_SHEET_BITS 80   /* u8: the bits below */
#define DCPS_SHEET_CODE 81   /* u8: enum dcps_code */
#define DCPS_SHEET_HOLDER_LENGTH 82 /* u16 */
#define DCPS_SHEET_HOLDER 84 /* up to 144: the bytes from which the key was made */

/* Of the byte at DCPS_SHEET_BITS. */
#define DCPS_BIT_TIME_1 0x80    /* time 1 is present */
#define DCPS_BIT_DEADLINE 0x40  /* B is a deadline; without it there is none */
#define DCPS_BIT_LEASE 0x20     /* B is a lease; without it the lease is infinite */
#define DCPS_BIT_HOLDER 0x10    /* the holder is present */
#define DCPS_BIT_MANUAL 0x08    /* a manual assertion */
#define DCPS_BIT_BY_SOURCE 0x04 /* destination order by source time */
#define DCPS_BITS_KIND 0x03     /* enum dcps_liveliness, of matched */

/* A delay of autopurge with this value never runs out. */
#define DCPS_NEVER (~(uint64_t)0)

/* ---- the calls
 *
 * At each code: what the call does, and then
 *     Uses     the fields of the sheet; [x] is used only if its presence bit is set
 *     Answers  the fields of the answer that it fills; all others are 0, except number, which is always there
 *     Out      what it writes to out
 *     Refused  the numbers that it can return beside 1, 2 and 3
 * "present, handle" means: present is 1 and handle is the instance's; if there is none, both are 0.
 *
 * To start an instance: its key is unknown, and it gets a record and a handle. It is then alive and new to the reader, and all
 * its other fields are 0 or absent.
 * To revive an instance: it is not alive, and becomes alive. Its disposed generations go up by 1 if it was disposed, and its
 * no-writers generations if it had no writers.
 * A call with an unknown key or handle changes nothing, unless it says that it starts the instance. */

enum dcps_code {
    /* register: starts or revives the instance, and adds 1 to writer_count. The holder replaces the stored one; an empty one
     * does so too, and is then stored. A revived instance does not become new to the reader.
     * Uses: key, holder, [time 1: last sample]. Answers: present (1), handle. Refused: 4, 6, 9, 13. */
    DCPS_CODE_REGISTER = 1,

    /* ensure_registered_limited: starts or revives the instance; a revived one becomes new to the reader. A writer_count of 0
     * becomes 1. If the key is unknown and there are as many instances as the limit, or more, the call changes nothing and
     * answers none. That is tested before 9 and 13.
     * Uses: key, limit. Answers: present, handle. Refused: 9, 13. */
    DCPS_CODE_ENSURE_REGISTERED_LIMITED = 2,

    /* dispose: the instance becomes disposed. The call does not ask who owns it, and the owner stays. So the owner still turns
     * weaker writers away (outcome 4), and their samples do not revive the instance.
     * Uses: handle, [time 1: last sample, disposed_at]. Answers: yes: the handle is known. Refused: 4. */
    DCPS_CODE_DISPOSE = 3,

    /* unregister: takes 1 off writer_count, which stops at 0. If it is then 0 and the instance is not disposed, the instance
     * becomes one without writers. The set stays as it is. Use this call only where register was called. An instance that
     * admit started has a writer_count of 0, so it would have no writers at once, and still a set: call unregister_writer.
     * Uses: handle, [time 1: last sample; also no_writers_at, if writer_count is then 0 and it is not disposed]. Answers: yes:
     * the handle is known. Refused: 4. */
    DCPS_CODE_UNREGISTER = 4,

    /* unregister_writer: the writer leaves the instance's set. If the instance is alive and its set is then empty, it becomes
     * one without writers. That is so even if the set was empty before. The owner stays, and still turns weaker writers away:
     * call release_owner_of too.
     * Uses: handle, guid, [time 1: last sample, and no_writers_at if it becomes one without writers]. Answers: yes: the
     * handle is known. Refused: 4. */
    DCPS_CODE_UNREGISTER_WRITER = 5,

    /* note_writer: the writer joins the instance's set, even if the instance is not alive. It revives nothing.
     * Uses: handle, guid. Answers: nothing. Refused: 10. */
    DCPS_CODE_NOTE_WRITER = 6,

    /* drop_writer: the writer leaves the sets of all instances. An alive instance whose last writer it was becomes one without
     * writers.
     * Uses: guid, [time 1: now, stored as last sample and no_writers_at of these]. Answers: listed.
     * Out: their handles, u64 each, in the order of the keys. Refused: 4. */
    DCPS_CODE_DROP_WRITER = 7,

    /* observe_lifecycle: for a dispose or unregister marker. Starts the instance if the key is unknown, and counts 1 sample.
     * It revives nothing.
     * Uses: key, [holder: replaced], [time 1: last sample]. Answers: present (1), handle. Refused: 4, 6, 9, 13. */
    DCPS_CODE_OBSERVE_LIFECYCLE = 8,

    /* observe_admitted: starts or revives the instance (a revived one becomes new to the reader), and counts 1 sample. If no
     * holder is stored, it stores this one, even an empty one; only register and observe_lifecycle replace it later. Where
     * the limit is reached: as ensure_registered_limited.
     * Uses: key, holder, time 1 (last sample), limit. Answers: present, handle, samples. Refused: 4, 6, 9, 13. */
    DCPS_CODE_OBSERVE_ADMITTED = 9,

    /* note_admitted: time 1 becomes last delivered, time 2 becomes the last time of the filter, and the writer joins the set.
     * Uses: key, guid, time 1, time 2. Answers: present: the key is known; then view new, kind, disposed generations,
     * no-writers generations. Refused: 4, 10. */
    DCPS_CODE_NOTE_ADMITTED = 10,

    /* record_delivery: time 1 becomes last delivered and the last time of the filter. Uses: key, time 1. Answers: nothing.
     * Refused: 4. */
    DCPS_CODE_RECORD_DELIVERY = 11,

    /* note_taken: n samples fewer, but not below 0. The instance is no longer new to the reader.
     * Uses: handle, n. Answers: nothing. */
    DCPS_CODE_NOTE_TAKEN = 12,

    /* mark_view_seen: the instance is no longer new to the reader. Uses: handle. Answers: nothing. */
    DCPS_CODE_MARK_VIEW_SEEN = 13,

    /* mark_view_new: the instance is new to the reader again. Uses: key. Answers: yes: the key is known. */
    DCPS_CODE_MARK_VIEW_NEW = 14,

    /* drain_samples: n samples fewer, but not below 0. Uses: handle, n. Answers: nothing. */
    DCPS_CODE_DRAIN_SAMPLES = 15,

    /* accept_under_exclusive_ownership: may this writer write the instance? Yes, if
     *   - the key is unknown (nothing is stored then: only admit gives a new instance an owner), or
     *   - the instance has no owner, or the writer is its owner, or
     *   - the writer's strength is greater than the owner's, or it is equal and the writer's GUID is lower, or
     *   - a deadline is present, and the owner's last accepted sample is that long or longer before time 2.
     * On yes the writer owns the known instance, at this strength, from time 2 on. On no nothing changes. With a deadline of 0
     * every writer takes over, as a SHARED topic needs it, unless time 2 is earlier than that sample.
     * Uses: key, guid, strength, time 2 (now), [B: deadline]. Answers: yes. Refused: 4. */
    DCPS_CODE_ACCEPT_UNDER_EXCLUSIVE_OWNERSHIP = 16,

    /* update_owner_strength: sets the owner's strength in every instance that the writer owns.
     * Uses: guid, strength. Answers: nothing. */
    DCPS_CODE_UPDATE_OWNER_STRENGTH = 17,

    /* clear_owner_for_writer: every instance that the writer owns loses its owner. Uses: guid. Answers: count: how many. */
    DCPS_CODE_CLEAR_OWNER_FOR_WRITER = 18,

    /* clear_owner_for_writer_prefix: every instance whose owner has this prefix loses its owner.
     * Uses: guid, its first 12 bytes. Answers: count: how many. */
    DCPS_CODE_CLEAR_OWNER_FOR_WRITER_PREFIX = 19,

    /* release_owner_of: if the writer owns the instance, the instance loses its owner.
     * Uses: key, guid. Answers: yes: the writer owned it. */
    DCPS_CODE_RELEASE_OWNER_OF = 20,

    /* autopurge: removes a disposed instance if its disposed_at is A or more before time 2, and an instance without writers
     * if its no_writers_at is B or more before time 2. A delay of DCPS_NEVER removes nothing. If the instance's time is later
     * than time 2, the gap counts as 0: a delay of 0 removes the instance, and no other delay does. An instance without that
     * time is never removed. If it was disposed again (or left again) without a time 1, its older time stays and counts.
     * Samples that are not taken yet do not hold an instance back.
     * Uses: time 2 (now), A, B. Answers: count: how many. Refused: 4. */
    DCPS_CODE_AUTOPURGE = 21,

    /* matched: the writer takes this kind and this lease. What else becomes of it:
     *   - a new writer becomes unasserted, with the clock as its last assertion;
     *   - a departed writer comes back not alive, with a last assertion of 0;
     *   - any other writer keeps its state and its last assertion.
     * If the kind is automatic and the writer was new or departed, the call then does the same as participant_asserted, not
     * manual, for the writer's prefix. So a new automatic writer is alive at once, and a departed one too if the clock is
     * not 0.
     * Uses: guid, kind, [B: lease], A (clock). Answers: yes: a count changed. Refused: 5, 7, 11. */
    DCPS_CODE_MATCHED = 32,

    /* unmatched: removes the writer's record, unless it is departed. Uses: guid. Answers: yes: a count changed. */
    DCPS_CODE_UNMATCHED = 33,

    /* lost_with_participant: removes the record of an unasserted writer. An alive or not alive writer becomes departed. A
     * departed record keeps its place, and counts as not alive, at least until its GUID is matched again. To free the place,
     * when you have reported the loss, call matched with a kind that is not automatic, and then unmatched.
     * Uses: guid. Answers: yes: a count changed. */
    DCPS_CODE_LOST_WITH_PARTICIPANT = 34,

    /* writer_asserted: asserts, at the clock, the writer of this GUID, and of the same prefix all automatic and all
     * by-participant writers. An asserted writer becomes alive, and the clock becomes its last assertion,
     *   - if it is unasserted or alive, and its last assertion is not later than the clock; or
     *   - if it is not alive, and its last assertion is earlier than the clock.
     * Otherwise nothing changes for it; a departed writer never changes. If several writers move a count, the head's last
     * writer is the one with the greatest GUID, which need not be the one of this call.
     * Uses: guid, A (clock). Answers: yes: a count changed. Refused: 5. */
    DCPS_CODE_WRITER_ASSERTED = 35,

    /* participant_asserted: asserts, by the rule of writer_asserted, all automatic writers of the prefix and, if the manual bit
     * is set, all its by-participant writers too. It asserts no by-topic writer.
     * Uses: guid, its first 12 bytes; manual, A (clock). Answers: yes: a count changed. Refused: 5. */
    DCPS_CODE_PARTICIPANT_ASSERTED = 36,

    /* expire: an alive writer with a lease becomes not alive, if its last assertion is the lease or more before the clock. The
     * GUIDs of these writers go to the end of lost, the lowest first. The writers stay in the sets of their instances, and a
     * later lapse does not take them out: use either lapse or expire, not both.
     * Uses: A (clock). Answers: yes: a count changed; next due present, next due: when the next lease runs out.
     * Refused: 5, 12. */
    DCPS_CODE_EXPIRE = 37,

    /* take_lost: empties lost. Answers: listed. Out: its GUIDs, 16 bytes each, in the order of expiry. */
    DCPS_CODE_TAKE_LOST = 38,

    /* take_status: sets both changes to 0. Answers, as they were: alive, not alive, alive change, not alive change, last
     * publication handle. */
    DCPS_CODE_TAKE_STATUS = 39,

    /* acknowledge: subtracts two numbers, one from alive change and one from not alive change. It is for a caller that has
     * reported a part of the changes.
     * Uses: limit (off alive change), strength (off not alive change). Answers: nothing. Refused: 8. */
    DCPS_CODE_ACKNOWLEDGE = 40,

    /* admit: all that a received sample does to its instance. It does nothing to liveliness and renews no lease, so call
     * writer_asserted before it. It takes the samples of any writer: one that was never matched has no lease, and stays in
     * the set until part, depart, drop_writer or unregister_writer takes it out. The steps, in this order; the first that
     * fails ends the call, and nothing is changed:
     *   1. Refusals 4 and 6.
     *   2. Order: if the by-source bit is set, time 1 must be later than last delivered. Else outcome 1.
     *   3. Filter: time 2 must be earlier than the last time of the filter, or A or more after it. Else outcome 2.
     *   4. Limit: if the instance is new, there must be fewer instances than the limit. Else outcome 3.
     *   5. Refusals 9 and 13 for a new instance, 10 for a known one.
     *   6. Ownership: as accept_under_exclusive_ownership. Else outcome 4. It is asked on every topic: on a SHARED one set the
     *      deadline bit and let B be 0.
     *   7. observe_admitted, which stores the holder even if it is empty, and note_admitted.
     * Steps 2 and 3 succeed if there is no last time. If the sample starts the instance, its writer owns the instance, at its
     * strength, from time 2 on. An instance that code 1, 2, 8 or 9 started has no owner yet.
     * Uses: key, guid, holder, time 1, time 2, A (separation), [B: deadline], limit, strength, by source.
     * Answers: outcome; where that is 0 present (1), handle, samples, view new, kind, disposed generations, no-writers
     * generations. Refused: 4, 6, 9, 13, 10. */
    DCPS_CODE_ADMIT = 48,

    /* lapse: expire, and then drop_writer and clear_owner_for_writer for each writer that expired in this call, and no other.
     * A writer without a lease never expires, nor does one that is not alive. A writer that expired and is alive again is back
     * in the set of an instance with its next sample of that instance that is admitted, or noted by note_writer.
     * Uses: A (clock), [time 1: as in drop_writer]. Answers: yes, next due present, next due: as expire; listed; count:
     * owners cleared. Out: the handles of all instances left without a writer, u64 each, in the order of the keys.
     * Refused: 4, 5, 12. */
    DCPS_CODE_LAPSE = 49,

    /* part: unmatched, and then drop_writer and clear_owner_for_writer, even if the writer is not matched.
     * Uses: guid, [time 1]. Answers: yes: as unmatched; listed; count. Out: as lapse. Refused: 4. */
    DCPS_CODE_PART = 50,

    /* depart: lost_with_participant, and then drop_writer and clear_owner_for_writer. Call it once for each writer of the lost
     * participant: those with its prefix, in writers and in the sets of pens. It does not add the writer to lost.
     * Uses: guid, [time 1]. Answers: yes: as lost_with_participant; listed; count. Out: as lapse. Refused: 4. */
    DCPS_CODE_DEPART = 51
};

/* ---- the answer of dcps_call and dcps_status, 72 bytes; a field that the call does not answer is 0 */

#define DCPS_ANSWER_NUMBER 0           /* u8: enum dcps_refusal */
#define DCPS_ANSWER_OUTCOME 1          /* u8: enum dcps_outcome */
#define DCPS_ANSWER_YES 2              /* u8: 0 or 1 */
#define DCPS_ANSWER_PRESENT 3          /* u8: 0 or 1, a value is there */
#define DCPS_ANSWER_VIEW_NEW 4         /* u8: 0 or 1, the instance is new to the reader */
#define DCPS_ANSWER_KIND 5             /* u8: enum dcps_kind */
#define DCPS_ANSWER_NEXT_DUE_PRESENT 6 /* u8: 0 or 1; byte 7 is 0 */
#define DCPS_ANSWER_HANDLE 8           /* u64 */
#define DCPS_ANSWER_SAMPLES 16         /* u32 */
#define DCPS_ANSWER_DISPOSED_GENERATIONS 20   /* u32, below 2^31 */
#define DCPS_ANSWER_NO_WRITERS_GENERATIONS 24 /* u32, below 2^31 */
#define DCPS_ANSWER_COUNT 28           /* u32: owners cleared, or instances purged */
#define DCPS_ANSWER_LISTED 32          /* u32: entries written to out */
#define DCPS_ANSWER_ALIVE 36           /* u32 */
#define DCPS_ANSWER_NOT_ALIVE 40       /* u32 */
#define DCPS_ANSWER_ALIVE_CHANGE 44    /* i32 */
#define DCPS_ANSWER_NOT_ALIVE_CHANGE 48 /* i32; bytes 52 to 55 are 0 */
#define DCPS_ANSWER_NEXT_DUE 56        /* u64 nanoseconds */
#define DCPS_ANSWER_LAST_PUBLICATION 64 /* u64: 64-bit FNV-1a of the GUID of the head's last writer, or 1 if that is 0; 0 if
                                         * there is no last writer */

/* ---- the answer of every other function that has one, 24 bytes; a field that is not answered is 0 */

#define DCPS_READ_NUMBER 0      /* u8: enum dcps_refusal */
#define DCPS_READ_YES 1         /* u8: 0 or 1 */
#define DCPS_READ_PRESENT 2     /* u8: 0 or 1, one was found */
#define DCPS_READ_STORED 3      /* u8: 0 or 1, a holder is stored */
#define DCPS_READ_LISTED 4      /* u32: entries written to out */
#define DCPS_READ_LENGTH 4      /* u32: of a stored holder */
#define DCPS_READ_FRACTION 4    /* u32: of a second, in 2^-32 s */
#define DCPS_READ_WIRE_NANOS 4  /* u32: the answer of dcps_wire_nanos; not part of the time at 16 */
#define DCPS_READ_HANDLE 8      /* u64 */
#define DCPS_READ_CHANGES 8     /* u64 */
#define DCPS_READ_OFFSET 8      /* u64: of a stored holder, in pens */
#define DCPS_READ_KEY_HASH 8    /* 16: the key of an instance */
#define DCPS_READ_REMAINDER 8   /* u64, below 10^9: the remainder of the division that gave the fraction */
#define DCPS_READ_SECONDS 16    /* i32: of a time */
#define DCPS_READ_NANOSECONDS 20 /* u32: of that time */

/* ---- the head, 64 bytes
 *
 * Well formed: the number of places is 32 or 128. Last writer present is 0 or 1, and if it is 0 the last writer is 16 zeros.
 * The counts agree with the records, and there are no more instances than places. The next handle is 1 to 2^63. For both
 * counts, count less change is -2^30 to 2^30. Any other head is refused as 3.
 *
 * A head that version 0.2 or an earlier one stored has no number of places: it has 0 there, and is refused as 3. Convert it
 * once: write 0 and 128 to its bytes 30 and 31, as dcps_carry_head of dcps_inline.h does. Its pens have 65,536 bytes. Nothing
 * else in the stored state changes. */

#define DCPS_HEAD_INSTANCES 0         /* u32: used records of pens */
#define DCPS_HEAD_WRITERS 4           /* u32: used records of writers */
#define DCPS_HEAD_LOST 8              /* u32: entries of lost */
#define DCPS_HEAD_ALIVE 12            /* u32: writers that are alive */
#define DCPS_HEAD_NOT_ALIVE 16        /* u32: writers that are not alive or departed */
#define DCPS_HEAD_ALIVE_CHANGE 20     /* i32: how much alive has changed since it was acknowledged */
#define DCPS_HEAD_NOT_ALIVE_CHANGE 24 /* i32: the same of not alive */
#define DCPS_HEAD_LAST_WRITER_PRESENT 28 /* u16: 0 or 1 */
#define DCPS_HEAD_PLACES 30           /* u16: the number of places for instances, 32 or 128. dcps_fresh sets it, and no call
                                       * changes it */
#define DCPS_HEAD_NEXT_HANDLE 32      /* u64: the handle of the next new instance */
#define DCPS_HEAD_CHANGES 40          /* u64: how often a writer moved between alive, not alive and neither, modulo 2^64 */
#define DCPS_HEAD_LAST_WRITER 48      /* 16: the writer that moved last; of several in one call, the greatest GUID */

/* ---- an instance's record in pens, 512 bytes
 *
 * The used records come first, with strictly rising keys (compared as bytes). All bytes after them are zero. In a used record
 * absent fields and unused bytes are zero. Well formed, beside that: handles are distinct, and from 1 to below the next handle;
 * kind is below 3; generations are below 2^31; nanoseconds are below 10^9; the holder has at most 144 bytes; the set has at
 * most 16 GUIDs, strictly rising. */

#define DCPS_INSTANCE_KEY 0     /* 16 */
#define DCPS_INSTANCE_HANDLE 16 /* u64; 0 in an unused record, and only there */
#define DCPS_INSTANCE_FLAGS 24  /* u16: the bits below */
#define DCPS_INSTANCE_HOLDER_LENGTH 26 /* u16 */
#define DCPS_INSTANCE_DISPOSED_GENERATIONS 28 /* u32: how often it came back after a dispose; stops at 2^31 - 1 */
#define DCPS_INSTANCE_NO_WRITERS_GENERATIONS 32 /* u32: how often it came back after its last writer left; stops at 2^31 - 1 */
#define DCPS_INSTANCE_WRITER_COUNT 36 /* u32: registrations less unregistrations; independent of the set; stops at 2^32 - 1 */
#define DCPS_INSTANCE_SAMPLES 40      /* u32: observed and not yet taken; stops at 2^32 - 1 */
#define DCPS_INSTANCE_LAST_SAMPLE 44  /* times: i32 seconds, u32 nanoseconds */
#define DCPS_INSTANCE_LAST_DELIVERED 52 /* what the destination order compares with */
#define DCPS_INSTANCE_LAST_FILTER 60  /* what the time-based filter compares with */
#define DCPS_INSTANCE_DISPOSED_AT 68  /* stays when the instance is revived */
#define DCPS_INSTANCE_NO_WRITERS_AT 76 /* stays when the instance is revived */
#define DCPS_INSTANCE_OWNER_AT 84     /* when the owner's last sample was accepted; stays when the owner is cleared */
#define DCPS_INSTANCE_OWNER 92        /* 16: the owner's GUID */
#define DCPS_INSTANCE_STRENGTH 108    /* i32: the owner's */
#define DCPS_INSTANCE_HOLDER 112      /* up to 144: the bytes from which the key was made */
#define DCPS_INSTANCE_SET 256         /* up to 16 GUIDs: the writers that write it, rising */

/* Of the u16 at DCPS_INSTANCE_FLAGS. */
#define DCPS_FLAG_KIND_SHIFT 14 /* the two top bits: enum dcps_kind */
#define DCPS_FLAG_VIEW_NEW 0x2000
#define DCPS_FLAG_LAST_SAMPLE 0x1000
#define DCPS_FLAG_LAST_DELIVERED 0x0800
#define DCPS_FLAG_LAST_FILTER 0x0400
#define DCPS_FLAG_DISPOSED_AT 0x0200
#define DCPS_FLAG_NO_WRITERS_AT 0x0100
#define DCPS_FLAG_OWNER 0x0080
#define DCPS_FLAG_OWNER_AT 0x0040
#define DCPS_FLAG_HOLDER 0x0020
#define DCPS_FLAGS_SET_SIZE 0x001f

/* ---- a writer's record in writers, 40 bytes
 *
 * As in pens: the used records come first, with strictly rising GUIDs (compared as bytes), and all else is zero. Well formed,
 * beside that: kind is below 3; lease and last assertion are below 2^62; a departed record has only its GUID and state. */

#define DCPS_WRITER_GUID 0   /* 16 */
#define DCPS_WRITER_FLAGS 16 /* u8: the bits below; bytes 17 to 23 are 0 */
#define DCPS_WRITER_LEASE 24 /* u64 nanoseconds */
#define DCPS_WRITER_LAST_ASSERTION 32 /* u64 nanoseconds: when it was asserted last. Before the first assertion: when it was
                                       * matched, or 0 if it was departed then */

/* Of the byte at DCPS_WRITER_FLAGS. */
#define DCPS_WRITER_KIND_SHIFT 6  /* the two top bits: enum dcps_liveliness */
#define DCPS_WRITER_STATE_SHIFT 4 /* the next two: enum dcps_standing */
#define DCPS_WRITER_LEASE_BIT 0x08 /* a lease is present; without it the lease is infinite */

/* ---- lost and out
 *
 * lost has as many GUIDs as the head says, 16 bytes each, in the order of expiry, and zeros after them. out has as many entries
 * as `listed` of the answer says, from its front: GUIDs of 16 bytes, or handles of 8. */

/* ---- functions */

/* The version of the library: major * 65536 + minor * 256 + patch. */
uint32_t dcps_version(void);

/* Makes one call. The sheet says which: its code is byte 81. If the call returns 0, head, pens, writers, lost and out have
 * their new bytes; otherwise they keep the old ones. Refused, in this order:
 *     1  the head does not have 64 bytes
 *     3  the head's number of places is neither 32 nor 128, whatever the other lengths are
 *     1  another length is wrong, also that of the answer. Pens has 65,536 bytes with 128 places, and 16,384 with 32
 *     2  no call has the code
 *     3  the state is not well formed
 *     then the numbers of the code */
uint32_t dcps_call(uint8_t *head, size_t head_len, const uint8_t *sheet, size_t sheet_len, uint8_t *pens, size_t pens_len,
                   uint8_t *writers, size_t writers_len, uint8_t *lost, size_t lost_len, uint8_t *out, size_t out_len,
                   uint8_t *answer, size_t answer_len);

/* Makes a fresh state: no instances, no writers, next handle 1. It has 32 places if pens has 16,384 bytes, and 128 if pens has
 * 65,536. If a length is wrong, it is refused as 1, and nothing is written. */
uint32_t dcps_fresh(uint8_t *head, size_t head_len, uint8_t *pens, size_t pens_len, uint8_t *writers, size_t writers_len,
                    uint8_t *lost, size_t lost_len);

/* Reads the liveliness status (DDS 1.4, 2.2.4.1) from the head. The answer has 72 bytes, with the fields of take_status.
 * Nothing is acknowledged. Refused: 1 and 3, as dcps_changes. */
uint32_t dcps_status(const uint8_t *head, size_t head_len, uint8_t *answer, size_t answer_len);

/* Reads from the head how often a writer moved between alive, not alive and neither: changes. Refused, in this order:
 *     1  the head does not have 64 bytes
 *     3  the head's number of places is neither 32 nor 128
 *     1  the length of the answer is wrong
 *     3  the head belongs to no valid state: no pens, writers and lost fit it. That is a head which is not well formed by
 *        itself; or has more instances than places, more than 128 writers, or more than 256 in lost; or has as many instances
 *        as its next handle, or more; or has more alive and not alive writers, added up, than writers */
uint32_t dcps_changes(const uint8_t *head, size_t head_len, uint8_t *answer, size_t answer_len);

/* The reads of instances take pens alone, without a head. Pens has either length, 16,384 or 65,536 bytes. The used records are
 * those before the first one whose handle is 0. Refusal 3 is about pens alone. A key or a GUID is passed as two numbers: high
 * is its first 8 bytes, low its last 8. A list of GUIDs has a multiple of 16 bytes, 4096 at most; another length is refused as
 * 1. Each of these reads but dcps_holder_in_force can be refused as 1 and 3, and those with a time as 4 too. */

/* yes: the time-based filter (DDS 1.4, 2.2.3.12) lets a sample of the key in, as in admit. It also lets it in if the key is
 * unknown or has no last time. Times before the epoch count as any other, here and in the next read. */
uint32_t dcps_should_deliver_under_time_based_filter(const uint8_t *pens, size_t pens_len, uint64_t high, uint64_t low,
                                                     int32_t sec, uint32_t nanosec, uint64_t min_separation,
                                                     uint8_t *answer, size_t answer_len);

/* yes: the destination order (DDS 1.4, 2.2.3.17) lets a sample of the key in, as in admit. It also lets it in if the key is
 * unknown or has no last time. by_source is 0 for no, and any other number for yes; on no, every sample is let in. */
uint32_t dcps_should_deliver_under_destination_order(const uint8_t *pens, size_t pens_len, uint64_t high, uint64_t low,
                                                     int32_t sec, uint32_t nanosec, uint8_t by_source, uint8_t *answer,
                                                     size_t answer_len);

/* The time of the key's last delivered sample: present, seconds and nanoseconds. */
uint32_t dcps_last_delivered_ts(const uint8_t *pens, size_t pens_len, uint64_t high, uint64_t low, uint8_t *answer,
                                size_t answer_len);

/* The handle that comes after `previous` in the order of the keys: present and handle. After 0 comes the first one. After an
 * unknown handle comes none. */
uint32_t dcps_next_handle_after(const uint8_t *pens, size_t pens_len, uint64_t previous, uint8_t *answer, size_t answer_len);

/* The handle at a position in the order of the keys, counted from 0: present and handle. */
uint32_t dcps_handle_at_position(const uint8_t *pens, size_t pens_len, size_t position, uint8_t *answer, size_t answer_len);

/* Where in pens the holder of the key is, the bytes that the key was made from: stored, offset and length. If stored is 0, pens
 * has no holder for the key, and the caller has to use bytes of its own. stored is also 0 where another read would refuse pens
 * as 1 or 3: this read refuses only a wrong length of the answer, as 1. */
uint32_t dcps_holder_in_force(const uint8_t *pens, size_t pens_len, uint64_t high, uint64_t low, uint8_t *answer,
                              size_t answer_len);

/* The first instance, in the order of the keys, that is alive and has the GUID in its set: present and handle. If there is no
 * such instance, present is 0. The first one has the lowest key (16 unsigned bytes, compared from the first on). It need not
 * have the lowest handle, because handles go by the order in which instances started. An instance that is not alive never
 * counts, even if the GUID is still in its set. The same pens give the same answer. Changes of times, counts, view and owners
 * do not change the answer, and neither does anything that happens to the instances after it. */
uint32_t dcps_writer_lookup(const uint8_t *pens, size_t pens_len, uint64_t high, uint64_t low, uint8_t *answer,
                            size_t answer_len);

/* yes: there is an alive instance that has writers now, and would have none without the writers of the list. Only instances of
 * the given view states count (enum dcps_view): with 0 no instance does, and bits above the two are ignored. */
uint32_t dcps_would_leave_writerless(const uint8_t *pens, size_t pens_len, const uint8_t *gone, size_t gone_len,
                                     uint32_t view_states, uint8_t *answer, size_t answer_len);

/* Writes the handles of those instances to the front of out, u64 each, in the order of the keys; listed is how many. */
uint32_t dcps_left_writerless(const uint8_t *pens, size_t pens_len, const uint8_t *gone, size_t gone_len,
                              uint32_t view_states, uint8_t *out, size_t out_len, uint8_t *answer, size_t answer_len);

/* The KeyHash of a serialized key (DDSI-RTPS 2.5, 9.6.4.8): the key by which the calls name an instance. It needs no state.
 * The caller serializes the key members: big-endian PLAIN_CDR2, in the order of their member ids, without a header. `largest`
 * is the largest size that a serialized key of this type can have. A string<n> takes 4 + n + 1 bytes: its length, its
 * characters, the NUL.
 * That size decides, not the length of this key, so that every participant gets the same KeyHash. Up to 16, the KeyHash is the
 * bytes themselves, with zeros after them. From 17 on it is their MD5 (RFC 1321), even for a short key. A type without a bound,
 * or with a bound above 4096, is always hashed: state DCPS_KEY_LARGEST_BYTES. A key longer than that is refused as 14.
 * Refused, in this order: 1, only for the length of the answer; 15; 14. */
uint32_t dcps_key_hash(const uint8_t *serialized, size_t serialized_len, uint64_t largest, uint8_t *answer,
                       size_t answer_len);

/* Makes the fraction of a second that a stamp of RTPS has, from nanoseconds below 10^9: fraction is nanosec * 2^32 / 10^9,
 * rounded down. remainder is the remainder of this division; it is below 10^9 and fits a uint32_t. Keep it with the fraction if
 * you want the nanoseconds back. It need not be 0 for a whole millisecond. The seconds of a stamp are not converted. It needs
 * no state. Refused: 1, only for the length of the answer; then 4. */
uint32_t dcps_wire_fraction(uint32_t nanosec, uint8_t *answer, size_t answer_len);

/* The remainder to pass if it is not known, as for a stamp that came over the wire. */
#define DCPS_REMAINDER_UNKNOWN 999999999

/* Makes nanoseconds from a fraction: wire nanos is (fraction * 10^9 + remainder) / 2^32, rounded down.
 *   - With the fraction and the remainder from dcps_wire_fraction, it is the nanosec that dcps_wire_fraction was given.
 *   - With DCPS_REMAINDER_UNKNOWN, it is the sender's nanosec too, if the fraction is less than 1 away from
 *     nanosec * 2^32 / 10^9. So it does not matter which way the sender rounded.
 *   - With a remainder of 0 it can be 1 too low.
 * It is below 10^9 if the remainder is, and never above 10^9. A stamp that means "invalid" or "infinite" has a fraction too:
 * test for it first. Refused: 1, only for the length of the answer. */
uint32_t dcps_wire_nanos(uint32_t fraction, uint32_t remainder, uint8_t *answer, size_t answer_len);

#ifdef __cplusplus
}
#endif

#endif
