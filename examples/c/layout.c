/* SPDX-License-Identifier: Apache-2.0 */
/* Every builder and every accessor of dcps_inline.h at work, as text that the test of the Rust bindings
 * (bindings/rust/tests/inline.rs) compares with its own:
 *
 *     layout sheets           a line for each builder, its sheet in hexadecimal; then words, keys, stamps and handles
 *     layout state FILE       head, records, lost and out of a state's bytes, of either size
 *     layout answers FILE     answers of 72 bytes
 *     layout reads FILE       answers of reads, of keys and of stamps, 24 bytes each */
#include <inttypes.h>
#include <stdio.h>
#include <stdlib.h>

#include "dcps_inline.h"

static uint8_t sheet[DCPS_SHEET_BYTES];

static void print_hex(const uint8_t *bytes, size_t length)
{
    size_t i;
    for (i = 0; i < length; i++)
        printf("%02x", bytes[i]);
}

static void line(const char *name)
{
    printf("%s ", name);
    print_hex(sheet, sizeof sheet);
    printf("\n");
}

/* ---- builders */

static void instance_sheets(const uint8_t *key, const uint8_t *guid)
{
    const uint8_t *holder = (const uint8_t *)"holder";
    const uint64_t handle = 0x0102030405060708u, deadline = 9;
    const struct dcps_time first = dcps_time_of(-5, 7), second = dcps_time_of(6, 999999999);
    dcps_sheet_register(sheet, key, holder, 6, &first), line("register");
    dcps_sheet_register(sheet, key, NULL, 0, NULL), line("register");
    dcps_sheet_register(sheet, key, holder, 70000, NULL), line("register");
    dcps_sheet_ensure_registered_limited(sheet, key, -3), line("ensure_registered_limited");
    dcps_sheet_dispose(sheet, handle, &first), line("dispose");
    dcps_sheet_unregister(sheet, handle, NULL), line("unregister");
    dcps_sheet_unregister_writer(sheet, handle, guid, &second), line("unregister_writer");
    dcps_sheet_note_writer(sheet, handle, guid), line("note_writer");
    dcps_sheet_drop_writer(sheet, guid, &first), line("drop_writer");
    dcps_sheet_observe_lifecycle(sheet, key, holder, 6, NULL), line("observe_lifecycle");
    dcps_sheet_observe_lifecycle(sheet, key, NULL, 0, &first), line("observe_lifecycle");
    dcps_sheet_observe_admitted(sheet, key, holder, 145, first, -3), line("observe_admitted");
    dcps_sheet_note_admitted(sheet, key, first, second, guid), line("note_admitted");
    dcps_sheet_record_delivery(sheet, key, first), line("record_delivery");
    dcps_sheet_note_taken(sheet, handle, 0xfffffffeu), line("note_taken");
    dcps_sheet_mark_view_seen(sheet, handle), line("mark_view_seen");
    dcps_sheet_mark_view_new(sheet, key), line("mark_view_new");
    dcps_sheet_drain_samples(sheet, handle, 0xfffffffeu), line("drain_samples");
    dcps_sheet_accept_under_exclusive_ownership(sheet, key, guid, -4, second, &deadline), line("accept_under_exclusive_ownership");
    dcps_sheet_accept_under_exclusive_ownership(sheet, key, guid, 4, first, NULL), line("accept_under_exclusive_ownership");
    dcps_sheet_update_owner_strength(sheet, guid, -4), line("update_owner_strength");
    dcps_sheet_clear_owner_for_writer(sheet, guid), line("clear_owner_for_writer");
    dcps_sheet_clear_owner_for_writer_prefix(sheet, guid), line("clear_owner_for_writer_prefix");
    dcps_sheet_release_owner_of(sheet, key, guid), line("release_owner_of");
    dcps_sheet_autopurge(sheet, second, 8, DCPS_NEVER), line("autopurge");
}

static void writer_sheets(const uint8_t *guid)
{
    const uint64_t lease = 0x1122334455u, clock = 0x66778899aau;
    dcps_sheet_matched(sheet, guid, DCPS_AUTOMATIC, NULL, clock), line("matched");
    dcps_sheet_matched(sheet, guid, DCPS_BY_PARTICIPANT, &lease, clock), line("matched");
    dcps_sheet_matched(sheet, guid, DCPS_BY_TOPIC, &lease, clock), line("matched");
    dcps_sheet_unmatched(sheet, guid), line("unmatched");
    dcps_sheet_lost_with_participant(sheet, guid), line("lost_with_participant");
    dcps_sheet_writer_asserted(sheet, guid, clock), line("writer_asserted");
    dcps_sheet_participant_asserted(sheet, guid, 0, clock), line("participant_asserted");
    dcps_sheet_participant_asserted(sheet, guid, 1, clock), line("participant_asserted");
    dcps_sheet_expire(sheet, clock), line("expire");
    dcps_sheet_take_lost(sheet), line("take_lost");
    dcps_sheet_take_status(sheet), line("take_status");
    dcps_sheet_acknowledge(sheet, -1, 2), line("acknowledge");
}

static void joined_sheets(const uint8_t *key, const uint8_t *guid)
{
    const uint64_t clock = 0x66778899aau, deadline = 9;
    const struct dcps_time first = dcps_time_of(-5, 7), second = dcps_time_of(6, 999999999);
    struct dcps_sample sample = dcps_sample_of(key, guid, first);
    dcps_sheet_admit(sheet, &sample), line("admit");
    sample.holder = (const uint8_t *)"holder";
    sample.holder_length = 6;
    sample.filter = second;
    sample.by_source = 1;
    sample.separation = 8;
    sample.deadline = &deadline;
    sample.limit = 3;
    sample.strength = -4;
    dcps_sheet_admit(sheet, &sample), line("admit");
    dcps_sheet_lapse(sheet, clock, &first), line("lapse");
    dcps_sheet_part(sheet, guid, &second), line("part");
    dcps_sheet_depart(sheet, guid, NULL), line("depart");
}

/* Of 16 bytes: one that is refused as 14, one padded, two hashed, one refused as 15. */
static void print_keys(const uint8_t *serialized)
{
    static const uint64_t largest[] = {15, 16, 17, 4096, 4097};
    uint8_t key[DCPS_KEY_BYTES];
    size_t i;
    for (i = 0; i < sizeof largest / sizeof *largest; i++) {
        printf("key %" PRIu32 " ", dcps_key_of(key, serialized, 16, largest[i]));
        print_hex(key, sizeof key);
        printf("\n");
    }
}

/* Nanoseconds to a fraction and its remainder, and back by both and by the fraction alone; the last are refused as 4. */
static void print_stamps(void)
{
    static const uint32_t nanosec[] = {0, 1, 100000000, 999999999, 1000000000};
    uint32_t fraction, remainder;
    size_t i;
    for (i = 0; i < sizeof nanosec / sizeof *nanosec; i++) {
        printf("stamp %" PRIu32, dcps_fraction_of(&fraction, &remainder, nanosec[i]));
        printf(" %" PRIu32 " %" PRIu32 " %" PRIu32 " %" PRIu32 "\n", fraction, remainder, dcps_nanos_of(fraction, remainder),
               dcps_nanos_of(fraction, DCPS_REMAINDER_UNKNOWN));
    }
}

static void print_sheets(void)
{
    uint8_t key[DCPS_KEY_BYTES], guid[DCPS_GUID_BYTES];
    uint32_t i;
    for (i = 0; i < 16; i++) {
        key[i] = (uint8_t)(0x10 + i);
        guid[i] = (uint8_t)(0x20 + i);
    }
    instance_sheets(key, guid);
    writer_sheets(guid);
    joined_sheets(key, guid);
    for (i = 0; i <= 16; i++)
        printf("refusal %" PRIu32 " %s\n", i, dcps_refusal_text(i));
    print_keys(guid);
    print_stamps();
    printf("guid %" PRIx64 " %" PRIx64 " %" PRIu64 "\n", dcps_high(guid), dcps_low(guid), dcps_handle_of_guid(guid));
}

/* ---- accessors */

static void print_time(int present, struct dcps_time time)
{
    if (present)
        printf(" %" PRId32 ".%" PRIu32, time.sec, time.nanosec);
    else
        printf(" -");
}

static void print_bytes(const uint8_t *bytes, size_t length)
{
    printf(" %s", bytes ? "=" : "-");
    if (bytes)
        print_hex(bytes, length);
}

static void print_instance(const uint8_t *r)
{
    static int (*const times[])(const uint8_t *, struct dcps_time *) = {
        dcps_instance_last_sample, dcps_instance_last_delivered, dcps_instance_last_filter,
        dcps_instance_disposed_at, dcps_instance_no_writers_at,  dcps_instance_owner_at};
    struct dcps_time time;
    size_t i, length;
    const uint8_t *holder = dcps_instance_holder(r, &length);
    printf("instance");
    print_bytes(dcps_instance_key(r), DCPS_KEY_BYTES);
    printf(" %" PRIu64 " %u %d %" PRIu32 " %" PRIu32 " %" PRIu32 " %" PRIu32, dcps_instance_handle(r), dcps_instance_kind(r),
           dcps_instance_view_new(r), dcps_instance_disposed_generations(r), dcps_instance_no_writers_generations(r),
           dcps_instance_writer_count(r), dcps_instance_samples(r));
    for (i = 0; i < 6; i++) {
        int present = times[i](r, &time);
        print_time(present, time);
    }
    print_bytes(dcps_instance_owner(r), DCPS_GUID_BYTES);
    printf(" %" PRId32, dcps_instance_strength(r));
    print_bytes(holder, length);
    for (i = 0; i < dcps_instance_set_size(r); i++)
        print_bytes(dcps_instance_set_guid(r, i), DCPS_GUID_BYTES);
    printf("\n");
}

static void print_writer(const uint8_t *r)
{
    uint64_t lease;
    printf("writer");
    print_bytes(dcps_writer_guid(r), DCPS_GUID_BYTES);
    printf(" %u %u", dcps_writer_kind(r), dcps_writer_standing(r));
    if (dcps_writer_lease(r, &lease))
        printf(" %" PRIu64, lease);
    else
        printf(" -");
    printf(" %" PRIu64 "\n", dcps_writer_last_assertion(r));
}

static void print_head(const uint8_t *h)
{
    printf("head %" PRIu32 " %" PRIu32 " %" PRIu32 " %" PRIu32 " %" PRIu32 " %" PRId32 " %" PRId32 " %u %zu %" PRIu64 " %" PRIu64,
           dcps_head_instances(h), dcps_head_writers(h), dcps_head_lost(h), dcps_head_alive(h), dcps_head_not_alive(h),
           dcps_head_alive_change(h), dcps_head_not_alive_change(h), dcps_head_places(h), dcps_head_pens_bytes(h),
           dcps_head_next_handle(h), dcps_head_changes(h));
    print_bytes(dcps_head_last_writer(h), DCPS_GUID_BYTES);
    printf("\n");
}

static void print_state(struct dcps_lent s)
{
    const uint8_t *h = s.head;
    print_head(h);
    if (dcps_pens_records(s.pens, s.pens_bytes) != dcps_instance_records(h))
        printf("records behind the last\n");
    DCPS_EACH_INSTANCE(r, h, s.pens) {
        print_instance(r);
        if (dcps_instance_by_key(h, s.pens, dcps_instance_key(r)) != r ||
            dcps_instance_by_handle(h, s.pens, dcps_instance_handle(r)) != r)
            printf("not found\n");
    }
    DCPS_EACH_WRITER(r, h, s.writers) {
        print_writer(r);
        if (dcps_writer_by_guid(h, s.writers, dcps_writer_guid(r)) != r)
            printf("not found\n");
    }
    DCPS_EACH_GUID(guid, s.lost, dcps_head_lost(h)) {
        printf("lost");
        print_bytes(guid, DCPS_GUID_BYTES);
        printf("\n");
    }
    DCPS_EACH_HANDLE(handle, s.out, 3)
        printf("out %" PRIu64 "\n", handle);
}

/* The bytes of a struct dcps_state or a struct dcps_small_state, by what its head says. */
static int read_state(FILE *file, struct dcps_lent *s)
{
    return fread(s->head, DCPS_HEAD_BYTES, 1, file) == 1 && (s->pens_bytes = dcps_head_pens_bytes(s->head)) != 0 &&
           fread(s->pens, s->pens_bytes, 1, file) == 1 && fread(s->writers, DCPS_WRITERS_BYTES, 1, file) == 1 &&
           fread(s->lost, DCPS_LOST_BYTES, 1, file) == 1 && fread(s->out, DCPS_OUT_BYTES, 1, file) == 1;
}

static void print_answer(const uint8_t *a)
{
    printf("answer %u %u %u %u %u %u %u %" PRIu64 " %" PRIu32 " %" PRIu32 " %" PRIu32 " %" PRIu32 " %" PRIu32 " %" PRIu32
           " %" PRIu32 " %" PRId32 " %" PRId32 " %" PRIu64 " %" PRIu64 "\n",
           dcps_answer_number(a), dcps_answer_outcome(a), dcps_answer_yes(a), dcps_answer_present(a), dcps_answer_view_new(a),
           dcps_answer_kind(a), dcps_answer_next_due_present(a), dcps_answer_handle(a), dcps_answer_samples(a),
           dcps_answer_disposed_generations(a), dcps_answer_no_writers_generations(a), dcps_answer_count(a),
           dcps_answer_listed(a), dcps_answer_alive(a), dcps_answer_not_alive(a), dcps_answer_alive_change(a),
           dcps_answer_not_alive_change(a), dcps_answer_next_due(a), dcps_answer_last_publication(a));
}

static void print_read(const uint8_t *a)
{
    struct dcps_time time = dcps_read_time(a);
    printf("read %u %u %u %u %" PRIu32 " %" PRIu32 " %" PRIu64 " %" PRIu64 " %" PRIu64, dcps_read_number(a), dcps_read_yes(a),
           dcps_read_present(a), dcps_read_stored(a), dcps_read_listed(a), dcps_read_length(a), dcps_read_handle(a),
           dcps_read_changes(a), dcps_read_offset(a));
    print_time(1, time);
    print_bytes(dcps_read_key_hash(a), DCPS_KEY_BYTES);
    printf(" %" PRIu32 " %" PRIu32 " %" PRIu32 "\n", dcps_read_fraction(a), dcps_read_remainder(a), dcps_read_wire_nanos(a));
}

/* A head from before heads had the number of places is carried over, once. A head with more instances than places leads to no
 * record behind the pens that go with it, and one with another number of places to none. */
static int heads(void)
{
    static const uint16_t places[] = {0, 31, 32, 33, 127, 128, 129, 0x2000, 0xffff};
    static const size_t records[] = {0, 0, 32, 0, 0, 128, 0, 0, 0};
    uint8_t head[DCPS_HEAD_BYTES];
    size_t i;
    memset(head, 0xff, sizeof head);
    for (i = 0; i < sizeof places / sizeof *places; i++) {
        dcps_put_u16(head + DCPS_HEAD_PLACES, places[i]);
        if (dcps_instance_records(head) != records[i] || dcps_head_pens_bytes(head) != records[i] * DCPS_INSTANCE_BYTES)
            return 1;
        if (dcps_carry_head(head) != (places[i] == 0) || dcps_head_places(head) != (places[i] ? places[i] : 128))
            return 1;
    }
    return 0;
}

/* A kind that is none is refused, and a body may use the answer again from which the number of turns came. */
static int traps(void)
{
    const uint8_t guid[DCPS_GUID_BYTES] = {0}, out[2 * DCPS_HANDLE_BYTES] = {0};
    uint8_t sheet[DCPS_SHEET_BYTES], answer[DCPS_ANSWER_BYTES] = {0};
    unsigned turns = 0;
    dcps_sheet_matched(sheet, guid, (enum dcps_liveliness)4, NULL, 0);
    dcps_put_u32(answer + DCPS_ANSWER_LISTED, 2);
    DCPS_EACH_HANDLE(handle, out, dcps_answer_listed(answer)) {
        dcps_put_u32(answer + DCPS_ANSWER_LISTED, (uint32_t)handle);
        turns++;
    }
    return (sheet[DCPS_SHEET_BITS] & DCPS_BITS_KIND) != 3 || turns != 2;
}

int main(int count, char **words)
{
    static struct dcps_state bytes;
    struct dcps_lent state = dcps_state_lent(&bytes);
    uint8_t answer[DCPS_ANSWER_BYTES];
    FILE *file;
    if (count == 2 && strcmp(words[1], "sheets") == 0) {
        print_sheets();
        return traps() || heads();
    }
    file = count == 3 ? fopen(words[2], "rb") : NULL;
    if (!file) {
        fprintf(stderr, "layout sheets | state FILE | answers FILE | reads FILE\n");
        return 2;
    }
    if (strcmp(words[1], "state") == 0) {
        if (read_state(file, &state))
            print_state(state);
    } else if (strcmp(words[1], "answers") == 0) {
        while (fread(answer, DCPS_ANSWER_BYTES, 1, file) == 1)
            print_answer(answer);
    } else {
        while (fread(answer, DCPS_READ_BYTES, 1, file) == 1)
            print_read(answer);
    }
    fclose(file);
    return 0;
}
