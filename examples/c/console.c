/* SPDX-License-Identifier: Apache-2.0 */
/* A small console from the two headers alone: it reads lines from standard input, one call each, and shows which instances
 * still have a writer. `console` has places for 128 instances, `console 32` for 32, in a fourth of the memory for pens.
 *
 *     at SECONDS                        the time and the clock from here on, -2^31 to 2^31 - 1; before the epoch negative
 *     match WRITER [LEASE]              an automatic writer, its lease in seconds
 *     sample PEN WRITER [STRENGTH]      admitted at most once a second for each instance
 *     assert WRITER                     the writer is there
 *     dispose PEN                       the instance is disposed
 *     leave WRITER | lose WRITER        the writer is deleted | lost with its participant
 *     tick                              leases that have run out at the clock
 *     purge SECONDS                     instances that are not alive for so long go
 *     lamp WRITER                       the first alive instance of the writer, in the order of the keys
 *     show                              the tables
 *
 * PEN is a pen's serial, the key of a topic with `@key string<64> serial`. A writer is PARTICIPANT/ENTITY, at most 12 and 4
 * characters. */
#include <inttypes.h>
#include <stdio.h>
#include <stdlib.h>

#include "dcps_inline.h"

/* The largest size of a serialized string<64>, for every serial, short ones too: another size stated can be another key. */
#define SERIAL_LARGEST (4 + 64 + 1)
#define LINE 256
/* The clock of the liveliness is never negative: it counts the seconds from the first that a time can have, -2^31. */
#define FIRST_SECOND (-((int64_t)1 << 31))

static struct dcps_lent console;
static uint8_t sheet[DCPS_SHEET_BYTES], answer[DCPS_ANSWER_BYTES];
static int32_t now;

static struct dcps_time time_now(void)
{
    return dcps_time_of(now, 0);
}

static uint64_t nanoseconds(uint64_t seconds)
{
    return seconds * 1000000000u;
}

static uint64_t clock_now(void)
{
    return nanoseconds((uint64_t)(now - FIRST_SECOND));
}

/* 1 where it is accepted, else the refusal is shown. */
static int accepted(uint32_t number)
{
    if (number != DCPS_ACCEPTED)
        printf("  refused as %" PRIu32 ": %s\n", number, dcps_refusal_text(number));
    return number == DCPS_ACCEPTED;
}

/* ---- names */

/* A pen by its serial: the key, and the bytes from which it is made. */
struct pen {
    uint8_t key[DCPS_KEY_BYTES];
    uint8_t serialized[4 + LINE];
    size_t length;
};

/* As DDS serializes a string, big-endian: its length with the NUL, its characters, the NUL. */
static int pen_of(struct pen *pen, const char *serial)
{
    size_t length = strlen(serial) + 1;
    dcps_put_u32(pen->serialized, (uint32_t)length);
    memcpy(pen->serialized + 4, serial, length);
    pen->length = 4 + length;
    return accepted(dcps_key_of(pen->key, pen->serialized, pen->length, SERIAL_LARGEST));
}

static void put_name(uint8_t *to, size_t places, const char *name, size_t length)
{
    memset(to, 0, places);
    memcpy(to, name, length < places ? length : places);
}

static void guid_of(uint8_t *guid, const char *name)
{
    const char *slash = strchr(name, '/');
    size_t length = slash ? (size_t)(slash - name) : strlen(name);
    put_name(guid, DCPS_PREFIX_BYTES, name, length);
    put_name(guid + DCPS_PREFIX_BYTES, DCPS_GUID_BYTES - DCPS_PREFIX_BYTES, slash ? slash + 1 : "", slash ? strlen(slash + 1) : 0);
}

/* A key that is hashed has no serial any more: it is read from the holder, which the first sample stored. */
static void print_pen(const uint8_t *record)
{
    size_t length;
    const uint8_t *holder = dcps_instance_holder(record, &length);
    printf("%s", holder ? (const char *)holder + 4 : "?");
}

static void print_guid(const uint8_t *guid)
{
    printf("%.12s/%.4s", (const char *)guid, (const char *)guid + DCPS_PREFIX_BYTES);
}

static void print_handle(uint64_t handle)
{
    const uint8_t *record = dcps_instance_by_handle(console.head, console.pens, handle);
    if (record)
        print_pen(record);
    else
        printf("#%" PRIu64, handle);
}

/* ---- calls */

/* Makes the call of the sheet. */
static int call(void)
{
    return accepted(dcps_lent_call(console, sheet, answer));
}

static void print_left(void)
{
    DCPS_EACH_HANDLE(handle, console.out, dcps_answer_listed(answer)) {
        printf("  ");
        print_handle(handle);
        printf(" has no writer any more\n");
    }
}

static void match(const char *writer, const char *seconds)
{
    uint8_t guid[DCPS_GUID_BYTES];
    uint64_t lease = seconds ? nanoseconds(strtoull(seconds, NULL, 10)) : 0;
    guid_of(guid, writer);
    dcps_sheet_matched(sheet, guid, DCPS_AUTOMATIC, seconds ? &lease : NULL, clock_now());
    call();
}

static void assert_writer(const char *writer)
{
    uint8_t guid[DCPS_GUID_BYTES];
    guid_of(guid, writer);
    dcps_sheet_writer_asserted(sheet, guid, clock_now());
    call();
}

static void sample(const char *serial, const char *writer, const char *strength)
{
    struct pen pen;
    uint8_t guid[DCPS_GUID_BYTES];
    struct dcps_sample s;
    guid_of(guid, writer);
    assert_writer(writer); /* a sample is a sign of its writer, also one that is turned away */
    if (!pen_of(&pen, serial))
        return;
    s = dcps_sample_of(pen.key, guid, time_now());
    s.holder = pen.serialized;
    s.holder_length = pen.length;
    s.separation = nanoseconds(1);
    s.strength = strength ? (int32_t)strtol(strength, NULL, 10) : 0;
    dcps_sheet_admit(sheet, &s);
    if (call() && dcps_answer_outcome(answer) != DCPS_ADMITTED)
        printf("  turned away: %s\n", dcps_outcome_text(dcps_answer_outcome(answer)));
}

static void dispose(const char *serial)
{
    struct pen pen;
    struct dcps_time time = time_now();
    const uint8_t *record;
    if (!pen_of(&pen, serial))
        return;
    record = dcps_instance_by_key(console.head, console.pens, pen.key);
    dcps_sheet_dispose(sheet, record ? dcps_instance_handle(record) : 0, &time);
    if (call() && !dcps_answer_yes(answer))
        printf("  no such pen\n");
}

static void leave(const char *writer, int lost)
{
    uint8_t guid[DCPS_GUID_BYTES];
    struct dcps_time time = time_now();
    guid_of(guid, writer);
    if (lost)
        dcps_sheet_depart(sheet, guid, &time);
    else
        dcps_sheet_part(sheet, guid, &time);
    if (call())
        print_left();
}

static void tick(void)
{
    struct dcps_time time = time_now();
    dcps_sheet_lapse(sheet, clock_now(), &time);
    if (!call())
        return;
    print_left();
    if (dcps_answer_next_due_present(answer))
        printf("  the next lease runs out at %" PRId64 "\n",
               (int64_t)(dcps_answer_next_due(answer) / 1000000000u) + FIRST_SECOND);
    /* What is lost has been shown; a console that acts on writers would read it here. */
    dcps_sheet_take_lost(sheet);
    if (call())
        DCPS_EACH_GUID(guid, console.out, dcps_answer_listed(answer)) {
            printf("  ");
            print_guid(guid);
            printf(" is silent\n");
        }
}

static void purge(const char *seconds)
{
    uint64_t delay = nanoseconds(strtoull(seconds, NULL, 10));
    dcps_sheet_autopurge(sheet, time_now(), delay, delay);
    if (call())
        printf("  %" PRIu32 " gone\n", dcps_answer_count(answer));
}

/* An operator presses the button of a writer, and its lamp goes to an instance: as long as no call comes in between, to the
 * same one. Keys are hashed here, so their order is not that of the serials. */
static void lamp(const char *writer)
{
    uint8_t guid[DCPS_GUID_BYTES], read[DCPS_READ_BYTES];
    guid_of(guid, writer);
    if (!accepted(dcps_writer_lookup(console.pens, console.pens_bytes, dcps_high(guid), dcps_low(guid), read, sizeof read)))
        return;
    printf("  ");
    if (dcps_read_present(read))
        print_handle(dcps_read_handle(read));
    else
        printf("dark");
    printf("\n");
}

/* ---- the tables */

static void print_instance(const uint8_t *record)
{
    static const char *const shown[] = {"alive", "abandoned (disposed)", "abandoned (no writers)", "?"};
    struct dcps_time time;
    size_t place;
    printf("  ");
    print_pen(record);
    printf(" #%" PRIu64 " %s", dcps_instance_handle(record), shown[dcps_instance_kind(record)]);
    if (dcps_instance_kind(record) == DCPS_NO_WRITERS && dcps_instance_no_writers_at(record, &time))
        printf(" since %" PRId32, time.sec);
    if (dcps_instance_kind(record) == DCPS_DISPOSED && dcps_instance_disposed_at(record, &time))
        printf(" since %" PRId32, time.sec);
    printf(", %" PRIu32 " samples, %s", dcps_instance_samples(record), dcps_instance_view_new(record) ? "new" : "seen");
    for (place = 0; place < dcps_instance_set_size(record); place++) {
        printf("%s", place == 0 ? ", written by " : " and ");
        print_guid(dcps_instance_set_guid(record, place));
    }
    if (dcps_instance_owner(record)) {
        printf(", owned by ");
        print_guid(dcps_instance_owner(record));
        printf(" (%" PRId32 ")", dcps_instance_strength(record));
    }
    printf("\n");
}

static void print_writer(const uint8_t *record)
{
    static const char *const shown[] = {"unasserted", "alive", "not alive", "departed"};
    uint64_t lease;
    printf("  ");
    print_guid(dcps_writer_guid(record));
    printf(" %s", shown[dcps_writer_standing(record)]);
    if (dcps_writer_lease(record, &lease))
        printf(", lease %" PRIu64, lease / 1000000000u);
    printf("\n");
}

static void show(void)
{
    printf("  %" PRIu32 " instances in %u places, %" PRIu32 " writers alive, %" PRIu32 " not\n",
           dcps_head_instances(console.head), dcps_head_places(console.head), dcps_head_alive(console.head),
           dcps_head_not_alive(console.head));
    DCPS_EACH_INSTANCE(record, console.head, console.pens)
        print_instance(record);
    DCPS_EACH_WRITER(record, console.head, console.writers)
        print_writer(record);
}

/* ---- lines */

static void obey(char *line)
{
    const char *word = strtok(line, " \n"), *first = strtok(NULL, " \n");
    const char *second = strtok(NULL, " \n"), *third = strtok(NULL, " \n");
    if (!word || word[0] == '#')
        return;
    printf("%" PRId32 ": %s%s%s%s%s\n", now, word, first ? " " : "", first ? first : "", second ? " " : "", second ? second : "");
    if (strcmp(word, "at") == 0 && first)
        now = (int32_t)strtol(first, NULL, 10);
    else if (strcmp(word, "match") == 0 && first)
        match(first, second);
    else if (strcmp(word, "sample") == 0 && first && second)
        sample(first, second, third);
    else if (strcmp(word, "assert") == 0 && first)
        assert_writer(first);
    else if (strcmp(word, "dispose") == 0 && first)
        dispose(first);
    else if ((strcmp(word, "leave") == 0 || strcmp(word, "lose") == 0) && first)
        leave(first, word[1] == 'o');
    else if (strcmp(word, "tick") == 0)
        tick();
    else if (strcmp(word, "purge") == 0 && first)
        purge(first);
    else if (strcmp(word, "lamp") == 0 && first)
        lamp(first);
    else if (strcmp(word, "show") == 0)
        show();
    else
        printf("  not understood\n");
}

static int version_differs(void)
{
    uint32_t version = dcps_version();
    if (version == DCPS_VERSION_NUMBER)
        return 0;
    fprintf(stderr, "the header is of %s, the library of %" PRIu32 ".%" PRIu32 ".%" PRIu32 "\n", DCPS_VERSION, version >> 16,
            version >> 8 & 255, version & 255);
    return 1;
}

int main(int count, char **words)
{
    static struct dcps_state large;
    static struct dcps_small_state small;
    char line[LINE];
    if (version_differs())
        return 1;
    if (count > 2 || (count == 2 && strcmp(words[1], "32") != 0)) {
        fprintf(stderr, "console [32]\n");
        return 2;
    }
    console = count == 2 ? dcps_small_state_lent(&small) : dcps_state_lent(&large);
    dcps_lent_fresh(console);
    while (fgets(line, sizeof line, stdin))
        obey(line);
    return 0;
}
