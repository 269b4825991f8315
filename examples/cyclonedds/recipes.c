/* SPDX-License-Identifier: Apache-2.0 */
/* What each recipe of docs/INTEGRATION.md is for, by the library alone: each holds with its recipe and fails without it. */
#include "feed.h"

static struct feed f;
static const uint8_t key[DCPS_KEY_BYTES] = "a";
static const struct feed_writer strong = {{1, [15] = 2}, DCPS_AUTOMATIC, 5};
static const struct feed_writer weak = {{2, [15] = 2}, DCPS_AUTOMATIC, 1};
static const struct feed_writer manual = {{3, [15] = 2}, DCPS_BY_TOPIC, 0};

static struct dcps_time at(int32_t sec)
{
    return dcps_time_of(sec, 0);
}

static uint8_t sample(const struct feed_writer *w, int32_t sec)
{
    return feed_sample(&f, w, key, at(sec), at(sec), (uint64_t)sec);
}

static int is(enum dcps_kind kind)
{
    const uint8_t *r = feed_instance(&f, key);
    return r && dcps_instance_kind(r) == kind;
}

static void begin(int exclusive, unsigned without)
{
    dcps_state_fresh(&f.state);
    f.exclusive = exclusive;
    f.by_source = 0;
    f.without = without;
    feed_matched(&f, &strong, 1);
    feed_matched(&f, &weak, 1);
}

/* On a SHARED topic the samples of all writers are admitted. */
static int shared_admits_all(unsigned without)
{
    begin(0, without);
    return sample(&strong, 2) == DCPS_ADMITTED && sample(&weak, 3) == DCPS_ADMITTED;
}

/* The strong writer is lost, the weak one still writes: the instance is not abandoned. */
static int turned_away_still_writes(unsigned without)
{
    begin(1, without);
    sample(&strong, 2);
    if (sample(&weak, 3) != DCPS_NOT_OWNER)
        return 0;
    feed_unmatched(&f, &strong, 1, at(4));
    return is(DCPS_ALIVE);
}

/* Who does not own an instance does not dispose it. */
static int owner_alone_disposes(unsigned without)
{
    begin(1, without);
    sample(&strong, 2);
    feed_disposed(&f, &weak, key, at(3), at(3));
    return is(DCPS_ALIVE);
}

/* An owner that unregisters makes room for the next. */
static int unregistered_owner_yields(unsigned without)
{
    begin(1, without);
    sample(&strong, 2);
    feed_unregistered(&f, strong.guid, key, at(3));
    return sample(&weak, 4) == DCPS_ADMITTED;
}

/* An unregister of a key that nobody has written starts no instance. */
static int unknown_stays_unknown(unsigned without)
{
    begin(0, without);
    feed_unregistered(&f, strong.guid, key, at(2));
    return dcps_head_instances(f.state.head) == 0;
}

/* A writer that the transport calls not alive leaves its instances. */
static int not_alive_leaves(unsigned without)
{
    begin(0, without);
    sample(&strong, 2);
    feed_not_alive(&f, &strong, 3, at(3));
    return is(DCPS_NO_WRITERS) && dcps_head_not_alive(f.state.head) == 1;
}

/* A manual writer is alive once a sample of it came. */
static int sample_asserts(unsigned without)
{
    begin(0, without);
    feed_matched(&f, &manual, 2);
    sample(&manual, 3);
    return dcps_head_alive(f.state.head) == 3;
}

/* Each crash leaves a departed record, and behind 128 of them every match of a new GUID is refused as 11, unless they are
 * freed. */
static int crashes_leave_room(unsigned without)
{
    begin(0, without);
    for (unsigned i = 0; i <= DCPS_WRITER_PLACES; i++) {
        struct feed_writer w = {{9, (uint8_t)i, [15] = 2}, DCPS_AUTOMATIC, 0};
        uint32_t number = feed_matched(&f, &w, i + 2);
        if (number != DCPS_ACCEPTED)
            return number != DCPS_REFUSED_WRITERS;
        feed_unmatched(&f, &w, 1, at(1));
        feed_forgotten(&f, w.guid);
    }
    return dcps_head_alive(f.state.head) == 2 && dcps_head_not_alive(f.state.head) == 0;
}

/* A sample that came with its KeyHash and one without are of one instance. The key is RFC 1321's "message digest", its
 * KeyHash that RFC's MD5 of it. */
static int one_key_both_ways(unsigned without)
{
    static const uint8_t came[DCPS_KEY_BYTES] = {0xf9, 0x6b, 0x69, 0x7d, 0x7c, 0xb7, 0x93, 0x8d,
                                                 0x52, 0x5a, 0x2f, 0x31, 0xaa, 0xf1, 0x61, 0xd0};
    static const char serialized[] = "message digest";
    uint8_t made[DCPS_KEY_BYTES];
    begin(0, without);
    if (feed_key(&f, made, (const uint8_t *)serialized, strlen(serialized), 4 + 64 + 1) != DCPS_ACCEPTED)
        return 0;
    feed_sample(&f, &strong, came, at(2), at(2), 2);
    feed_sample(&f, &strong, made, at(3), at(3), 3);
    return dcps_head_instances(f.state.head) == 1;
}

/* By source, a sample that came over the wire and the same one from a store, which has its nanoseconds, are of one time: the
 * second is turned away. The fraction is that of 100 ms, rounded down. */
static int one_time_both_ways(unsigned without)
{
    begin(0, without);
    f.by_source = 1;
    feed_sample(&f, &strong, key, feed_time(&f, 2, 429496729), at(3), 3);
    return feed_sample(&f, &strong, key, dcps_time_of(2, 100000000), at(4), 4) == DCPS_OUT_OF_ORDER;
}

/* By source, samples are in order before the epoch and across it as anywhere: one that comes late is turned away, the others are
 * not. The times are in milliseconds. */
static int in_order_before_the_epoch(unsigned without)
{
    static const int32_t times[] = {-1500, -500, -700, 250};
    static const uint8_t outcomes[] = {DCPS_ADMITTED, DCPS_ADMITTED, DCPS_OUT_OF_ORDER, DCPS_ADMITTED};
    begin(0, without);
    f.by_source = 1;
    for (unsigned i = 0; i < sizeof outcomes; i++)
        if (feed_sample(&f, &strong, key, feed_time_of(&f, times[i] * (int64_t)1000000), at((int32_t)i), i + 2) != outcomes[i])
            return 0;
    return 1;
}

/* Only an admitted sample revives: code 6 puts a writer into an instance without writers, and it stays so. Nor does a
 * dispose record its writer. */
static int only_samples_revive(void)
{
    begin(0, 0);
    sample(&strong, 2);
    feed_unmatched(&f, &strong, 0, at(3));
    dcps_sheet_note_writer(f.sheet, dcps_instance_handle(feed_instance(&f, key)), weak.guid);
    feed_call(&f);
    if (!is(DCPS_NO_WRITERS))
        return 0;
    begin(0, 0);
    feed_disposed(&f, &weak, key, at(2), at(2));
    return is(DCPS_DISPOSED) && dcps_instance_set_size(feed_instance(&f, key)) == 0;
}

static const struct {
    const char *says;
    int (*holds)(unsigned without);
    unsigned recipe;
} recipes[] = {
    {"a SHARED topic admits all writers", shared_admits_all, WITHOUT_SHARED},
    {"a writer that is turned away still writes", turned_away_still_writes, WITHOUT_NOTE},
    {"the owner alone disposes", owner_alone_disposes, WITHOUT_ASK},
    {"an owner that unregisters yields", unregistered_owner_yields, WITHOUT_RELEASE},
    {"an unregister of an unknown key starts nothing", unknown_stays_unknown, WITHOUT_UNKNOWN},
    {"a writer that is not alive leaves its instances", not_alive_leaves, WITHOUT_LAPSE},
    {"a sample asserts its writer", sample_asserts, WITHOUT_ASSERT},
    {"crashes leave room for new writers", crashes_leave_room, WITHOUT_FORGET},
    {"a key is the same with its KeyHash and without", one_key_both_ways, WITHOUT_STATED},
    {"a time is the same over the wire and from a store", one_time_both_ways, WITHOUT_REMAINDER},
    {"samples before the epoch are in order", in_order_before_the_epoch, WITHOUT_FLOOR},
};

static int failed;

static void expect(int holds, const char *says, const char *how)
{
    if (!holds)
        printf("FAILED: %s, %s\n", says, how);
    failed += !holds;
}

int main(void)
{
    size_t count = sizeof recipes / sizeof recipes[0];
    for (size_t i = 0; i < count; i++) {
        expect(recipes[i].holds(0), recipes[i].says, "with its recipe");
        expect(!recipes[i].holds(recipes[i].recipe), recipes[i].says, "should fail without it");
    }
    expect(only_samples_revive(), "only an admitted sample revives", "and a dispose records no writer");
    printf("%u recipes, %d failed\n", (unsigned)count + 1, failed);
    return failed != 0;
}
