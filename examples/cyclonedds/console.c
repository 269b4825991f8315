/* SPDX-License-Identifier: Apache-2.0 */
/* A console behind Cyclone DDS: it tells the library what a reader sees (feed.h) and, asked to look, prints Cyclone's own
 * reader cache beside the library's state, instance by instance.
 *
 *     console [--domain N] [--exclusive yes] [--by-source yes] [--without BITS]
 *
 * Standard input: "look" prints the comparison and "end", "quit" ends. With --exclusive the library is fed from the
 * SHARED topic, where every sample is seen, and judges ownership itself; Cyclone's cache is that of the EXCLUSIVE topic.
 */
#include <poll.h>
#include <unistd.h>

#include "common.h"
#include "feed.h"

#define MOST 64     /* writers */
#define LONGEST 256 /* samples in a cache */

struct known {
    dds_instance_handle_t handle;
    dds_instance_handle_t participant;
    struct feed_writer writer;
};

struct console {
    struct feed feed;
    dds_entity_t reader;       /* what the library is told of */
    dds_entity_t cache;        /* whose cache it is compared with */
    dds_entity_t participants; /* the built-in reader of participants */
    struct known known[MOST];
    size_t writers;
    struct known left[MOST]; /* writers that are gone: their last samples may still be read */
    size_t gone;
    unsigned samples, differing, turned; /* admitted, with another answer than Cyclone's, turned away */
};

/* ---- clocks */

static uint64_t clock_now(void)
{
    static dds_time_t start;
    if (start == 0)
        start = dds_time() - 1;
    return (uint64_t)(dds_time() - start);
}

/* ---- matched writers */

static enum dcps_liveliness kind_of(dds_liveliness_kind_t kind)
{
    if (kind == DDS_LIVELINESS_MANUAL_BY_PARTICIPANT)
        return DCPS_BY_PARTICIPANT;
    return kind == DDS_LIVELINESS_MANUAL_BY_TOPIC ? DCPS_BY_TOPIC : DCPS_AUTOMATIC;
}

static struct known *find_known(struct known *among, size_t count, dds_instance_handle_t handle)
{
    for (size_t i = 0; i < count; i++)
        if (among[i].handle == handle)
            return &among[i];
    return NULL;
}

static void matched(struct console *c, dds_instance_handle_t handle)
{
    dds_builtintopic_endpoint_t *endpoint = dds_get_matched_publication_data(c->reader, handle);
    if (!endpoint || c->writers == MOST)
        return;
    struct known *k = &c->known[c->writers++];
    dds_liveliness_kind_t kind = DDS_LIVELINESS_AUTOMATIC;
    k->handle = handle;
    k->participant = endpoint->participant_instance_handle;
    k->writer.strength = 0;
    dds_qget_liveliness(endpoint->qos, &kind, NULL);
    dds_qget_ownership_strength(endpoint->qos, &k->writer.strength);
    k->writer.kind = kind_of(kind);
    memcpy(k->writer.guid, endpoint->key.v, sizeof k->writer.guid);
    dds_builtintopic_free_endpoint(endpoint);
    feed_matched(&c->feed, &k->writer, clock_now());
}

/* A participant is there as long as its built-in instance is alive. */
static int participant_gone(struct console *c, dds_instance_handle_t participant)
{
    void *sample[1] = {NULL};
    dds_sample_info_t info;
    int n = dds_read_instance_mask(c->participants, sample, &info, 1, 1, participant,
                                   DDS_ANY_SAMPLE_STATE | DDS_ANY_VIEW_STATE | DDS_ANY_INSTANCE_STATE);
    int alive = n == 1 && info.instance_state == DDS_ALIVE_INSTANCE_STATE;
    if (n > 0)
        dds_return_loan(c->participants, sample, n);
    return !alive;
}

static void unmatched(struct console *c, size_t place)
{
    struct known gone = c->known[place];
    c->known[place] = c->known[--c->writers];
    c->left[c->gone++ % MOST] = gone;
    feed_unmatched(&c->feed, &gone.writer, participant_gone(c, gone.participant), feed_time_of(&c->feed, dds_time()));
}

static void see_matches(struct console *c)
{
    dds_instance_handle_t now[MOST];
    int n = dds_get_matched_publications(c->reader, now, MOST);
    for (size_t i = c->writers; i-- > 0;) {
        int there = 0;
        for (int j = 0; j < n; j++)
            there |= now[j] == c->known[i].handle;
        if (!there)
            unmatched(c, i);
    }
    for (int j = 0; j < n; j++)
        if (!find_known(c->known, c->writers, now[j]))
            matched(c, now[j]);
}

/* ---- liveliness, as the transport tells it */

static void see_liveliness(struct console *c)
{
    dds_liveliness_changed_status_t status;
    if (dds_get_liveliness_changed_status(c->reader, &status) != DDS_RETCODE_OK)
        return;
    struct known *k = find_known(c->known, c->writers, status.last_publication_handle);
    if (!k)
        return;
    if (status.not_alive_count_change > 0)
        feed_not_alive(&c->feed, &k->writer, clock_now(), feed_time_of(&c->feed, dds_time()));
    else if (status.not_alive_count_change < 0 && status.alive_count_change > 0)
        feed_alive(&c->feed, &k->writer, clock_now());
}

/* ---- samples and changes of state */

static const char *state_name(dds_instance_state_t state)
{
    if (state == DDS_ALIVE_INSTANCE_STATE)
        return "alive";
    return state == DDS_NOT_ALIVE_DISPOSED_INSTANCE_STATE ? "disposed" : "no-writers";
}

static const char *kind_name(uint8_t kind)
{
    static const char *names[] = {"alive", "disposed", "no-writers", "?"};
    return names[kind < 3 ? kind : 3];
}

/* The answer of an admitted sample is what the reader's sample info has: view, and both generations. */
static void compare_sample(struct console *c, const dds_sample_info_t *info)
{
    const uint8_t *a = c->feed.answer;
    int same = dcps_answer_view_new(a) == (info->view_state == DDS_NEW_VIEW_STATE) &&
               dcps_answer_disposed_generations(a) == info->disposed_generation_count &&
               dcps_answer_no_writers_generations(a) == info->no_writers_generation_count;
    c->samples++;
    c->differing += !same;
}

static void see_one(struct console *c, const console_Sample *sample, const dds_sample_info_t *info)
{
    struct known *k = find_known(c->known, c->writers, info->publication_handle);
    if (!k)
        k = find_known(c->left, c->gone < MOST ? c->gone : MOST, info->publication_handle);
    struct dcps_time source = feed_time_of(&c->feed, info->source_timestamp), now = feed_time_of(&c->feed, dds_time());
    const uint8_t *r = feed_instance(&c->feed, sample->key);
    if (info->valid_data && k) {
        uint8_t outcome = feed_sample(&c->feed, &k->writer, sample->key, source, now, clock_now());
        c->turned += outcome != DCPS_ADMITTED;
        if (outcome == DCPS_ADMITTED && !c->feed.exclusive)
            compare_sample(c, info);
    }
    if (info->instance_state == DDS_NOT_ALIVE_DISPOSED_INSTANCE_STATE && k && !(r && dcps_instance_kind(r) == DCPS_DISPOSED))
        feed_disposed(&c->feed, &k->writer, sample->key, source, now);
    if (info->instance_state == DDS_NOT_ALIVE_NO_WRITERS_INSTANCE_STATE)
        feed_no_writers(&c->feed, sample->key, source);
}

/* Samples read from a cache, into memory of our own. */
struct batch {
    console_Sample samples[LONGEST];
    dds_sample_info_t infos[LONGEST];
    int count;
};

static void read_into(struct batch *b, dds_entity_t reader, uint32_t sample_states)
{
    void *places[LONGEST];
    for (int i = 0; i < LONGEST; i++)
        places[i] = &b->samples[i];
    b->count = dds_read_mask(reader, places, b->infos, LONGEST, LONGEST,
                             sample_states | DDS_ANY_VIEW_STATE | DDS_ANY_INSTANCE_STATE);
}

static void see_samples(struct console *c)
{
    static struct batch b;
    read_into(&b, c->reader, DDS_NOT_READ_SAMPLE_STATE);
    for (int i = 0; i < b.count; i++)
        see_one(c, &b.samples[i], &b.infos[i]);
    for (int i = 0; i < b.count; i++) /* one read shows an instance as new with all of its samples */
        feed_seen(&c->feed, b.samples[i].key);
    if (c->cache != c->reader)
        read_into(&b, c->cache, DDS_NOT_READ_SAMPLE_STATE);
}

/* ---- looking */

static void print_instance(struct console *c, const console_Sample *sample, const dds_sample_info_t *info)
{
    const uint8_t *r = feed_instance(&c->feed, sample->key);
    printf("instance %.16s cyclone %s %s %u %u library ", (const char *)sample->key, state_name(info->instance_state),
           info->view_state == DDS_NEW_VIEW_STATE ? "new" : "seen", info->disposed_generation_count,
           info->no_writers_generation_count);
    if (r)
        printf("%s %s %u %u\n", kind_name(dcps_instance_kind(r)), dcps_instance_view_new(r) ? "new" : "seen",
               dcps_instance_disposed_generations(r), dcps_instance_no_writers_generations(r));
    else
        printf("unknown - 0 0\n");
}

/* The latest sample of each instance has its state. Samples that the library has not been told of yet are left unread. */
static void look(struct console *c)
{
    static struct batch b;
    read_into(&b, c->cache, DDS_READ_SAMPLE_STATE);
    for (int i = 0; i < b.count; i++)
        if (i + 1 == b.count || b.infos[i + 1].instance_handle != b.infos[i].instance_handle)
            print_instance(c, &b.samples[i], &b.infos[i]);
    dds_liveliness_changed_status_t status;
    dds_get_liveliness_changed_status(c->cache, &status);
    const uint8_t *head = c->feed.state.head;
    printf("liveliness cyclone %u %u library %u %u\n", status.alive_count, status.not_alive_count, dcps_head_alive(head),
           dcps_head_not_alive(head));
    printf("instances %u\n", dcps_head_instances(head));
    printf("samples %u differing %u turned %u\nend\n", c->samples, c->differing, c->turned);
    fflush(stdout);
}

static dds_entity_t reader_of(dds_entity_t participant, int exclusive, int by_source)
{
    dds_qos_t *qos = qos_of(exclusive);
    dds_qset_destination_order(qos, by_source ? DDS_DESTINATIONORDER_BY_SOURCE_TIMESTAMP
                                              : DDS_DESTINATIONORDER_BY_RECEPTION_TIMESTAMP);
    dds_entity_t reader = sure(dds_create_reader(participant, topic_of(participant, exclusive), qos, NULL), "reader");
    dds_delete_qos(qos);
    return reader;
}

static void begin(struct console *c, int argc, char **argv)
{
    dds_domainid_t domain = 0;
    for (int i = 1; i + 1 < argc; i += 2) {
        if (strcmp(argv[i], "--domain") == 0)
            domain = (dds_domainid_t)atoi(argv[i + 1]);
        else if (strcmp(argv[i], "--exclusive") == 0)
            c->feed.exclusive = 1;
        else if (strcmp(argv[i], "--by-source") == 0)
            c->feed.by_source = 1;
        else if (strcmp(argv[i], "--without") == 0)
            c->feed.without = (unsigned)atoi(argv[i + 1]);
    }
    dcps_state_fresh(&c->feed.state);
    dds_entity_t participant = sure(dds_create_participant(domain, NULL, NULL), "participant");
    c->participants = sure(dds_create_reader(participant, DDS_BUILTIN_TOPIC_DCPSPARTICIPANT, NULL, NULL), "participants");
    c->reader = reader_of(participant, 0, c->feed.by_source);
    c->cache = c->feed.exclusive ? reader_of(participant, 1, c->feed.by_source) : c->reader;
}

int main(int argc, char **argv)
{
    static struct console c;
    struct pollfd input = {STDIN_FILENO, POLLIN, 0};
    char line[64];
    begin(&c, argc, argv);
    puts("ready");
    fflush(stdout);
    for (;;) {
        see_matches(&c);
        see_liveliness(&c);
        see_samples(&c);
        if (poll(&input, 1, 5) <= 0)
            continue;
        if (!fgets(line, sizeof line, stdin) || strncmp(line, "quit", 4) == 0)
            return 0;
        see_samples(&c); /* before a look at the cache, which makes its instances seen */
        look(&c);
    }
}
