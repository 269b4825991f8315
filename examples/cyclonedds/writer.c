/* SPDX-License-Identifier: Apache-2.0 */
/* A writer in a process of its own. It does what it is told on standard input, a command a line, and answers each with
 * "ok", so that a script can wait for it.
 *
 *     writer [--domain N] [--kind automatic|participant|topic] [--lease MILLISECONDS] [--strength N] [--autodispose yes]
 *
 *     write KEY VALUE     stamp KEY SECONDS     dispose KEY     unregister KEY     assert     delete     quit
 *
 * "stamp" writes with that source time.
 */
#include "common.h"

struct options {
    dds_domainid_t domain;
    dds_liveliness_kind_t kind;
    dds_duration_t lease;
    int strength; /* below 0: none, and no samples to the exclusive topic */
    bool autodispose;
};

static struct options options_of(int argc, char **argv)
{
    struct options o = {0, DDS_LIVELINESS_AUTOMATIC, DDS_INFINITY, -1, false};
    for (int i = 1; i + 1 < argc; i += 2) {
        const char *value = argv[i + 1];
        if (strcmp(argv[i], "--domain") == 0)
            o.domain = (dds_domainid_t)atoi(value);
        else if (strcmp(argv[i], "--lease") == 0)
            o.lease = DDS_MSECS(atoi(value));
        else if (strcmp(argv[i], "--strength") == 0)
            o.strength = atoi(value);
        else if (strcmp(argv[i], "--autodispose") == 0)
            o.autodispose = true;
        else if (strcmp(argv[i], "--kind") == 0 && strcmp(value, "participant") == 0)
            o.kind = DDS_LIVELINESS_MANUAL_BY_PARTICIPANT;
        else if (strcmp(argv[i], "--kind") == 0 && strcmp(value, "topic") == 0)
            o.kind = DDS_LIVELINESS_MANUAL_BY_TOPIC;
    }
    return o;
}

/* Autodispose is off by default here: a writer that leaves unregisters its instances and disposes none. */
static dds_entity_t writer_of(dds_entity_t participant, struct options o, int exclusive)
{
    dds_qos_t *qos = qos_of(exclusive);
    dds_qset_writer_data_lifecycle(qos, o.autodispose);
    dds_qset_destination_order(qos, DDS_DESTINATIONORDER_BY_SOURCE_TIMESTAMP);
    dds_qset_liveliness(qos, o.kind, o.lease);
    if (o.strength >= 0)
        dds_qset_ownership_strength(qos, o.strength);
    dds_entity_t writer = sure(dds_create_writer(participant, topic_of(participant, exclusive), qos, NULL), "writer");
    dds_delete_qos(qos);
    return writer;
}

static dds_return_t act(dds_entity_t writer, const char *verb, const char *name, int value)
{
    console_Sample sample;
    key_of(sample.key, name);
    sample.value = value;
    if (strcmp(verb, "write") == 0)
        return dds_write(writer, &sample);
    if (strcmp(verb, "stamp") == 0)
        return dds_write_ts(writer, &sample, DDS_SECS((dds_time_t)value));
    if (strcmp(verb, "dispose") == 0)
        return dds_dispose(writer, &sample);
    if (strcmp(verb, "unregister") == 0)
        return dds_unregister_instance(writer, &sample);
    if (strcmp(verb, "assert") == 0)
        return dds_assert_liveliness(writer);
    return strcmp(verb, "delete") == 0 ? dds_delete(writer) : DDS_RETCODE_BAD_PARAMETER;
}

int main(int argc, char **argv)
{
    struct options o = options_of(argc, argv);
    dds_entity_t participant = sure(dds_create_participant(o.domain, NULL, NULL), "participant");
    dds_entity_t writers[2] = {writer_of(participant, o, 0), 0};
    int count = o.strength >= 0 ? 2 : 1;
    if (count == 2)
        writers[1] = writer_of(participant, o, 1);
    char line[256], verb[32], name[32];
    while (fgets(line, sizeof line, stdin)) {
        int value = 0;
        verb[0] = name[0] = 0;
        sscanf(line, "%31s %31s %d", verb, name, &value);
        if (strcmp(verb, "quit") == 0)
            break;
        for (int i = 0; i < count; i++)
            sure(act(writers[i], verb, name, value), verb);
        puts("ok");
        fflush(stdout);
    }
    dds_delete(participant);
    return 0;
}
