/* SPDX-License-Identifier: Apache-2.0 */
/* What the console and the writer share: the topics, keys by name, and how to stop. */
#ifndef COMMON_H
#define COMMON_H

#include <stdio.h>
#include <stdlib.h>
#include <string.h>

#include "Samples.h"
#include "dds/dds.h"

/* Each sample goes to the SHARED topic, where a reader sees all of them; a writer with a strength writes it to the
 * EXCLUSIVE one too, where Cyclone turns away what the owner's rule turns away. */
#define SHARED_TOPIC "Samples"
#define EXCLUSIVE_TOPIC "SamplesExclusive"

static inline dds_entity_t sure(dds_entity_t entity, const char *what)
{
    if (entity < 0) {
        fprintf(stderr, "%s: %s\n", what, dds_strretcode(entity));
        exit(1);
    }
    return entity;
}

static inline dds_qos_t *qos_of(int exclusive)
{
    dds_qos_t *qos = dds_create_qos();
    dds_qset_reliability(qos, DDS_RELIABILITY_RELIABLE, DDS_SECS(2));
    dds_qset_history(qos, DDS_HISTORY_KEEP_ALL, 0);
    dds_qset_ownership(qos, exclusive ? DDS_OWNERSHIP_EXCLUSIVE : DDS_OWNERSHIP_SHARED);
    return qos;
}

static inline dds_entity_t topic_of(dds_entity_t participant, int exclusive)
{
    return sure(dds_create_topic(participant, &console_Sample_desc, exclusive ? EXCLUSIVE_TOPIC : SHARED_TOPIC, NULL, NULL),
                "topic");
}

/* A key by its name, zeros behind it. */
static inline void key_of(uint8_t key[16], const char *name)
{
    size_t length = strlen(name);
    memset(key, 0, 16);
    memcpy(key, name, length < 16 ? length : 16);
}

#endif
