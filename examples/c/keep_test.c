/* SPDX-License-Identifier: Apache-2.0 */
/* Cuts a save at every byte, in memory, and loads: the old state before the last byte, the new one behind it. Then damage to
 * either slot and to both, blocks that reach the area out of order, a head from before heads had the number of places, and a
 * file. All of it with states of either size, and an area of one size that is used for the other, or whose number of places is
 * damaged. With an argument every so manyth byte. */
#define _POSIX_C_SOURCE 200809L
#include <stdio.h>
#include <stdlib.h>

#include "dcps_keep.h"

#define NEED(what)                                                          \
    do {                                                                    \
        if (!(what)) {                                                      \
            fprintf(stderr, "keep_test: line %d: %s\n", __LINE__, #what);   \
            exit(1);                                                        \
        }                                                                   \
    } while (0)

/* Each size has an area of its own length, so that a sanitizer sees what reaches behind it. */
static uint8_t small_area[DCPS_KEEP_SMALL_BYTES], large_area[DCPS_KEEP_BYTES], written[DCPS_KEEP_BYTES];
static uint8_t *area;

/* Three states and a loaded one. Those of 32 places are lent the front of the pens. */
static struct dcps_state memory[4];
static struct dcps_lent first, second, third, loaded;

/* What a save writes, byte by byte, in its order. */
static struct {
    size_t at;
    uint8_t byte;
} journal[DCPS_KEEP_SLOT_BYTES];
static size_t journaled, slot_bytes;

static int journal_write(void *place, size_t at, const uint8_t *bytes, size_t length)
{
    size_t i;
    (void)place;
    for (i = 0; i < length; i++) {
        journal[journaled].at = at + i;
        journal[journaled++].byte = bytes[i];
    }
    return 0;
}

static int same(struct dcps_lent a, struct dcps_lent b)
{
    struct dcps_keep_part one[4], other[4];
    unsigned i;
    dcps_keep_parts(one, a);
    dcps_keep_parts(other, b);
    for (i = 0; i < 4; i++)
        if (one[i].length != other[i].length || memcmp(one[i].bytes, other[i].bytes, one[i].length) != 0)
            return 0;
    return 1;
}

/* Of the area, within its length. */
static struct dcps_keep keeper(void)
{
    return dcps_keep_memory_of(area, area == small_area ? sizeof small_area : sizeof large_area);
}

static int load(unsigned *damaged)
{
    struct dcps_keep keep = keeper();
    int result = dcps_keep_load_lent(&keep, loaded);
    *damaged = keep.damaged;
    return result;
}

static struct dcps_lent lent(unsigned number, size_t pens_bytes)
{
    struct dcps_lent s = dcps_state_lent(&memory[number]);
    s.pens_bytes = pens_bytes;
    return s;
}

static void sample(struct dcps_lent s, unsigned number)
{
    uint8_t key[16] = {0}, guid[16] = {1}, sheet[DCPS_SHEET_BYTES], answer[DCPS_ANSWER_BYTES];
    struct dcps_sample sample;
    dcps_put_u32(key, number);
    sample = dcps_sample_of(key, guid, dcps_time_of((int32_t)number, 0));
    dcps_sheet_admit(sheet, &sample);
    NEED(dcps_lent_call(s, sheet, answer) == DCPS_ACCEPTED);
}

/* The states, each a sample after the other. */
static void make(size_t pens_bytes)
{
    first = lent(0, pens_bytes);
    second = lent(1, pens_bytes);
    third = lent(2, pens_bytes);
    loaded = lent(3, pens_bytes);
    slot_bytes = dcps_keep_at(1, pens_bytes);
    area = pens_bytes == DCPS_SMALL_PENS_BYTES ? small_area : large_area;
    memset(memory, 0, sizeof memory);
    NEED(dcps_lent_fresh(first) == DCPS_ACCEPTED);
    sample(first, 1);
    memory[1] = memory[0];
    sample(second, 2);
    memory[2] = memory[1];
    sample(third, 0);
}

/* Third over first and second: slot 0 has first's place. */
static void cuts(size_t step)
{
    struct dcps_keep keep = keeper();
    unsigned damaged;
    size_t cut;
    NEED(dcps_keep_start_lent(&keep, first) == DCPS_KEEP_OK && dcps_keep_save_lent(&keep, second) == DCPS_KEEP_OK);
    memcpy(written, area, 2 * slot_bytes);
    keep.write = journal_write;
    journaled = 0;
    NEED(dcps_keep_save_lent(&keep, third) == DCPS_KEEP_OK && journaled == slot_bytes);
    for (cut = 0; cut <= journaled; cut++) {
        if (cut % step == 0 || cut + 100 > journaled) {
            NEED(load(&damaged) == DCPS_KEEP_OK && (damaged & 2) == 0);
            NEED(same(loaded, second) || (same(loaded, third) && damaged == 0));
            NEED(cut < journaled || same(loaded, third));
        }
        if (cut < journaled)
            area[journal[cut].at] = journal[cut].byte;
    }
}

/* Blocks of 512 bytes that reach the area in no order, the header not yet. */
static void blocks(void)
{
    unsigned damaged, round;
    size_t i, j;
    for (round = 0; round < 200; round++) {
        memcpy(area, written, 2 * slot_bytes);
        srand(round);
        for (i = 0; i + 512 <= slot_bytes - DCPS_KEEP_HEADER_BYTES; i += 512)
            if (rand() % 2)
                for (j = i; j < i + 512; j++)
                    area[journal[j].at] = journal[j].byte;
        NEED(load(&damaged) == DCPS_KEEP_OK && same(loaded, second));
    }
}

static void damage(void)
{
    struct dcps_keep keep = keeper();
    unsigned damaged;
    memset(area, 0, 2 * slot_bytes);
    NEED(load(&damaged) == DCPS_KEEP_NONE_WHOLE && damaged == 0 && dcps_keep_places(&keep) == 0);
    NEED(dcps_keep_start_lent(&keep, first) == DCPS_KEEP_OK);
    NEED(load(&damaged) == DCPS_KEEP_OK && damaged == 0 && same(loaded, first));
    NEED(dcps_keep_save_lent(&keep, second) == DCPS_KEEP_OK);
    NEED(load(&damaged) == DCPS_KEEP_OK && damaged == 0 && same(loaded, second));
    NEED(dcps_keep_places(&keep) == second.pens_bytes / DCPS_INSTANCE_BYTES);
    area[slot_bytes + 5000] ^= 1;
    NEED(load(&damaged) == DCPS_KEEP_OK && damaged == 2 && same(loaded, first));
    area[40] ^= 1;
    NEED(load(&damaged) == DCPS_KEEP_NONE_WHOLE && damaged == 3);
    area[40] ^= 1;
    area[slot_bytes + 5000] ^= 1;
    area[DCPS_KEEP_HEADER_BYTES + DCPS_HEAD_PLACES + 1] ^= 32;
    NEED(load(&damaged) == DCPS_KEEP_OK && damaged == 1 && same(loaded, second));
    /* What is saved next goes to the damaged slot. */
    NEED(dcps_keep_load_lent(&keep, loaded) == DCPS_KEEP_OK && dcps_keep_save_lent(&keep, third) == DCPS_KEEP_OK);
    NEED(load(&damaged) == DCPS_KEEP_OK && damaged == 0 && same(loaded, third));
    /* A checksum that fits does not make a state well formed. */
    third.pens[third.pens_bytes - 1] = 1;
    NEED(dcps_keep_save_lent(&keep, third) == DCPS_KEEP_OK);
    NEED(load(&damaged) == DCPS_KEEP_OK && damaged == 2);
    third.pens[third.pens_bytes - 1] = 0;
}

static void in_a_file(void)
{
    FILE *file = tmpfile();
    int fd = file ? fileno(file) : -1;
    struct dcps_keep keep = dcps_keep_file(&fd);
    NEED(fd >= 0);
    NEED(dcps_keep_load_lent(&keep, loaded) == DCPS_KEEP_NONE_WHOLE);
    NEED(dcps_keep_start_lent(&keep, second) == DCPS_KEEP_OK && dcps_keep_save_lent(&keep, third) == DCPS_KEEP_OK);
    NEED(dcps_keep_load_lent(&keep, loaded) == DCPS_KEEP_OK && same(loaded, third) && keep.sequence == 2);
    fclose(file);
    NEED(dcps_keep_save_lent(&keep, third) == DCPS_KEEP_FAILED);
}

/* A state of the other size, fresh. */
static struct dcps_lent of_other_size(void)
{
    static struct dcps_state large;
    static struct dcps_small_state small;
    struct dcps_lent other = area == small_area ? dcps_state_lent(&large) : dcps_small_state_lent(&small);
    NEED(dcps_lent_fresh(other) == DCPS_ACCEPTED);
    return other;
}

/* One damaged number of places in slot 0 costs that slot alone, and with both damaged nothing is told. Neither a load nor a
 * start of the other size changes the area then, where it is too short for one. */
static void damaged_places(void)
{
    static const uint16_t numbers[] = {0, 32, 128, 33, 160, 0xffff};
    struct dcps_lent other = of_other_size();
    struct dcps_keep keep = keeper();
    uint8_t *number = area + DCPS_KEEP_HEADER_BYTES + DCPS_HEAD_PLACES;
    unsigned damaged, i;
    NEED(dcps_keep_start_lent(&keep, first) == DCPS_KEEP_OK && dcps_keep_save_lent(&keep, second) == DCPS_KEEP_OK);
    for (i = 0; i < sizeof numbers / sizeof *numbers; i++) {
        if (numbers[i] == first.pens_bytes / DCPS_INSTANCE_BYTES)
            continue;
        dcps_put_u16(number, numbers[i]);
        NEED(dcps_keep_places(&keep) == first.pens_bytes / DCPS_INSTANCE_BYTES);
        NEED(load(&damaged) == DCPS_KEEP_OK && damaged == 1 && same(loaded, second));
        NEED(dcps_keep_load_lent(&keep, other) == DCPS_KEEP_OTHER_PLACES);
        area[slot_bytes + 5000] ^= 1;
        memcpy(written, area, 2 * slot_bytes);
        NEED(dcps_keep_places(&keep) == 0 && load(&damaged) == DCPS_KEEP_NONE_WHOLE && damaged == 3);
        NEED(dcps_keep_load_lent(&keep, other) == DCPS_KEEP_NONE_WHOLE && (keep.damaged & 1) == 1);
        NEED(area != small_area || dcps_keep_start_lent(&keep, other) == DCPS_KEEP_FAILED);
        NEED(memcmp(written, area, 2 * slot_bytes) == 0);
        area[slot_bytes + 5000] ^= 1;
    }
}

/* A new keeper that was refused a load of the other size refuses the save too, and the area is as it was. */
static void refused_save(void)
{
    struct dcps_lent other = of_other_size();
    struct dcps_keep keep = keeper();
    NEED(dcps_keep_start_lent(&keep, first) == DCPS_KEEP_OK && dcps_keep_save_lent(&keep, second) == DCPS_KEEP_OK);
    memcpy(written, area, 2 * slot_bytes);
    keep = keeper();
    NEED(dcps_keep_load_lent(&keep, other) == DCPS_KEEP_OTHER_PLACES);
    NEED(dcps_keep_save_lent(&keep, other) == DCPS_KEEP_OTHER_PLACES);
    NEED(memcmp(written, area, 2 * slot_bytes) == 0);
}

/* The area keeps a state, and one of the other size comes: it is neither loaded nor saved, until the area is given up. What is
 * then left of the first is not loaded either, also where the new slot is damaged. */
static void the_other_size(void)
{
    struct dcps_lent other = of_other_size();
    struct dcps_keep keep = dcps_keep_memory(large_area);
    unsigned damaged;
    area = large_area;
    NEED(dcps_keep_start_lent(&keep, first) == DCPS_KEEP_OK && dcps_keep_save_lent(&keep, second) == DCPS_KEEP_OK);
    NEED(dcps_keep_load_lent(&keep, other) == DCPS_KEEP_OTHER_PLACES && dcps_head_next_handle(other.head) == 1);
    NEED(dcps_keep_save_lent(&keep, other) == DCPS_KEEP_OTHER_PLACES);
    NEED(load(&damaged) == DCPS_KEEP_OK && same(loaded, second));
    NEED(dcps_keep_start_lent(&keep, other) == DCPS_KEEP_OK && load(&damaged) == DCPS_KEEP_OTHER_PLACES);
    NEED(dcps_keep_places(&keep) == other.pens_bytes / DCPS_INSTANCE_BYTES);
    NEED(dcps_keep_load_lent(&keep, other) == DCPS_KEEP_OK && keep.sequence == 1);
    dcps_put_u16(area + DCPS_KEEP_HEADER_BYTES + DCPS_HEAD_PLACES, 0);
    NEED(dcps_keep_places(&keep) == 0 && load(&damaged) == DCPS_KEEP_NONE_WHOLE && (damaged & 1) == 1);
}

static int save_from_before(struct dcps_keep *keep, struct dcps_lent s)
{
    int result;
    dcps_put_u16(s.head + DCPS_HEAD_PLACES, 0);
    result = dcps_keep_save_lent(keep, s);
    dcps_put_u16(s.head + DCPS_HEAD_PLACES, (uint16_t)(s.pens_bytes / DCPS_INSTANCE_BYTES));
    return result;
}

/* A state from before heads had the number of places is loaded as one with 128, and as no other. */
static void from_before(void)
{
    struct dcps_keep keep = keeper();
    unsigned damaged;
    NEED(dcps_keep_start_lent(&keep, first) == DCPS_KEEP_OK && save_from_before(&keep, second) == DCPS_KEEP_OK);
    NEED(load(&damaged) == DCPS_KEEP_OK);
    if (second.pens_bytes == DCPS_SMALL_PENS_BYTES) {
        NEED(damaged == 2 && same(loaded, first)); /* there were none of 32 places */
        return;
    }
    NEED(damaged == 0 && same(loaded, second));
    NEED(save_from_before(&keep, third) == DCPS_KEEP_OK && dcps_keep_places(&keep) == DCPS_INSTANCE_PLACES);
    NEED(dcps_keep_load_lent(&keep, of_other_size()) == DCPS_KEEP_OTHER_PLACES);
    NEED(load(&damaged) == DCPS_KEEP_OK && damaged == 0 && same(loaded, third));
}

int main(int count, char **words)
{
    static const size_t pens_bytes[] = {DCPS_SMALL_PENS_BYTES, DCPS_PENS_BYTES};
    size_t step = count > 1 ? (size_t)strtoul(words[1], NULL, 10) : 1, cut = 0, i;
    NEED(step > 0);
    for (i = 0; i < 2; i++) {
        make(pens_bytes[i]);
        cuts(step);
        blocks();
        damage();
        damaged_places();
        refused_save();
        from_before();
        in_a_file();
        the_other_size();
        cut += slot_bytes / step + 1;
    }
    printf("keep: cut at %zu bytes, old or new each time, of states with 32 and with 128 places\n", cut);
    return 0;
}
