/* SPDX-License-Identifier: Apache-2.0 */
/* The same calls, keys and stamps with every buffer at each address modulo 16, on states of either size, and in threads of
 * their own: the same states, answers, hashes and fractions. */
#define _POSIX_C_SOURCE 200809L
#include <pthread.h>
#include <stdio.h>
#include <stdlib.h>

#include "dcps_inline.h"

#define CALLS 200
#define RUNS 17 /* of each size */
#define HALF 500000u /* of a millisecond, in nanoseconds */

struct run {
    uint8_t bytes[sizeof(struct dcps_state) + DCPS_SHEET_BYTES + DCPS_ANSWER_BYTES + 16];
    uint8_t answers[CALLS][DCPS_ANSWER_BYTES];
    uint8_t keys[CALLS][DCPS_READ_BYTES];
    uint8_t fractions[CALLS][DCPS_READ_BYTES];
    uint8_t nanos[CALLS][DCPS_READ_BYTES];
    size_t shift, pens_bytes;
};

static struct run runs[2 * RUNS];

/* Head and buffers of a run, one behind the other. */
static struct dcps_lent state_of(struct run *run)
{
    uint8_t *head = run->bytes + run->shift, *pens = head + DCPS_HEAD_BYTES, *writers = pens + run->pens_bytes;
    uint8_t *lost = writers + DCPS_WRITERS_BYTES;
    return dcps_lent_of(head, pens, run->pens_bytes, writers, lost, lost + DCPS_LOST_BYTES);
}

/* A sheet that depends on its number alone, of any code. */
static void fill(uint8_t *sheet, unsigned number)
{
    static const uint8_t codes[] = {48, 48, 32, 1, 5, 7, 9, 10, 16, 35, 37, 49, 38, 50, 51, 21};
    memset(sheet, 0, DCPS_SHEET_BYTES);
    sheet[DCPS_SHEET_KEY] = (uint8_t)(number % 11);
    sheet[DCPS_SHEET_GUID] = (uint8_t)(number % 7);
    dcps_put_u64(sheet + DCPS_SHEET_HANDLE, 1 + number % 5);
    dcps_put_i32(sheet + DCPS_SHEET_TIME_1, (int32_t)number);
    dcps_put_i32(sheet + DCPS_SHEET_TIME_2, (int32_t)number);
    dcps_put_u64(sheet + DCPS_SHEET_A, number);
    dcps_put_u64(sheet + DCPS_SHEET_B, 30);
    dcps_put_i32(sheet + DCPS_SHEET_LIMIT, -1);
    sheet[DCPS_SHEET_BITS] = (uint8_t)(DCPS_BIT_TIME_1 | DCPS_BIT_LEASE);
    sheet[DCPS_SHEET_CODE] = codes[number * 7 % sizeof codes];
    dcps_put_u16(sheet + DCPS_SHEET_HOLDER_LENGTH, (uint16_t)(number % 145));
}

static void *make(void *pointer)
{
    struct run *run = (struct run *)pointer;
    struct dcps_lent state = state_of(run);
    uint8_t *sheet = state.out + DCPS_OUT_BYTES, *answer = sheet + DCPS_SHEET_BYTES;
    unsigned number;
    dcps_lent_fresh(state);
    for (number = 0; number < CALLS; number++) {
        fill(sheet, number);
        dcps_lent_call(state, sheet, answer);
        memcpy(run->answers[number], answer, DCPS_ANSWER_BYTES);
        dcps_key_hash(sheet, number, number % 2 ? DCPS_KEY_LARGEST_BYTES : DCPS_KEY_BYTES, answer, DCPS_READ_BYTES);
        memcpy(run->keys[number], answer, DCPS_READ_BYTES);
        dcps_wire_fraction(number * 11 * HALF, answer, DCPS_READ_BYTES);
        memcpy(run->fractions[number], answer, DCPS_READ_BYTES);
        dcps_wire_nanos(dcps_read_fraction(answer), dcps_read_remainder(answer), answer, DCPS_READ_BYTES);
        memcpy(run->nanos[number], answer, DCPS_READ_BYTES);
    }
    return NULL;
}

/* Answers as those of the first run, and head and buffers as those of the first of its size. */
static int same(const struct run *run, const struct run *first_of_size)
{
    return memcmp(run->answers, runs[0].answers, sizeof run->answers) == 0 &&
           memcmp(run->keys, runs[0].keys, sizeof run->keys) == 0 &&
           memcmp(run->fractions, runs[0].fractions, sizeof run->fractions) == 0 &&
           memcmp(run->nanos, runs[0].nanos, sizeof run->nanos) == 0 &&
           memcmp(run->bytes + run->shift, first_of_size->bytes,
                  sizeof(struct dcps_state) - DCPS_PENS_BYTES + run->pens_bytes) == 0;
}

int main(void)
{
    pthread_t threads[2 * RUNS];
    size_t i, accepted = 0, keys = 0, stamps = 0;
    for (i = 0; i < 2 * RUNS; i++) {
        runs[i].shift = i % RUNS % 16;
        runs[i].pens_bytes = i < RUNS ? DCPS_PENS_BYTES : DCPS_SMALL_PENS_BYTES;
        if (pthread_create(&threads[i], NULL, make, &runs[i]) != 0)
            abort();
    }
    for (i = 0; i < 2 * RUNS; i++)
        pthread_join(threads[i], NULL);
    for (i = 0; i < CALLS; i++) {
        accepted += runs[0].answers[i][DCPS_ANSWER_NUMBER] == DCPS_ACCEPTED;
        keys += dcps_read_number(runs[0].keys[i]) == DCPS_ACCEPTED;
        stamps += dcps_read_wire_nanos(runs[0].nanos[i]) == i * 11 * HALF;
    }
    for (i = 1; i < 2 * RUNS; i++)
        if (!same(&runs[i], &runs[i / RUNS * RUNS])) {
            fprintf(stderr, "unaligned: another result at %zu\n", i);
            return 1;
        }
    printf("unaligned: %zu of %d calls and %zu keys accepted, %zu stamps recovered, the same at each address modulo 16, with 32 and "
           "128 places, in %d threads\n",
           accepted, CALLS, keys, stamps, 2 * RUNS);
    return accepted < CALLS / 2 || keys < CALLS / 2 || stamps < CALLS / 2;
}
