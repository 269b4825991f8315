/* SPDX-License-Identifier: Apache-2.0 */
/* Loads the state that a file keeps, of either size, or starts one in a new file, registers an instance, and saves:
 * keep_call FILE. A file with both slots damaged stays as it is. */
#define _POSIX_C_SOURCE 200809L
#include <fcntl.h>
#include <inttypes.h>
#include <stdio.h>

#include "dcps_keep.h"

int main(int count, char **words)
{
    static struct dcps_state large;
    static struct dcps_small_state small;
    uint8_t key[DCPS_KEY_BYTES] = {'n', 'e', 'w'}, sheet[DCPS_SHEET_BYTES], answer[DCPS_ANSWER_BYTES];
    int fd = count == 2 ? open(words[1], O_RDWR | O_CREAT, 0600) : -1;
    struct dcps_keep keep = dcps_keep_file(&fd);
    struct dcps_lent state = dcps_state_lent(&large);
    int result;
    if (fd < 0) {
        fprintf(stderr, "keep_call FILE\n");
        return 2;
    }
    if (dcps_keep_places(&keep) == DCPS_SMALL_INSTANCE_PLACES)
        state = dcps_small_state_lent(&small);
    result = dcps_keep_load_lent(&keep, state);
    if (result == DCPS_KEEP_NONE_WHOLE && keep.damaged == 0)
        result = dcps_keep_start_lent(&keep, state);
    if (result != DCPS_KEEP_OK) {
        fprintf(stderr, "%s\n", keep.error);
        return 1;
    }
    printf("loaded %" PRIu64 " with %u places", keep.sequence, dcps_head_places(state.head));
    dcps_sheet_register(sheet, key, NULL, 0, NULL);
    if (dcps_lent_call(state, sheet, answer) != DCPS_ACCEPTED || dcps_keep_save_lent(&keep, state) != DCPS_KEEP_OK)
        return 1;
    printf(", saved %" PRIu64 "\n", keep.sequence);
    return close(fd);
}
