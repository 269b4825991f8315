#include <stdio.h>
#include "dcps_inline.h"

static struct dcps_state console;
static uint8_t sheet[DCPS_SHEET_BYTES], answer[DCPS_ANSWER_BYTES];

int main(void)
{
    const uint8_t pen[16] = "pen-01", writer[16] = "plotter-1";
    const uint64_t lease = 2000000000; /* nanoseconds */
    const struct dcps_time at = dcps_time_of(3, 0);
    struct dcps_sample sample = dcps_sample_of(pen, writer, dcps_time_of(1, 0));
    dcps_state_fresh(&console);
    dcps_sheet_matched(sheet, writer, DCPS_AUTOMATIC, &lease, 0), dcps_state_call(&console, sheet, answer);
    dcps_sheet_admit(sheet, &sample), dcps_state_call(&console, sheet, answer);
    dcps_sheet_lapse(sheet, 3000000000u, &at), dcps_state_call(&console, sheet, answer);
    DCPS_EACH_HANDLE(handle, console.out, dcps_answer_listed(answer))
        printf("instance %d is abandoned\n", (int)handle);
    return dcps_answer_number(answer); /* 0, or why the lapse was refused */
}
