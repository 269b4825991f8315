/* A signal comes in the middle of dcps_call, since its pens cannot be read, and its handler walks the stack back as a debugger
 * does. Ends with 0 where that leads through dcps_call to its caller, so where the library has unwind tables. */
#define _GNU_SOURCE
#include <signal.h>
#include <stdio.h>
#include <sys/mman.h>
#include <unistd.h>
#include <unwind.h>

#include "dcps_inline.h"

static uint8_t head[DCPS_HEAD_BYTES], writers[DCPS_WRITERS_BYTES], lost[DCPS_LOST_BYTES], out[DCPS_OUT_BYTES];
static uint8_t sheet[DCPS_SHEET_BYTES], answer[DCPS_ANSWER_BYTES];
static struct dcps_lent state;

__attribute__((noinline)) static void caller(void)
{
    dcps_lent_call(state, sheet, answer);
    puts("the call came back");
}

static _Unwind_Reason_Code frame(struct _Unwind_Context *context, void *found)
{
    if (_Unwind_FindEnclosingFunction((void *)_Unwind_GetIP(context)) == (void *)(size_t)caller)
        *(int *)found = 1;
    return _URC_NO_REASON;
}

static void handle(int number)
{
    int found = 0;
    (void)number;
    _Unwind_Backtrace(frame, &found);
    _exit(!found);
}

int main(void)
{
    uint8_t *pens = (uint8_t *)mmap(NULL, DCPS_PENS_BYTES, PROT_READ | PROT_WRITE, MAP_PRIVATE | MAP_ANONYMOUS, -1, 0);
    if (pens == MAP_FAILED)
        return 2;
    state = dcps_lent_of(head, pens, DCPS_PENS_BYTES, writers, lost, out);
    dcps_lent_fresh(state);
    dcps_sheet_begin(sheet, DCPS_CODE_REGISTER);
    if (dcps_lent_call(state, sheet, answer) != DCPS_ACCEPTED || mprotect(pens, DCPS_PENS_BYTES, PROT_NONE) != 0)
        return 2;
    signal(SIGSEGV, handle);
    caller();
    return 2;
}
