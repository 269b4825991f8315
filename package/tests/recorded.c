/* Replays the recorded lists (docs/evidence/LISTS.md of the source) from standard input through dcps_call: a line for each
 * disagreement, then how many calls there were and how many disagreed. */
#include <stdio.h>
#include <stdlib.h>

#include "dcps_inline.h"

#define BODY 4792
#define SHEET_MOST 512
#define CALL_FRONT 184 /* of a call's body: behind it stand the sheet and what is written to out */

enum { BEGIN = 1, LIST, PUT, HEAD, CALL, EXPECT, END };

static uint8_t head[DCPS_HEAD_BYTES], pens[66048], writers[5160], lost[4112], out[4112];
static unsigned long list, calls, wrong;

static uint64_t digest(const uint8_t *b, size_t length)
{
    uint64_t hash = 0xcbf29ce484222325u;
    while (length-- > 0)
        hash = (hash ^ *b++) * 0x100000001b3u;
    return hash;
}

static void broken(const char *why)
{
    fprintf(stderr, "recorded: %s\n", why);
    exit(2);
}

static void agrees(int holds, const char *what)
{
    if (!holds) {
        wrong++;
        printf("list %lu, call %lu: %s\n", list, calls, what);
    }
}

static void begin_list(const uint8_t *body)
{
    size_t pens_bytes = (size_t)dcps_get_u16(body + 6) * DCPS_INSTANCE_BYTES;
    list = dcps_get_u32(body);
    memset(pens, 0, sizeof pens);
    memset(writers, 0, sizeof writers);
    memset(lost, 0, sizeof lost);
    if (dcps_fresh(head, sizeof head, pens, pens_bytes, writers, DCPS_WRITERS_BYTES, lost, DCPS_LOST_BYTES) != DCPS_ACCEPTED)
        broken("a list has neither 32 nor 128 places");
}

/* The bytes that a put or an expect names. */
static uint8_t *named(const uint8_t *body, size_t length)
{
    uint8_t *buffers[] = {pens, writers, lost};
    const size_t sizes[] = {sizeof pens, sizeof writers, sizeof lost};
    size_t offset = dcps_get_u32(body + 4);
    if (body[0] > 2 || offset > sizes[body[0]] || length - 8 > sizes[body[0]] - offset)
        broken("a record leaves its buffer");
    return buffers[body[0]] + offset;
}

static void make_call(const uint8_t *body, size_t length)
{
    size_t sheet_length = dcps_get_u16(body), out_length = dcps_get_u16(body + 2), pens_length = dcps_get_u32(body + 4),
           writers_length = dcps_get_u16(body + 8), lost_length = dcps_get_u16(body + 10), written = dcps_get_u16(body + 14);
    const uint8_t *sheet = body + CALL_FRONT;
    uint8_t answer[DCPS_ANSWER_BYTES];
    uint32_t number;
    if (sheet_length > SHEET_MOST || out_length > sizeof out || pens_length > sizeof pens || writers_length > sizeof writers ||
        lost_length > sizeof lost || written > out_length || length != CALL_FRONT + sheet_length + written)
        broken("a call has lengths that no recorded one has");
    memset(out, body[12], sizeof out);
    number = dcps_call(head, sizeof head, sheet, sheet_length, pens, pens_length, writers, writers_length, lost, lost_length, out,
                       out_length, answer, sizeof answer);
    calls++;
    agrees(number == body[48], "number");
    agrees(memcmp(answer, body + 48, sizeof answer) == 0, "answer");
    agrees(memcmp(head, body + 120, sizeof head) == 0, "head");
    agrees(memcmp(out, sheet + sheet_length, written) == 0, "written");
    agrees(digest(out, out_length) == dcps_get_u64(body + 16), "out");
    agrees(digest(pens, pens_length) == dcps_get_u64(body + 24), "pens");
    agrees(digest(writers, writers_length) == dcps_get_u64(body + 32), "writers");
    agrees(digest(lost, lost_length) == dcps_get_u64(body + 40), "lost");
}

static void follow(unsigned type, const uint8_t *body, size_t length)
{
    static const size_t least[] = {0, 16, 32, 9, DCPS_HEAD_BYTES, CALL_FRONT, 9, 0};
    if (type < BEGIN || type > END || length < least[type])
        broken("a record that is none");
    switch (type) {
    case LIST: begin_list(body); break;
    case PUT: memcpy(named(body, length), body + 8, length - 8); break;
    case HEAD: memcpy(head, body, sizeof head); break;
    case CALL: make_call(body, length); break;
    case EXPECT: agrees(memcmp(named(body, length), body + 8, length - 8) == 0, "record in full"); break;
    default: break;
    }
}

int main(void)
{
    static uint8_t front[8], body[BODY];
    unsigned long stated = 0;
    do {
        size_t length;
        if (fread(front, 1, sizeof front, stdin) != sizeof front)
            broken("the file has no end");
        length = dcps_get_u32(front + 4);
        if (length > BODY || fread(body, 1, length, stdin) != length)
            broken("a record is cut");
        follow(front[0], body, length);
        if (front[0] == BEGIN)
            stated = dcps_get_u32(body + 8);
    } while (front[0] != END);
    printf("%lu calls, %lu disagreements\n", calls, wrong);
    return wrong != 0 || calls != stated;
}
