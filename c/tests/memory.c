/* Each request for memory of a write, of a far end's reply, of a put, and of a step of each tag is refused in turn: a fault is told, nothing is lost, and the same call succeeds once
 * memory is there. */
#include <stdio.h>
#include <stdlib.h>

static long requests, refused = -1;

static void *counted_malloc(size_t size)
{
    return requests++ == refused ? NULL : malloc(size);
}

static void *counted_realloc(void *at, size_t size)
{
    return requests++ == refused ? NULL : realloc(at, size);
}

#define malloc counted_malloc
#define realloc counted_realloc
#include "../zevlodek.c"
#undef malloc
#undef realloc

#include "drive.h"

static driver by;
static tag of;

static void fresh(void)
{
    static const uint8_t begins[10] = {0xE1, 0x10, 0x06, 0x00, 3, 3, 0xD0, 0, 0, 0xFE};
    memset(&of, 0, sizeof of);
    of.kind = 2;
    of.size = 64;
    of.cut = -1;
    memcpy(of.memory + 12, begins, sizeof begins);
}

static int32_t write_whole(void)
{
    static const uint8_t message[20] = {0xD1, 1, 16, 'T', 2, 'e', 'n'};
    fresh();
    return drive(&by, &of, true, message, sizeof message);
}

/* CONNECT, a put in two units, and a get, at a far end with an offer. */
static int32_t answer_whole(void)
{
    static const uint8_t link[] = {2,    0, 0x11, 0x20, 10, 0, 0x13, 0x20, 0x00, 0x10, 2, 0, 0, 0, 3, 0xD0, 5, 0, 0x13, 0x20, 0x11, 0, 0,
                                   15,   0, 0x13, 0x20, 0x22, 0x10, 1, 0, 0, 0, 6, 0, 0, 4, 0, 'k', '1'};
    static const uint8_t offers[] = {2, 0, 'k', '1', 1, 0, 0xA1}, general[] = {0x46, 0x66, 0x6D, 1, 1, 0x13};
    static const zev_peer peer = {1024, 128, 1};
    by.told.length = 0;
    int32_t said = zev_peer_reply(&peer, offers, sizeof offers, general, sizeof general, link, sizeof link, by.out, sizeof by.out, &by.told);
    return said == ZEV_DONE && (by.told.length != 10 || by.out[9] != 0xA1) ? GONE : said;
}

/* A put behind CONNECT and CC: the unit that is to be sent. */
static int32_t put_on(void)
{
    static const uint8_t log[] = {5, 3, 0, 0xD0, 0, 0, 4, 2, 0, 0x81, 0x84}, general[] = {0x46, 0x66, 0x6D, 1, 1, 0x13};
    static const zev_near sizes = {128, 1};
    by.told.length = 0;
    int32_t said = zev_client_next(&sizes, general, sizeof general, log, sizeof log, by.out, sizeof by.out, &by.told);
    return said == ZEV_SEND && by.told.length == 12 ? ZEV_DONE : said == ZEV_SEND ? GONE : said;
}

/* One step of a tag of each type. */
static int32_t steps(void)
{
    static const uint8_t container[15] = {0x00, 0x0F, 0x20, 0x00, 0x3B, 0x00, 0x34, 0x04, 0x06, 0xE1, 0x04, 0x00, 0x02, 0x00, 0x00}, id[8], locks[16], two[2] = {0x30, 0};
    static uint8_t memory[64];
    zev_t4_state four = {0, 0};
    zev_t5_state five = {0, 0, 0, 0};
    int32_t said = zev_t2_tag(memory, 64, locks, 16, two, 2, 0, by.out, 16, &by.told);
    said = said ? said : zev_t4_tag(container, 15, memory, 2, &four, two, 2, by.out, 2, &by.told);
    return said ? said : zev_t5_tag(id, 4, memory, 64, locks, 16, &five, (const uint8_t *)"\x26\x01", 3, by.out, 10, &by.told);
}

/* Refuses each request of a job in turn: how many there are, and how often the job told something else. */
static long refuse_each(int32_t (*job)(void), int32_t fault, long *wrong)
{
    requests = 0;
    *wrong += job() != ZEV_DONE;
    long all = requests;
    for (long n = 0; n < all; n++) {
        requests = 0;
        refused = n;
        *wrong += job() != fault;
        refused = -1;
        *wrong += job() != ZEV_DONE;
    }
    return all;
}

int main(void)
{
    long wrong = 0;
    long written = refuse_each(write_whole, ZEV_TAG_NO_MEMORY, &wrong), answered = refuse_each(answer_whole, ZEV_NO_MEMORY, &wrong);
    long put = refuse_each(put_on, ZEV_NO_MEMORY, &wrong), stepped = refuse_each(steps, ZEV_NO_MEMORY, &wrong);
    printf("requests %ld, %ld, %ld and %ld, wrong %ld\n", written, answered, put, stepped, wrong);
    return wrong != 0 || written == 0 || answered == 0 || put == 0 || stepped == 0;
}
