/* A Type 4 tag is read over ISO-DEP: the reading gives commands, the reader's end sends them in frames, the card's end hands them to the tag. All of it
 * is in this program; with a chip that carries bare frames, the reader or the card is yours. */
#include <stdio.h>

#include "../zevlodek.h"

enum { ROOM = 1 << 16, CODE = 2 };

static const uint8_t container[15] = {0x00, 0x0F, 0x20, 0x00, 0x3B, 0x00, 0x34, 0x04, 0x06, 0xE1, 0x04, 0x00, 0x40, 0x00, 0x00};
static uint8_t file[64] = {0x00, 0x05, 0xD1, 0x01, 0x01, 'T', 0x00};
static zev_t4_state state;

static uint8_t room[3][ROOM], frame[512], out[ROOM];
static zev_log turns = {room[0], 0, ROOM}, reader = {room[1], 0, ROOM}, card = {room[2], 0, ROOM};

/* The card's side of a frame: its answer's length, 0 for none. */
static size_t answer(size_t length)
{
    zev_told told = {0, 0, 0, 0, 0, 0};
    uint8_t command[512], reply[512];
    zev_entry_add(&card, ZEV_FRAME, frame, length);
    int32_t said = zev_iso_card_next(CODE, card.bytes, card.length, command, sizeof command, &told);
    if (said == ZEV_DONE) {
        zev_t4_tag(container, sizeof container, file, sizeof file, &state, command, told.length, reply, sizeof reply, &told);
        zev_entry_add(&card, ZEV_REPLY, reply, told.length);
        said = zev_iso_card_next(CODE, card.bytes, card.length, command, sizeof command, &told);
    }
    if (said != ZEV_SEND) {
        return 0;
    }
    memcpy(frame, command, told.length);
    return told.length;
}

/* Carries a command to the card: the length of its answer in `to`, or a fault. */
static int32_t exchange(const uint8_t *command, size_t length, uint8_t *to)
{
    zev_entry_add(&reader, ZEV_COMMAND, command, length);
    for (;;) {
        zev_told told = {0, 0, 0, 0, 0, 0};
        int32_t said = zev_iso_reader_next(CODE, reader.bytes, reader.length, to, 512, &told);
        if (said != ZEV_SEND) {
            return said == ZEV_DONE ? (int32_t)told.length : said;
        }
        memcpy(frame, to, told.length);
        size_t heard = answer(told.length);
        zev_entry_add(&reader, heard > 0 ? ZEV_FRAME : ZEV_NOTHING, frame, heard);
    }
}

int main(void)
{
    static const uint8_t no_id[8] = {0}, rats[2] = {0xE0, 0x20};
    uint8_t heard[512];
    zev_told told = {0, 0, 0, 0, 0, 0};
    memcpy(frame, rats, sizeof rats);
    int32_t said = ZEV_SEND;
    if (answer(sizeof rats) == 0) {
        said = ZEV_NO_ANSWER;
    }
    while (said == ZEV_SEND) {
        said = zev_read_next(4, no_id, turns.bytes, turns.length, out, sizeof out, &told);
        if (said == ZEV_SEND) {
            int32_t length = exchange(out, told.length, heard);
            said = length < 0 ? length : said;
            if (length >= 0) {
                zev_log_add(&turns, out, told.length, heard, (size_t)length, 0);
            }
        }
    }
    printf("%s: a message of %zu bytes\n", said == ZEV_DONE ? "read" : zev_fault_text(said), told.length);
    return said != ZEV_DONE || told.length != 5 || memcmp(out, file + 2, 5) != 0;
}
