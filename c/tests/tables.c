/* The proved tags of Types 4 and 5: a Type 5 tag against one written in C, on random commands; rows of both; rounds, the quiet state, locks; and each write
 * of a Type 4 tag broken off at each command, obeyed or not, and read again: old, empty or new. */
#include <stdio.h>
#include <stdlib.h>

#include "../zevlodek.h"
#include "tags.h"

static const uint8_t id[8] = {0xE0, 0x04, 1, 2, 3, 4, 5, 6};
static uint8_t memory[2048], locks[512], out[512];

/* The proved Type 5 tag beside the plain one. */
static long beside(void)
{
    static tag plain;
    long wrong = 0;
    for (int round = 0; round < 100; round++) {
        plain.size = 4 * (size_t)(1 + rand() % 60);
        memcpy(plain.id, id, 8);
        for (size_t i = 0; i < plain.size; i++) {
            plain.memory[i] = (uint8_t)rand();
        }
        memcpy(memory, plain.memory, plain.size);
        zev_t5_state state = {0, 0, 0, 0};
        for (int step = 0; step < 100; step++) {
            uint8_t command[16] = {0x22, (uint8_t[]){0x20, 0x21, 0x23}[rand() % 3], 6, 5, 4, 3, 2, 1, 0x04, 0xE0, (uint8_t)(rand() % 64)};
            size_t length = command[1] == 0x20 ? 11 : command[1] == 0x23 ? 12 : 15;
            for (size_t i = 11; i < length; i++) {
                command[i] = (uint8_t)rand();
            }
            answer wanted = {{0}, 0, 0};
            zev_told told = {0, 0, 0, 0, 0, 0};
            type5(&plain, command, length, &wanted);
            int32_t said = zev_t5_tag(id, 4, memory, plain.size, locks, plain.size / 4, &state, command, length, out, sizeof out, &told);
            if (command[1] == 0x23 && wanted.bytes[0] == 1) { /* the plain one looks at the first block alone */
                wanted.bytes[1] = command[10] + (size_t)command[11] < plain.size / 4 ? 0x0F : 0x10;
            }
            wrong += said != ZEV_DONE || memcmp(memory, plain.memory, plain.size) != 0 || told.length != wanted.length
                || memcmp(out, wanted.bytes, wanted.length) != 0;
        }
    }
    return wrong;
}

static int32_t five(zev_t5_state *state, const char *command, size_t length, size_t room, zev_told *told)
{
    return zev_t5_tag(id, 8, memory, 64, locks, 8, state, (const uint8_t *)command, length, out, room, told);
}

/* An inventory of one slot and of sixteen, STAY QUIET, a locked block, no room, and what isn't taken. */
static bool rows_of_5(void)
{
    zev_told told = {0, 0, 0, 0, 0, 0};
    zev_t5_state state = {0, 0, 0, 0};
    memset(memory, 0x5A, 64);
    memset(locks, 0, sizeof locks);
    locks[2] = 9;
    bool right = five(&state, "\x26\x01\x00", 3, 10, &told) == ZEV_DONE && told.length == 10 && memcmp(out + 2, "\6\5\4\3\2\1\4\xE0", 8) == 0
        && five(&state, "\x26\x01\x00", 3, 9, &told) == ZEV_SHORT && told.length == 10
        && five(&state, "\x06\x01\x00", 3, 10, &told) == ZEV_SILENT && state.in_round == 1 && state.slot == 6 && state.current == 0;
    for (int slot = 1; slot < 16; slot++) {
        int32_t said = five(&state, "", 0, 10, &told);
        right = right && said == (slot == 6 ? ZEV_DONE : ZEV_SILENT) && state.current == slot;
    }
    right = right && five(&state, "", 0, 10, &told) == ZEV_SILENT && state.in_round == 0
        && five(&state, "\x02\x21\x02" "ABCDEFGH", 11, 10, &told) == ZEV_DONE && told.length == 2 && out[1] == 0x12 && memory[16] == 0x5A
        && five(&state, "\x02\x21\x03" "ABCDEFGH", 11, 0, &told) == ZEV_SHORT && memory[24] == 0x5A
        && five(&state, "\x02\x21\x03" "ABCDEFGH", 11, 1, &told) == ZEV_DONE && memcmp(memory + 24, "ABCDEFGH", 8) == 0
        && five(&state, "\x22\x02\6\5\4\3\2\1\4\xE0", 10, 10, &told) == ZEV_SILENT && state.quiet == 1
        && five(&state, "\x02\x20\x03", 3, 10, &told) == ZEV_SILENT && five(&state, "\x22\x20\6\5\4\3\2\1\4\xE0\x03", 11, 10, &told) == ZEV_DONE
        && told.length == 9;
    static const uint8_t frame[289];
    zev_t5_state fresh = {0, 0, 0, 0};
    return right && zev_t5_tag(id, 260, memory, 64, locks, 16, &fresh, frame, 3, out, 9, &told) == ZEV_BAD_ARGUMENT
        && zev_t5_tag(id, 5, memory, 60, locks, 12, &fresh, frame, 3, out, 9, &told) == ZEV_BAD_ARGUMENT
        && zev_t5_tag(id, 4, memory, 0, locks, 0, &fresh, frame, 3, out, 9, &told) == ZEV_BAD_ARGUMENT
        && zev_t5_tag(id, 4, memory, 64, locks, 15, &fresh, frame, 3, out, 9, &told) == ZEV_BAD_ARGUMENT
        && zev_t5_tag(id, 4, memory, 64, locks, 16, &fresh, frame, 289, out, 9, &told) == ZEV_BAD_ARGUMENT;
}

static uint8_t container[15] = {0x00, 0x0F, 0x20, 0x00, 0x3B, 0x00, 0x34, 0x04, 0x06, 0xE1, 0x04, 0x00, 0xC8, 0x00, 0x00};
static uint8_t file[200], kept[1 << 16];
static zev_t4_state state;

static int32_t four(const char *command, size_t length, size_t room, zev_told *told)
{
    return zev_t4_tag(container, sizeof container, file, sizeof file, &state, (const uint8_t *)command, length, out, room, told);
}

static bool ends(const zev_told *told, uint8_t high, uint8_t low)
{
    return told->length >= 2 && out[told->length - 2] == high && out[told->length - 1] == low;
}

/* Selecting, reading, writing; a file that isn't open; no room; and what isn't taken. */
static bool rows_of_4(void)
{
    zev_told told = {0, 0, 0, 0, 0, 0};
    memset(file, 0, sizeof file);
    bool right = four("\x00\xA4\x00\x0C\x02\xE1\x03", 7, 2, &told) == ZEV_DONE && ends(&told, 0x6A, 0x82) && state.selected == 0
        && four("\x00\xA4\x04\x00\x07\xD2\x76\x00\x00\x85\x01\x01\x00", 13, 1, &told) == ZEV_SHORT && state.selected == 0
        && four("\x00\xA4\x04\x00\x07\xD2\x76\x00\x00\x85\x01\x01\x00", 13, 2, &told) == ZEV_DONE && ends(&told, 0x90, 0x00) && state.selected == 1
        && four("\x00\xA4\x00\x0C\x02\xE1\x03", 7, 2, &told) == ZEV_DONE && state.current == 1
        && four("\x00\xB0\x00\x00\x0F", 5, 17, &told) == ZEV_DONE && told.length == 17 && memcmp(out, container, 15) == 0
        && four("\x00\xA4\x00\x0C\x02\xE1\x04", 7, 2, &told) == ZEV_DONE && state.current == 2
        && four("\x00\xD6\x00\x03\x02\x11\x22", 7, 1, &told) == ZEV_SHORT && file[3] == 0
        && four("\x00\xD6\x00\x03\x02\x11\x22", 7, 2, &told) == ZEV_DONE && ends(&told, 0x90, 0x00) && file[3] == 0x11 && file[4] == 0x22
        && four("", 0, 2, &told) == ZEV_DONE && ends(&told, 0x67, 0x00);
    zev_t4_state odd = {1, 3};
    right = right && zev_t4_tag(container, 15, file, sizeof file, &odd, container, 1, out, 2, &told) == ZEV_BAD_ARGUMENT
        && zev_t4_tag(container, 14, file, sizeof file, &state, container, 1, out, 2, &told) == ZEV_BAD_ARGUMENT
        && zev_t4_tag(container, 15, file, sizeof file - 1, &state, container, 1, out, 2, &told) == ZEV_BAD_ARGUMENT;
    return right;
}

/* Reads the tag, or writes to it; it is pulled away at a command. */
static int32_t drive(bool writes, const uint8_t *message, size_t length, int cut, bool obeys, zev_told *told)
{
    zev_log log = {kept, 0, sizeof kept};
    uint8_t heard[512];
    state = (zev_t4_state){0, 0};
    for (int command = 0;; command++) {
        int32_t said = writes ? zev_write_next(4, id, message, length, log.bytes, log.length, out, sizeof out, told)
                              : zev_read_next(4, id, log.bytes, log.length, out, sizeof out, told);
        zev_told answered = {0, 0, 0, 0, 0, 0};
        if (said != ZEV_SEND || (command == cut && !obeys)) {
            return said;
        }
        zev_t4_tag(container, sizeof container, file, sizeof file, &state, out, told->length, heard, sizeof heard, &answered);
        if (command == cut) {
            return said;
        }
        zev_log_add(&log, out, told->length, heard, answered.length, answered.bits);
    }
}

static bool holds(int32_t said, const zev_told *told, const uint8_t *message, size_t length)
{
    return said == ZEV_DONE && told->length == length && memcmp(out, message, length) == 0;
}

static bool torn(long count[4])
{
    static const uint8_t old_message[30] = {0x11, 0x11}, new_message[150] = {0x22, 0x33};
    for (size_t old_length = 0; old_length <= 30; old_length += 15) {
        for (size_t new_length = 1; new_length <= 150; new_length += 49) {
            int32_t wrote = ZEV_SEND;
            for (int step = 0; wrote != ZEV_DONE; step++) {
                zev_told told = {0, 0, 0, 0, 0, 0};
                memset(file, 0, sizeof file);
                file[1] = (uint8_t)old_length;
                memcpy(file + 2, old_message, old_length);
                wrote = drive(true, new_message, new_length, step / 2, step % 2, &told);
                int32_t read = drive(false, NULL, 0, -1, false, &told);
                int which = holds(read, &told, new_message, new_length) ? 2 : holds(read, &told, old_message, old_length) ? 0 : holds(read, &told, old_message, 0) ? 1 : 3;
                count[wrote == ZEV_DONE && which != 2 ? 3 : which]++;
            }
        }
    }
    return count[0] > 0 && count[1] > 0 && count[2] > 0 && count[3] == 0;
}

int main(void)
{
    long count[4] = {0, 0, 0, 0}, wrong = beside();
    bool fives = rows_of_5(), fours = rows_of_4(), safe = torn(count);
    printf("wrong %ld, rows of Type 5 are %s, of Type 4 %s; old %ld empty %ld new %ld other %ld\n", wrong, fives ? "right" : "not right",
           fours ? "right" : "not right", count[0], count[1], count[2], count[3]);
    return wrong != 0 || !fives || !fours || !safe;
}
