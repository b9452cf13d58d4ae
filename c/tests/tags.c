/* The proved Type 2 tag against one written in C, on random commands; locked blocks; and what isn't taken. */
#include <stdio.h>
#include <stdlib.h>

#include "../zevlodek.h"
#include "tags.h"

static tag plain;
static uint8_t memory[1024], locks[256], out[32];

static size_t command_of(uint8_t *command)
{
    size_t length = (size_t)(rand() % 8);
    for (size_t i = 0; i < length; i++) {
        command[i] = (uint8_t)(rand() % 4 ? rand() % 20 : rand());
    }
    if (length > 0 && rand() % 8) {
        command[0] = length == 2 ? 0x30 : 0xA2;
    }
    return length;
}

/* The tag of tags.h is never silent; a tag answers READ of two bytes and WRITE of six. */
static bool heeds(const uint8_t *command, size_t length)
{
    return (length == 2 && command[0] == 0x30) || (length == 6 && command[0] == 0xA2);
}

static bool one(void)
{
    uint8_t command[8];
    size_t length = command_of(command);
    answer wanted;
    zev_told told = {0, 0, 0, 0, 0, 0};
    bool is_locked = length == 6 && command[1] < plain.size / 4 && locks[command[1]] != 0;
    int32_t said = zev_t2_tag(memory, plain.size, locks, plain.size / 4, command, length, 0, out, sizeof out, &told);
    if (!heeds(command, length)) {
        return said == ZEV_SILENT && memcmp(memory, plain.memory, plain.size) == 0;
    }
    if (is_locked) {
        nibble(&wanted, 0);
    } else {
        wanted.bits = 0;
        type2(&plain, command, length, &wanted);
    }
    return said == ZEV_DONE && told.length == wanted.length && told.bits == wanted.bits && memcmp(out, wanted.bytes, wanted.length) == 0
        && memcmp(memory, plain.memory, plain.size) == 0;
}

/* What a dump tells: a message around a reserved range, none, a faulty container, a memory that ends early. */
static bool dumps(void)
{
    static const uint8_t whole[40] = {[12] = 0xE1, 0x10, 0x06, 0x00, 0x02, 3, 0x10, 0x02, 0x44, 0x03, 3, 0xD0, 1, 2, 0xFE};
    uint8_t bytes[64];
    zev_told told = {0, 0, 0, 0, 0, 0};
    memset(bytes, 0, sizeof bytes);
    memcpy(bytes, whole, sizeof whole);
    bool right = zev_t2_message(bytes, 64, out, 32, &told) == ZEV_DONE && told.length == 3 && told.writable == 1 && memcmp(out, "\xD0\1\2", 3) == 0;
    right = right && zev_t2_message(bytes, 64, out, 2, &told) == ZEV_SHORT && zev_t2_message(bytes, 15, out, 32, &told) == ZEV_ENDS_EARLY
        && zev_t2_message(bytes, 25, out, 32, &told) == ZEV_ENDS_EARLY;
    bytes[21] = 0xFE;
    right = right && zev_t2_message(bytes, 64, out, 32, &told) == ZEV_NO_MESSAGE_TLV;
    bytes[13] = 0x20;
    return right && zev_t2_message(bytes, 64, out, 32, &told) == ZEV_VERSION;
}

int main(void)
{
    static const uint8_t read[2] = {0x30, 0}, write[6] = {0xA2, 4, 1, 2, 3, 4};
    long wrong = 0;
    for (int round = 0; round < 200; round++) {
        plain.size = 4 * (size_t)(4 + rand() % 40);
        for (size_t i = 0; i < plain.size; i++) {
            plain.memory[i] = (uint8_t)(i == 12 ? 0 : rand());
            locks[i / 4] = (uint8_t)(rand() % 5 == 0);
        }
        memcpy(memory, plain.memory, plain.size);
        for (int step = 0; step < 200; step++) {
            wrong += !one();
        }
    }
    zev_told told = {0, 0, 0, 0, 0, 0};
    memset(locks, 0, sizeof locks);
    bool right = zev_t2_tag(memory, 64, locks, 16, read, 2, 0, out, 15, &told) == ZEV_SHORT && told.length == 16
        && zev_t2_tag(memory, 64, locks, 15, read, 2, 0, out, 16, &told) == ZEV_BAD_ARGUMENT
        && zev_t2_tag(memory, 12, locks, 3, read, 2, 0, out, 16, &told) == ZEV_BAD_ARGUMENT
        && zev_t2_tag(memory, 64, locks, 16, read, 2, 8, out, 16, &told) == ZEV_BAD_ARGUMENT
        && zev_t2_tag(memory, 64, locks, 16, write, 6, 0, out, 0, &told) == ZEV_SHORT && memory[16] == plain.memory[16];
    printf("wrong %ld, what isn't taken is %s, dumps are %s\n", wrong, right ? "refused" : "not refused", dumps() ? "told" : "not told");
    return wrong != 0 || !right || !dumps();
}
