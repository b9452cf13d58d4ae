/* Each write of some pairs of messages is broken off at each of its commands, which the tag then obeyed or didn't. What is read behind it is the
 * old message, the empty one or the new one; and the new one where the write told that it is done. */
#include <stdio.h>

#include "drive.h"

static driver by;
static tag of;
static uint8_t old_message[64], new_message[300];

static void fresh(uint32_t kind, size_t length)
{
    static const uint8_t container[2][4] = {{0xE1, 0x10, 0x28, 0x00}, {0xE1, 0x40, 0x28, 0x01}};
    size_t start = kind == 2 ? 16 : 4;
    memset(&of, 0, sizeof of);
    of.kind = kind;
    for (uint8_t i = 0; i < 8; i++) {
        of.id[i] = (uint8_t)(0xE0 + i);
    }
    of.size = start + 8 * 0x28;
    memcpy(of.memory + start - 4, container[kind == 5], 4);
    of.memory[start] = 3;
    of.memory[start + 1] = (uint8_t)length;
    memcpy(of.memory + start + 2, old_message, length);
    of.memory[start + 2 + length] = 0xFE;
    of.cut = -1;
}

static bool holds(int32_t said, const uint8_t *message, size_t length)
{
    return said == ZEV_DONE && by.told.length == length && memcmp(by.out, message, length) == 0;
}

/* One write that is broken off: which message is read then, as 0, 1, 2 for old, empty and new, 3 for none of them. */
static int broken(uint32_t kind, size_t old_length, size_t new_length, int cut, bool obeys, bool *reached)
{
    fresh(kind, old_length);
    of.cut = cut;
    of.obeys = obeys;
    int32_t wrote = drive(&by, &of, true, new_message, new_length);
    *reached = of.commands > cut;
    of.cut = -1;
    int32_t read = drive(&by, &of, false, NULL, 0);
    if (holds(read, new_message, new_length)) {
        return 2;
    }
    if (wrote == ZEV_DONE) {
        return 3;
    }
    return holds(read, old_message, old_length) ? 0 : holds(read, new_message, 0) ? 1 : 3;
}

int main(void)
{
    static const uint32_t kinds[2] = {2, 5};
    long count[4] = {0, 0, 0, 0};
    memset(old_message, 0x11, sizeof old_message);
    for (size_t i = 0; i < sizeof new_message; i++) {
        new_message[i] = (uint8_t)(0x80 + i);
    }
    for (int k = 0; k < 2; k++) {
        for (size_t old_length = 0; old_length <= 60; old_length += 30) {
            for (size_t new_length = 1; new_length <= 300; new_length += 37) {
                bool reached = true;
                for (int step = 0; reached; step++) {
                    count[broken(kinds[k], old_length, new_length, step / 2, step % 2, &reached)]++;
                }
            }
        }
    }
    printf("old %ld empty %ld new %ld other %ld\n", count[0], count[1], count[2], count[3]);
    return count[3] != 0 || count[0] == 0 || count[1] == 0 || count[2] == 0;
}
