/* Logs of random bytes, and logs of a reading with a byte changed: each call answers something of its list, and puts nothing beyond `out`. */
#include <stdio.h>
#include <stdlib.h>

#include "drive.h"

static uint8_t log_bytes[4096], out[4096 + 16];

static bool is_answer(int32_t said)
{
    return said == ZEV_DONE || said == ZEV_SEND || (said <= ZEV_BAD_LOG && said >= ZEV_SHORT) || (said <= ZEV_NOT_NDEF && said >= ZEV_PROTOCOL);
}

static bool one(uint32_t kind, size_t length, size_t room)
{
    static const uint8_t id[8] = {0xE0, 4, 1, 2, 3, 4, 5, 6};
    static const uint8_t message[3] = {0xD0, 0, 0};
    zev_told told = {0, 0, 0, 0, 0, 0};
    memset(out, 0xC3, sizeof out);
    int32_t said;
    switch (rand() % 3) {
    case 0: said = zev_read_next(kind, id, log_bytes, length, out, room, &told); break;
    case 1: said = zev_survey_next(kind, id, log_bytes, length, out, room, &told); break;
    default: said = zev_write_next(kind, id, message, sizeof message, log_bytes, length, out, room, &told); break;
    }
    bool inside = true;
    for (size_t i = room; i < sizeof out; i++) {
        inside = inside && out[i] == 0xC3;
    }
    return inside && is_answer(said) && (said != ZEV_BAD_ARGUMENT || kind > 5 || kind == 3 || kind < 2);
}

/* What two turns with a Type 2 tag leave in a log. */
static size_t reading(void)
{
    static const uint8_t asked[2][2] = {{0x30, 0x00}, {0x30, 0x04}};
    static const uint8_t told[2][16] = {{0, 0, 0, 0, 0, 0, 0, 0, 0, 0, 0, 0, 0xE1, 0x10, 0x06, 0}, {3, 3, 0xD0, 0, 0, 0xFE}};
    zev_log log = {log_bytes, 0, sizeof log_bytes};
    for (int i = 0; i < 2; i++) {
        zev_log_add(&log, asked[i], 2, told[i], 16, 0);
    }
    return log.length;
}

int main(void)
{
    long wrong = 0;
    for (long i = 0; i < 60000; i++) {
        size_t length = (size_t)(rand() % 64);
        if (i % 2) {
            length = reading();
            log_bytes[(size_t)rand() % length] = (uint8_t)rand();
            length -= (size_t)(rand() % 8 == 0);
        } else {
            for (size_t k = 0; k < length; k++) {
                log_bytes[k] = (uint8_t)(rand() % 4);
            }
        }
        wrong += !one((uint32_t)(rand() % 7), length, 1 + (size_t)(rand() % 300));
    }
    size_t length = reading();
    zev_told told = {0, 0, 0, 0, 0, 0};
    static const uint8_t id[8];
    bool right = zev_read_next(2, id, log_bytes, length, out, 3, &told) == ZEV_DONE && told.length == 3 && told.writable == 1
        && memcmp(out, "\xD0\x00\x00", 3) == 0 && zev_read_next(2, id, log_bytes, length, out, 2, &told) == ZEV_SHORT && told.length == 3;
    right = right && strcmp(zev_version(), ZEV_VERSION_TEXT) == 0 && strcmp(zev_fault_text(ZEV_DONE), "no fault") == 0;
    printf("wrong %ld, the message is %s\n", wrong, right ? "told" : "not told");
    return wrong != 0 || !right;
}
