/* Both ends of ISO-DEP against each other: commands and replies of all lengths, one after the other on a link, with losses and damage. The card is
 * handed each command once at most, the answer is its reply, and the next command goes through behind a fault. Then logs of random bytes. */
#include <stdio.h>
#include <stdlib.h>

#include "../zevlodek.h"

enum { MOST = 264 };

static uint8_t near_bytes[1 << 18], far_bytes[1 << 18], frame[600], heard[600], command[MOST], reply[MOST];
static zev_log near_log, far_log;
static long handed, turns;

static bool happens(int noise)
{
    return rand() % 1000 < noise;
}

static void fill(uint8_t *bytes, size_t length)
{
    for (size_t i = 0; i < length; i++) {
        bytes[i] = (uint8_t)rand();
    }
}

enum { GONE = -1000 };

/* The card's side of a frame: what it answers; GONE where something was wrong. */
static int32_t card(uint8_t code, size_t length, size_t command_length, size_t reply_length, zev_told *told)
{
    if (!zev_entry_add(&far_log, ZEV_FRAME, frame, length)) {
        return GONE;
    }
    int32_t said = zev_iso_card_next(code, far_log.bytes, far_log.length, heard, sizeof heard, told);
    if (said != ZEV_DONE) {
        return said;
    }
    handed++;
    if (told->length != command_length || memcmp(heard, command, command_length) != 0
        || !zev_entry_add(&far_log, ZEV_REPLY, reply, reply_length)) {
        return GONE;
    }
    return zev_iso_card_next(code, far_log.bytes, far_log.length, heard, sizeof heard, told);
}

/* One frame of the reader's: what came of it is added to its log. */
static bool turn(uint8_t code, size_t length, size_t command_length, size_t reply_length, int noise)
{
    zev_told told = {0, 0, 0, 0, 0, 0};
    turns++;
    if (happens(noise)) {
        return zev_entry_add(&near_log, ZEV_NOTHING, frame, 0);
    }
    int32_t said = card(code, length, command_length, reply_length, &told);
    if (said != ZEV_SEND && said != ZEV_SILENT) {
        return false;
    }
    if (said == ZEV_SILENT) {
        return zev_entry_add(&near_log, ZEV_NOTHING, frame, 0);
    }
    return happens(noise) ? zev_entry_add(&near_log, ZEV_DAMAGED, frame, 0) : zev_entry_add(&near_log, ZEV_FRAME, heard, told.length);
}

/* One command: what the reader told at its end, GONE where something was wrong. */
static int32_t exchange(uint8_t code, int noise)
{
    size_t command_length = (size_t)(rand() % (MOST + 1)), reply_length = (size_t)(rand() % (MOST + 1));
    fill(command, command_length);
    fill(reply, reply_length);
    handed = 0;
    if (!zev_entry_add(&near_log, ZEV_COMMAND, command, command_length)) {
        return GONE;
    }
    for (;;) {
        zev_told told = {0, 0, 0, 0, 0, 0};
        int32_t said = zev_iso_reader_next(code, near_log.bytes, near_log.length, frame, sizeof frame, &told);
        if (said == ZEV_DONE && (handed != 1 || told.length != reply_length || memcmp(frame, reply, reply_length) != 0)) {
            return GONE;
        }
        if (said != ZEV_SEND || handed > 1) {
            return said == ZEV_SEND ? GONE : said;
        }
        if (!turn(code, told.length, command_length, reply_length, noise)) {
            return GONE;
        }
    }
}

/* Links of up to four commands; behind a fault a link is given up. */
static bool links(void)
{
    long answered = 0, six_bad = 0, wrong = 0;
    for (int link = 0; link < 1200; link++) {
        near_log = (zev_log){near_bytes, 0, sizeof near_bytes};
        far_log = (zev_log){far_bytes, 0, sizeof far_bytes};
        int32_t said = ZEV_DONE;
        uint8_t code = (uint8_t)(rand() % 9);
        for (int n = 0; n < 4 && said == ZEV_DONE; n++) {
            said = exchange(code, 60 * (link % 4));
            answered += said == ZEV_DONE;
            six_bad += said == ZEV_SIX_BAD;
            wrong += said != ZEV_DONE && said != ZEV_SIX_BAD;
        }
    }
    printf("answered %ld, six bad %ld, wrong %ld, frames %ld\n", answered, six_bad, wrong, turns);
    return wrong == 0 && answered > 3000 && six_bad > 0;
}

/* RATS is answered by ATS, DESELECT by DESELECT, and then the card sleeps; what is too long or out of place is a bad log. */
static bool rows(void)
{
    static const uint8_t rats[2] = {0xE0, 0x80}, deselect[1] = {0xC2}, odd[1] = {0x00};
    zev_told told = {0, 0, 0, 0, 0, 0};
    zev_log log = {near_bytes, 0, sizeof near_bytes};
    bool right = zev_iso_card_next(8, log.bytes, 0, frame, sizeof frame, &told) == ZEV_SILENT
        && zev_iso_card_next(9, log.bytes, 0, frame, sizeof frame, &told) == ZEV_BAD_ARGUMENT
        && zev_iso_reader_next(8, log.bytes, 0, frame, sizeof frame, &told) == ZEV_SILENT;
    zev_entry_add(&log, ZEV_FRAME, rats, 2);
    right = right && zev_iso_card_next(8, log.bytes, log.length, frame, sizeof frame, &told) == ZEV_SEND && frame[0] == told.length
        && zev_iso_card_next(8, log.bytes, log.length, frame, told.length - 1, &told) == ZEV_SHORT;
    zev_entry_add(&log, ZEV_FRAME, deselect, 1);
    right = right && zev_iso_card_next(8, log.bytes, log.length, frame, sizeof frame, &told) == ZEV_ASLEEP && told.length == 1 && frame[0] == 0xC2;
    zev_entry_add(&log, ZEV_REPLY, odd, 1);
    right = right && zev_iso_card_next(8, log.bytes, log.length, frame, sizeof frame, &told) == ZEV_BAD_LOG;
    log.length = 0;
    zev_entry_add(&log, ZEV_COMMAND, heard, 265);
    right = right && zev_iso_reader_next(8, log.bytes, log.length, frame, sizeof frame, &told) == ZEV_BAD_LOG;
    log.length = 0;
    zev_entry_add(&log, ZEV_FRAME, frame, 289);
    right = right && zev_iso_card_next(8, log.bytes, log.length, frame, sizeof frame, &told) == ZEV_BAD_LOG;
    log.length = 0;
    zev_entry_add(&log, ZEV_COMMAND, odd, 1);
    zev_entry_add(&log, ZEV_FRAME, odd, 1);
    right = right && zev_iso_reader_next(8, log.bytes, log.length, frame, sizeof frame, &told) == ZEV_NO_ANSWER;
    zev_entry_add(&log, ZEV_COMMAND, odd, 1);
    return right && zev_iso_reader_next(8, log.bytes, log.length, frame, sizeof frame, &told) == ZEV_SEND && told.length == 2;
}

static long random_logs(void)
{
    long wrong = 0;
    for (long i = 0; i < 60000; i++) {
        size_t length = (size_t)(rand() % 64), room = (size_t)(rand() % 20);
        for (size_t k = 0; k < length; k++) {
            near_bytes[k] = (uint8_t)(rand() % 5);
        }
        zev_told told = {0, 0, 0, 0, 0, 0};
        memset(frame, 0xC3, sizeof frame);
        int32_t said = i % 2 ? zev_iso_reader_next((uint8_t)rand(), near_bytes, length, frame, room, &told)
                             : zev_iso_card_next((uint8_t)(rand() % 9), near_bytes, length, frame, room, &told);
        bool known = (said >= ZEV_DONE && said <= ZEV_ASLEEP) || said == ZEV_BAD_LOG || said == ZEV_SHORT || said == ZEV_SIX_BAD || said == ZEV_NO_ANSWER;
        wrong += !known || frame[room] != 0xC3 || (said < 0 && frame[0] != 0xC3);
    }
    return wrong;
}

int main(void)
{
    bool through = links(), right = rows();
    long wrong = random_logs();
    printf("rows are %s, wrong logs %ld\n", right ? "right" : "not right", wrong);
    return !through || !right || wrong != 0;
}
