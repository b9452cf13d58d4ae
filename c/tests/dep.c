/* Both ends of NFC-DEP against each other: payloads and replies of all lengths, one after the other on a link, with losses and damage. The target is
 * handed each payload once at most, and the answer is its reply. Then rows, and logs of random bytes. */
#include <stdio.h>
#include <stdlib.h>

#include "../zevlodek.h"

enum { MOST = 2178 };

static uint8_t near_bytes[1 << 19], far_bytes[1 << 19], frame[4096], heard[4096], command[MOST], reply[MOST];
static const uint8_t id[10] = {1, 2, 3, 4, 5, 6, 7, 8, 9, 10}, general[] = {0x46, 0x66, 0x6D, 1, 1, 0x13};
static zev_log near_log, far_log;
static long handed, turns;

static bool happens(int noise)
{
    return rand() % 1000 < noise;
}

static void fill(uint8_t *bytes, size_t length)
{
    for (size_t i = 0; i < length; i++) {
        bytes[i] = (uint8_t)rand();
    }
}

enum { GONE = -1000 };

/* The target's side of a frame: what it answers; GONE where something was wrong. */
static int32_t target(uint8_t code, size_t length, size_t command_length, size_t reply_length, zev_told *told)
{
    if (!zev_entry_add(&far_log, ZEV_FRAME, frame, length)) {
        return GONE;
    }
    int32_t said = zev_dep_target_next(id, code, general, sizeof general, far_log.bytes, far_log.length, heard, sizeof heard, told);
    if (said != ZEV_DONE) {
        return said;
    }
    handed++;
    if (told->length != command_length || memcmp(heard, command, command_length) != 0
        || !zev_entry_add(&far_log, ZEV_REPLY, reply, reply_length)) {
        return GONE;
    }
    return zev_dep_target_next(id, code, general, sizeof general, far_log.bytes, far_log.length, heard, sizeof heard, told);
}

/* One frame of the initiator's: what came of it is added to its log. */
static bool turn(uint8_t code, size_t length, size_t command_length, size_t reply_length, int noise)
{
    zev_told told = {0, 0, 0, 0, 0, 0};
    turns++;
    if (happens(noise)) {
        return zev_entry_add(&near_log, ZEV_NOTHING, frame, 0);
    }
    int32_t said = target(code, length, command_length, reply_length, &told);
    if (said != ZEV_SEND && said != ZEV_SILENT) {
        return false;
    }
    if (said == ZEV_SILENT) {
        return zev_entry_add(&near_log, ZEV_NOTHING, frame, 0);
    }
    return happens(noise) ? zev_entry_add(&near_log, ZEV_DAMAGED, frame, 0) : zev_entry_add(&near_log, ZEV_FRAME, heard, told.length);
}

/* One payload: what the initiator told at its end, GONE where something was wrong. */
static int32_t exchange(uint8_t code, int noise)
{
    size_t command_length = (size_t)(rand() % (MOST + 1)), reply_length = (size_t)(rand() % (MOST + 1));
    fill(command, command_length);
    fill(reply, reply_length);
    handed = 0;
    if (!zev_entry_add(&near_log, ZEV_COMMAND, command, command_length)) {
        return GONE;
    }
    for (;;) {
        zev_told told = {0, 0, 0, 0, 0, 0};
        int32_t said = zev_dep_initiator_next(code, near_log.bytes, near_log.length, frame, sizeof frame, &told);
        if (said == ZEV_DONE && (handed != 1 || told.length != reply_length || memcmp(frame, reply, reply_length) != 0)) {
            return GONE;
        }
        if (said != ZEV_SEND || handed > 1) {
            return said == ZEV_SEND ? GONE : said;
        }
        if (!turn(code, told.length, command_length, reply_length, noise)) {
            return GONE;
        }
    }
}

/* Links of up to four payloads; behind a fault a link is given up. */
static bool links(void)
{
    long answered = 0, six_bad = 0, wrong = 0;
    for (int link = 0; link < 300; link++) {
        near_log = (zev_log){near_bytes, 0, sizeof near_bytes};
        far_log = (zev_log){far_bytes, 0, sizeof far_bytes};
        int32_t said = ZEV_DONE;
        uint8_t code = (uint8_t)(rand() % 4);
        for (int n = 0; n < 4 && said == ZEV_DONE; n++) {
            said = exchange(code, 40 * (link % 4));
            answered += said == ZEV_DONE;
            six_bad += said == ZEV_DEP_SIX_BAD;
            wrong += said != ZEV_DONE && said != ZEV_DEP_SIX_BAD;
        }
    }
    printf("answered %ld, six bad %ld, wrong %ld, frames %ld\n", answered, six_bad, wrong, turns);
    return wrong == 0 && answered > 700 && six_bad > 0;
}

/* ATR_REQ opens a link, and ATR_RES has the target's general bytes; DSL and RLS end one; what is too long or out of place is a bad log. */
static bool rows(void)
{
    static const uint8_t dsl[4] = {0xF0, 0x03, 0xD4, 0x08}, rls[4] = {0xF0, 0x03, 0xD4, 0x0A}, odd[1] = {0x00};
    static uint8_t long_general[64], told_bytes[64];
    zev_told told = {0, 0, 0, 0, 0, 0};
    zev_log log = {near_bytes, 0, sizeof near_bytes};
    bool right = zev_dep_target_next(id, 2, general, sizeof general, log.bytes, 0, frame, sizeof frame, &told) == ZEV_SILENT
        && zev_dep_target_next(id, 4, general, sizeof general, log.bytes, 0, frame, sizeof frame, &told) == ZEV_BAD_ARGUMENT
        && zev_dep_target_next(id, 2, long_general, 47, log.bytes, 0, frame, sizeof frame, &told) == ZEV_SILENT
        && zev_dep_target_next(id, 2, long_general, 48, log.bytes, 0, frame, sizeof frame, &told) == ZEV_BAD_ARGUMENT
        && zev_dep_initiator_next(3, log.bytes, 0, frame, sizeof frame, &told) == ZEV_SILENT
        && zev_dep_initiator_next(4, log.bytes, 0, frame, sizeof frame, &told) == ZEV_BAD_ARGUMENT
        && zev_dep_request(id, long_general, 49, frame, sizeof frame, &told) == ZEV_BAD_ARGUMENT
        && zev_dep_request(id, long_general, 48, frame, sizeof frame, &told) == ZEV_DONE && told.length == 66
        && zev_dep_request(id, general, sizeof general, frame, 23, &told) == ZEV_SHORT && told.length == 24
        && zev_dep_request(id, general, sizeof general, frame, 24, &told) == ZEV_DONE && frame[0] == 0xF0 && frame[1] == 23;
    zev_entry_add(&log, ZEV_FRAME, frame, 24);
    right = right && zev_dep_general(frame, 24, told_bytes, 6, &told) == ZEV_DONE && told.length == 6 && told.code == 3 && memcmp(told_bytes, general, 6) == 0
        && zev_dep_general(frame, 23, told_bytes, 6, &told) == ZEV_BAD_ARGUMENT && zev_dep_general(rls, 4, told_bytes, 6, &told) == ZEV_BAD_ARGUMENT
        && zev_dep_target_next(id, 2, general, sizeof general, log.bytes, log.length, frame, sizeof frame, &told) == ZEV_OPENED && told.length == 25
        && zev_dep_general(frame, 25, told_bytes, 5, &told) == ZEV_SHORT && zev_dep_general(frame, 25, told_bytes, 6, &told) == ZEV_DONE && told.code == 2
        && memcmp(told_bytes, general, 6) == 0;
    size_t opened = log.length;
    zev_entry_add(&log, ZEV_FRAME, dsl, 4);
    right = right && zev_dep_target_next(id, 2, general, sizeof general, log.bytes, log.length, frame, sizeof frame, &told) == ZEV_ASLEEP && told.length == 4;
    log.length = opened;
    zev_entry_add(&log, ZEV_FRAME, rls, 4);
    right = right && zev_dep_target_next(id, 2, general, sizeof general, log.bytes, log.length, frame, sizeof frame, &told) == ZEV_RELEASED && frame[3] == 0x0B;
    zev_entry_add(&log, ZEV_REPLY, odd, 1);
    right = right && zev_dep_target_next(id, 2, general, sizeof general, log.bytes, log.length, frame, sizeof frame, &told) == ZEV_BAD_LOG;
    log.length = 0;
    zev_entry_add(&log, ZEV_COMMAND, far_bytes, 2179);
    right = right && zev_dep_initiator_next(3, log.bytes, log.length, frame, sizeof frame, &told) == ZEV_BAD_LOG;
    log.length = 0;
    zev_entry_add(&log, ZEV_COMMAND, odd, 1);
    zev_entry_add(&log, ZEV_FRAME, odd, 1);
    return right && zev_dep_initiator_next(3, log.bytes, log.length, frame, sizeof frame, &told) == ZEV_DEP_NO_ANSWER;
}

static long random_logs(void)
{
    long wrong = 0;
    for (long i = 0; i < 60000; i++) {
        size_t length = (size_t)(rand() % 64), room = (size_t)(rand() % 20);
        for (size_t k = 0; k < length; k++) {
            near_bytes[k] = (uint8_t)(rand() % 5);
        }
        zev_told told = {0, 0, 0, 0, 0, 0};
        memset(frame, 0xC3, sizeof frame);
        int32_t said = i % 2 ? zev_dep_initiator_next((uint8_t)(rand() % 4), near_bytes, length, frame, room, &told)
                             : zev_dep_target_next(id, (uint8_t)(rand() % 4), general, sizeof general, near_bytes, length, frame, room, &told);
        bool known = (said >= ZEV_DONE && said <= ZEV_RELEASED) || said == ZEV_BAD_LOG || said == ZEV_SHORT || said == ZEV_DEP_SIX_BAD || said == ZEV_DEP_NO_ANSWER;
        wrong += !known || frame[room] != 0xC3 || (said < 0 && frame[0] != 0xC3);
    }
    return wrong;
}

int main(void)
{
    bool through = links(), right = rows();
    long wrong = random_logs();
    printf("rows are %s, wrong logs %ld\n", right ? "right" : "not right", wrong);
    return !through || !right || wrong != 0;
}
