/* A put, over the whole stack: a client's payloads, carried by frames of NFC-DEP from an initiator to a target, to a far end with a SNEP server. Both ends
 * are in this program; with a chip that carries bare frames, one of them is yours. */
#include <stdio.h>

#include "../zevlodek.h"

enum { ROOM = 1 << 16 };

static const uint8_t initiator_id[10] = {1, 2, 3, 4, 5, 6, 7, 8, 9, 10}, target_id[10] = {0x01, 0xFE};
static const zev_general ours = {2175, 0x13, 0x13};
static const zev_near sizes = {2175, 15};
static const zev_peer peer = {65536, 2175, 15};

static uint8_t room[4][ROOM], general[64], frame[512], payload[4096], out[ROOM];
static zev_log calls = {room[0], 0, ROOM}, initiator = {room[1], 0, ROOM}, target = {room[2], 0, ROOM}, payloads = {room[3], 0, ROOM};
static size_t general_length;

/* The target's side of a frame: its answer's length, 0 for none. A payload goes to the far end, and its reply back. */
static size_t answer(size_t length)
{
    zev_told told = {0, 0, 0, 0, 0, 0};
    zev_entry_add(&target, ZEV_FRAME, frame, length);
    int32_t said = zev_dep_target_next(target_id, 3, general, general_length, target.bytes, target.length, payload, sizeof payload, &told);
    if (said == ZEV_DONE) {
        zev_payload_add(&payloads, payload, told.length);
        zev_peer_reply(&peer, general, 0, general, general_length, payloads.bytes, payloads.length, payload, sizeof payload, &told);
        zev_entry_add(&target, ZEV_REPLY, payload, told.length);
        said = zev_dep_target_next(target_id, 3, general, general_length, target.bytes, target.length, payload, sizeof payload, &told);
    }
    if (said != ZEV_SEND && said != ZEV_OPENED) {
        return 0;
    }
    memcpy(frame, payload, told.length);
    return told.length;
}

/* Carries a payload to the other end: the length of its reply in `payload`, or a fault. */
static int32_t swap(uint8_t lr, const uint8_t *bytes, size_t length)
{
    zev_entry_add(&initiator, ZEV_COMMAND, bytes, length);
    for (;;) {
        zev_told told = {0, 0, 0, 0, 0, 0};
        int32_t said = zev_dep_initiator_next(lr, initiator.bytes, initiator.length, payload, sizeof payload, &told);
        if (said != ZEV_SEND) {
            return said == ZEV_DONE ? (int32_t)told.length : said;
        }
        memcpy(frame, payload, told.length);
        size_t heard = answer(told.length);
        zev_entry_add(&initiator, heard > 0 ? ZEV_FRAME : ZEV_NOTHING, frame, heard);
    }
}

int main(void)
{
    static const uint8_t message[] = {0xD1, 0x01, 0x0C, 'U', 0x04, 'e', 'x', 'a', 'm', 'p', 'l', 'e', '.', 'o', 'r', 'g'};
    zev_told told = {0, 0, 0, 0, 0, 0};
    int32_t said = zev_general_write(&ours, general, sizeof general, &told);
    general_length = told.length;
    said = said ? said : zev_dep_request(initiator_id, general, general_length, frame, sizeof frame, &told);
    size_t heard = said ? 0 : answer(told.length);
    said = said ? said : zev_dep_general(frame, heard, out, sizeof out, &told);
    uint8_t lr = (uint8_t)told.code;
    zev_entry_add(&calls, ZEV_PUT, message, sizeof message);
    while (said >= 0) {
        said = zev_client_next(&sizes, general, general_length, calls.bytes, calls.length, out, sizeof out, &told);
        if (said != ZEV_SEND) {
            break;
        }
        int32_t reply = swap(lr, out, told.length);
        said = reply < 0 ? reply : said;
        if (reply >= 0) {
            zev_entry_add(&calls, ZEV_REPLY, payload, (size_t)reply);
        }
    }
    if (said == ZEV_DONE) {
        said = zev_peer_message(&peer, general, 0, general, general_length, payloads.bytes, payloads.length, 0, out, sizeof out, &told);
    }
    printf("%s: a message of %zu bytes came\n", said == ZEV_DONE ? "put" : zev_fault_text(said), told.length);
    return said != ZEV_DONE || told.length != sizeof message || memcmp(out, message, sizeof message) != 0;
}
