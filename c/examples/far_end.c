/* A far end that takes messages: a phone opens a link, puts one, and asks for a value. The chip under it, a target of NFC-DEP, is three payloads in memory here. */
#include <stdio.h>

#include "../zevlodek.h"

static const uint8_t connect[] = {0x11, 0x20}, put[] = {0x13, 0x20, 0x00, 0x10, 0x02, 0, 0, 0, 4, 0xD1, 0x01, 0x00, 0x54},
                     get[] = {0x13, 0x20, 0x11, 0x10, 0x01, 0, 0, 0, 6, 0, 0, 4, 0, 'k', '1'};

/* The next payload that the chip hands up; none where the link is over. */
static const uint8_t *hand_up(size_t *length)
{
    static const struct {
        const uint8_t *bytes;
        size_t length;
    } came[] = {{connect, sizeof connect}, {put, sizeof put}, {get, sizeof get}};
    static size_t next;
    if (next == sizeof came / sizeof came[0]) {
        return NULL;
    }
    *length = came[next].length;
    return came[next++].bytes;
}

static void show(const char *what, const uint8_t *bytes, size_t length)
{
    printf("%s", what);
    for (size_t i = 0; i < length; i++) {
        printf(" %02X", bytes[i]);
    }
    printf("\n");
}

/* What the chip says of itself as it answers ATR_REQ. */
static const zev_general ours = {2175, 0x13, 0x13};
static const zev_peer peer = {65536, 2175, 15};
/* What ATR_REQ brought. */
static const uint8_t theirs[] = {0x46, 0x66, 0x6D, 0x01, 0x01, 0x13};

int main(void)
{
    static uint8_t kept[1 << 16], table[64], out[65536];
    zev_log log = {kept, 0, sizeof kept}, offers = {table, 0, sizeof table};
    zev_told told = {0, 0, 0, 0, 0, 0};
    size_t length = 0, shown = 0;
    int32_t said = zev_general_write(&ours, out, sizeof out, &told);
    show("general bytes", out, told.length);
    zev_offer_add(&offers, (const uint8_t *)"k1", 2, (const uint8_t *)"value", 5);
    for (const uint8_t *payload = hand_up(&length); said == ZEV_DONE && payload != NULL; payload = hand_up(&length)) {
        zev_payload_add(&log, payload, length);
        said = zev_peer_count(&peer, offers.bytes, offers.length, theirs, sizeof theirs, log.bytes, log.length, &told);
        for (size_t count = told.length; said == ZEV_DONE && shown < count; shown++) {
            said = zev_peer_message(&peer, offers.bytes, offers.length, theirs, sizeof theirs, log.bytes, log.length, shown, out, sizeof out, &told);
            show("message", out, told.length);
        }
        if (said == ZEV_DONE) {
            said = zev_peer_reply(&peer, offers.bytes, offers.length, theirs, sizeof theirs, log.bytes, log.length, out, sizeof out, &told);
            show("reply", out, told.length);
            if (told.anew) { /* no connection is open: a new log gives the same replies from here on */
                log.length = shown = 0;
            }
        }
    }
    if (said != ZEV_DONE) {
        printf("%s\n", zev_fault_text(said));
    }
    return said != ZEV_DONE || shown != 1;
}
