/* The near end of a link against the far end: puts of many lengths at many MIUs and windows, one after the other on a link, a get, a lookup, the end of
 * all connections. Then rows of faults; each length of `out`; logs of random bytes, and logs with a byte changed. */
#include <stdio.h>
#include <stdlib.h>

#include "../zevlodek.h"

static uint8_t calls_bytes[1 << 19], came_bytes[1 << 19], offers_bytes[64], general[2][64], out[1 << 17], reply[4096], message[65536];
static size_t general_length[2];
static zev_log calls, came, offers;
static zev_near near_sizes;
static zev_peer peer = {65536, 2175, 15};

static void begin(uint16_t near_miu, uint16_t far_miu, uint8_t window)
{
    zev_general said[2] = {{near_miu, 0x13, 0x13}, {far_miu, 0x13, 0x13}};
    zev_told told = {0, 0, 0, 0, 0, 0};
    for (int i = 0; i < 2; i++) {
        zev_general_write(&said[i], general[i], sizeof general[i], &told);
        general_length[i] = told.length;
    }
    near_sizes = (zev_near){near_miu, window};
    peer.miu = far_miu;
    peer.window = window;
    calls = (zev_log){calls_bytes, 0, sizeof calls_bytes};
    came = (zev_log){came_bytes, 0, sizeof came_bytes};
}

static int32_t next(size_t room, zev_told *told)
{
    return zev_client_next(&near_sizes, general[1], general_length[1], calls.bytes, calls.length, out, room, told);
}

/* Goes through the last call: what it came to. */
static int32_t run(zev_told *told)
{
    for (;;) {
        int32_t said = next(sizeof out, told);
        if (said != ZEV_SEND) {
            return said;
        }
        if (!zev_payload_add(&came, out, told->length)
            || zev_peer_reply(&peer, offers.bytes, offers.length, general[0], general_length[0], came.bytes, came.length, reply, sizeof reply, told) != ZEV_DONE
            || !zev_entry_add(&calls, ZEV_REPLY, reply, told->length)) {
            return -1000;
        }
    }
}

static size_t accepted(zev_told *told)
{
    zev_peer_count(&peer, offers.bytes, offers.length, general[0], general_length[0], came.bytes, came.length, told);
    return told->length;
}

/* Two puts, a get of a value that is there and of one that isn't, a lookup, the end, and a put again. */
static bool link_of(uint16_t near_miu, uint16_t far_miu, uint8_t window, size_t length)
{
    static const char name[] = "urn:nfc:sn:snep", none[] = "urn:nfc:sn:none";
    zev_told told = {0, 0, 0, 0, 0, 0};
    begin(near_miu, far_miu, window);
    bool right = next(0, &told) == ZEV_SILENT;
    for (size_t put = 1; put <= 2; put++) {
        zev_entry_add(&calls, ZEV_PUT, message + put, length);
        right = right && run(&told) == ZEV_DONE && accepted(&told) == put
            && zev_peer_message(&peer, offers.bytes, offers.length, general[0], general_length[0], came.bytes, came.length, put - 1, out, sizeof out, &told)
                == ZEV_DONE
            && told.length == length && memcmp(out, message + put, length) == 0;
    }
    zev_get_add(&calls, 3, 1000, (const uint8_t *)"k1", 2);
    right = right && run(&told) == ZEV_DONE && told.length == 5 && memcmp(out, "value", 5) == 0;
    zev_get_add(&calls, 3, 4, (const uint8_t *)"k1", 2);
    right = right && run(&told) == ZEV_EXCESS;
    zev_get_add(&calls, 7, 1000, (const uint8_t *)"k2", 2);
    right = right && run(&told) == ZEV_NOT_FOUND;
    zev_entry_add(&calls, ZEV_LOOKUP, (const uint8_t *)name, strlen(name));
    right = right && run(&told) == ZEV_DONE && told.code == 4;
    zev_entry_add(&calls, ZEV_LOOKUP, (const uint8_t *)none, strlen(none));
    right = right && run(&told) == ZEV_DONE && told.code == 0;
    zev_entry_add(&calls, ZEV_CLOSE, out, 0);
    right = right && run(&told) == ZEV_DONE;
    zev_entry_add(&calls, ZEV_PUT, message, 1);
    return right && run(&told) == ZEV_DONE && accepted(&told) == 3;
}

static bool links(long *count)
{
    static const uint16_t mius[] = {128, 131, 500, 2175};
    static const size_t lengths[] = {0, 1, 121, 122, 123, 500, 3000};
    bool right = true;
    for (size_t n = 0; n < 4; n++) {
        for (size_t f = 0; f < 4; f++) {
            for (size_t l = 0; l < sizeof lengths / sizeof lengths[0]; l++) {
                ++*count;
                right = right && link_of(mius[n], mius[f], (uint8_t)(1 + 7 * ((n + f + l) % 3)), lengths[l]);
            }
        }
    }
    zev_told told = {0, 0, 0, 0, 0, 0};
    begin(2175, 2175, 15);
    zev_entry_add(&calls, ZEV_PUT, message, 65535);
    right = right && run(&told) == ZEV_DONE && accepted(&told) == 1
        && zev_peer_message(&peer, offers.bytes, offers.length, general[0], general_length[0], came.bytes, came.length, 0, out, sizeof out, &told) == ZEV_DONE
        && told.length == 65535 && memcmp(out, message, 65535) == 0;
    peer.limit = 1024;
    begin(2175, 2175, 1);
    zev_entry_add(&calls, ZEV_PUT, message, 1025);
    right = right && run(&told) == ZEV_REJECT && accepted(&told) == 0;
    zev_entry_add(&calls, ZEV_PUT, message, 1024);
    return right && run(&told) == ZEV_DONE && accepted(&told) == 1;
}

/* What isn't taken: numbers out of range; a reply or a call out of place; entries that spell no call. A far end that says nothing is given up. */
static bool rows(void)
{
    static const zev_near others[] = {{127, 1}, {2176, 1}, {128, 0}, {128, 16}};
    static const uint8_t bad_name[1] = {0xFF};
    zev_told told = {0, 0, 0, 0, 0, 0};
    bool right = true;
    begin(128, 128, 1);
    for (size_t i = 0; i < sizeof others / sizeof others[0]; i++) {
        right = right && zev_client_next(&others[i], general[1], general_length[1], calls.bytes, 0, out, sizeof out, &told) == ZEV_BAD_ARGUMENT;
    }
    zev_entry_add(&calls, ZEV_REPLY, out, 2);
    right = right && next(sizeof out, &told) == ZEV_BAD_LOG;
    calls.length = 0;
    zev_entry_add(&calls, ZEV_PUT, message, 1);
    zev_entry_add(&calls, ZEV_PUT, message, 1);
    right = right && next(sizeof out, &told) == ZEV_BAD_LOG;
    calls.length = 0;
    zev_entry_add(&calls, ZEV_LOOKUP, bad_name, 1);
    right = right && next(sizeof out, &told) == ZEV_BAD_LOG;
    calls.length = 0;
    zev_entry_add(&calls, ZEV_LOOKUP, message, 65);
    right = right && next(sizeof out, &told) == ZEV_BAD_LOG;
    calls.length = 0;
    zev_get_add(&calls, 8, 1, message, 1);
    right = right && next(sizeof out, &told) == ZEV_BAD_LOG;
    calls.length = 0;
    zev_entry_add(&calls, ZEV_GET, message, 4);
    right = right && next(sizeof out, &told) == ZEV_BAD_LOG;
    calls.length = 0;
    zev_entry_add(&calls, ZEV_CLOSE, message, 1);
    right = right && next(sizeof out, &told) == ZEV_BAD_LOG;
    calls.length = 0;
    zev_entry_add(&calls, ZEV_CLOSE, message, 0);
    right = right && next(sizeof out, &told) == ZEV_DONE;
    zev_entry_add(&calls, ZEV_PUT, message, 1);
    int sent = 0;
    while (next(sizeof out, &told) == ZEV_SEND) {
        for (size_t room = 0; room < told.length; room++) {
            right = right && next(room, &told) == ZEV_SHORT;
        }
        zev_entry_add(&calls, ZEV_REPLY, (const uint8_t *)"\0\0", 2);
        sent++;
    }
    return right && sent == 16 && next(sizeof out, &told) == ZEV_BAD_PEER;
}

static bool is_answer(int32_t said)
{
    return (said >= ZEV_DONE && said <= ZEV_SILENT) || said == ZEV_BAD_LOG || said == ZEV_SHORT || (said <= ZEV_REJECT && said >= ZEV_NOT_IMPLEMENTED)
        || said == ZEV_BAD_PEER;
}

static long random_logs(void)
{
    static uint8_t kept[1 << 16];
    long wrong = 0;
    peer.limit = 65536;
    link_of(128, 128, 2, 200);
    size_t whole = calls.length < sizeof kept ? calls.length : sizeof kept;
    memcpy(kept, calls.bytes, whole);
    for (long i = 0; i < 20000; i++) {
        memcpy(calls.bytes, kept, whole);
        calls.length = (size_t)rand() % whole;
        if (i % 2) {
            calls.bytes[(size_t)rand() % whole] = (uint8_t)rand();
        } else {
            calls.length %= 80;
            for (size_t k = 0; k < calls.length; k++) {
                calls.bytes[k] = (uint8_t)(rand() % 9);
            }
        }
        size_t room = (size_t)(rand() % 40);
        zev_told told = {0, 0, 0, 0, 0, 0};
        memset(out, 0xC3, 64);
        int32_t said = next(room, &told);
        wrong += !is_answer(said) || out[room] != 0xC3 || (said < 0 && out[0] != 0xC3);
    }
    return wrong;
}

int main(void)
{
    for (size_t i = 0; i < sizeof message; i++) {
        message[i] = (uint8_t)(i * 7 + i / 256);
    }
    offers = (zev_log){offers_bytes, 0, sizeof offers_bytes};
    zev_offer_add(&offers, (const uint8_t *)"k1", 2, (const uint8_t *)"value", 5);
    long count = 0;
    bool through = links(&count), right = rows();
    long wrong = random_logs();
    printf("%ld links are %s, rows are %s, wrong logs %ld\n", count, through ? "right" : "not right", right ? "right" : "not right", wrong);
    return !through || !right || wrong != 0;
}
