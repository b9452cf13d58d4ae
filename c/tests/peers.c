/* The far end of a link: payloads whose replies were worked out by hand; where a new log may begin; logs of random bytes, and logs with a byte changed; each
 * length of `out`; and what isn't taken. */
#include <stdio.h>
#include <stdlib.h>

#include "../zevlodek.h"

static const zev_peer peer = {1024, 2175, 1};
static uint8_t general[64], offers[64], kept[8192], out[4096];
static size_t general_length, offers_length;

/* A link: each payload, and the reply to it. CONNECT; a put; SYMM; a get; a get of another key; SNL; DISC. */
static const char *const link_rows[][2] = {
    {"1120", "8184020207FF"},
    {"132000100200000003D00000", "830401108100000000"},
    {"0000", "0000"},
    {"132011" "100100000006000004006B31", "830412108100000002A1A2"},
    {"132022" "100100000006000004006B32", "83042310C000000000"},
    {"0641" "0810" "07" "75726E3A6E66633A736E3A736E6570", "064109020704"},
    {"1160", "81C400"},
    {"132033" "00", "81C401"},
};
enum { ROWS = sizeof link_rows / sizeof link_rows[0] };

static size_t bytes_of(const char *hex, uint8_t *to)
{
    size_t length = strlen(hex) / 2;
    for (size_t i = 0; i < length; i++) {
        char digits[3] = {hex[2 * i], hex[2 * i + 1], 0};
        to[i] = (uint8_t)strtoul(digits, NULL, 16);
    }
    return length;
}

static void add(zev_log *log, const char *hex)
{
    uint8_t payload[64];
    zev_payload_add(log, payload, bytes_of(hex, payload));
}

static int32_t reply(const zev_log *log, size_t room, zev_told *told)
{
    return zev_peer_reply(&peer, offers, offers_length, general, general_length, log->bytes, log->length, out, room, told);
}

/* The payloads up to a row; how many there are of it are 0 and more. */
static zev_log before(size_t row)
{
    zev_log log = {kept, 0, sizeof kept};
    for (size_t i = 0; i < row; i++) {
        add(&log, link_rows[i][0]);
    }
    return log;
}

static bool known(void)
{
    bool right = true;
    zev_told told = {0, 0, 0, 0, 0, 0};
    for (size_t row = 1; row <= ROWS; row++) {
        uint8_t wanted[64];
        size_t length = bytes_of(link_rows[row - 1][1], wanted);
        zev_log log = before(row);
        right = right && reply(&log, sizeof out, &told) == ZEV_DONE && told.length == length && memcmp(out, wanted, length) == 0;
        for (size_t room = 0; room < length; room++) {
            memset(out, 0xC3, sizeof out);
            right = right && reply(&log, room, &told) == ZEV_SHORT && told.length == length && out[0] == 0xC3 && out[length - 1] == 0xC3;
        }
        right = right && zev_peer_count(&peer, offers, offers_length, general, general_length, log.bytes, log.length, &told) == ZEV_DONE
            && told.length == (row >= 2);
    }
    zev_log log = before(ROWS);
    right = right && zev_peer_message(&peer, offers, offers_length, general, general_length, log.bytes, log.length, 0, out, 3, &told) == ZEV_DONE
        && told.length == 3 && memcmp(out, "\xD0\0\0", 3) == 0
        && zev_peer_message(&peer, offers, offers_length, general, general_length, log.bytes, log.length, 0, out, 2, &told) == ZEV_SHORT
        && zev_peer_message(&peer, offers, offers_length, general, general_length, log.bytes, log.length, 1, out, 3, &told) == ZEV_BAD_ARGUMENT
        && zev_peer_source(&peer, offers, offers_length, general, general_length, log.bytes, log.length, 0, &told) == ZEV_DONE && told.code == 32
        && zev_peer_source(&peer, offers, offers_length, general, general_length, log.bytes, log.length, SIZE_MAX, &told) == ZEV_BAD_ARGUMENT;
    log.length = 0;
    return right && reply(&log, 0, &told) == ZEV_DONE && told.length == 0;
}

/* A link with three puts, one behind DISC and one behind FRMR; a lookup; a put in two parts: each payload, and whether a new log may begin behind it. */
static const struct {
    const char *payload;
    bool anew;
} idle_rows[] = {
    {"0000", true}, {"1120", false}, {"0000", false}, {"132000100200000003D00000", false}, {"1360" "01", false}, {"0000", false}, {"1160", true}, {"0000", true},
    {"1120", false}, {"132000100200000003D10000", false}, {"1220" "00000000", true}, {"0641" "0810" "07" "75726E3A6E66633A736E3A736E6570", true},
    {"1120", false}, {"132000" "100200000006D20000", false}, {"132011" "000000", false}, {"1160", true}, {"0000", true},
};
enum { IDLE_ROWS = sizeof idle_rows / sizeof idle_rows[0] };

/* How many messages a log's end accepted, SIZE_MAX where it tells none. */
static size_t count_of(const zev_log *log)
{
    zev_told told = {0, 0, 0, 0, 0, 0};
    int32_t said = zev_peer_count(&peer, offers, offers_length, general, general_length, log->bytes, log->length, &told);
    return said == ZEV_DONE ? told.length : SIZE_MAX;
}

/* The whole log, and one that begins anew wherever it may, give the same replies; the messages of both are the same, one behind the other. */
static bool idle(void)
{
    static uint8_t whole_kept[4096], anew_kept[4096], wanted[4096];
    zev_log whole = {whole_kept, 0, sizeof whole_kept}, anew = {anew_kept, 0, sizeof anew_kept};
    size_t forgotten = 0, begun = 0;
    bool right = true;
    for (size_t i = 0; i < IDLE_ROWS; i++) {
        zev_told first = {0, 0, 0, 0, 0, 7}, second = {0, 0, 0, 0, 0, 7};
        add(&whole, idle_rows[i].payload);
        add(&anew, idle_rows[i].payload);
        right = right && reply(&whole, sizeof out, &first) == ZEV_DONE && first.anew == idle_rows[i].anew;
        memcpy(wanted, out, first.length);
        right = right && reply(&anew, sizeof out, &second) == ZEV_DONE && second.anew == idle_rows[i].anew && second.length == first.length
            && memcmp(out, wanted, first.length) == 0 && count_of(&whole) == forgotten + count_of(&anew);
        if (second.anew) {
            forgotten += count_of(&anew);
            anew.length = 0;
            begun++;
        }
    }
    return right && forgotten == 3 && begun == 7;
}

static bool is_log(const uint8_t *bytes, size_t length)
{
    while (length >= 2) {
        size_t size = bytes[0] + 256u * bytes[1];
        if (size > 2178 || length - 2 < size) {
            return false;
        }
        bytes += size + 2;
        length -= size + 2;
    }
    return length == 0;
}

/* One log, and one length of `out`. */
static bool one(const zev_log *log, size_t room)
{
    zev_told told = {0, 0, 0, 0, 0, 0};
    memset(out, 0xC3, sizeof out);
    int32_t said = reply(log, room, &told);
    bool inside = true;
    for (size_t i = said == ZEV_DONE ? told.length : 0; i < sizeof out; i++) {
        inside = inside && out[i] == 0xC3;
    }
    if (!is_log(log->bytes, log->length)) {
        return inside && said == ZEV_BAD_LOG;
    }
    return inside && told.length <= 2178 && said == (told.length <= room ? ZEV_DONE : ZEV_SHORT);
}

static long random_logs(void)
{
    long wrong = 0;
    for (long i = 0; i < 20000; i++) {
        zev_log log = before(i % 2 ? ROWS : 0);
        if (i % 2) {
            kept[(size_t)rand() % log.length] = (uint8_t)rand();
            log.length -= (size_t)(rand() % 8 == 0);
        } else {
            log.length = (size_t)(rand() % 64);
            for (size_t k = 0; k < log.length; k++) {
                kept[k] = (uint8_t)(rand() % 4);
            }
        }
        wrong += !one(&log, (size_t)(rand() % 40));
    }
    return wrong;
}

/* Numbers that are out of their ranges, offers that are none, a payload that is too long. */
static bool refusals(void)
{
    static const zev_peer others[] = {{1023, 128, 1}, {65537, 128, 1}, {1024, 127, 1}, {1024, 2176, 1}, {1024, 128, 0}, {1024, 128, 16}};
    static const zev_peer edges[] = {{65536, 128, 15}, {1024, 2175, 1}};
    bool right = true;
    zev_told told = {0, 0, 0, 0, 0, 0};
    zev_log log = before(1);
    for (size_t i = 0; i < sizeof others / sizeof others[0]; i++) {
        right = right && zev_peer_reply(&others[i], offers, 0, general, general_length, log.bytes, log.length, out, sizeof out, &told) == ZEV_BAD_ARGUMENT;
    }
    for (size_t i = 0; i < sizeof edges / sizeof edges[0]; i++) {
        right = right && zev_peer_reply(&edges[i], offers, 0, general, general_length, log.bytes, log.length, out, sizeof out, &told) == ZEV_DONE;
    }
    right = right && zev_peer_reply(&peer, offers, offers_length - 1, general, general_length, log.bytes, log.length, out, sizeof out, &told) == ZEV_BAD_ARGUMENT
        && zev_peer_reply(&peer, offers, 4, general, general_length, log.bytes, log.length, out, sizeof out, &told) == ZEV_BAD_ARGUMENT;
    memset(kept, 0, sizeof kept);
    kept[0] = 2178 % 256;
    kept[1] = 2178 / 256;
    log.length = 2180;
    right = right && reply(&log, sizeof out, &told) == ZEV_DONE && !zev_payload_add(&log, out, 2179);
    kept[0]++;
    log.length++;
    return right && reply(&log, sizeof out, &told) == ZEV_BAD_LOG;
}

/* General bytes: what is written is read again, and faults. */
static bool generals(void)
{
    static const zev_general written = {2175, 0x13, 0x13};
    static const uint8_t wanted[14] = {0x46, 0x66, 0x6D, 1, 1, 0x13, 2, 2, 0x07, 0xFF, 3, 2, 0, 0x13};
    static const struct {
        uint8_t bytes[8];
        size_t length;
        int32_t says;
    } rows[] = {
        {{0x46, 0x66}, 2, ZEV_NO_MAGIC}, {{0x46, 0x66, 0x6D}, 3, ZEV_NO_VERSION}, {{0x46, 0x66, 0x6D, 1, 1, 0x23}, 6, ZEV_OTHER_MAJOR},
        {{0x46, 0x66, 0x6D, 1, 2, 0x13}, 6, ZEV_MALFORMED}, {{0x46, 0x66, 0x6D, 1, 1, 0x10}, 6, ZEV_DONE},
    };
    zev_told told = {0, 0, 0, 0, 0, 0};
    zev_general read = {1, 2, 3}, low = {127, 0, 0x13}, high = {2176, 0, 0x13}, other = {128, 0, 0x23};
    bool right = zev_general_write(&written, general, 13, &told) == ZEV_SHORT && told.length == 14
        && zev_general_write(&written, general, sizeof general, &told) == ZEV_DONE && told.length == 14 && memcmp(general, wanted, 14) == 0
        && zev_general_write(&low, out, sizeof out, &told) == ZEV_BAD_ARGUMENT && zev_general_write(&high, out, sizeof out, &told) == ZEV_BAD_ARGUMENT
        && zev_general_write(&other, out, sizeof out, &told) == ZEV_BAD_ARGUMENT;
    general_length = 14;
    for (size_t i = 0; i < sizeof rows / sizeof rows[0]; i++) {
        right = right && zev_general_read(rows[i].bytes, rows[i].length, &read) == rows[i].says && (rows[i].says == ZEV_DONE || read.miu == 1);
    }
    right = right && read.miu == 128 && read.services == 0 && read.version == 0x10;
    return right && zev_general_read(general, general_length, &read) == ZEV_DONE && read.miu == 2175 && read.services == 0x13 && read.version == 0x13;
}

int main(void)
{
    zev_log table = {offers, 0, sizeof offers};
    bool right = generals() && zev_offer_add(&table, (const uint8_t *)"k1", 2, (const uint8_t *)"\xEE", 1)
        && zev_offer_add(&table, (const uint8_t *)"k1", 2, (const uint8_t *)"\xA1\xA2", 2) && !zev_offer_add(&table, out, 60, out, 0);
    offers_length = table.length;
    bool replies = known() && idle(), refuses = refusals();
    long wrong = random_logs();
    printf("general bytes are %s, replies are %s, what isn't taken is %s, wrong %ld\n", right ? "right" : "not right", replies ? "right" : "not right",
           refuses ? "refused" : "not refused", wrong);
    return !right || !replies || !refuses || wrong != 0;
}
