/* Readings and writings of NFC Forum tags (Types 2, 4 and 5), a command at a time; such tags; both ends of a link of LLCP and SNEP, a payload at a time;
 * and both ends of ISO-DEP and of NFC-DEP, a frame at a time: by proved code.
 *
 * The library sends nothing: you have the radio. You keep what passed between your reader and the tag, or what came on a link, in a log, in memory of
 * your own, and hand it in each time; what comes back is the next command, the reply, or the end. No call keeps anything, so any thread may call at any
 * time, and a call may be made again. docs/c-library.md says what is proved of each.
 *
 * No pointer may be null, not even one to no bytes; `out` overlaps nothing else that is handed in. Structs begin as zeros.
 */
#ifndef ZEVLODEK_H
#define ZEVLODEK_H

#include <stdbool.h>
#include <stddef.h>
#include <stdint.h>
#include <string.h>

#ifdef __cplusplus
extern "C" {
#endif

/* What a call answers. A fault is below zero, and leaves `out` as it was. */
enum zev_answer {
    ZEV_DONE = 0,   /* what was asked for is there */
    ZEV_SEND = 1,   /* the command, or the frame, in `out` is to be sent */
    ZEV_SILENT = 2, /* a tag or a card gives no answer */
    ZEV_ASLEEP = 3, /* the frame in `out` is a card's or a target's last answer: it sleeps now */
    ZEV_OPENED = 4, /* the frame in `out` is a target's ATR_RES: a link begins */
    ZEV_RELEASED = 5 /* the frame in `out` is a target's last answer: it is let go */
};

enum zev_fault {
    ZEV_BAD_LOG = -1,      /* the bytes of the log are none that zev_log_add wrote, or zev_payload_add, or zev_entry_add */
    ZEV_BAD_ARGUMENT = -2, /* a number out of its range, or bytes that can't be a tag's memory or frame, or that aren't offers */
    ZEV_SHORT = -3,        /* `out` has fewer bytes than `length` tells: nothing was put there, and nothing was done */
    ZEV_NO_MEMORY = -4,    /* malloc gave none */
    ZEV_ENDS_EARLY = -5,   /* a memory that was read out ends before its container, or before its message */

    /* of reading and writing a tag */
    ZEV_NOT_NDEF = -101,       /* the container is none of an NDEF tag */
    ZEV_VERSION = -102,        /* the container has another major version */
    ZEV_NO_READ = -103,        /* reading isn't free */
    ZEV_SECTORS = -104,        /* a Type 2 tag of more than one sector */
    ZEV_BAD_SIZE = -105,       /* the container names a size that can't be */
    ZEV_NO_MESSAGE_TLV = -106, /* the area has no TLV of a message */
    ZEV_BAD_TLV = -107,        /* a TLV, or a message's length, leads out of the area */
    ZEV_REFUSED = -108,        /* the tag refused a command: `code` */
    ZEV_TAG_NO_MEMORY = -111,  /* malloc gave none: the same call may succeed later */
    ZEV_READ_ONLY = -112,      /* writing isn't free */
    ZEV_TOO_LONG = -113,       /* the message is longer than `capacity` */
    ZEV_SHORT_MLC = -114,      /* a Type 4 tag takes fewer than two bytes a command */
    ZEV_PROTOCOL = -115,       /* an answer that no tag gives to its command, or a log of other commands than those that were to be sent */

    /* of the general bytes of a link */
    ZEV_NO_MAGIC = -201,    /* they are not of LLCP */
    ZEV_NO_VERSION = -202,  /* they have no version */
    ZEV_OTHER_MAJOR = -203, /* their version has another major number */
    ZEV_MALFORMED = -204,   /* a parameter isn't whole */

    /* of a link of ISO-DEP: the next command may begin all the same */
    ZEV_SIX_BAD = -302,  /* six bad receptions in one wait */
    ZEV_NO_ANSWER = -303, /* a frame that is no allowed answer */

    /* the same of a link of NFC-DEP */
    ZEV_DEP_SIX_BAD = -402,
    ZEV_DEP_NO_ANSWER = -403,

    /* of a call of a client of the other end's SNEP server */
    ZEV_REJECT = -501,          /* the server rejected the message */
    ZEV_NOT_FOUND = -502,       /* it has no value under the key */
    ZEV_EXCESS = -503,          /* the value is longer than what was asked for */
    ZEV_NOT_IMPLEMENTED = -504, /* it has no values */
    ZEV_BAD_PEER = -507         /* the other end doesn't answer as a server: its connections are given up */
};

/* What a call tells beside its answer. What isn't spoken of stays as it was. */
typedef struct {
    size_t length;     /* how many bytes stand in `out`; with ZEV_SHORT, how many it takes; of zev_peer_count, how many messages */
    uint32_t capacity; /* of a survey, of zev_t2_find and zev_t5_find, and with ZEV_TOO_LONG: how many bytes a message may have */
    uint16_t code;     /* with ZEV_REFUSED: the tag's error (Type 5), its status bytes (Type 4), 0 (Type 2); of zev_peer_source and of a lookup, the SAP; of
                        * zev_dep_general, the LR code */
    uint8_t writable;  /* of a message that was read, and of a survey: 1 where writing is free */
    uint8_t bits;      /* of a tag's answer: how many low bits of its last byte are sent, 0 for all */
    uint8_t anew;      /* of zev_peer_reply: 1 where a new log may begin */
} zev_told;

/* Goes on with the reading of a tag of this kind (2, 4 or 5; `id` has the eight bytes of a Type 5 tag's identifier, high byte first). ZEV_SEND: send
 * the command in `out`, add it to the log with its answer, and call again. ZEV_DONE: the message stands in `out`. The log begins with no bytes. */
int32_t zev_read_next(uint32_t kind, const uint8_t id[8], const uint8_t *log, size_t log_length, uint8_t *out, size_t out_length,
                      zev_told *told);

/* Goes on with the survey of a tag, likewise. ZEV_DONE: `length` tells how long its message is, `capacity` how long one may be, `writable` whether
 * writing is free; `out` stays. */
int32_t zev_survey_next(uint32_t kind, const uint8_t id[8], const uint8_t *log, size_t log_length, uint8_t *out, size_t out_length,
                        zev_told *told);

/* Goes on with the writing of a message, likewise. ZEV_DONE: all of it is written. Wherever it ends before, with the last command obeyed or not,
 * the tag reads as the old message, the empty one or the new one. */
int32_t zev_write_next(uint32_t kind, const uint8_t id[8], const uint8_t *message, size_t message_length, const uint8_t *log,
                       size_t log_length, uint8_t *out, size_t out_length, zev_told *told);

/* Tells the message of a Type 2 tag's memory that was read out, from its first byte on. ZEV_DONE: it stands in `out`, and `writable` tells whether writing
 * is free. A fault of the memory is that of a reading. */
int32_t zev_t2_message(const uint8_t *memory, size_t memory_length, uint8_t *out, size_t out_length, zev_told *told);

/* The same of a Type 5 tag, whose blocks have `block_size` bytes, 1 to 256. */
int32_t zev_t5_message(uint32_t block_size, const uint8_t *memory, size_t memory_length, uint8_t *out, size_t out_length, zev_told *told);

/* Tells how long the message of a Type 2 tag is, how long one may be, and whether writing is free, as a survey does, by the tag's whole memory: the
 * tag ends where its memory does. */
int32_t zev_t2_find(const uint8_t *memory, size_t memory_length, zev_told *told);

/* The same of a Type 5 tag. */
int32_t zev_t5_find(uint32_t block_size, const uint8_t *memory, size_t memory_length, zev_told *told);

/* The NDEF file of a Type 4 tag: its identifier and its size, two bytes of which tell how long the message is; how many bytes one command may read
 * and write; and 1 where writing is free. */
typedef struct {
    uint16_t id, size, mle, mlc;
    uint8_t writable;
} zev_t4_file;

/* Tells the file that a Type 4 tag's capability container names, by its first 15 bytes. Where there is a fault `file` stays. */
int32_t zev_t4_container(const uint8_t *container, size_t length, zev_t4_file *file);

/* One step of a Type 2 tag, for who answers as a tag: its memory of 4 to 256 blocks of four bytes, which the step changes; a byte for each block,
 * not 0 where it is locked; and a command, of which `bits` low bits of the last byte came (0: all). ZEV_DONE: its answer stands in `out`, 16 bytes
 * or four bits. ZEV_SILENT: it gives none. */
int32_t zev_t2_tag(uint8_t *memory, size_t memory_length, const uint8_t *locks, size_t locks_length, const uint8_t *command,
                   size_t command_length, uint8_t bits, uint8_t *out, size_t out_length, zev_told *told);

/* Where a Type 4 tag stands between two commands; zeros as it comes into the field. */
typedef struct {
    uint8_t selected; /* 0 where its application isn't selected */
    uint8_t current;  /* the file that it has open: 0 for none, 1 for the capability container, 2 for the NDEF file */
} zev_t4_state;

/* One step of a Type 4 tag on the bytes of a command: its capability container of 15 to 64 bytes; the NDEF file that the container names, which the step
 * changes; and where it stands. ZEV_DONE: its answer stands in `out`, 258 bytes at most. */
int32_t zev_t4_tag(const uint8_t *container, size_t container_length, uint8_t *file, size_t file_length, zev_t4_state *state, const uint8_t *command,
                   size_t command_length, uint8_t *out, size_t out_length, zev_told *told);

/* Where a Type 5 tag stands between two frames; zeros as it comes into the field. */
typedef struct {
    uint8_t quiet;         /* 0 where it wasn't told to stay quiet */
    uint8_t in_round;      /* 0 where it is in no round of sixteen slots */
    uint8_t slot, current; /* in a round: the slot in which it answers, and the one in which the round stands */
} zev_t5_state;

/* One step of a Type 5 tag on a frame of 288 bytes at most, without check bytes: its identifier, high byte first; its memory in blocks of 4, 8, 16 or 32
 * bytes, 65,536 bytes at most, which the step changes; a byte for each block, not 0 where it is locked; and where it stands. ZEV_DONE: its answer
 * stands in `out`, 257 bytes at most. ZEV_SILENT: it gives none. */
int32_t zev_t5_tag(const uint8_t id[8], uint32_t block_size, uint8_t *memory, size_t memory_length, const uint8_t *locks, size_t locks_length,
                   zev_t5_state *state, const uint8_t *command, size_t command_length, uint8_t *out, size_t out_length, zev_told *told);

/* What an end of a link says of itself in its general bytes. */
typedef struct {
    uint16_t miu;      /* the longest information of a PDU that it takes: 128 to 2,175 bytes */
    uint16_t services; /* its well-known services, as bits: 13h for link management, discovery and SNEP */
    uint8_t version;   /* its version of LLCP, the major number in the high four bits: 13h of LLCP 1.3 */
} zev_general;

/* Tells the general bytes of an end, for ATR_REQ or ATR_RES. ZEV_DONE: they stand in `out`, 47 bytes at most. */
int32_t zev_general_write(const zev_general *general, uint8_t *out, size_t out_length, zev_told *told);

/* Tells what general bytes say. ZEV_DONE: `general` has it, with a MIU of 128 and no services where they don't say more. Else it stays. */
int32_t zev_general_read(const uint8_t *bytes, size_t length, zev_general *general);

/* The sizes of a far end. */
typedef struct {
    uint32_t limit; /* the longest message that its server takes: 1,024 to 65,536 bytes */
    uint16_t miu;   /* the longest information of a PDU that it takes, as its general bytes say: 128 to 2,175 bytes */
    uint8_t window; /* how many PDUs of a connection it takes before it acknowledges one: 1 to 15 */
} zev_peer;

/* The far end of a link of LLCP with a SNEP server at SAP 4: what it is behind the payloads of a log, in the order in which they came, on a link
 * that began with these general bytes of the other end. `offers` are what it gives for get, as zev_offer_add writes them; there may be none. The log
 * begins with no bytes at each link, and each payload that NFC-DEP hands up is added before the reply is asked for. Where zev_general_read has a fault
 * of the general bytes no link begins, and each reply is empty.
 *
 * Tells the reply to the last payload, to be sent: ZEV_DONE: it stands in `out`, 2,178 bytes at most. `anew` is 1 where no connection is open and nothing
 * waits to be sent: once the reply is sent, a new log without bytes gives the same replies to what comes from here on, on the same link; only where several
 * connections wait at once do their turns begin at the lowest SAP. The end of a new log has accepted nothing yet, so fetch the messages first. */
int32_t zev_peer_reply(const zev_peer *peer, const uint8_t *offers, size_t offers_length, const uint8_t *general, size_t general_length,
                       const uint8_t *log, size_t log_length, uint8_t *out, size_t out_length, zev_told *told);

/* Tells in `length` how many messages the server accepted on the link. */
int32_t zev_peer_count(const zev_peer *peer, const uint8_t *offers, size_t offers_length, const uint8_t *general, size_t general_length,
                       const uint8_t *log, size_t log_length, zev_told *told);

/* Tells one of these messages, the first by `index` 0. ZEV_DONE: it stands in `out`. ZEV_BAD_ARGUMENT: there are not so many. */
int32_t zev_peer_message(const zev_peer *peer, const uint8_t *offers, size_t offers_length, const uint8_t *general, size_t general_length,
                         const uint8_t *log, size_t log_length, size_t index, uint8_t *out, size_t out_length, zev_told *told);

/* Tells in `code` from which SAP of the other end this message came. */
int32_t zev_peer_source(const zev_peer *peer, const uint8_t *offers, size_t offers_length, const uint8_t *general, size_t general_length,
                        const uint8_t *log, size_t log_length, size_t index, zev_told *told);

/* What stands in a log of an end of a link of ISO-DEP or NFC-DEP, and of a near end of LLCP. */
enum zev_entry {
    ZEV_COMMAND = 0, /* what a reader is to send, of 264 bytes at most, and an initiator, of 2,178 */
    ZEV_FRAME = 1,   /* a frame that came whole, without its check bytes, of 288 bytes at most */
    ZEV_DAMAGED = 2, /* a reader's, an initiator's: what came was damaged */
    ZEV_NOTHING = 3, /* a reader's, an initiator's: nothing came in time */
    ZEV_REPLY = 4,   /* a card's, a target's: the reply to what it was handed, as long as that may be; a near end's: the other end's reply to its payload */
    ZEV_PUT = 5,     /* a near end's: put this message, of 65,535 bytes at most */
    ZEV_GET = 6,     /* a near end's: a get, as zev_get_add writes it */
    ZEV_LOOKUP = 7,  /* a near end's: at which SAP is the service of this name, UTF-8 of 64 bytes at most? */
    ZEV_CLOSE = 8    /* a near end's: end all connections; it has no bytes */
};

/* Goes on as the reader's end of ISO-DEP (ISO/IEC 14443-4) with a card of this size code, the low four bits of its ATS's format byte; codes above 8
 * count as 8. The log begins with no bytes behind ATS. Add a command: ZEV_SEND: send the frame in `out`, add what came of it, and call again. ZEV_DONE:
 * the answer to the command stands in `out`; the next command may be added. ZEV_SILENT: there was no command yet. */
int32_t zev_iso_reader_next(uint8_t code, const uint8_t *log, size_t log_length, uint8_t *out, size_t out_length, zev_told *told);

/* Goes on as the card's end, with this size code of its own, 0 to 8. The log begins with no bytes where the card is selected. Add each frame that
 * comes, RATS too: ZEV_SEND, and ZEV_ASLEEP: send the frame in `out`. ZEV_DONE: a command stands in `out`: add the reply, and call again. ZEV_SILENT: send
 * nothing. A frame that came damaged is not added. A reply where no command was handed is a bad log. */
int32_t zev_iso_card_next(uint8_t code, const uint8_t *log, size_t log_length, uint8_t *out, size_t out_length, zev_told *told);

/* Tells the ATR_REQ by which an initiator with this NFCID3 begins a link of NFC-DEP, with general bytes of 48 at most. It takes frames of 254 bytes.
 * ZEV_DONE: the frame stands in `out`, 66 bytes at most. */
int32_t zev_dep_request(const uint8_t id[10], const uint8_t *general, size_t general_length, uint8_t *out, size_t out_length, zev_told *told);

/* Tells the general bytes of ATR_REQ or ATR_RES, and in `code` the LR code of the end that sent it. ZEV_DONE: they stand in `out`, 48 bytes at most.
 * ZEV_BAD_ARGUMENT: the frame is neither. */
int32_t zev_dep_general(const uint8_t *frame, size_t length, uint8_t *out, size_t out_length, zev_told *told);

/* Goes on as the initiator of a link of NFC-DEP to a target with this LR code, 0 to 3. The log begins with no bytes behind ATR_RES. Add a payload as
 * ZEV_COMMAND: ZEV_SEND: send the frame in `out`, add what came of it, and call again. ZEV_DONE: the reply to the payload stands in `out`; the next may
 * be added. ZEV_SILENT: there was no payload yet. */
int32_t zev_dep_initiator_next(uint8_t lr, const uint8_t *log, size_t log_length, uint8_t *out, size_t out_length, zev_told *told);

/* Goes on as a target of NFC-DEP, with its NFCID3, the code of the longest frames that it takes, 0 to 3, and general bytes of 47 at most. The log begins
 * with no bytes where the target is selected. Add each frame that comes: ZEV_SEND, ZEV_OPENED, ZEV_ASLEEP and ZEV_RELEASED: send the frame in `out`; with
 * ZEV_OPENED a link begins, and the frame that came has the other end's general bytes (zev_dep_general). ZEV_DONE: a payload stands in `out`: add the
 * reply, and call again. ZEV_SILENT: send nothing. A frame that came damaged is not added. A reply where no payload was handed is a bad log. */
int32_t zev_dep_target_next(const uint8_t id[10], uint8_t lr, const uint8_t *general, size_t general_length, const uint8_t *log, size_t log_length,
                            uint8_t *out, size_t out_length, zev_told *told);

/* The sizes of a near end. */
typedef struct {
    uint16_t miu;   /* the longest information of a PDU that it takes, as its general bytes say: 128 to 2,175 bytes */
    uint8_t window; /* how many PDUs of a connection it takes before it acknowledges one: 1 to 15 */
} zev_near;

/* Goes on as the near end of a link of LLCP, a client of the other end's SNEP server, on a link that began with these general bytes of the other end. The
 * log begins with no bytes. Add a call (zev_entry_add of ZEV_PUT, ZEV_LOOKUP or ZEV_CLOSE, or zev_get_add): ZEV_SEND: hand the payload in `out` over, add the
 * reply, and call again. ZEV_DONE: the call is over; of a get the value stands in `out`, of a lookup `code` has the SAP, 0 where there is none. Behind
 * ZEV_DONE, and behind a fault of a call, the next call may be added; it goes over the connections that are open. ZEV_SILENT: nothing was asked yet. */
int32_t zev_client_next(const zev_near *near_end, const uint8_t *general, size_t general_length, const uint8_t *log, size_t log_length, uint8_t *out,
                        size_t out_length, zev_told *told);

/* What a fault says, in English. */
const char *zev_fault_text(int32_t fault);

/* The version of the library that is linked; of this header, ZEV_VERSION_TEXT. */
const char *zev_version(void);
#define ZEV_VERSION_TEXT "0.3.0"

/* A log, in memory of yours. */
typedef struct {
    uint8_t *bytes;
    size_t length, room;
} zev_log;

/* Adds a command and its answer, of which `bits` low bits of the last byte came (0: all). False where the log has no room for it. */
static inline bool zev_log_add(zev_log *log, const uint8_t *command, size_t command_length, const uint8_t *answer, size_t answer_length,
                               uint8_t bits)
{
    if (command_length > 288 || answer_length > 288 || log->room - log->length < command_length + answer_length + 5) {
        return false;
    }
    uint8_t *at = log->bytes + log->length;
    *at++ = bits;
    *at++ = (uint8_t)(command_length % 256);
    *at++ = (uint8_t)(command_length / 256);
    memcpy(at, command, command_length);
    at += command_length;
    *at++ = (uint8_t)(answer_length % 256);
    *at++ = (uint8_t)(answer_length / 256);
    memcpy(at, answer, answer_length);
    log->length += command_length + answer_length + 5;
    return true;
}

/* Adds bytes behind their length. */
static inline void zev_put_counted(zev_log *log, const uint8_t *bytes, size_t length)
{
    log->bytes[log->length] = (uint8_t)(length % 256);
    log->bytes[log->length + 1] = (uint8_t)(length / 256);
    memcpy(log->bytes + log->length + 2, bytes, length);
    log->length += length + 2;
}

/* Adds an entry to a log of ISO-DEP, NFC-DEP or a near end, of 65,535 bytes at most. False where it is longer, or the log has no room for it. */
static inline bool zev_entry_add(zev_log *log, enum zev_entry kind, const uint8_t *content, size_t length)
{
    if (length > 65535 || log->room - log->length < length + 3) {
        return false;
    }
    log->bytes[log->length++] = (uint8_t)kind;
    zev_put_counted(log, content, length);
    return true;
}

/* Adds a get to a near end's log: the value of a key, of `most` bytes at most, on the connection of a slot, 0 to 7; a key of 65,530 bytes at most. */
static inline bool zev_get_add(zev_log *log, uint8_t slot, uint32_t most, const uint8_t *key, size_t length)
{
    if (length > 65530 || log->room - log->length < length + 8) {
        return false;
    }
    size_t whole = length + 5;
    uint8_t *at = log->bytes + log->length;
    *at++ = ZEV_GET;
    *at++ = (uint8_t)(whole % 256);
    *at++ = (uint8_t)(whole / 256);
    *at++ = slot;
    for (int shift = 24; shift >= 0; shift -= 8) {
        *at++ = (uint8_t)(most >> shift);
    }
    memcpy(at, key, length);
    log->length += length + 8;
    return true;
}

/* Adds a payload that came on a link, of 2,178 bytes at most. False where it is longer, or the log has no room for it. */
static inline bool zev_payload_add(zev_log *log, const uint8_t *payload, size_t length)
{
    if (length > 2178 || log->room - log->length < length + 2) {
        return false;
    }
    zev_put_counted(log, payload, length);
    return true;
}

/* Adds a key and its value to offers, each of 65,535 bytes at most; of one key the last value counts. False where there is no room. */
static inline bool zev_offer_add(zev_log *offers, const uint8_t *key, size_t key_length, const uint8_t *value, size_t value_length)
{
    if (key_length > 65535 || value_length > 65535 || offers->room - offers->length < key_length + value_length + 4) {
        return false;
    }
    zev_put_counted(offers, key, key_length);
    zev_put_counted(offers, value, value_length);
    return true;
}

#ifdef __cplusplus
}
#endif

#endif
