/* A reading or a writing of a simulated tag, driven to its end. */
#ifndef DRIVE_H
#define DRIVE_H

#include "../zevlodek.h"
#include "tags.h"

enum { GONE = -1000, FULL = -1001 };

typedef struct {
    uint8_t kept[1 << 17];
    uint8_t out[1 << 17];
    zev_told told;
} driver;

/* Reads the tag, or writes a message to it: what the last call answered, GONE where a command had no answer. */
static inline int32_t drive(driver *by, tag *of, bool writes, const uint8_t *message, size_t length)
{
    zev_log log = {by->kept, 0, sizeof by->kept};
    memset(&by->told, 0, sizeof by->told);
    of->commands = 0;
    for (;;) {
        int32_t said = writes ? zev_write_next(of->kind, of->id, message, length, log.bytes, log.length, by->out, sizeof by->out, &by->told)
                              : zev_read_next(of->kind, of->id, log.bytes, log.length, by->out, sizeof by->out, &by->told);
        if (said != ZEV_SEND) {
            return said;
        }
        answer heard;
        if (!transceive(of, by->out, by->told.length, &heard)) {
            return GONE;
        }
        if (!zev_log_add(&log, by->out, by->told.length, heard.bytes, heard.length, heard.bits)) {
            return FULL;
        }
    }
}

#endif
