/* Asks a tag how long a message may be, writes one to it, and reads it back. `transceive` is the one function that a reader of yours has to give; here a Type 2 tag of 64 bytes
 * in memory stands behind it. */
#include <stdio.h>

#include "../zevlodek.h"

static uint8_t memory[64] = {0, 0, 0, 0, 0, 0, 0, 0, 0, 0, 0, 0, 0xE1, 0x10, 0x06, 0x00, 0x03, 0x00, 0xFE};

/* Sends a command, and takes the answer: how many bytes it has and how many low bits of the last one came (0: all). */
static bool transceive(const uint8_t *command, size_t length, uint8_t *answer, size_t *answer_length, uint8_t *bits)
{
    if (length == 2 && command[0] == 0x30 && command[1] < 16) {
        for (size_t i = 0; i < 16; i++) {
            answer[i] = memory[(4u * command[1] + i) % sizeof memory];
        }
        *answer_length = 16;
        *bits = 0;
        return true;
    }
    bool writes = length == 6 && command[0] == 0xA2 && command[1] >= 4 && command[1] < 16;
    if (writes) {
        memcpy(memory + 4 * command[1], command + 2, 4);
    }
    answer[0] = writes ? 0x0A : 0x00;
    *answer_length = 1;
    *bits = 4;
    return true;
}

enum job { SURVEY, WRITE, READ };

static const uint8_t message[5] = {0xD1, 0x01, 0x01, 'T', 0x00};

/* The next step of a job, by what the log has. */
static int32_t next(enum job job, const zev_log *log, uint8_t *out, size_t room, zev_told *told)
{
    static const uint8_t id[8] = {0}; /* a Type 2 tag has none */
    switch (job) {
    case SURVEY: return zev_survey_next(2, id, log->bytes, log->length, out, room, told);
    case WRITE: return zev_write_next(2, id, message, sizeof message, log->bytes, log->length, out, room, told);
    default: return zev_read_next(2, id, log->bytes, log->length, out, room, told);
    }
}

/* Goes through a job to its end. */
static int32_t run(enum job job, uint8_t *out, size_t room, zev_told *told)
{
    static uint8_t kept[4096];
    uint8_t answer[288], bits;
    size_t answer_length;
    zev_log log = {kept, 0, sizeof kept};
    for (;;) {
        int32_t said = next(job, &log, out, room, told);
        if (said != ZEV_SEND || !transceive(out, told->length, answer, &answer_length, &bits)
            || !zev_log_add(&log, out, told->length, answer, answer_length, bits)) {
            return said;
        }
    }
}

int main(void)
{
    uint8_t out[288];
    zev_told told = {0, 0, 0, 0, 0, 0};
    int32_t said = run(SURVEY, out, sizeof out, &told);
    if (said == ZEV_DONE) {
        printf("it holds %zu bytes and takes %u\n", told.length, (unsigned)told.capacity);
        said = run(WRITE, out, sizeof out, &told);
    }
    if (said == ZEV_DONE) {
        said = run(READ, out, sizeof out, &told);
    }
    if (said != ZEV_DONE) {
        printf("%s\n", zev_fault_text(said));
        return 1;
    }
    printf("written and read:");
    for (size_t i = 0; i < told.length; i++) {
        printf(" %02X", out[i]);
    }
    printf(told.writable ? ", free to write\n" : ", not free to write\n");
    return 0;
}
