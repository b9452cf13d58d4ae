/* Simulated tags for tests: what a tag of Type 2 or Type 5 answers to a command, written in C and on no proved code. */
#ifndef TAGS_H
#define TAGS_H

#include <stdbool.h>
#include <stddef.h>
#include <stdint.h>
#include <string.h>

enum { MOST_BYTES = 2048, MOST_ANSWER = 288 };

typedef struct {
    uint32_t kind; /* 2, or 5 with blocks of four bytes */
    uint8_t id[8];
    uint8_t memory[MOST_BYTES];
    size_t size;
    int cut;      /* the command, counted from 0, at which the tag is pulled away; -1 for none */
    bool obeys;   /* whether it still obeys that command */
    int commands; /* how many it was sent */
} tag;

typedef struct {
    uint8_t bytes[MOST_ANSWER];
    size_t length;
    uint8_t bits;
} answer;

static inline void nibble(answer *to, uint8_t bits)
{
    to->bytes[0] = bits;
    to->length = 1;
    to->bits = 4;
}

static inline bool type2(tag *of, const uint8_t *command, size_t length, answer *to)
{
    size_t blocks = of->size / 4;
    if (length == 2 && command[0] == 0x30 && command[1] < blocks) {
        for (size_t i = 0; i < 16; i++) {
            to->bytes[i] = of->memory[(command[1] * 4u + i) % of->size];
        }
        to->length = 16;
    } else if (length == 6 && command[0] == 0xA2 && command[1] >= 4 && command[1] < blocks) {
        memcpy(of->memory + 4 * command[1], command + 2, 4);
        nibble(to, 0xA);
    } else {
        nibble(to, 0);
    }
    return true;
}

/* READ, WRITE and READ MULTIPLE with the tag's identifier; blocks have four bytes. */
static inline bool type5(tag *of, const uint8_t *command, size_t length, answer *to)
{
    size_t blocks = of->size / 4;
    if (length < 11 || command[0] != 0x22) {
        return false;
    }
    for (size_t i = 0; i < 8; i++) {
        if (command[2 + i] != of->id[7 - i]) {
            return false;
        }
    }
    size_t block = command[10];
    to->bytes[0] = 0;
    to->length = 1;
    if (command[1] == 0x20 && length == 11 && block < blocks) {
        memcpy(to->bytes + 1, of->memory + 4 * block, 4);
        to->length = 5;
    } else if (command[1] == 0x21 && length == 15 && block < blocks) {
        memcpy(of->memory + 4 * block, command + 11, 4);
    } else if (command[1] == 0x23 && length == 12 && block + command[11] < blocks && command[11] < 64) {
        memcpy(to->bytes + 1, of->memory + 4 * block, 4 * (command[11] + 1u));
        to->length = 1 + 4 * (command[11] + 1u);
    } else {
        to->bytes[0] = 1;
        to->bytes[1] = block < blocks ? 0x0F : 0x10;
        to->length = 2;
    }
    return true;
}

/* Sends a command: false where no answer came. */
static inline bool transceive(tag *of, const uint8_t *command, size_t length, answer *to)
{
    bool last = of->commands++ == of->cut;
    if (last && !of->obeys) {
        return false;
    }
    to->bits = 0;
    bool answers = of->kind == 2 ? type2(of, command, length, to) : type5(of, command, length, to);
    return answers && !last;
}

#endif
