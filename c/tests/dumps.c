/* What memories that were read out tell: their messages, how much room they have, and the fault of each part; a container of a Type 4 tag; and
 * memories of random bytes. */
#include <stdio.h>
#include <stdlib.h>

#include "../zevlodek.h"

static uint8_t memory[2100], out[2100];

typedef struct {
    const char *what;
    uint32_t kind, block_size;
    const char *hex; /* from the container on */
    size_t length;   /* of the memory, zeros behind what is said */
    int32_t message_says, find_says;
    size_t message_length;
    uint32_t capacity;
} row;

/* An area of 48 bytes has room for a message of 46: two more are its type and its length. */
static const row rows[] = {
    {"a message", 2, 4, "E1100600" "0303D00000FE", 64, ZEV_DONE, ZEV_DONE, 3, 46},
    {"a message that may only be read", 2, 4, "E110060F" "0303D00000FE", 64, ZEV_DONE, ZEV_DONE, 3, 46},
    {"a null TLV before it", 2, 4, "E1100600" "000301D0FE", 64, ZEV_DONE, ZEV_DONE, 1, 45},
    {"no message", 2, 4, "E1100600" "FE", 64, ZEV_NO_MESSAGE_TLV, ZEV_NO_MESSAGE_TLV, 0, 0},
    {"a value past the area", 2, 4, "E1100600" "0330", 64, ZEV_BAD_TLV, ZEV_BAD_TLV, 0, 0},
    {"a tag that ends before its area", 2, 4, "E1100600" "0303D00000FE", 32, ZEV_DONE, ZEV_DONE, 3, 14},
    {"a value past the tag", 2, 4, "E1100600" "0320", 32, ZEV_ENDS_EARLY, ZEV_BAD_TLV, 0, 0},
    {"no container", 2, 4, "00000000", 64, ZEV_NOT_NDEF, ZEV_NOT_NDEF, 0, 0},
    {"a container that isn't whole", 2, 4, "E110", 14, ZEV_ENDS_EARLY, ZEV_ENDS_EARLY, 0, 0},
    {"a message", 5, 4, "E1400600" "0303D00000FE", 52, ZEV_DONE, ZEV_DONE, 3, 46},
    {"a long container", 5, 4, "E2400000" "00000006" "0303D00000FE", 56, ZEV_DONE, ZEV_DONE, 3, 46},
    {"blocks that one byte can't number", 5, 1, "E1408000" "0303D00000FE", 1028, ZEV_DONE, ZEV_DONE, 3, 250},
    {"blocks that it can", 5, 4, "E1408000" "0303D00000FE", 1028, ZEV_DONE, ZEV_DONE, 3, 1016},
    {"a long container that isn't whole", 5, 4, "E2400000" "0000", 6, ZEV_ENDS_EARLY, ZEV_ENDS_EARLY, 0, 0},
    {"no size", 5, 4, "E1400000" "00000000", 64, ZEV_BAD_SIZE, ZEV_BAD_SIZE, 0, 0},
    {"another version", 5, 4, "E1800600" "FE", 52, ZEV_VERSION, ZEV_VERSION, 0, 0},
    {"blocks of no bytes", 5, 0, "E1400600" "0303D00000FE", 52, ZEV_BAD_ARGUMENT, ZEV_BAD_ARGUMENT, 0, 0},
    {"blocks of 257 bytes", 5, 257, "E1400600" "0303D00000FE", 52, ZEV_BAD_ARGUMENT, ZEV_BAD_ARGUMENT, 0, 0},
};

static void put_hex(const char *hex, uint8_t *to)
{
    for (size_t i = 0; i < strlen(hex) / 2; i++) {
        char digits[3] = {hex[2 * i], hex[2 * i + 1], 0};
        to[i] = (uint8_t)strtoul(digits, NULL, 16);
    }
}

static int32_t message(uint32_t kind, uint32_t block_size, size_t length, size_t room, zev_told *told)
{
    return kind == 2 ? zev_t2_message(memory, length, out, room, told) : zev_t5_message(block_size, memory, length, out, room, told);
}

static int32_t find(uint32_t kind, uint32_t block_size, size_t length, zev_told *told)
{
    return kind == 2 ? zev_t2_find(memory, length, told) : zev_t5_find(block_size, memory, length, told);
}

static bool holds(const row *of)
{
    zev_told told = {0, 0, 0, 0, 0, 0}, found = {0, 0, 0, 0, 0, 0};
    memset(memory, 0, sizeof memory);
    put_hex(of->hex, memory + (of->kind == 2 ? 12 : 0));
    bool right = message(of->kind, of->block_size, of->length, sizeof out, &told) == of->message_says
        && find(of->kind, of->block_size, of->length, &found) == of->find_says && found.length == of->message_length && found.capacity == of->capacity;
    if (of->message_says != ZEV_DONE) {
        return right;
    }
    right = right && told.length == of->message_length && out[0] == 0xD0 && told.writable == found.writable
        && found.writable == (of->kind == 5 || memory[15] == 0);
    return right && message(of->kind, of->block_size, of->length, of->message_length - 1, &told) == ZEV_SHORT;
}

static bool containers(void)
{
    static const struct {
        const char *hex;
        int32_t says;
    } other[] = {
        {"000F20003B00340406E104010000", ZEV_ENDS_EARLY},
        {"000F20003B00340506E10401000000", ZEV_NOT_NDEF},
        {"000F10003B00340406E10401000000", ZEV_VERSION},
        {"000F20003B00340406E10401008000", ZEV_NO_READ},
        {"000F20003B00340406E10400010000", ZEV_BAD_SIZE},
    };
    zev_t4_file file = {0, 0, 0, 0, 0};
    put_hex("000F20003B00340406E104010000FF99", memory);
    bool right = zev_t4_container(memory, 16, &file) == ZEV_DONE && file.id == 0xE104 && file.size == 256 && file.mle == 59 && file.mlc == 52
        && file.writable == 0;
    memory[14] = 0;
    right = right && zev_t4_container(memory, 15, &file) == ZEV_DONE && file.writable == 1;
    for (size_t i = 0; i < sizeof other / sizeof other[0]; i++) {
        put_hex(other[i].hex, memory);
        right = right && zev_t4_container(memory, strlen(other[i].hex) / 2, &file) == other[i].says && file.id == 0xE104;
    }
    return right;
}

static bool is_answer(int32_t said)
{
    return said == ZEV_DONE || said == ZEV_SHORT || said == ZEV_ENDS_EARLY || (said <= ZEV_NOT_NDEF && said >= ZEV_BAD_TLV);
}

/* A message that is told of a whole memory is as long as is found there, and no longer than may be. */
static bool one(void)
{
    static const uint8_t kinds[] = {0, 1, 2, 3, 3, 3, 0xFE, 4, 0x10, 0xFF};
    uint32_t kind = rand() % 2 ? 2 : 5;
    size_t length = (size_t)(rand() % 200), at = kind == 2 ? 12 : 0;
    for (size_t i = 0; i < sizeof memory; i++) {
        memory[i] = kinds[(size_t)rand() % sizeof kinds];
    }
    put_hex(kind == 2 ? "E1101000" : "E1401000", memory + at);
    zev_told told = {0, 0, 0, 0, 0, 0}, found = {0, 0, 0, 0, 0, 0};
    int32_t said = message(kind, 4, length, sizeof out, &told), finds = find(kind, 4, length, &found);
    return is_answer(said) && is_answer(finds) && finds != ZEV_SHORT
        && (said != ZEV_DONE || (finds == ZEV_DONE && told.length == found.length && found.length <= found.capacity + 2));
}

int main(void)
{
    long wrong = 0, wrong_rows = 0;
    for (size_t i = 0; i < sizeof rows / sizeof rows[0]; i++) {
        if (!holds(&rows[i])) {
            printf("not right: Type %u, %s\n", (unsigned)rows[i].kind, rows[i].what);
            wrong_rows++;
        }
    }
    for (long i = 0; i < 50000; i++) {
        wrong += !one();
    }
    bool right = containers();
    printf("wrong rows %ld, wrong memories %ld, containers are %s\n", wrong_rows, wrong, right ? "right" : "not right");
    return wrong != 0 || wrong_rows != 0 || !right;
}
