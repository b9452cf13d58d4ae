/* The message of a Type 2 tag whose memory was read out, and where it lies. */
#include <stdio.h>

#include "../zevlodek.h"

static const uint8_t memory[64] = {0, 0, 0, 0, 0, 0, 0, 0, 0, 0, 0, 0, 0xE1, 0x10, 0x06, 0x00, 0x03, 0x05, 0xD1, 0x01, 0x01, 0x54, 0x00, 0xFE};

int main(void)
{
    uint8_t message[64];
    zev_told told = {0, 0, 0, 0, 0, 0};
    int32_t said = zev_t2_message(memory, sizeof memory, message, sizeof message, &told);
    if (said != ZEV_DONE) {
        printf("%s\n", zev_fault_text(said));
        return 1;
    }
    for (size_t i = 0; i < told.length; i++) {
        printf("%02X", message[i]);
    }
    size_t length = told.length;
    said = zev_t2_find(memory, sizeof memory, &told);
    printf("\nof %u bytes that fit\n", (unsigned)told.capacity);
    return said != ZEV_DONE || length != 5 || told.length != 5;
}
