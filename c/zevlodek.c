/* What the library needs beside the proved code: the texts of faults, and memory by malloc. */
#include "zevlodek.h"

#include <stdlib.h>

const char *zev_fault_text(int32_t fault)
{
    switch (fault) {
    case ZEV_BAD_LOG: return "the bytes of the log are no log";
    case ZEV_BAD_ARGUMENT: return "an argument isn't one that the call takes";
    case ZEV_SHORT: return "there is no room for what is to be told";
    case ZEV_ENDS_EARLY: return "the memory ends before its message does";
    case ZEV_NO_MEMORY:
    case ZEV_TAG_NO_MEMORY: return "out of memory";
    case ZEV_NOT_NDEF: return "the container is none of an NDEF tag";
    case ZEV_VERSION: return "the container has another major version";
    case ZEV_NO_READ: return "the tag isn't free to read";
    case ZEV_SECTORS: return "the tag has more than one sector";
    case ZEV_BAD_SIZE: return "the container names a size that can't be";
    case ZEV_NO_MESSAGE_TLV: return "the area has no TLV of a message";
    case ZEV_BAD_TLV: return "a TLV of the area isn't whole";
    case ZEV_REFUSED: return "the tag refused a command";
    case ZEV_READ_ONLY: return "the tag isn't free to write";
    case ZEV_TOO_LONG: return "the message is longer than its place";
    case ZEV_SHORT_MLC: return "one update brings fewer than two bytes";
    case ZEV_PROTOCOL: return "the tag sent a frame that is no allowed answer";
    case ZEV_NO_MAGIC: return "the general bytes are not of LLCP";
    case ZEV_NO_VERSION: return "the general bytes have no version";
    case ZEV_OTHER_MAJOR: return "the general bytes have a version of another major number";
    case ZEV_MALFORMED: return "the general bytes have a malformed parameter";
    case ZEV_DEP_SIX_BAD:
    case ZEV_SIX_BAD: return "six bad receptions in one wait";
    case ZEV_DEP_NO_ANSWER:
    case ZEV_NO_ANSWER: return "the other end sent a frame that is no allowed answer";
    case ZEV_REJECT: return "the server rejected the message";
    case ZEV_NOT_FOUND: return "the server has no value under the key";
    case ZEV_EXCESS: return "the value is longer than acceptable";
    case ZEV_NOT_IMPLEMENTED: return "the server has no values";
    case ZEV_BAD_PEER: return "the far end doesn't answer as a server";
    default: return fault < 0 ? "another fault" : "no fault";
    }
}

const char *zev_version(void)
{
    return ZEV_VERSION_TEXT;
}

/* What the proved code asks of an allocator: whether a block is there, and where; the pointer is no null even where it isn't. */
typedef struct {
    _Bool ok;
    void *at;
} zev_block;

zev_block rattle_alloc(size_t size, size_t align);
zev_block rattle_realloc(void *at, size_t old_size, size_t size, size_t align);
void rattle_dealloc(void *at);

static char nowhere;

static zev_block block(void *at)
{
    zev_block told = {at != NULL, at != NULL ? at : &nowhere};
    return told;
}

zev_block rattle_alloc(size_t size, size_t align)
{
    return block(malloc(size != 0 ? size : align));
}

zev_block rattle_realloc(void *at, size_t old_size, size_t size, size_t align)
{
    (void)old_size;
    return block(realloc(at, size != 0 ? size : align));
}

void rattle_dealloc(void *at)
{
    free(at);
}
