"""The `place` line of a dump, within the limits of docs/script.md."""

from dumps.dump import CASCADE_TAG, T2_BLOCK_SIZE, DumpError, has_check_bytes, hex_bytes

LONGEST_LINE = 4096
FEWEST_T2_BLOCKS = 4
MOST_T2_BLOCKS = 256
T5_BLOCK_SIZES = (4, 8, 16, 32)
LARGEST_T5_STORE = 65536
MOST_CODE = 8
CONTAINER_LENGTHS = range(15, 65)
CONTAINER_FILE_ID = 0xE103
LONGEST_FILE = 0x7FFF
NFCA_ID_LENGTHS = (4, 7, 10)
T5_ID_LENGTH = 8

NDEF_MAGIC = 0xE1
LARGEST_AREA_BYTE = 0x7E


def place_line(dump, options):
    """The `place` line of a dump."""
    kind = kind_of(dump, options.type)
    ident = hex_bytes(options.id.replace(":", " "), "--id") if options.id else dump.ident
    if kind == "t2":
        words = t2_words(dump.memory[dump.header :], ident)
    elif kind == "t4":
        words = t4_words(dump.memory, ident, options.code, options.container)
    else:
        words = t5_words(dump, ident, options.block_size)
    line = " ".join(["place", kind] + [str(word) for word in words])
    if len(line) > LONGEST_LINE:
        raise DumpError(f"too large for the bench: the line has {len(line)} bytes, and {LONGEST_LINE} is the most")
    return line


def kind_of(dump, wanted):
    """The kind that the dump says, or the one that is wanted; a header alone says Type 2."""
    if None not in (dump.kind, wanted) and dump.kind != wanted:
        raise DumpError(f"the dump is of a {dump.kind} tag, not of a {wanted}")
    kind = dump.kind or wanted or ("t2" if dump.header else None)
    if kind is None:
        raise DumpError("the dump doesn't say what it is of: give --type")
    return kind


def shown(content):
    """Bytes as a word of the script."""
    return content.hex().upper() or "-"


def without_zeros(content):
    """Bytes without the zeros at their end, with which the bench fills up."""
    return content.rstrip(b"\0")


def check_whole(memory, size):
    if len(memory) % size:
        raise DumpError(f"{len(memory)} bytes aren't whole blocks of {size}")


def check_count(count, fewest, most):
    if count < fewest:
        raise DumpError(f"blocks are missing: the dump has {count}, and the tag needs {fewest}")
    if count > most:
        raise DumpError(f"too large for the bench: {count} blocks, and {most} is the most")


def t2_words(memory, ident):
    """Identifier, blocks and content of a Type 2 tag."""
    check_whole(memory, T2_BLOCK_SIZE)
    if has_area(memory):
        memory = memory[: area_end(memory)]
        fewest = area_end(memory) // T2_BLOCK_SIZE
    else:
        fewest = FEWEST_T2_BLOCKS
    count = len(memory) // T2_BLOCK_SIZE
    check_count(count, fewest, MOST_T2_BLOCKS)
    return [shown(nfca_ident(ident or t2_ident(memory))), count, shown(without_zeros(memory))]


def has_area(memory):
    return len(memory) >= 16 and memory[12] == NDEF_MAGIC and memory[14] <= LARGEST_AREA_BYTE


def area_end(memory):
    return 16 + 8 * memory[14]


def t2_ident(memory):
    """The identifier that stands in a Type 2 memory."""
    if not has_check_bytes(memory):
        raise DumpError("bytes 3 and 8 aren't the check bytes of an identifier: give --id")
    return memory[0:3] + memory[4:8]


def nfca_ident(ident):
    if ident is None:
        raise DumpError("the dump doesn't say the identifier: give --id")
    if len(ident) not in NFCA_ID_LENGTHS:
        raise DumpError(f"an identifier of NFC-A has 4, 7 or 10 bytes, not {len(ident)}")
    if len(ident) in (4, 7) and ident[-4] == CASCADE_TAG:
        raise DumpError(f"{shown(ident)} is no identifier: its last four bytes begin with 88")
    return ident


def t5_ident(ident):
    if ident is None:
        raise DumpError("the dump doesn't say the identifier: give --id")
    if len(ident) != T5_ID_LENGTH:
        raise DumpError(f"an identifier of Type 5 has {T5_ID_LENGTH} bytes, not {len(ident)}")
    return ident


def t4_words(file, ident, code, container_text):
    """Identifier, code, container and file of a Type 4 tag."""
    if not 0 <= code <= MOST_CODE:
        raise DumpError(f"a size code is 0 to {MOST_CODE}, not {code}")
    container = hex_bytes(container_text, "--container") if container_text else made_container(len(file))
    size = file_size(container)
    if len(file) > size:
        raise DumpError(f"the file has {len(file)} bytes, and the container says {size}")
    return [shown(nfca_ident(ident)), code, shown(container), shown(without_zeros(file))]


def made_container(size):
    """A container of 15 bytes: version 2.0, MLe 003B, MLc 0034, file E104 of this size, free to read and write."""
    check_file_size(size)
    return bytes.fromhex(f"000F20003B00340406E104{size:04X}0000")


def file_size(container):
    """The size of the file that a container names, which must be one that the bench takes."""
    if len(container) not in CONTAINER_LENGTHS:
        raise DumpError(f"a container has 15 to 64 bytes, not {len(container)}")
    if int.from_bytes(container[9:11], "big") == CONTAINER_FILE_ID:
        raise DumpError("the container names itself, E103, as the file")
    size = int.from_bytes(container[11:13], "big")
    check_file_size(size)
    return size


def check_file_size(size):
    if size > LONGEST_FILE:
        raise DumpError(f"too large for the bench: a file of {size} bytes, and {LONGEST_FILE} is the most")


def t5_words(dump, ident, block_size):
    """Identifier, blocks, size and content of a Type 5 tag."""
    if None not in (dump.block_size, block_size) and dump.block_size != block_size:
        raise DumpError(f"the dump has blocks of {dump.block_size} bytes, not of {block_size}")
    size = next(size for size in (dump.block_size, block_size, T5_BLOCK_SIZES[0]) if size is not None)
    if size not in T5_BLOCK_SIZES:
        raise DumpError(f"the bench has blocks of 4, 8, 16 or 32 bytes, not of {size}")
    check_whole(dump.memory, size)
    count = len(dump.memory) // size
    check_count(count, 1, LARGEST_T5_STORE // size)
    return [shown(t5_ident(ident)), count, size, shown(without_zeros(dump.memory))]
