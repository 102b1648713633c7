"""Writes regions and their parts as docs/FORMAT.md describes them, good ones and bad ones. It shares no code with the program."""

WORD_BYTES, LINE_BYTES, HEAD_BYTES, SUPERBLOCK_BYTES = 8, 64, 256, 4096
MAGIC = b"FLATST01"
PUT, DELETE = 1, 2
EMBEDDED = 1 << 2
LOG = 1


def word(value):
    return value.to_bytes(WORD_BYTES, "little")


def embedded(key, version, value, length=None):
    """The words of a put of a value that the entry holds; the length may be another one than the value's."""
    length = len(value) if length is None else length
    return word(PUT | EMBEDDED | version << 4 | length << 24) + word(key) + value + bytes(-len(value) % WORD_BYTES)


def pointer(key, version, unit):
    """The words of a put whose value is in the block at a unit of 256 bytes, counted from the file's start."""
    return word(PUT | version << 4 | unit << 24) + word(key)


def tombstone(key, version):
    return word(DELETE | version << 4) + word(key)


def superblock(cores, group, chunks, chunk_bytes):
    head = MAGIC + b"".join(map(word, (1, cores, group, chunks, chunk_bytes)))
    return head + bytes(SUPERBLOCK_BYTES - len(head))


def batch(*entries):
    """The words of entries up to the end of a line."""
    words = b"".join(entries)
    return words + bytes(-len(words) % LINE_BYTES)


def log_chunk(chunk_bytes, batches):
    """A log's chunk with these batches behind its head."""
    payload = b"".join(batches)
    chunk = word(LOG) + word(len(payload) // WORD_BYTES) + bytes(HEAD_BYTES - 2 * WORD_BYTES) + payload
    return chunk + bytes(chunk_bytes - len(chunk))


def with_chunks(layout, chunks):
    """A region of a layout with these chunks, by part and chunk, and free ones beside them."""
    cores, _, each, chunk_bytes = layout
    free = bytes(chunk_bytes)
    return superblock(*layout) + b"".join(chunks.get((part, chunk), free) for part in range(cores) for chunk in range(each))


def with_one_key(layout, key, version):
    """A region with one entry: a put of a key that has so many versions behind it."""
    cores, _, _, chunk_bytes = layout
    return with_chunks(layout, {(key % cores, 0): log_chunk(chunk_bytes, [batch(embedded(key, version, b"w"))])})
