"""Reads a region as docs/FORMAT.md describes it: its first broken rule, or its live pairs and its entries.

It shares no code with the program, and goes the plain way: each rule by itself, over all entries. The scripts in `tests/`
compare the program with it.
"""
import struct

MAGIC = b"FLATST01"
LEAST_BYTES, MOST_BYTES = 4096, 268_439_552
FREE, LOG = 0, 1
HEAD_WORDS, LINE_WORDS, UNIT_BYTES = 32, 8, 256
PUT, DELETE = 1, 2
PLAIN, EMBEDDED = 0, 1
DAMAGED, NO_REGION = 6, 7


class Broken(Exception):
    """The first broken rule, and the part and chunk where it is broken, or none of them for the superblock."""

    def __init__(self, rule, part=None, chunk=None):
        super().__init__(rule, part, chunk)
        self.place = (rule, part, chunk)

    def end(self):
        """The exit status and the line on standard error that it comes to."""
        rule, part, chunk = self.place
        if part is None:
            return NO_REGION, f"flatstore: not a region: rule {rule}\n".encode()
        return DAMAGED, f"flatstore: damaged region: part {part} chunk {chunk} rule {rule}\n".encode()


class Layout:
    def __init__(self, cores, group, chunks, chunk_bytes):
        self.cores, self.group, self.chunks, self.chunk_bytes = cores, group, chunks, chunk_bytes

    def is_one(self):
        return (
            1 <= self.cores <= 16
            and 1 <= self.group <= 8
            and self.cores % self.group == 0
            and 4 <= self.chunks <= 64
            and 4096 <= self.chunk_bytes <= 4_194_304
            and self.chunk_bytes & (self.chunk_bytes - 1) == 0
            and self.cores * self.chunks * self.chunk_bytes <= 268_435_456
        )

    def bytes(self):
        return 4096 + self.cores * self.chunks * self.chunk_bytes

    def classes(self):
        return [c for c in range(1, 64) if UNIT_BYTES << c <= self.chunk_bytes // 4]

    def class_of(self, length):
        """The class of a block for a value of so many bytes; none where no block has such a value."""
        if length < 256:
            return None
        return next((c for c in self.classes() if length + 8 <= UNIT_BYTES << c), None)

    def owner(self, key):
        return key % self.cores

    def first_word(self, part, chunk):
        return (4096 + (part * self.chunks + chunk) * self.chunk_bytes) // 8


class Entry:
    def __init__(self, part, chunk, place, key, version, body):
        self.part, self.chunk, self.place = part, chunk, place
        self.key, self.version, self.body = key, version, body

    def contradicts(self, other):
        """Whether two entries of one key and version may not both stand."""
        return (self.body, self.part) != (other.body, other.part)


def entry_in(words):
    """The key, version, body and length in words of the entry that the front of the words spells, or none."""
    first = words[0]
    operation, form, version, high = first & 3, first >> 2 & 3, first >> 4 & 0xFFFFF, first >> 24
    if operation not in (PUT, DELETE):
        return None
    if form not in (PLAIN, EMBEDDED) or (operation == DELETE and form != PLAIN):
        return None
    low, top = (1, 1_048_574) if operation == PUT else (2, 1_048_575)
    if not low <= version <= top:
        return None
    if (form == EMBEDDED and high > 255) or (operation == DELETE and high != 0):
        return None
    size = 2 + (high + 7) // 8 if form == EMBEDDED else 2
    if size > len(words):
        return None
    key = words[1]
    if operation == DELETE:
        return key, version, ("none",), size
    if form == PLAIN:
        return key, version, ("block", high), size
    value = b"".join(word.to_bytes(8, "little") for word in words[2:size])
    if any(value[high:]):
        return None
    return key, version, ("bytes", value[:high]), size


def payload_entries(payload):
    """The entries of a payload with their places, and at last none where a place breaks the rules of batches."""
    place = 0
    while place < len(payload):
        if payload[place] == 0:
            end = place + -place % LINE_WORDS
            if end == place or any(payload[place:end]):
                yield None
                return
            place = end
            continue
        found = entry_in(payload[place:])
        if found is None:
            yield None
            return
        yield place, *found[:3]
        place += found[3]


class Region:
    def __init__(self, data):
        if len(data) % 8 != 0 or not LEAST_BYTES <= len(data) <= MOST_BYTES:
            raise Broken(1)
        self.words = struct.unpack(f"<{len(data) // 8}Q", data)
        if data[:8] != MAGIC or self.words[1] != 1:
            raise Broken(2)
        self.layout = Layout(*self.words[2:6])
        if not self.layout.is_one() or self.layout.bytes() != len(data):
            raise Broken(3)

    def data_class(self, part, chunk):
        """The class of a Data chunk; none for another chunk."""
        kind = self.words[self.layout.first_word(part, chunk)]
        if kind in (FREE, LOG):
            return None
        if kind % 256 != 2 or kind // 256 not in self.layout.classes():
            raise Broken(4, part, chunk)
        return kind // 256

    def chunk_entries(self, part, chunk):
        if self.data_class(part, chunk) is not None:
            return
        first = self.layout.first_word(part, chunk)
        if self.words[first] == FREE:
            return
        tail = self.words[first + 1]
        if tail % LINE_WORDS != 0 or tail > self.layout.chunk_bytes // 8 - HEAD_WORDS:
            raise Broken(5, part, chunk)
        payload = self.words[first + HEAD_WORDS : first + HEAD_WORDS + tail]
        for found in payload_entries(payload):
            if found is None:
                raise Broken(6, part, chunk)
            if self.layout.owner(found[1]) // self.layout.group != part // self.layout.group:
                raise Broken(7, part, chunk)
            yield Entry(part, chunk, *found)

    def entries(self):
        return [
            entry
            for part in range(self.layout.cores)
            for chunk in range(self.layout.chunks)
            for entry in self.chunk_entries(part, chunk)
        ]

    def block_class(self, part, unit):
        """The class of the block of the part that begins at a unit of 256 bytes, counted from the file's start, or none."""
        layout = self.layout
        units = layout.chunk_bytes // UNIT_BYTES
        number, own = divmod(unit - 4096 // UNIT_BYTES, units)
        if number // layout.chunks != part:
            return None
        of_chunk = self.data_class(part, number % layout.chunks)
        if of_chunk is None or own < 1 or (own - 1) % (1 << of_chunk) != 0 or own + (1 << of_chunk) > units:
            return None
        return of_chunk

    def value_at(self, unit):
        first = unit * UNIT_BYTES // 8
        length = self.words[first]
        words = self.words[first + 1 : first + 1 + (length + 7) // 8]
        return b"".join(word.to_bytes(8, "little") for word in words)[:length]


def winners_of(entries):
    """The entry of greatest version of each key, where it first stands."""
    winners = {}
    for entry in entries:
        if entry.key not in winners or entry.version > winners[entry.key].version:
            winners[entry.key] = entry
    return [winners[key] for key in sorted(winners)]


def judge_names(entries):
    """Each entry beside the earlier ones of its key and version."""
    named = {}
    for entry in entries:
        before = named.setdefault((entry.key, entry.version), [])
        if any(entry.contradicts(other) for other in before):
            raise Broken(8, entry.part, entry.chunk)
        before.append(entry)


def judge_blocks(region, winners):
    taken = set()
    for winner in winners:
        if winner.body[0] != "block":
            continue
        unit = winner.body[1]
        of_chunk = region.block_class(region.layout.owner(winner.key), unit)
        if of_chunk is None:
            raise Broken(9, winner.part, winner.chunk)
        if region.layout.class_of(region.words[unit * UNIT_BYTES // 8]) != of_chunk:
            raise Broken(10, winner.part, winner.chunk)
        if unit in taken:
            raise Broken(11, winner.part, winner.chunk)
        taken.add(unit)


def read(data):
    """The live pairs of a region by rising key, and its entries by part, chunk and place. Raises `Broken` where it breaks
    a rule."""
    region = Region(data)
    entries = region.entries()
    judge_names(entries)
    winners = winners_of(entries)
    judge_blocks(region, winners)
    values = {"bytes": lambda value: value, "block": region.value_at}
    pairs = [(winner.key, values[winner.body[0]](winner.body[1])) for winner in winners if winner.body[0] != "none"]
    return pairs, entries


def dump_of(pairs):
    return b"".join(b"%d %s\n" % pair for pair in pairs)


def body_of(body):
    if body[0] == "bytes":
        return f"embedded {len(body[1])}"
    return f"block {body[1]}" if body[0] == "block" else "delete"


def log_of(entries):
    lines = (
        f"core {entry.part} chunk {entry.chunk} place {entry.place} key {entry.key} version {entry.version} {body_of(entry.body)}\n"
        for entry in entries
    )
    return "".join(lines).encode()
