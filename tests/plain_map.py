"""Judges the replies to a trace by a plain map, which begins with what a region held before. The region is read as
docs/FORMAT.md describes it, by `plain_reader.py`; it shares no code with the program.

The requests of one key go in order, whatever the cores do. So each reply is that of the map, or a refusal that has its cause:

- `too long`: exactly where the value has more bytes than a block takes;
- `versions spent`: exactly where the key's last change before the put has the last version that a put may have. Which version
  that is need not be known: a deleted key is forgotten once no log has an entry of it, and its next put has version 1 then;
- `full`: only where the part of the key's owner has so few free chunks that the trace may need them all;
- `stopped`: only of a core that may stop, and then for every later request of the key.

A refused request leaves its cell as it was. Only the first change of a key that is answered `stopped` may have happened or not.
"""
import collections
import sys

sys.dont_write_bytecode = True
import plain_reader  # beside this file
from plain_answers import reply_to

LAST_PUT_VERSION = 1_048_574
LINE_BYTES, ENTRY_BYTES = 64, 16
SHORTEST_IN_BLOCK = 256
# A log's chunk ends with so many bytes unused at most, its head among them.
SPARE_BYTES = 576

Request = collections.namedtuple("Request", "name key value")


def put(key, value):
    return Request(b"put", key, value)


def get(key):
    return Request(b"get", key, None)


def delete(key):
    return Request(b"delete", key, None)


def line_of(request):
    words = [request.name, b"%d" % request.key] + ([] if request.value is None else [request.value])
    return b" ".join(words) + b"\n"


def rounded_up(number, unit):
    return -(-number // unit)


class Room:
    """Which parts of a region surely have room for the changes of a trace."""

    def __init__(self, region, requests):
        self.layout = region.layout
        self.requests = requests
        self.free = [
            sum(region.words[self.layout.first_word(part, chunk)] == plain_reader.FREE for chunk in range(self.layout.chunks))
            for part in range(self.layout.cores)
        ]
        self.ample = {}

    def log_bytes(self, request):
        """The bytes of the lines that the entry of a change takes if it stands alone."""
        if request.name == b"get" or self.is_too_long(request):
            return 0
        embedded = request.value if request.value is not None and len(request.value) < SHORTEST_IN_BLOCK else b""
        return LINE_BYTES * rounded_up(ENTRY_BYTES + len(embedded), LINE_BYTES)

    def is_too_long(self, request):
        return request.value is not None and len(request.value) > self.layout.chunk_bytes // 4 - 8

    def log_chunks(self, part):
        """The chunks that logs may take: any leader of the group may write all its changes into its own log."""
        group = part // self.layout.group
        own = [request for request in self.requests if self.layout.owner(request.key) // self.layout.group == group]
        return rounded_up(sum(map(self.log_bytes, own)), self.layout.chunk_bytes - SPARE_BYTES) + 1

    def data_chunks(self, part):
        units = self.layout.chunk_bytes // plain_reader.UNIT_BYTES
        counts = collections.Counter(
            self.layout.class_of(len(request.value))
            for request in self.requests
            if request.value is not None and self.layout.owner(request.key) == part
        )
        return sum(rounded_up(count, (units - 1) >> of) for of, count in counts.items() if of is not None)

    def is_ample(self, part):
        if part not in self.ample:
            self.ample[part] = self.log_chunks(part) + self.data_chunks(part) + 2 <= self.free[part]
        return self.ample[part]


class PlainMap:
    """The cells of all keys, as the replies so far tell them."""

    def __init__(self, data):
        """Begins with what a sound region holds."""
        self.region = plain_reader.Region(data)
        pairs, entries = plain_reader.read(data)
        self.cells = dict(pairs)
        self.doubt = {}
        self.stopped = set()
        self.refused = collections.Counter()
        # The greatest and the least version that the last change of a key may have.
        self.versions = collections.Counter()
        for entry in entries:
            self.versions[entry.key] = max(self.versions[entry.key], entry.version)
        self.least = self.versions.copy()

    def judge(self, requests, text, may_stop=frozenset()):
        """What is wrong with the text of the replies, or none. `may_stop` are the cores that may have stopped."""
        lines = text.split(b"\n")
        if lines.pop() != b"":
            return f"the text ends with '{text[-40:]}', and not with a newline"
        room, place = Room(self.region, requests), 0
        for number, request in enumerate(requests):
            if place >= len(lines):
                return f"there are {number} replies to {len(requests)} requests"
            end = place + self.lines_of_reply(request, lines[place])
            reply, place = b"\n".join(lines[place:end]), end
            why = self.take(request, reply, room, may_stop)
            if why is not None:
                return f"request {number}, '{line_of(request)[:40]}', was answered '{reply[:40]}': {why}"
        return None if place == len(lines) else f"behind the replies there are {len(lines) - place} lines more"

    def lines_of_reply(self, request, first):
        """How many lines a reply has that begins with this one. No trace puts a newline into a value, but a region may have it."""
        if request.name != b"get" or first == b"stopped":
            return 1
        return 1 + self.cells.get(request.key, b"").count(b"\n")

    def take(self, request, reply, room, may_stop):
        """What is wrong with a reply, or none. The cells are brought up to date."""
        core = self.region.layout.owner(request.key)
        if reply == b"stopped":
            return self.stop(request) if core in may_stop else f"core {core} had no cause to stop"
        if request.key in self.stopped:
            return "an earlier request of the key was stopped"
        causes, must = self.causes_of(request, room)
        if reply in causes or reply == b"full" and not must and self.may_be_full(request, room):
            self.refused[reply] += 1
            if reply == b"versions spent":
                self.least[request.key] = LAST_PUT_VERSION
            return None
        if must:
            return f"not '{causes[0]}'"
        wanted = self.expected(request)
        return None if reply == wanted else f"not '{wanted[:40]}'"

    def stop(self, request):
        self.refused[b"stopped"] += 1
        self.stopped.add(request.key)
        if request.name != b"get":
            self.doubt.setdefault(request.key, request.value)

    def causes_of(self, request, room):
        """The refusal that a request may have by its length or its version, in a list, and whether it must have it."""
        if request.name != b"put":
            return [], False
        if room.is_too_long(request):
            return [b"too long"], True
        if request.key not in self.cells:
            self.least[request.key] = 0
        spent = self.versions[request.key] >= LAST_PUT_VERSION
        return [b"versions spent"] if spent else [], self.least[request.key] >= LAST_PUT_VERSION

    def may_be_full(self, request, room):
        changes = request.name == b"put" or request.name == b"delete" and request.key in self.cells
        return changes and not room.is_ample(self.region.layout.owner(request.key))

    def expected(self, request):
        """The map's reply to a request, which changes the map."""
        reply = reply_to(request, self.cells)
        if reply == b"stored":
            # It is the version after the last one, of which there is one.
            self.versions[request.key] = min(self.versions[request.key], LAST_PUT_VERSION - 1)
        if reply in (b"stored", b"deleted"):
            self.versions[request.key] += 1
            self.least[request.key] += 1
        return reply

    def fault_of(self, pairs):
        """What is wrong with the pairs that a region shows afterwards, or none."""
        shown = dict(pairs)
        for key in sorted(set(shown) | set(self.cells) | set(self.doubt)):
            right = [self.cells.get(key)] + ([self.doubt[key]] if key in self.doubt else [])
            if shown.get(key) not in right:
                return f"the region shows of key {key} '{(shown.get(key) or b'none')[:40]}', not '{(right[0] or b'none')[:40]}'"
        return None

    def fault_in(self, data):
        """What is wrong with a region afterwards, or none."""
        try:
            return self.fault_of(plain_reader.read(data)[0])
        except plain_reader.Broken as broken:
            return f"the region breaks {broken.place}"
