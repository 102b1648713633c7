"""The requests that `load` makes and the tally that it prints, from the format alone. It shares no code with the program."""
import collections
import sys

sys.dont_write_bytecode = True
from plain_answers import DELETE, GET, PUT, reply_to  # beside this file
from plain_map import Request

STARTS, KEYS = 1_000_000, 10_000
# By the sum of key and round, modulo 8.
NAMES = [PUT, PUT, GET, PUT, GET, DELETE, GET, PUT]
LONG_EACH, LONG_BYTES, SIZES = 64, 300, 32
MOST_REQUESTS = 1_000_000
TALLIED = ["requests", "stored", "value", "absent", "deleted", "refused", "live", "bytes"]


def request_at(start, number):
    """The request with a number, from 0 on, of a load that begins at `start`."""
    turn = start % STARTS + number
    round_, key = divmod(turn, KEYS)
    name = NAMES[(key + round_) % len(NAMES)]
    if name != PUT:
        return Request(name, key, None)
    length = LONG_BYTES if key % LONG_EACH == 0 else key % SIZES + 1
    return Request(name, key, bytes([ord("a") + turn % 26]) * length)


def requests_of(start, count):
    return [request_at(start, number) for number in range(count)]


def tally_of(requests, cells):
    """What is tallied of requests none of which is refused, by name. The cells are those before, and then those behind."""
    replies = collections.Counter(reply_to(request, cells).split(b" ")[0].decode() for request in requests)
    return dict.fromkeys(TALLIED, 0) | replies | {"requests": len(requests)} | live_in(cells)


def live_in(cells):
    return {"live": len(cells), "bytes": sum(map(len, cells.values()))}


def text_of(tally):
    return "".join(f"{name} {tally[name]}\n" for name in TALLIED).encode()


def tally_in(text):
    """The numbers of a tally's text by their names, or none where it is no such text."""
    fields = [line.split(" ") for line in text.decode(errors="replace").split("\n")]
    if fields.pop() != [""] or any(len(field) != 2 or not field[1].isdigit() for field in fields):
        return None
    tally = {name: int(number) for name, number in fields}
    return tally if [name for name, _ in fields] == TALLIED and text_of(tally) == text else None
