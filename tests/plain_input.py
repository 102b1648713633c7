"""Judges what a command is given on standard input as docs/FORMAT.md describes it: the first line that breaks a rule, or what
its lines ask for.

It shares no code with the program, and goes the plain way: the whole text is cut into lines, and each line is asked for each
rule in turn. `tests/hostile-bytes`, `tests/damaged-regions` and `tests/scan-queries` compare the program with it.
"""
import collections
import sys

sys.dont_write_bytecode = True
from plain_map import Request  # beside this file

MOST_BYTES, LONGEST_LINE = 67_108_864, 1_048_640
MOST_LINES = 1_000_000
GREATEST = 2**64 - 1
MOST_TURNS, MOST_TURNS_TOGETHER = 1_000_000, 16_777_216
MOST_PAIRS = 1_000_000
# How many fields may stand behind the first word of a line.
TRACE_FIELDS = {b"put": {2}, b"get": {1}, b"delete": {1}, b"go": {1, 2}}
QUERY_FIELDS = {b"range": {3}, b"count": {2}}
REPLIES = b"replies"
PLAIN_REPLIES = {b"stored", b"absent", b"deleted", b"full", b"versions spent", b"too long", b"stopped"}
BAD_INPUT = 2

Query = collections.namedtuple("Query", "low high limit")


class BadLine(Exception):
    """The first line that breaks a rule, counted from 1, and the rule."""

    def __init__(self, line, rule):
        super().__init__(line, rule)
        self.line, self.rule = line, rule

    def end(self):
        """The exit status and the line on standard error that it comes to."""
        return BAD_INPUT, f"flatstore: line {self.line} breaks input rule {self.rule}\n".encode()


def lines_of(text):
    """The lines of a text with their numbers. Each of them must keep the two rules of every line."""
    *ended, last = text.split(b"\n")
    end = 0
    for number, line in enumerate([*ended, last] if last else ended, 1):
        end += len(line) + (number <= len(ended))
        if end > MOST_BYTES:
            raise BadLine(number, 1)
        if len(line) > LONGEST_LINE:
            raise BadLine(number, 2)
        yield number, line


def number_in(field, least=0, most=GREATEST):
    """The number that a field spells, where it is from the one to the other; else none."""
    # of bytes, these are the ten digits alone
    if not field.isdigit() or field.startswith(b"0") and field != b"0":
        return None
    # python refuses numbers of some thousand digits, and none of more than twenty fits
    value = int(field) if len(field) <= 20 else GREATEST + 1
    return value if least <= value <= most else None


class Trace:
    """What the lines of a trace have asked for so far."""

    def __init__(self, cores):
        self.cores, self.requests, self.turns = cores, [], 0

    def take(self, line):
        """The first rule that the next line breaks, or none."""
        name, *fields = line.split(b" ", 2 if line.startswith(b"put ") else -1)
        if name not in TRACE_FIELDS:
            return 3
        if len(fields) not in TRACE_FIELDS[name]:
            return 4
        return self.take_go(*fields) if name == b"go" else self.take_request(name, *fields)

    def take_request(self, name, key, value=None):
        number = number_in(key)
        if number is None:
            return 5
        self.requests.append(Request(name, number, value))
        return 8 if len(self.requests) > MOST_LINES else None

    def take_go(self, core, turns=b"1"):
        if number_in(core, most=self.cores - 1) is None:
            return 6
        moves = number_in(turns, 1, MOST_TURNS)
        if moves is None:
            return 7
        self.turns += moves
        return 9 if self.turns > MOST_TURNS_TOGETHER else None


def query_rule(number, line):
    """The first rule that a line of queries breaks, or none."""
    name, *fields = line.split(b" ")
    if name not in QUERY_FIELDS:
        return 21
    if len(fields) not in QUERY_FIELDS[name]:
        return 22
    if any(number_in(bound) is None for bound in fields[:2]):
        return 23
    if fields[2:] and number_in(fields[2], 1, MOST_PAIRS) is None:
        return 24
    return 25 if number > MOST_LINES else None


def reply_rule(count, line):
    """The first rule that a line breaks that is so many lines behind `replies`, or none."""
    if count > MOST_LINES:
        return 33
    return None if line in PLAIN_REPLIES or line.startswith(b"value ") else 32


def trace_in(text, cores):
    """The requests of a trace for so many cores. Raises `BadLine` where a line breaks a rule."""
    trace = Trace(cores)
    for number, line in lines_of(text):
        rule = trace.take(line)
        if rule is not None:
            raise BadLine(number, rule)
    return trace.requests


def queries_in(text):
    """The queries of a text; one that counts has no limit. Raises `BadLine` where a line breaks a rule."""
    queries = []
    for number, line in lines_of(text):
        rule = query_rule(number, line)
        if rule is not None:
            raise BadLine(number, rule)
        low, high, *limit = map(int, line.split(b" ")[1:])
        queries.append(Query(low, high, *(limit or [None])))
    return queries


def audit_in(text, cores):
    """The requests of a trace for so many cores, and the replies behind it. Raises `BadLine` where a line breaks a rule."""
    trace, replies, last = Trace(cores), None, 0
    for last, line in lines_of(text):
        if replies is not None:
            replies.append(line)
            rule = reply_rule(len(replies), line)
        elif line == REPLIES:
            replies, rule = [], None
        else:
            rule = trace.take(line)
        if rule is not None:
            raise BadLine(last, rule)
    if replies is None:
        raise BadLine(last + 1, 31)
    return trace.requests, replies
