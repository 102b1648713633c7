"""What a run must leave that was cut off while it wrote its replies, by docs/FORMAT.md alone. It shares no code with the program.

A `run` writes the replies to each 4,096 requests behind them, before it begins the next ones, and a `replay` all at its end.
So what is out is the beginning of the text of all replies, and the region tells how many requests were begun by then.
"""
import itertools
import sys

sys.dont_write_bytecode = True
from plain_answers import GET, reply_to  # beside this file

WINDOW = 4096


def said(value):
    return "no value" if value is None else repr(value[:40])


class Course:
    """The course of requests on a region without a pair, none of which is refused: their replies, and the cells between them."""

    def __init__(self, requests, word):
        self.requests, self.word = requests, word
        cells = {}
        self.lines = [reply_to(request, cells) + b"\n" for request in requests]
        self.text = b"".join(self.lines)
        self.ends = [0, *itertools.accumulate(map(len, self.lines))]

    def out_behind(self, windows):
        """How many bytes the replies of the first windows have."""
        return self.ends[min(windows * WINDOW, len(self.requests))]

    def begun_by(self, windows):
        """How many requests were begun when the replies of the last of so many windows are being written."""
        return len(self.requests) if self.word == "replay" else min(windows * WINDOW, len(self.requests))

    def windows_in(self, out):
        """In which window, from 1 on, the first byte lies that is not out. Behind the whole text there is none more."""
        return next((n for n in itertools.count(1) if len(out) < self.out_behind(n) or self.out_behind(n) == len(self.text)))

    def answered_in(self, out):
        """How many requests have their whole reply in what is out."""
        return next((n for n, end in enumerate(self.ends) if end > len(out)), len(self.ends)) - 1

    def cells_behind(self, count):
        """The pairs behind the first requests."""
        cells = {}
        for request in self.requests[:count]:
            reply_to(request, cells)
        return cells

    def fault_of_text(self, out):
        """What is wrong with what is out, or none."""
        if self.text.startswith(out):
            return None
        wrong = next(n for n, (byte, right) in enumerate(itertools.zip_longest(out, self.text)) if byte != right)
        return f"what is out is not the beginning of the replies: byte {wrong} of {len(out)}"

    def fault_of_pairs(self, out, shown):
        """What is wrong with the pairs that the region shows, whenever the run was cut off, or none. A key must show what its
        last change left whose reply is out, or what a later one leaves."""
        answered = self.answered_in(out)
        right = {key: [value] for key, value in self.cells_behind(answered).items()}
        for request in self.requests[answered:]:
            if request.name != GET:
                right.setdefault(request.key, [None]).append(request.value)
        for key in sorted(set(shown) | set(right)):
            if shown.get(key) not in right.get(key, [None]):
                return f"key {key} shows {said(shown.get(key))}, none of its cells since the {answered} requests whose reply is out"
        return None

    def fault_of_begun(self, count, shown):
        """What is wrong with the pairs that the region shows where so many requests were begun and are done, or none."""
        right = self.cells_behind(count)
        for key in sorted(set(shown) | set(right)):
            if shown.get(key) != right.get(key):
                return f"key {key} shows {said(shown.get(key))}, and not {said(right.get(key))} as behind {count} requests"
        return None
