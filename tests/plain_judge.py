"""Judges what a command of the program came to on a region and an input, by docs/FORMAT.md alone: the region by `plain_reader.py`,
the input's lines by `plain_input.py`, replies by `plain_map.py`, and what is printed else by `plain_answers.py`. None of them
shares code with the program."""
import subprocess
import sys

sys.dont_write_bytecode = True
import plain_input  # beside this file
import plain_reader
from plain_answers import answer_to, verdict_on
from plain_map import PlainMap

CHANGING = {"replay", "run"}
DONE = 0
SECONDS = 300


def served(program, words, text=b""):
    """What the program makes of the words. One that doesn't end has no exit status."""
    try:
        return subprocess.run([program, *words], input=text, capture_output=True, timeout=SECONDS)
    except subprocess.TimeoutExpired:
        return subprocess.CompletedProcess(words, None, b"", b"it did not end")


def wrong_end(done, end):
    """What is wrong with the exit status and the line on standard error, or none."""
    found = (done.returncode, done.stderr)
    return None if found == end else f"it ended with {found}, and must with {end}"


def wrong_refusal(done, end, is_unchanged):
    """What is wrong with a refusal, or none."""
    why = wrong_end(done, end)
    if why is None and done.stdout:
        return "a refusal printed something"
    return why if why or is_unchanged else "a refusal changed the region"


def wrong_text(done, text, is_unchanged):
    """What is wrong with a command that reads, or none."""
    why = wrong_end(done, (DONE, b""))
    if why is None and done.stdout != text:
        return f"it printed '{done.stdout[:200]}', and must print '{text[:200]}'"
    return why if why or is_unchanged else "it changed the region"


def wrong_service(done, before, after, requests):
    """What is wrong with a replay or a run, or none."""
    plain = PlainMap(before)
    return wrong_end(done, (DONE, b"")) or plain.judge(requests, done.stdout) or plain.fault_in(after)


def asked_by(word, text, cores):
    """What the lines of an input to a command ask for. Raises `BadLine` where one breaks a rule."""
    if word in CHANGING:
        return plain_input.trace_in(text, cores)
    if word == "audit":
        return plain_input.audit_in(text, cores)
    return plain_input.queries_in(text) if word == "scan" else []


def printed_by(word, pairs, entries, asked):
    """What a command that reads must print."""
    if word == "dump":
        return plain_reader.dump_of(pairs)
    if word == "log":
        return plain_reader.log_of(entries)
    return verdict_on(pairs, *asked) if word == "audit" else b"".join(answer_to(query, pairs) for query in asked)


def judge(done, word, text, before, after):
    """How many lines of an input were judged by an answer of their own, and what is wrong with what a command came to, or none;
    of the region's bytes before and afterwards."""
    try:
        pairs, entries = plain_reader.read(before)
        asked = asked_by(word, text, plain_reader.Region(before).layout.cores)
    except (plain_reader.Broken, plain_input.BadLine) as refused:
        return 1, wrong_refusal(done, refused.end(), after == before)
    if word in CHANGING:
        return len(asked), wrong_service(done, before, after, asked)
    return len(asked) if word == "scan" else 1, wrong_text(done, printed_by(word, pairs, entries, asked), after == before)
