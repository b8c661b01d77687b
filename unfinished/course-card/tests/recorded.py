"""The recorded lists: calls of the console with the answers that they must have, which come from the documents, from accounts in
Python and from the client's Rust; and the calls of tests/limits."""
import re
import subprocess
from pathlib import Path

ROOT = Path(__file__).resolve().parent.parent
LISTS = sorted(ROOT.glob("tests/*/*.in"))
# Calls that take two records of a run's shelf; the other edits take one.
TWO_PLACES = ("concat", "append", "build")
# A line of an outline behind the first: two numbers in 11 columns, and words that stand further in than the first line's.
INSIDE = re.compile(r"[ 0-9]{11} {4}")


def lines(file):
    """Its lines as the console ends them: a carriage return is a space."""
    return file.read_bytes().decode().split("\n")


def limits(what):
    return subprocess.run([ROOT / "tests/limits", what], stdout=subprocess.PIPE, text=True, check=True).stdout.splitlines()


def beside(calls, answers):
    """Each call with its answer, of an outline the first line."""
    rest = iter(answers)
    answer = next(rest, None)
    for call in calls:
        yield call, answer
        answer = next(rest, None)
        while answer is not None and INSIDE.match(answer):
            answer = next(rest, None)
    if answer is not None:
        raise ValueError(f"an answer without a call: {answer[:80]}")


def pairs():
    """The lines of every list, and those of tests/limits, each with its answer; but for notes and empty lines."""
    for calls in LISTS:
        yield from clean(beside(lines(calls), lines(calls.with_suffix(".out"))))
    yield from clean(beside(limits("calls"), limits("answers")))


def clean(these):
    return ((call, answer) for call, answer in these if call.split() and not call.lstrip().startswith("#"))


def call_of(text):
    """A call's word and its arguments."""
    word, *rest = text.split(None, 1)
    return word, [a.strip() for a in "".join(rest).split(";")]


def run_calls(line, answer):
    """The calls of a run as lines of their own, each with its ending."""
    start, *calls = line.split(None, 1)[1].split(":")
    *endings, shelf = answer.split(" : ")
    records = shelf.removeprefix("shelf ").split(" ; ")
    for text, ending in zip(calls, endings, strict=True):
        word, arguments = call_of(text)
        places = 2 if word in TWO_PLACES else 1
        arguments[:places] = [records[int(place)] for place in arguments[:places]]
        if ending.startswith("result at "):
            ending = "result " + records[int(ending.split()[2])]
        yield word, arguments, ending
