"""Calls the library from several threads at once, and on painted stacks, over the whole corpus."""

import re
import subprocess
from functools import lru_cache

import package
from expected import ENTRIES, HERE, LONGEST_SHEET, TWELVE, answer, answer_faults, both_ways, corpus, independent, lent, numbers

THREADS, STACK = 4, 65536
CALLS = ("figures", "rows", "required", "groups", "report")


def thread_faults():
    """The whole corpus in each of several threads at the same time."""
    files = list(corpus())
    question = numbers(THREADS, len(files)) + b"".join(numbers(len(data)) + data for _, data in files)
    for way, words in both_ways(HERE / "threads.c"):
        run = subprocess.run(words, input=question, stdout=subprocess.PIPE)
        wanted = (("%s in thread %d" % (name, thread), thread_expected(data)) for thread in range(THREADS) for name, data in files)
        yield from answer_faults(run, way, wanted)


@lru_cache(maxsize=None)
def thread_expected(data):
    told, text = independent.figures(answer(data, LONGEST_SHEET)), independent.printed(answer(data)).encode("ascii")
    lent_numbers = b"".join(numbers(len(lent(entry, data)), *lent(entry, data)) for entry in ENTRIES)
    return numbers(TWELVE, *told) + lent_numbers + numbers(len(text)) + text


def stack_faults():
    """The whole corpus, the longest files of kinds 05 and 07 in it, each call on a painted stack of 64 kilobytes; what a call takes of it at most is printed,
    and is not more than the header says."""
    files = list(corpus())
    question = numbers(len(files)) + b"".join(numbers(len(data)) + data for _, data in files)
    told = re.search(r"a call takes ([\d,]+) bytes of them[\s*]+at most", package.HEADER)
    yield None if told else "the header does not say how much of the stack a call takes"
    for way, words in both_ways(HERE / "stack.c"):
        run = subprocess.run(words, input=question, stdout=subprocess.PIPE, stderr=subprocess.PIPE)
        yield from answer_faults(run, way, (("%s on a painted stack" % name, thread_expected(data)) for name, data in files))
        most = [int(word) for word in run.stderr.split()] if run.returncode == 0 else []
        print("stack of a call with %s, bytes at most: %s" % (way, ", ".join("%s %d" % pair for pair in zip(CALLS, most))))
        right = told and len(most) == len(CALLS) and 0 < max(most) <= int(told.group(1).replace(",", "")) < STACK
        yield None if right else "with %s a call takes %s bytes of stack, and the header says %s" % (way, most, told and told.group(1))
