"""Running the program, and counting the cases that pass."""
import functools
import os
import subprocess
from concurrent.futures import ThreadPoolExecutor

from sweeps.shown import TOP, lines_of, text_of


class Tally:
    """How many cases passed, and what is told of those that failed."""

    passed = 0
    failures = []


def tell(name, fault):
    """Counts a case, which failed where a fault is told."""
    if fault is None:
        Tally.passed += 1
    else:
        Tally.failures.append(f"{name}: {fault}")


@functools.lru_cache(maxsize=None)
def program():
    """The program that bin/txkv runs, once it is there."""
    if "TXKV" in os.environ:
        return os.environ["TXKV"]
    which = {**os.environ, "TXKV_WHICH": "1"}
    said = subprocess.run([f"{TOP}/bin/txkv"], env=which, stdout=subprocess.PIPE, check=True)
    return said.stdout.decode().strip()


def run(words, text):
    """The status and the output of the program, called with these words on this text."""
    ended = subprocess.run([program(), *words], input=text, stdout=subprocess.PIPE,
                           stderr=subprocess.DEVNULL, check=False)
    return ended.returncode, ended.stdout


def run_all(calls):
    """What each of these calls gives, by its name; a call is a function and what it is called with."""
    with ThreadPoolExecutor(os.cpu_count()) as pool:
        made = {name: pool.submit(*call) for name, call in calls.items()}
        return {name: one.result() for name, one in made.items()}


def compare(words, cases, wanted):
    """Runs each text, and compares status and output with those that are wanted."""
    ended = run_all({name: (run, words, text) for name, text in cases.items()})
    for name, (status, lines) in wanted.items():
        got = ended[name]
        is_same = got == (status, text_of(lines))
        tell(name, None if is_same else f"wanted {status} {lines[-1:]}, got {got[0]} {lines_of(got[1])[-1:]}")
