"""A contended load on a database, written down by clients/python/record.py, and what `txkv import`
says of it: what bench/record_postgres and bench/record_sqlite share.

Clients make transactions of one to five operations on a few keys: half of them read, the others put
a value that was not read before. A register is a number, a list a text. At the end one reads all.
"""
import argparse
import contextlib
import os
import random
import subprocess
import sys
import tempfile
import threading

TOP = os.path.dirname(os.path.dirname(os.path.abspath(__file__)))
sys.path.insert(0, os.path.join(TOP, "clients", "python"))
from record import Recorder  # noqa: E402

PROGRAM = os.environ.get("TXKV") or os.path.join(TOP, "bin", "txkv")
FLAGS = ((), ("--sessions",), ("--strict",), ("--sessions", "--strict"))
PUTS = {
    "registers": ("w", "UPDATE pairs SET v = {value} WHERE k = {key}"),
    "lists": ("append", "UPDATE pairs SET v = coalesce(v || ',', '') || '{value}' WHERE k = {key}"),
}


class Load:
    """What clients do with a database: `client(level)` connects one, who has `run(statement)`, which
    answers the first column of the first row, `begin`, `commit`, `rollback` and `close`; `refusals`
    are the errors by which nothing is written."""

    def __init__(self, asked, kind, level, client, refusals):
        self.asked, self.kind, self.level = asked, kind, level
        self.client, self.refusals = client, refusals

    def read(self, client, t, key):
        found = client.run(f"SELECT v FROM pairs WHERE k = {key}")
        if self.kind == "lists":
            found = [int(word) for word in found.split(",")] if found else []
        t.read(key, found if found is None or self.kind == "lists" else int(found))

    def put(self, client, t, key):
        word, statement = PUTS[self.kind]
        value = t.write(key) if word == "w" else t.append(key)
        client.run(statement.format(key=key, value=value))

    def transaction(self, client, recorder, process, steps):
        """Makes a transaction of these steps, and takes it back where it was refused."""
        try:
            with recorder.transaction(process) as t:
                client.begin()
                for step, key in steps:
                    step(client, t, key)
                client.commit()
        except self.refusals:
            client.rollback()

    def work(self, recorder, process, count):
        """The transactions of a client."""
        pick = random.Random(self.asked.seed * 1000 + process)
        with contextlib.closing(self.client(self.level)) as client:
            for _ in range(count):
                steps = [(pick.choice((self.read, self.put)), pick.randrange(self.asked.keys)) for _ in range(pick.randint(1, 5))]
                self.transaction(client, recorder, process, steps)

    def run(self, path):
        """Writes the history of the load to this path."""
        with contextlib.closing(self.client(self.level)) as client:
            client.run("DROP TABLE IF EXISTS pairs")
            client.run(f"CREATE TABLE pairs (k int PRIMARY KEY, v {'int' if self.kind == 'registers' else 'text'})")
            for key in range(self.asked.keys):
                client.run(f"INSERT INTO pairs VALUES ({key}, NULL)")
            client.commit()
        count = self.asked.transactions // self.asked.clients
        with Recorder(path, fails=self.refusals) as recorder:
            threads = [threading.Thread(target=self.work, args=(recorder, n, count)) for n in range(self.asked.clients)]
            for thread in threads:
                thread.start()
            for thread in threads:
                thread.join()
            with contextlib.closing(self.client(self.level)) as client:
                self.transaction(client, recorder, "last", [(self.read, key) for key in range(self.asked.keys)])


def judge(path, words):
    """What the program says of a history, in how many seconds of processor and megabytes (of GNU
    time: what a program takes that Python starts is told as at least what Python has)."""
    with open(path, "rb") as file:
        command = ["/usr/bin/time", "-f", "%U %S %M", PROGRAM, "import", *words]
        done = subprocess.run(command, stdin=file, capture_output=True, text=True, check=False)
    user, kernel, size = done.stderr.splitlines()[-1].split()
    return done.stdout.split("\n")[0], float(user) + float(kernel), int(size) / 1024


def arguments(about, levels):
    """What was asked for: how much, of which levels, and where histories are kept."""
    parser = argparse.ArgumentParser(description=about.splitlines()[0])
    for name, default in (("transactions", 6000), ("clients", 8), ("keys", 30), ("seed", 1)):
        parser.add_argument("--" + name, type=int, default=default)
    parser.add_argument("--kind", choices=PUTS, action="append")
    parser.add_argument("--keep", help="a folder for the histories")
    parser.add_argument("levels", nargs="*", choices=[*levels, []])
    asked = parser.parse_args()
    asked.keep = asked.keep or tempfile.mkdtemp(prefix="histories-")
    os.makedirs(asked.keep, exist_ok=True)
    asked.levels, asked.kind = asked.levels or list(levels), asked.kind or list(PUTS)
    return asked


def record_all(asked, client, refusals, levels):
    """Each history that was asked for, and what is said of it."""
    for kind, level in ((kind, level) for kind in asked.kind for level in asked.levels):
        path = os.path.join(asked.keep, f"{kind}_{level}.jsonl")
        Load(asked, kind, levels[level], client, refusals).run(path)
        with open(path, encoding="ascii") as file:
            kinds = [line.split('"')[3] for line in file]
        print(f"{path}: {len(kinds)} lines, {kinds.count('fail')} fail, {kinds.count('info')} info, {os.path.getsize(path):,} bytes")
        for words in FLAGS:
            said, seconds, size = judge(path, words)
            print(f"  {' '.join(['import', *words])}: {said[:200]}  ({seconds:.2f} s, {size:.0f} MB)", flush=True)
