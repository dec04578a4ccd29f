#!/usr/bin/env python3
"""Tests of txkv_linked.py: TXKV_LIB=PATH names the library. It prints the sum that four threads keep,
and how many lines and transfers a second that made."""
import glob
import os
import random
import sys
import threading
import time
import unittest

import txkv
from txkv_linked import Lines, Store

ACCOUNTS = [f"a{n:02}" for n in range(100)]
SCRIPTS = os.path.join(os.path.dirname(os.path.abspath(__file__)), "..", "..", "crates", "examples", "data", "*.script")


class Scripts(unittest.TestCase):
    def test_each_example_has_the_replies_that_simulate_writes(self):
        names = glob.glob(SCRIPTS)
        self.assertGreater(len(names), 10)
        for name in names:
            with open(name, "rb") as script, open(f"{name}.out", "rb") as out:
                first, *lines = script.read().splitlines()
                told = out.read().splitlines()
            store = Lines(first)
            self.assertEqual([store.reply(), *(store.ask(line) for line in lines)], told, name)
            store.close()


class Values(unittest.TestCase):
    def test_a_value_is_read_after_its_commit(self):
        with Store() as store:
            store.update(lambda tx: tx.put("hello", "world"))
            self.assertEqual(store.view(lambda tx: tx["hello"]), "world")

    def test_regions_and_rows_that_take_more_room(self):
        with Store(["k0500"]) as store:
            rows = {f"k{n:04}": "v" * 5000 for n in range(0, 1000, 10)}
            store.update(lambda tx: [tx.put(key, value) for key, value in rows.items()])
            self.assertEqual(dict(store.view(lambda tx: list(tx.range()))), rows)

    def test_a_fault_changes_nothing(self):
        with Store() as store:
            with self.assertRaises(txkv.Fault) as raised:
                store.ask("get", "nobody", "x")
            self.assertEqual((raised.exception.line, raised.exception.cause), (2, "name"))
            store.update(lambda tx: tx.put("k", "v"))
            self.assertEqual(store.view(lambda tx: tx["k"]), "v")

    def test_a_first_line_that_is_a_fault(self):
        with self.assertRaises(txkv.Closed):
            Store(["b", "a"])

    def test_the_second_of_two_writers(self):
        with Store() as store:
            first, second = store.transaction(), store.transaction()
            first["k"], second["k"] = "a", "b"
            first.commit()
            with self.assertRaises(txkv.Again):
                second.commit()

    def test_many_stores_one_after_another(self):
        for n in range(200):
            with Store() as store:
                store.update(lambda tx, n=n: tx.put("k", str(n)))


def move(tx, a, b, amount):
    tx[a], tx[b] = str(int(tx[a]) - amount), str(int(tx[b]) + amount)


def work(store, own, count):
    chance = random.Random(own)
    for _ in range(count):
        a, b = chance.sample(ACCOUNTS, 2)
        store.update(lambda tx, a=a, b=b: move(tx, a, b, chance.randrange(10)))


def main(count):
    with Store() as store:
        store.update(lambda tx: [tx.put(name, "1000") for name in ACCOUNTS])
        lines, clock, processor = store.lines, time.perf_counter(), time.process_time()
        threads = [threading.Thread(target=work, args=(store, own, count)) for own in range(4)]
        for thread in threads:
            thread.start()
        for thread in threads:
            thread.join()
        lines, clock, processor = store.lines - lines, time.perf_counter() - clock, time.process_time() - processor
        print(f"Python, 4 threads: the sum is {store.view(lambda tx: sum(int(v) for _, v in tx.range()))}", flush=True)
        told = f"{lines / clock:.0f} lines and {4 * count / clock:.0f} transfers a second; "
        print(told + f"{lines / processor:.0f} and {4 * count / processor:.0f} of processor time", file=sys.stderr)


if __name__ == "__main__":
    if not unittest.main(argv=sys.argv[:1], exit=False).result.wasSuccessful():
        sys.exit(1)
    main(int(sys.argv[1]) if sys.argv[1:] else 250)
