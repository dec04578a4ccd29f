#!/usr/bin/env python3
"""How many lines and how many transfers a second txkv.py brings about: speed.py [TRANSFERS].

TXKV=PATH takes the program at PATH. Prints lines that are asked one by one and a hundred at once,
and then transfers between two of 100 accounts, each in a transaction: two reads and two writes. Of
each how many a second by the clock, and a second of the processor time of client and store.
"""
import os
import random
import sys
import time

import txkv


def taken(store):
    """The processor time of this process and of the store's, in seconds."""
    with open(f"/proc/{store.process.pid}/stat", encoding="ascii") as stat:
        fields = stat.read().rsplit(")", 1)[1].split()
    return time.process_time() + (int(fields[11]) + int(fields[12])) / os.sysconf("SC_CLK_TCK")


def tell(store, what, work, count):
    clock, processor = time.perf_counter(), taken(store)
    work(count)
    clock, processor = time.perf_counter() - clock, taken(store) - processor
    print(f"{count / clock:>9,.0f} {what} a second, {count / processor:,.0f} of processor time")


def one_by_one(store, count):
    for _ in range(count):
        store.ask("get", "R", "a00")


def at_once(store, count):
    for _ in range(count // 100):
        store.exchange([["get", "R", "a00"]] * 100)


def transfer(tx, a, b):
    x, y = map(int, tx.get_all(a, b))
    tx[a], tx[b] = str(x - 1), str(y + 1)


def transfers(store, names, count):
    chance = random.Random(1)
    for _ in range(count):
        a, b = chance.sample(names, 2)
        store.update(lambda tx, a=a, b=b: transfer(tx, a, b))


def main(count):
    names = [f"a{n:02}" for n in range(100)]
    with txkv.Store() as store:
        store.update(lambda tx: [tx.put(name, "1000") for name in names])
        store.ask("begin", "R")
        tell(store, "lines, one by one,", lambda n: one_by_one(store, n), 4 * count)
        tell(store, "lines, a hundred at once,", lambda n: at_once(store, n), 20 * count)
        tell(store, "transfers", lambda n: transfers(store, names, n), count)
        total = store.view(lambda tx: sum(int(value) for _, value in tx.range()))
        if total != 1000 * len(names):
            sys.exit(f"the sum is {total}")


if __name__ == "__main__":
    main(int(sys.argv[1]) if sys.argv[1:] else 5000)
