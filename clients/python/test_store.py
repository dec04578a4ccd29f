#!/usr/bin/env python3
"""txkv_store.py over the library that TXKV_STORE_LIB names: four threads keep a sum, and what a
transaction promises is seen."""
import threading

from txkv_store import CONFLICT, EXISTS, KEY_LENGTH, NO_TRANSACTION, VALUE_LENGTH, Refused, Store

ACCOUNTS, BALANCE, TRANSFERS = 20, 1000, 250


def code_of(call):
    try:
        call()
    except Refused as refused:
        return refused.code
    return 0


def account(number):
    return b"a%02d" % number


def transfer(tx, source, target, amount):
    x, y = int(tx.get(source)), int(tx.get(target))
    tx.put(source, b"%d" % (x - amount))
    tx.put(target, b"%d" % (y + amount))


def total(tx):
    return sum(int(value) for _, value in tx.rows(b"a", b"b"))


def move(store, seed, wrong):
    with store.client() as client:
        for n in range(TRANSFERS):
            source, target = (seed * 7 + n) % ACCOUNTS, (seed + n * 3 + 1) % ACCOUNTS
            if source != target:
                client.update(lambda tx: transfer(tx, account(source), account(target), n % 10))
            if n % 50 == 49 and client.update(total) != ACCOUNTS * BALANCE:
                wrong.append(seed)


def keeps_the_sum():
    with Store() as store:
        with store.client() as client:
            client.update(lambda tx: [tx.put(account(n), b"%d" % BALANCE) for n in range(ACCOUNTS)])
        wrong = []
        threads = [threading.Thread(target=move, args=(store, seed, wrong)) for seed in range(4)]
        for thread in threads:
            thread.start()
        for thread in threads:
            thread.join()
        with store.client() as client:
            return client.update(total) if not wrong else None


def promises():
    with Store(clients=3) as store, store.client() as one, store.client() as two:
        first, second = one.begin(), two.begin()
        first.put(b"k", b"1")
        assert first.get(b"k") == b"1" and second.get(b"k") is None
        assert first.commit() > 0
        assert second.get(b"k") is None and list(second.rows()) == []
        second.put(b"k", b"2")
        assert code_of(second.commit) == CONFLICT
        assert code_of(second.commit) == NO_TRANSACTION
        third = two.begin()
        third.insert(b"k", b"3")
        assert code_of(third.commit) == EXISTS
        fourth = two.begin()
        assert code_of(lambda: fourth.get(b"")) == KEY_LENGTH
        assert code_of(lambda: fourth.get(b"x" * 513)) == KEY_LENGTH
        assert code_of(lambda: fourth.put(b"x", b"y" * 65537)) == VALUE_LENGTH
        fourth.put(b"\0\xff\0", b"y" * 65536)
        fourth.delete(b"k")
        assert fourth.get(b"k") is None and fourth.commit() > 0
        assert [(key, len(value)) for key, value in one.begin().rows()] == [(b"\0\xff\0", 65536)]
        left = two.begin()
        left.put(b"z", b"z")
        left.leave()
        fifth = two.begin()
        assert fifth.get(b"z") is None and fifth.commit() is None
        assert store.client().number not in (one.number, two.number) and code_of(store.client) != 0


promises()
print(f"Python, typed, 4 threads: the sum is {keeps_the_sum()}")
