#!/usr/bin/env python3
"""Tests of txkv.py over the program that bin/txkv runs; TXKV=PATH takes the program at PATH."""
import contextlib
import io
import threading
import unittest

import txkv
from txkv import Store


class Values(unittest.TestCase):
    def test_a_value_is_read_after_its_commit(self):
        with Store() as store:
            store.update(lambda tx: tx.put("hello", "world"))
            self.assertEqual(store.view(lambda tx: tx["hello"]), "world")
            self.assertEqual(store.view(lambda tx: tx.get("none", "nothing")), "nothing")
            with self.assertRaises(KeyError):
                store.view(lambda tx: tx["none"])

    def test_a_transaction_reads_what_it_entered(self):
        with Store() as store, store.transaction() as tx:
            tx["a"], tx["b"] = "x", "y"
            del tx["b"]
            self.assertEqual((tx["a"], tx.get("b"), "a" in tx, "b" in tx), ("x", None, True, False))
            self.assertEqual(tx.get_all("a", "c", "b", "a"), ["x", None, None, "x"])

    def test_texts_of_all_kinds(self):
        with Store() as store:
            texts = {"\0": "", "é": "\n\"\\", "a" * 512: "v" * 65536, "\U0001f600": "\u2028"}
            for key, value in texts.items():
                store.update(lambda tx, key=key, value=value: tx.put(key, value))
            self.assertEqual(dict(store.view(lambda tx: list(tx.range()))), texts)

    def test_many_keys_in_both_ways(self):
        for two_phase, count in ((False, 200), (False, 300), (True, 1024)):
            with Store(["k0500"], two_phase=two_phase) as store:
                rows = {f"k{n:04}": "v" * 500 for n in range(count)}

                def fill(tx, rows=rows):
                    for key, value in rows.items():
                        tx[key] = value

                store.update(fill)
                self.assertEqual(dict(store.view(lambda tx: list(tx.range()))), rows)


class Examples(unittest.TestCase):
    """What docs/PYTHON.md shows."""

    def test_first_lines(self):
        with contextlib.redirect_stdout(io.StringIO()) as told:
            first_lines()
        self.assertEqual(told.getvalue(), "world\n")

    def test_write_skew_is_kept_apart_by_locks(self):
        with Store() as store:
            store.update(lambda tx: (tx.put("checking", "60"), tx.put("savings", "60")))
            skewed(store)
            self.assertEqual(store.view(lambda tx: int(tx["checking"]) + int(tx["savings"])), 20)

    def test_a_lost_reply(self):
        with Store() as store:
            lost_reply(store)
            self.assertEqual(store.view(lambda tx: tx["k"]), "v")


def first_lines():
    with Store() as store:
        store.update(lambda tx: tx.put("hello", "world"))
        print(store.view(lambda tx: tx["hello"]))


def skewed(store):
    def withdraw(tx):
        if int(tx["checking"]) + int(tx["savings"]) < 100:
            raise ValueError("too little")
        tx.lock("savings")
        tx["checking"] = str(int(tx["checking"]) - 100)

    store.update(withdraw)


def lost_reply(store):
    store.ask("begin", "A")
    store.ask("put", "A", "k", "v")
    store.ask("declare", "A", "async", 10)
    assert store.ask("prewrite", "A", "lose-reply") == ["lost"]
    store.ask("stop", "A")
    store.ask("tick", 10)


class Ranges(unittest.TestCase):
    def setUp(self):
        self.store = Store(["m"])
        self.addCleanup(self.store.close)
        with self.store.transaction() as tx:
            for key in ("a", "b", "c/1", "c/2", "n", "z"):
                tx[key] = key.upper()

    def keys(self, *words, **named):
        return self.store.view(lambda tx: [key for key, _ in tx.range(*words, **named)])

    def test_a_range_has_its_rows_in_order(self):
        self.assertEqual(self.keys(), ["a", "b", "c/1", "c/2", "n", "z"])
        self.assertEqual(self.keys("b", "n"), ["b", "c/1", "c/2"])
        self.assertEqual(self.keys("b", "b"), [])
        self.assertEqual(self.keys(page=1), ["a", "b", "c/1", "c/2", "n", "z"])
        self.assertEqual(self.store.view(lambda tx: list(tx.prefix("c/"))), [("c/1", "C/1"), ("c/2", "C/2")])

    def test_what_is_entered_stands_among_its_rows(self):
        with self.store.transaction() as tx:
            tx["aa"], tx["b"], tx["zz"] = "1", "2", "3"
            del tx["n"]
            tx.lock("z")
            rows = [("a", "A"), ("aa", "1"), ("b", "2"), ("c/1", "C/1"), ("c/2", "C/2"), ("z", "Z"), ("zz", "3")]
            self.assertEqual(list(tx.range(page=2)), rows)


class Conflicts(unittest.TestCase):
    def test_the_second_of_two_is_refused(self):
        for two_phase in (False, True):
            with Store(two_phase=two_phase) as store:
                one, two = store.transaction(), store.transaction()
                one["k"], two["k"] = "1", "2"
                self.assertGreater(one.commit(), one.start)
                with self.assertRaises(txkv.WriteConflict) as told:
                    two.commit()
                self.assertEqual(told.exception.number, "E2")
                self.assertIsInstance(told.exception, txkv.Again)
                two.abort()
                self.assertEqual(store.view(lambda tx: tx["k"]), "1")
                self.assertIsNone(store.versions("k")[0])
                with self.assertRaises(txkv.Ended):
                    two.put("k", "3")

    def test_an_insert_wants_no_value(self):
        with Store() as store:
            store.update(lambda tx: tx.insert("k", "1"))
            with self.assertRaises(txkv.AlreadyExists):
                store.update(lambda tx: tx.insert("k", "2"))
            store.update(lambda tx: tx.delete("k"))
            store.update(lambda tx: tx.insert("k", "3"))
            self.assertEqual(store.view(lambda tx: tx["k"]), "3")
            with self.assertRaises(txkv.AlreadyExists), store.transaction() as tx:
                tx["n"] = "1"
                tx.insert("n", "2")

    def test_locks_keep_writes_apart(self):
        with Store() as store:
            store.update(lambda tx: (tx.put("a", "1"), tx.put("b", "1")))
            one, two = store.transaction(), store.transaction()
            one.lock("b")
            one["a"] = "0"
            two.lock("a")
            two["b"] = "0"
            one.commit()
            with self.assertRaises(txkv.Again):
                two.commit()
            two.abort()

    def test_an_error_writes_nothing(self):
        with Store() as store:
            with self.assertRaises(ZeroDivisionError), store.transaction() as tx:
                tx["k"] = str(1 // 0)
            with self.assertRaises(ZeroDivisionError):
                store.update(lambda tx: (tx.put("k", "1"), 1 // 0))
            self.assertIsNone(store.view(lambda tx: tx.get("k")))

    def test_what_was_left_is_resolved(self):
        for mode, found in (("two-phase", None), ("async", "left")):
            with Store() as store:
                for step in (["begin", "L"], ["put", "L", "k", "left"], ["declare", "L", mode, 1], ["prewrite", "L"],
                             ["stop", "L"], ["tick", 9]):
                    store.ask(*step)
                self.assertEqual(store.view(lambda tx: tx.get_all("j", "k")), [None, found])
                store.update(lambda tx: tx.put("k", "mine"))
                self.assertEqual(store.view(lambda tx: tx["k"]), "mine")

    def test_threads_keep_the_sum(self):
        with Store(["5"]) as store:
            store.update(lambda tx: [tx.put(str(n), "100") for n in range(10)])

            def move(me):
                def work(tx, n):
                    a, b = str((me + n) % 10), str((3 * me + n + 1) % 10)
                    if a != b:
                        x, y = int(tx[a]), int(tx[b])
                        tx[a], tx[b] = str(x - 1), str(y + 1)

                for n in range(25):
                    store.update(lambda tx, n=n: work(tx, n))

            threads = [threading.Thread(target=move, args=(me,)) for me in range(4)]
            for thread in threads:
                thread.start()
            for thread in threads:
                thread.join()
            self.assertEqual(store.view(lambda tx: sum(int(v) for _, v in tx.range())), 1000)


class Snapshots(unittest.TestCase):
    def test_a_snapshot_stays_as_it_was(self):
        with Store() as store:
            store.update(lambda tx: tx.put("k", "1"))
            with store.snapshot() as before:
                store.update(lambda tx: tx.put("k", "2"))
                self.assertEqual((before["k"], store.view(lambda tx: tx["k"])), ("1", "2"))
                self.assertEqual(store.read("k", before.start), "1")
            with self.assertRaises(txkv.Ended):
                before.get("k")
            now = store.now()
            self.assertEqual(store.collect(now), (1, 0))
            with self.assertRaises(txkv.BelowSafePoint):
                store.read("k", 1)
            with self.assertRaises(txkv.FutureTimestamp):
                store.read("k", 1 << 40)


class Faults(unittest.TestCase):
    def test_a_fault_names_its_line_and_changes_nothing(self):
        with Store() as store:
            store.ask("begin", "A")
            for step, cause in ((("get", "B", "k"), "name"), (("prewrite", "A"), "order"), (("putt", "A"), "form")):
                with self.assertRaises(txkv.Fault) as told:
                    store.ask(*step)
                self.assertEqual((told.exception.cause, told.exception.line), (cause, store.lines))
            self.assertEqual(store.ask("put", "A", "k", "1"), ["ok"])
            self.assertEqual(store.ask("get", "A", "k"), ["value", "1"])

    def test_the_first_line_that_is_none_says_the_regions(self):
        with Store() as store:
            self.assertEqual(store.exchange([["frob"], ["regions", ["b"]], ["begin", "A"]]),
                             [[1, "E16", "form"], [2, "regions", 2], [3, "start", 1]])

    def test_refusals_have_names(self):
        with Store() as store:
            for key, value, error in (("", "", txkv.KeyLength), ("k" * 513, "", txkv.KeyLength),
                                      ("k", "v" * 65537, txkv.ValueLength)):
                with self.assertRaises(error):
                    store.update(lambda tx, key=key, value=value: tx.put(key, value))
            with self.assertRaises(txkv.TooManyKeys):
                store.update(lambda tx: [tx.put(str(n), "") for n in range(1025)])
            with self.assertRaises(txkv.KeyLength) as told:
                store.ask("read", "", 0)
            self.assertEqual(told.exception.number, "E13")
            with self.assertRaises(TypeError):
                store.update(lambda tx: tx.put(b"k", "v"))

    def test_more_lines_than_a_pipe_holds(self):
        with Store() as store:
            store.update(lambda tx: tx.put("k", "v" * 65536))
            store.ask("begin", "A")
            replies = store.exchange([["get", "A", "k"], ["get", "A", "n" * 512]] * 100)
            self.assertEqual({reply[1] for reply in replies}, {"value", "none"})

    def test_a_closed_store_says_so(self):
        store = Store()
        store.close()
        store.close()
        with self.assertRaises(txkv.Closed):
            store.update(lambda tx: tx.put("k", "v"))
        with self.assertRaises(txkv.Closed):
            Store(program="/none/txkv")


if __name__ == "__main__":
    unittest.main()
