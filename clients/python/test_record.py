#!/usr/bin/env python3
"""Tests of record.py: what it writes, and what `txkv import` of the program that bin/txkv runs says
of it; TXKV=PATH takes the program at PATH."""
import json
import os
import random
import subprocess
import tempfile
import threading
import unittest

from record import Recorder

ALONE = os.path.join(os.path.dirname(os.path.abspath(__file__)), "..", "..", "bin", "txkv")
PROGRAM = os.environ.get("TXKV") or ALONE
FLAGS = ((), ("--sessions",), ("--strict",), ("--sessions", "--strict"))


class Conflict(Exception):
    """Another transaction wrote the key first."""


class Store:
    """Snapshots in memory: of two that overlap and write one key the first to commit wins. With
    `reads_latest` nothing is so, and what is read is what stands there now."""

    def __init__(self, reads_latest=False):
        self.lock, self.reads_latest = threading.Lock(), reads_latest
        self.versions, self.now = {}, 0

    def begin(self):
        return Session(self)

    def read(self, key, at):
        with self.lock:
            return next((value for when, value in reversed(self.versions.get(key, [])) if when <= at), None)

    def commit(self, start, writes):
        with self.lock:
            newest = max([self.versions[key][-1][0] for key in writes if key in self.versions], default=0)
            if newest > start and not self.reads_latest:
                raise Conflict
            self.now += 1
            for key, value in writes.items():
                self.versions.setdefault(key, []).append((self.now, value))


class Session:
    """A transaction of a store."""

    def __init__(self, store):
        self.store, self.start, self.writes = store, store.now, {}

    def get(self, key):
        if key in self.writes:
            return self.writes[key]
        return self.store.read(key, self.store.now if self.store.reads_latest else self.start)

    def put(self, key, value):
        self.writes[key] = value

    def commit(self):
        self.store.commit(self.start, self.writes)


class Recorded(unittest.TestCase):
    def setUp(self):
        room = tempfile.TemporaryDirectory()
        self.addCleanup(room.cleanup)
        self.path = os.path.join(room.name, "history.jsonl")

    def lines(self):
        with open(self.path, encoding="ascii") as file:
            return [json.loads(line) for line in file]

    def ask(self, *words):
        """The status of `txkv import`, and the line that it writes."""
        with open(self.path, "rb") as file:
            done = subprocess.run([PROGRAM, "import", *words], stdin=file, capture_output=True, check=False)
        return done.returncode, json.loads(done.stdout.splitlines()[0])


def transfer(recorder, store, client):
    with recorder.transaction(process=client) as t:
        session = store.begin()
        seen = [t.read(key, session.get(key)) for key in ("from", "to")]
        for key in ("from", "to"):
            session.put(key, t.write(key))
        session.commit()
    return seen


class Examples(Recorded):
    """What docs/PYTHON.md shows."""

    def test_a_transfer(self):
        store = Store()
        with Recorder(self.path, fails=(Conflict,)) as recorder:
            self.assertEqual(transfer(recorder, store, 0), [None, None])
            self.assertEqual(transfer(recorder, store, 1), [1, 2])
        self.assertEqual([self.ask(*words) for words in FLAGS], [(0, ["import", "yes", {"transactions": 2}])] * 4)


class Lines(Recorded):
    def test_a_line_has_what_was_done_in_order(self):
        with Recorder(self.path, first=5) as recorder:
            with recorder.transaction(process=3) as t:
                self.assertEqual(t.read("x", None), None)
                self.assertEqual((t.write("x", 7), t.write("y"), t.append("l"), t.append(4, "é")), (7, 5, 6, "é"))
                self.assertEqual(t.read("l", (1, 6)), (1, 6))
            with recorder.transaction() as t:
                t.read(4, ["é"])
        first, second = self.lines()
        self.assertLessEqual(first.pop("start"), first["end"])
        self.assertLessEqual(first.pop("end"), second.pop("start"))
        del second["end"]
        ops = [["r", "x", None], ["w", "x", 7], ["w", "y", 5], ["append", "l", 6], ["append", 4, "é"], ["r", "l", [1, 6]]]
        self.assertEqual(first, {"type": "ok", "process": 3, "ops": ops})
        self.assertEqual(second, {"type": "ok", "ops": [["r", 4, ["é"]]]})

    def test_a_line_is_in_the_file_when_its_transaction_has_ended(self):
        recorder = Recorder(self.path)
        self.addCleanup(recorder.close)
        with recorder.transaction() as t:
            t.write("x")
            self.assertEqual(self.lines(), [])
        self.assertEqual(len(self.lines()), 1)

    def test_a_list_that_changes_later_stays_as_it_was_read(self):
        seen = [1]
        with Recorder(self.path) as recorder, recorder.transaction() as t:
            t.read("l", seen)
            seen.append(2)
        self.assertEqual(self.lines()[0]["ops"], [["r", "l", [1]]])

    def test_a_file_that_is_there_is_left_as_it_is(self):
        Recorder(self.path).close()
        with self.assertRaises(FileExistsError):
            Recorder(self.path)

    def test_values_of_other_kinds_are_refused(self):
        with Recorder(self.path) as recorder:
            for wrong in (True, -1):
                with self.assertRaises(TypeError), recorder.transaction() as t:
                    t.read(wrong, 1)
            for wrong in (-(2**63) - 1, 2**64, 1.5, b"x", {}):
                with self.assertRaises(TypeError), recorder.transaction() as t:
                    t.write("x", wrong)
                with self.assertRaises(TypeError), recorder.transaction() as t:
                    t.read("x", wrong)
                with self.assertRaises(TypeError), recorder.transaction() as t:
                    t.read(wrong, [1])
            with self.assertRaises(TypeError):
                recorder.transaction(process=1.5)
        self.assertEqual({(line["type"], len(line["ops"])) for line in self.lines()}, {("info", 0)})

    def test_truths_and_values_below_zero(self):
        with Recorder(self.path) as recorder, recorder.transaction() as t:
            self.assertEqual(t.write("x", False), False)
            t.append("l", -(2**63))
            t.read("l", [-1, True, ""])
        self.assertEqual(self.lines()[0]["ops"], [["w", "x", False], ["append", "l", -(2**63)], ["r", "l", [-1, True, ""]]])

    def test_scans(self):
        with Recorder(self.path) as recorder, recorder.transaction() as t:
            rows = [("b", 1), ("c", [2])]
            self.assertIs(t.scan("a", None, rows), rows)
            for low, high, wrong in (("a", "z", [(None, 1)]), (1.5, "z", []), ("a", "z", [("b", 1.5)])):
                with self.assertRaises(TypeError):
                    t.scan(low, high, wrong)
        self.assertEqual(self.lines()[0]["ops"], [["scan", "a", None, [["b", 1], ["c", [2]]]]])

    def test_a_process_makes_one_at_a_time(self):
        with Recorder(self.path) as recorder:
            with recorder.transaction(process=1) as once:
                with self.assertRaises(RuntimeError), recorder.transaction(process=1):
                    self.fail("two of one process")
                with recorder.transaction(process=2), recorder.transaction(), recorder.transaction():
                    pass
            with self.assertRaises(RuntimeError), once:
                self.fail("begun again")
            with recorder.transaction(process=1):
                pass
        self.assertEqual(len(self.lines()), 5)


class Outcomes(Recorded):
    def test_each_outcome(self):
        with Recorder(self.path, fails=(Conflict, KeyError)) as recorder:
            for error in (None, Conflict, KeyError, ValueError, KeyboardInterrupt, LookupError):
                try:
                    with recorder.transaction() as t:
                        t.write("x")
                        if error:
                            raise error
                except BaseException as told:  # whatever left the block leaves it still
                    self.assertIsInstance(told, error)
            for said in ("fail", "info"):
                with recorder.transaction() as t:
                    getattr(t, said)()
        outcomes = ["ok", "fail", "fail", "info", "info", "info", "fail", "info"]
        self.assertEqual([line["type"] for line in self.lines()], outcomes)

    def test_what_is_open_at_the_end_is_not_known(self):
        recorder = Recorder(self.path)
        open_one = recorder.transaction(process=1)
        with open_one as t:
            t.write("x", 9)
            recorder.close()
            with self.assertRaises(RuntimeError):
                t.write("x", 10)
        with self.assertRaises(RuntimeError), recorder.transaction():
            self.fail("the recorder is closed")
        (line,) = self.lines()
        self.assertEqual((line["type"], line["ops"]), ("info", [["w", "x", 9]]))

    def test_a_client_that_fails_is_judged_by_what_it_knew(self):
        """Its value is read: it may have committed where its end is not known, and not where it failed."""
        for fails, says in ((), [0, "yes"]), ((ConnectionError,), [3, "no"]):
            if os.path.exists(self.path):
                os.remove(self.path)
            with Recorder(self.path, fails=fails) as recorder:
                with self.assertRaises(ConnectionError), recorder.transaction(process=1) as t:
                    value = t.write("x")
                    raise ConnectionError
                with recorder.transaction(process=2) as t:
                    t.read("x", value)
            status, line = self.ask()
            self.assertEqual([status, line[1]], says)
        self.assertEqual(line[2], "G1a")


class Judged(Recorded):
    def test_a_lost_update_is_a_no(self):
        for reads_latest, says in (False, [0, "yes"]), (True, [3, "no"]):
            path, self.path = self.path, self.path + str(reads_latest)
            store = Store(reads_latest)
            with Recorder(self.path, fails=(Conflict,)) as recorder:
                with recorder.transaction(process=1) as one, recorder.transaction(process=2) as two:
                    sessions = store.begin(), store.begin()
                    for t, session in zip((one, two), sessions):
                        t.read("x", session.get("x"))
                        session.put("x", t.write("x"))
                    sessions[0].commit()
                    try:
                        sessions[1].commit()
                    except Conflict:
                        two.fail()
            status, line = self.ask()
            self.assertEqual([status, line[1]], says)
            self.path = path
        self.assertEqual(line[2], "lost-update")

    def test_a_process_that_reads_the_past(self):
        with Recorder(self.path) as recorder:
            with recorder.transaction(process="p") as t:
                t.write("x", 1)
            with recorder.transaction(process="p") as t:
                t.read("x", None)
        self.assertEqual(self.ask()[0], 0)
        self.assertEqual(self.ask("--sessions")[1][2], "G-single-process")
        self.assertEqual(self.ask("--strict")[1][2], "G-single-realtime")

    def work(self, store, recorder, process, count):
        pick = random.Random(process)
        for _ in range(count):
            try:
                with recorder.transaction(process) as t:
                    session = store.begin()
                    for key in pick.sample(range(10), 3):
                        t.read(key, session.get(key))
                        if pick.random() < 0.5:
                            session.put(key, t.write(key))
                    if pick.random() < 0.05:
                        raise ConnectionError
                    session.commit()
                    if pick.random() < 0.05:
                        raise ConnectionError
            except (Conflict, ConnectionError):
                pass

    def test_threads_of_a_true_store(self):
        store = Store()
        with Recorder(self.path, fails=(Conflict,)) as recorder:
            threads = [threading.Thread(target=self.work, args=(store, recorder, n, 100)) for n in range(8)]
            for thread in threads:
                thread.start()
            for thread in threads:
                thread.join()
        lines = self.lines()
        self.assertEqual(len(lines), 800)
        written = [op[2] for line in lines for op in line["ops"] if op[0] == "w"]
        self.assertEqual(len(written), len(set(written)))
        for words in FLAGS:
            status, line = self.ask(*words)
            self.assertEqual((status, line[:2]), (0, ["import", "yes"]), words)

    def test_files_of_several_programs_are_one_history(self):
        path, store = self.path, Store()
        for number in range(3):
            self.path = path + str(number)
            with Recorder(self.path, fails=(Conflict,), first=1 + number * 10**9) as recorder:
                self.work(store, recorder, number, 40)
        with open(path, "w", encoding="ascii") as whole:
            for number in range(3):
                with open(path + str(number), encoding="ascii") as part:
                    whole.write(part.read())
        self.path = path
        self.assertEqual(len(self.lines()), 120)
        self.assertEqual([self.ask(*words)[0] for words in FLAGS], [0, 0, 0, 0])

    def test_no_transaction_is_a_fault_and_no_yes(self):
        Recorder(self.path).close()
        self.assertEqual(self.ask()[0], 2)


if __name__ == "__main__":
    unittest.main()
