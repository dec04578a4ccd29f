#!/usr/bin/env python3
"""Tests of bench/scans: the reads that a scan is, and what is refused."""
import importlib.machinery
import importlib.util
import json
import os
import random
import unittest

PATH = os.path.join(os.path.dirname(os.path.abspath(__file__)), "scans")
LOADER = importlib.machinery.SourceFileLoader("scans", PATH)
scans = importlib.util.module_from_spec(importlib.util.spec_from_loader("scans", LOADER))
LOADER.exec_module(scans)


def ok(*ops):
    return {"type": "ok", "ops": list(ops)}


def converted(*lines):
    return [json.loads(line) for line in scans.converted([json.dumps(line) for line in lines])]


class Reads(unittest.TestCase):
    def reads(self, scan, *keys):
        """The reads that a scan is, where the history has these keys."""
        found = converted(ok(*(["w", key, number] for number, key in enumerate(keys))), ok(scan))[1]["ops"]
        self.assertTrue(all(op[0] == "r" for op in found))
        return [tuple(op[1:]) for op in found]

    def test_what_is_there_and_what_is_not(self):
        self.assertEqual(self.reads(["scan", "b", "d", [["c", 5]]], "a", "b", "c", "d"), [("b", None), ("c", 5)])

    def test_a_key_of_a_row_alone(self):
        self.assertEqual(self.reads(["scan", "a", "z", [["q", [1, 2]]]], "b"), [("b", None), ("q", [1, 2])])

    def test_a_key_that_a_later_line_names(self):
        lines = converted(ok(["scan", "a", "z", []]), ok(["append", "m", 1]))
        self.assertEqual(lines[0]["ops"], [["r", "m", None]])

    def test_without_bounds(self):
        self.assertEqual(self.reads(["scan", None, None, []], "b", 2, "a", 10), [(2, None), (10, None), ("a", None), ("b", None)])
        self.assertEqual(self.reads(["scan", 3, None, []], "b", 2, 10), [(10, None)])
        self.assertEqual(self.reads(["scan", None, "b", []], "b", "a", 1), [("a", None)])

    def test_bytes_are_the_order(self):
        keys = ["a", "ab", "b", "é", "\U0001f600", "\uffff", "B"]
        self.assertEqual([key for key, _ in self.reads(["scan", None, "zz", []], *keys)], ["B", "a", "ab", "b"])
        self.assertEqual([key for key, _ in self.reads(["scan", "c", None, []], *keys)], ["é", "\uffff", "\U0001f600"])

    def test_what_is_not_known_is_left_out(self):
        for outcome in ("info", "fail"):
            line = {"type": outcome, "ops": [["scan", "a", "z", [["b", 1]]], ["w", "a", 1]]}
            self.assertEqual(converted(line)[0]["ops"], [["w", "a", 1]])

    def test_other_lines_stay_as_they_are(self):
        texts = ['{"type": "ok",  "ops":[["r", "x",1]]}', '{"ops":[],"type":"info","start":3}']
        self.assertEqual(scans.converted(texts), texts)

    def test_other_members_stay(self):
        line = {"id": 7, "type": "ok", "process": "p", "start": 1, "end": 2, "ops": [["scan", 1, 2, []], ["w", 1, 3]]}
        self.assertEqual(converted(line), [dict(line, ops=[["r", 1, None], ["w", 1, 3]])])

    def test_beside_a_table(self):
        chance = random.Random(1)
        for _ in range(300):
            keys = {chance.randrange(12) for _ in range(chance.randrange(6))}
            low, high = chance.randrange(12), chance.randrange(14)
            rows = [[key, key + 100] for key in range(low, high) if chance.random() < 0.3]
            wanted = [(key, key + 100 if [key, key + 100] in rows else None) for key in sorted(keys | {k for k, _ in rows}) if low <= key < high]
            self.assertEqual(self.reads(["scan", low, high, rows], *keys), wanted)


class Refusals(unittest.TestCase):
    def refused(self, why, *lines):
        texts = [line if isinstance(line, str) else json.dumps(line) for line in lines]
        with self.assertRaisesRegex(scans.Refused, f"line {len(lines)}: .*{why}"):
            scans.converted(texts)

    def test_scans_that_are_none(self):
        for scan in (["scan"], ["scan", "a", "b"], ["scan", "a", "b", None], ["scan", "a", "b", [], 1]):
            self.refused("a scan is", ok(), ok(scan))
        for row in (["a"], "a", ["a", 1, 2], None):
            self.refused("no row", ok(["scan", "a", "b", [row]]))

    def test_rows_that_cannot_be(self):
        self.refused("outside", ok(["scan", "a", "c", [["c", 1]]]))
        self.refused("outside", ok(["scan", 1, 5, [["3", 1]]]))
        self.refused("two rows", ok(["scan", "a", "c", [["b", 1], ["b", 2]]]))

    def test_bounds_that_are_none(self):
        self.refused("from a number to a text", ok(["scan", 1, "b", []]))
        for bound in (True, 1.5, [], {}):
            self.refused("neither a whole number nor a text", ok(["scan", bound, None, []]))

    def test_keys_that_are_none(self):
        self.refused("neither a whole number nor a text", ok(["w", True, 1]))
        self.refused("neither a whole number nor a text", ok(["scan", None, None, [[None, 1]]]))

    def test_lines_that_are_none(self):
        for text in ("", "{", "[]", '{"type":"ok"}', '{"ops":3}'):
            self.refused("no ", ok(), text)


if __name__ == "__main__":
    unittest.main()
