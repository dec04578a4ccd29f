#!/usr/bin/env python3
"""Tests of bench/deletes: small random histories with deletes, each compared with all orders of its starts and
commits, in which a read of null sees a key that is not there, whoever left it so."""
import importlib.machinery
import importlib.util
import itertools
import json
import os
import random
import unittest

PATH = os.path.join(os.path.dirname(os.path.abspath(__file__)), "deletes")
LOADER = importlib.machinery.SourceFileLoader("deletes", PATH)
deletes = importlib.util.module_from_spec(importlib.util.spec_from_loader("deletes", LOADER))
LOADER.exec_module(deletes)


def is_delete(op):
    return op[0] == "d" or op[0] == "w" and op[2] is None


def explains(order, lines):
    """Whether these moments, a start and a commit of each that committed, explain the history."""
    store, seen, puts = {}, {}, {}
    for number in order:
        line = lines[number]
        if number not in seen:
            seen[number], own = dict(store), {}
            for op in line["ops"]:
                if op[0] == "r":
                    if line["type"] == "ok" and own.get(op[1], store.get(op[1], (None, None))[0]) != op[2]:
                        return False
                else:
                    own[op[1]] = None if is_delete(op) else op[2]
            puts[number] = own
        else:
            for key, value in puts[number].items():
                if store.get(key) != seen[number].get(key):
                    return False
                store[key] = value, number
    return True


def keeps_clock(order, lines):
    """Whether one that began after another had ended starts when that has committed."""
    first, last = {}, {}
    for place, number in enumerate(order):
        first.setdefault(number, place)
        last[number] = place
    return all(last[a] < first[b] for a in last for b in last
               if lines[a]["type"] == "ok" and lines[a].get("end", 9) < lines[b].get("start", 0))


def is_explained(lines, strict=False):
    """Whether an order of starts and commits explains the history."""
    sure = [number for number, line in enumerate(lines) if line["type"] == "ok"]
    maybe = [number for number, line in enumerate(lines) if line["type"] == "info"]
    for count in range(len(maybe) + 1):
        for more in itertools.combinations(maybe, count):
            moments = sorted((sure + list(more)) * 2)
            for order in set(itertools.permutations(moments)):
                if (not strict or keeps_clock(order, lines)) and explains(order, lines):
                    return True
    return False


def judged(strict=False):
    """A judge by all orders, of lines without a delete."""
    def judge(text):
        lines = [json.loads(line) for line in text.splitlines()]
        assert not any(is_delete(op) for line in lines for op in line["ops"])
        if is_explained(lines, strict):
            return deletes.Answer("yes\n", 0)
        return deletes.Answer("no\n", 3)
    return judge


def texts(*lines):
    return [json.dumps(line) for line in lines]


def ok(*ops, **more):
    return {"type": "ok", "ops": list(ops), **more}


def made(chance):
    """A history by chance: what a store with snapshots did, or not quite."""
    values = itertools.count(1)
    lines, store = [], {}
    for number in range(chance.randint(2, 3)):
        ops, seen = [], dict(store)
        for _ in range(chance.randint(1, 3)):
            key, what = chance.choice("xy"), chance.random()
            if what < 0.5:
                ops.append(["r", key, seen.get(key)])
            elif what < 0.75:
                ops.append(chance.choice([["d", key], ["w", key, None]]))
                seen[key] = None
            else:
                ops.append(["w", key, next(values)])
                seen[key] = ops[-1][2]
        outcome = chance.choice(["ok"] * 5 + ["info", "fail"])
        if outcome != "fail" and chance.random() < 0.8:
            store = seen
        lines.append({"type": outcome, "start": 2 * number, "end": 2 * number + chance.choice([1, 4]), "ops": ops})
    reads = [op for line in lines for op in line["ops"] if op[0] == "r"]
    if reads and chance.random() < 0.5:
        read = chance.choice(reads)
        read[2] = chance.choice([None, *(op[2] for line in lines for op in line["ops"] if op[0] == "w" and op[1] == read[1])])
    chance.shuffle(lines)
    return lines


class Deletes(unittest.TestCase):
    def status(self, *lines, judge=judged()):
        return deletes.answered(texts(*lines), judge).status

    def test_a_delete_is_seen(self):
        self.assertEqual(self.status(ok(["w", "x", 1]), ok(["r", "x", 1], ["d", "x"]), ok(["r", "x", None])), 0)

    def test_a_value_that_was_deleted(self):
        lines = ok(["w", "x", 1]), ok(["r", "x", 1], ["d", "x"], ["w", "y", 1]), ok(["r", "y", 1], ["r", "x", 1])
        self.assertEqual(self.status(*lines), 3)

    def test_who_deletes_sees_it(self):
        self.assertEqual(self.status(ok(["d", "x"], ["r", "x", None], ["w", "x", 1], ["r", "x", 1])), 0)
        self.assertEqual(self.status(ok(["d", "x"], ["w", "x", 1], ["r", "x", None])), 3)
        self.assertEqual(self.status(ok(["w", "x", None], ["r", "x", 1]), ok(["w", "x", 1])), 3)

    def test_two_deletes_of_one_state(self):
        lines = ok(["w", "x", 1]), ok(["r", "x", 1], ["d", "x"]), ok(["r", "x", 1], ["w", "x", None])
        self.assertEqual(self.status(*lines), 3)

    def test_a_delete_that_failed(self):
        lines = ok(["w", "x", 1]), {"type": "fail", "ops": [["d", "x"]]}, ok(["r", "x", 1]), ok(["r", "x", None])
        self.assertEqual(self.status(*lines), 0)

    def test_a_value_that_is_called_so(self):
        text = deletes.History(texts(ok(["d", "x"]), ok(["w", "x", "deleted by line 1"]))).text({})
        self.assertIn('"deleted by line 1, operation 1"', text)

    def test_lines_without_deletes_stay(self):
        lines = ok(["r", "x", None], ["append", "y", 1], process=1, id=7), {"type": "info", "ops": [["r", "x", None]]}
        self.assertEqual([json.loads(line) for line in deletes.History(texts(*lines)).text({}).splitlines()], list(lines))

    def test_what_is_refused(self):
        for text in ("", "{", "[]", '{"type":"ok"}', '{"type":"ok","ops":[["d"]]}'):
            with self.assertRaises(deletes.Refused):
                deletes.History([text])

    def test_too_many_ways(self):
        lines = [ok(["d", f"k{key}"]) for key in range(9)] + [ok(*(["r", f"k{key}", None] for key in range(9)))]
        self.assertGreater(deletes.History(texts(*lines)).ways(), deletes.MOST_WAYS)
        asked = []
        found = deletes.answered(texts(*lines), lambda text: asked.append(text) or deletes.Answer("yes\n", 0))
        self.assertEqual((found.status, len(asked)), (0, 3))
        self.assertIn('["r","k3","deleted by line 4"]', asked[-1])
        open_one = deletes.answered(texts(*lines), lambda text: deletes.Answer("", 3 if '"r"' in text else 0))
        self.assertEqual(open_one.status, 5)
        self.assertEqual(json.loads(open_one.line), ["import", "open", [f"k{key}" for key in range(9)]])

    def test_beside_all_orders(self):
        chance, count = random.Random(1), {0: 0, 3: 0}
        for _ in range(1500):
            lines, strict = made(chance), chance.random() < 0.5
            status = self.status(*lines, judge=judged(strict))
            self.assertEqual(status, 0 if is_explained(lines, strict) else 3, lines)
            count[status] += 1
        self.assertGreater(min(count.values()), 50)

    def test_likeliest_beside_all_orders(self):
        chance, count = random.Random(2), {0: 0, 3: 0, 5: 0}
        for _ in range(1500):
            lines = made(chance)
            history = deletes.History(texts(*lines))
            found = deletes.likeliest(history, judged(True))
            if found:
                self.assertTrue(is_explained(lines, True), lines)
            elif not is_explained(lines, True):
                count[3] += 1
            else:
                count[5] += 1
            count[0] += found is not None
        self.assertGreater(count[0], 50)


if __name__ == "__main__":
    unittest.main()
