#!/usr/bin/env python3
"""Tests of from_edn: what the lines of a history in EDN are by the definitions of EDN and of
Jepsen's operations, and what is refused, with nothing written."""
import importlib.machinery
import importlib.util
import json
import os
import subprocess
import sys
import unittest

SCRIPT = os.path.join(os.path.dirname(os.path.abspath(__file__)), "from_edn")
sys.dont_write_bytecode = True
LOADER = importlib.machinery.SourceFileLoader("from_edn", SCRIPT)
FROM_EDN = importlib.util.module_from_spec(importlib.util.spec_from_loader("from_edn", LOADER))
LOADER.exec_module(FROM_EDN)


def converted(text):
    """The lines of a text, and what is said of them."""
    lines, said = FROM_EDN.converted(text if isinstance(text, bytes) else text.encode())
    return [json.loads(line) for line in lines], said


class Lines(unittest.TestCase):
    def are(self, text, *expected):
        lines, said = converted(text)
        self.assertEqual(lines, list(expected), said)
        self.assertIn(f"{len(expected)} transactions: ", said)
        return said

    def ops_are(self, value, *ops):
        self.are("{:type :ok, :value %s}" % value, {"type": "ok", "ops": list(ops)})


class Forms(Lines):
    """EDN: what is a form, and where it ends."""

    def test_spaces_commas_and_comments(self):
        self.ops_are("[[:append,1,2][:r 1 [2]]]", ["append", 1, 2], ["r", 1, [2]])
        self.ops_are("; [[:w 9 9]]\n [ ; \"{[(\n [:w\t1\r\n2] ]", ["w", 1, 2])
        self.are(";; nothing\n\n  {:type :ok :value []}\n ; ends here", {"type": "ok", "ops": []})

    def test_what_is_discarded_is_the_next_form(self):
        self.ops_are("[[:w 1 #_3 2] #_[:w 1 9]]", ["w", 1, 2])
        self.ops_are("[#_ #_ [:w 8 8] [:w 9 9] [:w 1 2]]", ["w", 1, 2])
        self.ops_are("#_ #inst \"2026-11-29\" [[:w 1 2]]", ["w", 1, 2])
        self.ops_are("[[:w 1 #_ #inst #_ 7 \"2026\" 3]]", ["w", 1, 3])
        self.are("#_{:type :ok :value [[:w 1 2]]} {:type :ok :value [[:w 1 3]]}", {"type": "ok", "ops": [["w", 1, 3]]})
        self.are("#_[{:type :ok :value [[:w 1 2]]}] {:type :ok :value []}", {"type": "ok", "ops": []})

    def test_numbers(self):
        self.ops_are("[[:w 3N +4] [:w 0 18446744073709551615] [:r -0 0N]]", ["w", 3, 4], ["w", 0, 2**64 - 1], ["r", 0, 0])

    def test_values_below_zero_and_truths(self):
        ops = ["w", 1, -(2**63)], ["append", 2, -1], ["r", 2, [True, False, -3]], ["r", 1, True]
        self.ops_are("[[:w 1 -9223372036854775808N] [:append 2 -1] [:r 2 [true false -3]] [:r 1 true]]", *ops)

    def test_texts(self):
        self.ops_are(r'[[:w "a \"]}; b" "\t\n\\é\u00e9\ud83d\ude00"]]', ["w", 'a "]}; b', "\t\n\\éé\U0001f600"])
        self.ops_are('[[:w "two\nlines" "1"] [:w "" 1]]', ["w", "two\nlines", "1"], ["w", "", 1])

    def test_keywords_and_symbols_are_names(self):
        self.ops_are("[[:w :a/b.c x] [:r :k1 [:v1 :v-2]] [:r - -a]]", ["w", "a/b.c", "x"], ["r", "k1", ["v1", "v-2"]], ["r", "-", "-a"])

    def test_lists_are_as_vectors(self):
        self.ops_are("((:append 1 2) (:r 1 (2 3)))", ["append", 1, 2], ["r", 1, [2, 3]])

    def test_forms_of_no_use_are_read_over(self):
        rest = r""":error [:dup "x}" \} \newline \u00e9 1.5e-3 2M 22/7 0x1F 017 16r1F #{1 2} {[1] 2, "s" #object[java.lang.Object 0x5f "o"]}
            #uuid "f81d4fae-7dec-11d0-a765-00a0c91e6bf6" ##Inf true false nil #:a{:b 1} #:a{:type :fail} a'b% <= .x]"""
        self.are("{:type :ok %s :value [[:w 1 2]]}" % rest, {"type": "ok", "ops": [["w", 1, 2]]})

    def test_records_are_maps(self):
        record = "#jepsen.history.Op{:type :ok, :value [[:w 1 2]]}"
        self.are(record + record.replace("2", "3"), *({"type": "ok", "ops": [["w", 1, v]]} for v in (2, 3)))

    def test_many_in_one_line_and_in_vectors(self):
        ops = ["{:type :ok :value [[:w 1 %d]]}" % n for n in range(4)]
        lines = [{"type": "ok", "ops": [["w", 1, n]]} for n in range(4)]
        self.are(" ".join(ops), *lines)
        self.are("".join(ops), *lines)
        self.are("[" + ", ".join(ops) + "]", *lines)
        self.are("([%s] [] [[%s %s]] (%s))" % tuple(ops), *lines)
        self.are(b"\xef\xbb\xbf" + ops[0].encode(), lines[0])

    def test_many_brackets(self):
        deep = "[" * 100000 + "]" * 100000
        self.are("{:type :ok :error %s :value [[:w 1 2]]}" % deep, {"type": "ok", "ops": [["w", 1, 2]]})


class Operations(Lines):
    """Jepsen: what an operation is, and which two are one transaction."""

    def test_an_invoke_and_its_end(self):
        text = """{:type :invoke, :f :txn, :value [[:r :x nil] [:append :y 1]], :time 5, :process 0, :index 0}
            {:type :invoke, :f :txn, :value [[:r :x nil]], :time 6, :process 1, :index 1}
            {:type :ok, :f :txn, :value [[:r :x [3 4]]], :time 7, :process 1, :index 2}
            {:type :ok, :f :txn, :value [[:r :x nil] [:append :y 1]], :time 8, :process 0, :index 3}"""
        one = {"id": 2, "type": "ok", "process": 1, "start": 6, "end": 7, "ops": [["r", "x", [3, 4]]]}
        two = {"id": 3, "type": "ok", "process": 0, "start": 5, "end": 8, "ops": [["r", "x", None], ["append", "y", 1]]}
        said = self.are(text, one, two)
        self.assertIn("2 ok, 0 fail, 0 info; 0 without process, 0 without start, 0 without end; passed over: none", said)

    def test_an_end_that_tells_nothing_has_what_was_meant(self):
        text = """{:type :invoke :process 0 :value [[:r 1 nil] [:w 1 2]] :time 1} {:type :%s :process 0 :value %s :time 2}"""
        for end, value in (("fail", "nil"), ("info", "nil"), ("info", ":timeout"), ("fail", "[[:r 1 7] [:w 1 2]]")):
            ops = [["r", 1, None], ["w", 1, 2]]
            self.are(text % (end, value), {"type": end, "process": 0, "start": 1, "end": 2, "ops": ops})

    def test_an_invoke_without_an_end(self):
        text = """{:type :invoke :process 0 :value [[:w 1 2]] :time 1 :index 0}
            {:type :invoke :process 1 :value [[:r 1 nil]] :time 2 :index 1} {:type :ok :process 1 :value [[:r 1 2]] :time 3 :index 2}"""
        one = {"id": 2, "type": "ok", "process": 1, "start": 2, "end": 3, "ops": [["r", 1, 2]]}
        two = {"id": 0, "type": "info", "process": 0, "start": 1, "ops": [["w", 1, 2]]}
        self.assertIn("1 ok, 0 fail, 1 info; 0 without process, 0 without start, 1 without end", self.are(text, one, two))

    def test_ends_without_an_invoke(self):
        text = "{:type :ok :process 4 :value [[:r 1 nil]] :time 9} {:type :ok :value [[:w 1 2]]} {:type :fail :value [[:r 1 5] [:w 1 3]]}"
        one = {"type": "ok", "process": 4, "end": 9, "ops": [["r", 1, None]]}
        two, three = {"type": "ok", "ops": [["w", 1, 2]]}, {"type": "fail", "ops": [["r", 1, None], ["w", 1, 3]]}
        self.assertIn("2 without process, 3 without start, 2 without end", self.are(text, one, two, three))

    def test_a_process_goes_on_after_an_end(self):
        text = "".join("{:type :%s :process 0 :value [[:w 1 %d]]}" % (kind, n) for n in range(3) for kind in ("invoke", "ok"))
        self.are(text, *({"type": "ok", "process": 0, "ops": [["w", 1, n]]} for n in range(3)))

    def test_ids_where_all_have_one(self):
        text = "{:type :ok :index 3 :value []} {:type :ok %s :value []}"
        self.are(text % ":index 5", {"id": 3, "type": "ok", "ops": []}, {"id": 5, "type": "ok", "ops": []})
        self.are(text % "", {"type": "ok", "ops": []}, {"type": "ok", "ops": []})

    def test_what_is_no_transaction_is_counted(self):
        text = """{:type :info :process :nemesis :f :start :value nil} {:type :info :process :nemesis :f :start :value "cut"}
            {:type :invoke :process :nemesis :f :heal :value []} {:type :invoke :process 3 :f :sum :value 4} {:type :ok :value [[:w 1 2]]}"""
        self.assertIn("passed over: 2 :start, 1 :heal, 1 :sum", self.are(text, {"type": "ok", "ops": [["w", 1, 2]]}))


class Refusals(unittest.TestCase):
    def refused(self, text, line, why):
        lines, said = converted(text)
        self.assertEqual(lines, [], text)
        self.assertRegex(said, f"^line {line}: {why}.*: nothing is written$")

    def test_what_is_no_edn(self):
        op = "{:type :ok :value [[:w 1 2]]}\n"
        rows = [("]", r"\] closes"), ("(", r"\( has no end"), ("[ #_{}", r"\[ has no end"), ("{:type :ok", r"\{ has no end")]
        rows += [("{:type :ok :value [[:w 1 2]}", "} closes"), ("#_", "#_ has no end"), ("#jepsen.Op", "#jepsen.Op has no end")]
        rows += [('"never', '" begins nothing'), ("#", "# begins nothing"), ("\\", r"\\ begins nothing"), ("[#_]", r"\] closes")]
        rows += [("3NN", "3NN is no EDN"), ("1_000", "1_000 is no EDN"), (":", ": is no EDN"), ("@x", "@x is no EDN"), ("\xa0", ".* begins nothing")]
        rows += [("{:type}", "a map that has a key without"), ("{:type :ok, :type :fail}", "a map that has a key twice")]
        rows += [(r'"\q"', r"a text with \\q"), (r'"\ud83d"', "a text with half"), ("#_(1}", "} closes"), ('#"a+"', "# begins nothing")]
        for text, why in rows:
            self.refused(op + text, 2, why)
            self.refused("[" + op + "{:type :ok :error [" + text + "] :value []}]", 2, "")

    def test_what_is_no_utf_8(self):
        self.assertEqual(converted(b'{:type :ok :value [[:w "\xff" 2]]}'), ([], "no UTF-8 at byte 24: nothing is written"))

    def test_no_transaction(self):
        for text in ("", " ; nothing\n", "[]", "{:type :info :process :nemesis :f :start}"):
            self.assertEqual(converted(text), ([], "there is no transaction"))

    def test_what_is_no_operation(self):
        for text in ("3", "nil", ":ok", "{}", "{:type nil}", '{:type "ok" :value []}', "{:type :done}", "{:a {:type :ok}}", "0 :invoke :txn [[:w 1 2]]"):
            self.refused("\n" + text, 2, "no operation")
        for text in ("#:a{:type :ok :value []}", '{"type" :ok :value []}', "#{{:type :ok :value []}}", "#jepsen.Op[:ok]"):
            self.refused("{:type :ok :value []}\n" + text, 2, "no operation")

    def test_values_that_are_no_transaction(self):
        for value in ("", ":value nil", ":value [[:cas 1 2]]", ":value [1 2]", ":value {:a 1}", ":value [:w 1 2]", ":value #{[:w 1 2]}", ':value [["w" 1 2]]'):
            for kind in ("invoke", "ok", "fail", "info"):
                for f in ("", ":f :txn"):
                    self.refused("{:type :%s :process 1 %s %s}" % (kind, f, value), 1, "an operation whose :value is no transaction")

    def test_names_that_are_none(self):
        for wrong in ("true", "-1"):
            for op in ("[:append %s 1]", "[:r %s nil]"):
                self.refused("{:type :ok :value [%s]}" % (op % wrong), 1, "a key that is neither")
        for wrong in ("nil", "1.0", "18446744073709551616", "-9223372036854775809", "[1]", "{}", "#{1}", "\\a", '#inst "2026"', "1/2"):
            for op in ("[:w 1 %s]", "[:append %s 1]", "[:r %s 1]", "[:r 1 [2 %s]]"):
                self.refused("{:type :ok :value [%s]}" % (op % wrong), 1, "a (key|value) that is neither")
        self.refused("{:type :ok :value [[:r 1 #{2}]]}", 1, "a value that is neither")
        self.refused("{:type :ok :process 1.5 :value []}", 1, "a process that is neither")
        self.refused("{:type :ok :time 1.5 :value []}", 1, "a :time")
        self.refused("{:type :ok :time -1 :value []}", 1, "a :time")

    def test_two_names_that_would_be_one(self):
        self.refused('{:type :ok :value [[:w :x 1]\n [:w "x" 2]]}', 1, "x is a key as a text and as")
        self.refused('{:type :ok :value [[:w 1 x]]}\n{:type :ok :value [[:w 1 :x]]}', 2, "x is a value as a text and as")

    def test_operations_of_other_lengths(self):
        for op in ("[:r 1]", "[:r]", "[:w 1]", "[:append 1 2 3]", "[:r 1 2 3]"):
            self.refused("{:type :ok :value [%s]}" % op, 1, "(an operation of|a key that is neither)")

    def test_pairs_that_are_none(self):
        begin = "{:type :invoke :process 0 :value [[:r 1 nil] [:w 1 2]]}\n"
        self.refused(begin + begin, 2, "process 0 begins before it has ended")
        self.refused(begin + "{:type :invoke :process 0 :f :sum :value 3}", 2, "process 0 begins before it has ended")
        self.refused("{:type :invoke :value [[:w 1 2]]}", 1, "an :invoke without a :process")
        for value in ("nil", ":timeout"):
            self.refused(begin + "{:type :ok :process 0 :value %s}" % value, 2, "an :ok that does not tell")
        for value in ("[]", "[[:r 1 nil]]", "[[:r 1 nil] [:w 1 3]]", "[[:r 2 nil] [:w 1 2]]", "[[:w 1 2] [:r 1 nil]]"):
            self.refused(begin + "{:type :ok :process 0 :value %s}" % value, 2, "an :ok of other operations")


class Script(unittest.TestCase):
    def run_script(self, text):
        done = subprocess.run([sys.executable, SCRIPT], input=text, capture_output=True, text=True, check=False)
        return done.returncode, done.stdout, done.stderr

    def test_its_streams_and_status(self):
        status, out, said = self.run_script("{:type :ok :value [[:w 1 2]]}")
        self.assertEqual((status, out), (0, '{"type": "ok", "ops": [["w", 1, 2]]}\n'))
        self.assertTrue(said.startswith("from_edn: 1 transactions: 1 ok, 0 fail, 0 info; "))
        self.assertEqual(self.run_script("{:type :ok :value []} }"), (1, "", "from_edn: line 1: } closes nothing: nothing is written\n"))


if __name__ == "__main__":
    unittest.main()
