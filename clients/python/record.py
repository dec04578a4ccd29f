"""Writes down what transactions of any store saw, a line each, for `txkv import` (docs/HISTORIES.md).

    with Recorder("history.jsonl", fails=(Conflict,)) as recorder:
        with recorder.transaction(process=3) as t:      # begins, by a monotonic clock
            seen = t.read("x", store.get("x"))          # what the store answered
            store.put("x", t.write("x"))                # a value that nobody else writes
            store.commit()

One file, with no dependency. Threads share a recorder. Several programs of one machine have one
each, with a file and a `first` of its own; the files are one history, one behind the other.
"""
import itertools
import json
import threading
import time


def _checked(name):
    """A whole number below 2^64 or a text, as a key and a process of a history are."""
    if isinstance(name, str) or isinstance(name, int) and not isinstance(name, bool) and 0 <= name < 2**64:
        return name
    raise TypeError(f"neither a whole number below 2^64 nor a text: {name!r}")


def _value(value):
    """A whole number from -2^63 below 2^64, a truth or a text, as a value of a history is."""
    if isinstance(value, (str, bool)) or isinstance(value, int) and -(2**63) <= value < 2**64:
        return value
    raise TypeError(f"neither a whole number from -2^63 below 2^64, nor a truth, nor a text: {value!r}")


class Recorder:
    """The file of a history, which must not be there yet: two runs in one file are no history.

    `fails` are the errors by which the store says that nothing was written, and only those. `first`
    is the first of the values that are handed out: they count up from there.
    """

    def __init__(self, path, fails=(), first=1):
        self._values, self._fails = itertools.count(first), tuple(fails)
        self._lock, self._open, self._busy = threading.Lock(), set(), set()
        self._file = open(path, "x", encoding="ascii")

    def transaction(self, process=None):
        """A transaction, for a `with`: its line is written where that is left. `process` is the
        client that makes it, a number or a text: it makes one at a time."""
        return Transaction(self, None if process is None else _checked(process))

    def value(self):
        """A number that was not handed out before."""
        with self._lock:
            return next(self._values)

    def close(self):
        """Closes the file. What is still open is written down as one whose end is not known."""
        with self._lock:
            for transaction in list(self._open):
                self._end(transaction, "info")
            self._file.close()

    def __enter__(self):
        return self

    def __exit__(self, *_):
        self.close()

    def _begin(self, transaction):
        with self._lock:
            if self._file.closed or transaction.start is not None:
                raise RuntimeError("the recorder is closed, or the transaction was begun before")
            if transaction.process in self._busy:
                raise RuntimeError(f"process {transaction.process!r} is in a transaction")
            self._busy.update({transaction.process} - {None})
            self._open.add(transaction)
            transaction.start = time.monotonic_ns()

    def _end(self, transaction, outcome):
        self._open.discard(transaction)
        self._busy.discard(transaction.process)
        line = {"type": outcome} if transaction.process is None else {"type": outcome, "process": transaction.process}
        line.update(start=transaction.start, end=time.monotonic_ns(), ops=transaction.ops)
        self._file.write(json.dumps(line, separators=(",", ":")) + "\n")
        self._file.flush()


class Transaction:
    """What a transaction did. It is `ok` where its `with` comes to its end, so the commit belongs
    into it; `fail` where one of the recorder's `fails` leaves it, or where `fail` was called;
    `info`, its end unknown, where any other error leaves it. No error is caught."""

    def __init__(self, recorder, process):
        self._recorder, self._outcome = recorder, None
        self.process, self.ops, self.start = process, [], None

    def read(self, key, value):
        """The key had this value, None for none, or these values, where it is a list."""
        self._note("r", _checked(key), self._found(value))
        return value

    def scan(self, low, high, rows):
        """The keys from `low` up to but not including `high`, None for no bound, had these values, a
        pair each, and no others had one. bench/scans writes the reads that this is; the pairs."""
        bounds = [None if bound is None else _checked(bound) for bound in (low, high)]
        found = [[_checked(key), self._found(value)] for key, value in rows]
        self._note("scan", *bounds, found)
        return rows

    def write(self, key, value=None):
        """The key is given this value, or one that is handed out; the value. To be called before
        the store is asked, so that it never holds a value of which no line tells."""
        return self._note("w", _checked(key), self._recorder.value() if value is None else _value(value))

    def append(self, key, value=None):
        """The same, behind the values of the key's list."""
        return self._note("append", _checked(key), self._recorder.value() if value is None else _value(value))

    def fail(self):
        """The store said that nothing was written."""
        self._outcome = "fail"

    def info(self):
        """The store did not say whether it was committed."""
        self._outcome = "info"

    @staticmethod
    def _found(value):
        """What a key had: a value, None, or values, of which a copy is kept."""
        if value is None:
            return None
        return [_value(v) for v in value] if isinstance(value, (list, tuple)) else _value(value)

    def _note(self, *op):
        with self._recorder._lock:
            if self not in self._recorder._open:
                raise RuntimeError("the transaction is not open")
            self.ops.append(list(op))
        return op[-1]

    def __enter__(self):
        self._recorder._begin(self)
        return self

    def __exit__(self, kind, *_):
        left = "ok" if kind is None else "fail" if issubclass(kind, self._recorder._fails) else "info"
        with self._recorder._lock:
            if self in self._recorder._open:
                self._recorder._end(self, self._outcome or left)
