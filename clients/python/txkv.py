"""txkv in Python: a transactional store in memory, in a process of its own that is asked by lines.

    with Store() as store:
        store.update(lambda tx: tx.put("hello", "world"))
        print(store.view(lambda tx: tx["hello"]))

One file, with no dependency. It runs `txkv simulate --go-on`, whose lines, replies and limits
docs/SCRIPT.md of the repository tells. Keys and values are texts: a key of 1 to 512 bytes of UTF-8,
a value of at most 65,536. All is gone when the store is closed. Threads may share a store: one
exchange of lines follows another, and each transaction is for one thread at a time.
"""
import bisect
import json
import os
import random
import select
import shutil
import subprocess
import threading
import time

MAX_KEYS = 1024
MAX_ASYNC_KEYS = 256
# Above each key that a store may have but one.
LAST_KEY = "\U0010ffff" * 128
_ALONE = os.path.join(os.path.dirname(os.path.abspath(__file__)), "..", "..", "bin", "txkv")
_encode = json.JSONEncoder(ensure_ascii=False, separators=(",", ":")).encode
_string = json.encoder.encode_basestring
_MARK = object()


def line_of(step):
    """The line of a step, without its newline."""
    return "[" + ",".join([_string(part) if type(part) is str else _encode(part) for part in step]) + "]"


class Error(Exception):
    """What a store could not do: `step`, the line that was asked, where one was, and `reply`."""

    def __init__(self, text, step=None, reply=None):
        super().__init__(text)
        self.step, self.reply = step, reply


class Closed(Error):
    """The store is closed, or its program has ended."""


class Ended(Error):
    """The transaction or the snapshot has ended."""


class Fault(Error):
    """A line that is no step, or none that may be made now: `line` is its number, `cause` the word
    of docs/SCRIPT.md. It has changed nothing."""

    def __init__(self, step, reply):
        super().__init__(f"line {reply[0]}: {reply[2]}: {_encode(step)}", step, reply)
        self.line, self.cause = reply[0], reply[2]


class Refused(Error):
    """A refusal, by its number, as "E2"; `details` are what its line tells behind that."""

    number = None

    def __init__(self, step, reply):
        where = f"line {reply[0]}: " if step else ""
        super().__init__(f"{where}{reply[1]}: {self.__doc__.splitlines()[0]}", step, reply)
        self.details = reply[2:]


class Again(Refused):
    """Nothing is written: begin again."""


class KeyIsLocked(Again):
    """Another transaction's lock stands in the way."""

    number = "E1"


class WriteConflict(Again):
    """Another transaction has committed the key since this one began."""

    number = "E2"


class AlreadyRolledBack(Again):
    """The transaction was rolled back."""

    number = "E3"


class AlreadyCommitted(Refused):
    """The transaction's commit stands on the key."""

    number = "E4"


class CommitTsExpired(Again):
    """A commit below the least timestamp that a lock allows."""

    number = "E5"


class TxnLockNotFound(Refused):
    """Neither lock nor record of the transaction stands on the key."""

    number = "E6"


class BelowSafePoint(Again):
    """What the timestamp would read is collected."""

    number = "E7"


class FutureTimestamp(Refused):
    """The timestamp was not drawn yet."""

    number = "E8"


class LocksRemain(Refused):
    """A lock stands below the safe point."""

    number = "E9"


class TxnNotFound(Refused):
    """Nothing stands of the transaction."""

    number = "E10"


class OracleSpent(Refused):
    """A seat has drawn all its timestamps."""

    number = "E11"


class OutOfMemory(Refused):
    """Memory was refused."""

    number = "E12"


class KeyLength(Refused):
    """A key has 1 to 512 bytes."""

    number = "E13"


class ValueLength(Refused):
    """A value has at most 65,536 bytes."""

    number = "E14"


class TooManyKeys(Refused):
    """A transaction has at most 1,024 keys."""

    number = "E15"


class AlreadyExists(Refused):
    """A key that is inserted has a value."""

    number = "E17"


class Unknown(Error):
    """What became of the transaction is not known."""


_REFUSALS = {c.number: c for c in [*Refused.__subclasses__(), *Again.__subclasses__()] if c.number}


def refusal_of(step, reply):
    """The error that a reply tells of its step; None where it went well."""
    if reply[1] == "E16":
        return Fault(step, reply)
    kind = _REFUSALS.get(reply[1])
    return kind(step, reply) if kind else None


def _program(program):
    for found in [program] if program else [os.environ.get("TXKV"), shutil.which("txkv"), _ALONE]:
        if found and os.path.exists(found):
            return os.path.abspath(found)
    raise Closed("no program txkv: name it by `program`, by TXKV, or on the path")


class Store:
    """A store in memory. `bounds` are the keys between its regions, which rise. `two_phase` says how
    its transactions commit, and `ttl` for how many ticks the locks of one that was left live.
    `errors` is where the program says why a line is a fault: nowhere, or as `subprocess` has it."""

    def __init__(self, bounds=(), program=None, two_phase=False, ttl=1, cells="flat", errors=subprocess.DEVNULL):
        self._prepare(two_phase, ttl)
        self._rest, self.process = b"", None
        words = [_program(program), "simulate", "--go-on", "--cells", cells]
        self.process = subprocess.Popen(words, stdin=subprocess.PIPE, stdout=subprocess.PIPE, stderr=errors, bufsize=0)
        self._in, self._out = self.process.stdin.fileno(), self.process.stdout.fileno()
        os.set_blocking(self._in, False)
        if bounds:
            self.ask("regions", list(bounds))

    def _prepare(self, two_phase, ttl):
        self.two_phase, self.ttl = two_phase, ttl
        self.lines = 0
        self._turn, self._names = threading.Lock(), 0

    # ---- lines

    def _send(self, data):
        """Writes lines, and reads what comes meanwhile: neither waits for the other for ever."""
        while data:
            try:
                data = data[os.write(self._in, data):]
            except BlockingIOError:
                readable, _, _ = select.select([self._out], [self._in], [])
                if readable:
                    self._receive()

    def _receive(self):
        more = os.read(self._out, 65536)
        if not more:
            raise Closed(f"the program has ended with status {self.process.wait()}")
        self._rest += more

    def exchange(self, steps):
        """Asks these steps in one write: their replies, each with the number of its line in front."""
        data = "".join([line_of(step) + "\n" for step in steps]).encode()
        with self._turn:
            if self.process is None:
                raise Closed("the store is closed")
            try:
                self._send(data)
                while self._rest.count(b"\n") < len(steps):
                    self._receive()
            except OSError as error:
                raise Closed(f"the program has ended: {error}") from error
            except KeyboardInterrupt:
                self.process.kill()  # its replies would be taken for those of other lines
                raise
            told, self._rest = self._rest, b""
            self.lines += len(steps)
        return json.loads(f"[{told[:-1].decode()}]".replace("\n", ","))

    def ask(self, *step):
        """Asks a step: what its reply tells behind the number of the line. Raises what is refused."""
        return _well(step, self.exchange([step])[0])

    def close(self):
        """Ends the program: what the store held is gone."""
        with self._turn:
            child, self.process = self.process, None
        if child:
            child.stdin.close()
            child.stdout.close()
            child.wait()

    def __enter__(self):
        return self

    def __exit__(self, *_):
        self.close()

    def __del__(self):
        if getattr(self, "process", None):
            self.close()

    # ---- transactions

    def _name(self):
        with self._turn:
            self._names += 1
            return f"py{self._names}"

    def transaction(self):
        """A transaction that begins here. As a context it commits at its end, and aborts where an
        error leaves it."""
        tx = Transaction(self)
        tx._exchange([])
        return tx

    def update(self, work, tries=1000):
        """Does a work in a transaction, `work(tx)`, and commits it: what the work answered. It is
        done again, in another transaction, where another one came first."""
        for left in range(tries, 0, -1):
            tx = Transaction(self)
            try:
                value = work(tx)
                tx.commit()
                return value
            except Again:
                if left == 1:
                    raise
                time.sleep(random.uniform(0, min(0.02, 0.0001 * 2 ** min(tries - left, 10))))
            finally:
                tx.abort()

    def view(self, work):
        """Does a work that only reads, `work(snapshot)`: what it answered."""
        with self.snapshot() as snapshot:
            return work(snapshot)

    def snapshot(self):
        """What stands in the store now, to be read until it is closed."""
        return Snapshot(self)

    def now(self):
        """A timestamp that is drawn now: reads at it see what is committed so far, and no more."""
        return self.ask("tick", 1)[1]

    def read(self, key, ts):
        """The value of a key at a timestamp, or None."""
        return _value(self.ask("read", _key(key), ts))

    def collect(self, ts=None):
        """Drops what no read at or above a timestamp sees; that is now where none is said. So many
        records and values were dropped. A transaction or a snapshot that began below is over."""
        reply = self.ask("gc", self.now() if ts is None else ts)
        return reply[1], reply[2]

    def versions(self, key):
        """What is kept of a key: its lock, its write records, and its long values."""
        return self.ask("versions", _key(key))[1:]


def _well(step, reply):
    error = refusal_of(step, reply)
    if error:
        raise error
    return reply[1:]


def _value(reply):
    return reply[1] if reply[0] == "value" else None


def _text(text, what):
    if not isinstance(text, str):
        raise TypeError(f"a {what} is a str, not {type(text).__name__}")
    return text


def _key(key):
    if not 0 < len(_text(key, "key").encode()) <= 512:
        raise KeyLength(None, [None, "E13"])
    return key


def _value_of(value):
    if len(_text(value, "value").encode()) > 65536:
        raise ValueLength(None, [None, "E14"])
    return value


class Reads:
    """What transactions and snapshots read."""

    def __init__(self, store):
        self._store, self._session, self._entries = store, None, {}
        self.start = None

    def _step(self, word, *members):
        return [word, self._session, *members]

    def _ask(self, word, *members):
        """Asks a read, and what stands in its way is resolved."""
        for left in range(16, -1, -1):
            try:
                return self._store.ask(*self._step(word, *members))
            except KeyIsLocked:
                if left == 0:
                    raise
                self._resolve()

    def _resolve(self):
        """Looks into the lock that stood in the way, at a time that goes on with each look."""
        self._store.ask("resolve", self._session, self._store.now())

    def get(self, key, default=None):
        """The value of a key, or `default`."""
        entry = self._entries.get(_key(key), _MARK)
        found = _value(self._ask("get", key)) if entry is _MARK else entry
        return default if found is None else found

    def get_all(self, *keys):
        """The values of several keys, None where there is none, asked in one write."""
        asked = [key for key in keys if self._entries.get(_key(key), _MARK) is _MARK]
        found = dict(zip(asked, self._exchange([("get", key) for key in asked])))
        for key, reply in found.items():
            found[key] = self.get(key) if reply[1] == "E1" else _value(_well(self._step("get", key), reply))
        return [found[key] if key in found else self._entries[key] for key in keys]

    def _exchange(self, steps):
        """Asks these steps of its session in one write."""
        return self._store.exchange([self._step(*step) for step in steps]) if steps else []

    def __getitem__(self, key):
        value = self.get(key, _MARK)
        if value is _MARK:
            raise KeyError(key)
        return value

    def __contains__(self, key):
        return self.get(key) is not None

    def _pages(self, start, end, page):
        while True:
            rows = self._ask("scan", start, end, page)[1]
            yield from rows
            if len(rows) < page:
                return
            start = rows[-1][0] + "\0"
            if len(start.encode()) > 512:
                return

    def range(self, start="\0", end=LAST_KEY, page=256):
        """The rows from a key up to but not including another, in the order of the keys' bytes, as
        (key, value): what is entered so far stands among them. Read page by page."""
        if not start < end:
            return
        own = sorted(k for k in self._entries if start <= k < end)
        at = 0
        for key, value in self._pages(_key(start), _key(end), page):
            while at < len(own) and own[at] < key:
                yield from self._own(own[at])
                at += 1
            if at < len(own) and own[at] == key:
                yield from self._own(key)
                at += 1
            else:
                yield key, value
        for key in own[at:]:
            yield from self._own(key)

    def prefix(self, prefix, page=256):
        """The rows whose keys begin so."""
        return self.range(prefix or "\0", prefix + "\U0010ffff" * ((512 - len(prefix.encode())) // 4), page)

    def _own(self, key):
        value = self._entries[key]
        return [] if value is None else [(key, value)]


class Snapshot(Reads):
    """What stood in a store when it was taken."""

    def __init__(self, store):
        super().__init__(store)
        self._session = store._name()
        self.start = store.ask("begin", self._session)[1]

    def _ask(self, word, *members):
        self._exchange([])
        return super()._ask(word, *members)

    def _exchange(self, steps):
        if self._session is None:
            raise Ended("the snapshot is closed")
        return super()._exchange(steps)

    def close(self):
        """Ends it."""
        session, self._session = self._session, None
        if session:
            self._store.ask("stop", session)

    def __enter__(self):
        return self

    def __exit__(self, *_):
        self.close()


class Transaction(Reads):
    """A transaction: it reads what stood at its start and what it entered itself, and writes all of
    its entries at once, or nothing."""

    def __init__(self, store):
        super().__init__(store)
        self._is_over, self._queue, self._keys = False, [], set()
        self.committed = None

    # ---- what is entered

    def _exchange(self, steps):
        """Asks these steps of it in one write, and begins it there where it has not begun."""
        if self._is_over:
            raise Ended("the transaction has ended")
        if self._session is not None:
            return super()._exchange(steps)
        self._session = self._store._name()
        begin = self._step("begin")
        first, *replies = self._store.exchange([begin] + [self._step(*step) for step in steps])
        if first[1] != "start":
            self._session = None
            raise refusal_of(begin, first)
        self.start = first[2]
        return replies

    def _ask(self, word, *members):
        if self._session is None or self._is_over:
            reply = self._exchange([(word, *members)])[0]
            if reply[1] != "E1":
                return _well(self._step(word, *members), reply)
            self._resolve()
        return super()._ask(word, *members)

    def _enter(self, word, key, value):
        if self._is_over:
            raise Ended("the transaction has ended")
        if key not in self._keys and len(self._keys) >= MAX_KEYS:
            raise TooManyKeys(None, [None, "E15"])
        self._keys.add(key)
        self._queue.append((word, key) if word in ("delete", "lock") else (word, key, value))
        if word != "lock":
            self._entries[key] = value

    def put(self, key, value):
        """Enters a value for a key."""
        self._enter("put", _key(key), _value_of(value))

    def insert(self, key, value):
        """Enters a value for a key that must have none."""
        if self._entries.get(_key(key)) is not None:
            raise AlreadyExists(None, [None, "E17"])
        self._enter("insert", key, _value_of(value))

    def delete(self, key):
        """Enters that a key has no value."""
        self._enter("delete", _key(key), None)

    def lock(self, key):
        """Enters that no other transaction is to write the key meanwhile."""
        self._enter("lock", _key(key), None)

    __setitem__ = put
    __delitem__ = delete

    # ---- how it ends

    def commit(self):
        """Commits it: its timestamp, or None where nothing was entered. Raises `Again` where another
        transaction came first, and then nothing is written. It has ended then, however it went."""
        if self._is_over:
            raise Ended("the transaction has ended")
        if not self._queue:
            self.abort()
            return None
        try:
            self._enter_all()
            reply = self._write()
            self._is_over = True
        except Refused:
            reply = self._end()
            if reply[1:3] not in (["outcome", "committed"], ["outcome", "unknown"]):
                raise
        return self._outcome(reply)

    def _write(self):
        """Declares what was entered, has it locked and committed, all in one write, and asks what
        became of it. Where something stood in the way, it goes on line by line."""
        keys = len(self._keys)
        two_phase = self._store.two_phase or keys > MAX_ASYNC_KEYS
        steps = [self._step("declare", "two-phase" if two_phase else "async", self._store.ttl)]
        steps += [self._step("prewrite")] * keys
        steps += [self._step("draw")] * two_phase
        steps += [self._step("commit")] * keys + [self._step("finish")]
        replies = self._store.exchange(steps)
        if replies[-1][1] == "outcome":
            return replies[-1]
        _well(steps[0], replies[0])
        self._carry(two_phase)
        return self._store.exchange([self._step("finish")])[0]

    def _enter_all(self):
        """Enters what is queued: all of it, before anything is declared."""
        for entry, reply in zip(self._queue, self._exchange(self._queue)):
            _well(self._step(*entry), reply)

    def _carry(self, two_phase):
        """Goes on line by line where something stood in the way."""
        self._each("prewrite")
        for _ in range(16):
            if two_phase:
                self._store.exchange([self._step("draw")])
            try:
                return self._each("commit")
            except CommitTsExpired:
                continue
        raise Unknown("no timestamp was high enough to commit at")

    def _each(self, word):
        """Sends what is due of a kind until nothing is."""
        for _ in range(4 * MAX_KEYS):
            if self._ask(word)[0] == "done":
                return

    def _outcome(self, reply):
        word = reply[2] if reply[1] == "outcome" else None
        if word == "committed":
            self.committed = reply[3]
            return self.committed
        if word == "read-only":
            return None
        if word == "aborted":
            raise AlreadyRolledBack(self._step("finish"), [reply[0], "E3"])
        raise Unknown(f"what became of the transaction is not known: {reply[1:]}", self._step("finish"), reply)

    def abort(self):
        """Ends it where it has not ended: nothing is written."""
        if not self._is_over:
            self._end()

    def _end(self):
        """Rolls back what may be, and ends it: what is told of its outcome."""
        self._is_over = True
        if self._session is None:
            return [0, "outcome", "read-only"]
        steps = [self._step("abort")] * len(self._keys) + [self._step("finish"), self._step("stop")]
        return self._store.exchange(steps)[-2]

    def __enter__(self):
        return self

    def __exit__(self, kind, *_):
        if self._is_over:
            return
        try:
            if kind is None:
                self.commit()
        finally:
            self.abort()
