"""A store of keys and values in this process, over the library that include/txkv_store.h declares.

    with Store() as store:
        store.client().update(lambda tx: tx.put(b"hello", b"world"))

Keys and values are bytes. `library` is the file, else the one that TXKV_STORE_LIB names. A store has
clients, each with one transaction at a time, and any number of threads may use them: a lock orders
the calls of a store.
"""
import ctypes
import os
import threading

DONE, ABSENT, READ_ONLY, UNKNOWN, BUSY, NO_TRANSACTION, MISUSED = range(7)
WAITS, CONFLICT, ROLLED_BACK, EXISTS, BELOW_SAFE_POINT, LOST = range(10, 16)
MEMORY, KEY_LENGTH, VALUE_LENGTH, TOO_MANY_KEYS, SPENT, REFUSED = range(20, 26)

_BEGIN, _GET, _PUT, _INSERT, _DELETE, _LOCK, _NEXT, _COMMIT, _ABORT = range(1, 10)

_NO_MEMORY = 2**64 - 1

# What may go well in a transaction that begins later.
_PASSES = (WAITS, CONFLICT, ROLLED_BACK, BELOW_SAFE_POINT, LOST)


class Refused(Exception):
    """What is said of a request that is not done: its code, and the key that is in the way."""

    def __init__(self, code, key=b""):
        super().__init__(f"code {code}" + (f" by {key!r}" if key else ""))
        self.code, self.key = code, key


class Store:
    """A store for so many clients."""

    def __init__(self, clients=64, library=None):
        library = library or os.environ.get("TXKV_STORE_LIB")
        if not library:
            raise ValueError("no library: name it by `library` or by TXKV_STORE_LIB")
        found = ctypes.CDLL(os.path.abspath(library))
        at, text, size = ctypes.c_void_p, ctypes.c_char_p, ctypes.c_size_t
        for name, takes, gives in (
            ("open", [text, size, ctypes.POINTER(at)], ctypes.c_uint32),
            ("call", [at, text, size], ctypes.c_uint32),
            ("answer", [at, text, size], ctypes.c_uint64),
            ("close", [at], None),
        ):
            function = getattr(found, f"txkv_store_{name}")
            function.argtypes, function.restype = takes, gives
        self._call, self._answer, self._close = found.txkv_store_call, found.txkv_store_answer, found.txkv_store_close
        self._at, self._turn = at(), threading.Lock()
        self._room = ctypes.create_string_buffer(4096)
        self._free, self._clients = list(range(clients))[::-1], clients
        options = clients.to_bytes(2, "little") if clients < 65536 else b""
        if found.txkv_store_open(options, len(options), ctypes.byref(self._at)) != 1:
            raise MemoryError("no store: memory was refused, or there are too many clients")

    def __enter__(self):
        return self

    def __exit__(self, *_):
        self.close()

    def close(self):
        """The end of the store."""
        with self._turn:
            at, self._at = self._at, None
            if at:
                self._close(at)

    def client(self):
        """A client that nobody else has, until it is given back."""
        with self._turn:
            if not self._free:
                raise Refused(MISUSED)
            return Client(self, self._free.pop())

    def _give_back(self, number):
        with self._turn:
            self._free.append(number)

    def _told(self):
        told = self._answer(self._at, self._room, len(self._room))
        if len(self._room) < told < _NO_MEMORY:
            self._room = ctypes.create_string_buffer(told)
            told = self._answer(self._at, self._room, len(self._room))
        if told == _NO_MEMORY:
            raise MemoryError("memory was refused")
        return self._room.raw[:told]

    def _ask(self, client, op, key=b"", value=b""):
        if len(key) > 512:
            raise Refused(KEY_LENGTH)
        request = bytes((op,)) + client.to_bytes(2, "little") + len(key).to_bytes(2, "little") + key + value
        with self._turn:
            if not self._at:
                raise Refused(MISUSED)
            code = self._call(self._at, request, len(request))
            if code in (ABSENT, READ_ONLY):
                return None
            if code == DONE and op in (_GET, _NEXT, _COMMIT):
                return self._told()
            if code == DONE:
                return b""
            raise Refused(code, self._told() if code in (WAITS, CONFLICT, EXISTS) else b"")


class Client:
    """Who runs transactions, one after another."""

    def __init__(self, store, number):
        self._store, self.number = store, number

    def __enter__(self):
        return self

    def __exit__(self, *_):
        self.give_back()

    def give_back(self):
        """Others may have it then."""
        store, self._store = self._store, None
        if store:
            store._give_back(self.number)

    def begin(self):
        """A transaction, which reads as the store is now."""
        self._store._ask(self.number, _BEGIN)
        return Transaction(self._store, self.number)

    def update(self, work, again=1_000_000):
        """What a work answers in a transaction that is committed; it is done anew where another came
        first, so often at most."""
        while True:
            tx = self.begin()
            try:
                done = work(tx)
                tx.commit()
                return done
            except Refused as refused:
                if refused.code not in _PASSES or again == 0:
                    raise
                again -= 1
            finally:
                tx.leave()


class Transaction:
    """A transaction that is open, over as many calls as it takes."""

    def __init__(self, store, client):
        self._store, self._client = store, client

    def _ask(self, op, key=b"", value=b""):
        if self._store is None:
            raise Refused(NO_TRANSACTION)
        return self._store._ask(self._client, op, key, value)

    def get(self, key):
        """The value of a key, or None."""
        return self._ask(_GET, key)

    def put(self, key, value):
        self._ask(_PUT, key, value)

    def insert(self, key, value):
        """A put of a key that is to have no value."""
        self._ask(_INSERT, key, value)

    def delete(self, key):
        self._ask(_DELETE, key)

    def lock(self, key):
        """The key is not to change before the commit."""
        self._ask(_LOCK, key)

    def rows(self, first=b"\0", end=b"\xff" * 512):
        """The rows from a key up to but not including another, as the store was at the begin."""
        while len(first) <= 512:
            row = self._ask(_NEXT, first, end)
            if row is None:
                return
            length = 2 + int.from_bytes(row[:2], "little")
            key = row[2:length]
            yield key, row[length:]
            first = key + b"\0"

    def commit(self):
        """Its commit timestamp; None where nothing was to be written. It has ended then."""
        store, self._store = self._store, None
        if store is None:
            raise Refused(NO_TRANSACTION)
        at = store._ask(self._client, _COMMIT)
        return None if at is None else int.from_bytes(at, "little")

    def leave(self):
        """Nothing of it is written, where it has not ended."""
        store, self._store = self._store, None
        if store is not None:
            store._ask(self._client, _ABORT)
