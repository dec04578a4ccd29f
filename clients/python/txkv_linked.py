"""The same store in this process: a `Store` of txkv.py over the library that include/txkv.h declares.

    with Store(library="libtxkv.so") as store:
        store.update(lambda tx: tx.put("hello", "world"))

`library` is the file, else the one that TXKV_LIB names. All else is as in txkv.py: transactions,
snapshots, ranges, errors, lines, and threads that share a store. `Lines` is the library alone: a
line, its reply.
"""
import ctypes
import json
import os

import txkv

_OPEN, _FAULT = 1, 2


def _functions(library):
    """The four functions of the library, as include/txkv.h declares them."""
    found = ctypes.CDLL(os.path.abspath(library))
    store, text, size = ctypes.c_void_p, ctypes.c_char_p, ctypes.c_size_t
    for name, takes, gives in (
        ("open", [text, size, ctypes.POINTER(store)], ctypes.c_uint32),
        ("play", [store, text, size], ctypes.c_bool),
        ("reply", [store, text, size], ctypes.c_uint64),
        ("close", [store], None),
    ):
        function = getattr(found, f"txkv_lines_{name}")
        function.argtypes, function.restype = takes, gives
    return found.txkv_lines_open, found.txkv_lines_play, found.txkv_lines_reply, found.txkv_lines_close


class Lines:
    """A store that plays lines, opened by its first line: one call at a time has it."""

    def __init__(self, first, library=None):
        library = library or os.environ.get("TXKV_LIB")
        if not library:
            raise txkv.Closed("no library: name it by `library` or by TXKV_LIB")
        open_, self._play, self._reply, self._close = _functions(library)
        self._room, at = ctypes.create_string_buffer(4096), ctypes.c_void_p()
        how = open_(first, len(first), ctypes.byref(at))
        if how != _OPEN:
            raise txkv.Closed("the first line is a fault" if how == _FAULT else "memory was refused")
        self._at = at

    def reply(self):
        """The reply to the last line, without its newline."""
        told = self._reply(self._at, self._room, len(self._room))
        while told > len(self._room):
            self._room = ctypes.create_string_buffer(told)
            told = self._reply(self._at, self._room, told)
        if told == 0:
            raise MemoryError("memory was refused")
        return ctypes.string_at(self._room, told - 1)

    def ask(self, line):
        """Plays a line: its reply."""
        if not self._play(self._at, line, len(line)):
            raise MemoryError("memory was refused")
        return self.reply()

    def close(self):
        """Closes the store: what it held is gone."""
        at, self._at = self._at, None
        if at:
            self._close(at)

    def __del__(self):
        if getattr(self, "_at", None):
            self.close()


class Store(txkv.Store):
    """A store in memory, in this process. `bounds`, `two_phase` and `ttl` are as in txkv.py."""

    def __init__(self, bounds=(), library=None, two_phase=False, ttl=1):
        self._prepare(two_phase, ttl)
        self._held = Lines(txkv.line_of(["regions", list(bounds)] if bounds else ["tick", 1]).encode(), library)
        self.lines = 1

    def exchange(self, steps):
        """Asks these steps: their replies, each with the number of its line in front."""
        lines = [txkv.line_of(step).encode() for step in steps]
        with self._turn:
            if self._held is None:
                raise txkv.Closed("the store is closed")
            told = [self._held.ask(line) for line in lines]
            self.lines += len(lines)
        return json.loads(b"[" + b",".join(told) + b"]")

    def close(self):
        """Closes the store: what it held is gone."""
        with self._turn:
            held, self._held = self._held, None
        if held:
            held.close()
