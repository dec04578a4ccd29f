"""Sessions: what is due of a transaction, and what each answer makes of it."""


class Entry:
    """What the buffer has of a key, and how far its requests have come."""

    sent = committed = rolled = False
    accepted = None

    def __init__(self, kind, value=None):
        self.kind, self.value = kind, value


def over(kind, entry):
    """What a put, an insert or a delete of a key becomes over what the buffer has of it."""
    old = entry.kind if entry else None
    if kind == "put" and old == "insert":
        return "insert"
    return "put" if kind == "insert" and old == "delete" else kind


class Session:
    def __init__(self, start):
        self.start, self.buffer, self.terms, self.floor = start, {}, None, 0
        self.bypass, self.met, self.drawn, self.fate, self.cause = set(), None, None, None, None

    def first(self, test):
        return next((key for key, entry in self.buffer.items() if test(entry)), None)

    def unlocked(self):
        return self.first(lambda it: it.accepted is None)

    def primary(self):
        return next(iter(self.buffer))

    def is_aborted(self):
        return self.fate == ["aborted"]

    def can_draw(self):
        locked = self.terms and self.buffer and self.unlocked() is None
        return locked and not self.fate and not self.drawn and any(it.accepted == 0 for it in self.buffer.values())

    def can_commit(self):
        known = not self.is_aborted() if self.fate else self.drawn
        return self.terms and (not self.buffer or known)

    def can_abort(self):
        waits = self.terms and (self.terms[0] == "two-phase" or self.unlocked() is not None)
        return self.terms and (not self.buffer or (self.is_aborted() if self.fate else waits))

    def due_prewrite(self, store):
        key = self.unlocked()
        if key is None:
            return None
        mode, ttl, most = self.terms
        entry, others = self.buffer[key], [it for it in self.buffer if it != key]
        asks = (key, entry.kind, entry.value, self.start, self.primary(), mode, ttl, self.floor, most, others)
        return key, lambda: store.prewrite(*asks)

    def due_commit(self, store):
        key = self.first(lambda it: not it.committed) if self.fate else (self.primary() if self.buffer else None)
        commit = self.fate[1] if self.fate else self.drawn
        return None if key is None else (key, lambda: store.commit(key, self.start, commit))

    def due_abort(self, store):
        if self.fate:
            key = self.first(lambda it: it.sent and not it.rolled)
        else:
            key = None if not self.buffer else self.primary() if self.terms[0] == "two-phase" else self.unlocked()
        if key is None:
            return None
        asks = store.batch_rollback if self.fate or self.terms[0] == "two-phase" else store.check_secondary
        return key, lambda: asks(key, self.start)

    def hear(self, phase, key, came):
        """What came of a prewrite, a commit or an abort of a key."""
        entry = self.buffer[key]
        entry.sent |= phase == "prewrite"
        self.cause = {"lost": "reply", "E12": "E12", "E7": "E7"}.get(came[0])
        if came[0] == "prewritten" or (phase == "abort" and came[0] == "locked"):
            entry.accepted = came[1]
        entry.committed |= phase == "commit" and came[0] == "committed"
        entry.rolled |= phase == "abort" and came[0] in ("rolled-back", "missing")
        if came[0] == "E1":
            self.met = came.lock
        if came[0] == "E5":
            self.drawn = None
        if came[0] in ("E3", "rolled-back", "missing"):
            self.fate = self.fate or ["aborted"]
        if came[0] in ("E4", "committed"):
            self.fate = self.fate or ["committed", came[1]]
        if all(it.accepted for it in self.buffer.values()):
            self.fate = self.fate or ["committed", max(it.accepted for it in self.buffer.values())]

    def outcome(self):
        if self.fate:
            return self.fate
        if not self.terms or not self.buffer:
            return ["read-only"]
        return ["unknown", self.cause] if self.cause else None

    def passes_by(self, start, status):
        """Whether its reads may from now on pass by the transaction of which this was found."""
        lies_above = status[0] in ("pushed", "committed") and status[1] > self.start
        return (status[0] == "aborted" or lies_above) and start not in self.bypass
