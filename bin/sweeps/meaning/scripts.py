"""Scripts: the replies to their steps, where one growth may be refused."""
import json

from sweeps.meaning.regions import Answer, Store
from sweeps.meaning.sessions import Entry, Session, over

ENDLESS = 2**64 - 1
TICKS = 2**32


class Fault(Exception):
    """A fault that ends the script, with its cause."""


def fits(text, most):
    return 1 <= len(text.encode()) <= most


class Play:
    """A script on its way. `refused` is the gate that is refused: the number of its step, and its own there."""

    def __init__(self, bounds, refused=None):
        self.store, self.refused = Store(bounds), refused
        self.live, self.held, self.left = {}, {}, TICKS
        self.number, self.passed = 0, 0

    def short(self):
        """A growth: whether it is refused."""
        self.passed += 1
        return (self.number, self.passed) == self.refused

    def take(self, call):
        return Answer(["E12"]) if self.short() else call()

    def send(self, way, call):
        word = way[0] if way else None
        if word == "hold":
            if self.short():
                return Answer(["E12"])
            self.held[way[1]] = call
        if word == "lose-reply":
            self.take(call)
        if word == "repeat":
            if self.short():
                return Answer(["E12"])
            self.take(call)
        return Answer(["lost"]) if word in ("lose", "lose-reply", "hold") else self.take(call)

    # -- what a session does

    def enter(self, session, kind, key, value=None):
        entry = session.buffer.get(key)
        if session.terms:
            raise Fault("order")
        if not fits(key, 512):
            return ["E13"]
        if value is not None and len(value.encode()) > 65536:
            return ["E14"]
        if not entry and len(session.buffer) == 1024:
            return ["E15"]
        if kind == "insert" and entry and entry.kind in ("put", "insert"):
            return ["E17"]
        if self.short():
            return ["E12"]
        if kind != "lock" or not entry:
            session.buffer[key] = Entry(over(kind, entry), value)
        return ["ok"]

    def declare(self, session, mode, ttl, most=ENDLESS):
        if session.terms:
            raise Fault("order")
        if mode == "async" and len(session.buffer) > 256:
            return ["E15"]
        session.terms = (mode, ttl, most)
        session.floor = self.store.draw(1) + 1 if session.buffer else 0
        return ["ok"]

    def get(self, session, key, way):
        entry = session.buffer.get(key)
        if not fits(key, 512):
            return ["E13"]
        if self.short():
            return ["E12"]
        if entry and entry.kind != "lock":
            return ["none"] if entry.kind == "delete" else ["value", entry.value]
        bypass = set(session.bypass)
        came = self.send(way, lambda: self.store.get(key, session.start, bypass))
        session.met = came.lock or session.met
        return came

    def scan(self, session, low, high, limit, way):
        rows, bypass, bounds = [], set(session.bypass), ["", *self.store.bounds, None]
        if not (fits(low, 512) and fits(high, 512)):
            return ["E13"]
        if self.short():
            return ["E12"]
        for floor, ceiling in zip(bounds, bounds[1:]):
            begin, end, wanted = max(low, floor), high if ceiling is None else min(high, ceiling), limit - len(rows)
            if begin >= end or not wanted:
                continue
            came = self.send(way, lambda a=begin, b=end, n=wanted: self.store.scan(a, b, session.start, n, bypass))
            session.met = came.lock or session.met
            if came[0] != "rows":
                return came
            rows += came[1]
        return ["rows", rows]

    def send_due(self, session, phase, may, due, way):
        if not may:
            raise Fault("order")
        if due is None:
            return ["done"]
        if self.short():
            return ["E12"]
        came = self.send(way, due[1])
        session.hear(phase, due[0], came)
        return came

    def beat(self, session, ttl, way):
        if not (session.terms and session.buffer):
            raise Fault("order")
        if self.short():
            return ["E12"]
        return self.send(way, lambda: self.store.heartbeat(session.primary(), session.start, ttl))

    def sends(self, session, word, words):
        """Whether a step sends a request."""
        if word == "get":
            return session.buffer.get(words[0], Entry("lock")).kind == "lock"
        if word == "scan":
            return words[0] < words[1]
        if word == "heartbeat":
            return session.terms and session.buffer
        may = {"prewrite": session.terms, "commit": session.can_commit(), "abort": session.can_abort()}[word]
        return may and getattr(session, f"due_{word}")(self.store)

    def act(self, session, word, words):
        arity = {"get": 1, "scan": 3, "prewrite": 0, "commit": 0, "abort": 0, "heartbeat": 1}.get(word, len(words))
        words, way = words[:arity], words[arity:]
        if way[:1] == ["hold"] and (not fits(way[1], 64) or way[1] in self.held):
            raise Fault("name")
        if way[:1] == ["hold"] and len(self.held) == 1024 and self.sends(session, word, words):
            raise Fault("sessions")
        if word in ("put", "insert", "delete", "lock"):
            return self.enter(session, word, *words)
        if word == "declare":
            return self.declare(session, *words)
        if word == "draw":
            if not session.can_draw():
                raise Fault("order")
            session.drawn = self.store.draw(1)
            return ["drawn", session.drawn]
        if word == "heartbeat":
            return self.beat(session, *words, way)
        if word in ("get", "scan"):
            return getattr(self, word)(session, *words, way)
        may = {"prewrite": session.terms, "commit": session.can_commit(), "abort": session.can_abort()}[word]
        return self.send_due(session, word, may, may and getattr(session, f"due_{word}")(self.store), way)

    # -- the resolver and the collector

    def settle(self, met, fate):
        came = self.take(lambda: self.store.resolve_lock(met.key, met.start, fate))
        return fate if came[0] == "resolved" else ["waiting", came[0] if came[0] in ("E7", "E12") else "live"]

    def ask_primary(self, met, caller, now, forced):
        asks = (met.primary, met.start, caller, now, met.is_over(now), forced)
        return self.take(lambda: self.store.check_status(*asks))

    def by_primary(self, met, came, caller):
        """What the answer of a primary decides, or None where the other keys are asked."""
        if came[0] in ("committed", "rolled-back"):
            return self.settle(met, ["committed", came[1]] if came[0] == "committed" else ["aborted"])
        if came[0] == "locked" and caller and came.lock.minimum > caller:
            return ["pushed", came.lock.minimum]
        if came[0] == "locked":
            return None
        return ["waiting", {"E10": "not-found", "E7": "E7", "E12": "E12"}.get(came[0], "live")]

    def found_by_others(self, met, lock, caller, now):
        least = lock.minimum
        for key in lock.others:
            came = self.take(lambda k=key: self.store.check_secondary(k, met.start))
            if came[0] == "locked" and came.lock.mode == "async":
                least = max(least, came.lock.minimum)
            elif came[0] == "locked":
                return self.by_primary(met, self.ask_primary(met, caller, now, True), caller) or ["waiting", "live"]
            elif came[0] in ("committed", "missing"):
                return self.settle(met, ["committed", came[1]] if came[0] == "committed" else ["aborted"])
            else:
                return ["waiting", came[0] if came[0] in ("E7", "E12") else "live"]
        return self.settle(met, ["committed", least])

    def walk(self, met, caller, now):
        """What became of the transaction of a lock; a collector's caller is 0."""
        came = self.ask_primary(met, caller, now, False)
        status = self.by_primary(met, came, caller)
        if status:
            return status
        if came.lock.mode == "async" and came.lock.is_over(now):
            return self.found_by_others(met, came.lock, caller, now)
        return ["waiting", "live"]

    def resolve(self, session, now):
        met = session.met
        if not met:
            raise Fault("order")
        status = self.walk(met, session.start, now)
        if session.passes_by(met.start, status):
            if self.short():
                return ["status", "waiting", "E12"]
            session.bypass.add(met.start)
        return ["status", *status]

    def gc(self, safe):
        numbers, records, values = range(len(self.store.regions)), 0, 0
        for number in numbers:
            came = self.store.raise_safe(number, safe)
            if came[0] != "raised":
                return came
        for number in numbers:
            if self.short():
                return ["E12"]
            for lock in self.store.locks_below(number, safe):
                self.walk(lock, 0, ENDLESS)
        for number in numbers:
            came = self.take(lambda n=number: self.store.collect(n, safe))
            if came[0] != "collected":
                return came
            records, values = records + came[1], values + came[2]
        return ["collected", records, values]

    # -- the steps

    def begin(self, name):
        if not fits(name, 64) or name in self.live:
            raise Fault("name")
        if len(self.live) == 256:
            raise Fault("sessions")
        if self.short():
            return ["E12"]
        self.live[name] = Session(self.store.draw(1))
        return ["start", self.live[name].start]

    def end(self, name, outcome):
        if outcome is None:
            raise Fault("order")
        del self.live[name]
        return outcome

    def tick(self, ticks):
        if ticks > self.left:
            return ["E11"]
        self.left -= ticks
        return ["last", self.store.draw(ticks)]

    def show(self, key, call):
        if not fits(key, 512):
            return ["E13"]
        return ["E12"] if self.short() else call()

    def step(self, word, *words):
        if word == "begin":
            return self.begin(*words)
        if word in ("tick", "gc"):
            return getattr(self, word)(*words)
        if word == "read":
            return self.show(words[0], lambda: self.take(lambda: self.store.get(*words, set())))
        if word == "versions":
            return self.show(words[0], lambda: self.store.versions(words[0]))
        if words[0] not in (self.held if word == "deliver" else self.live):
            raise Fault("name")
        if word == "deliver":
            return ["E12"] if self.short() else self.take(self.held[words[0]])
        session = self.live[words[0]]
        if word == "finish":
            return self.end(words[0], session.outcome() and ["outcome", *session.outcome()])
        if word == "stop":
            return self.end(words[0], ["ok"])
        if word == "resolve":
            return self.resolve(session, words[1])
        return self.act(session, word, list(words[1:]))

    def reply(self, step):
        self.number, self.passed = self.number + 1, 0
        if self.number == 1 and step[0] == "regions":
            return ["regions", len(self.store.regions)]
        return self.step(*step)


def play(steps, refused=None):
    """The lines that a script gets, and how many gates each step has."""
    play = Play(steps[0][1] if steps and steps[0][0] == "regions" else [], refused)
    lines, gates = [], []
    for step in steps:
        fault = None
        try:
            words = play.reply(step)
        except Fault as found:
            fault = found
            words = ["E16", str(found)]
        lines.append(json.dumps([play.number, *words], ensure_ascii=False, separators=(",", ":")).encode())
        gates.append(play.passed)
        if fault:
            break
    return lines, gates


def lines(steps):
    return play(steps)[0]


def refused(steps):
    """By step and gate, the lines where that gate is refused."""
    gates = play(steps)[1]
    return {(n + 1, g): play(steps, (n + 1, g))[0] for n, count in enumerate(gates) for g in range(1, count + 1)}
