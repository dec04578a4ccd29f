"""Regions: what each command answers and changes, by the case tables of docs/PROTOCOL.md."""
import copy
from bisect import bisect_right


class Answer(list):
    """The words of an answer, and the lock that it tells of."""

    lock = None


class Lock:
    """A lock record: key, kind, value, start, minimum, ttl, mode, primary and the other keys."""

    def __init__(self, **facts):
        self.__dict__.update(facts)

    def told(self, *words):
        answer = Answer(words)
        answer.lock = copy.copy(self)
        return answer

    def refuses(self, refusal):
        return self.told(refusal, self.key, self.start, self.primary, self.minimum, self.mode)

    def stands(self):
        return self.told("locked", self.minimum if self.mode == "async" else 0)

    def is_over(self, now):
        return self.start + self.ttl < now


class Record:
    """A write record: kind, start, value, and whether another transaction's rollback shares it."""

    def __init__(self, kind, start, value=None, marked=False):
        self.kind, self.start, self.value, self.marked = kind, start, value, marked

    def commits(self):
        return self.kind != "rollback"


class Region:
    safe = 0
    collected = 0


def is_apart(value):
    return value is not None and len(value.encode()) > 255


class Store:
    """The regions, the last number that was drawn and the mark of reads. A command answers its words."""

    def __init__(self, bounds):
        self.bounds, self.last, self.mark = bounds, 0, 0
        self.regions = [Region() for _ in range(len(bounds) + 1)]
        self.locks, self.records = {}, {}

    def draw(self, ticks):
        self.last += ticks
        return self.last

    def number(self, key):
        return bisect_right(self.bounds, key)

    def region(self, key):
        return self.regions[self.number(key)]

    def keys(self, number):
        return sorted(key for key in {*self.locks, *self.records} if self.number(key) == number)

    def read_refusal(self, region, at):
        if at < region.safe:
            return Answer(["E7", region.safe])
        return Answer(["E8", self.last]) if at > self.last else None

    def in_the_way(self, key, at, bypass):
        lock = self.locks.get(key)
        blocks = lock and lock.kind != "lock" and lock.minimum <= at and lock.start not in bypass
        return lock if blocks else None

    def found(self, key, at):
        """What a read of a key at a timestamp finds, or None."""
        stand = {n: it for n, it in self.records.get(key, {}).items() if n <= at and it.kind in ("put", "delete")}
        return stand[max(stand)].value if stand else None

    def get(self, key, at, bypass):
        refusal = self.read_refusal(self.region(key), at)
        if refusal:
            return refusal
        self.mark = max(self.mark, at)
        lock, value = self.in_the_way(key, at, bypass), self.found(key, at)
        if lock:
            return lock.refuses("E1")
        return Answer(["none"] if value is None else ["value", value])

    def scan(self, low, high, at, limit, bypass):
        number = self.number(low)
        refusal = self.read_refusal(self.regions[number], at)
        if refusal:
            return refusal
        self.mark, rows = max(self.mark, at), []
        for key in self.keys(number):
            if not low <= key < high or len(rows) == limit:
                continue
            if self.in_the_way(key, at, bypass):
                return self.locks[key].refuses("E1")
            if self.found(key, at) is not None:
                rows.append([key, self.found(key, at)])
        return Answer(["rows", rows])

    def own_record(self, key, start):
        """What the transaction left on a key: (`E3`, None) for a rollback, (`E4`, commit), or None."""
        at_start = self.records.get(key, {}).get(start)
        if at_start and (at_start.marked or not at_start.commits()):
            return "E3", None
        for number, record in self.records.get(key, {}).items():
            if record.commits() and record.start == start:
                return "E4", number
        return None

    def own_lock(self, key, start):
        lock = self.locks.get(key)
        return lock if lock and lock.start == start else None

    def prewrite(self, key, kind, value, start, primary, mode, ttl, floor, most, others):
        refusal = self.read_refusal(self.region(key), start)
        own, left = self.own_lock(key, start), self.own_record(key, start)
        if refusal:
            return refusal
        if own:
            return Answer(["prewritten", own.minimum if own.mode == "async" else 0])
        if left:
            return Answer(left if left[0] == "E4" else ["E3"])
        if key in self.locks:
            return self.locks[key].refuses("E1")
        newer = [n for n, it in self.records.get(key, {}).items() if n > start and it.commits()]
        if newer:
            return Answer(["E2", self.records[key][max(newer)].start, max(newer)])
        if kind == "insert":
            self.mark, kind = max(self.mark, start), "put"
            if self.found(key, start) is not None:
                return Answer(["E17"])
        least = max(self.mark + 1, start + 1, floor)
        is_async = mode == "async" and least <= most
        self.locks[key] = Lock(
            key=key, kind=kind, value=value, start=start, primary=primary, ttl=ttl,
            minimum=least if is_async else start + 1,
            mode="async" if is_async else "two-phase", others=others if is_async else [],
        )
        return Answer(["prewritten", least if is_async else 0])

    def late(self, key, start):
        collected = self.region(key).collected
        return Answer(["E7", collected]) if start < collected else None

    def leave_rollback(self, key, start):
        records = self.records.setdefault(key, {})
        if start in records and records[start].commits():
            records[start].marked = True
        else:
            records[start] = Record("rollback", start)

    def roll_back(self, key, start):
        del self.locks[key]
        self.leave_rollback(key, start)
        return Answer(["rolled-back"])

    def settle(self, key, commit, done):
        """The first three cases of a commit, whose lock stands."""
        lock, there = self.locks[key], self.records.get(key, {}).get(commit)
        if commit < lock.minimum:
            return Answer(["E5", lock.minimum])
        if there and there.commits():
            return Answer(["E2", there.start, commit])
        del self.locks[key]
        self.records.setdefault(key, {})[commit] = Record(lock.kind, lock.start, lock.value, there is not None)
        return Answer(done)

    def commit(self, key, start, commit):
        left = self.own_record(key, start)
        if self.late(key, start):
            return self.late(key, start)
        if self.own_lock(key, start):
            return self.settle(key, commit, ["committed", commit])
        if left:
            return Answer(["committed", left[1]] if left[0] == "E4" else ["E3"])
        return Answer(["E6"])

    def batch_rollback(self, key, start):
        left = self.own_record(key, start)
        if self.late(key, start):
            return self.late(key, start)
        if self.own_lock(key, start):
            return self.roll_back(key, start)
        if left:
            return Answer(left if left[0] == "E4" else ["rolled-back"])
        self.leave_rollback(key, start)
        return Answer(["rolled-back"])

    def heartbeat(self, key, start, ttl):
        lock = self.own_lock(key, start)
        if self.late(key, start):
            return self.late(key, start)
        if not lock:
            return Answer(["E6"])
        lock.ttl = max(lock.ttl, ttl)
        return Answer(["ttl", lock.ttl])

    def check_status(self, key, start, caller, now, leaves, forced):
        lock, left = self.own_lock(key, start), self.own_record(key, start)
        if self.late(key, start):
            return self.late(key, start)
        if caller > self.last:
            return Answer(["E8", self.last])
        if lock and (forced or lock.mode != "async"):
            if lock.is_over(now):
                return self.roll_back(key, start)
            lock.minimum = max(lock.minimum, caller + 1)
        if lock:
            return lock.stands()
        if left:
            return Answer(["committed", left[1]] if left[0] == "E4" else ["rolled-back"])
        if not leaves:
            return Answer(["E10"])
        self.leave_rollback(key, start)
        return Answer(["rolled-back"])

    def check_secondary(self, key, start):
        left = self.own_record(key, start)
        if self.late(key, start):
            return self.late(key, start)
        if self.own_lock(key, start):
            return self.locks[key].stands()
        if left and left[0] == "E4":
            return Answer(["committed", left[1]])
        if not left:
            self.leave_rollback(key, start)
        return Answer(["missing"])

    def resolve_lock(self, key, start, fate):
        if self.late(key, start):
            return self.late(key, start)
        if not self.own_lock(key, start):
            return Answer(["resolved"])
        if fate[0] == "committed":
            return self.settle(key, fate[1], ["resolved"])
        self.roll_back(key, start)
        return Answer(["resolved"])

    def raise_safe(self, number, safe):
        region = self.regions[number]
        if safe > self.last:
            return Answer(["E8", self.last])
        if safe < region.safe:
            return Answer(["E7", region.safe])
        region.safe = safe
        return Answer(["raised"])

    def locks_below(self, number, safe):
        locks = [self.locks[key] for key in self.keys(number) if key in self.locks]
        return [copy.copy(lock) for lock in locks if lock.start < safe]

    def collect(self, number, safe):
        region, dropped, values = self.regions[number], 0, 0
        if safe != region.safe:
            return Answer(["E7", region.safe])
        for lock in self.locks_below(number, safe):
            return lock.refuses("E9")
        for key in self.keys(number):
            records = self.records.get(key, {})
            values_at = [n for n, it in records.items() if n <= safe and it.kind in ("put", "delete")]
            kept = max(values_at) if values_at and records[max(values_at)].kind == "put" else None
            for old in [n for n in records if n < safe and n != kept]:
                values += is_apart(records.pop(old).value)
                dropped += 1
        region.collected = safe
        return Answer(["collected", dropped, values])

    def versions(self, key):
        lock, records = self.locks.get(key), self.records.get(key, {})
        newest_first = sorted(records.items(), reverse=True)
        shown = [[n, it.kind, it.start, *["marked"] * it.marked] for n, it in newest_first]
        held = [(it.start, it.value) for it in [*records.values(), *([lock] if lock else [])]]
        apart = sorted((start for start, value in held if is_apart(value)), reverse=True)
        said = [lock.kind, lock.start, lock.minimum, lock.mode] if lock else None
        return Answer(["versions", said, shown, apart])
