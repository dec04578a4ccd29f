"""Pictures of generated scripts: each sign stands for something that happened, all that happened has its sign, and the
caption tells of the signs that are there, and of no others.

What happened is found by bin/sweeps/meaning, from the case tables; the signs are read off the drawing by where they
stand: a row by how far down, a key by its line.
"""
import collections
import json
import re
import xml.etree.ElementTree as ElementTree

from sweeps.meaning.regions import Store
from sweeps.meaning.scripts import Play
from sweeps.running import run, run_all, tell
from sweeps.shown import lines_of

SCRIPTS, STEPS = 2000, 40
TOP, ROW = 90, 32
NAMES = {"put": 0, "insert": 0, "delete": 0, "lock": 0, "get": 1, "read": 0, "versions": 0}
KEYED = ("get", "prewrite", "commit", "batch_rollback", "heartbeat", "check_status", "check_secondary", "resolve_lock")
SVG = "{http://www.w3.org/2000/svg}"
# What the caption says of a sign.
CAPTION = {
    "step": "a step, and its reply",
    "refused": "refused, and why",
    "ends": "a session ends",
    "arrow": "a request that a region took",
    "twice": "taken twice",
    "beyond": "taken, but at no key of these",
    "lost": "lost on its way",
    "reply lost": "taken, and its reply lost",
    "held": "held under that name, delivered where its line ends",
    "two-phase": "a lock of two phases",
    "async": "a lock of an async commit",
    "cross": "a step met that lock",
    "commit": "a commit: its start and its number",
    "rollback": "a rollback",
    "reads": "a read",
}


class Recorder(Store):
    """A store that notes each request that it takes: the command, its key or range, its answer."""

    def __init__(self, bounds):
        super().__init__(bounds)
        self.taken = []


def noting(name):
    call = getattr(Store, name)

    def noted(self, *words):
        answer = call(self, *words)
        self.taken.append((name, words, answer))
        return answer
    return noted


for command in (*KEYED, "scan", "collect"):
    setattr(Recorder, command, noting(command))


def key_of(step):
    """The key that a step names, or None."""
    word, *words = step
    if word in ("read", "versions"):
        return words[0]
    return words[1] if word in NAMES else None


def shown(text):
    """A value as a picture shows it."""
    is_plain = text and all("!" <= c <= "~" for c in text)
    whole = text if is_plain else json.dumps(text, ensure_ascii=False)
    return whole if len(whole) <= 24 else f"{whole[:18]}..+{len(text.encode())}"


def record_words(at, kind, start, marked):
    said = {"put": "put", "delete": "delete", "lock": "lock", "rollback": "rolled back"}[kind]
    words = f"{said} {at}" if kind == "rollback" else f"{said} of {start} at {at}"
    return words + "*" * bool(marked)


class Picture:
    """The signs that the picture of a script has to have."""

    def __init__(self, steps):
        self.signs, self.kinds = collections.Counter(), {"step"}
        bounds = steps[0][1] if steps[0][0] == "regions" else []
        self.play = Play(bounds)
        self.play.store = Recorder(bounds)
        self.keys = sorted({key_of(s) for s in steps if key_of(s)}, key=str.encode)
        self.bars, self.stand = {}, {key: (None, set()) for key in self.keys}
        self.values = {}
        self.last = len(steps)
        for place, step in enumerate(steps):
            self.line(place, step)
        for key, (row, kind) in self.bars.items():
            self.signs["bar", key, row, None, kind] += 1
        self.kinds |= {sign[0] for sign in self.signs} | {sign[-1] for sign in self.signs if sign[0] in ("bar", "mark")}
        for kind in self.kinds & set(CAPTION):
            self.signs["caption", CAPTION[kind]] = 1

    def line(self, place, step):
        self.play.store.taken = []
        reply = self.play.reply(step)
        taken = self.play.store.taken
        self.way(place, step, reply, taken)
        arrows = [it for took in taken for it in self.arrows(place, took)]
        changed = self.changes(place, len({key for key, _ in arrows}))
        for key in changed:
            if key not in {it for it, _ in arrows}:
                arrows.append((key, False))
        self.kinds |= {"refused"} if reply[0][0] == "E" else set()
        self.kinds |= {"twice"} if step[-1] == "repeat" and taken else set()
        self.kinds |= {"beyond"} if not arrows and any(it[0] in (*KEYED, "scan") for it in taken) else set()
        for key, meets in arrows:
            self.signs["arrow", place, key] = 2 if step[-1] == "repeat" and taken else 1
            if meets:
                self.signs["cross", place, key] = 1
        if step[0] in ("finish", "stop"):
            self.signs["ends", place] += 1

    def way(self, place, step, reply, taken):
        """What became of the request of a step by its delivery, where it sent one."""
        arity = {"get": 3, "scan": 5, "prewrite": 2, "commit": 2, "abort": 2, "heartbeat": 3}.get(step[0])
        way = step[arity:] if arity else []
        if reply == ["lost"] and way[0] == "lose":
            self.signs["lost", place] += 1
        if reply == ["lost"] and way[0] == "lose-reply":
            assert taken
            self.signs["reply lost", place] += 1
        if reply == ["lost"] and way[0] == "hold":
            self.signs["held", place, shown(way[1])] += 1

    def arrows(self, place, took):
        """Where a request went that was taken, with whether it met a lock; what was read there has its circle."""
        name, words, answer = took
        if name == "collect":
            return []
        if name != "scan":
            if words[0] not in self.stand:
                return []
            if name == "get" and answer[0] in ("value", "none"):
                found = shown(answer[1]) if answer[0] == "value" else "none"
                self.signs["reads", place, words[0], found] = 1
            if name == "prewrite":
                self.values[words[0], words[3]] = words[2]
            return [(words[0], answer[0] == "E1")]
        low, high, _, limit, _ = words
        if answer[0] == "E1":
            return [(answer[1], True)]
        if answer[0] != "rows":
            return []
        rows = dict(answer[1])
        last = max(rows, key=str.encode) if len(rows) == limit else None
        reached = [k for k in self.keys if low <= k < high and (last is None or k <= last)]
        for key in reached:
            self.signs["reads", place, key, shown(rows[key]) if key in rows else "none"] = 1
        return [(key, False) for key in reached]

    def changes(self, place, count):
        """What stands on keys that did not, and what does no more: the keys that changed."""
        changed = []
        for key in self.keys:
            _, lock, records, _ = self.play.store.versions(key)
            records = {tuple(it[:3]) + (len(it) > 3,) for it in records}
            old_lock, old = self.stand[key]
            head = lock and tuple(lock)
            if head != old_lock or records != old:
                changed.append(key)
            if head != old_lock:
                self.bar(place, key, head)
            came = sorted(records - set(old), reverse=True)
            if came:
                self.signs["mark", place, key, "rollback" if came[0][1] == "rollback" else "commit"] += 1
            for record in came:
                self.signs["record", place, key, record_words(*record)] += 1
            if set(old) - records and not came:
                self.signs["record", place, key, f"{len(set(old) - records)} dropped"] += 1
            self.stand[key] = (head, records)
        return changed

    def bar(self, place, key, head):
        if key in self.bars:
            row, kind = self.bars.pop(key)
            self.signs["bar", key, row, place, kind] += 1
        if head:
            kind, start, least, mode = head
            self.bars[key] = (place, mode)
            value = self.values.get((key, start))
            value = f" {shown(value)}" if value is not None else ""
            words = f"{kind}{value} by {start}" + (f", min {least}" if least else "")
            self.signs["lock", place, key, words] += 1


def row_of(y):
    """The row that is so far down, where one is."""
    place, rest = divmod(round(float(y)) - TOP, ROW)
    return place if rest == 0 else None


def signs_of(svg):
    """The signs of a drawing."""
    signs, root = collections.Counter(), ElementTree.fromstring(svg)
    columns = {int(e.get("x")): e.text for e in root.iter(f"{SVG}text") if e.get("class") == "key"}
    bottom = TOP + ROW * sum(e.get("class") == "number" for e in root) - 6
    for e in root.iter(f"{SVG}text"):
        if e.get("class") == "sign":
            signs["caption", e.text] += 1
    for e in root:
        kind, tag = e.get("class"), e.tag.replace(SVG, "")
        if tag == "line" and kind == "sent" and int(e.get("x2")) + 6 in columns:
            y = int(e.get("y2"))
            signs["arrow", row_of(y) if row_of(y) is not None else row_of(y - 4), columns[int(e.get("x2")) + 6]] += 1
        if tag == "line" and kind == "ends":
            signs["ends", row_of(int(e.get("y1")) - 9)] += 1
        if tag == "rect" and kind in ("async", "two-phase"):
            y, end = int(e.get("y")), int(e.get("y")) + int(e.get("height")) + 1
            last = None if end == bottom else row_of(end)
            signs["bar", columns[int(e.get("x")) + 4], row_of(y), last, kind] += 1
        if tag == "path" and kind in ("commit", "rollback", "cross"):
            x, y = map(int, re.match(r"M(\d+) (\d+)", e.get("d")).groups())
            if kind != "cross":
                signs["mark", row_of(y + 6), columns[x], kind] += 1
            elif x + 4 in columns:
                signs["cross", row_of(y + 4), columns[x + 4]] = 1
        if tag == "text" and kind == "seen":
            word_of(signs, columns, e)
    boxes = [e for e in root if e.get("class") == "held"]
    for e in boxes:
        name = next(t.text for t in root.iter(f"{SVG}text") if t.get("class") == "seen"
                    and int(t.get("x")) == int(e.get("x")) + 6 and int(t.get("y")) == int(e.get("y")) + 11)
        signs["held", row_of(int(e.get("y")) + 3), name] += 1
    circles = collections.Counter((row_of(e.get("cy")), columns[int(e.get("cx"))]) for e in root
                                  if e.get("class") == "read")
    read = collections.Counter((s[1], s[2]) for s in signs if s[0] == "reads")
    if circles != read:
        signs["circles apart from words", str(circles - read), str(read - circles)] += 1
    return signs


def word_of(signs, columns, e):
    """Words beside a key, or beside a step."""
    x, y, text = int(e.get("x")), int(e.get("y")), e.text or ""
    place = (y - 3 - TOP) // ROW
    if x - 10 in columns:
        key = columns[x - 10]
        if text.startswith("reads "):
            signs["reads", place, key, text[6:]] = 1
        elif re.search(r" by \d+(, min \d+)?$", text):
            signs["lock", place, key, text] += 1
        else:
            signs["record", place, key, text] += 1
    elif text == "lost":
        signs["lost", place] += 1
    elif text == "reply lost":
        signs["reply lost", place] += 1


def compared(seed):
    """What is wrong with the picture of a generated script, or None."""
    status, text = run(["generate", "--seed", str(seed), "--steps", str(STEPS)], b"")
    drawn = run(["explain", "--svg"], text)
    if (status, drawn[0]) != (0, 0):
        return f"status {status}, {drawn[0]}"
    wanted, got = Picture([json.loads(line) for line in lines_of(text)]).signs, signs_of(drawn[1].decode())
    return None if wanted == got else f"missing {list(wanted - got)[:4]}, false {list(got - wanted)[:4]}"


def drawn():
    """Compares the pictures of generated scripts."""
    for seed, fault in run_all({seed: (compared, seed) for seed in range(1, SCRIPTS + 1)}).items():
        tell(f"picture of --seed {seed} --steps {STEPS}", fault)
