"""Cut scripts, rows and examples, and calls: the whole text is compared."""
import os

from sweeps.running import compare, run, tell
from sweeps.shown import DATA, example, fault_in, is_json, read, rows, status_for, text_of, worked

LINE_BYTES = 524_288
OUTCOMES = b'["outcomes",0,0,0,0]'
WRONG = (
    "", "play", "--unknown", "simulate x y", "simulate --workers 2", "simulate --check --check",
    "check --check", "check x y", "run", "run --workers", "run --workers 0", "run --workers 65",
    "run --workers two", "run --workers 2 --gc-life-time", "run --workers 2 --gc-life-time x",
    "run --workers 2 x y",
)
RIGHT = ("--help", "--version", "simulate --help", "check --help", "run --help")


def after_cut(steps, shown, cut):
    """The status and the lines of a script that is cut off, or None where the part of its last line
    is a JSON value of its own."""
    whole = cut.split(b"\n")
    part = whole.pop()
    if part != b"" and part == steps[len(whole)]:
        whole.append(part)
        part = b""
    lines = shown[: len(whole)]
    if fault_in(lines) is not None or part == b"":
        return status_for(lines), lines
    if is_json(part):
        return None
    return 2, lines + [b'[%d,"E16","json"]' % (len(whole) + 1)]


def cuts():
    cases, wanted = {}, {}
    for title, steps, shown in worked():
        text = text_of(steps)
        for end in range(len(text) + 1):
            expected = after_cut(steps, shown, text[:end])
            if expected is not None:
                cases[f"{title}, cut at {end}"] = text[:end]
                wanted[f"{title}, cut at {end}"] = expected
    compare(["simulate"], cases, wanted)


def rows_with(name, words):
    cases, wanted = {}, {}
    for at, (title, steps, shown) in enumerate(rows(name)):
        cases[f"{name}-{at + 1:03}"] = text_of(steps)
        wanted[f"{name}-{at + 1:03}"] = (status_for(shown), shown)
    for path in sorted(os.listdir(DATA)) if name not in ("checked.rows", "reasons.rows") else []:
        if path.endswith(".script" if name == "scripts.rows" else ".trace"):
            cases[path] = read(f"{DATA}/{path}")
            shown = example(path)[1]
            wanted[path] = (status_for(shown), shown)
    compare(words, cases, wanted)


def at_the_limits():
    """Lines that have as many bytes as they may, and one more; and what is no line of a script."""
    cases = {
        "as many bytes": (b'["tick",1]'.ljust(LINE_BYTES), 0, b'[1,"last",1]'),
        "a byte more": (b'["tick",1]'.ljust(LINE_BYTES + 1), 2, b'[1,"E16","long"]'),
        "blanks": (b" " * (LINE_BYTES + 1), 2, b'[1,"E16","long"]'),
        "an empty line": (b"\n", 2, b'[1,"E16","json"]'),
        "no UTF-8": (b"\xff", 2, b'[1,"E16","json"]'),
    }
    texts = {name: text for name, (text, _, _) in cases.items()}
    wanted = {name: (status, [line]) for name, (_, status, line) in cases.items()}
    compare(["simulate"], texts, wanted)


def runs():
    """Runs of workers that end well, and by a fault of one of their sessions or of a line."""
    cases = {
        "a seed": (b'["seed","a","5"]', 0, [b'[1,"ok"]', OUTCOMES, b'["total",5]']),
        "no session": (b'["get","A","a"]', 2, [b'[1,"E16","name"]', OUTCOMES, b'["total",0]']),
        "no line": (b'["begin","A"]\n[', 2, [b'[2,"E16","json"]']),
        "a fault, then none": (
            b'["get","A","a"]\n["begin","B"]', 2, [b'[1,"E16","name"]', b'[2,"start",1]', OUTCOMES, b'["total",0]']
        ),
    }
    texts = {name: text for name, (text, _, _) in cases.items()}
    wanted = {name: (status, lines) for name, (_, status, lines) in cases.items()}
    steps, shown = example("transfers.run")
    texts["transfers.run"], wanted["transfers.run"] = text_of(steps), (status_for(shown), shown)
    compare(["run", "--workers", "2"], texts, wanted)


def all_rows():
    at_the_limits()
    rows_with("scripts.rows", ["simulate"])
    rows_with("checked.rows", ["simulate", "--check"])
    rows_with("traces.rows", ["check"])
    rows_with("reasons.rows", ["check", "--why"])
    runs()


def calls():
    for words in WRONG:
        is_refused = run(words.split(), b"") == (2, b"")
        tell(f"txkv {words}", None if is_refused else "status 2 and no output were wanted")
    for words in RIGHT:
        status, written = run(words.split(), b"")
        tell(f"txkv {words}", None if status == 0 and written else f"status {status}")
