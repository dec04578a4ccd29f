"""Sessions that are stopped at every step, and what comes late of what they sent."""
import json

from sweeps import meaning
from sweeps.running import run, run_all, tell
from sweeps.shown import fault_in, lines_of, step_line, text_of, worked

DELIVERY = ("lose", "lose-reply", "repeat", "hold")
SENT = ("prewrite", "commit", "abort")
KEYED = ("put", "insert", "delete", "lock", "get", "read", "versions")


def without_delivery(steps):
    """Steps with no delivery words, and with no delivery of what would be held."""
    found = []
    for words in steps:
        named = [n for n, word in enumerate(words) if n > 1 and word in DELIVERY]
        found += [words[: min(named, default=len(words))]] if words[0] != "deliver" else []
    return found


def keys_in(steps):
    """The keys that the steps of a script name."""
    named = [words[1 if words[0] in ("read", "versions") else 2] for words in steps if words[0] in KEYED]
    return list(dict.fromkeys(named))


def stopped(steps, end):
    """A script that is cut after `end` steps, and what follows."""
    replies = [json.loads(line) for line in meaning.lines(steps)]
    made, held, live = [], [], []
    for words, reply in zip(steps[:end], replies):
        if words[0] in SENT and reply[1] != "done":
            held.append(f"held {len(held)}")
            made.append([*words, "hold", held[-1]])
        made.append(words)
        if words[0] == "begin":
            live.append(words[1])
        elif words[0] in ("finish", "stop"):
            live.remove(words[1])
    made += [["stop", name] for name in live]
    made += [["deliver", name] for name in held + held[::-1]]
    made += [["begin", "~a"], ["put", "~a", "~", "~"], ["declare", "~a", "two-phase", 1]]
    made += [["prewrite", "~a"], ["begin", "~b"], ["get", "~b", "~"]]
    for key in keys_in(steps):
        made += [["get", "~b", key], ["resolve", "~b", 1000], ["get", "~b", key]]
    return made


def stop_fault(made, status, written):
    """A script is answered as it means, and what follows is a run of the machine."""
    lines, meant = lines_of(written), meaning.lines(made)
    if status != 0 or lines[-1:] != [b'["check","yes"]']:
        return f"status {status}, last line {lines[-1:]}"
    other = [n for n, line in enumerate(meant) if lines[n : n + 1] != [line]]
    return f"line {other[0] + 1} is another" if other or fault_in(meant) else None


def stops():
    checks = {}
    for name, lines, shown in worked():
        if fault_in(shown) is not None:
            continue
        steps = without_delivery([json.loads(line) for line in lines])
        if fault_in(meaning.lines(steps)) is None:
            for end in range(len(steps) + 1):
                checks[f"{name}, stopped after {end}"] = stopped(steps, end)
    cases = {name: text_of([step_line(*words) for words in made]) for name, made in checks.items()}
    ended = run_all({name: (run, ["simulate", "--check"], text) for name, text in cases.items()})
    for name, made in checks.items():
        tell(name, stop_fault(made, *ended[name]))
