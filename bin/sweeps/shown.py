"""The scripts, rows and traces of crates/examples/data, and what they are shown to get."""
import json
import os

TOP = os.path.dirname(os.path.dirname(os.path.dirname(os.path.realpath(__file__))))
DATA = f"{TOP}/crates/examples/data"
EXAMPLES = sorted(name for name in os.listdir(DATA) if name.endswith(".script"))


def read(path):
    with open(path, "rb") as file:
        return file.read()


def lines_of(text):
    """The lines of a text; the last newline begins no line."""
    lines = text.split(b"\n")
    return lines[:-1] if lines[-1] == b"" else lines


def example(name):
    """The steps of an example and the lines that it gets."""
    return lines_of(read(f"{DATA}/{name}")), lines_of(read(f"{DATA}/{name}.out"))


def rows(name):
    """The rows of a file: the title, the steps, and the lines that they get."""
    found = []
    for block in read(f"{DATA}/{name}").split(b"\n# ")[1:]:
        title, _, lines = block.partition(b"\n")
        steps, shown = [], []
        for line in lines.split(b"\n"):
            step, _, reply = line.rpartition(b"\t") if b"\t" in line else (line, b"", b"")
            steps += [step] if step else []
            shown += [reply] if reply else []
        found.append((title.decode(), steps, shown))
    return found


def text_of(lines):
    return b"".join(line + b"\n" for line in lines)


def fault_in(lines):
    """The cause of the fault that a run ends with, or None."""
    words = json.loads(lines[-1]) if lines else []
    return words[2] if words[1:2] == ["E16"] else None


def status_for(lines):
    """The status that the lines call for: the last, or that of a no with its reason behind it."""
    if fault_in(lines) is not None:
        return 2
    return 3 if any(line.startswith(b'["check","no"') for line in lines) else 0


def is_json(line):
    try:
        json.loads(line.decode())
        return True
    except ValueError:
        return False


def step_line(*words):
    return json.dumps(words, ensure_ascii=False, separators=(",", ":")).encode()


def worked():
    """The examples, and the first rows of scripts.rows: title, steps and lines of each."""
    return [(name, *example(name)) for name in EXAMPLES] + rows("scripts.rows")[:23]
