"""Growths that are refused, each in turn."""
import itertools
import json
import os
import re
import shutil
import subprocess
import tempfile

from sweeps import meaning
from sweeps.running import program, run, run_all, tell
from sweeps.shown import EXAMPLES, TOP, example, fault_in, lines_of, read, rows, status_for
from sweeps.shown import step_line, text_of
from sweeps.stops import keys_in

SHOWN = (
    "Start equals async commit",
    "An abandoned async transaction whose second key came late is rolled back",
    "Collection at a put's timestamp",
    "commit_then_read.script",
    "long_values.script",
    "push.script",
)
LONGEST = 60
AT_ONCE = 16
MARK = (2129522701).to_bytes(4, "little")


class Preloaded:
    """Refuses the n-th growth of a proved program, by an allocator that is preloaded."""

    def __init__(self, compiler, folder):
        self.library = f"{folder}/refusing.so"
        words = [compiler, "-O1", "-shared", "-fPIC", "-o", self.library, f"{TOP}/bin/sweeps/refusing.c"]
        subprocess.run(words, check=True)

    def command(self, n):
        return program(), {**os.environ, "LD_PRELOAD": self.library, "REFUSED": str(n)}

    def is_over(self, ends, _):
        """Whether the last of these runs, by rising numbers, had no growth to refuse."""
        return ends and b"memory is refused" not in ends[-1][2]


class Renumbered:
    """Refuses the n-th growth of an unproved program: it was built to refuse the one of MARK."""

    def __init__(self, folder):
        self.folder, self.program = folder, read(program())
        found = re.finditer(re.escape(MARK), self.program)
        self.places = [match.start() for match in found]

    def command(self, n):
        path = f"{self.folder}/refusing-{n % AT_ONCE}"
        if not os.path.exists(path):
            with open(path, "wb") as file:
                file.write(self.program)
            os.chmod(path, 0o700)
        with open(path, "r+b") as file:
            for place in self.places:
                file.seek(place)
                file.write(n.to_bytes(4, "little"))
        return path, None

    def is_over(self, ends, whole):
        """Whether the last of these runs show no refusal; that of a few is not shown where a reply is lost."""
        return len(ends) > 40 and all(written == whole for _, written, _ in ends[-40:])


def refuser_in(folder):
    """What refuses growths of the program, or None."""
    if read(program()).count(MARK) == 2:
        return Renumbered(folder)
    compiler = shutil.which("cc") or shutil.which("clang")
    return Preloaded(compiler, folder) if compiler else None


def run_refused(path, environment, words, text):
    ended = subprocess.run([path, *words], input=text, stdout=subprocess.PIPE, stderr=subprocess.PIPE,
                           env=environment, check=False)
    return ended.returncode, ended.stdout, ended.stderr


def refuse_each(refuser, words, text):
    """How the program ends where the first growth is refused, where the second is, and so on."""
    whole, ends = run(words, text)[1], []
    while not refuser.is_over(ends, whole):
        commands = {n: refuser.command(n) for n in range(len(ends) + 1, len(ends) + AT_ONCE + 1)}
        runs = {n: (run_refused, *command, words, text) for n, command in commands.items()}
        ends += run_all(runs).values()
    return ends


def refusal_fault(texts, status, written):
    """Whether the replies are one of the texts, and what may follow them is whole; or with status 4 a
    beginning of that, in whole lines."""
    lines = lines_of(written)
    replies = list(itertools.takewhile(lambda line: not line.startswith(b'["'), lines))
    rest, is_whole = lines[len(replies) :], replies in texts
    if status == 4:
        allowed = is_whole or (not rest and any(text[: len(replies)] == replies for text in texts))
    else:
        allowed = is_whole and status == status_for(replies) and rest[-1:] in ([], [b'["check","yes"]'])
    if allowed and written == text_of(lines):
        return None
    far = max(len(os.path.commonprefix([text, lines])) for text in texts)
    return f"status {status}, line {far + 1} is {lines[far : far + 1]}"


def showing(steps):
    """The steps, and after each what is kept of each key."""
    kept = [["versions", key] for key in keys_in(steps)]
    return steps[:1] + [step for words in steps[1:] for step in (words, *kept)]


def plain_scripts():
    """The rows and examples that have no fault of form and are short, each as it means."""
    scripts = {}
    for name, lines, shown in [(name, *example(name)) for name in EXAMPLES] + rows("scripts.rows"):
        if len(lines) <= LONGEST and fault_in(shown) not in ("json", "form"):
            scripts[name] = [json.loads(line) for line in lines]
            is_meant = meaning.lines(scripts[name]) == shown
            tell(f"{name}, as it means", None if is_meant else "bin/sweeps/meaning has other lines")
    return scripts


def refused_scripts():
    """The scripts of which each growth is refused: how each is played, and its steps."""
    plain = plain_scripts()
    scripts = {name: (["simulate"], steps) for name, steps in plain.items()}
    for name in SHOWN:
        scripts[f"{name}, shown"] = ["simulate"], showing(plain[name])
        scripts[f"{name}, checked"] = ["simulate", "--check"], plain[name]
    return scripts


def refusals():
    with tempfile.TemporaryDirectory() as folder:
        refuser = refuser_in(folder)
        if refuser is None:
            print("refusals: left out, for want of a C compiler")
            return
        for name, (words, steps) in refused_scripts().items():
            texts = [meaning.lines(steps), *meaning.refused(steps).values()]
            text = text_of([step_line(*step) for step in steps])
            ends = refuse_each(refuser, words, text)
            is_refused = ends[0][:2] == (4, b"")
            tell(f"{name}, refused", None if is_refused else "its first growth is not refused")
            for n, (status, written, _) in enumerate(ends, 1):
                tell(f"{name}, growth {n}", refusal_fault(texts, status, written))
