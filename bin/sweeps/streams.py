"""Inputs and outputs that break, at each byte."""
import resource
import signal
import socket
import subprocess
import tempfile

from sweeps.running import program, run_all, tell
from sweeps.shown import example, lines_of, rows, text_of


def run_broken(words, text):
    """The program with an input that gives this text and then fails: the other end of a socket is
    closed while something for it is unread."""
    near, far = socket.socketpair()
    far.send(b"unread")
    near.sendall(text)
    near.close()
    ended = subprocess.run([program(), *words], stdin=far, stdout=subprocess.PIPE,
                           stderr=subprocess.DEVNULL, check=False)
    far.close()
    return ended.returncode, ended.stdout


def run_short(words, text, room):
    """The program with an output that takes so many bytes."""

    def limit():
        signal.signal(signal.SIGXFSZ, signal.SIG_IGN)
        resource.setrlimit(resource.RLIMIT_FSIZE, (room, room))

    with tempfile.TemporaryFile() as file:
        ended = subprocess.run([program(), *words], input=text, stdout=file,
                               stderr=subprocess.DEVNULL, preexec_fn=limit, check=False)
        file.seek(0)
        return ended.returncode, file.read()


def input_fault(shown, most, status, written):
    """An input broke after so many whole lines: at most as many are answered."""
    lines = lines_of(written)
    is_beginning = written == text_of(lines) and lines == shown[: len(lines)] and len(lines) <= most
    return None if status == 4 and is_beginning else f"status {status}, last line {lines[-1:]}"


def output_fault(whole, room, status, written):
    is_beginning = whole.startswith(written) and len(written) <= room
    return None if status == 4 and is_beginning else f"status {status}, {len(written)} bytes"


def streams():
    title, checked_steps, checked = max(rows("checked.rows"), key=lambda row: len(row[1]))
    played = (
        (["simulate"], *example("two_regions.script"), True),
        (["simulate", "--check"], checked_steps, checked, True),
        (["check"], *example("commit_then_read.trace"), False),
        (["run", "--workers", "2"], *example("transfers.run"), False),
    )
    for words, steps, shown, by_line in played:
        text, whole = text_of(steps), text_of(shown)
        calls = {("input", at): (run_broken, words, text[:at]) for at in range(len(text) + 1)}
        calls.update({("output", room): (run_short, words, text, room) for room in range(len(whole))})
        for (way, at), ended in run_all(calls).items():
            most = text[:at].count(b"\n") if by_line else 0
            if way == "input":
                fault = input_fault(shown, most, *ended)
            else:
                fault = output_fault(whole, at, *ended)
            tell(f"{' '.join(words)}, {way} {at}", fault)
