"""What a script means by the rules of docs/PROTOCOL.md and docs/SCRIPT.md, where one growth may be
refused.

`lines(steps)` are its replies with ample memory, and `refused(steps)` the texts that one refused
growth may lead to. They are made from the case tables, in the plainest way, and from no output of
the program. Steps are arrays of JSON; what is wrong with the form of a line is not looked for.
"""
from sweeps.meaning.scripts import lines, refused

__all__ = ["lines", "refused"]
