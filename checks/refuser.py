"""A library of one function that refuses requests for memory, checks/refuse.c, and programs that run with it."""
import os
import subprocess

from judged import Failed
from workspace import TOP

MOST, SECONDS = 200, 60


class Refuser:
    """The library, compiled into a folder, where a mark shows that a request was refused."""

    def __init__(self, folder):
        self.folder = folder
        self.library, self.mark = os.path.join(folder, "refuse.so"), os.path.join(folder, "refused")
        source = os.path.join(TOP, "checks", "refuse.c")
        words = ["cc", "-O1", "-fPIC", "-fno-builtin", "-shared", "-nostdlib", source, "-o", self.library]
        subprocess.run(words, stdin=subprocess.DEVNULL, check=True)

    def refuse_in_turn(self, words, judge, **how):
        """Runs a program with its first request for memory refused, then with its second, and so on until none is.
        Returns what `judge` says of each run, by its status, what it said, and whether a request was refused."""
        how = {"stdout": subprocess.PIPE, "stderr": subprocess.STDOUT, "text": True, "errors": "replace", **how}
        found = []
        for request in range(1, MOST + 1):
            given = {"LD_PRELOAD": self.library, "REFUSED_REQUEST": str(request), "REFUSED_MARK": self.mark}
            try:
                ran = subprocess.run(words, cwd=self.folder, env=given, timeout=SECONDS, **how)
            except subprocess.TimeoutExpired:
                raise Failed(f"{words[-1]} had not ended after {SECONDS} seconds") from None
            refused = os.path.exists(self.mark)
            found.append(judge(ran.returncode, ran.stdout, refused))
            if not refused:
                return found[:-1]
            os.remove(self.mark)
        raise Failed(f"{words[-1]} makes more than {MOST} requests")
