"""Runs commands of the kit and of the machine for dist/build, and puts what they made in its place."""
import os
import shlex
import shutil
import subprocess
from pathlib import Path

from judged import Failed

DIST = Path(__file__).resolve().parent
TOP = DIST.parent


def run(words, **how):
    """What a command prints, which must not fail."""
    how = {"stdin": subprocess.DEVNULL, "stdout": subprocess.PIPE, "stderr": subprocess.STDOUT, **how}
    ran = subprocess.run([str(it) for it in words], text=True, errors="replace", **how)
    if ran.returncode:
        raise Failed(f"this failed: {shlex.join(map(str, words))}\n{ran.stdout}")
    return ran.stdout


def kit():
    """The folder of the kit."""
    return Path(run(["rt", "doc"]).strip()).parent


def put(made, there):
    """Puts a file in the place of the one before, so that programs which run go on."""
    there.parent.mkdir(parents=True, exist_ok=True)
    shutil.copy(made, there.with_name(f".{there.name}"))
    os.replace(there.with_name(f".{there.name}"), there)
    print(f"build: {there.relative_to(TOP)}: {made.stat().st_size} bytes", flush=True)
