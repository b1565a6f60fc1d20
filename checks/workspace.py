"""The crates of the workspace, how many can be proved side by side, and what stands in a crate's folder out/: what `rt
check` keeps of its work, over which later checks prove only what has changed, and what `rt ci`, `rt run` and `rt test`
built."""
import os
import re
import shutil
import subprocess
from pathlib import Path

from judged import answer_help

answer_help()

TOP = os.path.dirname(os.path.dirname(os.path.abspath(__file__)))
DIST = os.path.join(TOP, "dist", "x86_64-linux-gnu")
MEMORY_OF_A_PROOF = 2e9


def run(words, cwd=None, **how):
    """A command that has ended, with nothing on its input, and what it said on both outputs."""
    how = {"stdin": subprocess.DEVNULL, "stdout": subprocess.PIPE, "stderr": subprocess.STDOUT, **how}
    return subprocess.run(words, cwd=cwd, text=True, errors="replace", **how)


def crates_below(top=TOP):
    """For each crate that crates.txt lists, behind those that it stands on, all of these, near and far."""
    below = {}
    for line in Path(top, "crates.txt").read_text("utf-8").splitlines():
        head, _, rest = line.partition("#")[0].partition(":")
        if head.strip():
            below[head.split()[0]] = set(rest.split()).union(*(below[other] for other in rest.split()))
    return below


def room_for_proofs():
    """How many proofs can be made side by side, one on each processor, with the memory that is free."""
    with open("/proc/meminfo", encoding="ascii") as file:
        free = 1024 * int(re.search(r"MemAvailable:\s+([0-9]+)", file.read())[1])
    return max(1, min(len(os.sched_getaffinity(0)), int(free // MEMORY_OF_A_PROOF)))


def built_in(crates):
    """What `shutil.copytree` is to leave out of a folder of crates: the folder out/ of each, and none of this name
    below, which is one of sources or proofs."""
    return lambda folder, _: ["out"] if Path(folder).parent == Path(crates) else []


def link_or_copy(source, target):
    """Links a file of kept work, since no check writes into one (it puts another in its place)."""
    try:
        os.link(source, target)
    except OSError:
        shutil.copy(source, target)


def take_kept(source, target):
    """Takes what a crate's checks have kept, or nothing of it where another process is at work on it."""
    try:
        shutil.copytree(source, target, copy_function=link_or_copy)
    except (OSError, shutil.Error):
        shutil.rmtree(target, ignore_errors=True)


def copy_with_kept(source, target, leave_out=None):
    """Copies a folder with crates and what their checks kept, which alone is linked, into one that may be there."""
    def link_or_copy_of(file, to):
        parts = Path(file).relative_to(source).parts
        (link_or_copy if parts[:1] + parts[2:3] == ("crates", "out") else shutil.copy)(file, to)

    shutil.copytree(source, target, ignore=leave_out, copy_function=link_or_copy_of, dirs_exist_ok=True)


def is_dist_current():
    """Whether dist/ was built from the sources as they stand."""
    digest = run([os.path.join(TOP, "dist", "digest")]).stdout
    return Path(DIST, "BUILT_FROM").read_text("ascii").startswith(f"sources {digest}")


def has_kept(crate):
    """Whether checks of a crate kept work."""
    return os.path.isdir(f"{TOP}/crates/{crate}/out/incremental")


def is_built(program):
    """Whether a program is there, and was built after the last change of a source."""
    sources = Path(TOP).glob("crates/*/src/**/*.rt")
    return os.path.isfile(program) and os.path.getmtime(program) > max(os.path.getmtime(it) for it in sources)
