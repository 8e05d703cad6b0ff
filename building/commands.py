"""Commands, the Rattle kit, and the reasons why a build stops."""
import errno
import os
import pathlib
import re
import resource
import shutil
import subprocess
import threading

ROOT = pathlib.Path(__file__).resolve().parent.parent

# The processes that run now, whether no more may start, and what guards both. A signal's handler takes the guard too.
RUNNING = set()
ENDED = threading.Event()
GUARD = threading.RLock()


class Failed(Exception):
    """The reason why there is no build, in words."""


def say(text: str) -> None:
    """Prints a line about the build."""
    print(f"build: {text}", flush=True)


def start(words: list, how: dict) -> subprocess.Popen:
    """Starts a command. Raises `Failed` once all were ended."""
    with GUARD:
        if ENDED.is_set():
            raise Failed("the build was stopped")
        started = subprocess.Popen(words, **how)
        RUNNING.add(started)
        return started


def run(*words, folder: pathlib.Path = ROOT, shown: bool = False, status=(0,)) -> str:
    """Returns the output of a command, both streams together. If it is `shown`, it goes to this process's streams instead.

    Raises `Failed` with the end of its output if its exit status isn't among those of `status`."""
    words = [str(word) for word in words]
    streams = {} if shown else {"stdout": subprocess.PIPE, "stderr": subprocess.STDOUT}
    with start(words, {"cwd": folder, "stdin": subprocess.DEVNULL, **streams}) as started:
        try:
            output = (started.communicate()[0] or b"").decode(errors="replace")
        finally:
            with GUARD:
                RUNNING.discard(started)
    if started.returncode not in status:
        raise Failed(f"{output[-4000:].rstrip()}\n{' '.join(words[:3])} .. ended with status {started.returncode}".lstrip())
    return output


def end_all() -> None:
    """Ends the processes that still run, and lets no others start."""
    with GUARD:
        ENDED.set()
        for started in RUNNING:
            started.terminate()


def processor_seconds() -> float:
    """Returns the seconds of processor time of this process and of its ended child processes."""
    both = [resource.getrusage(who) for who in (resource.RUSAGE_SELF, resource.RUSAGE_CHILDREN)]
    return sum(used.ru_utime + used.ru_stime for used in both)


def kit() -> pathlib.Path:
    """Returns the folder of the kit: RATTLE_KIT, or the one whose `rt` is on the path."""
    named = os.environ.get("RATTLE_KIT")
    if named:
        return pathlib.Path(named).resolve()
    if not shutil.which("rt"):
        raise Failed("the Rattle kit's command `rt` isn't on the path, and RATTLE_KIT names no folder of it. README.md says which kit")
    page = run("rt", "doc").split()
    found = [pathlib.Path(word).parent for word in page if word.endswith("START-HERE.md")]
    if not found:
        raise Failed(f"`rt doc` doesn't name the kit's first page: {' '.join(page)[:200]}")
    return found[0]


def kit_line(at: pathlib.Path) -> str:
    """Returns the kit's line about itself. Raises `Failed` if README.md names another kit."""
    if not os.access(at / "bin/rt", os.X_OK):
        raise Failed(f"{at} isn't the folder of a Rattle kit: it has no bin/rt")
    line = run(at / "bin/rt", "version").strip()
    named = re.search(r"rattle-kit-\S+ logic [0-9a-f]+", " ".join((ROOT / "README.md").read_text().split()))
    if not named or line != named[0]:
        raise Failed(f"the kit in {at} is `{line}`, and README.md names `{named[0] if named else 'none'}`")
    return line


def want_room(folder: pathlib.Path, megabytes: int) -> None:
    """Raises `Failed` if the disk of `folder` has less room."""
    left = shutil.disk_usage(folder).free // 1_000_000
    if left < megabytes:
        raise Failed(f"the disk of {folder} has {left} MB left, and this build takes up to {megabytes} MB")


def reason(error: OSError) -> str:
    """Returns in words why an operation of the system failed."""
    if error.errno == errno.ENOSPC:
        return f"the disk is full ({error.filename or 'a file was being written'})"
    return str(error)
