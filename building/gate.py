"""The commits that passed the gate, by docs/GATE.md."""
import re
import shutil
import subprocess

from building.commands import ROOT, Failed

PAGE = "docs/GATE.md"
# All that a build takes of the repository's sources.
SOURCES = ["crates", "crates.txt", "HANDLES"]
PASSED = re.compile(r"^Passed: ([0-9a-f]{40})$", re.M)


def git(*words: str) -> subprocess.CompletedProcess:
    """Runs git in the repository."""
    if not shutil.which("git"):
        raise Failed("git isn't on the path, and --fast compares the crates with those of a commit")
    return subprocess.run(["git", *words], cwd=ROOT, capture_output=True, text=True, check=False)


def commit() -> str:
    """Returns the commit that is checked out, with a word about changes, or `unknown` outside of git."""
    if not shutil.which("git"):
        return "unknown"
    head = git("rev-parse", "HEAD")
    if head.returncode:
        return "unknown"
    return head.stdout.strip() + (" with changes" if git("status", "--porcelain").stdout else "")


def passed_commit() -> str:
    """Returns a commit that docs/GATE.md names as passed and that has the crates of this checkout. Raises `Failed` if there is none."""
    named = PASSED.findall((ROOT / PAGE).read_text())
    has_new_files = bool(git("ls-files", "--others", "--exclude-standard", "--", *SOURCES).stdout)
    for passed in named if not has_new_files else []:
        if git("diff", "--quiet", passed, "--", *SOURCES).returncode == 0:
            return passed
    lack = f"{PAGE} names no commit with these crates as passed, among {len(named)}" if named else f"{PAGE} names no commit as passed"
    raise Failed(f"--fast takes the checks out, so it builds only crates that passed the gate, and {lack}. Leave it out to keep the checks")
