"""What the tools share: the repository, its antt files, how changes are written."""
import os
import subprocess
import sys
from pathlib import Path


def root():
    """The folder of the repository in which the command is run."""
    found = subprocess.run(["git", "rev-parse", "--show-toplevel"], capture_output=True, text=True, check=True)
    return Path(found.stdout.strip())


def antt_files(names):
    """The named files, or all antt files of the crates, in order."""
    return sorted(names) or sorted(str(path) for path in (root() / "crates").rglob("*.antt"))


def report(changes, only_check):
    """Writes each changed file and says whether there was one; or only prints its name, and ends with status 1."""
    for path, text in changes.items():
        print("would change" if only_check else "changed", os.path.relpath(path))
        if not only_check:
            Path(path).write_text(text, encoding="utf-8")
    if only_check and changes:
        sys.exit(1)
    return bool(changes)
