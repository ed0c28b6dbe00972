"""What docs/check and commands/run ask of a command: whether it can run here, and whether it printed what was expected."""
import functools
import re
import shutil
import subprocess
from typing import List


@functools.lru_cache(maxsize=None)
def is_there(what: str) -> bool:
    """Whether this program is in PATH, or this module is there for the python3 in PATH, as python:yaml."""
    if not what.startswith("python:"):
        return shutil.which(what) is not None
    python = shutil.which("python3")
    asked = [python, "-c", "import " + what[len("python:"):]]
    return python is not None and subprocess.run(asked, stdin=subprocess.DEVNULL, stderr=subprocess.DEVNULL).returncode == 0


def lines_of(output: bytes) -> List[str]:
    """The lines that a command wrote."""
    lines = output.decode(errors="replace").split("\n")
    return lines[:-1] if lines[-1] == "" else lines


def matches(wanted: List[str], found: List[str]) -> bool:
    """Are these the lines that are wanted? A line '...' stands for any number of lines."""
    if "..." not in wanted:
        return wanted == found
    any_lines = "(?:.*\n)*?"
    pattern = "".join(any_lines if it == "..." else re.escape(it) + "\n" for it in wanted)
    return re.fullmatch(pattern, "".join(it + "\n" for it in found)) is not None
