"""A `malloc` before the C library's, which refuses the allocation of a number."""
import atexit
import os
import shutil
import subprocess
import tempfile
from functools import lru_cache
from pathlib import Path
from threading import Lock
from typing import Dict

SOURCE = Path(__file__).resolve().parent / "refuse.c"
MAKING = Lock()


class NotBuilt(Exception):
    """There is no such `malloc`."""


@lru_cache(None)
def built() -> Path:
    """The library with that `malloc`, made once."""
    folder = Path(tempfile.mkdtemp())
    atexit.register(shutil.rmtree, folder)
    folder.chmod(0o755)
    made = folder / "refuse.so"
    compiler = os.environ.get("CC", "cc")
    try:
        subprocess.run([compiler, "-shared", "-fPIC", "-O1", "-o", made, SOURCE, "-ldl"], check=True)
    except (OSError, subprocess.CalledProcessError) as error:
        raise NotBuilt(f"memory is refused by {SOURCE.name}, which can't be compiled: {error}") from error
    return made


def library() -> Path:
    with MAKING:
        return built()


def environment(number: int, reached: Path) -> Dict[str, str]:
    """The environment of a program to which the allocation of that number is refused, and which makes a file then."""
    return {**os.environ, "LD_PRELOAD": str(library()), "REFUSED": str(number), "REACHED": str(reached)}
