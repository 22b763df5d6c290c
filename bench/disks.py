"""A program over a watched disk: disk.c of bench/watched_disk is compiled and preloaded."""
from __future__ import annotations

import os
import subprocess

from measured import TOP


def shim(folder: str) -> str:
    """Builds the shim in a folder, and returns its path."""
    path = os.path.join(folder, "watched_disk.so")
    source = os.path.join(TOP, "bench", "watched_disk", "disk.c")
    subprocess.run(["gcc", "-O2", "-Wall", "-shared", "-fPIC", "-o", path, source, "-ldl", "-lpthread"], check=True)
    return path


def watched(path: str, files: str, **how: object) -> dict[str, str]:
    """Returns the environment of a program whose files of this name are watched: slow_us, fails or record say how."""
    return {**os.environ, "LD_PRELOAD": path, "DISK_FILES": files, **{f"DISK_{name.upper()}": str(value) for name, value in how.items()}}
