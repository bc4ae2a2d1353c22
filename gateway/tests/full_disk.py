"""A small disk that is filled and has room again: a tmpfs, which only root can mount."""

from __future__ import annotations

import os
import subprocess
from pathlib import Path

STEP = 1 << 16  # bytes that are written at once to fill it


class SmallDisk:
    """A folder on a disk of its own, of so many megabytes."""

    def __init__(self, folder: Path, megabytes: int) -> None:
        """Raises OSError where it can't be mounted."""
        folder.mkdir(exist_ok=True)
        self._folder = folder
        self._filler = folder / "filler"
        words = ["mount", "-t", "tmpfs", "-o", f"size={megabytes}m,mode=700", "tmpfs", str(folder)]
        done = subprocess.run(words, capture_output=True, check=False)
        if done.returncode != 0:
            raise OSError(done.stderr.decode().strip())

    def fill(self) -> None:
        """There is no room any more."""
        with open(self._filler, "wb", buffering=0) as file:
            step = STEP
            while step:
                try:
                    file.write(bytes(step))
                except OSError:
                    step //= 2

    def room(self) -> None:
        """There is room again."""
        self._filler.unlink(missing_ok=True)

    def close(self) -> None:
        """Its folder is as it was."""
        subprocess.run(["umount", "-l", str(self._folder)], check=False)


def may_mount(folder: Path) -> bool:
    """Whether small disks can be had here."""
    if os.geteuid() != 0:
        return False
    try:
        SmallDisk(folder, 1).close()
    except OSError:
        return False
    return True
