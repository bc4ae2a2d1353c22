"""Where the program `alarmd` is, for commands that have no configuration."""

from __future__ import annotations

import os
import shutil
from pathlib import Path

from .config import WORDS_STATUS
from .model import GatewayFault

BUILT = Path(__file__).resolve().parents[2] / "crates" / "alarmd" / "out" / "alarmd"


def find_alarmd(given: Path | None) -> Path:
    """The program that is given, else $ALARMD, else the one that is built in this checkout, else the one on the path. Raises
    GatewayFault (status 2) where there is none."""
    path = given or Path(
        os.environ.get("ALARMD") or (BUILT.is_file() and BUILT) or shutil.which("alarmd") or BUILT
    )
    if not os.access(path, os.X_OK) or not path.is_file():
        raise GatewayFault(
            f"no alarmd at {path}: build it, or set ALARMD to its path", WORDS_STATUS
        )
    return path.resolve()
