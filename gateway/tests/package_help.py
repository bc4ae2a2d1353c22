"""What the tests of the package share: it is built by gateway/package."""

from __future__ import annotations

import os
import subprocess
from pathlib import Path

GATEWAY = Path(__file__).resolve().parents[1]


def build(
    alarmd: Path, out: Path, gateway: Path = GATEWAY, *words: str
) -> subprocess.CompletedProcess[str]:
    """Runs gateway/package of a checkout, also for a program without proofs."""
    environment = {**os.environ, "ALARMD": str(alarmd)}
    environment.pop("SOURCE_DATE_EPOCH", None)
    command = [str(gateway / "package"), "--trial", "--out", str(out), *words]
    return subprocess.run(command, env=environment, capture_output=True, text=True, check=False)


def built(alarmd: Path, out: Path, gateway: Path = GATEWAY, *words: str) -> Path:
    """The package that it has built."""
    done = build(alarmd, out, gateway, *words)
    assert done.returncode == 0, done.stderr
    return Path(done.stdout.strip())


def fields(package: Path) -> dict[str, str]:
    """The fields of a package, by their names."""
    told = subprocess.run(["dpkg-deb", "-f", package], capture_output=True, text=True, check=True)
    lines = (line for line in told.stdout.splitlines() if not line.startswith(" "))
    return {name: value for name, _, value in (line.partition(": ") for line in lines)}
