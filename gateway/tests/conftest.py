"""What all tests share: the built alarmd, the examples, and the options --long, --faults, --rounds, --seed, --minutes and --package."""

from __future__ import annotations

import os
from pathlib import Path

import pytest

ROOT = Path(__file__).resolve().parents[2]


def pytest_addoption(parser: pytest.Parser) -> None:
    parser.addoption("--long", action="store_true", help="runs the long trials too")
    parser.addoption("--faults", action="store_true", help="runs the faults of a shared log too")
    parser.addoption("--package", action="store_true", help="runs the package on a machine too")
    parser.addoption("--rounds", default=1, type=int, help="how often each fault is tried")
    parser.addoption("--seed", default=67, type=int, help="what chance begins with")
    parser.addoption("--minutes", default=1e9, type=float, help="no round begins after so many")


def pytest_collection_modifyitems(config: pytest.Config, items: list[pytest.Item]) -> None:
    for item in items:
        if "long" in item.keywords and not config.getoption("--long"):
            item.add_marker(pytest.mark.skip(reason="a long trial: runs with --long"))
        if "package" in item.keywords and not config.getoption("--package"):
            item.add_marker(pytest.mark.skip(reason="wants a machine: runs with --package"))
        if "etcd" in item.keywords and not config.getoption("--faults"):
            item.add_marker(pytest.mark.skip(reason="wants etcd: runs with --faults"))


@pytest.fixture(scope="session")
def alarmd() -> Path:
    """The program: $ALARMD, else the one that the gate or `rt run` has built here."""
    path = Path(os.environ.get("ALARMD", ROOT / "crates" / "alarmd" / "out" / "alarmd"))
    if not os.access(path, os.X_OK):
        pytest.fail(f"no alarmd at {path}: set ALARMD, or build it by gateway/test")
    return path.resolve()


@pytest.fixture(scope="session")
def examples() -> Path:
    """The folder of the examples."""
    return ROOT / "examples"
