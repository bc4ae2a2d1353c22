"""gateway/setup with a package manager that only writes down: it installs what is missing, once, and else does nothing."""

from __future__ import annotations

import subprocess
from pathlib import Path

import pytest

SETUP = Path(__file__).resolve().parents[1] / "setup"

DPKG = """#!/bin/sh
for package; do :; done
if grep -qx "$package" "$(dirname "$0")/installed"; then printf installed; else exit 1; fi
"""

APT = """#!/bin/sh
echo "apt-get $*" >>"$(dirname "$0")/asked"
test "$1" != update || exit 0
test "$2" != update || exit 0
test ! -e "$(dirname "$0")/broken" || exit 100
shift 4
for package; do echo "$package" >>"$(dirname "$0")/installed"; done
"""


class Machine:
    """A folder of commands that stand for a machine's."""

    def __init__(self, folder: Path, user: int) -> None:
        self.folder = folder
        self.path("dpkg-query", DPKG)
        self.path("apt-get", APT)
        self.path("id", f"#!/bin/sh\necho {user}\n")
        (folder / "installed").write_text("python3\nmosquitto\n")
        (folder / "asked").write_text("")

    def path(self, name: str, text: str) -> None:
        file = self.folder / name
        file.write_text(text)
        file.chmod(0o755)

    def setup(self, *words: str) -> subprocess.CompletedProcess[str]:
        for name in ("sh", "sed", "grep", "dirname"):
            link = self.folder / name
            if not link.exists():
                link.symlink_to(f"/usr/bin/{name}")
        return subprocess.run(
            ["/bin/sh", str(SETUP), *words],
            env={"PATH": str(self.folder)},
            capture_output=True,
            text=True,
        )

    def asked(self) -> list[str]:
        return (self.folder / "asked").read_text().splitlines()


def test_check_tells_and_installs_nothing(tmp_path: Path) -> None:
    machine = Machine(tmp_path, 0)
    told = machine.setup("--check")
    assert told.returncode == 1 and "python3-aiohttp" in told.stdout
    assert "mosquitto" not in told.stdout and not machine.asked()
    serving = machine.setup("--serving", "--check")
    assert serving.returncode == 1 and "chromium" not in serving.stdout


def test_it_installs_what_is_missing_once(tmp_path: Path) -> None:
    machine = Machine(tmp_path, 0)
    assert machine.setup("--serving").returncode == 0
    assert len(machine.asked()) == 2 and "chromium" not in machine.asked()[1]
    assert machine.setup().returncode == 0
    assert len(machine.asked()) == 4 and "chromium-driver" in machine.asked()[3]
    assert "python3-aiohttp" not in machine.asked()[3] and "mosquitto" not in machine.asked()[3]
    assert machine.setup().returncode == 0 and machine.setup("--check").returncode == 0
    assert len(machine.asked()) == 4


def test_names_are_printed_and_nothing_is_done(tmp_path: Path) -> None:
    machine = Machine(tmp_path, 0)
    told = machine.setup("--serving", "--names")
    assert told.returncode == 0 and told.stdout.split()[:2] == ["python3", "python3-aiohttp"]
    assert "chromium" not in told.stdout and not machine.asked()
    assert "etcd-server" in machine.setup("--serving", "--etcd", "--names").stdout.split()


def test_only_root_installs(tmp_path: Path) -> None:
    machine = Machine(tmp_path, 1000)
    told = machine.setup()
    assert told.returncode == 1 and "only root may install" in told.stderr
    assert not machine.asked()
    machine.path("sudo", '#!/bin/sh\nshift\nexec "$@"\n')
    assert machine.setup().returncode == 0 and machine.asked()


def test_what_cannot_be_installed_is_told(tmp_path: Path) -> None:
    machine = Machine(tmp_path, 0)
    (tmp_path / "broken").touch()
    told = machine.setup()
    assert told.returncode == 1 and "couldn't install" in told.stderr


@pytest.mark.parametrize("words", [["--chek"], ["--check", "now"]])
def test_wrong_words_are_status_2(tmp_path: Path, words: list[str]) -> None:
    machine = Machine(tmp_path, 0)
    told = machine.setup(*words)
    assert told.returncode == 2 and "gateway/setup --check" in told.stderr
    assert not machine.asked()


def test_another_system_is_told(tmp_path: Path) -> None:
    machine = Machine(tmp_path, 0)
    (tmp_path / "dpkg-query").unlink()
    told = machine.setup()
    assert told.returncode == 1 and "isn't Debian" in told.stderr
