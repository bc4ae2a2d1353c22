"""A Debian 12 of its own: debootstrap's least in a folder, with its own systemd in namespaces of its own. It shares the network, or has one
that begins empty.

Wants root, debootstrap, and a cgroup2 file system. All its processes end with it."""

from __future__ import annotations

import os
import shutil
import subprocess
from pathlib import Path

import pytest
from browser_help import until

ARCHIVE = "http://deb.debian.org/debian"
LIMIT = 900  # seconds for a command

# $0 is the machine's folder. What can be changed of the kernel is read only.
BOOT = r"""
set -e
mount --make-rprivate /
mount --bind "$0" "$0"
mount -t proc proc "$0/proc"
mount --bind "$0/proc/sys" "$0/proc/sys"
mount -o remount,bind,ro "$0/proc/sys"
mount -t sysfs -o ro sysfs "$0/sys"
mount -t cgroup2 cgroup2 "$0/sys/fs/cgroup"
mount -t tmpfs -o mode=755 tmpfs "$0/run"
mount -t tmpfs -o mode=755 tmpfs "$0/dev"
for name in null zero full random urandom tty; do
  : >"$0/dev/$name"
  mount --bind "/dev/$name" "$0/dev/$name"
done
mkdir "$0/dev/pts" "$0/dev/shm"
mount -t devpts -o newinstance,ptmxmode=0666,mode=620 devpts "$0/dev/pts"
ln -s pts/ptmx "$0/dev/ptmx"
ln -s /proc/self/fd "$0/dev/fd"
exec env -i container=test PATH=/usr/sbin:/usr/bin chroot "$0" /lib/systemd/systemd --show-status=no
"""
SPACES = ("--mount", "--pid", "--cgroup", "--uts", "--ipc")
INSIDE = ("PATH=/usr/sbin:/usr/bin:/sbin:/bin", "LANG=C.UTF-8", "DEBIAN_FRONTEND=noninteractive")


def groups() -> Path | None:
    """Where cgroup2 is mounted; None where it isn't."""
    for line in Path("/proc/self/mounts").read_text().splitlines():
        _, place, kind, *_ = line.split()
        if kind == "cgroup2":
            return Path(place)
    return None


def wanted(*more: str) -> None:
    """Fails a test where what it wants for a machine isn't there."""
    names = ("debootstrap", "unshare", "nsenter", *more)
    missing = [name for name in names if shutil.which(name) is None]
    if missing or groups() is None:
        pytest.fail(f"there is no {', '.join(missing) or 'cgroup2 file system'}")


class Machine:
    """The folder, and the systemd that was booted in it."""

    def __init__(self, folder: Path, own_network: bool = False) -> None:
        self.folder = folder
        self._spaces = (*SPACES, "--net") if own_network else SPACES
        self._group: Path | None = None
        self._process: subprocess.Popen[bytes] | None = None
        self.pid = 0  # of its systemd

    def install(self) -> None:
        """Fetches the least Debian with systemd, and none of what its packages only recommend."""
        words = ["debootstrap", "--variant=minbase", "--include=systemd-sysv,ca-certificates"]
        made = subprocess.run(
            [*words, "bookworm", str(self.folder), ARCHIVE], capture_output=True, text=True
        )
        assert made.returncode == 0, made.stdout[-2000:] + made.stderr
        (self.folder / "etc/resolv.conf").write_bytes(Path("/etc/resolv.conf").read_bytes())
        lean = self.folder / "etc/apt/apt.conf.d/lean"
        lean.write_text('APT::Install-Recommends "false";\nAPT::Sandbox::User "root";\n')

    def boot(self) -> None:
        """Starts its systemd, and waits until that has started what it starts."""
        place = groups()
        assert place is not None
        self._group = place / f"alarmd-test-{os.getpid()}-{self.folder.name}"
        self._group.mkdir()
        within = f'echo $$ >"{self._group}/cgroup.procs"; exec "$@"'
        words = [
            "unshare",
            *self._spaces,
            "--fork",
            "--kill-child",
            "sh",
            "-c",
            BOOT,
            str(self.folder),
        ]
        self._process = subprocess.Popen(
            ["sh", "-c", within, "sh", *words], stdin=subprocess.DEVNULL, start_new_session=True
        )
        path = Path(f"/proc/{self._process.pid}/task/{self._process.pid}/children")
        until(lambda: path.read_text().split(), "the machine's first process")
        self.pid = int(path.read_text().split()[0])
        name = Path(f"/proc/{self.pid}/comm")  # of a shell at first, which is on this machine still
        until(lambda: name.read_text() == "systemd\n", "the machine's systemd")
        until(lambda: self.state() in ("running", "degraded"), "the machine has started")

    def put(self, package: Path) -> None:
        """This package is the one beside which the commands are typed."""
        for old in (self.folder / "root").glob("*.deb"):
            old.unlink()
        shutil.copy(package, self.folder / "root")

    def state(self) -> str:
        """What systemd says of the whole."""
        return self.try_run("systemctl is-system-running").stdout.strip()

    def try_run(self, command: str, given: str = "") -> subprocess.CompletedProcess[str]:
        """A line of a shell, by root, in /root."""
        enter = ["nsenter", f"--target={self.pid}", *self._spaces, "--root", "--wd"]
        words = [*enter, "env", "-i", *INSIDE, "sh", "-c", f"cd /root\n{command}"]
        return subprocess.run(words, input=given, capture_output=True, text=True, timeout=LIMIT)

    def run(self, command: str, given: str = "") -> str:
        """The output of a line that succeeds."""
        done = self.try_run(command, given)
        assert done.returncode == 0, f"{command}: {done.stdout}{done.stderr}"
        return done.stdout

    def pids(self, unit: str, program: str) -> list[int]:
        """The processes of a unit that run a program, by the machine's own numbers; none while the unit isn't there."""
        place = f"/sys/fs/cgroup/system.slice/{unit}.service/cgroup.procs"
        own = self.try_run(f"for pid in $(cat {place}); do echo $pid $(cat /proc/$pid/comm); done")
        found = (line.split() for line in own.stdout.splitlines())
        return [int(words[0]) for words in found if words[1:] == [program]]

    def end(self) -> None:
        """Ends all its processes."""
        if self._process is not None:
            self._process.kill()
            self._process.wait()
        if self._group is not None:
            until(self._emptied, "the machine's processes have ended")
        self._process = self._group = None

    def _emptied(self) -> bool:
        """Whether its groups of processes could be removed."""
        assert self._group is not None
        try:
            for folder, _, _ in os.walk(self._group, topdown=False):
                os.rmdir(folder)
        except OSError:
            return False
        return True
