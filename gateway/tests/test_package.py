"""gateway/package: what it refuses to pack, that the same files give the same package, and that lintian finds no error in it."""

from __future__ import annotations

import hashlib
import os
import re
import shutil
import subprocess
from pathlib import Path

import pytest
from package_help import GATEWAY, build, built, fields

pytestmark = [
    pytest.mark.server,
    pytest.mark.skipif(shutil.which("dpkg-shlibdeps") is None, reason="wants the package dpkg-dev"),
]


@pytest.fixture(scope="module")
def package(alarmd: Path, tmp_path_factory: pytest.TempPathFactory) -> Path:
    """The package of the tests' program."""
    return built(alarmd, tmp_path_factory.mktemp("package"))


def test_its_name_is_its_version_and_its_needs_are_known(package: Path) -> None:
    day = re.search(
        r"(?m)^## (\d{4})-(\d\d)-(\d\d)$", (GATEWAY.parent / "CHANGELOG.md").read_text()
    )
    assert day is not None
    assert re.fullmatch(
        rf"alarmd_0\.1\.0(~trial)?\+{''.join(day.groups())}-1_amd64\.deb", package.name
    )
    told = fields(package)
    assert package.name == f"alarmd_{told['Version']}_{told['Architecture']}.deb"
    names = subprocess.run(
        [GATEWAY / "setup", "--serving", "--names"], capture_output=True, text=True, check=True
    )
    depends = re.sub(r" \([^)]*\)", "", told["Depends"]).split(", ")
    assert {"libc6", "adduser", *names.stdout.split()} <= set(depends)
    assert re.search(r"libc6 \(>= 2\.\d+\)", told["Depends"])


def test_the_program_is_packed_as_it_is(alarmd: Path, package: Path, tmp_path: Path) -> None:
    subprocess.run(["dpkg-deb", "-x", package, tmp_path], check=True)
    packed = (tmp_path / "usr/bin/alarmd").read_bytes()
    assert hashlib.sha256(packed).digest() == hashlib.sha256(alarmd.read_bytes()).digest()
    modes = {path.stat().st_mode & 0o777 for path in tmp_path.rglob("*") if not path.is_symlink()}
    assert modes == {0o644, 0o755}


def test_the_same_files_give_the_same_package(alarmd: Path, package: Path, tmp_path: Path) -> None:
    copy = tmp_path / "gateway"
    for name in ("gateway", "docs", "examples/tank"):
        skipped = shutil.ignore_patterns("out", "__pycache__", "pictures")
        shutil.copytree(GATEWAY.parent / name, tmp_path / name, ignore=skipped)
    for name in ("README.md", "CHANGELOG.md"):
        shutil.copy(GATEWAY.parent / name, tmp_path / name)  # with times of its own
    (copy / "alarmd_gateway" / "__pycache__").mkdir()
    (copy / "alarmd_gateway" / "__pycache__" / "cli.pyc").touch()
    os.chmod(copy / "debian" / "gateway.toml", 0o600)
    again = built(alarmd, tmp_path / "out", copy)
    assert again.name == package.name and again.read_bytes() == package.read_bytes()


def test_the_unit_is_the_one_that_operation_explains() -> None:
    page = (GATEWAY.parent / "docs" / "OPERATION.md").read_text()
    shown = page[page.index("    [Unit]\n") :].partition("| line | why |")[0]
    lines = [line.removeprefix("    ") for line in shown.splitlines() if line]
    unit = (GATEWAY / "debian" / "alarmd.service").read_text().splitlines()
    left = iter(line for line in unit if not line.startswith("Documentation="))
    assert len(lines) > 20 and all(line in left for line in lines)  # in this order


STAND_INS = {
    "there is none": ("", "build it by `rt run`"),
    "it is no program for this machine": ("#!/bin/sh\necho alarmd 0.1.0\n", "no program for amd64"),
}


@pytest.mark.parametrize("case", STAND_INS)
def test_what_is_no_alarmd_is_refused(case: str, tmp_path: Path) -> None:
    text, told = STAND_INS[case]
    if text:
        (tmp_path / "alarmd").write_text(text)
        (tmp_path / "alarmd").chmod(0o755)
    done = build(tmp_path / "alarmd", tmp_path / "out")
    assert done.returncode == 1 and told in done.stderr
    assert not list(tmp_path.glob("out/*"))


def test_a_program_that_does_something_else_is_refused(tmp_path: Path) -> None:
    shutil.copy("/usr/bin/true", tmp_path / "alarmd")
    done = build(tmp_path / "alarmd", tmp_path / "out")
    assert done.returncode == 1 and "--version answers" in done.stderr
    shutil.copy("/usr/bin/true", tmp_path / "alarmd")
    with open(tmp_path / "alarmd", "r+b") as file:
        file.truncate(4096)
    done = build(tmp_path / "alarmd", tmp_path / "out")
    assert done.returncode == 1 and not list(tmp_path.glob("out/*"))


def test_a_program_with_another_answer_is_refused(alarmd: Path, tmp_path: Path) -> None:
    copy = tmp_path / "gateway"
    for name in ("gateway", "examples/tank"):
        shutil.copytree(GATEWAY.parent / name, tmp_path / name)
    answers = tmp_path / "examples" / "tank" / "answers"
    answers.write_text(answers.read_text().replace("ratio 30", "ratio 31", 1))
    done = build(alarmd, tmp_path / "out", copy)
    assert done.returncode == 1 and "doesn't answer" in done.stderr


def test_a_program_without_proofs_wants_a_word_and_a_version_of_its_own(
    alarmd: Path, package: Path, tmp_path: Path
) -> None:
    if b"__asan_init" not in alarmd.read_bytes():
        assert "trial" not in package.name
        return
    assert "0.1.0~trial+" in package.name
    words = [str(GATEWAY / "package"), "--out", str(tmp_path)]
    done = subprocess.run(
        words, capture_output=True, text=True, env={**os.environ, "ALARMD": str(alarmd)}
    )
    assert done.returncode == 1 and "not proved" in done.stderr


@pytest.mark.skipif(shutil.which("lintian") is None, reason="wants the package lintian")
def test_lintian_finds_no_error_and_no_warning(package: Path) -> None:
    done = subprocess.run(
        ["lintian", "--display-info", "--fail-on", "warning", str(package)],
        capture_output=True,
        text=True,
    )
    assert done.returncode == 0, done.stdout + done.stderr
    assert "override" not in done.stdout, done.stdout  # each one has what it is for
