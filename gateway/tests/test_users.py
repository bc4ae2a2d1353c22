"""Users, their passwords and what a wrong file of them is told."""

from __future__ import annotations

from pathlib import Path

import pytest

from alarmd_gateway import users

# The scrypt of RFC 7914, chapter 12, third row: password "pleaseletmein", salt "SodiumChloride", N 16384, r 8, p 1; its first 32 bytes.
PLEASE = "scrypt$16384$8$1$U29kaXVtQ2hsb3JpZGU=$cCO9yzr9c0hGHAbNgf046/2o+7qQT44+qbVD9lRdofI="


def test_the_key_is_that_of_the_standard() -> None:
    kept = users.read_hash(PLEASE)
    assert kept.key.hex().startswith("7023bdcb3afd7348461c06cd81fd38eb")
    assert kept.fits("pleaseletmein")
    assert not kept.fits("pleaseletmeout")
    assert kept.text() == PLEASE


def test_a_new_hash_fits_its_password_alone_and_has_a_salt_of_its_own() -> None:
    first, second = users.hash_of("correct horse"), users.hash_of("correct horse")
    assert first.salt != second.salt and first.key != second.key
    assert users.read_hash(first.text()).fits("correct horse")
    assert not first.fits("correct horsE")
    assert "key" not in repr(first) and first.text().split("$")[5] not in repr(first)


@pytest.mark.parametrize("password", ["", "x" * 1025])
def test_a_password_has_a_length(password: str) -> None:
    with pytest.raises(ValueError):
        users.hash_of(password)
    assert not users.read_hash(PLEASE).fits(password)


@pytest.mark.parametrize(
    "text",
    [
        "",
        "secret",
        PLEASE.replace("scrypt", "plain"),
        PLEASE.replace("16384", "16383"),
        PLEASE.replace("16384", "524288"),
        PLEASE.replace("16384", "-2"),
        PLEASE.replace("$8$", "$99$"),
        PLEASE.replace("16384$8$", "65536$1$"),
        PLEASE.replace("$1$", "$9$"),
        PLEASE.replace("U29k", "U2"),
        PLEASE + "$",
        PLEASE[:-8],
        "scrypt$16384$8$1$$" + PLEASE.split("$")[5],
    ],
)
def test_what_is_no_hash_is_refused(text: str) -> None:
    with pytest.raises(users.BadHash):
        users.read_hash(text)


@pytest.mark.parametrize("cost", ["2$1", "32768$1", "65536$2"])
def test_a_cost_that_is_taken_can_be_tried(cost: str) -> None:
    """Else whoever logs in by it is told of a fault of the gateway."""
    kept = users.read_hash(PLEASE.replace("16384$8", cost))
    assert not kept.fits("pleaseletmeout")


def write(folder: Path, *tables: str) -> Path:
    path = folder / "users.toml"
    path.write_text("".join(f"[[user]]\n{table}\n" for table in tables))
    return path


def table(name: str = '"anna"', consoles: str = "[1]", password: str = f'"{PLEASE}"') -> str:
    return f"name = {name}\nconsoles = {consoles}\npassword = {password}"


def test_a_file_of_users(tmp_path: Path) -> None:
    path = write(tmp_path, table(), table('"bert"', "[2, 1, 2]"))
    found = users.read_users(path, {1, 2})
    bert = found.named("bert")
    assert len(found) == 2 and bert is not None and bert.consoles == (1, 2)
    assert found.named("Anna") is None
    anna = found.check("anna", "pleaseletmein")
    assert anna is not None and anna.name == "anna"
    assert found.check("anna", "x") is None
    assert found.check("nobody", "pleaseletmein") is None


@pytest.mark.parametrize(
    ("tables", "words"),
    [
        ([], "there is no [[user]]"),
        (["name = "], "users.toml"),
        ([table() + "\nrole = 1"], "user 1: a user has the keys"),
        (['name = "anna"'], "user 1: a user has the keys"),
        ([table('"an na"')], "user 1: a name has"),
        ([table("5")], "user 1: a name has"),
        ([table(consoles='"1"')], "user 1: consoles is a list"),
        ([table(consoles="[true]")], "user 1: consoles is a list"),
        ([table(consoles="[]")], "user 1: consoles is empty"),
        ([table(), table('"bert"', "[3]")], "user 2: the plant has no console 3"),
        ([table(), table()], "user 2: 'anna' stands twice"),
        ([table(password='"secret"')], "user 1: password isn't what"),
        ([table(password="1")], "user 1: password is what"),
    ],
)
def test_a_wrong_file_is_told_in_a_sentence(tmp_path: Path, tables: list[str], words: str) -> None:
    with pytest.raises(users.BadUsers) as told:
        users.read_users(write(tmp_path, *tables), {1, 2})
    assert words in str(told.value)


def test_a_plant_without_consoles_has_users_without_one(tmp_path: Path) -> None:
    """They see all of it, and order nothing."""
    found = users.read_users(write(tmp_path, table(consoles="[]")), ())
    anna = found.named("anna")
    assert anna is not None and anna.consoles == ()


def test_other_wrong_files(tmp_path: Path) -> None:
    with pytest.raises(users.BadUsers) as told:
        users.read_users(tmp_path / "none.toml", {1})
    assert "No such file" in str(told.value)
    path = tmp_path / "users.toml"
    for text, words in (
        ("colour = 1", "'colour'"),
        ("user = 1", "[[user]]"),
        ("user = [1]", "[[user]]"),
        ("user = " + 5000 * "[" + 5000 * "]", "users.toml"),
    ):
        path.write_text(text)
        with pytest.raises(users.BadUsers) as told:
            users.read_users(path, {1})
        assert words in str(told.value)
    path.write_bytes(b"\xff")
    with pytest.raises(users.BadUsers):
        users.read_users(path, {1})
