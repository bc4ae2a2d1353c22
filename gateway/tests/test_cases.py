"""Cases: the format, what differs beside each other, statuses; and the cases of the examples."""

from __future__ import annotations

import shutil
from pathlib import Path

import pytest

from alarmd_gateway import plant as plants
from alarmd_gateway.case_text import Cases
from alarmd_gateway.cases import beside, main, split_answers
from alarmd_gateway.model import GatewayFault

EXAMPLES = [
    "built_in",
    "coldroom",
    "rooms",
    "tank",
    "tank/model",
    "pumps",
    "farm",
    "burner",
    "boilers",
]


def run(alarmd: Path, plant: Path, *cases: Path) -> int:
    return main(["test", str(plant), *map(str, cases), "--alarmd", str(alarmd)])


@pytest.mark.server
@pytest.mark.parametrize("name", EXAMPLES)
def test_the_examples_are_as_expected(alarmd: Path, examples: Path, name: str) -> None:
    assert run(alarmd, examples / name / "plant.toml", examples / name / "cases") == 0


@pytest.mark.parametrize("name", EXAMPLES)
def test_each_alarm_of_an_example_is_seen_as_one(examples: Path, name: str) -> None:
    plant = plants.read(examples / name / "plant.toml")
    cases = Cases("cases", plant).read((examples / name / "cases").read_text())
    expected = [one for case in cases for step in case.steps for one in step.expected]
    seen = {one.subject for one in expected if one.wanted in ("UNACK", "LATUN")}
    lines = [line.split() for case in cases for step in case.steps for line in step.answer or ()]
    seen |= {words[2] for words in lines if words[0] == "ALARM" and words[4] == "UNACK"}
    assert set(plant.by_tag) <= seen


def test_a_line_ends_where_an_editor_says_so(examples: Path) -> None:
    """And no remark goes on as a command behind another sign."""
    plant = plants.read(examples / "tank" / "plant.toml")
    (case,) = Cases("cases", plant).read("case a\x0cb\n# no\u2028ack 1 LAL-101\nscan\x0b5\n")
    assert case.name == "a b"
    assert [(step.line, step.command) for step in case.steps] == [(3, ""), (3, "scan 5")]


@pytest.mark.parametrize("seconds", ["inf", "nan", "-1", "0", "1e400"])
def test_a_time_without_measure_is_refused(seconds: str) -> None:
    with pytest.raises(GatewayFault) as found:
        main(["test", "plant.toml", "cases", "--seconds", seconds])
    assert found.value.status == 2 and "--seconds" in found.value.words


@pytest.mark.server
@pytest.mark.parametrize(
    ("old", "new", "shown"),
    [
        (
            "expect LAL-101 ACKED",
            "expect LAL-101 UNACK",
            """cases:7: the pump starts
    ack 1 LAL-101
    expected        got
  ! LAL-101 UNACK   LAL-101 ACKED
""",
        ),
        (
            "expect pump true",
            "expect PUMP FALSE",
            """cases:5: the pump starts
    scan 1000 level=250
    expected     got
  ! PUMP FALSE   PUMP TRUE
""",
        ),
        (
            "  OUT . pump TRUE\n",
            "",
            """cases:12: it stops
    scan 1000 running=TRUE
    expected                         got
    ALARM 1000 LAL-101 SUPPR UNACK   ALARM 1000 LAL-101 SUPPR UNACK
  !                                  OUT 1000 pump TRUE
    DONE 1000 2                      DONE 1000 2
""",
        ),
        (
            "ack 1 LAL-101",
            "ack 9 LAL-101",
            """cases:6: the pump starts
    ack 9 LAL-101
    expected           got
  ! that it is taken   REPLY O2
""",
        ),
        (
            "expect REFUSED E1",
            "expect REFUSED E4",
            """cases:18: it stops
    scan 999
    expected     got
  ! REFUSED E4   REFUSED E1
""",
        ),
    ],
)
def test_what_differs_is_shown(
    alarmd: Path,
    examples: Path,
    tmp_path: Path,
    capsys: pytest.CaptureFixture[str],
    old: str,
    new: str,
    shown: str,
) -> None:
    text = """# right
case the pump starts
scan 0 running=TRUE flow=100
scan +1000 level=250
expect pump true
ack 1 LAL-101
expect LAL-101 ACKED
expect level 250

case it stops
scan 0 level=250 flow=100
scan +1000 running=TRUE
  ALARM . LAL-101 SUPPR UNACK
  OUT . pump TRUE
  DONE . 2
expect dose RUNS
scan 999
expect REFUSED E1
"""
    assert old in text
    path = tmp_path / "cases"
    path.write_text(text)
    assert run(alarmd, examples / "tank" / "plant.toml", path) == 0
    path.write_text(text.replace(old, new, 1))
    capsys.readouterr()
    assert run(alarmd, examples / "tank" / "plant.toml", path) == 1
    out = capsys.readouterr().out
    assert out.startswith(str(tmp_path) + "/" + shown)
    assert out.endswith("2 cases, 1 differs\n")


@pytest.mark.server
def test_a_changed_logic_differs(alarmd: Path, examples: Path, tmp_path: Path) -> None:
    shutil.copytree(examples / "tank", tmp_path / "tank")
    source = tmp_path / "tank" / "watch.st"
    source.write_text(source.read_text().replace("dry >= 2", "dry >= 3"))
    assert run(alarmd, tmp_path / "tank" / "plant.toml", examples / "tank" / "cases") == 1


@pytest.mark.parametrize(
    ("text", "words"),
    [
        ("", ":0: there is no case"),
        ("# nothing\n", "there is no case"),
        ("case a\n", ":1: there is nothing in this case"),
        ("\ncase a\n# scan 0\n\ncase b\nscan 0\n", ":2: there is nothing in this case"),
        ("scan 0\ncase b\n", ":2: there is nothing in this case"),
        ("case a\nexepct LAL-101 UNACK", ":2: no line begins with 'exepct'"),
        ("scan level=250", ":1: a scan has a moment"),
        ("scan +", ":1: a scan has a moment"),
        ("scan 4000000000000\nscan +1", ":2: a moment is at most"),
        ("expect LAL-101", ":1: `expect` is followed by two words"),
        ("expect LAL-100 UNACK", ":1: the plant has no alarm LAL-100"),
        ("expect LAL-101 UNAK", ":1: an alarm's codes are NORM"),
        ("expect dosing STOPPED", ":1: the plant has no program dosing"),
        ("expect ratio_high TRUE", ":1: the plant has no input or output ratio_high"),
        ("expect pump on", ":1: on is no BOOL"),
        ("expect level 1.5", ":1: 1.5 is no DINT"),
        ("  DONE 0 0", ":1: an answer's line stands below a command"),
    ],
)
def test_wrong_words_are_status_2(examples: Path, tmp_path: Path, text: str, words: str) -> None:
    plant = plants.read(examples / "tank" / "plant.toml")
    with pytest.raises(GatewayFault) as found:
        Cases("cases", plant).read(text)
    assert words in found.value.words and found.value.status == 2


def test_a_refused_plant_is_status_3(alarmd: Path, examples: Path) -> None:
    for name in ("c6", "folder"):
        with pytest.raises(GatewayFault) as found:
            run(alarmd, examples / "refused" / f"{name}.toml", examples / "built_in" / "cases")
        assert found.value.status == 3


@pytest.mark.server
@pytest.mark.parametrize(
    ("file", "old", "new"),
    [
        ("points.st", "END_VAR", ""),
        ("watch.st", "END_PROGRAM", "END_PROGRAM PROGRAM"),
        ("alarms.csv", "", ""),
        ("alarms.csv", "Tank level low", '"Tank level low'),
    ],
)
def test_a_plant_that_ends_too_early_is_refused_in_the_words_of_alarmd(
    alarmd: Path, examples: Path, tmp_path: Path, file: str, old: str, new: str
) -> None:
    shutil.copytree(examples / "tank", tmp_path / "tank")
    path = tmp_path / "tank" / file
    rows = "".join(f"T{number},tank,3,level_low,,FALSE,0,0,text\n" for number in range(5000))
    text = path.read_text() + (rows if file == "alarms.csv" else "")
    path.write_text(text.replace(old, new) if old else "")
    with pytest.raises(GatewayFault) as found:
        run(alarmd, tmp_path / "tank" / "plant.toml", examples / "tank" / "cases")
    assert found.value.status == 3 and "has ended with status 3" in found.value.words
    with pytest.raises(GatewayFault) as found:
        plants.read(tmp_path / "tank" / "plant.toml")
    assert found.value.status == 3


@pytest.mark.parametrize(
    ("cases", "words"),
    [
        (None, "No such file"),
        (b"case \xff", "is no UTF-8"),
        (b"\xef\xbb\xbfcase a\r\nscan 0 a=5\r\nexpect T1 UNACK\r\n", ""),
    ],
)
@pytest.mark.server
def test_a_file_that_cannot_be_read(
    alarmd: Path, examples: Path, tmp_path: Path, cases: bytes | None, words: str
) -> None:
    path, plant = tmp_path / "cases", examples / "built_in" / "plant.toml"
    if cases is not None:
        path.write_bytes(cases)
    if words:
        with pytest.raises(GatewayFault) as found:
            run(alarmd, plant, path)
        assert found.value.status == 2 and words in found.value.words
    else:
        assert run(alarmd, plant, path) == 0


def test_words_that_are_wrong_are_a_line() -> None:
    with pytest.raises(GatewayFault) as found:
        main(["test", "plant.toml"])
    assert found.value.status == 2 and "CASES" in found.value.words


def test_no_alarmd_is_status_2(examples: Path, tmp_path: Path) -> None:
    tank = examples / "tank"
    with pytest.raises(GatewayFault) as found:
        run(tmp_path / "alarmd", tank / "plant.toml", tank / "cases")
    assert found.value.status == 2


def test_an_answer_ends_at_the_line_behind_it() -> None:
    lines = ["DONE 0 0", "REFUSED E2", "REFUSED E2", "REFUSED E2", "REPLY OK", "REFUSED E2"]
    commands = ["scan 0", "scan 4000000000001", "restart 1 p"]
    assert list(split_answers(lines, commands)) == [["DONE 0 0"], ["REFUSED E2"], ["REPLY OK"]]


def test_equal_lines_stand_beside_each_other() -> None:
    assert list(beside(["a", "b", "d"], ["a", "c", "x", "d"])) == [
        ("a", "a"),
        ("b", "c"),
        ("", "x"),
        ("d", "d"),
    ]


@pytest.mark.server
def test_listings_are_whole_answers_too(alarmd: Path, examples: Path, tmp_path: Path) -> None:
    path = tmp_path / "cases"
    path.write_text(
        """scan 0 level=250 flow=100 running=TRUE
list
  STATE LAL-101 UNACK 3
  COUNT tank 1 NORM 1
  COUNT tank 2 NORM 2
  COUNT tank 3 UNACK 1
  COUNT dosing 3 NORM 1
  END 5
journal
  1 2026-11-23T06:00:00.000Z ALARM LAL-101 NORM UNACK
  END 1
scan 4000000000000
scan 4000000000000 level=400
expect LAL-101 RTNUN
restart 1 dose
  REPLY O5
"""
    )
    assert run(alarmd, examples / "tank" / "plant.toml", path) == 0
