"""The plant's files as the gateway reads them. Expected values are those of the pages on plants and the language."""

from __future__ import annotations

from datetime import datetime, timezone
from pathlib import Path

import pytest

from alarmd_gateway import plant, statements
from alarmd_gateway.constants import value
from alarmd_gateway.model import GatewayFault, Kind, Region
from alarmd_gateway.tokens import cut


@pytest.mark.parametrize(
    ("text", "wanted"),
    [
        ("1_000", 1000),
        ("16#FF", 255),
        ("2#1010", 10),
        ("-5", -5),
        ("dint#-16#ff", -255),
        ("TRUE", True),
        ("BOOL#0", False),
        ("NOT FALSE AND TRUE", True),
        ("TRUE OR TRUE XOR TRUE", True),
        ("2 + 3 * 4", 14),
        ("10 - 4 - 3", 3),
        ("-7 / 2", -3),
        ("-7 MOD 2", -1),
        ("5 MOD 0", 0),
        ("(2 + 3) * 4", 20),
        ("3 < 4", True),
        ("T#25h_15m", 90_900_000),
        ("T#14.7s", 14_700),
        ("TIME#-1d2h", -93_600_000),
        ("t#5ms + T#1s", 1005),
        ("-2147483648", -2147483648),
        ("(" * 127 + "TRUE" + ")" * 127, True),  # as deep as alarmd takes it
        ("1 + (" * 64 + "2" + ")" * 64, 66),
        ("FALSE OR FALSE XOR TRUE & 1 + 2 * 3 - 4 < 5 - 1 = TRUE", True),
    ],
)
def test_constants(text: str, wanted: bool | int) -> None:
    assert value(cut(text.encode())) == wanted


def test_comments_and_lines() -> None:
    tokens = cut(b"\xef\xbb\xbf(*)\n\xff *) x /* \n*/ // y\n:= 5..7;")
    assert [(one.text, one.line) for one in tokens] == [
        ("x", 2),
        (":=", 4),
        ("5", 4),
        ("..", 4),
        ("7", 4),
        (";", 4),
    ]


def test_the_tank(examples: Path) -> None:
    tank = plant.read(examples / "tank" / "plant.toml")
    assert (tank.name, tank.epoch) == (
        "Buffer tank",
        datetime(2026, 11, 23, 6, tzinfo=timezone.utc),
    )
    assert [(row.number, row.areas) for row in tank.consoles] == [
        (1, ("tank", "dosing")),
        (2, ("dosing",)),
    ]
    assert list(tank.inputs) == ["running", "level", "temperature", "flow", "additive"]
    assert (tank.inputs["level"].initial, tank.inputs["running"].initial) == (500, False)
    assert [(one.name, one.kind) for one in tank.outputs.values()] == [
        ("pump", Kind.BOOL),
        ("heater", Kind.BOOL),
        ("ratio", Kind.DINT),
    ]
    row = tank.by_tag["TAHH-102"]
    assert (row.area, row.priority, row.latch, row.text) == (
        "tank",
        1,
        True,
        "Tank too hot, look at the heater",
    )
    assert [program.name for program in tank.programs.values()] == ["fill", "heat", "dose", "watch"]


def write(folder: Path, source: str, alarms: str = "", sources: str = '"logic/p.st"') -> Path:
    """A plant with one source in a folder below."""
    (folder / "logic").mkdir(exist_ok=True)
    (folder / "logic" / "p.st").write_text(source)
    header = "tag,area,priority,condition,suppress,latch,max_shelve_ms,text\n"
    (folder / "alarms.csv").write_text(alarms or header)
    path = folder / "plant.toml"
    path.write_text(
        f'name = "P"\nepoch = "2024-01-01T00:00:00Z"\nareas = ["north"]\nsources = [{sources}]\nalarms = "alarms.csv"\n'
    )
    return path


def test_globals(tmp_path: Path) -> None:
    source = """VAR_GLOBAL
  A at %ix0.0 : BOOL := 1; n AT %QD0 : DINT := 2 + 3;
END_VAR VAR_GLOBAL x, Y : TIME := T#2s; END_VAR PROGRAM P END_PROGRAM"""
    found = plant.read(write(tmp_path, source))
    assert [(one.name, one.kind, one.region, one.initial, one.line) for one in found.variables] == [
        ("A", Kind.BOOL, Region.INPUT, True, 2),
        ("n", Kind.DINT, Region.OUTPUT, 5, 2),
        ("x", Kind.TIME, Region.MEMORY, 2000, 3),
        ("Y", Kind.TIME, Region.MEMORY, 2000, 3),
    ]


def test_arrays_are_passed_over(tmp_path: Path) -> None:
    source = """VAR_GLOBAL
  w, v : ARRAY[-1..2] OF DINT; a AT %IX0.0 : BOOL; f : array [ 16#0 .. 3 ] of BOOL;
END_VAR
PROGRAM p
  VAR_EXTERNAL w : ARRAY[-1..2] OF DINT; END_VAR
  VAR i : DINT; END_VAR
  w[-1] := 7;          (* 1 *)
  FOR i := 0 TO 2 DO   (* 2 *)
    w[i] := w[i - 1];  (* 3 *)
  END_FOR;
  CASE w[1] OF         (* 4 *)
    7: f[w[0]] := a;   (* 5 *)
  END_CASE;
END_PROGRAM"""
    found = plant.read(write(tmp_path, source))
    assert [(one.name, one.line) for one in found.variables] == [("a", 2)]
    places = [statements.read(found).place("p", number) for number in range(1, 7)]
    assert [place.line if place else 0 for place in places] == [7, 8, 9, 11, 12, 0]


def test_the_column_of_delays_may_be_there(tmp_path: Path) -> None:
    alarms = (
        "tag,area,priority,condition,suppress,latch,max_shelve_ms,on_delay_ms,text\r\n"
        'T1,north,2,c,,1,5000,250,"a, ""b"""\r\n\r\nT2,north,1,c,s,false,0,0,x'
    )
    source = "VAR_GLOBAL c, s : BOOL; END_VAR"
    rows = plant.read(write(tmp_path, source, alarms)).alarms
    assert [(row.tag, row.on_delay_ms, row.latch, row.text) for row in rows] == [
        ("T1", 250, True, 'a, "b"'),
        ("T2", 0, False, "x"),
    ]


def test_files_are_those_that_the_plant_names(tmp_path: Path) -> None:
    elsewhere = tmp_path / "elsewhere.st"
    elsewhere.write_text("")
    path = write(tmp_path, "", sources=f'"logic/p.st", "{elsewhere}"')
    (tmp_path / "notes.csv").write_text("")
    wanted = [path, tmp_path / "logic" / "p.st", elsewhere, tmp_path / "alarms.csv"]
    assert plant.files(plant.read(path)) == wanted


def test_a_plant_that_is_not_there(tmp_path: Path) -> None:
    with pytest.raises(GatewayFault) as fault:
        plant.read(tmp_path / "plant.toml")
    assert fault.value.status == 3
    assert "No such file" in fault.value.words


def test_statements_are_numbered_by_their_first_tokens(tmp_path: Path) -> None:
    source = """VAR_GLOBAL x, y : DINT; END_VAR
FUNCTION_BLOCK Inner
  VAR a : DINT; END_VAR
  a := 1;
END_FUNCTION_BLOCK
FUNCTION_BLOCK Outer
  VAR i, j : Inner; END_VAR
  i(); j();
END_FUNCTION_BLOCK
PROGRAM p
  VAR o : Outer; k : DINT; END_VAR
  IF x > 0 THEN        (* 1 *)
    y := 1;            (* 2 *)
    ;                  (* 3 *)
  ELSIF x < -9 THEN
    FOR k := 1 TO 9 DO (* 4 *)
      o();             (* 5 *)
    END_FOR;
  ELSE
    CASE x OF          (* 6 *)
      -1, 2..5: y := 2; ; (* 7 8 *)
      6: y := 3;       (* 9 *)
    ELSE y := 1 / x;   (* 10 *)
    END_CASE;
  END_IF;
  y := 2;              (* 11 *)
END_PROGRAM"""
    found = statements.read(plant.read(write(tmp_path, source)))
    lines = [12, 13, 14, 16, 17, 20, 21, 21, 22, 23, 26]
    places = [found.place("P", number) for number in range(1, 13)]
    assert [place.line if place else 0 for place in places] == [*lines, 0]
    assert found.place("p.O.j", 1) == statements.Place("logic/p.st", 4)
    assert found.place("p.o", 2) == statements.Place("logic/p.st", 8)
    assert found.place("p.o.nothing", 1) is None
