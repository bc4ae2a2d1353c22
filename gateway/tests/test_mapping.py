"""The map: raw values and scaling, worked out by hand, and what is wrong in a map."""

from __future__ import annotations

import os
import subprocess
import sys
from dataclasses import replace
from datetime import datetime, timezone
from fractions import Fraction
from pathlib import Path

import pytest

from alarmd_gateway import config as configs
from alarmd_gateway import plant as plants
from alarmd_gateway.map_file import read
from alarmd_gateway.mapping import Area, BadRaw, Form, Map, Point, Scale, whole
from alarmd_gateway.model import GatewayFault, Kind, Plant, Region, Variable


def variable(name: str, kind: Kind, region: Region) -> Variable:
    return Variable(name, kind, region, False if kind is Kind.BOOL else 0, "p.st", 1)


LEVEL = variable("level", Kind.DINT, Region.INPUT)
DOOR = variable("Door", Kind.BOOL, Region.INPUT)
SPEED = variable("speed", Kind.DINT, Region.OUTPUT)
PUMP = variable("pump", Kind.BOOL, Region.OUTPUT)

PLANT = Plant(
    path=Path("plant.toml"),
    name="P",
    epoch=datetime(2026, 11, 23, 6, tzinfo=timezone.utc),
    areas=(),
    sources=(),
    alarm_file="alarms.csv",
    consoles=(),
    alarms=(),
    variables=(LEVEL, DOOR, SPEED, PUMP),
    inputs={"level": LEVEL, "door": DOOR},
    outputs={"speed": SPEED, "pump": PUMP},
    programs={},
    by_tag={},
)


def point(form: Form, low_word_first: bool = False, scale: Scale = Scale()) -> Point:
    return Point(LEVEL, Area.HOLDING, 0, form, low_word_first, None, scale)


@pytest.mark.parametrize(
    ("number", "wanted"),
    [("2.5", 3), ("-2.5", -3), ("2.4", 2), ("-2.4", -2), ("0", 0), ("0.5", 1), ("-0.49", 0)],
)
def test_halves_round_away_from_zero(number: str, wanted: int) -> None:
    assert whole(Fraction(number)) == wanted


@pytest.mark.parametrize(
    ("form", "low_word_first", "raw", "wanted"),
    [
        (Form.INT16, False, [0x7FFF], 32767),
        (Form.INT16, False, [0xFFFF], -1),
        (Form.UINT16, False, [0xFFFF], 65535),
        (Form.INT32, False, [0x0001, 0x0002], 65538),
        (Form.INT32, True, [0x0001, 0x0002], 131073),
        (Form.INT32, False, [0xFFFF, 0xFFFE], -2),
        (Form.UINT32, False, [0xFFFF, 0xFFFE], 4294967294),
        (Form.FLOAT32, False, [0x4148, 0x0000], 13),  # 12.5
        (Form.FLOAT32, True, [0x0000, 0xC148], -13),  # -12.5
    ],
)
def test_registers_spell_numbers(
    form: Form, low_word_first: bool, raw: list[int], wanted: int
) -> None:
    assert point(form, low_word_first).read(raw) == wanted


def test_no_number_is_a_bad_value() -> None:
    for word in (0x7FC0, 0x7F80, 0xFF80):  # none, and both infinities
        with pytest.raises(BadRaw):
            point(Form.FLOAT32).read([word, 0])


def test_scaling_is_exact() -> None:
    tenth = Scale(Fraction("0.1"), Fraction(-20))
    assert point(Form.INT16, scale=tenth).read([1005]) == 81  # 100.5 - 20 = 80.5
    assert point(Form.INT16, scale=Scale(Fraction(1, 3))).read([100]) == 33
    half = Scale(Fraction("0.05"))
    assert point(Form.INT32, scale=half).read([0x0098, 0x968A]) == 500_001  # 500,000.5


def test_bits_are_truths() -> None:
    coil = Point(DOOR, Area.COIL, 5, Form.INT16, False, None, Scale())
    assert coil.read([True]) is True and coil.read([False]) is False
    bit = Point(DOOR, Area.HOLDING, 5, Form.INT16, False, 3, Scale(invert=True))
    assert bit.read([0b1000]) is False and bit.read([0b0111]) is True


def test_outputs_become_registers() -> None:
    speed = Point(SPEED, Area.HOLDING, 0, Form.INT32, False, None, Scale(Fraction(10)))
    assert speed.write(6554) == [0x0001, 0x0004]  # 65,540
    assert replace(speed, low_word_first=True).write(6554) == [0x0004, 0x0001]
    assert replace(speed, form=Form.INT16).write(-1) == [0xFFF6]
    with pytest.raises(BadRaw):
        replace(speed, form=Form.UINT16).write(-1)
    with pytest.raises(BadRaw):
        replace(speed, form=Form.INT16).write(3277)  # 32,770
    pump = Point(PUMP, Area.COIL, 0, Form.INT16, False, None, Scale(invert=True))
    assert pump.write(True) == [0] and pump.write(False) == [1]


WHOLE = """
[[lines]]
name = "fifo"
path = "commands"
orders = true

[[mqtt]]
name = "broker"
host = "127.0.0.1"
port = 18830
[[mqtt.input]]
input = "LEVEL"
topic = "plant/level"
json = "value.mm"
scale = 0.1
[[mqtt.output]]
output = "pump"
topic = "plant/pump/set"

[[modbus]]
name = "plc"
host = "127.0.0.1"
poll_ms = 250
[[modbus.input]]
input = "door"
area = "holding"
address = 7
bit = 15
[[modbus.output]]
output = "speed"
area = "holding"
address = 8
form = "int32"
words = "low"
offset = -5

[stale_ms]
level = 2500
"""


def map_of(tmp_path: Path, text: str) -> Map:
    path = tmp_path / "map.toml"
    path.write_text(text)
    return read(path, PLANT)


def test_a_whole_map(tmp_path: Path) -> None:
    map = map_of(tmp_path, WHOLE)
    (lines,) = map.lines
    assert (lines.name, lines.path, lines.orders) == ("fifo", tmp_path / "commands", True)
    assert lines.hold and lines.retry.first == 0.5
    (broker,) = map.mqtt
    (topic,) = broker.inputs
    assert topic.variable is LEVEL and topic.path == ("value", "mm")
    assert topic.scale.factor == Fraction(1, 10)
    assert broker.outputs[0].retain and broker.quality == 1 and broker.client == "alarmd-broker"
    (plc,) = map.modbus
    assert plc.poll == 0.25 and plc.unit == 1 and plc.port == 502
    assert plc.inputs[0].bit == 15 and plc.inputs[0].length == 1
    assert plc.outputs[0].form is Form.INT32 and plc.outputs[0].low_word_first
    assert plc.outputs[0].scale.offset == -5 and plc.outputs[0].length == 2
    assert map.limits == (("level", 2.5),)


def test_how_long_a_lost_source_is_left_alone(tmp_path: Path) -> None:
    fifo = '[[lines]]\nname = "fifo"\npath = "commands"\n'
    for more, wanted in (
        ("", (0.5, 30.0)),
        ("retry_ms = 60000", (60.0, 60.0)),
        ("retry_ms = 100\nretry_most_ms = 100", (0.1, 0.1)),
    ):
        retry = map_of(tmp_path, fifo + more).lines[0].retry
        assert (retry.first, retry.most) == wanted
    with pytest.raises(GatewayFault):
        map_of(tmp_path, fifo + "retry_ms = 100\nretry_most_ms = 99")


def test_an_empty_map(tmp_path: Path) -> None:
    assert map_of(tmp_path, "") == Map()


@pytest.mark.parametrize(
    ("old", "new", "words"),
    [
        ('input = "LEVEL"', 'input = "pump"', "'input' of [mqtt[1].input[1]]"),
        ('output = "pump"', 'output = "level"', "'output'"),
        ('topic = "plant/level"', 'topic = "plant/#"', "'topic'"),
        ("scale = 0.1", "scale = 0", "'scale'"),
        ("scale = 0.1", 'scale = "a"', "'scale'"),
        ("scale = 0.1", "scale = nan", "'scale'"),
        ("scale = 0.1", "invert = true", "'invert'"),
        ("bit = 15", "bit = 16", "'bit'"),
        ("bit = 15", "", "'bit'"),
        ('area = "holding"\naddress = 8', 'area = "coil"\naddress = 8', "'area'"),
        ('area = "holding"\naddress = 8', 'area = "input"\naddress = 8', "'area'"),
        ("address = 7", "address = 65536", "'address'"),
        ('form = "int32"', 'form = "int64"', "'form'"),
        ('words = "low"', 'words = "middle"', "'words'"),
        ('name = "plc"', 'name = "broker"', "'name'"),
        ('name = "plc"', 'name = "the plc"', "'name'"),
        ('name = "plc"', 'name = "plc\\nSERVER"', "'name'"),
        ('name = "plc"', 'name = "\\u001b[2J"', "'name'"),
        ('host = "127.0.0.1"\npoll', "poll", "'host'"),
        ("poll_ms = 250", "poll = 250", "'poll'"),
        ("level = 2500", "flow = 2500", "'flow'"),
        ("level = 2500", "level = 0", "'level'"),
        ("level = 2500", "level = 2500\nLEVEL = 60000", "'LEVEL'"),
        ('input = "door"', 'input = "level"', "'input' of [modbus[1].input[1]]"),
        ("[stale_ms]", "[stale]", "'stale'"),
        ("[stale_ms]", "[stale_ms", "no TOML"),
        ("scale = 0.1", f"scale = 1{'0' * 5000}", "no TOML"),
        ("scale = 0.1", "scale = 1e99999999999999999999", "no TOML"),
        ("scale = 0.1", f"scale = {'[' * 5000}{']' * 5000}", "no TOML"),
        ('path = "commands"', 'path = ""', "'path'"),
        ('path = "commands"', 'path = "a\\u0000b"', "'path'"),
        ("port = 18830", 'username = "a"\npassword_file = "a\\u0000b"', "'password_file'"),
    ],
)
def test_what_is_wrong_is_named(tmp_path: Path, old: str, new: str, words: str) -> None:
    assert old in WHOLE
    with pytest.raises(GatewayFault) as found:
        map_of(tmp_path, WHOLE.replace(old, new, 1))
    assert words in found.value.words and "map.toml" in found.value.words
    assert found.value.status == 2


@pytest.mark.parametrize(
    ("old", "new", "words"),
    [
        ('host = "127.0.0.1"\nport', 'host = ""\nport', "'host' of [mqtt[1]]"),
        ('host = "127.0.0.1"\npoll', 'host = "a b"\npoll', "'host' of [modbus[1]]"),
        ("port = 18830", 'client = ""', "'client'"),
        ("port = 18830", 'password_file = "map.toml"', "'password_file'"),
        ('topic = "plant/level"', 'topic = "plant\\u0000"', "'topic'"),
        ('topic = "plant/level"', f'topic = "{"x" * 65536}"', "'topic'"),
        ('topic = "plant/level"', 'topic = "plant\\tlevel"', "'topic'"),
        ('topic = "plant/level"', 'topic = "$share/group/plant/level"', "'topic'"),
        ("address = 8", "address = 65535", "'address' of [modbus[1].output[1]]"),
    ],
)
def test_what_can_never_be_reached_is_refused(
    tmp_path: Path, old: str, new: str, words: str
) -> None:
    test_what_is_wrong_is_named(tmp_path, old, new, words)


def test_a_password_is_a_whole_line(tmp_path: Path) -> None:
    (tmp_path / "secret").write_bytes("a\x0b\u2028b c\r\nanother\n".encode())
    names = 'port = 18830\nusername = "u"\npassword_file = "secret"'
    map = map_of(tmp_path, WHOLE.replace("port = 18830", names))
    assert map.mqtt[0].password == "a\x0b\u2028b c"


OTHER_TOPIC = '[[mqtt.output]]\noutput = "speed"\ntopic = "plant/pump/set"\n'
OTHER_REGISTER = '[[modbus.output]]\noutput = "pump"\narea = "holding"\naddress = 9\n'
OTHER_DEVICE = '[[modbus]]\nname = "other"\nhost = "127.0.0.1"\n'
OTHER_BROKER = '[[mqtt]]\nname = "other"\nhost = "127.0.0.1"\n'


@pytest.mark.parametrize(
    ("more", "words"),
    [
        (OTHER_TOPIC, "'topic' of [mqtt[1].output[2]]"),
        (OTHER_REGISTER, "'address' of [modbus[1].output[2]]"),
        (OTHER_DEVICE + OTHER_REGISTER, "'address' of [modbus[2].output[1]]"),
        (OTHER_BROKER + 'port = 18830\nclient = "alarmd-broker"\n', "'client' of [mqtt[2]]"),
        ('[[lines]]\nname = "other"\npath = "commands"\n', "'path' of [lines[2]]"),
    ],
)
def test_two_at_one_place_are_refused(tmp_path: Path, more: str, words: str) -> None:
    """The later one would write over the earlier, take its connection, or its lines."""
    kind = next(it for it in ("mqtt", "modbus", "lines") if it in more)
    at = {"mqtt": "[[modbus]]", "modbus": "[stale_ms]", "lines": "[[mqtt]]"}[kind]
    with pytest.raises(GatewayFault) as found:
        map_of(tmp_path, WHOLE.replace(at, f"{more}{at}", 1))
    assert words in found.value.words and "stands in the map already" in found.value.words
    assert found.value.status == 2


@pytest.mark.parametrize(
    "more",
    [
        OTHER_REGISTER.replace("= 9", "= 10"),
        OTHER_REGISTER.replace("holding", "coil"),
        f"{OTHER_DEVICE}unit = 2\n{OTHER_REGISTER}",
    ],
)
def test_others_beside_each_other_are_taken(tmp_path: Path, more: str) -> None:
    map_of(tmp_path, WHOLE.replace("[stale_ms]", f"{more}[stale_ms]", 1))


@pytest.mark.parametrize("scale", ["1e999999999", "-1e-999999999"])
def test_a_scale_beyond_all_measure_is_refused_at_once(tmp_path: Path, scale: str) -> None:
    """In a process of its own: who writes out all its digits can't be interrupted."""
    path = tmp_path / "map.toml"
    path.write_text(WHOLE.replace("scale = 0.1", f"scale = {scale}"))
    program = f"import test_mapping as m; m.read(m.Path({str(path)!r}), m.PLANT)"
    words = [sys.executable, "-B", "-c", program]
    folders = {"PYTHONPATH": os.pathsep.join(sys.path)}
    done = subprocess.run(words, env=folders, capture_output=True, timeout=30, check=False)
    assert b"'scale' of [mqtt[1].input[1]] has to be a number of at most" in done.stderr


def test_a_map_that_is_not_there(tmp_path: Path) -> None:
    with pytest.raises(GatewayFault) as found:
        read(tmp_path / "none.toml", PLANT)
    assert found.value.status == 2 and "none.toml" in found.value.words


def test_the_example_is_right(examples: Path) -> None:
    for name in ("gateway", "lines"):
        config = configs.read(examples / "gateway" / f"{name}.toml")
        assert config.plant.samefile(examples / "tank" / "plant.toml")
    plant = plants.read(examples / "tank" / "plant.toml")
    map = read(examples / "gateway" / "map.toml", plant)
    assert {topic.variable.name for topic in map.mqtt[0].inputs} == set(
        one.name for one in plant.inputs.values()
    )
