"""Reads the map of a plant's field: a TOML file beside the configuration, which names it (`[fields]`, `map = "map.toml"`)."""

from __future__ import annotations

import tomllib
from decimal import Decimal
from fractions import Fraction
from pathlib import Path

from .config import NO_TOML, WORDS_STATUS, Config, Table
from .disk import content
from .mapping import (
    Area,
    Form,
    LinesSource,
    Map,
    ModbusSource,
    MqttSource,
    Point,
    Retry,
    Scale,
    Topic,
)
from .model import GatewayFault, Kind, Plant, Variable

LARGEST_SCALE = 10**12
LONGEST_TEXT = 65_535  # bytes of a text of MQTT
FARTHEST = 100  # places between a number's point and its first digit: all digits of 1e999999999 would take minutes and gigabytes


class Reader:
    """Reads a map for a plant. All that is wrong is a GatewayFault (status 2)."""

    def __init__(self, plant: Plant) -> None:
        self._plant = plant
        self._names: set[str] = set()
        self._inputs: set[str] = set()
        self._taken: set[tuple[object, ...]] = set()  # places and names that only one may have

    def read(self, table: Table) -> Map:
        """The map of a whole document."""
        map = Map(
            lines=tuple(self._lines(one) for one in table.tables("lines")),
            mqtt=tuple(self._mqtt(one) for one in table.tables("mqtt")),
            modbus=tuple(self._modbus(one) for one in table.tables("modbus")),
            limits=self._limits(table.table("stale_ms")),
        )
        table.end()
        return map

    def _name(self, table: Table) -> str:
        name = table.text("name")
        if name.split() != [name] or not name.isprintable() or name in self._names:
            raise table.wrong("name", "a word that no other source is called")
        self._names.add(name)
        return name

    def _claim(self, table: Table, key: str, *places: tuple[object, ...]) -> None:
        """Nobody else may have one of these places, which the key names."""
        if not self._taken.isdisjoint(places):
            raise table.wrong(key, "another one: it stands in the map already")
        self._taken.update(places)

    def _retry(self, table: Table) -> Retry:
        first = table.number("retry_ms", 500, 10, 3_600_000)
        most = table.number("retry_most_ms", max(30_000, first), first, 3_600_000)
        return Retry(first / 1000, most / 1000)

    def _lines(self, table: Table) -> LinesSource:
        name, path = self._name(table), table.path("path")
        self._claim(table, "path", ("path", path))
        source = LinesSource(
            name,
            path,
            table.truth("orders", False),
            table.truth("hold", True),
            self._retry(table),
        )
        table.end()
        return source

    def _mqtt(self, table: Table) -> MqttSource:
        name = self._name(table)
        ca = table.path("ca") if table.has("ca") else None
        username = table.text("username") if table.has("username") else None
        if username is None and table.has("password_file"):
            raise table.wrong("password_file", "left out, where there is no 'username'")
        password = read_secret(table.path("password_file")) if table.has("password_file") else None
        broker = (host_of(table), table.number("port", 8883 if ca else 1883, 1, 65535))
        client = mqtt_text(table, "client", f"alarmd-{name}")
        self._claim(table, "client", ("client", *broker, client))
        source = MqttSource(
            name,
            *broker,
            client,
            username,
            password,
            ca,
            table.number("qos", 1, 0, 2),
            self._retry(table),
            tuple(self._topic(one) for one in table.tables("input")),
            tuple(self._topic(one, broker) for one in table.tables("output")),
        )
        table.end()
        return source

    def _modbus(self, table: Table) -> ModbusSource:
        name, device = self._name(table), (host_of(table), table.number("port", 502, 1, 65535))
        unit = table.number("unit", 1, 0, 255)
        source = ModbusSource(
            name,
            *device,
            unit,
            table.number("poll_ms", 1000, 10, 3_600_000) / 1000,
            table.number("timeout_ms", 3000, 10, 600_000) / 1000,
            self._retry(table),
            tuple(self._point(one) for one in table.tables("input")),
            tuple(self._point(one, (*device, unit)) for one in table.tables("output")),
        )
        table.end()
        return source

    def _variable(self, table: Table, is_input: bool) -> Variable:
        key = "input" if is_input else "output"
        found = (self._plant.inputs if is_input else self._plant.outputs).get(
            table.text(key).lower()
        )
        if found is None:
            raise table.wrong(key, f"the name of an {key} of the plant")
        if is_input and found.name in self._inputs:
            raise table.wrong(key, "an input that no other place of the map brings")
        if is_input:
            self._inputs.add(found.name)
        return found

    def _scale(self, table: Table, kind: Kind) -> Scale:
        if kind is Kind.BOOL:
            return Scale(invert=table.truth("invert", False))
        factor = fraction(table, "scale", Fraction(1))
        if factor == 0:
            raise table.wrong("scale", "another number than 0")
        return Scale(factor, fraction(table, "offset", Fraction(0)))

    def _topic(self, table: Table, broker: tuple[object, ...] | None = None) -> Topic:
        """The topic of an input, or of an output at a broker."""
        is_input = broker is None
        variable = self._variable(table, is_input)
        topic = mqtt_text(table, "topic")
        if "+" in topic or "#" in topic:
            raise table.wrong("topic", "a topic without + and #")
        if topic.startswith("$share/"):  # what comes by it bears another topic
            raise table.wrong("topic", "the topic itself, without $share/GROUP/")
        if broker is not None:
            self._claim(table, "topic", ("topic", *broker, topic))
        path = table.text("json", "") if is_input else ""
        retain = False if is_input else table.truth("retain", True)
        scale = self._scale(table, variable.kind)
        table.end()
        return Topic(variable, topic, tuple(path.split(".")) if path else (), scale, retain)

    def _point(self, table: Table, device: tuple[object, ...] | None = None) -> Point:
        """The point of an input, or of an output at a device."""
        is_input = device is None
        variable = self._variable(table, is_input)
        areas = [it.value for it in Area if is_input or it in (Area.HOLDING, Area.COIL)]
        area = Area(word(table, "area", areas))
        address = table.number("address", None, 0, 65535)
        form, low, bit = Form.INT16, False, None
        if variable.kind is not Kind.BOOL:
            if area.bits:
                raise table.wrong("area", "holding or input, since the variable is no BOOL")
            form = Form[word(table, "form", [it.name.lower() for it in Form], "int16").upper()]
            low = form.registers == 2 and word(table, "words", ["high", "low"], "high") == "low"
        elif is_input and not area.bits:
            bit = table.number("bit", None, 0, 15)
        point = Point(variable, area, address, form, low, bit, self._scale(table, variable.kind))
        if address + point.length > 65536:
            raise table.wrong("address", "65534 at most, where there are two registers")
        if device is not None:
            places = range(address, address + point.length)
            self._claim(table, "address", *((*device, area, place) for place in places))
        table.end()
        return point

    def _limits(self, table: Table) -> tuple[tuple[str, float], ...]:
        limits: dict[str, float] = {}
        for key in table.keys():
            found = self._plant.inputs.get(key.lower())
            if found is None:
                raise table.wrong(key, "left out: no input of the plant has this name")
            if found.name in limits:
                raise table.wrong(key, "left out: this input stands there already")
            limits[found.name] = table.number(key, None, 1, 10**9) / 1000
        return tuple(limits.items())


def host_of(table: Table) -> str:
    """The name or the address of a machine."""
    host = table.text("host")
    if host.split() != [host] or not host.isprintable():
        raise table.wrong("host", "the name or the address of a machine")
    return host


def mqtt_text(table: Table, key: str, default: str | None = None) -> str:
    """A text that a message of MQTT can have."""
    text = table.text(key, default)
    controls = any(ord(one) < 32 or 127 <= ord(one) < 160 for one in text)  # brokers end then
    if not 1 <= len(text.encode()) <= LONGEST_TEXT or controls:
        raise table.wrong(key, f"a text of 1 to {LONGEST_TEXT} bytes without control characters")
    return text


def word(table: Table, key: str, words: list[str], default: str | None = None) -> str:
    """A text that is one of some words."""
    found = table.text(key, default)
    if found not in words:
        raise table.wrong(key, " or ".join(words))
    return found


def fraction(table: Table, key: str, default: Fraction) -> Fraction:
    """A number, whole or with a point, as it is written: 0.1 is a tenth."""
    if not table.has(key):
        return default
    number = table.anything(key)
    near = isinstance(number, Decimal) and number.is_finite() and abs(number.adjusted()) <= FARTHEST
    if near or type(number) is int:
        found = Fraction(number)
        if abs(found) <= LARGEST_SCALE and found.denominator <= LARGEST_SCALE:
            return found
    raise table.wrong(
        key, f"a number of at most {LARGEST_SCALE}, with at most 12 digits behind its point"
    )


def read_secret(path: Path) -> str:
    """The first line of a file. Raises GatewayFault (status 2) where it can't be read."""
    try:
        return path.read_text("utf-8").partition("\n")[0]
    except (OSError, UnicodeDecodeError) as fault:
        raise GatewayFault(f"{path}: {fault}", WORDS_STATUS) from None


def read(path: Path, plant: Plant) -> Map:
    """The map in a file. Raises GatewayFault (status 2) with what is wrong in it."""
    try:
        values = tomllib.loads(content(path).decode(), parse_float=Decimal)
    except OSError as fault:
        raise GatewayFault(f"{path}: {fault.strerror}", WORDS_STATUS) from None
    except NO_TOML as fault:
        raise GatewayFault(f"{path}: no TOML: {fault}", WORDS_STATUS) from None
    try:
        return Reader(plant).read(Table("", values, path.resolve().parent))
    except GatewayFault as fault:
        raise GatewayFault(f"{path}: {fault.words}", fault.status) from None


def of_config(config: Config, plant: Plant) -> Map | None:
    """The map that `[fields]` names; None where it names none. Raises GatewayFault (status 2)."""
    table = config.table("fields")
    path = table.path("map") if table.has("map") else None
    table.end()
    return None if path is None else read(path, plant)
