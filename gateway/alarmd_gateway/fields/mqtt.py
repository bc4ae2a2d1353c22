"""An MQTT broker: topics become samples, and outputs are published.

A session of the broker outlasts a loss (the client's name is kept), so what was published meanwhile with a quality of 1 or 2 comes
when the broker is back, as far as the broker keeps it."""

from __future__ import annotations

import asyncio
import json
import re
from collections.abc import Callable
from decimal import Decimal
from fractions import Fraction
from typing import Any, Final

import paho.mqtt.client as paho

from ..commands import spelled
from ..mapping import BadRaw, MqttSource, Scale, Topic
from ..model import Kind, Value
from .source import Intake, Lost, Source

CONNECT_SECONDS: Final = 10.0
MOST_QUALITY: Final = 1
"""Of what is read: with 1 the library acknowledges a message once it was taken. With 2 it does before, and keeps the message in a memory
that a loss of the connection, or the gateway's end, takes away."""
NOT_GRANTED: Final = 128
PAYLOAD_BYTES: Final = 4096
TRUTHS: Final = {"true": True, "1": True, "on": True, "false": False, "0": False, "off": False}
NUMBER: Final = re.compile(r"[+-]?[0-9]{1,30}(\.[0-9]{1,30})?")
FARTHEST: Final = 400  # places between a JSON number's point and its first digit


def value_of(topic: Topic, payload: bytes) -> Value:
    """The value of an input by a payload. Raises BadRaw."""
    if len(payload) > PAYLOAD_BYTES:
        raise BadRaw(f"{topic.topic}: a payload of {len(payload)} bytes")
    try:
        text = payload.decode().strip()
        found = text if not topic.path else inside(text, topic.path)
    except (ValueError, LookupError, TypeError, ArithmeticError, RecursionError):
        raise BadRaw(f"{topic.topic}: {payload[:60]!r} has no such value") from None
    word = str(found)
    if topic.variable.kind is Kind.BOOL:
        if word.lower() not in TRUTHS:
            raise BadRaw(f"{topic.topic}: {word[:60]!r} is no BOOL")
        return topic.scale.truth(TRUTHS[word.lower()])
    number = number_of(found)
    if number is None:
        raise BadRaw(f"{topic.topic}: {word[:60]!r} is no number")
    return topic.scale.number(number)


def inside(text: str, path: tuple[str, ...]) -> Any:
    """What a JSON document has under a path of keys and of numbers in lists. Raises ValueError, LookupError, TypeError, or
    ArithmeticError where a number's exponent is beyond all measure."""
    found = json.loads(text, parse_float=Decimal)
    for key in path:
        found = found[int(key)] if isinstance(found, list) else found[key]
    return found


def number_of(found: object) -> Fraction | None:
    """A number of JSON, or the one that a word spells; None where there is none. All digits of one that is far too large would take
    more memory than there is."""
    if isinstance(found, Decimal):
        return Fraction(found) if abs(found.adjusted()) <= FARTHEST else None
    word = str(found)
    return Fraction(Decimal(word)) if NUMBER.fullmatch(word) else None


def payload_of(scale: Scale, value: Value) -> str:
    """What is published for an output."""
    return spelled(scale.truth(value) if isinstance(value, bool) else scale.number(value))


class Client(paho.Client):  # type: ignore[misc]
    """The library's client, which tells of its thread's end: what a broker sends may end that, and then nothing is read any more."""

    def __init__(self, name: str, tell: Callable[[str], None]) -> None:
        super().__init__(name, clean_session=False)
        self._tell = tell

    def loop_forever(self, *words: Any, **more: Any) -> Any:
        """What the thread does."""
        try:
            return super().loop_forever(*words, **more)
        except Exception as fault:
            self._tell(f"the library fails: {type(fault).__name__}: {fault}")
            return paho.MQTT_ERR_UNKNOWN


class MqttClient(Source):
    """A session is a connection: its loss ends it."""

    def __init__(self, given: MqttSource, intake: Intake) -> None:
        super().__init__(given.name, given.retry, intake)
        self._given = given
        self._topics: dict[str, list[Topic]] = {}  # one document may have several inputs
        for topic in given.inputs:
            self._topics.setdefault(topic.topic, []).append(topic)

    async def session(self, current: Callable[[], dict[str, Value]]) -> None:
        """Connects, and takes what comes until the connection is lost."""
        loop = asyncio.get_running_loop()
        events: asyncio.Queue[
            str
        ] = asyncio.Queue()  # empty text: connected; another: why it is lost
        client = self._client(loop, events)
        try:
            try:
                await asyncio.to_thread(client.connect, self._given.host, self._given.port, 30)
            except (OSError, ValueError) as fault:
                raise Lost(f"{self._given.host}:{self._given.port}: {fault}") from None
            client.loop_start()
            await self._connected(events)
            self.up()
            for name, value in current().items():
                self._publish(client, name, value)
            await self._serve(client, events)
        finally:
            client.disconnect()
            await asyncio.shield(asyncio.to_thread(client.loop_stop))

    async def _connected(self, events: asyncio.Queue[str]) -> None:
        try:
            words = await asyncio.wait_for(events.get(), CONNECT_SECONDS)
        except asyncio.TimeoutError:
            raise Lost(f"the broker didn't answer in {CONNECT_SECONDS:g} s") from None
        if words:
            raise Lost(words)

    async def _serve(self, client: paho.Client, events: asyncio.Queue[str]) -> None:
        """Publishes outputs until the connection is lost."""
        lost = asyncio.ensure_future(events.get())
        output = asyncio.ensure_future(self.next_output())
        try:
            while True:
                await asyncio.wait({lost, output}, return_when=asyncio.FIRST_COMPLETED)
                if lost.done():
                    raise Lost(lost.result())
                self._publish(client, *output.result())
                output = asyncio.ensure_future(self.next_output())
        finally:
            lost.cancel()
            output.cancel()

    def _publish(self, client: paho.Client, name: str, value: Value) -> None:
        for topic in self._given.outputs:
            if topic.variable.name == name and self.may_write():
                payload = payload_of(topic.scale, value)
                client.publish(topic.topic, payload, self._given.quality, topic.retain)

    def _client(self, loop: asyncio.AbstractEventLoop, events: asyncio.Queue[str]) -> paho.Client:
        """A client whose callbacks, which come in its own thread, are handed to the loop."""

        def tell(words: str) -> None:
            loop.call_soon_threadsafe(events.put_nowait, words)

        client = Client(self._given.client, tell)
        if self._given.username is not None:
            client.username_pw_set(self._given.username, self._given.password)
        if self._given.ca is not None:
            try:
                client.tls_set(str(self._given.ca))
            except (OSError, ValueError) as fault:
                raise Lost(f"{self._given.ca}: {fault}") from None

        def on_connect(client: paho.Client, _: Any, flags: Any, code: int) -> None:
            if code:
                tell(str(paho.connack_string(code)))
                return
            if self._topics:
                quality = min(self._given.quality, MOST_QUALITY)
                client.subscribe([(topic, quality) for topic in self._topics])
            tell("")

        def on_disconnect(client: paho.Client, _: Any, code: int) -> None:
            tell(f"the connection has ended: {paho.error_string(code)}")

        def on_message(client: paho.Client, _: Any, message: paho.MQTTMessage) -> None:
            taking = self._take(message.topic, bytes(message.payload), not message.retain)
            try:
                asyncio.run_coroutine_threadsafe(taking, loop).result()
            except Exception as fault:  # the core doesn't take it now
                tell(f"{message.topic}: {fault}")

        def on_subscribe(client: paho.Client, _: Any, mid: int, granted: tuple[int, ...]) -> None:
            loop.call_soon_threadsafe(self._subscribed, granted)

        client.on_connect, client.on_disconnect = on_connect, on_disconnect
        client.on_message, client.on_subscribe = on_message, on_subscribe
        return client

    def _subscribed(self, granted: tuple[int, ...]) -> None:
        """What the broker says to the subscriptions, in order."""
        for topics, quality in zip(self._topics.values(), granted):
            for topic in topics:
                if quality == NOT_GRANTED:
                    words = f"the broker lets nobody of this name read {topic.topic}"
                    self.intake.fails(self.name, topic.variable.name, words)
                else:
                    self.intake.good(self.name, topic.variable.name)

    async def _take(self, name: str, payload: bytes, fresh: bool) -> None:
        """Takes a message; the next one isn't read before. A topic of an earlier map, which the broker remembers, has no input. One
        that isn't fresh is what the broker had kept when it was reached."""
        for topic in self._topics.get(name, []):
            try:
                value = value_of(topic, payload)
            except BadRaw as fault:
                self.intake.bad(self.name, topic.variable.name, str(fault))
                continue
            await self.intake.give(self.name, topic.variable.name, value, fresh)
