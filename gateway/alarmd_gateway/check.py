"""`gateway check CONFIG`: whether a plant can be served as a configuration says, without serving it.

`alarmd check` judges the plant, and its model where there is one. Then come the record that is there, which has to be of this plant, the
map, and the page's table with its users and certificate. What is wrong is what `serve` would end with, by the same status. No lock
is taken, no port opened, no broker or device asked, and no command of the record looked at but its reloads."""

from __future__ import annotations

import subprocess
import sys
from datetime import datetime, timezone
from pathlib import Path

from . import config as configs
from . import plant as plants
from .config import WORDS_STATUS, Config
from .kept import beginning
from .log_view import newest_copy
from .map_file import of_config
from .model import GatewayFault, Plant
from .record_head import LONGEST_HEAD, judge_head, judge_log, log_of, unbegun
from .reloading import judge_place, socket_path
from .shared_config import shared_config
from .simulate import model_path, read_model
from .telling import tell
from .texts import of as texts_of
from .texts import walk
from .web_config import WebConfig, unseen, web_config
from .words import Words, called, say


def main(words: list[str]) -> int:
    """`check CONFIG`. Prints what `alarmd check` printed. The status is 0 where nothing is wrong."""
    parser = Words(prog=called("check"), description="Says whether a plant can be served.")
    parser.add_argument("config", type=Path, help="the configuration, gateway.toml")
    say(check(configs.read(parser.parse_args(words[1:]).config)))
    return 0


def check(config: Config) -> list[str]:
    """What `alarmd check` answers of the plant and of its model, a line each; its warnings go to standard error. Raises GatewayFault
    with the status that `serve` would end with."""
    record = _record(config)
    first = beginning(config.plant, record, config.record)
    told = [_accepted(config, first)]
    plant = _served(plants.read(first), record, "etcd" in config.tables)
    if (model := model_path(config)) is not None:
        told.append(accepted(config, model))
        read_model(model, plant)
    of_config(config, plant)
    web = web_config(config, plant)
    if web is not None:
        _warn(web, plant)
    return told


def _warn(web: WebConfig, plant: Plant) -> None:
    """Says what the page's users don't see, and whether its certificate ends."""
    for area in [] if web.users is None else unseen(web.users, plant):
        print(f"warning: no user sees the alarms of area '{area}'", file=sys.stderr)
    if web.certificate is not None:
        words = web.certificate.trouble(datetime.now(timezone.utc))
        if words is not None:
            print(f"warning: {words}", file=sys.stderr)


def _accepted(config: Config, first: Path) -> str:
    """The line by which `alarmd check` accepts the plant. Where the record begins with another one, which is kept beside it, that
    is what a start asks for: what is wrong with the files as they are now is told, and no more. Raises GatewayFault as `accepted` does.
    """
    if first == config.plant:
        return accepted(config, config.plant)
    line, _ = judged(config, first)
    try:
        return accepted(config, config.plant)
    except GatewayFault as fault:
        if fault.status != 3:
            raise
        if fault.details:
            print(fault.details, file=sys.stderr)
        tell(f"{fault.words}. A start serves what was served, by the record")
        return line


def accepted(config: Config, plant: Path) -> str:
    """The same as `judged`; its warnings go to standard error."""
    line, said = judged(config, plant)
    if said:
        print(said, file=sys.stderr)
    return line


def judged(config: Config, plant: Path) -> tuple[str, str]:
    """The line by which `alarmd check` accepts a plant, and what it says beside that. Raises GatewayFault with its own words: status 3
    where it refuses."""
    words, seconds = [str(config.alarmd), "check", str(plant)], config.patience_ms / 1000
    try:
        done = subprocess.run(
            words, stdin=subprocess.DEVNULL, capture_output=True, timeout=seconds, check=False
        )
    except subprocess.TimeoutExpired:
        raise GatewayFault(f"alarmd gave no answer in {seconds:g} s", 1) from None
    except OSError as fault:
        told = f"alarmd can't be started: {config.alarmd}: {fault.strerror}"
        raise GatewayFault(told, WORDS_STATUS) from None
    line = done.stdout.decode(errors="replace").strip()
    said = done.stderr.decode(errors="replace").removeprefix(line).strip("\n")
    if done.returncode == 3:
        raise GatewayFault(f"alarmd refuses the plant: {line}", 3, said)
    if done.returncode or not line.startswith("ACCEPTED"):
        raise GatewayFault(f"`alarmd check` has ended with status {done.returncode}", 1, said)
    return line, said


def _record(config: Config) -> Path:
    """Where the record is, or the newest copy of a shared log. Raises GatewayFault (status 2), also where what isn't the gateway's has
    the name of its socket."""
    judge_place(socket_path(config))
    if "etcd" not in config.tables:
        return config.record
    shared_config(config)
    return newest_copy(config.record)


def _served(first: Plant, record: Path, shared: bool) -> Plant:
    """The plant that a start would serve. `first` is the one with which the record would have to begin. Of reloads in the record those
    count that no `alarmd` refuses: of the same consoles and the same epoch. Raises GatewayFault (status 2) where a record is there that
    can't be read, is of another plant, or is a copy of a `shared` log where there is none, or the other way round.
    """
    try:
        with open(record, "rb", buffering=1 << 20) as file:
            if unbegun(line := file.readline(LONGEST_HEAD)):
                return first  # the next start begins it
            head = line.decode("utf-8", "replace").rstrip("\n")
            judge_head(head, first, record)
            judge_log((log_of(head) is not None) == shared, shared, record)
            plant = first
            for words, body in walk(file):
                plant = _taken_up(plant, words, body) if body else plant
            return plant
    except FileNotFoundError as fault:
        if record.parent.is_dir():
            return first
        raise GatewayFault(f"the record {record}: {fault.strerror}", WORDS_STATUS) from None
    except OSError as fault:
        raise GatewayFault(f"the record {record}: {fault.strerror}", WORDS_STATUS) from None


def _taken_up(plant: Plant, head: bytes, body: bytes) -> Plant:
    """The plant that is served after a reload in the record."""
    line = head.removesuffix(b"\r").decode("utf-8", "surrogateescape")
    found = texts_of(line, body)
    if found is None:
        return plant
    try:
        other = plants.of_texts(plant.path, found)
    except GatewayFault:
        return plant  # alarmd has refused it
    numbers = [[console.number for console in one.consoles] for one in (plant, other)]
    return other if numbers[0] == numbers[1] and plant.epoch == other.epoch else plant
