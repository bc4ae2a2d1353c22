"""Whether all gateways of a cluster have the same: list, journal and state, byte by byte, and their copies of the log."""

from __future__ import annotations

import json
import time
from collections.abc import Callable
from concurrent.futures import ThreadPoolExecutor
from pathlib import Path
from typing import Any, TypeVar

from cluster import LIMIT, Cluster, wait
from http_help import Client
from test_kills import by_the_record
from whole_help import Gateway, NoVerdict

LISTING = ("STATE ", "COUNT ", "END ")
Found = TypeVar("Found")


def of_each(cluster: Cluster, look: Callable[[str], Found]) -> list[Found]:
    """What is found by looks at all gateways, begun at one moment: one after another they would seldom be after as many events."""
    with ThreadPoolExecutor(len(cluster.gateways)) as pool:
        return list(pool.map(look, cluster.gateways))


def listed(gateway: Gateway) -> list[str]:
    """What a gateway lists to `list` and `journal`, at one moment. Raises NoVerdict where that doesn't come."""
    assert gateway.said is not None
    gateway.said.clear()
    gateway.give("list\njournal\n")
    end = time.monotonic() + LIMIT
    while sum(line.startswith("END ") for line in tuple(gateway.said)) < 2:
        if time.monotonic() > end:
            raise NoVerdict(f"it lists nothing: {gateway.told[-5:]}")
        time.sleep(0.005)
    lines = tuple(gateway.said)
    return [line for line in lines if line.startswith(LISTING) or line[:1].isdigit()]


def state_of(cluster: Cluster, name: str) -> tuple[int, str]:
    """After how many events, and what a gateway says that stands then, without what may differ: who it is, its troubles, its own
    clock, and what it has of the log already and isn't answered yet."""
    state = cluster.says(name)
    for key in ("number", "now", "troubles", "questions"):
        del state[key]
    state["log"] = state["log"]["record"]
    return int(state["events"]), json.dumps(state)


def same_states(cluster: Cluster) -> None:
    """What all gateways say after as many events is the same, each time that it is seen. Raises NoVerdict where it isn't seen."""
    seen: dict[int, dict[str, str]] = {}

    def compared() -> bool:
        states = of_each(cluster, lambda name: state_of(cluster, name))
        for name, (events, state) in zip(cluster.gateways, states):
            seen.setdefault(events, {})[name] = state
        whole = [each for each in seen.values() if len(each) == len(cluster.gateways)]
        for each in whole:
            assert len(set(each.values())) == 1, f"states differ: {each}"
        return bool(whole)

    wait(compared, f"never seen after as many events: {[*seen]}")


def table(gateway: Gateway) -> str:
    """The journal of a gateway, as its page exports it."""
    return Client(gateway.url).ask("/api/journal.csv").body.decode()


def alike(cluster: Cluster) -> list[str]:
    """State, journal and list of all gateways are the same bytes. Gives the list and the journal. Raises AssertionError where they
    differ after as many events, and NoVerdict where they aren't seen after as many."""
    seen: dict[tuple[str, ...], str] = {}
    lists: list[str] = []

    def compared() -> bool:
        lists.clear()
        for lines in of_each(cluster, lambda name: listed(cluster.gateways[name])):
            count = tuple(line for line in lines if line.startswith("END "))
            lists.append("\n".join(lines))
            first = seen.setdefault(count, lists[-1])
            assert first == lists[-1], f"lists differ: {[first[-300:], lists[-1][-300:]]}"
        tables = of_each(cluster, lambda name: table(cluster.gateways[name]))
        longest = max(tables, key=len)
        parted = [one[-300:] for one in tables if not longest.startswith(one)]
        assert not parted, f"journals part: {[longest[-300:], *parted]}"
        return all(len(set(each)) == 1 for each in (lists, tables))

    same_states(cluster)
    wait(compared, "lists and journals are never seen after as many events")
    return lists[0].split("\n")


def plays_again(cluster: Cluster, alarmd: Path, listed_by_all: list[str]) -> bool:
    """Whether a server that is given a copy of the log whole has as many rows as the gateways had; then it lists what they do, and
    else more rows than theirs have come since. Raises AssertionError where it has other ones."""
    wanted = rows_of(listed_by_all)
    for gateway in cluster.gateways.values():
        whole = (gateway.folder / "record.1").read_bytes()
        path = gateway.folder.parent / "copy"
        path.write_bytes(whole[: whole.rfind(b"\n") + 1])
        found = by_the_record(alarmd, gateway.folder / "plant" / "plant.toml", path)
        rows = rows_of(found)
        assert rows[: len(wanted)] == wanted, f"a server has other rows: {rows[-3:]}"
        if len(rows) > len(wanted):
            return False
        assert found == listed_by_all, f"a server lists something else: {found[:9]}"
    return True


def rows_of(listed: list[str]) -> list[str]:
    """The rows of the journal in what was listed."""
    return [line for line in listed if line[:1].isdigit()]


def orders(cluster: Cluster, begin: int = 1) -> list[dict[str, Any]]:
    """All rows of orders in the journal of the first gateway, from this row on."""
    client, rows = Client(next(iter(cluster.gateways.values())).url), []
    at: int | None = begin
    while at is not None:
        found = client.ask(f"/api/journal?from={at}&count=1000").json
        rows += [row for row in found["rows"] if row["kind"] == "order"]
        at = found["next"]
    return rows


def copies_agree(cluster: Cluster, alarmd: Path, rows: list[dict[str, Any]]) -> int:
    """The copies of the log are the same bytes, as far as each goes, and a fresh server has the same orders by them. Gives how
    many commands there are."""
    records = [gateway.folder / "record.1" for gateway in cluster.gateways.values()]
    texts = sorted((path.read_bytes() for path in records), key=len)
    assert all(texts[-1].startswith(text) for text in texts)
    assert len(texts[-1].splitlines()) - len(texts[0].splitlines()) < 50
    longest = next(path for path in records if path.read_bytes() == texts[-1])
    listing = by_the_record(alarmd, longest.parent / "plant" / "plant.toml", longest)
    replies = [line.rpartition(" ")[2] for line in listing if " ORDER " in line]
    assert replies == [row["reply"] for row in rows]
    return sum(not line.startswith(b"#") for line in texts[-1].splitlines())
