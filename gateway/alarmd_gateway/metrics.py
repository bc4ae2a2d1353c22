"""`/metrics` for Prometheus: what stands, what was annunciated and ordered, and how the gateway itself is."""

from __future__ import annotations

from collections import Counter
from collections.abc import Callable, Iterable, Mapping

from prometheus_client import CollectorRegistry, ProcessCollector, generate_latest
from prometheus_client.core import CounterMetricFamily, GaugeMetricFamily, Metric
from prometheus_client.registry import Collector

from .core import Core
from .journal import Journal
from .model import MOST_EVENTS, Code, Figure
from .tally import WAITING

Count = Callable[[], int]


class Annunciations:
    """Counts the changes to UNACK by priority, from the journal's rows as they come."""

    def __init__(self, core: Core) -> None:
        self._core = core
        self._journal = core.journal
        self._seen = 0
        self.by_priority: Counter[int] = Counter()

    def catch_up(self) -> None:
        """Takes the rows that have come since the last time. With a new record the journal begins anew, and the count goes on; where the
        server was started again it is another object with the same rows."""
        journal = self._core.journal
        if not same_record(self._journal, journal):
            self._seen = 0
        self._journal = journal
        for row in self._journal.rows(self._seen + 1):
            self._seen = row.number
            if row.words[0] == "ALARM" and row.words[3] == Code.UNACK.value:
                plant = row.plant or self._core.plant
                self.by_priority[plant.by_tag[row.words[1]].priority] += 1


def same_record(old: Journal, new: Journal) -> bool:
    """Whether two journals are of one record: by their first row, which a later record has at a later moment."""
    if old is new or not len(old) or not len(new):
        return old is new
    first, other = old.row(1), new.row(1)
    return (first.moment, first.words) == (other.moment, other.words)


class Gatherer(Collector):
    """What prometheus_client asks at each scrape."""

    def __init__(
        self,
        core: Core,
        orders: Mapping[tuple[str, str], int],
        counts: Mapping[str, tuple[str, Count]],
    ) -> None:
        self._core = core
        self._orders = orders
        self._counts = counts  # gauges of the web server: what each is, and its value
        self._annunciations = Annunciations(core)

    def collect(self) -> Iterable[Metric]:
        """All figures but those of the process."""
        yield from self._alarms()
        yield from self._server()
        yield self._ordered()
        for name, (what, count) in self._counts.items():
            yield gauge(name, what, count())
        yield from map(labelled, self._core.figures())

    def _alarms(self) -> Iterable[Metric]:
        states = Counter((alarm.row.priority, alarm.code) for alarm in self._core.state.alarms)
        standing = GaugeMetricFamily(
            "alarmd_alarms", "Alarms by priority and code", labels=["priority", "code"]
        )
        waiting: Counter[int] = Counter()
        for (priority, code), count in sorted(states.items(), key=lambda item: str(item[0])):
            standing.add_metric([str(priority), code.value], count)
            waiting[priority] += count if code in WAITING else 0
        yield standing
        unacknowledged = GaugeMetricFamily(
            "alarmd_unacknowledged", "Alarms that wait for an acknowledgement", labels=["priority"]
        )
        for priority in sorted(waiting):
            unacknowledged.add_metric([str(priority)], waiting[priority])
        yield unacknowledged
        self._annunciations.catch_up()
        annunciated = CounterMetricFamily(
            "alarmd_annunciations", "Changes to UNACK since the record began", labels=["priority"]
        )
        for priority in range(1, 5):
            annunciated.add_metric([str(priority)], self._annunciations.by_priority[priority])
        yield annunciated

    def _server(self) -> Iterable[Metric]:
        state = self._core.state
        moment = self._core.plant.time(state.moment).timestamp() if state.scanned else 0
        yield gauge("alarmd_last_scan_timestamp_seconds", "Moment of the last scan", moment)
        yield gauge("alarmd_events", "Events of the history", state.events)
        yield gauge("alarmd_events_left", "Events that are left", MOST_EVENTS - state.events)
        yield gauge("alarmd_journal_rows", "Rows of the journal", len(self._core.journal))
        yield gauge("alarmd_stopped_programs", "Programs that have stopped", len(state.stopped))
        yield gauge(
            "alarmd_questions", "Questions that wait for an answer", len(self._core.questions)
        )
        kinds = Counter(trouble.kind.value for trouble in self._core.troubles)
        troubles = GaugeMetricFamily(
            "alarmd_troubles", "Troubles of the server and the gateway", labels=["kind"]
        )
        for kind, count in sorted(kinds.items()):
            troubles.add_metric([kind], count)
        yield troubles

    def _ordered(self) -> Metric:
        orders = CounterMetricFamily(
            "alarmd_orders", "Orders given by the page and the API", labels=["order", "reply"]
        )
        for (verb, reply), count in sorted(dict(self._orders).items()):
            orders.add_metric([verb, reply], count)
        return orders


def gauge(name: str, what: str, value: float) -> Metric:
    """A figure without labels."""
    return GaugeMetricFamily(name, what, value=value)


def labelled(figure: Figure) -> Metric:
    """A figure of the core, with its label where it has one."""
    if figure.label is None:
        return gauge(figure.name, figure.what, figure.value)
    key, value = figure.label
    found = GaugeMetricFamily(figure.name, figure.what, labels=[key])
    found.add_metric([value], figure.value)
    return found


class Metrics:
    """The text that Prometheus reads."""

    def __init__(
        self,
        core: Core,
        orders: Mapping[tuple[str, str], int],
        counts: Mapping[str, tuple[str, Count]],
    ) -> None:
        self._registry = CollectorRegistry()
        ProcessCollector(registry=self._registry)
        self._registry.register(Gatherer(core, orders, counts))

    def text(self) -> bytes:
        """All figures at this moment."""
        return generate_latest(self._registry)
