"""What a hub counts, for Prometheus where its client library is installed."""
import importlib
from typing import Any

from emfstore_hub.frames import Frame


class _Nothing:
    """Stands for a counter where nobody reads it."""

    def labels(self, *_: str) -> "_Nothing":
        return self

    def inc(self, _: float = 1) -> None:
        pass

    def observe(self, _: float) -> None:
        pass

    def set(self, _: float) -> None:
        pass


class Counters:
    """Frames by user, refusals, lost frames, seconds from a whole frame to its answer, and connections."""

    def __init__(self, library: Any = None) -> None:
        nothing = _Nothing()

        def make(kind: str, *words: Any) -> Any:
            return getattr(library, kind)(*words) if library else nothing

        self.frames = make("Counter", "emfstore_hub_frames", "Frames that were answered", ["user"])
        self.refusals = make("Counter", "emfstore_hub_refusals", "Commands that were refused", ["user"])
        self.lost = make("Counter", "emfstore_hub_lost", "Frames on their way when the program ended", ["user"])
        self.seconds = make("Histogram", "emfstore_hub_seconds", "Seconds from a whole frame to its answer")
        self.connections = make("Gauge", "emfstore_hub_connections", "Connections that are open")

    def note(self, frame: Frame, seconds: float, refusals: int, is_lost: bool) -> None:
        """Counts a frame that was answered or lost."""
        if is_lost:
            self.lost.labels(frame.user).inc()
            return
        self.frames.labels(frame.user).inc()
        self.refusals.labels(frame.user).inc(refusals)
        self.seconds.observe(seconds)


def counters_at(port: int | None) -> Counters:
    """Counters that are read at this port of the loopback address, or nowhere."""
    if port is None:
        return Counters()
    try:
        library = importlib.import_module("prometheus_client")
    except ImportError:
        raise SystemExit("emfstore_hub: --counters wants python3-prometheus-client") from None
    library.start_http_server(port, addr="127.0.0.1")
    return Counters(library)
