"""What /metrics shows, in Prometheus' text format."""
from __future__ import annotations

import os
from typing import Dict, List, Tuple

BOUNDS = (0.001, 0.0025, 0.005, 0.01, 0.025, 0.05, 0.1, 0.25, 0.5, 1.0, 2.5, 5.0, 10.0)
"""The upper bounds of the histogram of seconds."""


class Counts:
    """Counts of requests and their times, used by the thread of the event loop alone."""

    def __init__(self) -> None:
        self.requests: Dict[Tuple[str, int], int] = {}
        self.seconds: Dict[str, List[float]] = {}
        self.in_flight = 0

    def add(self, route: str, status: int, seconds: float) -> None:
        """One request that has its reply."""
        self.requests[route, status] = self.requests.get((route, status), 0) + 1
        held = self.seconds.setdefault(route, [0] * len(BOUNDS) + [0, 0.0])
        for at, bound in enumerate(BOUNDS):
            held[at] += seconds <= bound
        held[-2] += 1
        held[-1] += seconds

    def text(self, gauges: Dict[str, Tuple[str, str, float]]) -> str:
        """All counts, and gauges given by name: a sentence, a kind and a value."""
        lines = ["# HELP earliest_requests_total Requests by route and status.", "# TYPE earliest_requests_total counter"]
        lines += [f'earliest_requests_total{{route="{route}",status="{status}"}} {count}' for (route, status), count in sorted(self.requests.items())]
        lines += ["# HELP earliest_request_seconds Time until a reply is ready.", "# TYPE earliest_request_seconds histogram"]
        for route, held in sorted(self.seconds.items()):
            lines += [f'earliest_request_seconds_bucket{{route="{route}",le="{bound}"}} {held[at]}' for at, bound in enumerate(BOUNDS)]
            lines += [f'earliest_request_seconds_bucket{{route="{route}",le="+Inf"}} {held[-2]}', f'earliest_request_seconds_sum{{route="{route}"}} {held[-1]:.6f}',
                      f'earliest_request_seconds_count{{route="{route}"}} {held[-2]}']
        for name, (about, kind, value) in gauges.items():
            lines += [f"# HELP {name} {about}", f"# TYPE {name} {kind}", f"{name} {value:g}" if value < 1e6 else f"{name} {int(value)}"]
        return "\n".join(lines) + "\n"


def resident() -> int:
    """Bytes of memory that the process has in use; 0 if the system doesn't say."""
    try:
        with open("/proc/self/statm", encoding="ascii") as file:
            return int(file.read().split()[1]) * os.sysconf("SC_PAGE_SIZE")
    except OSError:
        return 0
