"""What the suite costs: with `--costs` the processor seconds of each file and each function are printed at the end."""
import collections
import resource
from collections.abc import Generator, Mapping
from typing import Any

import pytest

MOST = 30  # lines of each table


def used(*whose: int) -> float:
    """The processor seconds of this process, and of those that it and its children have waited for."""
    times = [resource.getrusage(who) for who in whose or (resource.RUSAGE_SELF, resource.RUSAGE_CHILDREN)]
    return sum(it.ru_utime + it.ru_stime for it in times)


class Costs:
    """Each process of the suite notes in a report what that part of a case took; the one that prints adds them up."""

    def __init__(self) -> None:
        self.last = 0.0
        self.workers = 0.0
        self.files: "dict[str, float]" = collections.defaultdict(float)
        self.functions: "dict[str, float]" = collections.defaultdict(float)

    def pytest_collection_finish(self) -> None:
        self.last = used()

    @pytest.hookimpl(hookwrapper=True)
    def pytest_runtest_makereport(self) -> "Generator[None, Any, None]":
        outcome = yield
        now = used()
        outcome.get_result().processor_seconds = now - self.last
        self.last = now

    def pytest_runtest_logreport(self, report: Any) -> None:
        seconds = getattr(report, "processor_seconds", 0.0)
        self.files[report.nodeid.partition("::")[0]] += seconds
        self.functions[report.nodeid.partition("[")[0]] += seconds

    def pytest_sessionfinish(self, session: pytest.Session) -> None:
        output = getattr(session.config, "workeroutput", None)
        if output is not None:
            output["processor_seconds"] = used()

    @pytest.hookimpl(optionalhook=True)
    def pytest_testnodedown(self, node: Any) -> None:
        self.workers += getattr(node, "workeroutput", {}).get("processor_seconds", 0.0)

    def pytest_terminal_summary(self, terminalreporter: Any) -> None:
        cases = sum(self.files.values())
        whole = self.workers + used(resource.RUSAGE_SELF) if self.workers else used()
        terminalreporter.section("processor seconds")
        terminalreporter.write_line(f"{whole:.0f} in all, {cases:.0f} of them in cases")
        for table in (self.files, self.functions):
            self.put(terminalreporter, table)

    @staticmethod
    def put(terminalreporter: Any, table: "Mapping[str, float]") -> None:
        for name, seconds in sorted(table.items(), key=lambda it: -it[1])[:MOST]:
            if seconds >= 1:
                terminalreporter.write_line(f"{seconds:8.1f} {name}")
