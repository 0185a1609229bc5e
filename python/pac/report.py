"""Reading the report of a run."""
from __future__ import annotations

import re
from typing import NamedTuple, Optional

_SPELLED = re.compile(r"\\(?:\\|u([0-9a-f]{4}))")
_FAULT = re.compile(r"(F\d+) (\w+) at (\d+):(\d+)(?: (.*))?")


class Proxy(NamedTuple):
    """An entry of a proxy list. `DIRECT`, which is no proxy, has neither host nor port."""

    kind: str
    host: str = ""
    port: int = 0

    def __str__(self) -> str:
        return f"{self.kind} {self.host}:{self.port}" if self.host else self.kind


class Fault(NamedTuple):
    """Why a run has no result, and where in the script. What arises outside of the script has the place 0:0."""

    number: str
    name: str
    line: int
    column: int
    detail: str = ""

    def __str__(self) -> str:
        return f"{self.number} {self.name} at {self.line}:{self.column} {self.detail}".rstrip()


class Report(NamedTuple):
    """What a run came to."""

    url: str
    alerts: tuple[str, ...]
    result: Optional[str]
    fault: Optional[Fault]
    proxies: tuple[Proxy, ...]


def text_of(spelled: str) -> str:
    """The text that a report spells in ASCII. A unit that is half of a character without its other half stays so."""
    units = _SPELLED.sub(lambda found: chr(int(found[1], 16)) if found[1] else "\\", spelled)
    return units.encode("utf-16-le", "surrogatepass").decode("utf-16-le", "surrogatepass")


def proxy_of(entry: str) -> Proxy:
    """The proxy of an entry, as `DIRECT` or `PROXY HOST:PORT`."""
    kind, _, rest = entry.partition(" ")
    host, _, port = rest.rpartition(":")
    return Proxy(kind, host, int(port)) if rest else Proxy(kind)


def fault_of(text: str) -> Fault:
    """The fault that a line of a report tells."""
    found = _FAULT.fullmatch(text)
    if found is None:
        raise ValueError(f"no fault: {text!r}")
    number, name, line, column, detail = found.groups()
    return Fault(number, name, int(line), int(column), text_of(detail or ""))


def report_of(octets: bytes) -> Report:
    """The report of one URL."""
    lines = [line.partition(" ") for line in octets.decode("ascii").splitlines()]

    def of(word: str) -> list[str]:
        return [text for first, _, text in lines if first == word]

    return Report(
        url=text_of(of("url")[0].partition(" ")[2]),
        alerts=tuple(map(text_of, of("alert"))),
        result=next(map(text_of, of("result")), None),
        fault=next(map(fault_of, of("fault")), None),
        proxies=tuple(map(proxy_of, of("try"))),
    )
