"""Which proxies to try for a URL, as a proxy auto-config (PAC) script says.

    answer = pac.find_proxy(script, "http://www.example.org/")
    for proxy in answer.proxies:
        ...

Calls of any number of threads may run at once; each thread needs 1 MB of stack.
"""
from __future__ import annotations

import ipaddress
import socket
import time
from collections.abc import Callable, Mapping
from dataclasses import dataclass
from typing import Optional, Union

from . import library
from .library import Settings, Status
from .report import Fault, Proxy, proxy_of, report_of

__all__ = ["Answer", "Fault", "Proxy", "Refused", "check", "find_proxy", "look_up", "proxies"]

FUEL = 10_000_000

Addresses = Union[str, "tuple[str, ...]", "list[str]", None]
"""What is told of a name: an address, addresses of which no two are of one family, or None where it has none."""


class Refused(ValueError):
    """A script, a URL or names are refused: as `refused script LINE:COLUMN NAME` says, `refused url BadUrl` or
    `refused names LINE NAME`; or they are too long, or the settings are out of range."""


@dataclass(frozen=True)
class Answer:
    """What a script says of a URL.

    Either the run has a `result`, which is what the script returned, and `proxies` are those to try, in this order; or
    it ended in a `fault`, and there are none.
    """

    url: str
    """The URL as the script saw it."""
    result: Optional[str]
    proxies: tuple[Proxy, ...]
    fault: Optional[Fault]
    alerts: tuple[str, ...]
    names: Mapping[str, tuple[str, ...]]
    """The names that were looked up for this run, in their order, with the addresses that were told of each."""


def look_up(name: str) -> tuple[str, ...]:
    """The first address of a name in each family, IPv6 first, by the machine's resolver; none where it has none.

    Where the resolver doesn't tell, as without a network, its error is raised: that is no name without address.
    """
    return _first(name, socket.AF_INET6) + _first(name, socket.AF_INET)


def _first(name: str, family: socket.AddressFamily) -> tuple[str, ...]:
    """The first address of a name in a family, or nothing where it has none."""
    try:
        return (str(socket.getaddrinfo(name, None, family)[0][4][0]).partition("%")[0],)
    except socket.gaierror as error:
        if error.errno in (socket.EAI_NONAME, socket.EAI_NODATA, socket.EAI_ADDRFAMILY):
            return ()
        raise


def find_proxy(
    script: Union[str, bytes],
    url: Union[str, bytes],
    *,
    resolve: Callable[[str], Addresses] = look_up,
    names: Union[str, bytes] = b"",
    now: Optional[float] = None,
    zone_minutes: int = 0,
    my_ip: str = "127.0.0.1",
    fuel: int = FUEL,
) -> Answer:
    """Runs a script for a URL.

    A name that the script asks for, and that `names` (the text of a names file) lacks, is handed to `resolve`, which
    gives its address, a dotted quad or an IPv6 address, or up to two addresses, one of each family, or None where it
    has none; what it raises ends the call. A name that `names` has a line of is not handed to it, also where that line
    is of one family: it has no address of the other one then. `now` is what clocks show in the script, in seconds since
    1970, by default the present moment; `zone_minutes` is how far they are ahead of UTC; `my_ip` is what `myIpAddress`
    answers, and `fuel` bounds the steps of the run.
    """
    settings = _settings(time.time() if now is None else now, zone_minutes, my_ip, fuel)
    pieces = _octets(script), _octets(url)
    told = _octets(names)
    looked_up: dict[str, tuple[str, ...]] = {}
    while True:
        status, text = library.find_proxy(*pieces, told, settings)
        if status is Status.DONE:
            return _answer(text, looked_up)
        if status is not Status.NAME_WANTED:
            raise _refusal(status, text)
        name = text.decode("ascii")
        looked_up[name] = _addresses(name, resolve(name))
        told += "".join(f"\n{name} {address}" for address in looked_up[name] or "-").encode()


def check(script: Union[str, bytes]) -> str:
    """A script as it was understood, each expression in brackets."""
    return _done(*library.check(_octets(script)))


def proxies(text: Union[str, bytes]) -> tuple[Proxy, ...]:
    """The entries of a proxy list, such as `PROXY a.example; DIRECT`, in its order."""
    return tuple(map(proxy_of, _done(*library.proxies(_octets(text))).splitlines()))


def _octets(piece: Union[str, bytes]) -> bytes:
    return piece.encode() if isinstance(piece, str) else piece


def _settings(now: float, zone_minutes: int, my_ip: str, fuel: int) -> Settings:
    """The settings of a run, where each number fits into its field: ctypes would cut it."""
    given = int(now), fuel, int(ipaddress.IPv4Address(my_ip)), zone_minutes
    settings = Settings(*given)
    if (settings.moment, settings.fuel, settings.my_ip, settings.zone_minutes) != given:
        raise _refusal(Status.BAD_SETTINGS, b"")
    return settings


def _addresses(name: str, given: object) -> tuple[str, ...]:
    """What a resolver gave, where it is addresses of which no two are of one family."""
    several = () if given is None else given if isinstance(given, (tuple, list)) else (given,)
    try:
        found = [ipaddress.ip_address(str(address)) for address in several]
        addresses = tuple(str(type(address)(int(address))) for address in found)
    except ValueError as error:
        raise ValueError(f"resolve({name!r}) gave no address: {error}") from None
    if len({address.version for address in found}) < len(found):
        raise ValueError(f"resolve({name!r}) gave two addresses of one family: {', '.join(addresses)}")
    return addresses


def _answer(octets: bytes, names: Mapping[str, tuple[str, ...]]) -> Answer:
    report = report_of(octets)
    return Answer(report.url, report.result, report.proxies, report.fault, report.alerts, names)


def _done(status: Status, octets: bytes) -> str:
    if status is not Status.DONE:
        raise _refusal(status, octets)
    return octets.decode("ascii")


def _refusal(status: Status, line: bytes) -> Exception:
    if status is Status.MEMORY:
        return MemoryError("pac: memory was refused")
    reasons = {
        Status.BAD_SETTINGS: "now, zone_minutes or fuel is out of its range",
        Status.TOO_LONG: "a script or names of more than 1,048,576 bytes",
    }
    return Refused(reasons.get(status) or line.decode("ascii").rstrip("\n"))
