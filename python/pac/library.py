"""The three calls of libpac.so, as functions on bytes. Their names and numbers are those of c/pac.h."""
from __future__ import annotations

import ctypes
import enum
import os
from collections.abc import Callable

# What a call is given room for at first; where that is short it is called again.
ROOM = 4096


class Status(enum.IntEnum):
    """How a call ended."""

    DONE = 0
    NAME_WANTED = 1
    SHORT = 2
    BAD_SCRIPT = 3
    BAD_URL = 4
    BAD_NAMES = 5
    BAD_SETTINGS = 6
    TOO_LONG = 7
    MEMORY = 8


class Settings(ctypes.Structure):
    """How a run is done: `struct pac_settings`."""

    _fields_ = [
        ("moment", ctypes.c_int64),
        ("fuel", ctypes.c_uint64),
        ("my_ip", ctypes.c_uint32),
        ("zone_minutes", ctypes.c_int32),
    ]


_PIECE = (ctypes.c_char_p, ctypes.c_size_t)
_OUTPUT = (ctypes.c_char_p, ctypes.c_size_t, ctypes.POINTER(ctypes.c_size_t))


def _path() -> str:
    """The library's file: that of the environment's PAC_LIBRARY, or the one beside this module."""
    return os.environ.get("PAC_LIBRARY") or os.path.join(os.path.dirname(os.path.abspath(__file__)), "libpac.so")


def _loaded() -> ctypes.CDLL:
    library = ctypes.CDLL(_path())
    library.pac_find_proxy.argtypes = (*_PIECE, *_PIECE, *_PIECE, ctypes.POINTER(Settings), *_OUTPUT)
    library.pac_check.argtypes = (*_PIECE, *_OUTPUT)
    library.pac_proxies.argtypes = (*_PIECE, *_OUTPUT)
    for call in (library.pac_find_proxy, library.pac_check, library.pac_proxies):
        call.restype = ctypes.c_uint32
    return library


# The calls themselves, as C has them.
calls = _loaded()


def _written(call: Callable[..., int], *arguments: object) -> tuple[Status, bytes]:
    """The status of a call, and what it wrote."""
    room, whole = ROOM, ctypes.c_size_t()
    while True:
        output = ctypes.create_string_buffer(room)
        status = Status(call(*arguments, output, room, ctypes.byref(whole)))
        if status is not Status.SHORT:
            return status, output.raw[: whole.value]
        room = whole.value


def find_proxy(script: bytes, url: bytes, names: bytes, settings: Settings) -> tuple[Status, bytes]:
    """One run of a script for a URL, over the names that are told: its report, or the first name that isn't told."""
    pieces = script, len(script), url, len(url), names, len(names)
    return _written(calls.pac_find_proxy, *pieces, ctypes.byref(settings))


def check(script: bytes) -> tuple[Status, bytes]:
    """A script as it was understood."""
    return _written(calls.pac_check, script, len(script))


def proxies(text: bytes) -> tuple[Status, bytes]:
    """A line for each entry of a proxy list."""
    return _written(calls.pac_proxies, text, len(text))
