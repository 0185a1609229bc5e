"""The calls themselves: that names and numbers are those of the header, and that nothing is written past the room."""
import ctypes
import os
import re
import unittest

import pac
from pac import library
from pac.library import Settings, Status

TOP = os.path.dirname(os.path.dirname(os.path.dirname(os.path.abspath(__file__))))
CHANGES = os.path.join(TOP, "CHANGELOG.md")
USUAL = Settings(1700000000, pac.FUEL, 0x7F000001, 0)
UNTOUCHED = b"\xa5" * 256
SCRIPT = b'function FindProxyForURL(url, host) { return "PROXY " + dnsResolve(host); }'
A = b"http://a.example/"
REPORT = b"url 1 http://a.example/\nresult PROXY 10.0.0.1\ntry PROXY 10.0.0.1:80\nruns 1\n"


def called(call, *pieces, room, settings=()):
    """The status of a call in a room, `*whole`, and all bytes of which the room is a front."""
    output = ctypes.create_string_buffer(UNTOUCHED, len(UNTOUCHED))
    whole = ctypes.c_size_t(12345)
    arguments = [part for piece in pieces for part in (piece, len(piece or b""))]
    status = call(*arguments, *map(ctypes.byref, settings), output if room else None, room, ctypes.byref(whole))
    return Status(status), whole.value, output.raw


class Rooms(unittest.TestCase):
    def expect(self, call, pieces, status, text, settings=()):
        """In ample room, in the room that is needed, in one byte less, and in none."""
        is_answer = status in (Status.DONE, Status.NAME_WANTED)
        for room in {len(UNTOUCHED), len(text), max(len(text) - 1, 0), 0}:
            fits = len(text) <= room
            end = status if fits or not is_answer else Status.SHORT
            written = text + UNTOUCHED[len(text) :] if fits else UNTOUCHED
            with self.subTest(pieces=pieces, room=room):
                self.assertEqual(called(call, *pieces, room=room, settings=settings), (end, len(text), written))

    def test_find_proxy(self):
        rows = [
            ((SCRIPT, A, b"a.example 10.0.0.1"), Status.DONE, REPORT),
            ((SCRIPT, A, None), Status.NAME_WANTED, b"a.example"),
            ((SCRIPT, A, b""), Status.NAME_WANTED, b"a.example"),
            ((None, A, None), Status.DONE, b"url 1 http://a.example/\nfault F14 NoEntry at 0:0\nruns 1\n"),
            ((SCRIPT, None, None), Status.BAD_URL, b"refused url BadUrl\n"),
            ((SCRIPT, b"\xff", b""), Status.BAD_URL, b"refused url BadUrl\n"),
            ((SCRIPT[:-1], A, b""), Status.BAD_SCRIPT, f"refused script 1:{len(SCRIPT)} Unexpected\n".encode()),
            ((SCRIPT, A, b"\n\xff"), Status.BAD_NAMES, b"refused names 2 BadLine\n"),
            ((SCRIPT + b" " * (1 << 20), A, b""), Status.TOO_LONG, b""),
        ]
        for pieces, status, text in rows:
            self.expect(library.calls.pac_find_proxy, pieces, status, text, settings=[USUAL])
        self.expect(library.calls.pac_find_proxy, (SCRIPT, A, b""), Status.BAD_SETTINGS, b"", settings=[Settings()])

    def test_check(self):
        self.expect(library.calls.pac_check, (b"a=1",), Status.DONE, b"( a = 1 ) ;\n")
        self.expect(library.calls.pac_check, (None,), Status.DONE, b"")
        self.expect(library.calls.pac_check, (b"1.5",), Status.BAD_SCRIPT, b"refused script 1:1 FractionLiteral\n")
        self.expect(library.calls.pac_check, (b" " * ((1 << 20) + 1),), Status.TOO_LONG, b"")

    def test_proxies(self):
        self.expect(library.calls.pac_proxies, (b"PROXY a;none; SOCKS B:9",), Status.DONE, b"PROXY a:80\nSOCKS b:9\n")
        self.expect(library.calls.pac_proxies, (None,), Status.DONE, b"DIRECT\n")


class OneText(unittest.TestCase):
    """That nothing here is otherwise than where it stands first: in c/pac.h, and the version in CHANGELOG.md."""

    def setUp(self):
        with open(os.path.join(TOP, "c", "pac.h"), encoding="ascii") as file:
            self.header = file.read()

    def test_statuses(self):
        numbers = {name: int(number) for name, number in re.findall(r"^  PAC_(\w+) = (\d+)", self.header, re.M)}
        self.assertEqual(numbers, {status.name: int(status) for status in Status})

    def test_settings(self):
        struct = re.search(r"struct pac_settings \{\n(.*?)\}", self.header, re.S)[1]
        fields = [(name, getattr(ctypes, f"c_{kind}")) for kind, name in re.findall(r"^  (\w+)_t (\w+);", struct, re.M)]
        self.assertEqual(fields, Settings._fields_)

    def test_fuel(self):
        self.assertEqual(re.search(r"PAC_USUAL_FUEL (\d+)", self.header)[1], str(pac.FUEL))

    @unittest.skipUnless(os.path.exists(CHANGES), "there is no list of versions")
    def test_version(self):
        with open(CHANGES, encoding="utf-8") as changes:
            version = re.search(r"^## (\d\S*)", changes.read(), re.M)[1]
        with open(os.path.join(TOP, "python", "pyproject.toml"), encoding="utf-8") as project:
            self.assertIn(f'\nversion = "{version}"\n', project.read())


if __name__ == "__main__":
    unittest.main()
