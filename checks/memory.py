"""Refuses memory to the proved program: in runs of their own each allocation alone by its number, and each with all
that come behind it. A run ends with status 8 and has written nothing, or it does what it does where nothing is refused.

The runs are those of two URLs whose names are answered in reverse order, of the rules of a company, of a script that
calls each built-in function, and of the other commands. The C library's memory functions are replaced by refusing.c;
without a C compiler that builds it the check says 'skipped'. The program is the one that `./pac` builds, or the words of the
environment's PAC.
"""
import concurrent.futures
import os
import re
import shutil
import subprocess
import sys
import tempfile

from dns import PAC, PATIENT, bound
from examples import PROGRAM, contents
from resolve import Server, reply, report

ADDRESS = b'function FindProxyForURL(u, h) { return "PROXY " + dnsResolve(h) + ":80"; }\n'
TWO = b"get http://a.example/\nget http://b.example/\n"
COMPANY = b"""at 1700000000
get http://intranet/
get http://wiki.example.com/start
get ftp://files.example.org/a
get http://eu.updates.example.net/
get http://build.example.net/
get https://www.example.org/private?x=1
get http://shop.example.org/
at 1700300000
get http://shop.example.org/
"""
ADDRESSES = {
    "a.example": "10.0.0.1",
    "b.example": "10.0.0.2",
    "build.example.net": "10.1.2.3",
    "www.example.org": None,
    "shop.example.org": "203.0.113.9",
}
DIRECT = "result DIRECT"
NIGHT = "result PROXY batch.example.com:3128"
OFFICE = "result PROXY proxy1.example.com:8080; PROXY proxy2.example.com:8080; DIRECT"
TWO_REPORT = report(
    ("http://a.example/", "result PROXY 10.0.0.1:80", 2),
    ("http://b.example/", "result PROXY 10.0.0.2:80", 2),
)
COMPANY_REPORT = report(
    ("http://intranet/", DIRECT, 1),
    ("http://wiki.example.com/start", DIRECT, 1),
    ("ftp://files.example.org/a", NIGHT, 1),
    ("http://eu.updates.example.net/", NIGHT, 1),
    ("http://build.example.net/", DIRECT, 2),
    ("https://www.example.org/", OFFICE, 2),
    ("http://shop.example.org/", OFFICE, 2),
    ("http://shop.example.org/", NIGHT, 2),
)
BUILT_INS_REPORT = b"url 1 http://www.example.com/\nalert told\nresult DIRECT\ntry DIRECT\nruns 1\n"
FILES = {
    "address.pac": ADDRESS,
    "two.batch": TWO,
    "company.pac": contents("examples/company.pac"),
    "company.batch": COMPANY,
    "built_ins.pac": contents("checks/built_ins.pac"),
    "built_ins.names": b"a.example 10.1.2.3\na.example 2001:db8::1\n",
}
# the words of a run, what it writes and its status; a server is asked where the words have an option for it, behind a
# silent one where that is the option for a second
RUNS = {
    "two URLs": ("resolve address.pac --batch two.batch --server", TWO_REPORT, 0),
    "a company": ("resolve company.pac --batch company.batch --server", COMPANY_REPORT, 0),
    "built-in functions": (
        "map built_ins.pac http://www.example.com/ --names built_ins.names --now 1700000000", BUILT_INS_REPORT, 0,
    ),
    "check": ("check company.pac", contents("examples/company.printed"), 0),
    "ask": ("ask build.example.net --server", b"address 10.1.2.3\n", 0),
    "ask again": ("ask build.example.net --second", b"address 10.1.2.3\n", 0),
    "generate": ("generate 1 3", b"seed 1 sites 3\nurls 3 runs 9 names 6\ndirect 1 proxy 1 socks 1\n", 0),
    "no words": ("", b"usage: pac resolve|map|check|ask|generate ARGUMENTS\n", 2),
}
TOLD = re.compile(rb"(\d+) allocations, (\d+) refused\n")


def in_reverse_order():
    """Answers as a server does: the reply for a.example comes behind that for b.example of the same socket."""
    held = {}

    def answers(asked):
        answer = 0, reply(asked.datagram, ADDRESSES[asked.name])
        if asked.name == "a.example":
            held[asked.near] = answer
            return []
        return [answer, *([held.pop(asked.near)] if asked.near in held else [])]

    return answers


def refusing_library(folder):
    """The library that refuses, or none where no C compiler builds it."""
    library = os.path.join(folder, "refusing.so")
    for compiler in filter(None, map(shutil.which, ("cc", "gcc", "clang"))):
        words = [compiler, "-shared", "-fPIC", "-O1", "-fno-builtin", "-o", library, "checks/refusing.c"]
        if subprocess.run(words, stderr=subprocess.DEVNULL, check=False).returncode == 0:
            return library
    return None


class Runner:
    """Runs the program in a folder, beside a server and a silent one, with the library that refuses."""

    def __init__(self, folder, library, port, silent):
        self.folder, self.library, self.port, self.silent = folder, library, port, silent
        self.program = PAC if "PAC" in os.environ else [os.path.abspath(PROGRAM)]

    def found(self, words, **refused):
        """What a run writes, its status, and the numbers of its allocations and of those refused."""
        words = words.split()
        if "--server" in words:
            words = [*words[:-1], f"--server=127.0.0.1:{self.port}", *PATIENT]
        if "--second" in words:
            words = [*words, f"127.0.0.1:{self.port}", f"--server=127.0.0.1:{self.silent}", "--wait=1", "--tries=8"]
        settings = {**os.environ, "LD_PRELOAD": self.library, **refused}
        pipes = {"stdout": subprocess.PIPE, "stderr": subprocess.PIPE}
        ran = subprocess.run([*self.program, *words], cwd=self.folder, env=settings, timeout=120, check=False, **pipes)
        told = TOLD.fullmatch(ran.stderr)
        return ran.stdout, ran.returncode, tuple(map(int, told.groups())) if told else ran.stderr

    def refused(self, words, name, number):
        return self.found(words, **{name: str(number)})


def check(failures, runner, name):
    """Compares a run where nothing is refused, and then the runs in which memory is; how often the latter gave up."""
    words, text, status = RUNS[name]
    plain = runner.found(words)
    if plain[:2] != (text, status) or not isinstance(plain[2], tuple):
        failures.append(f"{name}: {plain!r} in place of {(text, status)!r}")
        return 0, 0
    count = plain[2][0]
    places = [(kind, number) for kind in ("REFUSED", "REFUSED_FROM") for number in range(1, count + 1)]
    given_up = 0
    with concurrent.futures.ThreadPoolExecutor(max_workers=4) as pool:
        ends = pool.map(lambda place: runner.refused(words, *place), places)
        for (kind, number), (written, ended, told) in zip(places, ends):
            if not isinstance(told, tuple) or (written, ended) not in ((b"", 8), (text, status)):
                failures.append(f"{name}, {kind}={number}: {(written, ended, told)!r}")
            given_up += ended == 8
    if given_up < count:
        failures.append(f"{name}: of {len(places)} runs without memory only {given_up} gave up")
    return len(places), given_up


def check_all(failures, runner):
    return [check(failures, runner, name) for name in RUNS]


def main():
    failures = []
    with tempfile.TemporaryDirectory() as folder:
        library = refusing_library(folder)
        if library is None:
            print("checks/memory: no C compiler builds checks/refusing.c, skipped")
            return 0
        for name, content in FILES.items():
            with open(os.path.join(folder, name), "wb") as file:
                file.write(content)
        with bound() as silent:
            server = Server(in_reverse_order())
            there = silent.getsockname()[1]
            counts = server.beside(lambda port: check_all(failures, Runner(folder, library, port, there)))
    for failure in failures[:20]:
        print(f"checks/memory: {failure}")
    runs, given_up = map(sum, zip(*counts))
    told = f"{runs} runs without memory, {given_up} gave up"
    print(f"checks/memory: {told}, {len(RUNS)} passed" if not failures else f"checks/memory: {told}, {len(failures)} failed")
    return 1 if failures else 0


if __name__ == "__main__":
    sys.exit(main())
