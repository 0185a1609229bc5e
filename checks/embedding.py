"""Runs what docs/EMBEDDING.md shows: its commands, and the batch that is kept open by examples/open_batch.py; and
compares the statuses of C there with those of c/pac.h.

The helper of Squid has a check of its own (`checks/squid.py`).
"""
import re
import subprocess
import sys
import unittest.mock

from examples import readme_commands

sys.path.insert(0, "examples")
from open_batch import MOST_URLS, OpenBatch

PAGE = "docs/EMBEDDING.md"
BY_NETWORK = ["./pac", "map", "examples/by_network.pac", "--names", "examples/by_network.names"]
# the command of README.md for the URLs of the page's sample
BATCH = "./pac map examples/by_network.pac --batch examples/by_network.batch --names examples/by_network.names"
URL, REPORT = "http://wiki.example.com/", "url {} http://wiki.example.com/\nresult DIRECT\ntry DIRECT\nruns 1\n"
# no pipe has room for a few of these, and no batch for 40 of them
LONG = URL + "x" * 50_000


def read(name):
    with open(name, encoding="utf-8") as file:
        return file.read()


def blocks(language):
    found = re.findall(rf"^```{language}\n(.*?)^```$", read(PAGE), re.M | re.S)
    if not found:
        raise LookupError(f"{PAGE}: no {language}")
    return found


def the_commands():
    """Each command of the page comes to the lines below it."""
    for block in blocks("console"):
        for command, wanted in re.findall(r"^\$ (.*)\n((?:[^$].*\n)*)", block, re.M):
            found = subprocess.run(["bash", "-c", command], capture_output=True, text=True, timeout=60, check=False)
            yield command, (found.stdout, found.stderr, found.returncode), (wanted, "", 0)


def the_open_batch():
    """The sample of the page comes to what README.md shows of its URLs."""
    for block in blocks("python"):
        names = {"OpenBatch": OpenBatch}
        exec(block, names)
        yield "the sample", (names["status"], names["report"]), (0, dict(readme_commands())[BATCH])


def raises(batch, url):
    try:
        batch.add(url)
    except ValueError:
        return True
    return False


def what_is_refused():
    batch = OpenBatch(BY_NETWORK)
    yield "a line feed", raises(batch, f"{URL}\nfail PROXY proxy.example.com:8080"), True
    yield "full", [raises(batch, URL) for _ in range(MOST_URLS + 1)], [False] * MOST_URLS + [True]
    yield "a full batch", batch.close(), (0, "".join(REPORT.format(place) for place in range(1, MOST_URLS + 1)))


def what_ends_early():
    absent = ["./pac", "map", "examples/absent.pac", "--names", "/dev/null"]
    for words, wanted in [(absent, (3, "fault read script\n")), (BY_NETWORK, (4, "refused batch TooLong\n"))]:
        batch = OpenBatch(words)
        for _ in range(40):
            batch.add(LONG)
        yield "ends early", batch.close(), wanted


def a_clock_that_is_set_back():
    batch = OpenBatch(BY_NETWORK)
    for moment in [1700000060.9, 1700000000.0]:
        with unittest.mock.patch("time.time", return_value=moment):
            batch.add(URL)
    yield "set back", batch.close(), (0, REPORT.format(1) + REPORT.format(2))


def the_statuses_of_c():
    written = [(name, number) for number, name in re.findall(r"\b(\d) `(PAC_\w+)`", read(PAGE))]
    yield "the statuses of C", written, re.findall(r"^ *(PAC_\w+) = (\d)", read("c/pac.h"), re.M)


def main():
    # builds the program where the gate left none
    subprocess.run(["./pac"], stdout=subprocess.DEVNULL, check=False)
    parts = [the_commands, the_open_batch, what_is_refused, what_ends_early, a_clock_that_is_set_back]
    parts += [the_statuses_of_c]
    rows = [row for part in parts for row in part()]
    failures = [row for row in rows if row[1] != row[2]]
    for name, found, wanted in failures:
        print(f"checks: {PAGE}: {name}: {found!r} in place of {wanted!r}")
    print("checks of embedding:", f"{len(failures)} failed of {len(rows)}" if failures else f"{len(rows)} passed")
    return 1 if failures else 0


if __name__ == "__main__":
    sys.exit(main())
