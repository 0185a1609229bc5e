"""Runs each script of docs/DIFFERENCES.md and docs/DIFFERENCES-PATTERNS.md, and compares what it comes to with what the
page says that it does here.

Behind each script stands a sentence with the answer here, the first one in backquotes behind the word 'here'. Before it
may stand a URL and a moment; the others are those below. Names have the addresses of an example.
"""
import os
import re
import subprocess
import sys
import tempfile

from examples import PROGRAM

PAGES = ["docs/DIFFERENCES.md", "docs/DIFFERENCES-PATTERNS.md"]
URL = "http://a.example/"
NAMES = "examples/by_family.names"
MOMENTS = {"23:00": 1700089200, "13:30": 1700055000, "9:00": 1700038800}
MOMENTS |= {"a Saturday": 1700300000, "15 March": 1710504000}
SCRIPT = re.compile(r"^( *)```\n(.*?)^ *```\n\n(.*?)(?:\n\n|\Z)", re.M | re.S)


def scripts_of(page):
    """Each script of a page with the sentence behind it."""
    with open(page, encoding="utf-8") as file:
        for indent, script, sentence in SCRIPT.findall(file.read()):
            yield re.sub(f"^{indent}", "", script, flags=re.M), " ".join(sentence.split())


def scripts():
    """Those of all pages."""
    return [it for page in PAGES for it in scripts_of(page)]


def url_of(sentence):
    named = re.search(r"[Ff]or `(\w+://[^`]*)`( and 1,000 letters behind it)?", sentence)
    return (named[1] + "x" * 1000 * bool(named[2])) if named else URL


def words_of(sentence):
    moment = next((seconds for name, seconds in MOMENTS.items() if re.search(rf"\b([Aa]t|On) {name}", sentence)), None)
    return [url_of(sentence), "--names", NAMES, *(["--now", str(moment)] if moment else [])]


def lines_of(script, sentence):
    """What the program writes of the script."""
    with tempfile.TemporaryDirectory() as room:
        path = os.path.join(room, "script.pac")
        with open(path, "w", encoding="utf-8") as file:
            file.write(script)
        words = [PROGRAM, "map", path, *words_of(sentence)]
        return subprocess.run(words, capture_output=True, text=True, timeout=60, check=False).stdout.splitlines()


def faults(page):
    """What is wrong with a page."""
    if not any(scripts_of(page)):
        yield "no script"
    for script, sentence in scripts_of(page):
        said = re.search(r"\b[Hh]ere\b[^`]*`([^`]*)`", sentence)
        lines = lines_of(script, sentence)
        if not said or not {said[1], f"result {said[1]}"} & {*lines}:
            yield f"{sentence[:80]!r} in place of {lines!r}"


def main():
    found = [f"{page}: {fault}" for page in PAGES for fault in faults(page)]
    for fault in found:
        print(f"checks: {fault}")
    number = len(scripts())
    print("checks of differences:", f"{len(found)} failed of {number}" if found else f"{number} passed")
    return 1 if found else 0


if __name__ == "__main__":
    sys.exit(main())
