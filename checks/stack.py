"""Runs scripts through `pac resolve` and `pac check` in a stack of 1 MB: with nearly as many parts within one another
as a script may have, of each kind, and with 2,000 open parts.

The commands are run as `./pac`, or as the words of the environment's PAC.
"""
import os
import resource
import subprocess
import sys
import tempfile

from dns import PAC, compare

STACK = 1024 * 1024
URL = "http://www.example.com/"
NESTING = 190
LEVELS = "1 || 1 && 1 | 1 ^ 1 & 1 == 1 < 1 << 1 + 1 * "
# what begins each part, what the innermost one is, and what ends each part
NESTED = {
    "brackets": ("x = ", "(", "1", ")"),
    "sums": ("x = ", "(1 + ", "1", ")"),
    "operators of all levels": ("x = ", f"({LEVELS}", "1", ")"),
    "conditions": ("x = ", "a ? b : ", "1", ""),
    "assignments": ("x = ", "x = ", "1", ""),
    "prefix operators": ("x = ", "!", "1", ""),
    "constructions": ("x = ", "new ", "a", ""),
    "arrays": ("x = ", "[", "1", "]"),
    "objects": ("x = ", "{a: ", "1", "}"),
    "calls": ("x = ", "f(", "1", ")"),
    "indexes": ("x = ", "a[", "1", "]"),
    "blocks": ("", "{ ", "", "}"),
    "branches": ("", "if (a) ", ";", ""),
    "while loops": ("", "while (a) ", ";", ""),
    "for loops": ("", "for (;;) ", ";", ""),
    "for-in loops": ("", "for (x in a) ", ";", ""),
    "clauses": ("", "switch (a) { case 1: ", "", "}"),
}
# each counts twice
TWICE = {
    "functions": ("x = ", "function () { return ", "1", "; }"),
    "handlers": ("", "try { ", "", " } catch (e) { }"),
}
DEEP = "function FindProxyForURL(url, host) { return FindProxyForURL(url, host); }\n"


def nested(times, first, begin, inmost, end):
    """A script in which a function that isn't called holds so many parts within one another."""
    deep = f"function deep() {{ {first}{begin * times}{inmost}{end * times} }}"
    return f'{deep}\nfunction FindProxyForURL(url, host) {{ return "DIRECT"; }}\n'


def small_stack():
    resource.setrlimit(resource.RLIMIT_STACK, (STACK, STACK))


def called(command, script, *words):
    """What a command writes for a script, and its status, in a small stack."""
    with tempfile.TemporaryDirectory() as folder:
        name = os.path.join(folder, "script.pac")
        with open(name, "w", encoding="ascii") as file:
            file.write(script)
        pipes = {"stdout": subprocess.PIPE, "stderr": subprocess.STDOUT}
        words = [*PAC, command, name, *words]
        found = subprocess.run(words, **pipes, timeout=60, check=False, preexec_fn=small_stack)
    return found.stdout.decode(), found.returncode


def main():
    failures = []
    direct = (f"url 1 {URL}\nresult DIRECT\ntry DIRECT\nruns 1\n", 0)
    scripts = {f"{NESTING} {name}": nested(NESTING, *shape) for name, shape in NESTED.items()}
    scripts |= {f"{NESTING // 2} {name}": nested(NESTING // 2, *shape) for name, shape in TWICE.items()}
    for name, script in scripts.items():
        compare(failures, f"{name}, resolved", called("resolve", script, URL), direct)
        _, status = called("check", script)
        compare(failures, f"{name}, checked", ("", status), ("", 0))
    text, status = called("resolve", DEEP, URL)
    compare(failures, "2,000 open parts", (text.split(" at ")[0], status), (f"url 1 {URL}\nfault F2 TooDeep", 1))
    count = 2 * len(scripts) + 1
    for failure in failures:
        print(f"checks/stack: {failure}")
    print(f"checks/stack: {count} passed" if not failures else f"checks/stack: {len(failures)} failed of {count}")
    return 1 if failures else 0


if __name__ == "__main__":
    sys.exit(main())
