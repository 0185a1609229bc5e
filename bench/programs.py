"""The programs that a part is measured by: crates/pac_bench or one of the programs of cases, and the same work in plain
Rust."""
import os
import subprocess
import sys

TOP = os.path.dirname(os.path.dirname(os.path.abspath(__file__)))


def built(crate, *words):
    """Proves and builds the program of a crate by a small run with these words and no input; gives its path."""
    folder = os.path.join(TOP, "crates", crate)
    words = ["rt", "run", "--", *words]
    run = subprocess.run(words, cwd=folder, stdin=subprocess.DEVNULL, capture_output=True, text=True)
    if run.returncode != 0:
        sys.exit(run.stdout + run.stderr)
    return os.path.join(folder, "out", crate)


def bench(part, *words):
    """The words that the runs of a part of pac_bench begin with."""
    return [built("pac_bench", part, *words), part]


def plain(part, folder):
    """Builds the plain.rs of a part into a folder; gives the words that its runs begin with."""
    program = os.path.join(folder, "plain")
    source = os.path.join(TOP, "bench", part, "plain.rs")
    subprocess.run(["rustc", "-O", "--edition=2021", "-o", program, source], check=True)
    return [program]
