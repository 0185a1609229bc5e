"""Checks docs/ARCHITECTURE.md against crates.txt: each crate stands there, and each stands on crates above it alone.

The crates that are marked *to come* stand in crates.txt not yet. Those behind the tables are tests and tools, which may
stand on each crate of the tables, and on which none of these stands.
"""
import re
import sys


def read(name):
    with open(name, encoding="utf-8") as file:
        return file.read()


def crates_below():
    """For each crate of crates.txt, in its order, those of them that it stands on."""
    lines = [line.partition("#")[0].partition(":") for line in read("crates.txt").splitlines()]
    below = {name.split()[0]: libraries.split() for name, colon, libraries in lines if colon}
    return {name: [it for it in libraries if it in below] for name, libraries in below.items()}


def faults():
    text = read("docs/ARCHITECTURE.md")
    below = crates_below()
    rows = re.findall(r"^\| `(\w+)` \| (.*) \|$", text, re.M)
    listed = [name for name, _ in rows]
    to_come = [name for name, gives in rows if "*to come*" in gives]
    for name in sorted({name for name in listed if listed.count(name) > 1}):
        yield f"{name} stands in two rows"
    for name in listed:
        if (name in below) == (name in to_come):
            yield f"{name} is {'marked as to come' if name in below else 'in no line of crates.txt'}"
    behind = [name for name in below if name not in listed]
    for name in behind:
        if f"`{name}`" not in text:
            yield f"{name} is not named"
    order = {name: at for at, name in enumerate([*listed, *behind])}
    for name, libraries in below.items():
        for library in libraries:
            if library in behind and name in listed or name in listed and order[library] > order[name]:
                yield f"{name} stands on {library}, which is not above it in the list"


def main():
    found = list(faults())
    for fault in found:
        print(f"checks: docs/ARCHITECTURE.md: {fault}")
    print("checks of the map:", f"{len(found)} faults" if found else "passed")
    return 1 if found else 0


if __name__ == "__main__":
    sys.exit(main())
