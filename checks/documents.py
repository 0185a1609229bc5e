"""Checks the documents: README.md lists each of them, and the files that they name are there.

A name is what stands in backquotes and begins with a folder of the repository, or ends with `.md` (a document of
docs/ or of the top). Names in capitals stand for any: `crates/NAME/src`.
"""
import glob
import os
import re
import sys

NAMED = re.compile(r"(?:docs|checks|tools|crates|examples|bench|man|completions|prebuilt|c|python)/[\w./-]*|[\w-]+\.md")


def read(name):
    with open(name, encoding="utf-8") as file:
        return file.read()


def documents():
    return sorted(name for name in [*glob.glob("*.md"), *glob.glob("docs/*.md")] if name != "README.md")


def names_in(text):
    """The files that a text names: the first word of what stands in backquotes."""
    quoted = re.findall(r"`([^`\n]+)`", re.sub(r"^ *```.*?^ *```", "", text, flags=re.M | re.S))
    words = [it.split()[0] for it in quoted if it.split()]
    # what is built isn't there yet
    return [it for it in words if NAMED.fullmatch(it) and not re.search(r"\b(NAME|PATH|FILE|FOLDER|out)\b", it)]


def is_there(name):
    return any(os.path.exists(folder + name) for folder in ["", "docs/"])


def faults():
    listed = re.findall(r"^\| \d+ \| `([\w-]+\.md)`", read("README.md"), re.M)
    for name in sorted({*map(os.path.basename, documents())} ^ {*listed}):
        yield f"README.md: {name} is {'listed, and not there' if name in listed else 'not listed'}"
    for document in ["README.md", *documents()]:
        for name in dict.fromkeys(names_in(read(document))):
            if not is_there(name):
                yield f"{document}: {name} is not there"


def main():
    found = list(faults())
    for fault in found:
        print(f"checks: {fault}")
    print("checks of documents:", f"{len(found)} faults" if found else f"{len(documents()) + 1} passed")
    return 1 if found else 0


if __name__ == "__main__":
    sys.exit(main())
