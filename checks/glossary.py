"""Checks docs/GLOSSARY.md: each definition that it names stands in that crate's file, and each word stands once."""
import re
import sys

PAGE = "docs/GLOSSARY.md"
DEFINITION = re.compile(r"`(\w+)` `(\w+)` `(\w+)`")


def read(name):
    with open(name, encoding="utf-8") as file:
        return file.read()


def rows():
    """Each word with the last column of its row, but for the heads of the tables and the lines below them."""
    cells = [line.strip("|").split(" | ") for line in read(PAGE).splitlines() if line.startswith("|")]
    return [(row[0].strip(), row[-1].strip()) for row in cells if row[0].strip() != "Word" and len(row) == 3]


def is_defined(crate, file, name):
    try:
        text = read(f"crates/{crate}/specs/{file}.antt")
    except OSError:
        return False
    return re.search(rf"^(?:abbrev |unfoldable )?pub (?:data |record )?{name}\b", text, re.M) is not None


def faults():
    words = [word for names, _ in rows() for word in names.split(", ")]
    yield from (f"{word} stands twice" for word in sorted({word for word in words if words.count(word) > 1}))
    for word, definition in rows():
        found = DEFINITION.fullmatch(definition)
        if definition and not (found and is_defined(*found.groups())):
            yield f"{word}: {definition} is no definition"


def main():
    found = list(faults())
    for fault in found:
        print(f"checks: {PAGE}: {fault}")
    print("checks of words:", f"{len(found)} faults of {len(rows())}" if found else f"{len(rows())} passed")
    return 1 if found or not rows() else 0


if __name__ == "__main__":
    sys.exit(main())
