"""Random searches for patterns of regular expressions, compared with two other readings of ECMA-262 5.1, 15.10.2.

Patterns, texts and the places to begin at are made by a fixed seed. `walk` reads the definition of a match and its cost
in a few lines, and knows nothing of the program. Node.js is asked for the same matches; without it that is skipped. The
program is that of regex_cases, which the gate built: it is handed a table of rows, and tells those that don't hold.
"""
import json
import os
import random
import shutil
import subprocess
import sys

PROGRAM = "crates/regex_cases/out/regex_cases"
SEED, ROWS = 15102, 4000
# searches that cost more are left out, since the program's rows have fuel for no more
MOST = 100_000
QUANTIFIERS = {
    "*": (0, None),
    "+": (1, None),
    "?": (0, 1),
    "{2}": (2, 2),
    "{1,}": (1, None),
    "{0,2}": (0, 2),
    "{1,3}": (1, 3),
}
# how leaves are written, and which of the texts' units they take
UNITS = {
    "a": "a",
    "b": "b",
    "c": "c",
    "[ab]": "ab",
    "[^a]": "bcA\n",
    ".": "abcA",
    "\\w": "abcA",
    "[]": "",
    "[^]": "abcA\n",
}
ASSERTIONS = ["^", "$", "\\b", "\\B"]
ASK_NODE = """
const rows = JSON.parse(require("fs").readFileSync(0, "utf8"));
const found = rows.map(([body, flags, text, from]) => {
  const pattern = new RegExp(body, flags + "gd");
  pattern.lastIndex = from;
  const match = pattern.exec(text);
  return match === null ? null : [...match.indices].map((pair) => pair || null);
});
process.stdout.write(JSON.stringify(found));
"""


class Maker:
    """Makes the tree of a pattern, and numbers its groups."""

    def __init__(self, chance):
        self.chance = chance
        self.groups = 0
        # references are to groups below this number
        self.referred = 0

    def body(self, depth):
        """A row, or alternatives of rows."""
        rows = [self.row(depth) for _ in range(self.chance.choice([1, 1, 1, 2, 3]))]
        return rows[0] if len(rows) == 1 else ("alternatives", rows)

    def row(self, depth):
        return ("row", [self.term(depth) for _ in range(self.chance.choice([0, 1, 1, 2, 2, 3]))])

    def term(self, depth):
        first = self.groups
        atom = self.atom(depth)
        if atom[0] == "assertion" or self.chance.random() < 0.5:
            return atom
        mark = self.chance.choice(list(QUANTIFIERS))
        lazy = self.chance.random() < 0.3
        return ("repeat", atom, *QUANTIFIERS[mark], lazy, (first, self.groups), mark + "?" * lazy)

    def atom(self, depth):
        draw = self.chance.random()
        if depth == 0 or draw < 0.5:
            return ("unit", self.chance.choice(list(UNITS)))
        if draw < 0.6:
            return ("assertion", self.chance.choice(ASSERTIONS))
        if draw < 0.68:
            number = self.chance.randrange(self.groups + 2)
            self.referred = max(self.referred, number + 1)
            return ("reference", number)
        if draw < 0.8:
            return ("group", None, self.body(depth - 1))
        number = self.groups
        self.groups += 1
        return ("group", number, self.body(depth - 1))


def written(node):
    """A tree as the body of a pattern."""
    kind = node[0]
    if kind in ("unit", "assertion"):
        return node[1]
    if kind == "reference":
        return f"\\{node[1] + 1}"
    if kind == "group":
        return ("(?:" if node[1] is None else "(") + written(node[2]) + ")"
    if kind == "repeat":
        return written(node[1]) + node[-1]
    return ("|" if kind == "alternatives" else "").join(written(part) for part in node[1])


def is_word(text, place):
    return 0 <= place < len(text) and (text[place].isalnum() or text[place] == "_")


def asserted(search, mark, place):
    text = search["text"]
    lines = "m" in search["flags"]
    if mark == "^":
        return place == 0 or lines and text[place - 1] == "\n"
    if mark == "$":
        return place == len(text) or lines and text[place] == "\n"
    return (is_word(text, place - 1) != is_word(text, place)) == (mark == "\\b")


def takes(search, leaf, unit):
    if "i" not in search["flags"] or leaf in (".", "\\w", "[]", "[^]"):
        return unit in UNITS[leaf]
    if leaf == "[^a]":
        return unit.lower() != "a"
    return unit.lower() in UNITS[leaf]


def offers(search, item, place, groups):
    """What an item that is taken up offers: lists of items, each with the place and the groups that it goes on from."""
    text, kind = search["text"], item[0]
    if kind == "unit":
        return [((), place + 1, groups)] if place < len(text) and takes(search, item[1], text[place]) else []
    if kind == "assertion":
        return [((), place, groups)] if asserted(search, item[1], place) else []
    if kind == "reference":
        first, behind = groups[item[1]] or (0, 0)
        same = text[place:place + behind - first], text[first:behind]
        if "i" in search["flags"]:
            same = [part.lower() for part in same]
        return [((), place + behind - first, groups)] if same[0] == same[1] else []
    if kind == "row":
        return [(tuple(item[1]), place, groups)]
    if kind == "alternatives":
        return [((row,), place, groups) for row in item[1]]
    if kind == "group":
        return [((item[2], ("end of group", item[1], place)), place, groups)]
    if kind == "end of group":
        number, start = item[1:]
        return [((), place, groups if number is None else groups[:number] + ((start, place),) + groups[number + 1:])]
    if kind == "end of turn":
        least, start = item[1:]
        return [] if least == 0 and place == start else [((), place, groups)]
    return turns(item, place, groups)


def turns(item, place, groups):
    _, part, least, most, lazy, (first, behind), mark = item
    leaving = ((), place, groups)
    if most == 0:
        return [leaving]
    smaller = ("repeat", part, max(least - 1, 0), None if most is None else most - 1, lazy, (first, behind), mark)
    unset = groups[:first] + (None,) * (behind - first) + groups[behind:]
    taking = ((part, ("end of turn", least, place), smaller), place, unset)
    if least > 0:
        return [taking]
    return [leaving, taking] if lazy else [taking, leaving]


def walk(search, items, place, groups):
    """Where a list of items comes to, or None; each item that is taken up costs 1."""
    if not items:
        return place, groups
    search["cost"] += 1
    if search["cost"] > MOST:
        raise OverflowError
    for front, there, then in offers(search, items[0], place, groups):
        end = walk(search, front + items[1:], there, then)
        if end is not None:
            return end
    return None


def match(search, tree, groups, start):
    """The first match from a place on: its own two places, and those of each group."""
    for place in range(start, len(search["text"]) + 1):
        end = walk(search, (tree,), place, (None,) * groups)
        if end is not None:
            return [(place, end[0]), *end[1]]
    return None


def made_row(chance):
    """A search with its match and its cost, or None where it refers to no group or costs too much."""
    maker = Maker(chance)
    tree = maker.body(3)
    if maker.referred > min(maker.groups, 9):
        return None
    flags = "".join(flag for flag in "im" if chance.random() < 0.3)
    text = "".join(chance.choice("aaabbcA\n") for _ in range(chance.randrange(9)))
    search = {"text": text, "flags": flags, "cost": 0}
    start = chance.randrange(len(text) + 1)
    try:
        found = match(search, tree, maker.groups, start)
    except (OverflowError, RecursionError):
        return None
    return (written(tree), flags, text, start), found, search["cost"]


def places(found):
    """A match as a row writes it."""
    if found is None:
        return "none"
    return " ".join("unset" if pair is None else f"{pair[0]}..{pair[1]}" for pair in found)


def field(text):
    return text.replace("\\", "\\\\").replace("\n", "\\n")


def table(rows):
    lines = ["part matches"]
    for (body, flags, text, start), found, _ in rows:
        lines.append(f"{field(body)}\t{flags}\t{field(text)}\t{start} => {places(found)}")
    lines.append("part fuel")
    for (body, flags, text, start), found, cost in rows:
        if start == 0:
            lines.append(f"{field(body)}\t{flags}\t{field(text)}\t{cost} => {places(found)}, 0 left")
            lines.append(f"{field(body)}\t{flags}\t{field(text)}\t{cost - 1} => spent")
    return "\n".join(lines) + "\n"


def of_node(failures, rows):
    """What Node.js finds of the same searches."""
    asked = json.dumps([row[0] for row in rows])
    options = {"stdout": subprocess.PIPE, "text": True, "timeout": 120}
    found = subprocess.run(["node", "-e", ASK_NODE], input=asked, check=True, **options)
    for (row, wanted, _), theirs in zip(rows, json.loads(found.stdout), strict=True):
        if places(wanted) != places(theirs):
            failures.append(f"node: {row!r}: {places(theirs)} in place of {places(wanted)}")


def of_program(failures, rows):
    """What the program says of a table of these searches."""
    options = {"stdout": subprocess.PIPE, "text": True, "timeout": 120}
    found = subprocess.run([PROGRAM], input=table(rows), check=False, **options)
    told = found.stdout.splitlines()
    if found.returncode != 0 or len(told) != 2:
        failures.extend(told[:20])


def main():
    if not os.path.exists(PROGRAM):
        print("patterns: skipped, as regex_cases is not built")
        return 0
    chance = random.Random(SEED)
    rows = [row for row in (made_row(chance) for _ in range(ROWS)) if row is not None]
    failures = []
    of_program(failures, rows)
    if shutil.which("node"):
        of_node(failures, rows)
    else:
        print("patterns: node skipped, as it is missing")
    for failure in failures:
        print(f"checks: {failure}")
    print(f"patterns: {len(rows)} searches, {len(failures)} failed")
    return 1 if failures else 0


if __name__ == "__main__":
    sys.exit(main())
