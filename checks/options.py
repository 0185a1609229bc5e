"""Compares the options and positionals of each command in four places: the tables that the words of the command line
are read by (crates/pac_words/specs/Tables.antt), docs/COMMAND-LINE.md, man/pac.1 and completions/pac.bash.

The values and usual values of the options, and the exit statuses, are compared too: the document with the constants of
the crates, and the page with the document.

Of `pac-lint`, docs/LINT.md is compared with the code, and man/pac-lint.1 with both: the usage, each exit status with
what is written then, what a line is, and the lines of the example, which the document has from a sample that
checks/lint.py runs. Its completion offers files.
"""
import glob
import os
import re
import subprocess
import sys
import tempfile

LINT, LINT_PAGE = "docs/LINT.md", "man/pac-lint.1"


def read(name):
    with open(name, encoding="utf-8") as file:
        return file.read()


def tables():
    """The options and the positionals of each command, by the tables that its words are read by."""
    text, found = read("crates/pac_words/specs/Tables.antt"), {}
    for command, fields in re.findall(r"^(\w+)_table = record \{(.*?)\}", text, re.M | re.S):
        lists = dict(re.findall(r"(\w+) = ([^;}]*)", fields))
        found[command] = [re.findall(r'codes "([\w-]+)"', lists[field]) for field in ["options", "places"]]
    return found


def rows(heading, document="docs/COMMAND-LINE.md"):
    """The rows of the table of a document with this heading, as lists of cells."""
    lines = read(document).splitlines()
    at = lines.index(heading) + 2
    while lines[at].startswith("| "):
        yield [it.strip() for it in re.split(r"(?<!\\)\|", lines[at])[1:-1]]
        at += 1


def documented_commands():
    """The positionals of each command, by the first table of the document: those of all its lines."""
    found = {}
    for words, _ in rows("| Command | Does |"):
        command, *rest = re.sub(r"--\w+ \w+", "", words.strip("`").removeprefix("pac ")).split()
        places = found.setdefault(command, [])
        places += [it.lower() for it in rest if it.lower() not in places]
    return found


def documented_options():
    """Of each option its commands, its value and its usual value, without marks, by the document."""
    plain = lambda cell: cell.replace("`", "")
    for option, of, *cells in rows("| Option | Of | Value | Where it isn't given |"):
        yield plain(option).removeprefix("--"), plain(of).split(", "), *map(plain, cells)


def constant(name):
    """The number of this name in the crates."""
    found = set()
    for file in glob.glob("crates/*/src/*.rt"):
        found.update(re.findall(rf"^pub const {name}: \w+ = ([\d_]+);", read(file), re.M))
    value, = found
    return int(value)


def limits():
    """The value and the usual value of options that have numbers, by the constants of the crates."""
    numbers = {it: f"{constant(it):,}" for it in ["MOST_WAIT", "USUAL_WAIT", "MOST_TRIES", "USUAL_TRIES", "MOST_FUEL",
                                                  "USUAL_FUEL", "LAST_MOMENT"]}
    local = ".".join(str(it) for it in constant("LOCAL").to_bytes(4, "big"))
    return {
        "server": (None, f"{local}:{constant('USUAL_PORT')}"),
        "wait": ("1 to {MOST_WAIT} beats".format(**numbers), numbers["USUAL_WAIT"]),
        "tries": ("1 to {MOST_TRIES}".format(**numbers), numbers["USUAL_TRIES"]),
        "fuel": ("1 to {MOST_FUEL}".format(**numbers), numbers["USUAL_FUEL"]),
        "my-ip": (None, local),
        "now": ("0 to {LAST_MOMENT}, seconds since 1970 in UTC".format(**numbers), None),
    }


def section(heading, page="man/pac.1"):
    """The lines of a section of a page of the manual, without the marks of fonts."""
    text = read(page).split(f"\n.SH {heading}\n")[1].split("\n.SH ")[0]
    return re.sub(r'^\.(BR|IR|RI|BI|RB|[BI]) |"', "", text, flags=re.M).replace("\\-", "-").splitlines()


def entries(heading, page="man/pac.1"):
    """The entries of a section, each as its head and its text."""
    for entry in "\n".join(section(heading, page)).split(".TP\n")[1:]:
        head, _, text = entry.partition("\n")
        yield head, text


def synopsis():
    """The positionals of each command, by the synopsis of the page."""
    found = {}
    for words in " ".join(section("SYNOPSIS")).split(".br"):
        _, command, *rest = re.sub(r"--\w+ +[A-Z]+|\[.*", "", words).split()
        places = found.setdefault(command, [])
        places += [it.lower() for it in rest if it.lower() not in places]
    return found


def completed(*words, program="pac", folder="."):
    """What its completion offers for the last of these words behind a program's name, as a sorted list."""
    show = '. "$0"; COMP_WORDS=("$@"); COMP_CWORD=$(($# - 1)); "_${1//-/_}"; printf "%s\\n" "${COMPREPLY[@]}"'
    file = os.path.abspath(f"completions/{program}.bash")
    ran = subprocess.run(["bash", "-c", show, file, program, *words], stdout=subprocess.PIPE, cwd=folder,
                         check=True, text=True)
    return sorted(ran.stdout.split())


def lint_statuses():
    """Of each exit status of `pac-lint` its number and name, and its line where it has one of its own, by the code."""
    code = "".join(map(read, [*glob.glob("crates/pac_lint/src/*.rt"), "crates/pac_plan/src/output.rt"]))
    lines = {name: "".join(re.findall('"([^"]*)"', texts))
             for name, texts in re.findall(r"\bline\(alloc, Status::(\w+), (.*)\)", code)}
    for name, number in re.findall(r"Status::(\w+) => (\d+)", read("crates/pac_plan/src/status.rt")):
        if f"Status::{name}" in code:
            yield number, name, lines.get(name)


def lint_call():
    """How `pac-lint` is called, by the line of its usage."""
    usage = {name: line for _, name, line in lint_statuses()}["Usage"]
    return usage.removeprefix("usage: ")


def check_document(expect):
    for command, (options, places) in tables().items():
        expect(f"docs/COMMAND-LINE.md, {command}", documented_commands().get(command), places)
        named = [name for name, of, *_ in documented_options() if command in of]
        expect(f"docs/COMMAND-LINE.md, options of {command}", sorted(named), sorted(options))
    expect("docs/COMMAND-LINE.md, commands", sorted(documented_commands()), sorted(tables()))
    cells = {name: rest for name, _, *rest in documented_options()}
    for name, wanted in limits().items():
        for found, cell in zip(cells[name], wanted):
            expect(f"docs/COMMAND-LINE.md, --{name}", found, cell or found)


def check_page(expect):
    texts = dict(entries("COMMANDS"))
    expect("man/pac.1, commands", sorted(texts), sorted(tables()))
    for command, (options, places) in tables().items():
        expect(f"man/pac.1, {command}", synopsis().get(command), places)
        named = re.findall(r"--([\w-]+)", texts[command])
        expect(f"man/pac.1, options of {command}", sorted(named), sorted(options))
    texts = dict(entries("OPTIONS"))
    for name, of, value, usual in documented_options():
        text = texts.pop(f"--{name}  ({', '.join(of)})", "")
        expect(f"man/pac.1, --{name}", text[:len(f"{value}; {usual}")], f"{value}; {usual}")
    expect("man/pac.1, options that there aren't", list(texts), [])
    statuses = [f"{number} {status}" for status, number, *_ in rows("| Status | Number | Comes | Written |")]
    expect("man/pac.1, statuses", [f"{head} {text.split(':')[0]}" for head, text in entries("EXIT STATUS")], statuses)


def check_completion(expect):
    expect("completion of commands", completed(""), sorted(tables()))
    for command, (options, _) in tables().items():
        expect(f"completion of {command}", completed(command, "-"), sorted(f"--{name}" for name in options))
        expect(f"completion of {command}'s second option", completed(command, "--fuel", "1", "--wa"),
               ["--wait"] * ("wait" in options))
    files = ["examples/company.names"]
    for words in [["--names", "examples/company.n"], ["--names", "=", "examples/company.n"], ["examples/company.n"]]:
        expect(f"completion of files, {words}", completed("map", "--batch", "=", "b", *words), files)
    expect("completion of a number", completed("map", "--fuel", ""), [])
    expect("completion of a zone", completed("map", "--zone", "="), ["UTC"])


def check_lint_document(expect):
    found = [(number, *re.findall("`(.*)`", text)) for number, text in rows("| Status | For |", LINT)]
    wanted = [(number, *([line] if line else [])) for number, _, line in lint_statuses()]
    expect(f"{LINT}, statuses and lines", found, wanted)
    calls = {LINT: f"`{lint_call()}` reads", "docs/COMMAND-LINE.md": f"`./{lint_call()}`",
             "README.md": f"`./{lint_call()}`"}
    for document, call in calls.items():
        expect(f"{document}, {call}", call in read(document), True)


def check_lint_page(expect):
    expect(f"{LINT_PAGE}, synopsis", " ".join(section("SYNOPSIS", LINT_PAGE)), lint_call())
    names = {number: name for number, name, _ in lint_statuses()}
    found = [f"{head} {' '.join(text.split())}" for head, text in entries("EXIT STATUS", LINT_PAGE)]
    wanted = [f"{number} {names.get(number)}: {text}.".replace("`", "")
              for number, text in rows("| Status | For |", LINT)]
    expect(f"{LINT_PAGE}, statuses", found, wanted)
    form = "LINE:COLUMN: NAME: ADVICE"
    expect("what a line is", [f"`{form}`" in read(LINT), form in section("OUTPUT", LINT_PAGE)], [True, True])
    expect(f"{LINT_PAGE}, length of a file", f"{constant('LONGEST_FILE'):,} bytes" in read(LINT_PAGE), True)
    shown = [line for line in section("EXAMPLES", LINT_PAGE) if re.match(r"\d+:\d+: ", line)]
    there = re.findall("^  - `(.*)`$", read(LINT), re.M)
    expect(f"{LINT_PAGE}, lines of the example", shown, [line for line in there if line in shown] or ["some"])


def check_lint_completion(expect):
    found = completed("examples/company.n", program="pac-lint")
    expect("completion of pac-lint's file", found, ["examples/company.names"])
    expect("completion of its second word", completed("examples/direct.pac", "", program="pac-lint"), [])
    with tempfile.TemporaryDirectory() as folder:
        for name in ["-n", "n"]:
            open(os.path.join(folder, name), "w", encoding="utf-8").close()
        for word, names in [("", ["n"]), ("-", [])]:
            expect(f"completion of {word!r}", completed(word, program="pac-lint", folder=folder), names)


def main():
    failures = []

    def expect(what, found, wanted):
        if found != wanted:
            failures.append(f"{what}: {found!r} in place of {wanted!r}")

    for check in [check_document, check_page, check_completion,
                  check_lint_document, check_lint_page, check_lint_completion]:
        check(expect)
    for failure in failures:
        print(f"checks: {failure}")
    passed = f"passed, {len(tables())} commands and pac-lint"
    print("checks of options:", f"{len(failures)} failed" if failures else passed)
    return 1 if failures else 0


if __name__ == "__main__":
    sys.exit(main())
