"""Runs the examples of README.md and of examples/, and some bad input, and compares what the program writes.

In README.md each block marked `console` is a list of commands, each behind `$ `, with what it writes below it. Only
commands that begin with `./pac` are run, from the top of the repository. One that ends in `echo "status $?"` writes its
status; that of each other one is 0. Nothing at all is written to standard error.
"""
import os
import subprocess
import sys
import tempfile

PROGRAM = "crates/pac_main/out/pac_main"
USAGE = b"usage: pac resolve|map|check|ask|generate ARGUMENTS\n"


def readme_commands():
    """Each command of README.md with its expected output."""
    command, expected, inside = None, [], False
    with open("README.md", encoding="utf-8") as readme:
        for line in readme:
            if line.startswith("```"):
                if command:
                    yield command, "".join(expected)
                command, expected, inside = None, [], line.strip() == "```console"
            elif inside and line.startswith("$ "):
                if command:
                    yield command, "".join(expected)
                command, expected = line[2:].rstrip("\n"), []
            elif inside:
                expected.append(line)


def check(failures, name, words, expected, **options):
    """Runs a command and compares what it writes and its status; what goes to standard error has to be nothing."""
    options = {"stdout": subprocess.PIPE, "stderr": subprocess.PIPE, **options}
    found = subprocess.run(words, timeout=120, check=False, **options)
    found = (found.stdout, found.stderr, found.returncode)
    text, status = expected
    if found != (text, b"", status):
        failures.append(f"{name}: {found!r} in place of {(text, b'', status)!r}")


def check_readme(failures):
    commands = [(command, text) for command, text in readme_commands() if command.startswith("./pac")]
    for command, text in commands:
        check(failures, command, ["bash", "-c", command], (text.encode(), 0))
    if not commands:
        failures.append("README.md: no command")
    return len(commands)


def contents(name):
    with open(name, "rb") as file:
        return file.read()


def examples(ending):
    """The names of the examples that have a file with this ending, without it."""
    return sorted(name.removesuffix(ending) for name in os.listdir("examples") if name.endswith(ending))


def example_words(name):
    """The words of an example: `map` where it has a file of names, else `resolve`; its URL, or where it has none its
    batch; and those of its file of words."""
    names, url, more = (f"examples/{name}.{ending}" for ending in ["names", "url", "words"])
    words = ["map", "--names", names] if os.path.exists(names) else ["resolve"]
    words += [f"examples/{name}.pac"]
    words += [contents(url).strip()] if os.path.exists(url) else ["--batch", f"examples/{name}.batch"]
    return words + (contents(more).split() if os.path.exists(more) else [])


def check_examples(failures):
    printed, run = examples(".printed"), examples(".report")
    for name in printed:
        text = contents(f"examples/{name}.printed")
        check(failures, f"check {name}", ["./pac", "check", f"examples/{name}.pac"], (text, 0))
    for name in run:
        report = contents(f"examples/{name}.report")
        check(failures, f"run {name}", ["./pac", *example_words(name)], (report, 0))
    return len(printed) + len(run)


def check_bad_input(failures):
    url = "http://example.com/a"
    with tempfile.TemporaryDirectory() as folder:
        long = os.path.join(folder, "long.pac")
        with open(long, "wb") as file:
            file.write(b" " * 1_048_577)
        empty = os.path.join(folder, "empty.pac")
        with open(empty, "wb"):
            pass
        batch = os.path.join(folder, "batch")
        with open(batch, "wb") as file:
            file.write(b"# URLs\nget http://a.example/\nfetch http://b.example/\n")
        absent = os.path.join(folder, "absent.pac")
        # the words, what is written, the status
        cases = [
            ([], USAGE, 2),
            (["--help"], USAGE, 2),
            (["resolve", b"\xff", url], USAGE, 2),
            (["resolve", absent, url], b"fault read script\n", 3),
            (["resolve", folder, url], b"fault read script\n", 3),
            (["resolve", long, url], b"refused script TooLong\n", 4),
            (["map", "examples/direct.pac", url, "--names", absent], b"fault read names\n", 3),
            (["map", "examples/direct.pac", url, "--names", long], b"refused names TooLong\n", 4),
            (["map", "examples/direct.pac", url, "--names", empty], contents("examples/direct.report"), 0),
            (["resolve", "examples/direct.pac", "--batch", absent], b"fault read batch\n", 3),
            (["resolve", "examples/direct.pac", "--batch", long], b"refused batch TooLong\n", 4),
            (["resolve", "examples/direct.pac", "--batch", batch], b"refused batch 3 BadLine\n", 4),
            (["resolve", "examples/direct.pac", "--batch", empty], b"", 0),
            (["resolve", "examples/direct.pac", url, "--batch", empty], USAGE, 2),
            (["check", empty], b"", 0),
        ]
        for words, text, status in cases:
            check(failures, f"pac {words}", ["./pac", *words], (text, status))
    return len(cases)


def check_the_outside(failures):
    """A program's name that isn't UTF-8; a sink that takes nothing, where something is to be written and where not."""
    report = contents("examples/direct.report")
    words = ["resolve", "examples/direct.pac", contents("examples/direct.url").strip()]
    check(failures, "a name that isn't UTF-8", [b"\xff", *words], (report, 0), executable=PROGRAM)
    with open("/dev/full", "wb") as full:
        check(failures, "pac > /dev/full", ["./pac", *words], (None, 7), stdout=full)
        check(failures, "nothing > /dev/full", ["./pac", "check", "/dev/null"], (None, 0), stdout=full)
    return 3


def main():
    # builds the program where the gate left none
    subprocess.run(["./pac"], stdout=subprocess.DEVNULL, check=False)
    failures = []
    count = sum(part(failures) for part in [check_readme, check_examples, check_bad_input, check_the_outside])
    for failure in failures:
        print(f"checks: {failure}")
    print(f"checks: {count} passed" if not failures else f"checks: {len(failures)} failed of {count}")
    return 1 if failures else 0


if __name__ == "__main__":
    sys.exit(main())
