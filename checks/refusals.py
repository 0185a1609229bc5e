"""Compares docs/REFUSALS.md with the definitions of what the program says is wrong, and runs its samples.

Each refusal, fault and exit status of the definitions has its entry, and there is no other one. What stands behind
*Fails* comes to the line of its heading, and what stands behind *Works* doesn't. What is no fault comes to its value.
"""
import os
import re
import shlex
import subprocess
import sys
import tempfile

from examples import PROGRAM, USAGE

PAGE = "docs/REFUSALS.md"
URL = "http://www.example.com/"
# how a file of each kind is refused at a place of it
PLACES = {"script": "LINE:COLUMN", "names": "LINE", "batch": "LINE"}
# what is a fault of a script, or is refused; each with its exit status
STATUSES = {"fault F": 1, "refused ": 4}


def read(name):
    with open(name, encoding="utf-8") as file:
        return file.read()


def constants(name, before, after=""):
    """The texts between these parts of lines of a definition's file, of which there is one at least."""
    found = re.findall(f'{before}codes "([^"]*)"{after}', read(f"crates/{name}"))
    if not found:
        raise LookupError(f"crates/{name}: nothing behind {before}")
    return found


def said():
    """What the program says is wrong, by the definitions."""
    commands, plan, report = "pac_command/specs", "pac_plan/specs/Plan.antt", "report_text/specs/Report.antt"
    yield from constants(f"{commands}/Commands.antt", r"text = line \(", r"\) }")
    [fault] = constants(plan, r"read_fault kind = .*", r" \+\+ kind\)")
    [before] = constants(plan, r"too_long kind = .*line \(", r" \+\+ kind")
    [after] = constants(plan, r"too_long kind = .*kind \+\+ ", r"\)")
    for kind, file, name in [("script", "Scripts", "kind_name"), ("names", "Names", "names_kind"),
                             ("batch", "Urls", "batch_kind")]:
        for spelled in constants(f"{commands}/{file}.antt", r"\bread \(", r"\) (?:name|file) "):
            yield fault + spelled
            yield before + spelled + after
        for refusal in constants(f"{commands}/{file}.antt", rf"{name} kind\.\w+ = "):
            yield f"refused {kind} {PLACES[kind]} {refusal}"
    [url] = constants(f"{commands}/Urls.antt", r"say \(refused \(", r"\)\)")
    yield f"refused {url}"
    yield from (f"fault {name}" for name in constants(report, r"fault_name code\.\w+ = "))
    yield from (f"{word}NAME" for word in constants(report, r"end_lines \(unanswered name\) = line \("))
    yield from constants(plan, r"link_fault = .*line \(", r"\) }")


def differences(what, defined, written):
    """What stands on one side alone, or twice."""
    for name in dict.fromkeys([*defined, *written]):
        if (defined.count(name), written.count(name)) != (1, 1):
            yield f"{what} {name!r}: defined {defined.count(name)} times, on the page {written.count(name)} times"


def entries():
    """The heading of each entry with what stands below it."""
    return re.findall(r"^### `([^\n]*)`\n(.*?)(?=^#|\Z)", read(PAGE), re.M | re.S)


def samples(entry, word):
    """The samples of an entry behind a word, each a list of lines."""
    for text in re.findall(rf"^- \*\*{word}\*\*: (.*)$", entry, re.M):
        yield re.findall(r"`([^`]*)`", text)


def usage_rows(entry):
    """The words that are faulty and those that serve instead, by the rows of the table."""
    return re.findall(r"^\| `([^`]*)` \| [^`|]*(?:`[^`]*`[^`|]*)* \| `([^`]*)` \|$", entry, re.M)


def run(words):
    found = subprocess.run([PROGRAM, *words], capture_output=True, text=True, timeout=60, check=False)
    return found.stdout, found.returncode


def written(heading, lines, room):
    """What the program writes of a sample, and its status."""
    kind = heading.split()[1] if heading.startswith("refused ") else "script"
    text = "\n".join(lines) + "\n"
    if kind == "script" and "FindProxyForURL" not in text:
        text = f"function FindProxyForURL(url, host) {{ {text}}}"
    path = os.path.join(room, kind)
    with open(path, "w", encoding="utf-8") as file:
        file.write(text)
    files = {"script": "examples/direct.pac", "names": os.devnull, kind: path}
    what = ["--batch", path] if kind == "batch" else [text.strip() if kind == "url" else URL]
    return run(["map", files["script"], *what, "--names", files["names"]])


def sample_faults(heading, entry):
    """What is wrong with the samples of an entry. Those of scripts and of files' lines have one of each kind."""
    line = re.escape(heading).replace("LINE", r"\d+").replace("COLUMN", r"\d+") + r"( at .*)?"
    status = next((number for word, number in STATUSES.items() if heading.startswith(word)), None)
    with tempfile.TemporaryDirectory() as room:
        for lines in samples(entry, "Fails"):
            text, ended = written(heading, lines, room)
            if ended != status or not any(re.fullmatch(line, it) for it in text.splitlines()):
                yield f"{lines}: {text!r} with status {ended} in place of {heading!r}"
        for lines in samples(entry, "Works"):
            text, ended = written(heading, lines, room)
            if ended != 0:
                yield f"{lines}: {text!r} with status {ended}, though it is to work"
    if heading.startswith("fault F") and not ([*samples(entry, "Fails")] and [*samples(entry, "Works")]):
        yield "no samples"


def usage_faults(entry):
    rows = usage_rows(entry)
    for faulty, right in rows:
        if run(shlex.split(faulty)) != (USAGE.decode(), 2):
            yield f"{faulty!r} is no faulty usage"
        if run(shlex.split(right))[1] != 0:
            yield f"{right!r} doesn't work"
    if not rows:
        yield "no samples"


def silent_faults():
    """What is wrong with the values of the last table."""
    rows = re.findall(r"^\| `(.*?)` \| `(\w+)` \| .* \|$", read(PAGE).partition("\n## Without a word\n")[2], re.M)
    with tempfile.TemporaryDirectory() as room:
        for expression, value in rows:
            expression = expression.replace(r"\|", "|")
            text, _ = written("", [f'return "" + ({expression});'], room)
            if f"result {value}" not in text.splitlines():
                yield f"{expression}: {text!r} in place of {value}"
    if not rows:
        yield "no values"


def faults():
    numbers = re.findall(r"^exit_number status\.(\w+) = (\d)$", read("crates/pac_plan/specs/Exit.antt"), re.M)
    table = re.findall(r"^\| (\d) \| (\w+) \|", read(PAGE), re.M)
    yield from differences("status", [f"{number} {name}" for name, number in numbers], [" ".join(it) for it in table])
    found = entries()
    yield from differences("line", [*said()], [heading for heading, _ in found])
    yield from silent_faults()
    for heading, entry in found:
        check = usage_faults(entry) if heading.startswith("usage") else sample_faults(heading, entry)
        yield from (f"{heading}: {fault}" for fault in check)


def main():
    found = list(faults())
    for fault in found:
        print(f"checks: {PAGE}: {fault}")
    print("checks of refusals:", f"{len(found)} faults" if found else f"{len(entries())} entries passed")
    return 1 if found else 0


if __name__ == "__main__":
    sys.exit(main())
