"""Checks `./try` and `checks/edits` without a proof: on copies of them beside crates of their own, with an own `rt`.

That `rt try` compiles nothing. It writes the crate in which it is called and the words that the program would get, and
for the name of a file that was handed to it the file's text in brackets. That `rt must-fail` says what a file tells it
to.
"""
import os
import shutil
import signal
import subprocess
import sys
import tempfile
import time

from building import expect, is_alive

RT = f"#!{sys.executable}\n" + """import os, sys, time
room, words = os.environ["ROOM"], sys.argv[1:]
if words[0] == "must-fail":
    for crate in words[1:]:
        print(f"rt: {crate} begins")
        for name in sorted(os.listdir(f"crates/{crate}/must-fail")):
            print(f"rt: must-fail {crate}/{name}: {open(f'crates/{crate}/must-fail/{name}').read()}")
    sys.exit(os.path.exists(f"{room}/fails"))
open(f"{room}/pid", "w").write(f"{os.getpid()}\\n")
if os.path.exists(f"{room}/slow"):
    time.sleep(60)
if os.path.exists(f"{room}/fails"):
    sys.exit("error: the crate is wrong")
at = words.index("--")
handed = dict(words[it + 1].split("=", 1) for it in range(at) if words[it] == "--data")
print(os.path.basename(os.getcwd()))
for word in words[at + 1:]:
    option, joined, value = word.partition("=")
    if word in handed:
        word = ("-" if word.startswith("-") else "") + f"[{open(handed[word]).read()}]"
    elif joined and value in handed:
        word = f"{option}=[{open(handed[value]).read()}]"
    elif os.path.isfile(word):
        word = "a file of the crate"
    print(word)
print("checked: ended status=7", file=sys.stderr)
print("run=ended status=7 runners=1 proved=no", file=sys.stderr)
sys.exit(7)
"""


class Copy:
    """A copy of both commands, and files to hand to them, in a folder that is removed again."""

    def __enter__(self):
        self.room = tempfile.mkdtemp()
        for name in ["bin", "temporary", "here/a b", "here/c=d", "top/checks", "top/crates/pac_main/src",
                     "top/crates/pac_lint"]:
            os.makedirs(self.path(name))
        shutil.copy("try", self.path("top"))
        shutil.copy("checks/edits", self.path("top/checks"))
        self.write("bin/rt", RT)
        os.chmod(self.path("bin/rt"), 0o755)
        for name in ["crates.txt", "HANDLES", "crates/pac_main/src/main.rt"]:
            self.write(f"top/{name}", "one line\n")
        for name in ["s.pac", "a b/same", "c=d/same", "-n", "http"]:
            self.write(f"here/{name}", f"text of {name}")
        return self

    def __exit__(self, *_):
        shutil.rmtree(self.room)

    def path(self, name):
        return os.path.join(self.room, name)

    def write(self, name, text):
        os.makedirs(os.path.dirname(self.path(name)), exist_ok=True)
        with open(self.path(name), "w", encoding="utf-8") as file:
            file.write(text)

    def start(self, command, *words, toolchain=True, **pipes):
        # the machine's own toolchain is not found, and perhaps no python3 beside it
        folders = [it for it in os.environ["PATH"].split(":") if not os.path.exists(os.path.join(it, "rt"))]
        folders = [self.path("bin")] * toolchain + folders
        places = {"PATH": ":".join(folders), "ROOM": self.room, "TMPDIR": self.path("temporary")}
        how = {"cwd": self.path("here"), "env": {**os.environ, **places}, "text": True, "stdin": subprocess.DEVNULL}
        how.update({"stdout": subprocess.PIPE, "stderr": subprocess.PIPE, **pipes})
        return subprocess.Popen([sys.executable, self.path(command), *words], **how)

    def call(self, command, *words, **how):
        """The output, the errors and the status of a call, behind which no file may be left."""
        process = self.start(command, *words, **how)
        out, errors = process.communicate(timeout=60)
        expect("files that are left", os.listdir(self.path("temporary")), [])
        return out, errors, process.returncode


def expect_words(copy, words, wanted, crate="pac_main", **how):
    """The program of this crate gets these words, and all that is written to standard output is its own."""
    out, errors, status = copy.call("top/try", *words, **how)
    expect(words, (out.splitlines(), status), ([crate, *wanted], 7))
    expect(f"{words}: word of it", errors.startswith("try: nothing is proved in this run"), True)


URL = "http://a.example/"
SCRIPT = "[text of s.pac]"


def hands_the_files_of_words_on(copy):
    expect_words(copy, ["check", "s.pac"], ["check", SCRIPT])
    expect_words(copy, ["map", "s.pac", URL, "--names", "a b/same"],
                 ["map", SCRIPT, URL, "--names", "[text of a b/same]"])
    expect_words(copy, ["map", "--names=a b/same", "./s.pac", "--batch=c=d/same"],
                 ["map", "--names=[text of a b/same]", SCRIPT, "--batch=[text of c=d/same]"])
    expect_words(copy, ["resolve", copy.path("here/c=d/same"), "--batch", "a b/../s.pac"],
                 ["resolve", "[text of c=d/same]", "--batch", SCRIPT])


def keeps_dashes_in_front(copy):
    expect_words(copy, ["map", "s.pac", URL, "--names", "-n"], ["map", SCRIPT, URL, "--names", "-[text of -n]"])
    expect_words(copy, ["map", "--names=-n", "--", "s.pac", "-n"], ["map", "--names=[text of -n]", "--", SCRIPT, "-n"])
    expect_words(copy, ["check", "--", "-n"], ["check", "--", "-[text of -n]"])


def leaves_other_words_alone(copy):
    rows = [[], ["ask", "s.pac"], ["s.pac"], ["map"], ["map", "absent", URL, "--names"], ["map", "a b", "--zone="]]
    rows += [["check", "--names"], ["check", ""], ["resolve", "absent", "http", "--server", "s.pac", "-h", "-"]]
    for words in rows:
        expect_words(copy, words, words)


def takes_no_word_for_what_it_hands_on(copy):
    expect_words(copy, ["map", "s.pac", URL, "--names", "file1"], ["map", SCRIPT, URL, "--names", "file1"])
    expect_words(copy, ["check", "src/main.rt"], ["check", "file"])


def reads_pipes(copy):
    with open(copy.path("here/s.pac"), encoding="utf-8") as file:
        expect_words(copy, ["check", "/dev/stdin"], ["check", SCRIPT], stdin=file)


def runs_pac_lint(copy):
    expect_words(copy, ["pac-lint", "a b/same", "-n"], ["[text of a b/same]", "-n"], crate="pac_lint")


def says_what_fails(copy):
    copy.write("fails", "")
    out, errors, status = copy.call("top/try", "check", "s.pac")
    expect("not compiled", (out, status), ("", 125))
    expect("not compiled", "error: the crate is wrong\ntry: the program was not compiled" in errors, True)
    for command in ["top/try", "top/checks/edits"]:
        copy.write("top/crates/low/edits/one.edit", ": refused")
        out, errors, status = copy.call(command, toolchain=False)
        expect("no toolchain", (out, status), ("", 125 if command == "top/try" else 2))
        expect("no toolchain", "put the toolchain there" in errors, True)


def leaves_nothing_behind(copy):
    for number in [signal.SIGINT, signal.SIGTERM]:
        copy.write("slow", "")
        copy.write("pid", "")
        call = copy.start("top/try", "check", "s.pac")
        while not os.path.getsize(copy.path("pid")):
            time.sleep(0.01)
        call.send_signal(number)
        call.communicate(timeout=60)
        expect("interrupted", call.returncode, 128 + number)
        with open(copy.path("pid"), encoding="utf-8") as file:
            expect("its process", is_alive(file.read().strip()), False)
        expect("its files", os.listdir(copy.path("temporary")), [])


def counts_refused_edits(copy):
    copy.write("top/crates/low/edits/one.edit", "refused, as it must be")
    copy.write("top/crates/low/must-fail/other.edit", "NOT REFUSED")
    copy.write("top/crates/high/edits/two.edit", "refused, as it must be (only by a limit)")
    out, _, status = copy.call("top/checks/edits")
    expect("all edits", (out.splitlines()[-1], status, "other" in out), ("edits: 2 of 2 refused", 0, False))
    out, _, status = copy.call("top/checks/edits", "high")
    expect("edits of a crate", (out.splitlines()[-1], status), ("edits: 1 of 1 refused", 0))
    copy.write("fails", "")
    expect("rt fails", copy.call("top/checks/edits")[2], 1)


def tells_edits_that_are_not_refused(copy):
    for outcome in ["NOT REFUSED", "BAD EDIT", "NOT TRIED"]:
        copy.write("top/crates/low/edits/one.edit", f"{outcome}: why")
        copy.write("top/crates/low/edits/two.edit", "refused, as it must be")
        out, _, status = copy.call("top/checks/edits")
        expect(outcome, (out.splitlines()[-1], status), (f"edits: 1 of 2 refused, 1 {outcome}", 1))
    expect("no edits", copy.call("top/checks/edits", "absent")[2], 2)


def sees_whether_edits_can_be_made(copy):
    copy.write("top/crates/low/src/lib.rt", "one\ntwo\ntwo\n")
    for text, status in [("old: one\nnew: three", 0), ("old: one\nnew:", 0), ("old: two\nnew: three", 1),
                         ("old: absent\nnew: three", 1), ("old: one\nnew: one", 1), ("old: one\nwords\nnew: three", 1),
                         ("old: one\nnew: three\nold: three\nnew: two", 0), ("", 1)]:
        copy.write("top/crates/low/edits/one.edit", f"file: src/lib.rt\n{text}\n")
        expect(text, copy.call("top/checks/edits", "--applies")[2], status)
    copy.write("top/crates/low/edits/one.edit", "file: src/absent.rt\nold: one\nnew: two\n")
    expect("no file", copy.call("top/checks/edits", "--applies", "low")[2], 1)


CHECKS = [
    hands_the_files_of_words_on,
    keeps_dashes_in_front,
    leaves_other_words_alone,
    takes_no_word_for_what_it_hands_on,
    reads_pipes,
    runs_pac_lint,
    says_what_fails,
    leaves_nothing_behind,
    counts_refused_edits,
    tells_edits_that_are_not_refused,
    sees_whether_edits_can_be_made,
]


def main():
    # A run in the background ignores interrupts, and what it starts would too.
    signal.signal(signal.SIGINT, signal.default_int_handler)
    failed = 0
    for check in CHECKS:
        try:
            with Copy() as copy:
                check(copy)
        except AssertionError as error:
            failed += 1
            print(f"checks: {check.__name__}: {error}")
    print("checks of trying:", f"{failed} failed of {len(CHECKS)}" if failed else f"{len(CHECKS)} passed")
    return 1 if failed else 0


if __name__ == "__main__":
    sys.exit(main())
