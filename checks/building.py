"""Checks when and how `./pac` builds, and when it runs the released program, without a proof: on a copy of it beside
four small crates, with its own `rt`.

That `rt` proves nothing. It writes each call down, and the program that it writes tells the texts of the sources that
it was built from, and its words.
"""
import os
import shutil
import signal
import subprocess
import sys
import tempfile
import time

RT = """#!/usr/bin/env bash
crate=$(basename "$PWD")
echo "$1 $crate" >>"$ROOM/calls"
[ ! -f "$ROOM/slow" ] || { echo $$ >>"$ROOM/pids"; exec sleep 60; }
[ ! -f "$ROOM/edit" ] || { rm "$ROOM/edit"; echo edited >../low/src/lib.rt; }
[ "$crate" != "$(cat "$ROOM/fails" 2>/dev/null)" ] || { echo "error: $crate is wrong"; exit 1; }
[ "$1" = run ] || exit 0
mkdir -p out
cat >out/pac_main <<END
#!/bin/sh
echo $(cat ../{low,middle}/src/*.rt src/main.rt | tr '\\n' ' ') "\\$@"
exit 7
END
chmod +x out/pac_main
"""
RELEASED = "#!/bin/sh\necho released \"$@\"\nexit 6\n"
CRATES = "low: thiserror # a library of the toolchain\npac_main: middle low\nmiddle: low\nother: low\n"
ALL = ["lib low", "lib middle", "run pac_main"]


class Copy:
    """A copy of `./pac` with crates of its own, in a folder that is removed again."""

    def __enter__(self):
        self.room = tempfile.mkdtemp()
        self.top = os.path.join(self.room, "top")
        for name in ["top", "bin", "temporary"]:
            os.mkdir(os.path.join(self.room, name))
        os.mkdir(self.path("top/tools"))
        for file in ["pac", "tools/build.sh"]:
            shutil.copy(file, self.path(f"top/{file}"))
        self.write("top/crates.txt", CRATES)
        for crate, file in [("low", "lib"), ("low", "more"), ("middle", "lib"), ("other", "lib"), ("pac_main", "main")]:
            self.write(f"top/crates/{crate}/src/{file}.rt", f"{crate}-{file}\n")
        self.write("bin/rt", RT)
        os.chmod(os.path.join(self.room, "bin/rt"), 0o755)
        return self

    def __exit__(self, *_):
        shutil.rmtree(self.room)

    def path(self, name):
        return os.path.join(self.room, name)

    def write(self, name, text):
        os.makedirs(os.path.dirname(self.path(name)), exist_ok=True)
        with open(self.path(name), "w", encoding="utf-8") as file:
            file.write(text)

    def read(self, name):
        if not os.path.exists(self.path(name)):
            return ""
        with open(self.path(name), encoding="utf-8") as file:
            return file.read()

    def release(self):
        """Puts a program into prebuilt/, as one that was released of the sources as they stand."""
        self.write("top/prebuilt/pac", RELEASED)
        os.chmod(self.path("top/prebuilt/pac"), 0o755)
        listed = ". ../tools/build.sh pac && sources >pac.sources && sha256sum pac >pac.sum"
        subprocess.run(["bash", "-c", listed], cwd=self.path("top/prebuilt"), check=True)

    def start(self, *words, pac="top/pac", toolchain=True):
        # the machine's own toolchain is not found
        folders = [it for it in os.environ["PATH"].split(":") if not os.path.exists(os.path.join(it, "rt"))]
        folders = [self.path("bin")] * toolchain + folders
        places = {"PATH": ":".join(folders), "ROOM": self.room, "TMPDIR": self.path("temporary")}
        pipes = {"stdout": subprocess.PIPE, "stderr": subprocess.PIPE, "text": True}
        return subprocess.Popen([self.path(pac), *words], env={**os.environ, **places}, start_new_session=True, **pipes)

    def call(self, *words, **how):
        """The output, the errors and the status of a call, and the calls of `rt` in it."""
        self.write("calls", "")
        process = self.start(*words, **how)
        out, errors = process.communicate(timeout=60)
        return out, errors, process.returncode, self.read("calls").splitlines()


def expect(what, found, wanted):
    if found != wanted:
        raise AssertionError(f"{what}: {found!r} in place of {wanted!r}")


def expect_built(what, answer, text, calls=ALL):
    """The call built by these calls of `rt`, and ran a program of these sources."""
    out, errors, status, found = answer
    expect(what, (out, status, found), (text + "\n", 7, calls))
    if calls and "proving low, 2 more to go" not in errors:
        raise AssertionError(f"{what}: no word of what is proved in {errors!r}")
    if not calls:
        expect(what, errors, "")


FIRST = "low-lib low-more middle-lib pac_main-main"


def builds_once_and_hands_words_and_status_on(copy):
    expect_built("first call", copy.call("a", "b c"), FIRST + " a b c")
    expect_built("second call", copy.call("a"), FIRST + " a", [])


def builds_again_what_was_edited(copy):
    copy.call()
    copy.write("top/crates/middle/src/lib.rt", "new\n")
    expect_built("edited source", copy.call(), "low-lib low-more new pac_main-main")
    copy.write("top/crates.txt", CRATES.replace("middle: low", "middle: low thiserror"))
    expect_built("edited line of crates.txt", copy.call(), "low-lib low-more new pac_main-main")
    expect_built("nothing edited", copy.call(), "low-lib low-more new pac_main-main", [])


def leaves_other_crates_alone(copy):
    copy.call()
    copy.write("top/crates/other/src/lib.rt", "new\n")
    copy.write("top/crates/low/must-fail/one.edit", "new\n")
    copy.write("top/crates.txt", CRATES.replace("other: low", "other: low middle"))
    expect_built("another crate", copy.call(), FIRST, [])


def notices_an_older_time(copy):
    copy.call()
    copy.write("top/crates/low/src/more.rt", "older\n")
    os.utime(copy.path("top/crates/low/src/more.rt"), (1, 1))
    expect_built("older time", copy.call(), "low-lib older middle-lib pac_main-main")


def notices_a_deletion(copy):
    copy.call()
    os.remove(copy.path("top/crates/low/src/more.rt"))
    expect_built("deleted source", copy.call(), "low-lib middle-lib pac_main-main")


def takes_the_program_of_the_gate(copy):
    copy.call()
    # the gate leaves no list
    os.remove(copy.path("top/crates/pac_main/out/pac_main.sources"))
    expect_built("program of the gate", copy.call(), FIRST, [])
    os.remove(copy.path("top/crates/pac_main/out/pac_main.sources"))
    os.remove(copy.path("top/crates/low/src/more.rt"))
    expect_built("deleted after the gate", copy.call(), "low-lib middle-lib pac_main-main")


def builds_again_what_was_edited_meanwhile(copy):
    copy.write("edit", "")
    expect_built("edited while it was built", copy.call(), "edited low-more middle-lib pac_main-main", ALL + ALL)
    expect_built("nothing edited", copy.call(), "edited low-more middle-lib pac_main-main", [])


def works_through_a_link(copy):
    os.makedirs(copy.path("elsewhere"))
    os.symlink("../top/pac", copy.path("elsewhere/resolver"))
    expect_built("a link", copy.call(pac="elsewhere/resolver"), FIRST)


def says_that_there_is_no_toolchain(copy):
    out, errors, status, calls = copy.call(toolchain=False)
    expect("no toolchain", (out, status, calls), ("", 125, []))
    expect("no toolchain", "rt is not on the path: put the toolchain there" in errors, True)


def says_what_was_not_proved(copy):
    copy.write("fails", "middle")
    out, errors, status, calls = copy.call()
    expect("failed proof", (out, status, calls), ("", 125, ALL[:2]))
    expect("failed proof", "error: middle is wrong\npac: middle was not proved" in errors, True)
    copy.write("fails", "")
    expect_built("mended", copy.call(), FIRST)


def builds_once_for_two_calls(copy):
    calls = [copy.start(word) for word in ["a", "b"]]
    outs = [call.communicate(timeout=60)[0] for call in calls]
    expect("two calls at once", outs, [f"{FIRST} a\n", f"{FIRST} b\n"])
    expect("two calls at once", copy.read("calls").splitlines(), ALL)


TOLD = "pac: prebuilt/pac is built of these sources, proved when it was released; bash .ci/run proves it here\n"


def runs_the_released_program(copy):
    copy.release()
    expect("first call", copy.call("a", "b c", toolchain=False), ("released a b c\n", TOLD, 6, []))
    expect("second call", copy.call("a"), ("released a\n", "", 6, []))
    copy.release()
    expect("released anew", copy.call("a"), ("released a\n", TOLD, 6, []))
    copy.write("top/crates/other/src/lib.rt", "new\n")
    expect("another crate is edited", copy.call("a"), ("released a\n", "", 6, []))


def proves_what_was_not_released(copy):
    copy.release()
    copy.write("top/crates/low/src/more.rt", "new\n")
    expect_built("edited source", copy.call(), "low-lib new middle-lib pac_main-main")
    copy.write("top/crates/low/src/more.rt", "low-more\n")
    expect("edited back", copy.call(), ("released\n", TOLD, 6, []))
    copy.write("top/crates.txt", CRATES.replace("middle: low", "middle: low thiserror"))
    expect_built("edited line of crates.txt", copy.call(), FIRST)


def prefers_what_was_proved_here(copy):
    copy.call()
    copy.release()
    expect_built("proved and released", copy.call(), FIRST, [])


def leaves_an_altered_release_aside(copy):
    copy.release()
    copy.write("top/prebuilt/pac", RELEASED.replace("6", "5"))
    out, errors, status, calls = copy.call(toolchain=False)
    expect("altered", (out, status, calls), ("", 125, []))
    expect("altered", "pac: prebuilt/pac is not the program that was released" in errors, True)
    expect_built("altered", copy.call(), FIRST)
    expect_built("proved instead", copy.call(), FIRST, [])


def is_alive(pid):
    return os.path.exists(f"/proc/{pid}")


def leaves_nothing_behind(copy):
    for number in [signal.SIGINT, signal.SIGTERM]:
        copy.write("slow", "")
        copy.write("pids", "")
        call = copy.start()
        while not copy.read("pids").endswith("\n"):
            time.sleep(0.01)
        call.send_signal(number)
        call.communicate(timeout=60)
        expect("interrupted", call.returncode, 128 + number)
        expect("its process", is_alive(copy.read("pids").strip()), False)
        expect("its files", os.listdir(copy.path("temporary")) + os.listdir(copy.path("top/crates/pac_main/out")), [])
        os.remove(copy.path("slow"))
    expect_built("after an interrupt", copy.call(), FIRST)


CHECKS = [
    builds_once_and_hands_words_and_status_on,
    builds_again_what_was_edited,
    leaves_other_crates_alone,
    notices_an_older_time,
    notices_a_deletion,
    takes_the_program_of_the_gate,
    builds_again_what_was_edited_meanwhile,
    works_through_a_link,
    says_that_there_is_no_toolchain,
    says_what_was_not_proved,
    builds_once_for_two_calls,
    runs_the_released_program,
    proves_what_was_not_released,
    prefers_what_was_proved_here,
    leaves_an_altered_release_aside,
    leaves_nothing_behind,
]


def main():
    # A run in the background ignores interrupts, and what it starts would too.
    signal.signal(signal.SIGINT, signal.default_int_handler)
    failed = 0
    for check in CHECKS:
        try:
            with Copy() as copy:
                check(copy)
        except AssertionError as error:
            failed += 1
            print(f"checks: {check.__name__}: {error}")
    print("checks of building:", f"{failed} failed of {len(CHECKS)}" if failed else f"{len(CHECKS)} passed")
    return 1 if failed else 0


if __name__ == "__main__":
    sys.exit(main())
