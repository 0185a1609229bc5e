"""Checks `tools/release`, and that its `--check` tells a released program that isn't what the gate has built: on a copy
of it beside one crate, with a toolchain of its own.

That toolchain proves nothing. It takes the text of the crate for a program in C, and links it by gcc, as the release
does; without gcc the check says 'skipped'.
"""
import hashlib
import os
import re
import shutil
import subprocess
import sys
import tarfile
import tempfile

RT = """#!/usr/bin/env bash
case $1 in
doc) echo "$ROOM/kit/START-HERE.md" ;;
run)
  mkdir -p out && gcc -x c -c -o out/pac_main.o src/main.rt &&
    "$ROOM/kit/bin/rattle-link" --target x86_64 --toolchain here -o out/pac_main out/pac_main.o
  ;;
esac
"""
LINK = '#!/bin/sh\ngcc -o "$6" "$7"\n'
PROGRAM = '#include <stdio.h>\nint main(int count, char **words) { puts(words[count - 1]); return 7; }\n'
COPIED = ["pac", "tools/build.sh", "tools/release", "CHANGELOG.md", "LICENSE", "NOTICE", "man/pac.1",
          "completions/pac.bash", "prebuilt/COPYING.LIB"]


class Copy:
    """A copy of what makes a release, and of what is in it, beside a crate whose program is built."""

    def __enter__(self):
        self.folder = tempfile.TemporaryDirectory()
        for name in COPIED:
            os.makedirs(os.path.dirname(self.path(f"top/{name}")), exist_ok=True)
            shutil.copy(name, self.path(f"top/{name}"))
        self.write("top/crates.txt", "pac_main:\n")
        self.write("top/crates/pac_main/src/main.rt", PROGRAM)
        self.write("bin/rt", RT, 0o755)
        self.write("kit/bin/rattle-link", LINK, 0o755)
        os.mkdir(self.path("kit/toolchain"))
        for name in ["libos_c.a", "liblibc_c.a"]:
            self.write(f"kit/c/{name}", "!<arch>\n")
        self.build()
        return self

    def __exit__(self, *_):
        self.folder.cleanup()

    def path(self, name):
        return os.path.join(self.folder.name, name)

    def write(self, name, text, mode=0o644):
        os.makedirs(os.path.dirname(self.path(name)), exist_ok=True)
        with open(self.path(name), "w", encoding="utf-8") as file:
            file.write(text)
        os.chmod(self.path(name), mode)

    def bytes(self, name):
        with open(self.path(name), "rb") as file:
            return file.read()

    def build(self):
        """Builds the program as the gate does, which leaves no list of its sources."""
        shutil.rmtree(self.path("top/crates/pac_main/out"), ignore_errors=True)
        subprocess.run([self.path("bin/rt"), "run"], cwd=self.path("top/crates/pac_main"),
                       env={**os.environ, "ROOM": self.folder.name}, check=True)

    def call(self, *words):
        """The output, the errors and the status of a command of the copy."""
        places = {"PATH": f"{self.path('bin')}:{os.environ['PATH']}", "ROOM": self.folder.name}
        ran = subprocess.run([self.path(f"top/{words[0]}"), *words[1:]], env={**os.environ, **places},
                             stdin=subprocess.DEVNULL, stdout=subprocess.PIPE, stderr=subprocess.PIPE, text=True)
        return ran.stdout, ran.stderr, ran.returncode

    def release(self):
        """Makes a release, and gives the name of its archive."""
        _, errors, status = self.call("tools/release")
        expect("release", status, 0)
        return errors.split()[-1]

    def alter(self, name, is_hidden):
        """Changes the last byte of a released file, and its checksum with it where the change is to be hidden."""
        before = self.bytes(f"top/prebuilt/{name}")
        after = before[:-1] + bytes([before[-1] ^ 1])
        with open(self.path(f"top/prebuilt/{name}"), "wb") as file:
            file.write(after)
        sums = self.bytes("top/prebuilt/pac.sum").decode()
        if is_hidden:
            sums = sums.replace(*(hashlib.sha256(it).hexdigest() for it in [before, after]))
        self.write("top/prebuilt/pac.sum", sums)


def expect(what, found, wanted):
    if found != wanted:
        raise AssertionError(f"{what}: {found!r} in place of {wanted!r}")


def expect_told(copy, what, text, status):
    """The check says this, and ends so."""
    _, errors, found = copy.call("tools/release", "--check")
    expect(what, (text in errors or errors, found), (True, status))


def is_the_same_each_time(copy):
    archive = copy.release()
    first = {name: copy.bytes(f"top/{name}") for name in [archive, "prebuilt/pac", "prebuilt/pac.sources"]}
    copy.release()
    with Copy() as other:
        other.release()
        for name, data in first.items():
            expect(name, [it.bytes(f"top/{name}") == data for it in [copy, other]], [True, True])


def has_all_in_its_archive(copy):
    archive = copy.release()
    with open("CHANGELOG.md", encoding="utf-8") as file:
        version = next(line.split()[1] for line in file if re.match(r"## \d", line))
    expect("its name", archive, f"pac-{version}-x86_64.tar.gz")
    with tarfile.open(copy.path(f"top/{archive}")) as packed:
        packed.extractall(copy.path("unpacked"), filter="data")
    folder = copy.path(f"unpacked/pac-{version}-x86_64")
    wanted = ["COPYING.LIB", "LICENSE", "NOTICE", "SHA256SUMS", "pac", "pac.1", "pac.bash"]
    expect("its files", sorted(os.listdir(folder)), wanted)
    told = subprocess.run(["sha256sum", "--check", "SHA256SUMS"], cwd=folder, stdout=subprocess.PIPE, text=True)
    expect("its sums", (told.stdout.count(": OK\n"), told.returncode), (len(wanted) - 1, 0))
    ran = subprocess.run([f"{folder}/pac", "a"], stdout=subprocess.PIPE, text=True)
    expect("its program", (ran.stdout, ran.returncode), ("a\n", 7))


def needs_nothing_of_the_system(copy):
    copy.release()
    told = subprocess.run(["readelf", "--wide", "--program-headers", copy.path("top/prebuilt/pac")], check=True,
                          stdout=subprocess.PIPE, text=True).stdout
    expect("a program of its own place", "DYN (Position-Independent Executable file)" in told, True)
    expect("a loader", "INTERP" in told, False)


def is_run_in_a_checkout(copy):
    copy.release()
    shutil.rmtree(copy.path("top/crates/pac_main/out"))
    out, _, status = copy.call("pac", "a", "b c")
    expect("the released program", (out, status), ("b c\n", 7))


def is_what_was_built(copy):
    expect_told(copy, "no release", "nothing was released yet", 0)
    copy.release()
    expect_told(copy, "as released", "prebuilt/pac is what the gate has built of these sources", 0)
    copy.build()
    expect_told(copy, "built again", "prebuilt/pac is what the gate has built of these sources", 0)


def tells_a_changed_byte(copy):
    for name in ["pac", "pac.o.gz"]:
        copy.release()
        copy.alter(name, is_hidden=False)
        expect_told(copy, f"a byte of {name}", "prebuilt/ is not as it was released", 125)
    copy.release()
    copy.alter("pac", is_hidden=True)
    expect_told(copy, "a hidden byte", "prebuilt/pac is another program than what the gate has built gives", 125)


def tells_another_program(copy):
    copy.release()
    kept = copy.bytes("top/prebuilt/pac.sources")
    copy.write("top/crates/pac_main/src/main.rt", PROGRAM.replace("7", "6"))
    copy.build()
    expect_told(copy, "other sources", "the sources have moved on", 0)
    copy.release()
    with open(copy.path("top/prebuilt/pac.sources"), "wb") as file:
        file.write(kept)
    copy.write("top/crates/pac_main/src/main.rt", PROGRAM)
    copy.build()
    expect_told(copy, "another program", "the gate has built another program of these sources", 125)


def wants_something_to_compare_with(copy):
    copy.release()
    shutil.rmtree(copy.path("top/crates/pac_main/out"))
    expect_told(copy, "nothing built", "there is no program of these sources here", 125)


def says_that_it_was_linked_elsewhere(copy):
    copy.release()
    copy.write("top/prebuilt/pac.linker", "gcc of another machine\n")
    expect_told(copy, "another linker", "gcc of another machine\n", 0)
    copy.write("top/crates/pac_main/src/main.rt", PROGRAM + "\n")
    copy.build()
    copy.release()
    shutil.copy(copy.path("bin/rt"), copy.path("top/crates/pac_main/out/pac_main"))
    copy.write("top/prebuilt/pac.linker", "gcc of another machine\n")
    expect_told(copy, "another linker and program", "the gate has built another program of these sources", 125)


def builds_the_object_where_it_is_missing(copy):
    wanted = copy.bytes(f"top/{copy.release()}")
    os.remove(copy.path("top/crates/pac_main/out/pac_main.o"))
    expect("the archive", copy.bytes(f"top/{copy.release()}") == wanted, True)


CHECKS = [
    is_the_same_each_time,
    has_all_in_its_archive,
    needs_nothing_of_the_system,
    is_run_in_a_checkout,
    is_what_was_built,
    tells_a_changed_byte,
    tells_another_program,
    wants_something_to_compare_with,
    says_that_it_was_linked_elsewhere,
    builds_the_object_where_it_is_missing,
]


def main():
    if not shutil.which("gcc"):
        print("checks of prebuilt: gcc is missing, skipped")
        return 0
    failed = 0
    for check in CHECKS:
        try:
            with Copy() as copy:
                check(copy)
        except AssertionError as error:
            failed += 1
            print(f"checks: {check.__name__}: {error}")
    print("checks of prebuilt:", f"{failed} failed of {len(CHECKS)}" if failed else f"{len(CHECKS)} passed")
    return 1 if failed else 0


if __name__ == "__main__":
    sys.exit(main())
