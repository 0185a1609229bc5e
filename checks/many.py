"""Checks `tools/many`: that it answers each line of a list in its order, whatever the batches come to and whenever they
end, where it stops, its status, and that it leaves nothing behind.

What is expected of an answer is said by docs/COMMAND-LINE.md and by the script of this check, line by line.
"""
import os
import signal
import subprocess
import sys
import tempfile
import time

TOOL = "tools/many"
SCRIPT = """function FindProxyForURL(url, host) {
  if (host == "fault.example") return missing;
  if (host == "slow.example") for (var n = 0; n < 200000; n++);
  if (host == "clock.example") return timeRange(3, 4, "GMT") ? "DIRECT" : "PROXY p.example:1";
  return "PROXY " + host + ":80";
}
"""


class Room:
    """A folder with the script and a file of no names, which is removed again; temporary files go into one in it."""

    def __enter__(self):
        self.folder = tempfile.TemporaryDirectory()
        self.temporary = self.path("temporary files")
        os.mkdir(self.temporary)
        self.script, self.names = self.written("a script", SCRIPT), self.written("names", "")
        return self

    def __exit__(self, *_):
        self.folder.cleanup()

    def path(self, name):
        return os.path.join(self.folder.name, name)

    def written(self, name, text):
        with open(self.path(name), "w", encoding="utf-8") as file:
            file.write(text)
        return self.path(name)

    def start(self, *words, stdin=subprocess.PIPE, **variables):
        pipes = {"stdin": stdin, "stdout": subprocess.PIPE, "stderr": subprocess.PIPE}
        environment = {**os.environ, "TMPDIR": self.temporary, **variables}
        return subprocess.Popen([TOOL, *words], env=environment, start_new_session=True, **pipes)

    def answers(self, urls, *words, before=()):
        """The answers to a list, what is told, and the status."""
        text = urls if isinstance(urls, bytes) else "".join(f"{url}\n" for url in urls).encode()
        process = self.start(*before, self.script, self.names, *words)
        out, errors = process.communicate(text, timeout=120)
        expect("temporary files", os.listdir(self.temporary), [])
        return out.decode(), errors.decode(), process.returncode


def expect(what, found, wanted):
    if found != wanted:
        raise AssertionError(f"{what}: {str(found)[:2000]!r} in place of {str(wanted)[:2000]!r}")


def answer(number, host, path=""):
    result = f"PROXY {host}:80"
    return f"url {number} http://{host}/{path}\nresult {result}\ntry {result}\nruns 1\n"


FAULT = "http://fault.example/\nfault F13 Uncaught at 2:39 ReferenceError: missing is not defined\nruns 1\n"


def keeps_the_order(room):
    # the batches behind the first one end before it
    hosts = ["slow.example"] * 3 + [f"host{n}.example" for n in range(700)]
    out, errors, status = room.answers([f"http://{host}/{n}" for n, host in enumerate(hosts)])
    expect("status", status, 0)
    expect("answers", out, "".join(answer(n + 1, host, n) for n, host in enumerate(hosts)))
    expect("told", errors, "many: 703 URLs, 0 of them with a fault or refused\n")


def answers_beside_faults_and_refusals(room):
    urls = b"http://a.example/\ngopher://a.example/\n\n  http://b.example/ \r\nhttp://fault.example/\nhttp://\xff/\n"
    wanted = answer(1, "a.example") + "refused url 2 BadUrl\nrefused url 3 BadLine\n" + answer(4, "b.example")
    wanted += f"url 5 {FAULT}refused url 6 BadLine\n"
    out, errors, status = room.answers(urls)
    expect("answers", (out, status), (wanted, 1))
    expect("told", errors, "many: 6 URLs, 4 of them with a fault or refused\n")
    # nothing but refused lines, more than a batch has, and no line feed at the end
    out, _, status = room.answers("\n".join(["#"] * 300).encode())
    expect("refused alone", (out, status), ("".join(f"refused url {n} BadUrl\n" for n in range(1, 301)), 1))


def stops_where_asked(room):
    many = [f"http://host{n}.example/" for n in range(300)]
    before = "".join(answer(n + 1, f"host{n}.example") for n in range(300))
    for url, last in [("http://fault.example/", f"url 301 {FAULT}"), ("gopher://a/", "refused url 301 BadUrl\n")]:
        out, errors, status = room.answers([*many, url, *many * 9], before=["--stop"])
        expect(url, (out, status), (before + last, 1))
        expect(url, errors, "many: 301 URLs, 1 of them with a fault or refused\n")
    endless = subprocess.Popen(["yes", "http://fault.example/"], stdout=subprocess.PIPE)
    process = room.start("--stop", room.script, room.names, stdin=endless.stdout)
    endless.stdout.close()
    found = *(it.decode() for it in process.communicate(timeout=120)), process.returncode
    expect("an endless list", found, (f"url 1 {FAULT}", "many: 1 URLs, 1 of them with a fault or refused\n", 1))
    endless.wait()


def takes_long_lines(room):
    # 300 of these are more than a batch may have
    paths = [f"{n:x<8000}" for n in range(300)]
    out, _, status = room.answers([f"http://a.example/{path}" for path in paths])
    expect("long URLs", (out, status), ("".join(answer(n + 1, "a.example", path) for n, path in enumerate(paths)), 0))
    out, _, status = room.answers([f"http://a.example/{'x' * length}" for length in [9_000, 2_000_000]])
    expect("too long", (out, status), ("refused url 1 BadUrl\nrefused url 2 TooLong\n", 1))


def writes_what_signals_interrupt(room):
    # the reader is slow, so a write waits for it when the signal comes, which cuts that short
    paths = [f"{n:x<8000}" for n in range(100)]
    process = room.start(room.script, room.names, PYTHONUNBUFFERED="1")
    process.stdin.write("".join(f"http://a.example/{path}\n" for path in paths).encode())
    process.stdin.close()
    out = b""
    while part := os.read(process.stdout.fileno(), 32_768):
        out += part
        time.sleep(0.01)
        process.send_signal(signal.SIGCHLD)
    found = out.decode(), process.wait(timeout=60)
    expect("interrupted writes", found, ("".join(answer(n + 1, "a.example", path) for n, path in enumerate(paths)), 0))


def hands_options_on(room):
    urls = ["http://clock.example/"] * 300
    # 1970-01-01, at the beginning of the fourth hour and behind it
    for now, result in [("10800", "DIRECT"), ("18000", "PROXY p.example:1")]:
        out, _, status = room.answers(urls, "--now", now, before=["--processors", "1"])
        expect(now, (out.count(f"\nresult {result}\n"), status), (300, 0))
    out, _, status = room.answers(["http://a.example/"], "--fuel=1")
    expect("fuel", (out.split("\n")[1].split(" ")[:2], status), (["fault", "F1"], 1))


def says_what_is_wrong(room):
    urls = ["http://a.example/"]
    expect("no list", room.answers([]), ("", "many: 0 URLs, 0 of them with a fault or refused\n", 0))
    usage = "many: usage: pac resolve|map|check|ask|generate ARGUMENTS\n"
    expect("an option", room.answers(urls, "--fuel=0"), ("", usage, 2))
    room.written("a script", "@")
    expect("a bad script", room.answers(urls), ("", "many: refused script 1:1 BadToken\n", 4))
    os.remove(room.names)
    room.written("a script", SCRIPT)
    expect("no names", room.answers(urls), ("", "many: fault read names\n", 3))
    process = room.start("--stop", room.script)
    expect("too few words", b"many: usage: tools/many " in process.communicate()[1], True)
    expect("too few words", process.returncode, 125)


def leaves_nothing_behind(room):
    for number in [signal.SIGINT, signal.SIGTERM]:
        process = room.start(room.script, room.names)
        process.stdin.write(b"http://slow.example/\n" * 5_000)
        process.stdin.flush()
        while not os.listdir(room.temporary):
            time.sleep(0.01)
        # `timeout` sends it twice
        process.send_signal(number)
        process.send_signal(number)
        process.communicate(timeout=60)
        expect("interrupted", process.returncode, 128 + number)
        expect("its files", os.listdir(room.temporary), [])
        expect("its processes", processes_of(room), [])


def processes_of(room):
    """The processes with the room's folder among their words."""
    found = []
    for number in filter(str.isdigit, os.listdir("/proc")):
        try:
            with open(f"/proc/{number}/cmdline", "rb") as file:
                found += [number] * (room.folder.name.encode() in file.read())
        except OSError:
            continue
    return found


CHECKS = [
    keeps_the_order,
    answers_beside_faults_and_refusals,
    stops_where_asked,
    takes_long_lines,
    writes_what_signals_interrupt,
    hands_options_on,
    says_what_is_wrong,
    leaves_nothing_behind,
]


def main():
    # A run in the background ignores interrupts, and what it starts would too.
    signal.signal(signal.SIGINT, signal.default_int_handler)
    failed = 0
    for check in CHECKS:
        try:
            with Room() as room:
                check(room)
        except AssertionError as error:
            failed += 1
            print(f"checks: {check.__name__}: {error}")
    print("checks of many:", f"{failed} failed of {len(CHECKS)}" if failed else f"{len(CHECKS)} passed")
    return 1 if failed else 0


if __name__ == "__main__":
    sys.exit(main())
