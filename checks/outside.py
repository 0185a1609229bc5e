"""Files, outputs and servers that are none of the usual ones: FIFOs, devices without end, a file that grows while it is
read, outputs that are full, closed or not read, servers that answer from elsewhere, too much or with nothing.

The commands are run as `./pac`, or as the words of the environment's PAC.
"""
import os
import shutil
import subprocess
import sys
import tempfile
import threading
import time

from dns import ONCE, PAC, PATIENT, compare
from examples import USAGE
from resolve import ADDRESS, DIRECT, DONE, ONE, PLAIN, QUICK, SILENT, A, Server, from_another_port, reply, report

URL = "http://example.com/a"
SCRIPT = b'function FindProxyForURL(url, host) { return "DIRECT"; }\n'
REPORT = (report((URL, "result DIRECT", 1)), 0)
NO_ENTRY = (report((URL, "fault F14 NoEntry at 0:0", 1)), 1)
BATCH, BATCH_REPORT = f"get {PLAIN}\n".encode(), (report((PLAIN, *DIRECT)), 0)
LIMIT, TOO_LONG = 1_048_576, (b"refused script TooLong\n", 4)
LINE = b"// one more line\n"


def call(words, before="", after="", **options):
    """What a command writes, and its status; what stands before and after it is the shell's."""
    shell = ["bash", "-c", f'{before} "$@" {after}', "bash"]
    options = {"stdin": subprocess.DEVNULL, "stdout": subprocess.PIPE, "stderr": subprocess.PIPE, **options}
    found = subprocess.run([*shell, *PAC, *words], timeout=120, check=False, **options)
    return (found.stdout or b"") + (found.stderr or b""), found.returncode


class Folder:
    """A folder of files and FIFOs, which is removed again."""

    def __enter__(self):
        self.name = tempfile.mkdtemp()
        return self

    def __exit__(self, *_):
        shutil.rmtree(self.name)

    def path(self, name, octets=None):
        """The path of a file, which is written where there is something to write."""
        path = os.path.join(self.name, name)
        if octets is not None:
            with open(path, "wb") as file:
                file.write(octets)
        return path

    def fifo(self, name, pieces):
        """The path of a FIFO, into which a thread writes the pieces, until they or the reader end."""
        path = self.path(name)
        os.mkfifo(path)
        threading.Thread(target=pour, args=(path, pieces), daemon=True).start()
        return path


def pour(path, pieces):
    try:
        with open(path, "wb", buffering=0) as file:
            for piece in pieces:
                file.write(piece)
    except BrokenPipeError:
        pass


def in_pieces(octets):
    """The octets in pieces of 5, each a while after the one before it."""
    for at in range(0, len(octets), 5):
        yield octets[at : at + 5]
        time.sleep(0.001)


def without_end(octets):
    while True:
        yield octets


def check_files(failures):
    with Folder() as folder:
        plain, empty = folder.path("plain", SCRIPT), folder.path("empty", b"")
        loop, far = folder.path("loop"), folder.path("far/" * 2_000)
        os.symlink(loop, loop)
        # what it shows, the words, what is written and the status
        cases = [
            ("a FIFO as script", ["resolve", folder.fifo("1", in_pieces(SCRIPT)), URL], REPORT),
            ("a FIFO that is empty", ["resolve", folder.fifo("2", []), URL], NO_ENTRY),
            ("a FIFO without end", ["check", folder.fifo("3", without_end(LINE * 99))], TOO_LONG),
            ("a FIFO as batch", ["resolve", plain, "--batch", folder.fifo("4", in_pieces(BATCH))], BATCH_REPORT),
            ("a FIFO as names", ["map", plain, URL, "--names", folder.fifo("5", in_pieces(b"a.example -\n"))], REPORT),
            ("zeros without end as script", ["check", "/dev/zero"], TOO_LONG),
            ("zeros as names", ["map", plain, URL, "--names", "/dev/zero"], (b"refused names TooLong\n", 4)),
            ("zeros as batch", ["resolve", plain, "--batch", "/dev/zero"], (b"refused batch TooLong\n", 4)),
            ("a folder as names", ["map", plain, URL, "--names", folder.name], (b"fault read names\n", 3)),
            ("a folder as batch", ["resolve", plain, "--batch", folder.name], (b"fault read batch\n", 3)),
            ("a file as a folder", ["check", plain + "/"], (b"fault read script\n", 3)),
            ("a link to itself", ["check", loop], (b"fault read script\n", 3)),
            ("a name that is too long", ["check", far], (b"fault read script\n", 3)),
            ("an empty file as all", ["map", empty, "--names", empty, "--batch", empty], (b"", 0)),
        ]
        for what, words, expected in cases:
            compare(failures, what, call(words), expected)
    return len(cases)


def appended(path, most, is_done):
    """Appends lines to a file, a few at a time, until it is done or the file has so many bytes."""
    with open(path, "ab", buffering=0) as file:
        while not is_done.is_set() and file.tell() + 9 * len(LINE) < most:
            file.write(LINE * 9)


def check_growing_files(failures):
    """A file that another one appends lines to: what was read up to some line is the script, or it is too long, which
    needs no end of the growing.
    """
    # what it shows, the file's first bytes, how far it may grow, what is written and the status
    cases = [
        ("a script that grows below the limit", SCRIPT, LIMIT, REPORT),
        ("a script that grows above the limit", SCRIPT + LINE * (LIMIT // len(LINE) + 1), 1 << 28, TOO_LONG),
    ]
    for what, octets, most, expected in cases:
        with Folder() as folder:
            for _ in range(5):
                path = folder.path("script", octets)
                is_done = threading.Event()
                writer = threading.Thread(target=appended, args=(path, most, is_done))
                writer.start()
                found = call(["resolve", path, URL])
                is_done.set()
                writer.join()
                compare(failures, what, found, expected)
    return len(cases)


def check_outputs(failures):
    plain, script = ["check", "examples/company.pac"], ["resolve", "examples/direct.pac"]
    # commands that write a script, a usage line, a refusal, a fault, an answer, a report
    writing = [plain, [], [*script, "x:"], ["check", "absent"], ["ask", "10.0.0.1"], [*script, URL]]
    for words in writing:
        with open("/dev/full", "wb") as full:
            compare(failures, f"{words} > /dev/full", call(words, stdout=full), (b"", 7))
        compare(failures, f"{words} >&-", call(words, after=">&-"), (b"", 7))
        reading, unread = os.pipe()
        os.close(reading)
        compare(failures, f"{words} > a pipe that nobody reads", call(words, stdout=unread), (b"", 7))
        os.close(unread)
    compare(failures, "nothing >&-", call(["check", "/dev/null"], after=">&-"), (b"", 0))
    compare(failures, "all closed", call(plain, after="<&- >&- 2>&-"), (b"", 7))
    text, status = call([*plain, "x"])
    compare(failures, "the usage line", (text, status), (USAGE, 2))
    slow = call(plain, before="set -o pipefail;", after="| (sleep 0.3; cat)")
    with open("examples/company.printed", "rb") as file:
        compare(failures, "a pipe that is read late", slow, (file.read(), 0))
    return 3 * len(writing) + 4


class Keeping(Server):
    """A server that keeps all that comes, and answers the first question."""

    def __init__(self, make):
        super().__init__(make)
        self.came = []

    def take(self, datagram, near):
        self.came.append(datagram)
        if len(self.came) == 1:
            super().take(datagram, near)


def check_closed_outputs_beside_servers(failures):
    """No socket takes the place of an output that is closed: what is to be written goes to nobody."""
    with Folder() as folder:
        path = folder.path("script", ADDRESS.encode())
        commands = [["resolve", path, A], ["ask", "a.example"]]
        for words in commands:
            server = Keeping(lambda asked: [(0, reply(asked.datagram, ONE))])
            found = server.beside(lambda port: call([*words, f"--server=127.0.0.1:{port}", *PATIENT], after=">&-"))
            compare(failures, f"{words[0]} >&-", found, (b"", 7))
            if len(server.came) != 1:
                failures.append(f"{words[0]} >&-: the server got {server.came}")
    return len(commands)


def elsewhere(asked):
    """A reply from another port alone."""
    return from_another_port(asked)[:0]


def long(asked):
    return [(0, reply(asked.datagram, "10.9.9.9") + bytes(65_000))]


def long_then_sound(asked):
    return [*long(asked), (0.01, reply(asked.datagram, ONE))]


def empty(asked):
    return [(0, b"")] * 9


# servers: what they send, the options, what the URL comes to, the status, what `ask` writes
SERVERS = {
    "another port": (elsewhere, QUICK, SILENT, 5, b"unanswered a.example\n"),
    "65,000 octets": (long, ONCE, SILENT, 5, b"unanswered a.example\n"),
    "65,000 octets, then a reply": (long_then_sound, PATIENT, DONE, 0, f"address {ONE}\n".encode()),
    "empty datagrams": (empty, ONCE, SILENT, 5, b"unanswered a.example\n"),
}


def check_servers(failures):
    for name, (make, options, end, status, line) in SERVERS.items():
        found = Server(make).resolved(ADDRESS, [A], *options)
        compare(failures, f"resolve, {name}", found, (report((A, *end)), status))
        words = ["ask", "a.example", *options]
        found = Server(make).beside(lambda port: call([*words, f"--server=127.0.0.1:{port}"]))
        compare(failures, f"ask, {name}", found, (line, status))
    return 2 * len(SERVERS)


def main():
    failures = []
    parts = [check_files, check_growing_files, check_outputs, check_closed_outputs_beside_servers, check_servers]
    count = sum(part(failures) for part in parts)
    for failure in failures:
        print(f"checks/outside: {failure}")
    print(f"checks/outside: {count} passed" if not failures else f"checks/outside: {len(failures)} failed of {count}")
    return 1 if failures else 0


if __name__ == "__main__":
    sys.exit(main())
