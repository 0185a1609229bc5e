"""Asks real servers through `pac ask`: dnsmasq on a high port of loopback, and sockets that are silent or hostile, one
or two of them.

Without dnsmasq (a Debian package) its part says 'skipped'. The commands are run as `./pac`, or as the words of the
environment's PAC.
"""
import itertools
import os
import shlex
import shutil
import socket
import subprocess
import sys
import tempfile
import threading
import time

from examples import USAGE

PAC = shlex.split(os.environ.get("PAC", "./pac"))
# a machine may be slow: where nothing is lost, a reply has ten seconds
PATIENT = ["--wait=100", "--tries=2"]
CONFIGURATION = """no-resolv
no-hosts
local=/example/
listen-address=127.0.0.1
bind-interfaces
host-record=a.example,10.1.2.3
cname=www.example,web.example
cname=web.example,a.example
txt-record=text.example,words
host-record=both.example,10.1.2.4,2001:db8::4
host-record=v6.example,2001:db8::6
"""
# the addresses of a name, which don't fit a datagram, so that they come over TCP
MANY = [f"10.0.0.{last}" for last in range(1, 61)]
CONFIGURATION += "".join(f"host-record=many.example,{address}\n" for address in MANY)
# what is asked, what is written, the status
ASKED = [
    ("a.example", b"address 10.1.2.3\n", 0),
    ("A.Example.", b"address 10.1.2.3\n", 0),
    ("www.example", b"address 10.1.2.3\n", 0),
    ("none.example", b"no address\n", 0),
    ("text.example", b"no address\n", 0),
    ("both.example", b"address 10.1.2.4\n", 0),
    ("v6.example", b"no address\n", 0),
    ("2001:db8::4", b"no address\n", 0),
    ("300.1.1.1", b"no address\n", 0),
    ("10.0.0.1", b"address 10.0.0.1\n", 0),
]
NAME = b"\x01a\x07example\x00\x00\x01\x00\x01"
# an address that the machine doesn't let the program send to
EVERYBODY = "255.255.255.255"


def called(*words):
    """What `pac` writes, and its status."""
    found = subprocess.run([*PAC, *words], stdout=subprocess.PIPE, stderr=subprocess.PIPE, timeout=60, check=False)
    return found.stdout + found.stderr, found.returncode


def ask(port, name, *options):
    """What `pac ask` writes, and its status."""
    return called("ask", name, f"--server=127.0.0.1:{port}", *options)


def second(port):
    """The option for a second server."""
    return f"--second=127.0.0.1:{port}"


def bound():
    """A UDP socket of any port of loopback."""
    server = socket.socket(socket.AF_INET, socket.SOCK_DGRAM)
    server.bind(("127.0.0.1", 0))
    return server


def free_port():
    with bound() as server:
        return server.getsockname()[1]


def with_dnsmasq(failures):
    program = shutil.which("dnsmasq", path=os.environ.get("PATH", "") + ":/usr/sbin")
    if program is None:
        print("checks/dns: dnsmasq is missing, its part is skipped")
        return 0
    with tempfile.TemporaryDirectory() as folder:
        port = free_port()
        settings = os.path.join(folder, "dnsmasq.conf")
        with open(settings, "w", encoding="ascii") as file:
            file.write(CONFIGURATION + f"port={port}\n")
        words = [program, "--keep-in-foreground", "--user=", f"--conf-file={settings}"]
        server = subprocess.Popen(words, stderr=subprocess.DEVNULL)
        try:
            wait_for(port)
            for name, text, status in ASKED:
                compare(failures, f"ask {name}", ask(port, name), (text, status))
            found = ask(free_port(), "a.example", second(port), "--wait=1", "--tries=8")
            compare(failures, "ask the second", found, (b"address 10.1.2.3\n", 0))
            ask_for_many(failures, port)
        finally:
            server.terminate()
            server.wait(timeout=10)
    return len(ASKED) + 3


def ask_for_many(failures, port):
    """The server chooses which of the addresses comes first."""
    with socket.socket(socket.AF_INET, socket.SOCK_DGRAM) as near:
        near.settimeout(10)
        near.connect(("127.0.0.1", port))
        near.send(question(7).replace(NAME, b"\x04many" + NAME[2:]))
        compare(failures, "the server truncates", near.recv(512)[2] & 2, 2)
    found, status = ask(port, "many.example")
    is_one = found.decode().strip() in [f"address {address}" for address in MANY]
    compare(failures, "ask for many", (is_one, status), (True, 0))


def wait_for(port):
    """Until the server answers, at most ten seconds."""
    with socket.socket(socket.AF_INET, socket.SOCK_DGRAM) as near:
        near.settimeout(0.1)
        near.connect(("127.0.0.1", port))
        for _ in range(100):
            try:
                near.send(question(7))
                near.recv(512)
                return
            except OSError:
                time.sleep(0.1)


def question(number):
    return number.to_bytes(2, "big") + bytes.fromhex("01000001000000000000") + NAME


def reply(number, octet=9, flags=0x8180):
    """The reply to the question, with the address 10.0.0.octet."""
    head = number.to_bytes(2, "big") + flags.to_bytes(2, "big") + bytes.fromhex("0001000100000000")
    return head + NAME + bytes.fromhex("c00c000100010000003c0004") + bytes([10, 0, 0, octet])


# records of AAAA, with as many octets as an address has and with as many as one of IPv4 (RFC 3596, section 2.2)
AAAA = bytes.fromhex("c00c001c00010000003c0010") + bytes(15) + b"\x01"
SHORT_AAAA = bytes.fromhex("c00c001c00010000003c0004") + bytes(4)


def beside(number, *records):
    """The reply with these records before its own one."""
    front, mark, own = reply(number).partition(NAME)
    return front[:7] + bytes([1 + len(records)]) + front[8:] + mark + b"".join(records) + own


def of_ipv6(number, *records):
    """A reply with the question for the IPv6 address, and with these records."""
    head = number.to_bytes(2, "big") + bytes([0x81, 0x80, 0, 1, 0, len(records), 0, 0, 0, 0])
    return head + NAME[:-4] + b"\0\x1c\0\x01" + b"".join(records)


def compare(failures, name, found, expected):
    if found != expected:
        failures.append(f"{name}: {difference(found, expected)}")


def difference(found, expected):
    """The first line that differs of two pairs of what was written and the status."""
    lines = [[*text.splitlines(True), f"status {status}"] for text, status in (found, expected)]
    pairs = enumerate(itertools.zip_longest(*lines), 1)
    place, (line, wanted) = next((place, pair) for place, pair in pairs if pair[0] != pair[1])
    return f"line {place} is {line!r} in place of {wanted!r}"


class Server(threading.Thread):
    """Answers each question by `make`, a function of its number and of how many came, from its own socket or another
    one; keeps the questions.
    """

    def __init__(self, make, mouth=None):
        super().__init__(daemon=True)
        self.make, self.socket, self.questions = make, bound(), []
        self.mouth, self.port = mouth or self.socket, self.socket.getsockname()[1]
        self.socket.settimeout(0.05)
        self.is_done, self.sent_at = threading.Event(), None

    def run(self):
        while not self.is_done.is_set():
            try:
                datagram, near = self.socket.recvfrom(512)
            except OSError:
                continue
            self.questions.append(datagram)
            for piece in self.make(int.from_bytes(datagram[:2], "big"), len(self.questions)):
                self.mouth.sendto(piece, near)
            self.sent_at = time.monotonic()

    def stop(self):
        self.is_done.set()
        self.join()
        self.socket.close()

    def asked(self, *options):
        """What `pac ask` writes beside this server, with its status, and how long after the last datagram it ended."""
        self.start()
        found = ask(self.port, "a.example", *options)
        ended = time.monotonic()
        self.stop()
        return found, ended - self.sent_at


class Nobody:
    """A port that nobody listens on."""

    def __init__(self):
        self.port, self.questions = free_port(), []

    def start(self):
        """Does nothing."""

    def stop(self):
        """Does nothing."""


def asked_of(servers, *options):
    """What `pac ask` writes beside two servers, with its status, and how many seconds it took."""
    for server in servers:
        server.start()
    begun = time.monotonic()
    found = ask(servers[0].port, "a.example", second(servers[1].port), *options)
    taken = time.monotonic() - begun
    for server in servers:
        server.stop()
    return found, taken


def flood(number, count):
    """Empty datagrams, so many, and then the reply. A socket that is full drops some."""
    for _ in range(count):
        yield b""
    time.sleep(1)
    yield reply(number)


# what the server sends for a question's number and its place, the options, what is written, the status, the questions
ADDRESS = b"address 10.0.0.9\n"
UNANSWERED = b"unanswered a.example\n"
ONCE = ["--wait=1", "--tries=1"]
HOSTILE = {
    "a reply": (lambda number, place: [reply(number)], PATIENT, ADDRESS, 0, 1),
    "a name error": (lambda number, place: [reply(number, flags=0x8183)], PATIENT, b"no address\n", 0, 1),
    "silence": (lambda number, place: [], ["--wait=1", "--tries=3"], UNANSWERED, 5, 3),
    "a late reply": (lambda number, place: [reply(number)][: place - 1], ["--wait=20", "--tries=2"], ADDRESS, 0, 2),
    "empty": (lambda number, place: [b""], ONCE, UNANSWERED, 5, 1),
    "cut": (lambda number, place: [reply(number)[:end] for end in range(43)], ONCE, UNANSWERED, 5, 1),
    "another number": (lambda number, place: [reply(number ^ 1)], ONCE, UNANSWERED, 5, 1),
    "another name": (lambda number, place: [reply(number).replace(b"\x01a", b"\x01b")], ONCE, UNANSWERED, 5, 1),
    "too long": (lambda number, place: [reply(number) + bytes(512)], ONCE, UNANSWERED, 5, 1),
    "a server's failure": (lambda number, place: [reply(number, flags=0x8182)], ONCE, UNANSWERED, 5, 1),
    "forged, then the reply": (lambda number, place: [reply(number ^ 1, 8), reply(number)], PATIENT, ADDRESS, 0, 1),
    "doubled": (lambda number, place: [reply(number), reply(number, 8)], PATIENT, ADDRESS, 0, 1),
    "a flood of 10,000": (lambda number, place: flood(number, 10_000), PATIENT, ADDRESS, 0, 1),
    "an IPv6 address before": (lambda number, place: [beside(number, AAAA, SHORT_AAAA)], PATIENT, ADDRESS, 0, 1),
    "the question for IPv6": (lambda number, place: [of_ipv6(number, AAAA)], ONCE, UNANSWERED, 5, 1),
    "that with an IPv4 address": (lambda number, place: [of_ipv6(number, reply(number)[-16:])], ONCE, UNANSWERED, 5, 1),
}


def with_hostile_servers(failures):
    for name, (make, options, text, status, questions) in HOSTILE.items():
        server = Server(make)
        found, _ = server.asked(*options)
        compare(failures, name, found, (text, status))
        if len(server.questions) != questions or len(set(server.questions)) > 1:
            failures.append(f"{name}: the questions were {server.questions}")
    return len(HOSTILE)


def silent(number, place):
    return []


def answers(number, place):
    return [reply(number)]


def differs(number, place):
    """Another address than the first server's."""
    return [reply(number, 8)]


def later(seconds, make):
    """The same so many seconds later."""

    def made(number, place):
        time.sleep(seconds)
        return make(number, place)

    return made


def floods(number, place):
    return flood(number, 10_000)


def floods_alone(number, place):
    return [b""] * 10_000


OTHER = b"address 10.0.0.8\n"
# the second server is asked half a second after the first one, and the first one again a second later
HALF = ["--wait=5"]
# what the first and the second server send, or that nobody listens there; the options; what is written; the status; how
# many questions each of them gets, where that is certain; how many beats of 100 ms it lasts at least
TWO = {
    "the first silent": (silent, differs, HALF, OTHER, 0, (1, 1), 5),
    "nobody the first": (None, differs, HALF, OTHER, 0, (0, 1), 5),
    "the second silent": (answers, silent, PATIENT, ADDRESS, 0, (1, 0), 0),
    "nobody the second": (answers, None, PATIENT, ADDRESS, 0, (1, 0), 0),
    "the second sooner": (later(1.5, answers), differs, HALF, OTHER, 0, (1, 1), 5),
    "the first sooner": (later(0.7, answers), later(1, differs), HALF, ADDRESS, 0, (1, 1), 5),
    "both silent": (silent, silent, ["--wait=1", "--tries=4"], UNANSWERED, 5, (2, 2), 15),
    "both silent, once": (silent, silent, ["--wait=3", "--tries=1"], UNANSWERED, 5, (1, 0), 3),
    "nobody at all": (None, None, ["--wait=1", "--tries=3"], UNANSWERED, 5, (0, 0), 7),
    "both flooding": (floods, floods, ["--wait=1", "--tries=8"], ADDRESS, 0, None, 0),
    "both flooding without a reply": (floods_alone, floods_alone, ["--wait=1", "--tries=3"], UNANSWERED, 5, None, 0),
}


def with_two_servers(failures):
    for name, (first, other, options, text, status, counts, beats) in TWO.items():
        servers = [Server(make) if make else Nobody() for make in (first, other)]
        found, taken = asked_of(servers, *options)
        compare(failures, name, found, (text, status))
        see_questions(failures, name, servers, counts)
        see_time(failures, name, taken, beats)
    return len(TWO)


def see_time(failures, name, taken, beats):
    """A call lasts so many beats of 100 ms or more, on a slow machine much more."""
    if not beats / 10 <= taken <= 3 * beats / 10 + 20:
        failures.append(f"{name}: it lasts {taken:.2f} s in place of {beats} beats")


def see_questions(failures, name, servers, counts):
    """Each question is the same, whichever server it is sent to, and each server gets as many as it is to get."""
    came = [server.questions for server in servers]
    if len(set(sum(came, []))) > 1 or counts and counts != tuple(map(len, came)):
        failures.append(f"{name}: the questions were {came}")


def with_other_sockets(failures):
    """What is sent to the first server is answered by the second one, which was not asked; by a third address, which is
    nobody; and at the second sending by the first server, which is the second one too.
    """
    other = Server(silent)
    servers = [Server(differs, other.socket), other]
    compare(failures, "the second for the first", asked_of(servers, *PATIENT)[0], (OTHER, 0))
    see_questions(failures, "the second for the first", servers, (1, 0))
    with bound() as third:
        servers = [Server(differs, third), Server(differs, third)]
        found, _ = asked_of(servers, "--wait=1", "--tries=3")
        compare(failures, "a third for both", found, (UNANSWERED, 5))
        see_questions(failures, "a third for both", servers, (2, 1))
    server = Server(lambda number, place: [reply(number)][: place - 1])
    found, _ = server.asked(second(server.port), *HALF)
    compare(failures, "one server twice", found, (ADDRESS, 0))
    see_questions(failures, "one server twice", [server], (2,))
    return 3


# what is faulty behind `ask` and `resolve`; `--second` is read as `--server` is
FAULTY = [["--second"], ["--second="], ["--second", ""], ["--second", "--wait=1"], ["--second=1.2.3.4"] * 2]
FAULTY += [[f"--second={value}"] for value in "1.2.3 1.2.3.256 1.2.3.4: 1.2.3.4:0 1.2.3.4:65536 1.2.3.4:5:6 x".split()]
FAULTY += [[f"--second={value}"] for value in "localhost ::1 [::1]:53 -".split()]
FAULTY += [["--seconds=1.2.3.4"], ["--sec=1.2.3.4"]]
# commands that ask nobody
OTHERS = ["check examples/direct.pac", "map examples/direct.pac http://a/ --names=/dev/null", "generate 1 1"]


def with_faulty_words(failures):
    commands = [["ask", "a.example"], ["resolve", "examples/direct.pac", "http://a.example/"]]
    for words in [[*command, *faulty] for command in commands for faulty in FAULTY]:
        compare(failures, " ".join(words), called(*words), (USAGE, 2))
    for words in OTHERS:
        compare(failures, f"{words} --second", called(*words.split(), "--second=127.0.0.1"), (USAGE, 2))
    return len(commands) * len(FAULTY) + len(OTHERS)


def where_sending_fails(failures):
    """A server that nothing can be sent to is a failure of the link when it is that server's turn."""
    failed = (b"fault link\n", 6)
    found = called("ask", "a.example", f"--server={EVERYBODY}")
    compare(failures, "a server that nothing can be sent to", found, failed)
    found = ask(free_port(), "a.example", f"--second={EVERYBODY}", "--wait=1")
    compare(failures, "a second server that nothing can be sent to", found, failed)
    found = ask(free_port(), "a.example", f"--second={EVERYBODY}", *ONCE)
    compare(failures, "a second server that nothing is sent to", found, (UNANSWERED, 5))
    return 3


def measure():
    """The least time from the server's reply to the end of the program, in milliseconds."""
    least = min(Server(lambda number, place: [reply(number)]).asked()[1] for _ in range(20))
    print(f"checks/dns: the program ends {max(least, 0) * 1000:.1f} ms after the reply")


def main():
    failures = []
    parts = [with_dnsmasq, with_hostile_servers, with_two_servers, with_other_sockets, with_faulty_words]
    count = sum(part(failures) for part in [*parts, where_sending_fails])
    measure()
    for failure in failures:
        print(f"checks/dns: {failure}")
    print(f"checks/dns: {count} passed" if not failures else f"checks/dns: {len(failures)} failed of {count}")
    return 1 if failures else 0


if __name__ == "__main__":
    sys.exit(main())
