"""Resolves batches through `pac resolve` beside real servers, one or two of them: dnsmasq on a high port of loopback,
and servers that delay, lose, double, reorder and forge, or are silent.

The large batch has 256 URLs, whose script asks for the name of each host and for one of ten that they share; what is
written is compared whole with what this file computes. Another batch as large has a script whose load takes a while. A
name that is asked for its IPv6 address stands in this file with ` AAAA` behind it, as in reports. Without dnsmasq (a
Debian package) its part says 'skipped'. The commands are run as `./pac`, or as the words of the environment's PAC.
"""
import collections
import heapq
import os
import random
import shutil
import socket
import subprocess
import sys
import tempfile
import threading
import time

from dns import EVERYBODY, HALF, PAC, PATIENT, bound, compare, free_port, second, see_time, wait_for

SCRIPT = """function FindProxyForURL(url, host) {
  if (isPlainHostName(host)) return "DIRECT";
  var gate = dnsResolve("gw" + host[4] + ".example");
  if (!isResolvable(host)) return "DIRECT";
  if (isInNet(host, "10.0.0.0", "255.128.0.0")) return "PROXY " + gate + ":8080";
  return "SOCKS " + gate + ":1080; DIRECT";
}
"""
HOSTS = [f"site{n}.example" for n in range(256)]
ADDRESSES = {f"gw{n}.example": f"10.{n}.0.1" for n in range(10)}
ADDRESSES |= {host: None if n % 5 == 0 else f"10.{n * 7 % 256}.{n}.1" for n, host in enumerate(HOSTS)}
# what a server is asked: a name, in this datagram from there; how often the name came, and how many questions, from 1
Asked = collections.namedtuple("Asked", "name datagram near turn place")


def result_of(host):
    """What the script answers for a host, by the table of addresses."""
    gate, address = ADDRESSES[f"gw{host[4]}.example"], ADDRESSES[host]
    if address is None:
        return "DIRECT"
    return f"PROXY {gate}:8080" if int(address.split(".")[1]) < 128 else f"SOCKS {gate}:1080; DIRECT"


def report(*blocks):
    """The report of URLs, each with what it came to and its runs. The proxies of a result are tried in its order."""
    lines = []
    for place, (url, end, runs) in enumerate(blocks, 1):
        lines += [f"url {place} {url}", end, *tries(end), f"runs {runs}"]
    return "".join(f"{line}\n" for line in lines).encode()


def tries(end):
    """The lines of the proxies of a result, which the scripts of this file write as a report does, but for one port."""
    if not end.startswith("result "):
        return []
    proxies = end.removeprefix("result ").split("; ")
    return [f"try {proxy}" if ":" in proxy or proxy == "DIRECT" else f"try {proxy}:80" for proxy in proxies]


def resolve_at(server, script, urls, *options, seconds=120):
    """What `pac resolve` writes for a batch, and its status."""
    with tempfile.TemporaryDirectory() as folder:
        names = [os.path.join(folder, name) for name in ("script.pac", "batch")]
        for name, text in zip(names, [script, "".join(f"get {url}\n" for url in urls)]):
            with open(name, "w", encoding="ascii") as file:
                file.write(text)
        words = [*PAC, "resolve", names[0], "--batch", names[1], f"--server={server}", *options]
        found = subprocess.run(words, stdout=subprocess.PIPE, stderr=subprocess.PIPE, timeout=seconds, check=False)
    return found.stdout + found.stderr, found.returncode


def resolve(port, script, urls, *options, seconds=120):
    return resolve_at(f"127.0.0.1:{port}", script, urls, *options, seconds=seconds)


# the types of questions and records (RFC 1035, section 3.2.2, and RFC 3596, section 2.1)
TYPES = {"": b"\0\x01", "AAAA": b"\0\x1c"}


def name_in(datagram):
    """The name of a question's datagram."""
    labels, at = [], 12
    while datagram[at] > 0:
        labels.append(datagram[at + 1 : at + 1 + datagram[at]].decode("ascii"))
        at += 1 + datagram[at]
    return ".".join(labels) + " AAAA" * (datagram[at + 1 : at + 3] == TYPES["AAAA"])


def question(number, name):
    """The datagram that asks for the address of a name (RFC 1035, section 4.1)."""
    name, _, kind = name.partition(" ")
    labels = b"".join(bytes([len(label)]) + label.encode() for label in name.split("."))
    return number.to_bytes(2, "big") + bytes.fromhex("01000001000000000000") + labels + b"\0" + TYPES[kind] + b"\0\x01"


def record(address):
    """The record of an address, of the name that was asked."""
    is_6 = ":" in address
    octets = socket.inet_pton(socket.AF_INET6 if is_6 else socket.AF_INET, address)
    return b"\xc0\x0c" + TYPES["AAAA" * is_6] + bytes.fromhex("00010000003c00") + bytes([len(octets)]) + octets


def reply_of(datagram, *records):
    """The reply to a question with these records, and without any that the name has none of their type."""
    return datagram[:2] + bytes([0x81, 0x80, 0, 1, 0, len(records), 0, 0, 0, 0]) + datagram[12:] + b"".join(records)


def reply(datagram, address):
    """The reply to a question with this address, or that there is no such name."""
    if address is None:
        return datagram[:2] + bytes([0x81, 0x83, 0, 1, 0, 0, 0, 0, 0, 0]) + datagram[12:]
    return reply_of(datagram, record(address))


def answer(asked):
    return reply(asked.datagram, ADDRESSES[asked.name])


def other_number(datagram):
    return bytes([datagram[0] ^ 1]) + datagram[1:]


class Server(threading.Thread):
    """Answers each question by `make`, which gives datagrams with the seconds until each is sent; keeps questions. It
    sends from its own socket, or from another one.
    """

    def __init__(self, make, mouth=None):
        super().__init__(daemon=True)
        self.make, self.socket, self.is_done = make, bound(), threading.Event()
        self.mouth = mouth or self.socket
        self.socket.setsockopt(socket.SOL_SOCKET, socket.SO_RCVBUF, 1 << 20)
        self.questions, self.waiting = collections.defaultdict(list), []

    def run(self):
        while not self.is_done.is_set():
            self.send_due()
            left = self.waiting[0][0] - time.monotonic() if self.waiting else 0.05
            self.socket.settimeout(min(max(left, 0.0001), 0.05))
            try:
                datagram, near = self.socket.recvfrom(512)
            except OSError:
                continue
            if datagram:
                self.take(datagram, near)

    def send_due(self):
        while self.waiting and self.waiting[0][0] <= time.monotonic():
            _, _, piece, near = heapq.heappop(self.waiting)
            self.mouth.sendto(piece, near)

    def take(self, datagram, near):
        asked = self.questions[name_in(datagram)]
        asked.append(datagram)
        place = sum(len(datagrams) for datagrams in self.questions.values())
        now = time.monotonic()
        for count, (delay, piece) in enumerate(self.make(Asked(name_in(datagram), datagram, near, len(asked), place))):
            heapq.heappush(self.waiting, (now + delay, (place, count), piece, near))

    def beside(self, call):
        """What a call gives that is made beside this server and handed its port."""
        self.start()
        try:
            return call(self.socket.getsockname()[1])
        finally:
            self.stop()

    def stop(self):
        """Ends the server, which an empty datagram wakes."""
        self.is_done.set()
        with bound() as other:
            other.sendto(b"", self.socket.getsockname())
        self.join()
        self.socket.close()

    def resolved(self, script, urls, *options):
        """What `pac resolve` writes for a batch beside this server, and its status."""
        return self.beside(lambda port: resolve(port, script, urls, *options))

    def is_sound(self):
        return are_sound([self])


class Nobody:
    """A port that nobody listens on."""

    def __init__(self):
        self.questions = {}

    def beside(self, call):
        return call(free_port())


def are_sound(servers):
    """Whether all that came were questions, each name under one number, whichever server was asked."""
    asked = collections.defaultdict(list)
    for server in servers:
        for name, datagrams in server.questions.items():
            asked[name] += datagrams
    return all(set(them) == {question(int.from_bytes(them[0][:2], "big"), name)} for name, them in asked.items())


def resolved_by(servers, script, urls, *options):
    """What `pac resolve` writes for a batch beside two servers, its status, and how many seconds it took."""

    def call(port, other):
        begun = time.monotonic()
        found = resolve(port, script, urls, second(other), *options)
        return found, time.monotonic() - begun

    return servers[0].beside(lambda port: servers[1].beside(lambda other: call(port, other)))


def two(first, other):
    """Two servers by what they send; None is a port that nobody listens on."""
    return [Server(make) if make else Nobody() for make in (first, other)]


def counts_of(server):
    """How often the names were asked of a server that it was asked for."""
    return {len(datagrams) for datagrams in server.questions.values()}


LARGE = (SCRIPT, [f"http://{host}/" for host in HOSTS])
LARGE_REPORT = report(*((f"http://{host}/", f"result {result_of(host)}", 3) for host in HOSTS))
NOISE = random.Random(18)


def forged(asked):
    """A reply under another number, one for another name, octets of any kind, and then the reply."""
    strange = reply(asked.datagram, "10.9.9.9")
    yield 0, other_number(strange)
    yield 0, strange.replace(b"\x07example", b"\x07exbmple")
    yield 0, NOISE.randbytes(NOISE.randrange(60))
    yield 0, answer(asked)


def is_kept(asked):
    """Of the first questions for a name each third one is lost."""
    return asked.turn > 1 or asked.place % 3 > 0


def doubled(asked):
    """The reply, and another one, which changes nothing. They come spread over some time, so that no socket is full."""
    seconds = asked.place / 4000
    return [(seconds, answer(asked)), (seconds, reply(asked.datagram, "10.9.9.9"))]


def nothing(asked):
    return []


def now(asked):
    return [(0, answer(asked))]


def first_half(asked):
    """The reply, where the number in the name is even."""
    return now(asked) if asked.name[:-len(".example")][-1] in "02468" else []


def other_half(asked):
    return [] if first_half(asked) else now(asked)


def lossy(asked):
    return now(asked) if is_kept(asked) else []


# where the server loses replies, or a socket that is full does, names are asked again soon, and often
LOSSY = ["--wait=3", "--tries=6"]
# servers: what they send, the options, how often each name is asked at least and at most
SERVERS = {
    "at once": (now, PATIENT, 1, 1),
    "after up to 80 ms": (lambda asked: [(NOISE.random() * 0.08, answer(asked))], PATIENT, 1, 1),
    "in reverse order": (lambda asked: [(0.2 - asked.place / 2000, answer(asked))], PATIENT, 1, 1),
    "doubled": (doubled, LOSSY, 1, 6),
    "forged": (forged, LOSSY, 1, 6),
    "lost twice": (lambda asked: now(asked) if asked.turn > 2 else [], LOSSY, 3, 6),
    "one in three lost": (lossy, LOSSY, 1, 6),
}
# pairs of servers, None where nobody listens
PAIRS = {
    "the first silent": (nothing, now),
    "nobody the first": (None, now),
    "the second silent": (now, nothing),
    "nobody the second": (now, None),
    "each silent for half": (first_half, other_half),
    "each loses one in three": (lossy, lossy),
    "both forging": (forged, forged),
}


def with_scripted_servers(failures):
    """A busy machine may drop a datagram, and a name is then asked once more, so each server has three tries."""
    for name, (make, options, least, most) in SERVERS.items():
        for _ in range(3):
            server = Server(make)
            found = server.resolved(*LARGE, *options)
            counts = counts_of(server)
            is_often = least <= min(counts, default=0) and max(counts, default=0) <= most
            if is_often:
                break
        compare(failures, f"256 URLs, {name}", found, (LARGE_REPORT, 0))
        if set(server.questions) != set(ADDRESSES) or not server.is_sound() or not is_often:
            failures.append(f"256 URLs, {name}: {len(server.questions)} names were asked, {counts} times")
    return len(SERVERS)


def with_pairs(failures):
    for name, (first, other) in PAIRS.items():
        servers = two(first, other)
        compare(failures, f"256 URLs, {name}", resolved_by(servers, *LARGE, *LOSSY)[0], (LARGE_REPORT, 0))
        names = [set(server.questions) for server in servers]
        if first and names[0] != set(ADDRESSES) or not names[1] <= set(ADDRESSES) or not are_sound(servers):
            failures.append(f"256 URLs, {name}: {list(map(len, names))} names were asked")
    return len(PAIRS)


def beside_a_silent_server(failures):
    """How long the large batch takes, at best. Its names are asked in two rounds, and where the first server is silent
    each of them is a wait of half a second.
    """
    pairs = {"good, silent": (now, nothing), "silent, good": (nothing, now)}
    taken = {name: [] for name in pairs}
    for name in [*pairs] * 3:
        found, seconds = resolved_by(two(*pairs[name]), *LARGE, *HALF, "--tries=6")
        compare(failures, f"256 URLs, {name}", found, (LARGE_REPORT, 0))
        taken[name].append(seconds)
    best = {name: min(seconds) for name, seconds in taken.items()}
    told = "; ".join(f"{name}: {seconds * 1000:.0f} ms" for name, seconds in best.items())
    print(f"checks/resolve: 256 URLs over 266 names in two rounds of 500 ms, {told}")
    if not 1 <= best["silent, good"] <= 3 * 2 * 0.53:
        failures.append(f"256 URLs in two rounds of 500 ms: {told}")
    return 1


def with_dnsmasq(failures):
    program = shutil.which("dnsmasq", path=os.environ.get("PATH", "") + ":/usr/sbin")
    if program is None:
        print("checks/resolve: dnsmasq is missing, its part is skipped")
        return 0
    records = "".join(f"host-record={name},{address}\n" for name, address in ADDRESSES.items() if address)
    records += "".join(f"host-record={','.join([name, *filter(None, both)])}\n" for name, both in FAMILIES.items()
                       if any(both))
    with tempfile.TemporaryDirectory() as folder:
        port, settings = free_port(), os.path.join(folder, "dnsmasq.conf")
        with open(settings, "w", encoding="ascii") as file:
            file.write("no-resolv\nno-hosts\nlocal=/example/\nlisten-address=127.0.0.1\nbind-interfaces\n")
            file.write(f"port={port}\n{records}")
        words = [program, "--keep-in-foreground", "--user=", f"--conf-file={settings}"]
        server = subprocess.Popen(words, stderr=subprocess.DEVNULL)
        try:
            wait_for(port)
            compare(failures, "256 URLs, dnsmasq", resolve(port, *LARGE, *LOSSY), (LARGE_REPORT, 0))
            found = resolve(free_port(), *LARGE, second(port), *LOSSY)
            compare(failures, "256 URLs, dnsmasq the second", found, (LARGE_REPORT, 0))
            compare(failures, "both families, dnsmasq", resolve(port, *BY_FAMILY, *LOSSY), (FAMILY_REPORT, 0))
        finally:
            server.terminate()
            server.wait(timeout=10)
    return 3


# the proxies of a host are its addresses, in the order in which dnsResolveEx tells them
ALL_ADDRESSES = """function FindProxyForURLEx(url, host) {
  var found = dnsResolveEx(host).split(";"), list = [];
  for (var i = 0; i < found.length; i++)
    list.push("PROXY " + (found[i].indexOf(":") < 0 ? found[i] : "[" + found[i] + "]") + ":80");
  return isResolvableEx(host) ? list.join("; ") : "DIRECT";
}
"""
# names with both addresses, with one alone, and with none
FAMILIES = {
    "both.example": ("10.0.0.1", "2001:db8::1"),
    "v4.example": ("10.0.0.4", None),
    "v6.example": (None, "2001:db8:0:1::6"),
    "none.example": (None, None),
}
FAMILY_ENDS = {
    "both.example": ("result PROXY [2001:db8::1]:80; PROXY 10.0.0.1:80", 3),
    "v4.example": ("result PROXY 10.0.0.4:80", 3),
    "v6.example": ("result PROXY [2001:db8:0:1::6]:80", 3),
    "none.example": ("result DIRECT", 3),
    # hosts that are addresses, of which nobody is asked
    "10.0.0.9": ("result PROXY 10.0.0.9:80", 1),
    "[2001:db8::9]": ("result PROXY [2001:db8::9]:80", 1),
}
BY_FAMILY = (ALL_ADDRESSES, [f"http://{host}/" for host in FAMILY_ENDS])
FAMILY_REPORT = report(*((f"http://{host}/", *end) for host, end in FAMILY_ENDS.items()))


def by_family(asked):
    """What a server has of the names above: an address, no record of the asked type, or no such name."""
    name, _, kind = asked.name.partition(" ")
    address = FAMILIES[name][kind == "AAAA"]
    if any(FAMILIES[name]):
        return [(0, reply_of(asked.datagram, *([record(address)] if address else [])))]
    return [(0, reply(asked.datagram, None))]


def of_one_type(kind):
    """The same for the questions of one type, and silence for the others."""
    return lambda asked: by_family(asked) if asked.name.endswith(" AAAA") == (kind == "AAAA") else []


def with_records(*records):
    """Replies with these records for AAAA, each an address or octets, and with the address for A."""
    octets = [record(it) if isinstance(it, str) else it for it in records]
    return lambda asked: [(0, reply_of(asked.datagram, *octets))] if " " in asked.name else by_family(asked)


def cut_record(address, length):
    """The record of an address with so many octets of data in place of its own."""
    whole = record(address)
    return whole[:11] + bytes([length]) + whole[12:].ljust(length, b"\0")[:length]


# an alias of the asked name for a name that ends it, and the address of that one
ALIAS = bytes.fromhex("c00c000500010000003c0004") + b"\x01x\xc0\x0c"


def of_alias(address):
    """The record of an address of x.both.example, which an alias led to."""
    return b"\x01x" + record(address)


B6 = "http://both.example/"
WHOLE_6, SILENT_6 = FAMILY_ENDS["both.example"], ("unanswered both.example AAAA", 1)
ALONE_4 = ("result PROXY 10.0.0.1:80", 3)
# servers: what they send, what both.example comes to, the status, how often each name is asked
ONE_TRY = ["--wait=10", "--tries=1"]
FAMILY_SERVERS = {
    "AAAA is silent": (of_one_type("A"), SILENT_6, 5),
    "A is silent": (of_one_type("AAAA"), ("unanswered both.example", 2), 5),
    "an A record before": (with_records("10.9.9.9", "2001:db8::1", "2001:db8::2"), WHOLE_6, 0),
    "A records alone": (with_records("10.9.9.9"), ALONE_4, 0),
    "AAAA of four octets": (with_records(cut_record("2001:db8::1", 4)), SILENT_6, 5),
    "AAAA of fifteen octets": (with_records(cut_record("2001:db8::1", 15)), SILENT_6, 5),
    "an A record of sixteen octets": (with_records(cut_record("10.9.9.9", 16), "2001:db8::1"), SILENT_6, 5),
    "a chain": (with_records(ALIAS, "2001:db8::9", of_alias("10.9.9.9"), of_alias("2001:db8::1")), WHOLE_6, 0),
    "a chain to A alone": (with_records(ALIAS, "2001:db8::9", of_alias("10.9.9.9")), ALONE_4, 0),
    "the question of A": (
        lambda asked: [(0, reply_of(question(int.from_bytes(asked.datagram[:2], "big"), "both.example"),
                                    record("10.9.9.9")))] if " " in asked.name else by_family(asked),
        SILENT_6, 5,
    ),
}
# a script that tells whether it was told the addresses in their order, and one whose tests ask nobody
TRUE_ADDRESSES = """function FindProxyForURLEx(u, h) {
  return "PROXY " + (dnsResolveEx(h) == "2001:db8::1;10.0.0.1") + ":1"; }
"""
IN_NETS = """function FindProxyForURL(u, h) {
  return "PROXY " + isInNetEx("2001:db8::5", "2001:db8::/32") + ":1; PROXY " + isInNetEx("10.1.2.3", "10.0.0.0/8") +
    ":2; PROXY " + isInNetEx("10.1.2.3", "2001:db8::/32") + ":3; PROXY " + isInNetEx(h, "10.0.0.0/8") + ":4"; }
"""
IN_NETS_END = "result PROXY true:1; PROXY true:2; PROXY false:3; PROXY false:4"


def with_families(failures):
    server = Server(by_family)
    found = server.resolved(*BY_FAMILY, *PATIENT)
    compare(failures, "both families", found, (FAMILY_REPORT, 0))
    wanted = [f"{name}{kind}" for kind in (" AAAA", "") for name in FAMILIES]
    if list(server.questions) != wanted or counts_of(server) != {1} or not server.is_sound():
        failures.append(f"both families: the questions were {dict(server.questions)}")
    for name, (make, end, status) in FAMILY_SERVERS.items():
        server = Server(make)
        options = ONE_TRY if status else PATIENT
        compare(failures, name, server.resolved(ALL_ADDRESSES, [B6], *options), (report((B6, *end)), status))
        if not server.is_sound():
            failures.append(f"{name}: the questions were {dict(server.questions)}")
    found = Server(by_family).resolved(TRUE_ADDRESSES, [B6], *PATIENT)
    compare(failures, "the addresses in their order", found, (report((B6, "result PROXY true:1", 3)), 0))
    server = Server(nothing)
    found = server.resolved(IN_NETS, [B6], *PATIENT)
    compare(failures, "prefixes", found, (report((B6, IN_NETS_END, 1)), 0))
    if server.questions:
        failures.append(f"prefixes: the questions were {dict(server.questions)}")
    return 3 + len(FAMILY_SERVERS)


ADDRESS = """function FindProxyForURL(url, host) {
  if (isPlainHostName(host)) return "DIRECT";
  if (host == "loop.example") while (true);
  return "PROXY " + dnsResolve(host) + ":80";
}
"""
A, B, LOOP, PLAIN = "http://a.example/", "http://b.example/", "http://loop.example/", "http://plain/"
ONE = "10.0.0.1"
DONE, SILENT, DIRECT = (f"result PROXY {ONE}:80", 2), ("unanswered a.example", 1), ("result DIRECT", 1)
SILENT_B = ("unanswered b.example", 1)
# 26 units of fuel are spent before the loop, and then two a turn, the first of them on its condition
SPENT = ("fault F1 FuelSpent at 3:38", 1)


def at_once(asked):
    return [(0, reply(asked.datagram, ONE))]


def silent_of_a(asked):
    return [] if asked.name == "a.example" else at_once(asked)


def noise(asked):
    """Fifty datagrams of any kind. For two names that is less than a socket has room for, even where nobody reads it
    meanwhile, so it keeps the replies that come behind them.
    """
    return [(0, NOISE.randbytes(NOISE.randrange(513))) for _ in range(50)]


def noisy(asked):
    return noise(asked) + [(0.01, reply(asked.datagram, ONE))]


def flood(asked):
    """10,000 empty datagrams, and the reply again and again, since a socket that is full drops some."""
    return [(0, b"")] * 10_000 + [(tenths / 10, reply(asked.datagram, ONE)) for tenths in range(100)]


def from_another_port(asked):
    """A reply from another port than the server's, and then the server's."""
    with bound() as other:
        other.sendto(reply(asked.datagram, "10.9.9.9"), asked.near)
    return [(0.05, reply(asked.datagram, ONE))]


# servers: what they send, the URLs, the options, what each URL comes to, the status, how often each name is asked
QUICK = ["--wait=1", "--tries=3"]
SMALL = {
    "a reply": (at_once, [A, B, A], PATIENT, [DONE, DONE, DONE], 0, {1}),
    "no URL": (at_once, [], PATIENT, [], 0, set()),
    "nobody asked": (at_once, [PLAIN, PLAIN], PATIENT, [DIRECT, DIRECT], 0, set()),
    "a name error": (
        lambda asked: [(0, reply(asked.datagram, None))], [A], PATIENT, [("result PROXY null:80", 2)], 0, {1},
    ),
    "silence": (nothing, [A, PLAIN, A], QUICK, [SILENT, DIRECT, SILENT], 5, {3}),
    "silence for one of two": (silent_of_a, [A, B], ["--wait=15", "--tries=2"], [SILENT, DONE], 5, {1, 2}),
    "a reply after the last try": (lambda asked: [(9, reply(asked.datagram, ONE))], [A], QUICK, [SILENT], 5, {3}),
    "noise": (noisy, [A, B], PATIENT, [DONE, DONE], 0, {1}),
    "noise alone": (noise, [A], QUICK, [SILENT], 5, {3}),
    "a flood of 10,000": (flood, [A], PATIENT, [DONE], 0, {1}),
    "another sender": (from_another_port, [A], PATIENT, [DONE], 0, {1}),
    "a loop beside others": (at_once, [A, LOOP, B], [*PATIENT, "--fuel=1000"], [DONE, SPENT, DONE], 1, {1}),
}


def with_small_batches(failures):
    for name, (make, urls, options, ends, status, times) in SMALL.items():
        server = Server(make)
        expected = report_of(urls, ends), status
        compare(failures, name, server.resolved(ADDRESS, urls, *options), expected)
        if counts_of(server) != times or not server.is_sound():
            failures.append(f"{name}: the questions were {dict(server.questions)}")
    return len(SMALL)


def report_of(urls, ends):
    return report(*((url, *end) for url, end in zip(urls, ends)))


def forged_in(seconds):
    """Another address, so many seconds later."""
    return lambda asked: [(seconds, reply(asked.datagram, "10.9.9.9"))]


def flood_alone(asked):
    return [(0, b"")] * 10_000


def late(asked):
    return [(0.7, reply(asked.datagram, ONE))]


# pairs of servers, None where nobody listens: what they send, the URLs, the options, what each URL comes to, the
# status, how often each name is asked of either, where that is certain, and how many beats of 100 ms it lasts at least
TWICE = [*HALF, "--tries=2"]
SMALL_PAIRS = {
    "the first silent": (nothing, at_once, [A, B, A], HALF, [DONE] * 3, 0, [{1}, {1}], 5),
    "nobody the first": (None, at_once, [A, PLAIN, B], HALF, [DONE, DIRECT, DONE], 0, [set(), {1}], 5),
    "the first silent for one": (silent_of_a, at_once, [A, B], HALF, [DONE, DONE], 0, [{1}, {1}], 5),
    "the second silent for one": (at_once, silent_of_a, [A, B], PATIENT, [DONE, DONE], 0, [{1}, set()], 0),
    "both silent for one": (silent_of_a, silent_of_a, [B, A], TWICE, [DONE, SILENT], 5, [{1}, {1}], 15),
    "both silent": (nothing, nothing, [A, PLAIN, B], QUICK, [SILENT, DIRECT, SILENT_B], 5, [{2}, {1}], 7),
    "nobody at all": (None, None, [A, PLAIN, B], QUICK, [SILENT, DIRECT, SILENT_B], 5, [set(), set()], 7),
    "the second sooner": (forged_in(1.5), at_once, [A], HALF, [DONE], 0, [{1}, {1}], 5),
    "the first sooner": (late, forged_in(1), [A], HALF, [DONE], 0, [{1}, {1}], 7),
    "both flooding": (flood, flood, [A, B], ["--wait=1", "--tries=8"], [DONE, DONE], 0, None, 0),
    "both flooding without a reply": (flood_alone, flood_alone, [A, B], QUICK, [SILENT, SILENT_B], 5, None, 0),
    "both with noise": (noise, noisy, [A, B], HALF, [DONE, DONE], 0, [{1}, {1}], 5),
}


def see(failures, name, servers, found, expected, times):
    """Compares what was found beside servers, and how often each of them was asked for a name, where that is told."""
    compare(failures, name, found, expected)
    if times and times != list(map(counts_of, servers)) or not are_sound(servers):
        failures.append(f"{name}: the questions were {[dict(server.questions) for server in servers]}")


def with_small_pairs(failures):
    for name, (first, other, urls, options, ends, status, times, beats) in SMALL_PAIRS.items():
        servers = two(first, other)
        found, taken = resolved_by(servers, ADDRESS, urls, *options)
        see(failures, name, servers, found, (report_of(urls, ends), status), times)
        see_time(failures, name, taken, beats)
    return len(SMALL_PAIRS)


def with_other_sockets(failures):
    """What is sent to the first server is answered by the second one, which was not asked, and taken; or by a third
    address, and not taken.
    """
    other = Server(nothing)
    servers = [Server(at_once, other.socket), other]
    found, _ = resolved_by(servers, ADDRESS, [A, B], *PATIENT)
    see(failures, "the second for the first", servers, found, (report_of([A, B], [DONE, DONE]), 0), [{1}, set()])
    with bound() as third:
        servers = [Server(at_once, third), Server(at_once, third)]
        found, _ = resolved_by(servers, ADDRESS, [A, B], *QUICK)
        expected = report_of([A, B], [SILENT, SILENT_B]), 5
        see(failures, "a third for both", servers, found, expected, [{2}, {1}])
    return 2


def with_a_dead_name(failures):
    """One URL waits for a.example in vain; the other one comes to want it when it is dead, and a reply comes late."""
    script = """function FindProxyForURL(url, host) {
      if (host != "a.example") { dnsResolve("b.example"); dnsResolve("c.example"); }
      return "PROXY " + dnsResolve("a.example") + ":80";
    }
    """
    # beats are tenths of a second: a.example is dead after 4 s, and c.example, which is asked after 2 s, would be after 6
    delays = {"a.example": 4.5, "b.example": 2.0, "c.example": 3.0}
    server = Server(lambda asked: [(delays[asked.name], reply(asked.datagram, ONE))])
    found = server.resolved(script, [A, "http://x.example/"], "--wait=40", "--tries=1")
    expected = report((A, *SILENT), ("http://x.example/", "unanswered a.example", 3))
    compare(failures, "a dead name", found, (expected, 5))
    return 1


# a script that counts to a million while it is loaded, and asks 32 names, each of which is a run more
LONG_LOAD = """for (var i = 0; i < 1000000; i++);
function FindProxyForURL(u, h) { for (var k = 0; k < 32; k++) dnsResolve("h" + k + ".example"); return "PROXY n" + i; }
"""


def with_a_long_load(failures):
    """8,448 runs, which would be more than an hour if each of them loaded the script."""
    server = Server(lambda asked: [(0, reply(asked.datagram, None))])
    urls, expected = [A] * 256, (report(*[(A, "result PROXY n1000000", 33)] * 256), 0)
    try:
        found = server.beside(lambda port: resolve(port, LONG_LOAD, urls, *PATIENT, seconds=60))
        compare(failures, "a long load", found, expected)
    except subprocess.TimeoutExpired:
        failures.append("a long load: 256 URLs have not ended within a minute")
    if set(server.questions) != {f"h{k}.example" for k in range(32)} or counts_of(server) != {1}:
        failures.append(f"a long load: the questions were {dict(server.questions)}")
    return 1


def without_a_server(failures):
    port = free_port()
    expected = report_of([PLAIN, A, B], [DIRECT, SILENT, SILENT_B])
    compare(failures, "a refused port", resolve(port, ADDRESS, [PLAIN, A, B], *QUICK), (expected, 5))
    failed = (b"fault link\n", 6)
    compare(failures, "a server that nothing can be sent to", resolve_at(EVERYBODY, ADDRESS, [PLAIN, A]), failed)
    found = resolve(port, ADDRESS, [PLAIN, A], f"--second={EVERYBODY}", "--wait=1")
    compare(failures, "a second server that nothing can be sent to", found, failed)
    expected = report((PLAIN, *DIRECT))
    compare(failures, "a refused port that nobody wants", resolve(port, ADDRESS, [PLAIN]), (expected, 0))
    bad = (b"refused batch 2 BadUrl\n", 4)
    compare(failures, "a refused batch", resolve(port, ADDRESS, [A, "mailto:a@example.com"]), bad)
    many = (b"refused batch 257 TooMany\n", 4)
    compare(failures, "257 URLs", resolve(port, ADDRESS, [A] * 257), many)
    return 6


def main():
    failures = []
    parts = [with_scripted_servers, with_pairs, beside_a_silent_server, with_dnsmasq, with_small_batches]
    parts += [with_small_pairs, with_other_sockets, with_a_dead_name, with_a_long_load, without_a_server, with_families]
    count = sum(part(failures) for part in parts)
    for failure in failures:
        print(f"checks/resolve: {failure}")
    print(f"checks/resolve: {count} passed" if not failures else f"checks/resolve: {len(failures)} failed of {count}")
    return 1 if failures else 0


if __name__ == "__main__":
    sys.exit(main())
