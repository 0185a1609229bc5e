"""Asks through `pac ask` and `pac resolve` beside servers whose replies over UDP are truncated, so that the program
asks over TCP: servers that answer there, cut their answers into octets, close too soon, are silent, forge or flood.

The commands are run as `./pac`, or as the words of the environment's PAC. With the word --played the servers are asked
by a resolver of this file, which shows that they do what the table says of them.
"""
import contextlib
import select
import socket
import sys
import threading
import time

import dns
import resolve
from dns import HALF, PATIENT, UNANSWERED, bound, compare, second, see_time
from resolve import ADDRESS, DONE, ONE, SILENT, A, B, name_in, question, reply, report_of

QUICK = ["--wait=1", "--tries=3"]
# the flags of a response that is truncated, and of one that isn't
TRUNCATED, WHOLE = 0x8380, 0x8180
LONGEST = 65_535


def sixty(asked):
    """The reply to a question with sixty addresses, the first of them 10.0.0.1."""
    records = (bytes.fromhex("c00c000100010000003c0004") + bytes([10, 0, 0, last]) for last in range(1, 61))
    return asked[:2] + WHOLE.to_bytes(2, "big") + bytes([0, 1, 0, 60, 0, 0, 0, 0]) + asked[12:] + b"".join(records)


def truncated(asked):
    """The response without records that says that its records didn't fit."""
    return asked[:2] + TRUNCATED.to_bytes(2, "big") + bytes([0, 1, 0, 0, 0, 0, 0, 0]) + asked[12:]


def another_number(asked):
    return reply(bytes([asked[0] ^ 1]) + asked[1:], "10.9.9.9")


def another_name(asked):
    return reply(asked, "10.9.9.9").replace(b"\x07example", b"\x07exbmple")


def framed(*messages):
    """Messages, each behind its length (RFC 1035, section 4.2.2)."""
    return b"".join(len(message).to_bytes(2, "big") + message for message in messages)


def taken(connection, count):
    """So many octets of a connection; less at its end."""
    octets = b""
    while len(octets) < count:
        piece = connection.recv(count - len(octets))
        if not piece:
            break
        octets += piece
    return octets


def next_message(connection):
    """The message of the next frame of a connection, and nothing at its end."""
    return taken(connection, int.from_bytes(taken(connection, 2), "big"))


# What a server sends over UDP for a question and its turn, from 1 for each name.
def always(asked, turn):
    return [truncated(asked)]


def first_alone(asked, turn):
    """The name goes on by UDP: its first question has a truncated response, and the next ones a reply."""
    return [truncated(asked)] if turn == 1 else [reply(asked, ONE)]


def twice(asked, turn):
    return [truncated(asked)] * 2


def nothing(asked, turn):
    return []


def of_another(asked, turn):
    """Truncated responses of another number, of another name, that are questions, and that have no question."""
    yield truncated(bytes([asked[0] ^ 1]) + asked[1:])
    yield truncated(asked).replace(b"\x07example", b"\x07exbmple")
    yield asked[:2] + bytes([asked[2] | 2]) + asked[3:]
    yield truncated(asked)[:4] + bytes(8) + asked[12:]


def answers_a(asked, turn):
    """A name is truncated where it isn't b.example."""
    return [reply(asked, ONE)] if name_in(asked) == "b.example" else [truncated(asked)]


# What a server does with a question over TCP.
def whole(connection, asked):
    connection.sendall(framed(sixty(asked)))


def octet_by_octet(connection, asked):
    """One octet a packet."""
    for octet in framed(reply(asked, ONE)):
        connection.sendall(bytes([octet]))
        time.sleep(0.002)


def cut_in_halves(connection, asked):
    """The length and the message are cut too, the pause is longer than a beat."""
    octets = framed(sixty(asked))
    for piece in (octets[:1], octets[1:7], octets[7:600], octets[600:]):
        connection.sendall(piece)
        time.sleep(0.25)


def silent(connection, asked):
    """Sends nothing, and keeps the connection."""


def closes(connection, asked):
    connection.shutdown(socket.SHUT_RDWR)


def closes_in_the_length(connection, asked):
    connection.sendall(framed(reply(asked, ONE))[:1])
    closes(connection, asked)


def closes_in_the_middle(connection, asked):
    connection.sendall(framed(reply(asked, ONE))[:30])
    closes(connection, asked)


def closes_behind_the_reply(connection, asked):
    whole(connection, asked)
    closes(connection, asked)


def resets(connection, asked):
    """Ends the connection with a packet that is an error for the other end."""
    connection.setsockopt(socket.SOL_SOCKET, socket.SO_LINGER, bytes([1, 0, 0, 0, 0, 0, 0, 0]))
    connection.close()


def sends(make):
    """Sends the messages that are made of a question, all at once."""
    return lambda connection, asked: connection.sendall(framed(*make(asked)))


def forged(asked):
    return [another_number(asked), another_name(asked), truncated(asked), b"", b"\0", bytes(11)]


def lengths(asked):
    """Messages of no octets, of one, of one less than a header has, and of the most."""
    return [b"", b"\0", bytes(11), bytes(LONGEST), asked, reply(asked, ONE)]


def longest(asked):
    """Octets behind the records are of no matter, so this is a reply."""
    return [reply(asked, ONE) + bytes(LONGEST - len(reply(asked, ONE)))]


def floods_then_replies(connection, asked):
    connection.sendall(framed(*[b""] * 10_000, reply(asked, ONE)))


def floods(connection, asked):
    """Empty messages until nobody reads any more."""
    with contextlib.suppress(OSError):
        while True:
            connection.sendall(bytes(4096))


def floods_with_long_ones(connection, asked):
    with contextlib.suppress(OSError):
        while True:
            connection.sendall(framed(bytes(LONGEST)))


class Server:
    """A server over UDP and, on the same port, over TCP, where it has a way to answer there. Keeps the questions of
    both, and the connections.
    """

    def __init__(self, over_udp, over_tcp):
        self.over_udp, self.over_tcp, self.is_done = over_udp, over_tcp, threading.Event()
        self.socket, self.listener = both_bound() if over_tcp else (bound(), None)
        self.port = self.socket.getsockname()[1]
        self.questions, self.streamed, self.connections, self.threads = [], [], [], []

    def __enter__(self):
        self.socket.settimeout(0.05)
        self.socket.setsockopt(socket.SOL_SOCKET, socket.SO_RCVBUF, 1 << 20)
        self.begin(self.hear)
        if self.listener:
            self.listener.settimeout(0.05)
            self.begin(self.accept)
        return self

    def __exit__(self, *_):
        self.is_done.set()
        for connection in self.connections:
            with contextlib.suppress(OSError):
                connection.shutdown(socket.SHUT_RDWR)
        for thread in self.threads:
            thread.join()
        for each in (self.socket, self.listener, *self.connections):
            if each:
                each.close()

    def begin(self, call, *words):
        thread = threading.Thread(target=call, args=words, daemon=True)
        self.threads.append(thread)
        thread.start()

    def hear(self):
        while not self.is_done.is_set():
            with contextlib.suppress(OSError):
                asked, near = self.socket.recvfrom(512)
                self.questions.append(asked)
                for piece in self.over_udp(asked, self.questions.count(asked)):
                    self.socket.sendto(piece, near)

    def accept(self):
        while not self.is_done.is_set():
            with contextlib.suppress(OSError):
                connection, _ = self.listener.accept()
                connection.settimeout(None)
                connection.setsockopt(socket.IPPROTO_TCP, socket.TCP_NODELAY, 1)
                self.connections.append(connection)
                self.begin(self.talk, connection)

    def talk(self, connection):
        """Treats one question of a connection after the other, until it is closed."""
        with contextlib.suppress(OSError):
            while asked := next_message(connection):
                self.streamed.append(asked)
                self.over_tcp(connection, asked)


def both_bound():
    """A UDP socket and a listener of one port of loopback, which is free for both."""
    while True:
        near = bound()
        listener = socket.socket()
        try:
            listener.bind(near.getsockname())
            listener.listen()
            return near, listener
        except OSError:
            near.close()
            listener.close()


@contextlib.contextmanager
def full(server):
    """The listener of a server takes no connection any more: the one that it keeps waiting is the last one."""
    with socket.socket() as listener, contextlib.ExitStack() as waiting:
        listener.bind(("127.0.0.1", server.port))
        listener.listen(0)
        for _ in range(4):
            near = waiting.enter_context(socket.socket())
            near.setblocking(False)
            near.connect_ex(listener.getsockname())
        time.sleep(0.1)
        yield


# What a server does over UDP and over TCP, the options, what is written, the status; how many questions come by UDP,
# and how many by TCP.
GOOD = (b"address 10.0.0.1\n", 0)
SILENCE = (UNANSWERED, 5)
ASKED = {
    "sixty addresses": (always, whole, PATIENT, GOOD, 1, 1),
    "truncated twice": (twice, whole, PATIENT, GOOD, 1, 1),
    "one octet a packet": (always, octet_by_octet, PATIENT, GOOD, 1, 1),
    "cut, with pauses": (always, cut_in_halves, PATIENT, GOOD, 1, 1),
    "closed behind the reply": (always, closes_behind_the_reply, PATIENT, GOOD, 1, 1),
    "refused": (first_alone, None, HALF, GOOD, 2, 0),
    "refused, and always truncated": (always, None, QUICK, SILENCE, 3, 0),
    "no answer over TCP": (first_alone, silent, HALF, GOOD, 2, 1),
    "no answer over TCP, and always truncated": (always, silent, QUICK, SILENCE, 3, 1),
    "closed at once": (first_alone, closes, HALF, GOOD, 2, 1),
    "closed in the length": (first_alone, closes_in_the_length, HALF, GOOD, 2, 1),
    "closed in the middle": (first_alone, closes_in_the_middle, HALF, GOOD, 2, 1),
    "closed in the middle, and always truncated": (always, closes_in_the_middle, QUICK, SILENCE, 3, 1),
    "reset": (first_alone, resets, HALF, GOOD, 2, 1),
    "forged, then the reply": (always, sends(lambda asked: [*forged(asked), reply(asked, ONE)]), PATIENT, GOOD, 1, 1),
    "forged alone": (always, sends(forged), QUICK, SILENCE, 3, 1),
    "truncated over TCP too": (always, sends(lambda asked: [truncated(asked)]), QUICK, SILENCE, 3, 1),
    "two frames at once": (always, sends(lambda asked: [b"", reply(asked, ONE)]), PATIENT, GOOD, 1, 1),
    "the reply, then another": (
        always, sends(lambda asked: [reply(asked, ONE), reply(asked, "10.9.9.9")]), PATIENT, GOOD, 1, 1,
    ),
    "a name error over TCP": (always, sends(lambda asked: [reply(asked, None)]), PATIENT, (b"no address\n", 0), 1, 1),
    "lengths of all kinds": (always, sends(lengths), PATIENT, GOOD, 1, 1),
    "a message of the greatest length": (always, sends(longest), PATIENT, GOOD, 1, 1),
    "10,000 empty frames": (always, floods_then_replies, PATIENT, GOOD, 1, 1),
    "a flood of empty frames": (always, floods, QUICK, SILENCE, 3, 1),
    "a flood of long frames": (always, floods_with_long_ones, QUICK, SILENCE, 3, 1),
    "truncated for nobody": (of_another, whole, QUICK, SILENCE, 3, 0),
}


def counted(failures, name, server, questions, streamed):
    """Compares how many questions came, and whether those of the stream are those that came by UDP."""
    came = len(server.questions), len(server.streamed)
    if came != (questions, streamed) or not set(server.streamed) <= set(server.questions):
        failures.append(f"{name}: {came} questions came by UDP and TCP in place of {(questions, streamed)}")


def with_truncating_servers(failures, ask):
    for name, (over_udp, over_tcp, options, expected, questions, streamed) in ASKED.items():
        with Server(over_udp, over_tcp) as server:
            compare(failures, name, ask(server.port, "a.example", *options), expected)
        counted(failures, name, server, questions, streamed)
    return len(ASKED)


def with_two_servers(failures, ask):
    """Whichever server's response is truncated, the stream goes to the first one."""
    with Server(nothing, whole) as first, Server(always, closes) as other:
        found = ask(first.port, "a.example", second(other.port), *HALF)
        compare(failures, "the second truncates", found, GOOD)
    if (len(first.streamed), len(other.streamed)) != (1, 0) or first.streamed != other.questions:
        failures.append(f"the second truncates: the streams had {first.streamed} and {other.streamed}")
    with Server(always, silent) as first, Server(lambda asked, turn: [reply(asked, ONE)], silent) as other:
        found = ask(first.port, "a.example", second(other.port), *HALF)
        compare(failures, "the second answers by UDP", found, GOOD)
    counted(failures, "the second answers by UDP", first, 1, 1)
    return 2


def without_a_connection(failures, ask):
    """A connection that nobody takes lasts a second, and the name goes on by UDP."""
    with Server(first_alone, None) as server, full(server):
        begun = time.monotonic()
        compare(failures, "no connection", ask(server.port, "a.example", "--wait=2"), GOOD)
        see_time(failures, "no connection", time.monotonic() - begun, 10)
    counted(failures, "no connection", server, 2, 0)
    return 1


# what a server does over UDP and over TCP, the options, what each of the URLs of a.example and b.example comes to, the
# status, how many questions come by UDP and TCP, and over how many connections
BATCHES = {
    "both truncated": (always, whole, PATIENT, [DONE, DONE], 0, 2, 2, 1),
    "one truncated": (answers_a, whole, PATIENT, [DONE, DONE], 0, 2, 1, 1),
    "one truncated, and no answer over TCP": (answers_a, silent, ["--wait=3", "--tries=2"], [SILENT, DONE], 5, 3, 1, 1),
    "one truncated, and refused": (answers_a, None, ["--wait=3", "--tries=2"], [SILENT, DONE], 5, 3, 0, 0),
}


def with_batches(failures, batch):
    for name, (over_udp, over_tcp, options, ends, status, questions, streamed, connections) in BATCHES.items():
        with Server(over_udp, over_tcp) as server:
            found = batch(server.port, ADDRESS, [A, B], *options)
        compare(failures, name, found, (report_of([A, B], ends), status))
        counted(failures, name, server, questions, streamed)
        if len(server.connections) != connections:
            failures.append(f"{name}: there were {len(server.connections)} connections in place of {connections}")
    return len(BATCHES)


def with_both_families(failures, batch):
    """A name whose responses are truncated in both families is asked twice over one stream."""
    addresses = dict(zip(["both.example", "both.example AAAA"], resolve.FAMILIES["both.example"]))
    with Server(always, sends(lambda asked: [reply(asked, addresses[name_in(asked)])])) as server:
        found = batch(server.port, resolve.ALL_ADDRESSES, [resolve.B6], *PATIENT)
    compare(failures, "both families", found, (report_of([resolve.B6], [resolve.WHOLE_6]), 0))
    counted(failures, "both families", server, 2, 2)
    if [name_in(asked) for asked in server.streamed] != [*addresses][::-1] or len(server.connections) != 1:
        failures.append(f"both families: {server.streamed} came over {len(server.connections)} connections")
    return 1


def with_the_large_batch(failures, batch):
    """All 266 names of 256 URLs are truncated, and answered over one stream: at once, or in an order of chance. A busy
    machine may drop a datagram, so that a name is asked once more by UDP.
    """

    def at_once(connection, asked):
        connection.sendall(framed(reply(asked, resolve.ADDRESSES[name_in(asked)])))

    def by_chance(connection, asked):
        threading.Timer(resolve.NOISE.random() * 0.08, at_once, [connection, asked]).start()

    for name, over_tcp in {"at once": at_once, "after up to 80 ms": by_chance}.items():
        with Server(always, over_tcp) as server:
            found = batch(server.port, *resolve.LARGE, *resolve.LOSSY)
        compare(failures, f"256 URLs, {name}", found, (resolve.LARGE_REPORT, 0))
        names = {name_in(asked) for asked in server.streamed}
        if names != set(resolve.ADDRESSES) or len(server.streamed) != len(names) or len(server.connections) != 1:
            failures.append(f"256 URLs, {name}: {len(server.streamed)} frames in {len(server.connections)} streams")
    return 2


class Resolver:
    """Asks two servers for names as the program is to: it sends again, counts beats, and asks over TCP once for each
    name whose response is truncated.
    """

    def __init__(self, port, names, *options):
        values = dict(option[2:].split("=") for option in options)
        self.wait, self.tries = int(values.get("wait", 10)), int(values.get("tries", 4))
        self.servers = [("127.0.0.1", port), ("127.0.0.1", int(values.get("second", f":{port}").split(":")[1]))]
        self.questions = {name: question(number, name) for number, name in enumerate(names, 1)}
        self.ages, self.answers, self.framed = dict.fromkeys(names, 0), {}, set()
        self.socket, self.stream, self.unfinished, self.count = bound(), None, b"", 0

    def run(self):
        """The answers, None for no address; a name without one is given up."""
        for asked in self.questions.values():
            self.socket.sendto(asked, self.servers[0])
        while self.ages:
            self.step(*self.event())
        self.socket.close()
        self.end()
        return self.answers

    def event(self):
        """What comes next: a message over UDP or TCP, nothing of either, or a tick."""
        ready, _, _ = select.select([each for each in (self.socket, self.stream) if each], [], [], 0.1)
        if self.socket in ready:
            return self.socket.recv(513), False, True
        if self.stream not in ready:
            return b"", True, False
        return self.piece(), False, False

    def piece(self):
        """The message that the next piece of the stream ends, or nothing."""
        length = 2 + int.from_bytes(self.unfinished[:2], "big") if len(self.unfinished) > 1 else 2
        try:
            octets = self.stream.recv(min(length - len(self.unfinished), 512))
        except OSError:
            octets = b""
        if not octets:
            self.end()
            return b""
        self.unfinished += octets
        if len(self.unfinished) < 2 or len(self.unfinished) < 2 + int.from_bytes(self.unfinished[:2], "big"):
            return b""
        message, self.unfinished = self.unfinished[2:], b""
        return message

    def end(self):
        if self.stream:
            self.stream.close()
        self.stream, self.unfinished = None, b""

    def step(self, message, is_tick, is_datagram):
        self.count = 0 if is_tick else self.count + 1
        for name in [name for name in self.ages if message[:2] == self.questions[name][:2]]:
            self.hear(name, message, is_datagram)
        if is_tick or self.count % 4096 == 0:
            self.beat()

    def hear(self, name, message, is_datagram):
        asked, flags = self.questions[name], message[2:4]
        if message[12 : len(asked)] != asked[12:] or message[4:6] != b"\0\1" or flags[0] & 0xF8 != 0x80:
            return
        if flags[0] & 2 and is_datagram and name not in self.framed:
            self.framed.add(name)
            self.send(framed(asked))
        if flags[0] & 2 == 0 and flags[1] & 15 in (0, 3):
            self.answers[name] = self.address_in(name, message[len(asked) + 12 :]) if flags[1] & 15 == 0 else None
            del self.ages[name]

    @staticmethod
    def address_in(name, data):
        """The address of the asked type at the front of a record's data."""
        is_6 = name.endswith(" AAAA")
        return socket.inet_ntop(socket.AF_INET6 if is_6 else socket.AF_INET, data[: 16 if is_6 else 4])

    def send(self, octets):
        try:
            if self.stream is None:
                self.stream = socket.create_connection(self.servers[0], timeout=1)
            self.stream.sendall(octets)
        except OSError:
            self.end()

    def beat(self):
        for name, age in list(self.ages.items()):
            self.ages[name] = age + 1
            if age + 1 == self.wait * (2**self.tries - 1):
                del self.ages[name]
            for place in range(1, self.tries):
                if age + 1 == self.wait * (2**place - 1):
                    self.socket.sendto(self.questions[name], self.servers[place % 2])


def played_ask(port, name, *options):
    """What `pac ask` is to write."""
    answers = Resolver(port, [name], *options).run()
    if name not in answers:
        return f"unanswered {name}\n".encode(), 5
    return (f"address {answers[name]}\n" if answers[name] else "no address\n").encode(), 0


def played_batch(port, script, urls, *options):
    """What `pac resolve` is to write of the scripts of this file."""
    hosts = [url.split("/")[2] for url in urls]
    if script == ADDRESS:
        answers = Resolver(port, hosts, *options).run()
        told = {name: (f"result PROXY {address}:80", 2) for name, address in answers.items()}
        ends = [told.get(name, (f"unanswered {name}", 1)) for name in hosts]
        return report_of(urls, ends), 0 if len(answers) == len(hosts) else 5
    if script == resolve.ALL_ADDRESSES:
        answers = Resolver(port, [f"{hosts[0]} AAAA", hosts[0]], *options).run()
        told = [(f"result PROXY [{answers.get(f'{name} AAAA')}]:80; PROXY {answers.get(name)}:80", 3) for name in hosts]
        return report_of(urls, told), 0
    answers = Resolver(port, [*resolve.ADDRESSES], *options).run()
    return (resolve.LARGE_REPORT, 0) if answers == resolve.ADDRESSES else (repr(answers).encode(), 5)


def main():
    failures, is_played = [], "--played" in sys.argv[1:]
    ask, batch = (played_ask, played_batch) if is_played else (dns.ask, resolve.resolve)
    count = sum(part(failures, ask) for part in [with_truncating_servers, with_two_servers, without_a_connection])
    count += sum(part(failures, batch) for part in [with_batches, with_both_families, with_the_large_batch])
    for failure in failures:
        print(f"checks/streams: {failure}")
    print(f"checks/streams: {count} passed" if not failures else f"checks/streams: {len(failures)} failed of {count}")
    return 1 if failures else 0


if __name__ == "__main__":
    sys.exit(main())
