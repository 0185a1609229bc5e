"""Asks examples/squid_helper.py as Squid does, and through Squid itself, by the lines of squid.conf in
docs/EMBEDDING.md.

Without squid (a Debian package) its part says 'skipped'. The program is the one that the gate built.
"""
import http.client
import http.server
import os
import re
import shutil
import socket
import subprocess
import sys
import tempfile
import threading
import time

from examples import PROGRAM

HELPER = "examples/squid_helper.py"
BY_NETWORK = ["map", "examples/by_network.pac", "--names", "examples/by_network.names"]
# what Squid writes, and what the helper answers, by the report of examples/by_network.pac
DIRECT = "OK proxy=DIRECT proxies=DIRECT"
PROXY = "OK proxy=PROXY:proxy.example.com:8080 proxies=PROXY:proxy.example.com:8080"
NO_ADDRESS = "OK proxy=PROXY:names.example.com:8080 proxies=PROXY:names.example.com:8080"
BAD_URL = "BH message=BadUrl"
LINES = [
    (["http://wiki.example.com/start -", "https://www.example.org/"], [DIRECT, PROXY]),
    (["7 http://wiki.example.com/start -", "0 https://www.example.org/ a b"], [f"7 {DIRECT}", f"0 {PROXY}"]),
    (["3 www.example.org:443 -", "4 [::1]:443 -"], [f"3 {PROXY}", f"4 {NO_ADDRESS}"]),
    (["5 www.example.org:65536 -", "6 http://wiki.example.com/ -"], [f"5 {BAD_URL}", f"6 {DIRECT}"]),
    (["http://wiki.example.com/", "ldap://a.example/", "https://www.example.org/"], [DIRECT, BAD_URL, PROXY]),
    (["", "-", "gopher://a.example/", "8 -", "http://wiki.example.com/"], [BAD_URL] * 3 + [f"8 {BAD_URL}", DIRECT]),
    # a line of its own in the batch, a byte that is no UTF-8, and a URL of one byte too many
    (["1 http://wiki.example.com/%0Aget%20http://a.example/ -"], [f"1 {BAD_URL}"]),
    (["1 http://wiki.example.com/%FF -", "2 http://wiki.example.com/ -"], ["1 BH message=BadLine", f"2 {DIRECT}"]),
    (["http://wiki.example.com/" + "x" * 8169], [BAD_URL]),
    # a line that no batch has room for
    (["http://wiki.example.com/" + "x" * 1_100_000, "http://wiki.example.com/"], [BAD_URL, DIRECT]),
    (["http://wiki.example.com/" + "x" * 8168] * 20, [DIRECT] * 20),
]
# what is said of scripts for http://a.example/%20
SCRIPTS = [
    ('return "PROXY p" + url.length + ":80; DIRECT";', "OK proxy=PROXY:p20:80 proxies=PROXY:p20:80,DIRECT"),
    ("return 'SOCKS a,b\"%\\\\'", "OK proxy=SOCKS:a%2Cb%22%25%5C:1080 proxies=SOCKS:a%2Cb%22%25%5C:1080"),
    ('return "SOCKS5 [::1]";', "OK proxy=SOCKS5:[::1]:1080 proxies=SOCKS5:[::1]:1080"),
    ("alert('url 1 x'); return 1 / 0;", "BH message=fault%20F11%20DivisionByZero%20at%201%3A66"),
    ("dnsResolve(host);", "BH message=unanswered%20a.example"),
    ("return /(?=a)/;", "BH message=refused%20script%201%3A46%20Unsupported"),
]
# words that write no report, and how the message begins
WORDS = [
    ([PROGRAM, "map"], "usage"),
    ([PROGRAM, "resolve", "examples"], "fault%20read%20script"),
    ([PROGRAM, "resolve", "examples/absent.pac"], "fault%20read%20script"),
    (["./absent", "map"], "%5BErrno%202%5D"),
    (["false", "map"], "status%201"),
]


def expect(failures, name, found, wanted):
    if found != wanted:
        failures.append(f"{name}: {found!r} in place of {wanted!r}")


def free_port(kind=socket.SOCK_STREAM):
    with socket.socket(socket.AF_INET, kind) as near:
        near.bind(("127.0.0.1", 0))
        return near.getsockname()[1]


def answers(words, lines):
    """What the helper answers to lines that come at once."""
    text = "".join(f"{line}\n" for line in lines)
    command = [sys.executable, HELPER, *words]
    found = subprocess.run(command, input=text, stdout=subprocess.PIPE, text=True, timeout=120, check=True)
    return found.stdout.splitlines()


def of_lines(failures):
    for lines, wanted in LINES:
        expect(failures, f"{lines[0][:60]!r} and {len(lines) - 1} more", answers([PROGRAM, *BY_NETWORK], lines), wanted)
    return len(LINES)


def of_scripts(failures, room):
    path = os.path.join(room, "script.pac")
    silent = ["--server", f"127.0.0.1:{free_port(socket.SOCK_DGRAM)}", "--wait=1", "--tries=1"]
    for body, wanted in SCRIPTS:
        with open(path, "w", encoding="ascii") as file:
            file.write(f"function FindProxyForURL(url, host) {{ {body} }}\n")
        found = answers([PROGRAM, "resolve", path, *silent], ["http://a.example/%2520"] * 2)
        expect(failures, body, found, [wanted] * 2)
    for words, start in WORDS:
        found = answers(words, ["2 http://a.example/ -"])
        expect(failures, words, [it.startswith(f"2 BH message={start}") for it in found], [True])
    return len(SCRIPTS) + len(WORDS)


def starts_rarely(failures, room):
    """600 lines that come at once are three batches."""
    log = os.path.join(room, "starts")
    counted = ["sh", "-c", f'echo >>"{log}"; exec "$@"', "sh", PROGRAM, *BY_NETWORK]
    found = answers(counted, [f"{place} http://wiki.example.com/{place} -" for place in range(600)])
    expect(failures, "600 lines", found, [f"{place} {DIRECT}" for place in range(600)])
    expect(failures, "their starts", os.path.getsize(log), 3)
    return 2


def answers_at_once(failures):
    """Each line is answered before the next one comes, also one that comes in pieces; at the end the helper ends."""
    command = [sys.executable, HELPER, PROGRAM, *BY_NETWORK]
    # as Squid starts it: what is to come at once isn't so by the environment
    places = {name: value for name, value in os.environ.items() if name != "PYTHONUNBUFFERED"}
    helper = subprocess.Popen(command, bufsize=0, stdin=subprocess.PIPE, stdout=subprocess.PIPE, env=places)
    limit = threading.Timer(60, helper.kill)
    limit.start()
    for piece in [b"1 http://wiki.ex", b"ample.com/ -\n2"]:
        helper.stdin.write(piece)
        time.sleep(0.2)
    expect(failures, "a line in pieces", helper.stdout.readline(), f"1 {DIRECT}\n".encode())
    helper.stdin.write(b" https://www.example.org/ -\n")
    expect(failures, "the next line", helper.stdout.readline(), f"2 {PROXY}\n".encode())
    helper.stdin.close()
    expect(failures, "at the end", helper.wait(), 0)
    limit.cancel()
    return 3


class Place(http.server.ThreadingHTTPServer):
    """A server of loopback that answers each request by its name, and keeps the requests."""

    class Handler(http.server.BaseHTTPRequestHandler):
        def do_GET(self):
            self.server.seen.append(self.requestline)
            self.send_response(200)
            self.send_header("Content-Length", str(len(self.server.name)))
            self.end_headers()
            self.wfile.write(self.server.name)

        def do_CONNECT(self):
            self.server.seen.append(self.requestline)
            self.send_response(200)
            self.end_headers()

        def log_message(self, *_):
            pass

    def __init__(self, name):
        super().__init__(("127.0.0.1", 0), Place.Handler)
        self.name, self.seen = name, []
        threading.Thread(target=self.serve_forever, daemon=True).start()


# The script sees a URL as it was asked for, signs and all. The last proxy has no line in the settings.
DIRECTLY, BY_PROXY, BY_NO_ANSWER, BY_NONE = "/direct?a=%25%20b&{c}|~", "/proxy", "/fault", "/none"
RULES = """function FindProxyForURL(url, host) {
  var path = url.substring(url.indexOf("/", 7));
  if (path == "/direct?a=%%25%%20b&{c}|~") return "DIRECT";
  if (path == "/fault") return 1 / 0;
  if (path == "/none") return "PROXY none.example:80; DIRECT";
  return "PROXY 127.0.0.1:%d; DIRECT";
}
"""
# what the page doesn't say: one process, in the foreground, with its files in one folder
BESIDE = """http_port 127.0.0.1:{near}
pinger_enable off
acl localnet src 127.0.0.1
cache deny all
cache_log {room}/cache.log
access_log none
pid_filename none
coredump_dir {room}
shutdown_lifetime 0 seconds
visible_hostname localhost
"""


def settings(room, near, proxy):
    """The settings of the page, with this script, program and proxy."""
    with open("docs/EMBEDDING.md", encoding="utf-8") as file:
        lines = re.search(r"^```squid\n(.*?)^```", file.read(), re.M | re.S)[1]
    map_words = f"map {room}/rules.pac --names /dev/null"
    for before, after in [("resolve /opt/pac/company.pac --server 192.0.2.1", map_words), ("/opt/pac/", f"{room}/"),
                          ("proxy1.example.com:8080", f"127.0.0.1:{proxy}"),
                          ("proxy1.example.com parent 8080", f"127.0.0.1 parent {proxy}")]:
        if before not in lines:
            raise LookupError(f"docs/EMBEDDING.md: no {before!r} in squid.conf")
        lines = lines.replace(before, after)
    return BESIDE.format(near=near, room=room) + lines


def asked_of(near, method, target):
    """The status and the body of what Squid answers, or nothing where it isn't there."""
    connection = http.client.HTTPConnection("127.0.0.1", near, timeout=60)
    try:
        connection.request(method, target)
        answer = connection.getresponse()
        return answer.status, answer.read() if method == "GET" else b""
    except ConnectionRefusedError:
        return None
    finally:
        connection.close()


def through_squid(failures, room):
    program = shutil.which("squid", path=os.environ.get("PATH", "") + ":/usr/sbin")
    if program is None:
        print("checks/squid: squid is missing, its part is skipped")
        return 0
    # Squid works as a user of its own
    os.chmod(room, 0o777)
    shutil.copy(PROGRAM, os.path.join(room, "pac"))
    shutil.copy(HELPER, room)
    near, origin, proxy = free_port(), Place(b"origin"), Place(b"proxy")
    for name, text in [("rules.pac", RULES % proxy.server_port),
                       ("squid.conf", settings(room, near, proxy.server_port))]:
        with open(os.path.join(room, name), "w", encoding="ascii") as file:
            file.write(text)
    log = os.path.join(room, "log")
    with open(log, "wb") as file:
        squid = subprocess.Popen([program, "-N", "-f", f"{room}/squid.conf"], stdout=file, stderr=file)
    try:
        return beside_squid(failures, near, origin, proxy)
    finally:
        squid.kill()
        squid.wait(timeout=20)


def beside_squid(failures, near, origin, proxy):
    there = f"127.0.0.1:{origin.server_port}"
    for _ in range(300):
        if asked_of(near, "GET", f"http://{there}{BY_NO_ANSWER}") is not None:
            break
        time.sleep(0.1)
    rows = [("GET", f"http://{there}{DIRECTLY}", (200, b"origin")), ("CONNECT", there, (200, b"")),
            ("GET", f"http://{there}{BY_PROXY}", (200, b"proxy"))]
    for method, target, wanted in rows:
        expect(failures, f"{method} {target}", asked_of(near, method, target), wanted)
    refused = [asked_of(near, "GET", f"http://{there}{path}") or (None, b"") for path in [BY_NO_ANSWER, BY_NONE]]
    expect(failures, "no answer, and no proxy", [status // 100 for status, _ in refused], [4, 5])
    expect(failures, "what is asked directly", origin.seen, [f"GET {DIRECTLY} HTTP/1.1"])
    expect(failures, "what the proxy is asked", proxy.seen,
           [f"CONNECT {there} HTTP/1.1", f"GET http://{there}{BY_PROXY} HTTP/1.1"])
    return len(rows) + 3


def main():
    failures = []
    count = of_lines(failures) + answers_at_once(failures)
    for part in [of_scripts, starts_rarely, through_squid]:
        with tempfile.TemporaryDirectory(dir="/tmp") as room:
            count += part(failures, room)
    for failure in failures:
        print(f"checks: squid: {failure}")
    print("checks of squid:", f"{len(failures)} failed of {count}" if failures else f"{count} passed")
    return 1 if failures else 0


if __name__ == "__main__":
    sys.exit(main())
