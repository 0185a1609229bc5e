"""What the package gives for scripts, URLs and names, good and bad ones."""
import os
import socket
import subprocess
import sys
import threading
import unittest
from unittest import mock

import pac

TOP = os.path.dirname(os.path.dirname(os.path.dirname(os.path.abspath(__file__))))
EXAMPLES = os.path.join(TOP, "examples")
DIRECT = 'function FindProxyForURL(url, host) { return "DIRECT"; }'
ADDRESS = 'function FindProxyForURL(url, host) { return "PROXY " + dnsResolve(host) + ":80"; }'
BOTH = 'function FindProxyForURLEx(url, host) { return dnsResolveEx(host) + " " + dnsResolve(host); }'
TWO = """function FindProxyForURL(url, host) {
  alert("of " + host); return isResolvable("b.example") ? "PROXY " + dnsResolve(host) : "DIRECT"; }"""
A = "http://a.example/"
TUESDAY = 1700000000


def contents(name):
    with open(os.path.join(EXAMPLES, name), "rb") as file:
        return file.read()


def never(name):
    raise AssertionError(f"{name} is asked")


def found(script, url=A, resolve=never, **settings):
    return pac.find_proxy(script, url, resolve=resolve, **settings)


class Answers(unittest.TestCase):
    def test_examples_come_to_their_reports(self):
        names = sorted(name.removesuffix(".url") for name in os.listdir(EXAMPLES) if name.endswith(".url"))
        self.assertGreater(len(names), 5)
        for name in names:
            has_names = os.path.exists(os.path.join(EXAMPLES, f"{name}.names"))
            zone = 300 if name == "by_time" else 0
            answer = found(contents(f"{name}.pac"), contents(f"{name}.url").strip(), now=TUESDAY, zone_minutes=zone,
                           resolve={}.get, names=contents(f"{name}.names") if has_names else b"")
            lines = [f"url 1 {answer.url}", *(f"alert {text}" for text in answer.alerts), f"result {answer.result}",
                     *(f"try {proxy}" for proxy in answer.proxies), "runs 1", ""]
            self.assertEqual("\n".join(lines).encode(), contents(f"{name}.report"), name)

    def test_an_answer_has_all_that_is_known(self):
        addresses = {"b.example": "10.0.0.2", "a.example": "10.0.0.1"}
        self.assertEqual(found(TWO, resolve=addresses.get), pac.Answer(
            url=A, result="PROXY 10.0.0.1", proxies=(pac.Proxy("PROXY", "10.0.0.1", 80),), fault=None,
            alerts=("of a.example",), names={name: (address,) for name, address in addresses.items()}))

    def test_names_are_looked_up_in_their_order_and_once(self):
        asked = []
        answer = found(TWO, resolve=lambda name: asked.append(name))
        self.assertEqual((asked, answer.names, answer.result), (["b.example"], {"b.example": ()}, "DIRECT"))
        asked.clear()
        answer = found(TWO, resolve=lambda name: asked.append(name) or "10.0.0.3", names="# told\nb.example 10.0.0.2")
        self.assertEqual((asked, answer.result), (["a.example"], "PROXY 10.0.0.3"))
        self.assertEqual(list(answer.names), ["a.example"])

    def test_a_name_is_told_whole(self):
        rows = [
            (("10.0.0.1", "2001:DB8::1"), "2001:db8::1;10.0.0.1 10.0.0.1"),
            (["2001:db8::1", "10.0.0.1"], "2001:db8::1;10.0.0.1 10.0.0.1"),
            ("10.0.0.1", "10.0.0.1 10.0.0.1"),
            (("2001:db8::1",), "2001:db8::1 null"),
            ("fe80::1%1", "fe80::1 null"),
            ((), " null"),
            (None, " null"),
        ]
        for given, result in rows:
            asked = []
            with self.subTest(given=given):
                answer = found(BOTH, resolve=lambda name, given=given, asked=asked: asked.append(name) or given)
                self.assertEqual((answer.result, asked), (result, ["a.example"]))
        for names, result in [("a.example ::1", "::1 null"), ("a.example -", " null"),
                              ("a.example ::1\nA.Example. 10.0.0.1", "::1;10.0.0.1 10.0.0.1")]:
            self.assertEqual(found(BOTH, names=names).result, result)

    def test_a_fault_has_its_place_and_no_proxies(self):
        answer = found("function FindProxyForURL(url, host) {\n  return new Date().getHours() < 12; }")
        self.assertEqual(answer.fault, pac.Fault("F12", "Unsupported", 2, 14, "Date"))
        self.assertEqual((answer.result, answer.proxies, str(answer.fault)), (None, (), "F12 Unsupported at 2:14 Date"))
        answer = found('function FindProxyForURL(u, h) { throw "\\u20ac\\n"; }')
        self.assertEqual(answer.fault, pac.Fault("F13", "Uncaught", 1, 34, "\u20ac\n"))
        self.assertEqual(str(found("").fault), "F14 NoEntry at 0:0")

    def test_texts_stand_as_the_script_has_them(self):
        texts = ["", " a ", "\\u0041", "\n\\\\n", "\u00e9\u20ac\U0001f600", "\0"]
        for text in texts:
            script = f"function FindProxyForURL(u, h) {{ alert({quoted(text)}); return {quoted(text)}; }}"
            answer = found(script)
            self.assertEqual((answer.result, answer.alerts), (text, (text,)))
        self.assertEqual(found(r'function FindProxyForURL(u, h) { return "\ud800a"; }').result, "\ud800a")

    def test_scripts_may_be_bytes_that_are_no_utf_8(self):
        self.assertEqual(found(b'function FindProxyForURL(u, h) { return "\xe9"; }').result, "\u00e9")

    def test_settings_are_handed_on(self):
        self.assertEqual(found('function FindProxyForURL(u, h) { return myIpAddress(); }', my_ip="10.1.2.3").result,
                         "10.1.2.3")
        hour = "function FindProxyForURL(u, h) { return '' + timeRange(22); }"
        results = [found(hour, now=TUESDAY, zone_minutes=minutes).result for minutes in (0, 60, -13, -14)]
        self.assertEqual(results, ["true", "false", "true", "false"])
        self.assertEqual(str(found(DIRECT, fuel=2).fault), "F1 FuelSpent at 0:0")

    def test_long_answers_are_whole(self):
        script = 'function FindProxyForURL(u, h) { for (var t = "a"; t.length < 20000; ) t += t; return t; }'
        self.assertEqual(found(script).result, "a" * 32768)

    def test_threads_get_what_each_gets_alone(self):
        hosts, results = [f"host{n}.example" for n in range(8)], {}

        def ask(host):
            results[host] = {found(ADDRESS, f"http://{host}/", resolve=lambda name: f"10.0.0.{name[4]}").result
                             for _ in range(100)}

        threads = [threading.Thread(target=ask, args=(host,)) for host in hosts]
        for thread in threads:
            thread.start()
        for thread in threads:
            thread.join()
        self.assertEqual(results, {host: {f"PROXY 10.0.0.{n}:80"} for n, host in enumerate(hosts)})


def quoted(text):
    """A text as a script spells it."""
    units = text.encode("utf-16-be")
    return '"' + "".join(f"\\u{units[at : at + 2].hex()}" for at in range(0, len(units), 2)) + '"'


class Refusals(unittest.TestCase):
    def expect(self, error, line, *arguments, **settings):
        with self.assertRaises(error) as raised:
            found(*arguments, **settings)
        self.assertEqual(str(raised.exception), line)

    def test_each_refusal_has_its_line(self):
        long = " " * 1_048_577
        rows = [
            ("refused script 1:1 BadToken", ["#"], {}),
            ("refused script 1:6 Unexpected", ["f(a)("], {}),
            ("refused script 1:1 BadToken", [b"\xff"], {}),
            ("refused url BadUrl", [DIRECT, ""], {}),
            ("refused url BadUrl", [DIRECT, "gopher://a.example/"], {}),
            ("refused url BadUrl", [DIRECT, b"http://a.example/\xff"], {}),
            ("refused url BadUrl", [DIRECT, "http://a.example/" + "a" * 8192], {}),
            ("refused names 1 BadLine", [DIRECT], {"names": "a.example"}),
            ("refused names 1 BadLine", [DIRECT], {"names": b"\xff 10.0.0.1"}),
            ("refused names 2 Twice", [DIRECT], {"names": "a.example -\nA.example. -"}),
            ("a script or names of more than 1,048,576 bytes", [long], {}),
            ("a script or names of more than 1,048,576 bytes", [DIRECT], {"names": long}),
        ]
        for line, arguments, settings in rows:
            with self.subTest(line=line):
                self.expect(pac.Refused, line, *arguments, **settings)

    def test_settings_out_of_range_are_refused_and_not_cut(self):
        faulty = [{"now": -1}, {"now": 253_370_764_800}, {"now": 1 << 64}, {"fuel": 0}, {"fuel": 1_000_000_001},
                  {"fuel": -1}, {"fuel": (1 << 64) + 1}, {"zone_minutes": 1440}, {"zone_minutes": 1 << 32}]
        for settings in faulty:
            with self.subTest(settings):
                self.expect(pac.Refused, "now, zone_minutes or fuel is out of its range", DIRECT, **settings)
        with self.assertRaises(ValueError):
            found(DIRECT, my_ip="10.0.0")

    def test_a_resolver_that_gives_no_address_is_told_so(self):
        for given in ["10.0.0", "", "-", "10.0.0.1\nb.example 10.0.0.2", "[::1]", 7, ("10.0.0.1", "-"), (None,)]:
            said = self.assertRaisesRegex(ValueError, r"^resolve\('a.example'\) gave no address")
            with self.subTest(given=given), said:
                found(ADDRESS, resolve=lambda _, given=given: given)
        with self.assertRaisesRegex(ValueError, r"^resolve\('a.example'\) gave two addresses of one family: ::1, ::2"):
            found(ADDRESS, resolve=lambda _: ["::1", "::2"])

    def test_what_a_resolver_raises_comes_through(self):
        with self.assertRaises(AssertionError):
            found(ADDRESS)


class OtherCalls(unittest.TestCase):
    def test_check_gives_the_printed_script(self):
        self.assertEqual(pac.check(contents("company.pac")), contents("company.printed").decode())
        self.assertEqual(pac.check(""), "")
        with self.assertRaisesRegex(pac.Refused, "^refused script 2:1 Unexpected$"):
            pac.check("a;\n)")
        with self.assertRaises(pac.Refused):
            pac.check(" " * 1_048_577)

    def test_proxies_gives_the_entries_of_a_list(self):
        proxies = pac.proxies("HTTPS A; socks4 b:9;none ; DIRECT;PROXY [::1]:80")
        self.assertEqual(proxies, (("HTTPS", "a", 443), ("SOCKS", "b", 9), ("DIRECT", "", 0), ("PROXY", "[::1]", 80)))
        self.assertEqual([str(proxy) for proxy in pac.proxies("")], ["DIRECT"])

    def test_look_up_tells_no_address_from_silence(self):
        ends = [(socket.EAI_NONAME, None), (socket.EAI_NODATA, None), (socket.EAI_AGAIN, socket.gaierror)]
        for number, expected in ends:
            with mock.patch("socket.getaddrinfo", side_effect=socket.gaierror(number, "of the test")):
                if expected:
                    self.assertRaises(expected, pac.look_up, "a.example")
                else:
                    self.assertEqual(pac.look_up("a.example"), ())

    def test_look_up_gives_the_first_address_of_each_family(self):
        known = {socket.AF_INET: ["10.0.0.1", "10.0.0.2"], socket.AF_INET6: ["2001:db8::1", "fe80::1%1"]}

        def told(name, port, family):
            if not known.get(family):
                raise socket.gaierror(socket.EAI_NODATA, "of the test")
            return [(family, socket.SOCK_STREAM, 6, "", (address, 0)) for address in known[family]]

        with mock.patch("socket.getaddrinfo", side_effect=told):
            self.assertEqual(pac.look_up("a.example"), ("2001:db8::1", "10.0.0.1"))
            del known[socket.AF_INET]
            self.assertEqual(pac.look_up("a.example"), ("2001:db8::1",))

    def test_the_example_counts_the_urls_of_a_log(self):
        log = b"""1 TCP_MISS/200 GET http://wiki.example.com/start - HIER_DIRECT/-
2 TCP_MISS/200 GET ftp://files.example.org/a - HIER_DIRECT/-
3 TCP_MISS/200 GET http://intranet/ - HIER_DIRECT/-
no URL
4 TCP_MISS/200 GET gopher://a.example/\xff - HIER_DIRECT/-
"""
        words = [sys.executable, os.path.join(TOP, "python", "examples", "read_log.py"), f"{EXAMPLES}/company.pac"]
        ran = subprocess.run(words, input=log, capture_output=True, timeout=60, check=True)
        lines = [(2, "DIRECT"), (1, "PROXY batch.example.com:3128"), (1, "! refused url BadUrl")]
        self.assertEqual(ran.stdout.decode(), "".join(f"{count:8} {text}\n" for count, text in lines))


if __name__ == "__main__":
    unittest.main()
