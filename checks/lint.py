"""Runs `pac-lint` on the samples of docs/LINT.md and on scripts of its own, and compares what it writes.

On that page each entry has samples: what stands behind *Listed* comes to the lines below it and status 1, and what
stands behind *Instead* to nothing and status 0. Of the scripts below, each rule has one that it lists and a near one
that it doesn't; one of many parts within one another is listed in little of the stack. Nothing at all is written to
standard error.
"""
import os
import re
import subprocess
import sys
import tempfile

from stack import NESTED, NESTING, TWICE, nested, small_stack

PROGRAM = "crates/pac_lint/out/pac_lint"
PAGE = "docs/LINT.md"
USAGE = b"usage: pac-lint FILE\n"
# a script that has no such function stands in one, in its second line
BEFORE, AFTER = "function FindProxyForURL(url, host) {\n", "\n}\n"


def read(name):
    with open(name, encoding="utf-8") as file:
        return file.read()


def whole(sample):
    return sample if "FindProxyForURL" in sample else BEFORE + sample + AFTER


def written(words, **options):
    """What the program writes and its status; None where it says something on standard error."""
    found = subprocess.run([PROGRAM, *words], capture_output=True, timeout=60, check=False, **options)
    return (found.stdout, found.returncode) if not found.stderr else None


def listed(script, room):
    """The lines of a script's findings, and the status."""
    path = os.path.join(room, "script.pac")
    with open(path, "wb") as file:
        file.write(script if isinstance(script, bytes) else script.encode())
    found = written([path])
    return found and (found[0].decode().splitlines(), found[1])


def expected(lines):
    return lines, 1 if lines else 0


# ---- the page


def entries():
    """The heading of each entry with what stands below it."""
    return re.findall(r"^### ([^\n]*)\n(.*?)(?=^#|\Z)", read(PAGE), re.M | re.S)


def samples(entry):
    """Each sample with its lines, none where it isn't listed."""
    for _, text, lines in re.findall(r"^- \*\*Listed\*\*: (`+)(.*)\1\n((?:  - `.*`\n)+)", entry, re.M):
        yield text.strip(), re.findall(r"^  - `(.*)`$", lines, re.M)
    for text in re.findall(r"^- \*\*Instead\*\*: `(.*)`$", entry, re.M):
        yield text, []


def page_faults(room):
    """What is wrong with the page, and how many samples it has."""
    faults, count = [], 0
    for heading, entry in entries():
        found = list(samples(entry))
        count += len(found)
        if not any(lines for _, lines in found):
            faults.append(f"{PAGE}: {heading}: no sample that is listed")
        for sample, lines in found:
            now = listed(whole(sample), room)
            if now != expected(lines):
                faults.append(f"{PAGE}: {heading}: {sample!r} comes to {now!r} in place of {lines!r}")
    if not entries():
        faults.append(f"{PAGE}: no entries")
    return faults, count


# ---- scripts, each with the places and names that are listed of it, and no others

RULES = [
    # names: those that the script declares anywhere aren't listed, and those of an object's own aren't either
    ("return Dat();", ["2:8: Dat"]),
    ("return Date();", ["2:8: Date"]),
    ("var Date = host; return Date;", []),
    ("function f() { return Map; } return f(); function Map() { }", []),
    ("found = host; return found;", []),
    ("return found; function set() { found = host; }", []),
    ("for (name in { a: 1 }) return name; return host;", []),
    ("try { throw host; } catch (window) { return window; } return host;", []),
    ("var f = function JSON() { return JSON; }; return host;", []),
    ("return typeof myIpAddressEx == 'undefined' ? host : url;", ["2:15: myIpAddressEx"]),
    ("return dnsResolveEx(host) + isResolvableEx(host);", []),
    ("return getClientVersion() + sortIpAddressList(host);", ["2:8: getClientVersion", "2:29: sortIpAddressList"]),
    ("return new dnsResolveEx(host);", ["2:12: dnsResolveEx"]),
    ("return undefined === null ? host : url;", []),
    ("return navigator.userAgent + document.title;", ["2:8: navigator", "2:30: document"]),
    # properties: by name alone, or by the object before them
    ("return host.sort();", ["2:12: sort"]),
    ("return host['sort']();", []),
    ("var o = { sort: host }; return o.sort;", []),
    ("var o = {}; o.sort = host; return o.sort;", []),
    ("return host.sorted;", []),
    ("return Math.max(1, 2) + Math.pow(1, 2);", ["2:29: Math.pow"]),
    ("var o = { pow: host }; return o.pow;", []),
    ("return Object.keys({ a: 1 }).length + Object.values({ a: 1 }).length;", ["2:45: Object.values"]),
    # `new`
    ("return new Number(1) + new Array(1) + new Boolean(true);", ["2:12: Number", "2:43: Boolean"]),
    # patterns
    ("return shExpMatch(url, 'a[bc]');", ["2:24: a[bc]"]),
    ("return shExpMatch(url, 'a|b');", ["2:24: a|b"]),
    ("return shExpMatch(url, '*.a?c');", []),
    ("return shExpMatch('(a)', host);", []),
    ("return dnsDomainIs(host, '(a)');", []),
    # nets
    ("return isInNet(host, '10.0.0', '255.0.0.0');", ["2:22: 10.0.0"]),
    ("return isInNet(host, '10.0.0.0', '/8');", ["2:34: /8"]),
    ("return isInNet(host, '10.0.0.256', '255.0.0');", ["2:22: 10.0.0.256", "2:36: 255.0.0"]),
    ("return isInNet('10', '10.0.0.0', '255.0.0.0');", []),
    # prefixes
    ("return isInNetEx(host, '10.0.0.0');", ["2:24: 10.0.0.0"]),
    ("return isInNetEx(host, '2001:db8::', '32');", ["2:24: 2001:db8::"]),
    ("return isInNetEx('::1', '::/0');", []),
    # schemes
    ("return url.substring(0, 7) == 'gopher:';", ["2:31: gopher:"]),
    ("return url.substring(0, 6) == 'https:';", []),
    ("return url.indexOf('file://') == 0;", ["2:20: file://"]),
    ("return url.indexOf('ws://') == 0;", []),
    ("return shExpMatch(url, 'news:*');", ["2:24: news:*"]),
    ("return host == 'file://';", []),
]

# whole scripts: ends of functions, all findings of one in their order, and scripts that aren't read
WHOLE = [
    (b"", []),
    (b"var FindProxyForURL = function (url, host) { };", []),
    (b"var f = function (x) { if (x) return x; };", ["1:9: function"]),
    (b"function FindProxyForURL(url, host) { throw url; }", []),
    (b"function FindProxyForURL(url, host) { for (;;) { } }", []),
    (b"function FindProxyForURL(url, host) { for (;;) { break; } }", ["1:1: FindProxyForURL"]),
    (b"function FindProxyForURL(url, host) { if (url) return host; else return url; }", []),
    (b"function FindProxyForURL(url, host) { switch (url) { case host: return url; } }", ["1:1: FindProxyForURL"]),
    (b"function FindProxyForURL(url, host) { switch (url) { case host: default: return url; } }", []),
    (b"function FindProxyForURL(url, host) { try { return url; } finally { alert(host); } }", []),
    (b"function FindProxyForURL(url, host) { return; }", ["1:1: FindProxyForURL"]),
    (b"function FindProxyForURLEx(url, host) { }", ["1:1: FindProxyForURLEx"]),
    (b"function FindProxyForURLEx(url, host) { return host; }", []),
    (b"function FindProxyForURLs(url, host) { }", []),
    (
        b"function FindProxyForURL(url, host) {\n"
        b"  var now = new Date();\n"
        b"  if (host.endsWith('.a') || Math.random() > 0)\n"
        b"    return shExpMatch(host, '(a|b)') ? 'DIRECT' : proxy(JSON);\n"
        b"  if (isInNet(host, '10/8', '255.0.0.0')) return eval;\n"
        b"}\n"
        b"function later() { return f(1); }\n",
        ["1:1: FindProxyForURL", "2:17: Date", "3:11: endsWith", "3:34: Math.random", "4:29: (a|b)", "4:51: proxy",
         "4:57: JSON", "5:21: 10/8", "5:50: eval", "7:27: f"],
    ),
    (b"\0\1\2\xff\xfe", ["1:1: BadToken"]),
    (b"\x7fELF\2\1\1\0", ["1:1: BadToken"]),
    (b"<html><body>", ["1:1: Unexpected"]),
    (b"\xef\xbb\xbffunction FindProxyForURL(url, host) { return 'DIRECT'; }", []),
    (b"var a = 1;\r\nvar b = 1.5;\r\n", ["2:9: FractionLiteral"]),
    (b"var a = 1;\r\rlet b = 2;", ["3:5: Unexpected"]),
    (b"var t = `a`;", ["1:9: BadToken"]),
    (b"/* a", ["1:1: BadToken"]),
    (b"var n = 99999999999999999999;", ["1:9: BadToken"]),
    (b"(" * 300, ["1:200: TooDeep"]),
]


def script_faults(room):
    """What is wrong with what the program says of the scripts above, and how many these are."""
    faults = []
    cases = [(whole(f"{script} return host;").encode(), names) for script, names in RULES] + WHOLE
    for script, names in cases:
        found = listed(script, room)
        wanted = [re.escape(name) + ": [ -~]+" for name in names]
        if not found or found[1] != (1 if names else 0) or len(found[0]) != len(wanted) or \
                not all(map(re.fullmatch, wanted, found[0])):
            faults.append(f"{script!r} comes to {found!r} in place of {names!r}")
    return faults, len(cases)


# ---- files and words

# the examples of which something is listed, each with its places and names
LISTED_EXAMPLES = {"by_clock": ["3:14: Date", "3:20: getHours"]}


def example_faults(_):
    """What is wrong with what the program says of examples/, and how many scripts stand there."""
    faults = []
    names = sorted(name.removesuffix(".pac") for name in os.listdir("examples") if name.endswith(".pac"))
    for name in names:
        text, status = written([f"examples/{name}.pac"]) or (b"?", None)
        found = [line.rpartition(": ")[0] for line in text.decode().splitlines()]
        wanted = LISTED_EXAMPLES.get(name, [])
        if (found, status) != (wanted, 1 if wanted else 0):
            faults.append(f"examples/{name}.pac comes to {text!r} with status {status} in place of {wanted!r}")
    return faults, len(names)


def word_faults(room):
    """What is wrong with what the program says of files that it can't read, of other words, and to a full device."""
    long = os.path.join(room, "long.pac")
    with open(long, "wb") as file:
        file.write(b" " * 1_048_577)
    cases = [
        ([], (USAGE, 2)),
        (["--help"], (USAGE, 2)),
        (["examples/direct.pac", "examples/direct.pac"], (USAGE, 2)),
        ([b"\xff"], (USAGE, 2)),
        ([room], (b"fault read script\n", 3)),
        ([os.path.join(room, "absent.pac")], (b"fault read script\n", 3)),
        ([long], (b"refused script TooLong\n", 4)),
        ([os.devnull], (b"", 0)),
        (["examples/direct.pac"], (b"", 0)),
    ]
    faults = [f"{words} comes to {written(words)!r} in place of {wanted!r}" for words, wanted in cases
              if written(words) != wanted]
    with open("/dev/full", "wb") as full:
        for name, wanted in [("by_clock", 7), ("direct", 0)]:
            found = subprocess.run([PROGRAM, f"examples/{name}.pac"], stdout=full, timeout=60, check=False)
            if found.returncode != wanted:
                faults.append(f"examples/{name}.pac > /dev/full has status {found.returncode} in place of {wanted}")
    return faults, len(cases) + 2


def nested_faults(room):
    """What is wrong in a stack of 1 MB with scripts of nearly as many parts within one another as there may be."""
    scripts = {name: nested(NESTING, *shape) for name, shape in NESTED.items()}
    scripts |= {name: nested(NESTING // 2, *shape) for name, shape in TWICE.items()}
    path = os.path.join(room, "nested.pac")
    faults = []
    for name, script in scripts.items():
        with open(path, "w", encoding="ascii") as file:
            file.write(script)
        found = written([path], preexec_fn=small_stack)
        # of the names that such a script reads, nothing declares these
        lines = rb"(?:1:\d+: [abf]: nothing of this name is declared or built in\n)*"
        if not found or not re.fullmatch(lines, found[0]) or found[1] != (1 if found[0] else 0):
            faults.append(f"{name} within one another come to {found!r}")
    return faults, len(scripts)


def main():
    # builds the program where the gate left none
    subprocess.run(["./pac-lint", "examples/direct.pac"], stdout=subprocess.DEVNULL, check=False)
    faults, count = [], 0
    with tempfile.TemporaryDirectory() as room:
        for part in [page_faults, script_faults, example_faults, word_faults, nested_faults]:
            found, more = part(room)
            faults += found
            count += more
    for fault in faults:
        print(f"checks: {fault}")
    print("checks of the lint:", f"{len(faults)} faults of {count}" if faults else f"{count} passed")
    return 1 if faults else 0


if __name__ == "__main__":
    sys.exit(main())
