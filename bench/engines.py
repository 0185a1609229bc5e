"""The program and two JavaScript engines, each as whole processes on the same scripts, with their times and peaks.

The engines are duktape and MuJS (Debian packages); one that is missing is named and left out. They get the functions of
the proxy format as users of such engines write them, shExpMatch by a regular expression among them.
"""
import os
import shutil
import subprocess
import sys
import time

TOP = os.path.dirname(os.path.dirname(os.path.abspath(__file__)))
MOMENT = "1700000000"
URL, HOST = "http://www.example.org/news/today", "www.example.org"
FUEL = "1000000000"
# URLs for which the rules of a company ask nobody
PLAIN = [
    ("http://intranet/", "intranet"),
    ("http://wiki.example.com/start", "wiki.example.com"),
    ("ftp://files.example.org/a", "files.example.org"),
    ("http://eu.updates.example.net/", "eu.updates.example.net"),
]

HELPERS = r"""
var NOW = new Date(MOMENT * 1000);
function isPlainHostName(host) { return host.indexOf(".") < 0; }
function dnsDomainIs(host, domain) {
  return host.length >= domain.length && host.substring(host.length - domain.length) == domain;
}
function shExpMatch(text, pattern) {
  var escaped = pattern.replace(/[.+^${}()|\[\]\\]/g, "\\$&").replace(/\*/g, ".*").replace(/\?/g, ".");
  return new RegExp("^" + escaped + "$").test(text);
}
function dnsResolve(host) { return NAMES.hasOwnProperty(host) ? NAMES[host] : null; }
function bits(quad) {
  var parts = quad.split(".");
  return (parts[0] << 24) | (parts[1] << 16) | (parts[2] << 8) | parts[3];
}
function isInNet(host, pattern, mask) {
  var address = /^\d+\.\d+\.\d+\.\d+$/.test(host) ? host : dnsResolve(host);
  return address != null && (bits(address) & bits(mask)) == (bits(pattern) & bits(mask));
}
function weekdayRange(first, last) {
  var days = ["SUN", "MON", "TUE", "WED", "THU", "FRI", "SAT"];
  var today = NOW.getUTCDay(), from = days.indexOf(first), to = days.indexOf(last);
  return from <= to ? from <= today && today <= to : from <= today || today <= to;
}
""".replace("MOMENT", MOMENT)


def company():
    """The rules of a company."""
    with open(os.path.join(TOP, "examples", "company.pac"), encoding="ascii") as file:
        return file.read()


def program():
    """The program that `./pac` runs, which is built first where it has to be; or that of the environment's PAC."""
    if "PAC" in os.environ:
        return os.environ["PAC"]
    find = '. tools/build.sh pac && find_program && echo "$program"'
    found = subprocess.run(["bash", "-c", find], cwd=TOP, stdin=subprocess.DEVNULL, stdout=subprocess.PIPE, text=True)
    if found.returncode != 0:
        sys.exit("there is no program")
    return found.stdout.rstrip("\n")


def engines():
    """The path of each engine that is there, by its name."""
    paths = {name: shutil.which(name) for name in ("duk", "mujs")}
    for name in paths:
        if paths[name] is None:
            print(f"{name} is missing, its figures are left out")
    return {name: path for name, path in paths.items() if path}


def called(script, names, urls):
    """What an engine runs: a script with the functions of the format, and calls for URLs and their hosts."""
    table = ", ".join(f'"{name}": "{address}"' if address else f'"{name}": null' for name, address in names.items())
    calls = ", ".join(f'["{url}", "{host}"]' for url, host in urls)
    return f"""{HELPERS}var NAMES = {{{table}}};
{script}
var calls = [{calls}];
for (var i = 0; i < calls.length; i++) print(FindProxyForURL(calls[i][0], calls[i][1]));
"""


def written(folder, name, text):
    """The path of a new file."""
    path = os.path.join(folder, name)
    with open(path, "w", encoding="ascii") as file:
        file.write(text)
    return path


def one_call(folder, script, found):
    """The words that run a script for one URL in the program and in each engine, which prints the result."""
    theirs = written(folder, "called.js", f"{script}print(FindProxyForURL('{URL}', '{HOST}'));\n")
    ours = [program(), "resolve", written(folder, "script.pac", script), URL, "--fuel", FUEL]
    return [ours, *([path, theirs] for path in found.values())]


def finished(words):
    """The seconds of a process, and what the system tells of its use."""
    nothing = [(os.POSIX_SPAWN_OPEN, 1, os.devnull, os.O_WRONLY, 0)]
    start = time.perf_counter()
    child = os.posix_spawn(words[0], words, os.environ, file_actions=nothing)
    _, status, usage = os.wait4(child, 0)
    seconds = time.perf_counter() - start
    if status != 0:
        sys.exit(f"{words} ended with {os.waitstatus_to_exitcode(status)}")
    return seconds, usage


def run(words):
    """The seconds of a process, and its peak in megabytes, which the system tells as no less than that of this one."""
    seconds, usage = finished(words)
    return seconds, usage.ru_maxrss / 1024


def processor_seconds(words):
    """The seconds that a process had a processor, which tell of less than a millisecond where others run beside it."""
    _, usage = finished(words)
    return usage.ru_utime + usage.ru_stime


def best(commands, rounds, seconds=lambda words: run(words)[0]):
    """The best seconds of each command, the commands in turn."""
    runs = [[seconds(words) for words in commands] for _ in range(rounds)]
    return [min(column) for column in zip(*runs)]


def results(words):
    """The result of each URL: those of a report, or the lines that an engine prints."""
    lines = subprocess.run(words, stdout=subprocess.PIPE, check=True).stdout.decode().splitlines()
    marked = [line.removeprefix("result ") for line in lines if line.startswith("result ")]
    return marked or lines


def agree(commands):
    """Ends this measuring where the commands don't come to the same results."""
    first, *others = [results(words) for words in commands]
    for words, found in zip(commands[1:], others):
        if found != first:
            sys.exit(f"{commands[0]} and {words} come to different results")


def verdict(is_met):
    return "met" if is_met else "NOT MET"


def comparison(times):
    """Whether the program's time, which stands first, is below those of the engines, where one is there."""
    return f"; below the engines: {verdict(times[0] < min(times[1:]))}" if times[1:] else ""
