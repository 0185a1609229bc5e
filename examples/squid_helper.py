#!/usr/bin/env python3
"""Answers Squid which proxies to try for a URL: a helper of its directive `external_acl_type`.

    squid_helper.py PROGRAM WORDS..

WORDS are those of `pac map` or `pac resolve` for a batch, but for `--batch`. Each line of Squid is a URL as `%#>ru`
writes it, behind the number of its channel where `concurrency=` is set. The lines that are there at once are a batch,
for which the program is run once. A URL with a result is answered by OK, with its first proxy as `proxy` and with all
of them, in the order in which to try them, as `proxies`. Any other one is answered by BH and what the program said of
it, so that Squid goes neither to a proxy nor directly to the host by a guess. `docs/EMBEDDING.md` has the lines of
squid.conf.
"""
import os
import re
import subprocess
import sys
from urllib.parse import quote, unquote_to_bytes

# The most URLs of a batch, and the most bytes of a URL.
MOST_URLS = 256
LONGEST_URL = 8192
# The most bytes that are read at once. A batch may have sixteen times as many.
PIECE = 65536
# The exit statuses of a call that writes a report.
GOOD, SCRIPT_FAULT, UNANSWERED = 0, 1, 5


def channel_and_url(line):
    """The channel that a line begins with, with its blank, and the URL. What Squid writes behind it isn't read."""
    channel, word = re.match(rb"(\d+ )?(\S*)", line).groups(default=b"")
    url = unquote_to_bytes(word)
    # of a connection that is only handed on, Squid knows host and port
    return channel, b"https://%s/" % url if re.fullmatch(rb"[^/]+:\d+", url) else url


def is_line(url):
    """Whether a URL can stand in a batch: without control characters, since it could write lines of its own by them."""
    return len(url) <= LONGEST_URL and re.fullmatch(rb"[^\x00-\x1f\x7f]+", url) is not None


def failed(text):
    return f"BH message={quote(text)}"


def answer_in(block):
    """The answer by the lines of one URL of a report."""
    # a value of Squid has no blanks
    proxies = [quote(entry.replace(" ", ":"), safe=":[]") for entry in re.findall(r"^try (.*)$", block, re.M)]
    if proxies:
        return f"OK proxy={proxies[0]} proxies={','.join(proxies)}"
    return failed(re.search(r"^(?:fault|unanswered) .*$", block, re.M)[0])


def answers_in(report, status, count):
    """The answers to the URLs of a batch, or, where the program wrote no report, one and the same for all."""
    blocks = re.split(r"^url .*\n", report, flags=re.M)
    if status in (GOOD, SCRIPT_FAULT, UNANSWERED) and len(blocks) == count + 1:
        return [answer_in(block) for block in blocks[1:]]
    return [failed(report.strip() or f"status {status}")] * count


def run(words, urls):
    """What the program writes for a batch of these URLs, and its status."""
    batch = b"".join(b"get %s\n" % url for url in urls)
    try:
        ran = subprocess.run([*words, "--batch", "/dev/stdin"], input=batch, stdout=subprocess.PIPE, check=False)
    except OSError as error:
        return str(error), None
    return ran.stdout.decode("ascii", "replace"), ran.returncode


def answers_to(words, urls):
    """The answer to each URL. One that refuses the batch is answered alone, and the others are asked for again."""
    answers = [None if is_line(url) else failed("BadUrl") for url in urls]
    while places := [place for place, answer in enumerate(answers) if answer is None]:
        report, status = run(words, [urls[place] for place in places])
        refused = re.fullmatch(r"refused batch (\d+) (\w+)\n", report)
        if refused:
            answers[places[int(refused[1]) - 1]] = failed(refused[2])
            continue
        for place, answer in zip(places, answers_in(report, status, len(places))):
            answers[place] = answer
    return answers


def main(words):
    # Where PYTHONUNBUFFERED is set, sys.stdout drops what is left of a write that is cut short.
    out, rest = open(1, "wb", closefd=False), b""
    while piece := os.read(sys.stdin.fileno(), PIECE):
        *lines, rest = (rest + piece).split(b"\n")
        for first in range(0, len(lines), MOST_URLS):
            channels, urls = zip(*map(channel_and_url, lines[first : first + MOST_URLS]))
            for channel, answer in zip(channels, answers_to(words, urls)):
                out.write(channel + answer.encode() + b"\n")
            out.flush()


if __name__ == "__main__":
    if len(sys.argv) < 3:
        sys.exit("usage: squid_helper.py PROGRAM WORDS..")
    main(sys.argv[1:])
