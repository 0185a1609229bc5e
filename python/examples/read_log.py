#!/usr/bin/env python3
"""Counts by which proxies the URLs of a log go: read_log.py SCRIPT [LOG]

Of each line of the log the first word with `://` is the URL, as in the access logs of proxies; lines without any are
passed over. Each name is looked up once.
"""
import collections
import functools
import os
import sys

sys.path.insert(0, os.path.join(os.path.dirname(os.path.abspath(__file__)), ".."))
import pac


def urls(lines):
    for line in lines:
        url = next((word for word in line.split() if b"://" in word), None)
        if url:
            yield url


def outcome(script, url, resolve):
    """The proxies of a URL in one line, or why it has none."""
    try:
        answer = pac.find_proxy(script, url, resolve=resolve)
    except (pac.Refused, OSError) as error:
        return f"! {error}"
    return "; ".join(map(str, answer.proxies)) or f"! {answer.fault}"


def main():
    if len(sys.argv) not in (2, 3):
        sys.exit(__doc__)
    with open(sys.argv[1], "rb") as file:
        script = file.read()
    resolve = functools.lru_cache(maxsize=None)(pac.look_up)
    with open(sys.argv[2] if len(sys.argv) == 3 else sys.stdin.fileno(), "rb") as log:
        counts = collections.Counter(outcome(script, url, resolve) for url in urls(log))
    for text, count in counts.most_common():
        print(f"{count:8} {text}")


if __name__ == "__main__":
    main()
