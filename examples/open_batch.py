"""A batch that is kept open: the program was started for it, has read its script, and waits for URLs."""
import contextlib
import subprocess
import time

# The most URLs of a batch.
MOST_URLS = 256


class OpenBatch:
    """A batch for the words of `pac map` or `pac resolve`, but for `--batch`."""

    def __init__(self, words):
        pipes = {"stdin": subprocess.PIPE, "stdout": subprocess.PIPE, "encoding": "utf-8"}
        self.program = subprocess.Popen([*words, "--batch", "/dev/stdin"], **pipes)
        self.moment = self.count = 0

    def add(self, url):
        """Puts a URL into the batch, at the present moment."""
        if not url.isprintable():
            raise ValueError("a URL with control characters")
        if self.count == MOST_URLS:
            raise ValueError("the batch is full")
        self.count += 1
        # the moments of a batch never fall, though a clock may
        self.moment = max(self.moment, int(time.time()))
        # a program that has ended says at the close why
        with contextlib.suppress(BrokenPipeError):
            self.program.stdin.write(f"at {self.moment}\nget {url}\n")

    def close(self):
        """The exit status, and what is written of the batch: a report where the status is 0, 1 or 5."""
        written, _ = self.program.communicate()
        return self.program.returncode, written
