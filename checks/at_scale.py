"""Runs the example of docs/AT-SCALE.md by PySpark in local mode, and compares what it writes; without PySpark it says
'skipped'.

What is expected is said by the script of this check: each host has a result of its own.
"""
import importlib.util
import os
import subprocess
import sys
import tempfile

SCRIPT = """function FindProxyForURL(url, host) {
  if (host == "host7.example") return missing;
  return "PROXY " + host + ":80";
}
"""
FAULT = "fault F13 Uncaught at 2:39 ReferenceError: missing is not defined"
COUNT = 1_000


def example():
    """The one block of the document that is written in Python."""
    with open("docs/AT-SCALE.md", encoding="utf-8") as file:
        _, block = file.read().split("```python\n")
    return block.split("```\n")[0]


def written(folder, name, text):
    path = os.path.join(folder, name)
    with open(path, "w", encoding="utf-8") as file:
        file.write(text)
    return path


def answers(folder):
    """The lines of all parts of the answers, in the order of their names."""
    lines = []
    for name in sorted(os.listdir(folder)):
        if name.startswith("part-"):
            with open(os.path.join(folder, name), encoding="utf-8") as file:
                lines += file.read().splitlines()
    return lines


def main():
    if importlib.util.find_spec("pyspark") is None:
        print("checks of at_scale: pyspark is missing, skipped")
        return 0
    urls = [f"http://host{n}.example/" for n in range(COUNT)]
    wanted = [f"{url}\tresult PROXY host{n}.example:80" for n, url in enumerate(urls)]
    urls[8], wanted[8] = "gopher://host8.example/", "\trefused url 9 BadUrl"
    wanted[7] = f"{urls[7]}\t{FAULT}"
    with tempfile.TemporaryDirectory() as folder:
        words = [written(folder, name, text) for name, text in
                 [("example.py", example()), ("a script", SCRIPT), ("names", ""), ("urls", "\n".join(urls) + "\n")]]
        words.insert(1, os.getcwd())
        environment = {**os.environ, "PYSPARK_SUBMIT_ARGS": "--master local[2] pyspark-shell"}
        ran = subprocess.run([sys.executable, *words, os.path.join(folder, "answers")], env=environment,
                             stdout=subprocess.PIPE, stderr=subprocess.STDOUT, timeout=600)
        if ran.returncode != 0:
            print(f"checks: the example of docs/AT-SCALE.md failed: {ran.stdout.decode(errors='replace')}")
            return 1
        found = answers(os.path.join(folder, "answers"))
    if found != wanted:
        print(f"checks: the example of docs/AT-SCALE.md wrote {found[:12]!r} .. in place of {wanted[:12]!r} ..")
        return 1
    print(f"checks of at_scale: passed, {COUNT} URLs")
    return 0


if __name__ == "__main__":
    sys.exit(main())
