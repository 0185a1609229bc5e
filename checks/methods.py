"""Methods of regular expressions and of texts in random scripts, beside ECMA-262 5.1 to the letter.

Patterns and texts are those of checks/patterns.py, by a fixed seed; what is done with them is drawn here. The same
script is run by the program and by Node.js, in which the methods are written down by the steps of 15.10.6.2, 15.5.4.10
to 15.5.4.12 and 15.5.4.14: of Node.js itself comes what a pattern matches from a place on. Without it this is skipped.
The program is that of crates/pac_main, or that of the environment's PAC.
"""
import json
import os
import random
import shutil
import subprocess
import sys
import tempfile

import patterns
from examples import PROGRAM

SEED, SCRIPTS, EACH = 15106, 25, 40
# a search that costs more is left out
MOST = 20_000
UNITS = "aaabbcA\n"
PARTS = ["a", "$1", "$2", "$&", "$`", "$'", "$$", "$0", "$", "x", "$9", "$10"]
BEGINS = ["0", "1", "2", "3", "5", "9", "-1", "'1'", "null", "undefined", "{}", "true"]
LIMITS = ["0", "1", "2", "3", "-1"]
HEAD = r"""
function plain(s) { return s.split("\n").join("N"); }
function show(v) {
  if (v === null || typeof v != "object") return typeof v == "string" ? "'" + plain(v) + "'" : "" + v;
  var s = "[";
  for (var i = 0; i < v.length; i++) s += show(v[i]) + ",";
  return s + "]" + v.index + (v.input === undefined ? "" : plain(v.input));
}
function FindProxyForURL() {
  var r = "", p;
"""
LETTER = r"""
const native = RegExp.prototype.exec, split = String.prototype.split;
// the first match from a place on, or that at the place
function found(p, text, from, sticky) {
  const same = new RegExp(p.source, (p.ignoreCase ? "i" : "") + (p.multiline ? "m" : "") + (sticky ? "y" : "g"));
  same.lastIndex = from;
  return native.call(same, text);
}
function integer(v) { v = Number(v); return v !== v ? 0 : v < 0 ? Math.ceil(v) : Math.floor(v); }
// 15.10.6.2
RegExp.prototype.exec = function (text) {
  const S = String(text), last = integer(this.lastIndex), i = this.global ? last : 0;
  const m = i < 0 || i > S.length ? null : found(this, S, i);
  if (m === null) { this.lastIndex = 0; return null; }
  if (this.global) this.lastIndex = m.index + m[0].length;
  return Object.assign([...m], {index: m.index, input: S});
};
RegExp.prototype.test = function (text) { return this.exec(text) !== null; };
// 15.5.4.10, step 8
function all(p, S) {
  const list = [];
  p.lastIndex = 0;
  for (let previous = 0; ;) {
    const m = p.exec(S);
    if (m === null) return list;
    if (p.lastIndex === previous) p.lastIndex = previous = previous + 1;
    else previous = p.lastIndex;
    list.push(m);
  }
}
String.prototype.match = function (p) {
  if (!p.global) return p.exec(this);
  const list = all(p, String(this));
  return list.length ? list.map((m) => m[0]) : null;
};
// 15.5.4.12
String.prototype.search = function (p) { const m = found(p, String(this), 0); return m === null ? -1 : m.index; };
// 15.5.4.11, with groups of one digit
function expanded(by, m, S) {
  const named = {"$": "$", "&": m[0], "`": S.slice(0, m.index), "'": S.slice(m.index + m[0].length)};
  let out = "";
  for (let i = 0; i < by.length; i++) {
    const next = by[i] === "$" ? by[i + 1] : undefined;
    if (next === undefined) { out += by[i]; continue; }
    if (next in named) out += named[next];
    else if (next >= "1" && next <= "9" && Number(next) < m.length) out += m[next] === undefined ? "" : m[next];
    else out += "$" + next;
    i++;
  }
  return out;
}
String.prototype.replace = function (p, by) {
  const S = String(this), list = p.global ? all(p, S) : [p.exec(S)].filter((m) => m !== null);
  let out = "", at = 0;
  for (const m of list) {
    out += S.slice(at, m.index) + expanded(by, m, S);
    at = m.index + m[0].length;
  }
  return out + S.slice(at);
};
// 15.5.4.14
String.prototype.split = function (p, limit) {
  if (typeof p === "string") return split.call(this, p);
  const S = String(this), lim = limit === undefined ? 4294967295 : limit >>> 0, A = [];
  if (lim === 0) return A;
  if (S.length === 0) return found(p, S, 0, true) === null ? [S] : A;
  let from = 0;
  for (let q = 0; q < S.length;) {
    const z = found(p, S, q, true), end = z && z.index + z[0].length;
    if (z === null || end === from) { q++; continue; }
    for (const piece of [S.slice(from, q), ...z.slice(1)]) if (A.push(piece) === lim) return A;
    q = from = end;
  }
  A.push(S.slice(from));
  return A;
};
const scripts = JSON.parse(require("fs").readFileSync(0, "utf8"));
const results = scripts.map((text) => new Function(text + "return FindProxyForURL();")());
process.stdout.write(JSON.stringify(results));
"""


def quoted(text):
    return "'" + text.replace("\\", "\\\\").replace("\n", "\\n").replace("'", "\\'") + "'"


def made_text(chance):
    return "".join(chance.choice(UNITS) for _ in range(chance.randrange(9)))


def is_cheap(tree, groups, flags, text):
    try:
        for start in range(len(text) + 1):
            search = {"text": text, "flags": flags, "cost": 0}
            patterns.match(search, tree, groups, start)
            if search["cost"] > MOST:
                return False
    except (OverflowError, RecursionError):
        return False
    return True


def made_literal(chance, texts):
    """A pattern as a script writes it; looking for it in the texts doesn't cost much."""
    while True:
        maker = patterns.Maker(chance)
        tree = maker.body(3)
        flags = "".join(flag for flag in "gim" if chance.random() < (0.5 if flag == "g" else 0.25))
        if maker.referred <= min(maker.groups, 9) and all(is_cheap(tree, maker.groups, flags, text) for text in texts):
            return f"/{patterns.written(tree) or '(?:)'}/{flags}"


def made_call(chance, texts):
    text = quoted(chance.choice(texts))
    by = quoted("".join(chance.choice(PARTS) for _ in range(chance.randrange(4))))
    calls = [f"p.exec({text})", f"p.test({text})", f"{text}.match(p)", f"{text}.search(p)", f"{text}.replace(p, {by})"]
    return chance.choice([*calls, f"{text}.split(p)", f"{text}.split(p, {chance.choice(LIMITS)})", "p + ''"])


def made_line(chance):
    """A pattern, perhaps where it begins, and some calls with what they leave there."""
    texts = [made_text(chance) for _ in range(2)]
    begin = f"p.lastIndex = {chance.choice(BEGINS)}; " if chance.random() < 0.5 else ""
    calls = [made_call(chance, texts) for _ in range(chance.randrange(1, 4))]
    told = "".join(f"r += show({call}) + ' ' + show(p.lastIndex) + ' '; " for call in calls)
    return f"  p = {made_literal(chance, texts)}; {begin}{told}r += '\\n';\n"


def ours(program, script):
    """What the program comes to."""
    with tempfile.TemporaryDirectory() as room:
        path = os.path.join(room, "script.pac")
        with open(path, "w", encoding="ascii") as file:
            file.write(script)
        words = [program, "map", path, "http://a.example/", "--names", os.devnull, "--fuel", "1000000000"]
        found = subprocess.run(words, capture_output=True, text=True, timeout=120, check=False).stdout
    line = next((line for line in found.splitlines() if line.startswith("result ")), found)
    return line.removeprefix("result ").replace("\\u000a", "\n").replace("\\\\", "\\")


def main():
    program = os.environ.get("PAC", PROGRAM)
    if shutil.which("node") is None or not os.path.exists(program):
        print("methods: skipped, as node or the program is missing")
        return 0
    chance = random.Random(SEED)
    lines = [[made_line(chance) for _ in range(EACH)] for _ in range(SCRIPTS)]
    scripts = [HEAD + "".join(some) + "  return r;\n}\n" for some in lines]
    options = {"stdout": subprocess.PIPE, "text": True, "timeout": 120}
    theirs = subprocess.run(["node", "-e", LETTER], input=json.dumps(scripts), check=True, **options).stdout
    failures = []
    for some, script, wanted in zip(lines, scripts, json.loads(theirs), strict=True):
        told = ours(program, script).split("\n")
        for number, (line, want) in enumerate(zip(some, wanted.split("\n"))):
            came = told[number] if number < len(told) else "nothing"
            if came != want:
                failures.append(f"{line.strip()}: {came!r} in place of {want!r}")
    for failure in failures[:20]:
        print(f"checks: methods: {failure}")
    count = SCRIPTS * EACH
    print(f"checks of methods: {len(failures)} failed of {count}" if failures else f"checks of methods: {count} passed")
    return 1 if failures else 0


if __name__ == "__main__":
    sys.exit(main())
